"""What is right of a card that ran: asked of the proved programs."""

import functools
import importlib.machinery
import importlib.util
import pathlib
import shutil
import subprocess
import sys

ROOT = pathlib.Path(__file__).resolve().parents[3]
sys.path.insert(0, str(ROOT / "tools"))

from nurrispane import profiles, programs, words

NS_A_MS = 10**6
SOURCE = slice(6, 12)


def replayed(log, start=None):
    """The proved answers to a log."""
    return b"".join(line + b"\n" for line in programs.answers("replay", log, profiles.start_of(start)))


def replayed_unit(events, *start):
    """The proved answers of a station clock unit."""
    programs.ready("replay_unit")
    call = [str(ROOT / "tools" / "program"), "replay_unit", *map(str, start)]
    return subprocess.run(call, input=events, capture_output=True, check=True).stdout


def outgoing(log, start=None):
    """After each line: its time and the sixteen codes that go out."""
    codes = programs.answers("outgoing", log, profiles.start_of(start))
    times = [words.event_of(line).time for line in log.splitlines()]
    return list(zip(times, [[int(code, 16) for code in line.decode()] for line in codes]))


@functools.cache
def proved_frames():
    """The sixty octets of each code, without and with the event flag, as the proved writer has them."""
    programs.ready("our_frames")
    run = subprocess.run([str(ROOT / "tools" / "program"), "our_frames"], capture_output=True, check=True)
    frames = [bytes.fromhex(line) for line in run.stdout.decode().split()]
    return {(code, event): frames[16 * event + code] for event in (0, 1) for code in range(16)}


def octets(code, event, source):
    frame = bytearray(proved_frames()[code, event])
    frame[SOURCE] = source
    return bytes(frame)


def wrong_octets(frames):
    """Frames of one port that are not as the proved writer has them; the flag is set exactly where the code changes."""
    wrong, last = [], None
    for one in frames:
        code = one.octets[27] & 15 if len(one.octets) > 27 else 0
        right = octets(code, int(last not in (None, code)), one.octets[SOURCE])
        if one.octets != right:
            wrong.append("port %d: %s is not %s" % (one.port, one.octets.hex(), right.hex()))
        last = code
    return wrong


def wrong_codes(frames, port, log, zero, tolerance, start=None):
    """Where a port's last frame tells, for longer than the tolerance in ms, another code than the proved one.

    `frames` are that port's; a change may wait while ten frames are younger than a second."""
    steps = outgoing(log, start)
    sent = [((one.at - zero) / NS_A_MS, one.octets[27] & 15) for one in frames if one.at >= zero]
    wrong = []
    for place, (time, code) in enumerate(sent):
        allowed = codes_between(steps, port, time - tolerance, time + 1)
        if code not in allowed:
            wrong.append("port %d at %.1f ms tells %d, right is %s" % (port, time, code, sorted(allowed)))
        until = sent[place + 1][0] if place + 1 < len(sent) else time
        late = late_change(steps, port, code, time, until, tolerance)
        if late and not (place >= 9 and until - sent[place - 9][0] < 1000 + tolerance):
            wrong.append("port %d tells %d until %.1f ms: %s" % (port, code, until, late))
    return wrong


def codes_between(steps, port, least, most):
    """The right codes at some time of a stretch."""
    before = [codes[port] for time, codes in steps if time <= least]
    return {*before[-1:], *(codes[port] for time, codes in steps if least < time <= most)} or {15, 11, 10}


def late_change(steps, port, code, start, end, tolerance):
    """A change that stood for longer than the tolerance and was not told between two frames."""
    differs = None
    for time, codes in [*steps, (end, None)]:
        if time > end:
            time = end
        if differs is not None and (codes is None or codes[port] == code) and time - max(differs, start) > tolerance:
            return "other since %.1f" % max(differs, start)
        if codes is None or time >= end:
            if differs is not None and end - max(differs, start) > tolerance:
                return "other since %.1f" % max(differs, start)
            return None
        differs = None if codes[port] == code else (time if differs is None else differs)
    return None


def longest_gap(frames):
    """The longest time between two frames of a port, ms."""
    times = [one.at for one in frames]
    return max(((late - early) / NS_A_MS for early, late in zip(times, times[1:])), default=0)


@functools.cache
def dissector():
    """tests/programs/dissect-heartbeats as a module: what tshark has to say of our frames."""
    loader = importlib.machinery.SourceFileLoader("dissect_heartbeats", str(ROOT / "tests" / "programs" / "dissect-heartbeats"))
    module = importlib.util.module_from_spec(importlib.util.spec_from_loader(loader.name, loader))
    loader.exec_module(module)
    return module


def wrongly_dissected(frames, zero, late):
    """Where tshark reads frames otherwise than they should be; says so where it is not there.

    A frame may come so many ms late and the next one in time, so eleven may stand closer on the wire by as much."""
    if not shutil.which("tshark"):
        print("tshark is not installed: frames are not dissected")
        return []
    questions = [(one.port, int((one.at - zero) / NS_A_MS), one.octets[SOURCE].hex()) for one in frames]
    window = dissector().WINDOW - late
    return list(dissector().wrong(questions, [one.octets for one in frames], window))
