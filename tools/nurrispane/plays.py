"""A sequence played to a card: frames at their milliseconds, commands through the hook, all that passes recorded."""

import os
import platform
import queue
import re
import sys
import threading
import time

from nurrispane import captures, durations, hooks, records, stalls, wires, words
from nurrispane.files import ROOT, Trouble, plain, read_text, reason

NS_A_MS = 10**6
# How long the card is heard before `fresh`, so that it is known what it told before, ms: a heartbeat and a little.
LISTEN = 1_100
# How long it is heard after the last event, ms: a heartbeat and a half.
AFTER = 1_500
# A wait is cut into pieces, seconds: for the line of progress.
NAP = 0.5
LARGEST_PORT = 15
# A line of progress: what clears it, and its width.
CLEAR, WIDTH = "\r\x1b[K", 78


def ports_of(mapped):
    """Port and interface of each word of --map."""
    found = {}
    for each in mapped:
        told = re.fullmatch("([0-9]{1,2})=([^ /]{1,15})", each)
        if not told or int(told.group(1)) > LARGEST_PORT:
            raise Trouble(f"--map is PORT=INTERFACE, as 4=eth1, the port from 0 to 15, not {ascii(each)}")
        if int(told.group(1)) in found or told.group(2) in found.values():
            raise Trouble(f"--map names port {told.group(1)} or interface {told.group(2)} twice")
        found[int(told.group(1))] = told.group(2)
    return dict(sorted(found.items()))


# Below what a card under test on the same machine has.
PRIORITY = 5


def take_real_time():
    """Real-time priority for the bench: what is sent is not held up between the kernel's time of it and the wire."""
    try:
        os.sched_setscheduler(0, os.SCHED_FIFO | os.SCHED_RESET_ON_FORK, os.sched_param(PRIORITY))
    except OSError as error:
        raise Trouble(f"no real-time priority: {reason(error)} (CAP_SYS_NICE is missing)") from error


def has_real_time():
    """Whether this thread has it; those that it starts have not."""
    return os.sched_getscheduler(0) & ~os.SCHED_RESET_ON_FORK == os.SCHED_FIFO


class Progress:
    """A line on standard error that says how far it is: at a terminal, or not at all."""

    def __init__(self, whole, quiet=False):
        # the system's own stream: what is written elsewhere has its controls taken out
        self.whole, self.stream = whole, sys.__stderr__
        self.shown = self.stream is not None and self.stream.isatty() and not quiet

    def tell(self, done, what):
        left = durations.in_words(max(self.whole - done, 0))
        self.show(f"{durations.in_words(done)} of {durations.in_words(self.whole)}, {left} left: {plain(what)}"[:WIDTH])

    def end(self):
        self.show("")

    def show(self, text):
        if self.shown:
            self.stream.write(CLEAR + text)
            self.stream.flush()


class Giver(threading.Thread):
    """Gives commands to the card one after the other, beside the frames."""

    def __init__(self, card, commands):
        super().__init__(daemon=True)
        self.card, self.commands, self.queue, self.trouble = card, commands, queue.Queue(), None
        self.real_time = has_real_time()

    def run(self):
        try:
            if self.real_time:
                take_real_time()
            while (said := self.queue.get()) is not None:
                self.commands.append(self.card.say(said))
        except Trouble as trouble:
            self.trouble = trouble

    def give(self, said):
        self.queue.put(said)

    def end(self):
        """Waits until all commands are answered."""
        self.queue.put(None)
        while self.is_alive():
            self.join(NAP)
        if self.trouble:
            raise self.trouble


class Play:
    """One sequence, read from a file in words, and its plan: what is done when."""

    def __init__(self, path, ports, start=(), after=AFTER):
        self.path, self.ports, self.start = path, ports, start
        log = words.one_log(read_text(path), path)
        self.shows, self.option = log.shows, log.option
        self.plan = [(event, words.line_in_words(line.data).split(" ", 1)[1])
                     for line in log.lines if (event := words.event_of(line.data)) and event.kind != words.BY_WORD["tick"].number]
        missing = sorted({event.input for event, _ in self.plan if event.kind == words.FRAME_KIND} - set(ports))
        if missing:
            raise Trouble(f"{path}: it has frames for inputs that have no interface in --map: {', '.join(map(str, missing))}")
        last = max((event.time for event, _ in self.plan), default=0)
        self.after = after
        self.length = max(last, max((words.event_of(line.data).time for line in log.lines), default=0)) + after
        self.commands, self.given = [], 0

    def to(self, card, out, progress, done=0):
        """Plays it to a card through its hook, and writes the record also where it is stopped."""
        recorder, players = wires.Recorder(self.ports), wires.Players(self.ports)
        watch = stalls.Watch() if has_real_time() else None
        recorder.start()
        stopped, self.done = None, done
        try:
            self.listen(recorder)
            self.perform(card, players, progress)
        except KeyboardInterrupt:
            stopped = "by the operator"
        except Trouble as trouble:
            stopped = str(trouble)
        recorder.end()
        progress.end()
        players.close()
        self.write(out, recorder, card, stopped, watch.end() if watch else [])
        if stopped:
            raise Trouble(f"stopped: {stopped}; {out} can be judged up to there")

    def listen(self, recorder):
        """Until each port was heard, or long enough."""
        until = time.monotonic() + LISTEN / 1000
        while time.monotonic() < until and {one.port for one in list(recorder.found)} < set(self.ports):
            time.sleep(0.02)

    def perform(self, card, players, progress):
        """The setup first, at the hook's pace; from the first frame on frames go out at their times, whatever the hook takes."""
        fresh = card.say(hooks.FRESH)
        self.commands.append(fresh)
        if fresh.reply != hooks.OK:
            raise Trouble(f"the hook cannot make the card fresh: {fresh.reply} {fresh.told}".rstrip())
        frames = [place for place, (event, _) in enumerate(self.plan) if event.kind == words.FRAME_KIND] or [len(self.plan)]
        for event, said in self.plan[:frames[0]]:
            self.wait(fresh.last + event.time * NS_A_MS, fresh.last, progress)
            self.commands.append(card.say(said))
        rest = self.plan[frames[0]:]
        zero = max(fresh.last, time.monotonic_ns() - rest[0][0].time * NS_A_MS) if rest else fresh.last
        giver = Giver(card, self.commands)
        giver.start()
        for event, said in rest:
            self.wait(zero + event.time * NS_A_MS, zero, progress, giver)
            if event.kind == words.FRAME_KIND:
                players.play(event.input, event.octets)
                # what is no ESMC is no event for anyone, and is not counted on the wire either
                self.given += captures.is_esmc(event.octets)
            else:
                giver.give(said)
        giver.end()
        self.wait(max(zero + self.length * NS_A_MS, self.commands[-1].last + self.after * NS_A_MS), zero, progress, giver)

    def wait(self, until, zero, progress, giver=None):
        while (left := until - time.monotonic_ns()) > 0:
            if giver and giver.trouble:
                raise giver.trouble
            progress.tell(self.done + (time.monotonic_ns() - zero) / NS_A_MS, self.path.stem)
            time.sleep(min(left / 1e9, NAP))

    def write(self, out, recorder, card, stopped, stood):
        clock = records.Clock(recorder.offsets)
        stood = [(clock.real(first), clock.real(last)) for first, last in stood]
        commands = [(clock.real(one.first), clock.real(one.last), one.words, one.reply, one.told) for one in self.commands]
        if recorder.failed:
            stopped = f"the wire cannot be read: {recorder.failed}"
        about = {
            "sequence": self.path.stem, "shows": self.shows, "option": self.option, "start": " ".join(self.start) or "-",
            "interfaces": " ".join(f"{port}={name}" for port, name in self.ports.items()), "hook": card.call,
            "frames-given": self.given, "dropped": sum(recorder.dropped.values()),
            "clock-step-ns": clock.step(), "clock-slew-ns": clock.offsets[-1] - clock.offsets[0],
            "ended": records.seconds(clock.real(recorder.offsets[-1][0])), **versions(),
        }
        about |= {"stopped": stopped} if stopped else {}
        records.write(out, self.ports, recorder.found, recorder.dropped, commands, about, stood)


def versions():
    """What a record was made with."""
    toolchain = ROOT / ".ci" / "toolchain"
    return {"toolchain": read_text(toolchain).strip() if toolchain.exists() else "-", "python": platform.python_version(),
            "system": f"{platform.system()} {platform.release()} {platform.machine()}"}
