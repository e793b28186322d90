"""A record of a wire: what a bench played and what a card sent, by the kernel's times, and which commands were given.

A RECORD is a directory: `wire.pcapng` has every frame of both directions, an interface a port, named `port-04`; `commands.times`
a line for each command, `FIRST LAST WORDS | REPLY`, when it was given and when answered, in seconds as the capture has them;
`stalls.times` when the bench's own machine stood still, `FIRST LAST`; `about.txt` what else is known. A capture that others made is read too, with such a file of commands."""

import bisect
import collections
import pathlib
import re
import struct

from nurrispane import captures, hooks, stalls, words
from nurrispane.files import Trouble, name_of, plain, read_text, whole_directory

CAPTURE, COMMANDS, STALLS, ABOUT = "wire.pcapng", "commands.times", "stalls.times", "about.txt"
NANO, NS_A_MS = 10**9, 10**6
OUTBOUND, INBOUND = 2, 1

# What was played or commanded, from when it may have happened to when it had; and a frame that the card sent. Times are ns.
Played = collections.namedtuple("Played", "first last words octets port reply told")
Sent = collections.namedtuple("Sent", "at octets")


class Part:
    """A record from one `fresh` to the next; times are ns from when it was answered, and `given` when it was given."""

    def __init__(self, ports, given):
        self.ports, self.given, self.played, self.end = ports, given, [], 0
        self.sent = {port: [] for port in ports}
        self.before = {port: None for port in ports}
        self.stalls = stalls.Stalls()

    def slack(self):
        """W: the longest that a command took, in whole ms."""
        return max((-(-(one.last - one.first) // NS_A_MS) for one in self.played if one.words), default=0)

    def last(self):
        """The last millisecond that is recorded."""
        return self.end // NS_A_MS


# ---- writing


def block(kind, body):
    body += bytes(-len(body) % 4)
    return struct.pack("<II", kind, len(body) + 12) + body + struct.pack("<I", len(body) + 12)


def option(code, value):
    return struct.pack("<HH", code, len(value)) + value + bytes(-len(value) % 4)


def pcapng(ports, passed, dropped):
    """A capture with an interface for each port, directions, times in ns, and what was dropped."""
    made = [block(0x0A0D0D0A, struct.pack("<IHHq", 0x1A2B3C4D, 1, 0, -1))]
    places = {port: place for place, port in enumerate(ports)}
    for port, interface in ports.items():
        told = option(2, b"port-%02d" % port) + option(3, interface.encode()) + option(9, b"\x09") + option(0, b"")
        made.append(block(1, struct.pack("<HHI", captures.ETHERNET, 0, 0) + told))
    for one in passed:
        head = struct.pack("<IIIII", places[one.port], one.at >> 32, one.at & 0xFFFFFFFF, len(one.octets), len(one.octets))
        way = option(2, struct.pack("<I", OUTBOUND if one.played else INBOUND)) + option(0, b"")
        made.append(block(6, head + one.octets + bytes(-len(one.octets) % 4) + way))
    last = passed[-1].at if passed else 0
    for port in ports:
        lost = option(7, struct.pack("<Q", dropped.get(port, 0))) + option(0, b"")
        made.append(block(5, struct.pack("<III", places[port], last >> 32, last & 0xFFFFFFFF) + lost))
    return b"".join(made)


def seconds(ns):
    return f"{ns // NANO}.{ns % NANO:09d}"


def command_line(first, last, said, reply, told):
    """A line of commands.times."""
    return f"{seconds(first)} {seconds(last)} {said} | {plain(reply + ' ' + told).strip()}\n"


def write(path, ports, passed, dropped, commands, about, stood=()):
    """Writes a record whole or not at all; commands and stalls have the capture's times."""
    with whole_directory(path) as directory:
        (directory / CAPTURE).write_bytes(pcapng(ports, passed, dropped))
        head = "# when given and when answered, in seconds; the command; the hook's reply\n"
        (directory / COMMANDS).write_text(head + "".join(command_line(*one) for one in commands))
        if stood:
            (directory / STALLS).write_text("".join(f"{seconds(first)} {seconds(last)}\n" for first, last in stood))
        (directory / ABOUT).write_text("".join(f"{name}: {plain(str(value))}\n" for name, value in about.items()))


# ---- reading


class Directed(captures.Capture):
    """A capture that also says of each frame which way it went, where the file does: True for played."""

    def __init__(self, path):
        super().__init__(path)
        self.ways = {}

    def packet(self, order, body, here):
        frame = super().packet(order, body, here)
        captured = struct.unpack_from(order + "I", body, 12)[0]
        for code, value in captures.options(order, body[20 + captures.padded(captured):]):
            if code == 2 and (way := struct.unpack_from(order + "I", value)[0] & 3):
                self.ways[frame.number] = way == OUTBOUND
        return frame


COMMAND = re.compile(r"([0-9]+(?:\.[0-9]{1,9})?)(?: ([0-9]+(?:\.[0-9]{1,9})?))? ([a-z][^|]*?)(?: *\| *(\S+) ?(.*))?")


def nanoseconds(text):
    whole, _, part = text.partition(".")
    return int(whole) * NANO + int(part.ljust(9, "0") or "0")


def read_commands(path):
    """The commands of a file, in the order of their times."""
    found = []
    for place, line in enumerate(read_text(path).splitlines(), 1):
        if not (line := line.split("#")[0].strip()):
            continue
        told = COMMAND.fullmatch(line)
        if not told:
            raise Trouble(f"{name_of(path)}:{place}: a line is FIRST LAST WORDS | REPLY, times in seconds")
        first, last, said, reply, rest = told.groups()
        reply = (reply or hooks.OK).rstrip(":")
        if reply not in hooks.REPLIES or last and nanoseconds(last) < nanoseconds(first):
            raise Trouble(f"{name_of(path)}:{place}: a reply is ok, refused TEXT or cannot, and comes after the command")
        found.append(Played(nanoseconds(first), nanoseconds(last or first), said, None, None, reply, rest or ""))
    return sorted(found, key=lambda one: one.first)


def read_about(path):
    return dict(line.split(": ", 1) for line in read_text(path).splitlines() if ": " in line)


class Record:
    """A record as it is judged: its parts, and what is known of it."""

    def __init__(self, parts, about, counts):
        self.parts, self.about, self.counts = parts, about, counts

    def number(self, name):
        return int(self.about.get(name, 0))

    def option(self):
        return self.number("option") or 1

    def start(self):
        """START as the card was started, for the proved programs."""
        said = self.about.get("start", "-")
        return () if said == "-" else tuple(said.split())


def ports_by_interface(capture, mapped):
    """Which port an interface of the file is: by --map, otherwise by its name, as port-04."""
    found = {}
    for one in capture.interfaces:
        named = re.fullmatch("port-([0-9]{2})", one.name or "")
        if mapped and one.name in mapped.values():
            found[one.number] = next(port for port, name in mapped.items() if name == one.name)
        elif named and not mapped:
            found[one.number] = int(named.group(1))
    return found


def read(path, mapped=None, commands=None, bench=()):
    """A record; of a capture that others made with `mapped` ports, a file of commands and the addresses that the bench has."""
    path = pathlib.Path(path)
    about = read_about(path / ABOUT) if path.is_dir() else {}
    capture = Directed(path / CAPTURE if path.is_dir() else path)
    frames = list(capture.frames())
    ports = ports_by_interface(capture, mapped)
    if not ports:
        raise Trouble(f"{name_of(path)}: no interface is a port; --map 4=NAME says which ({interfaces_in(capture)})")
    given = read_commands(path / COMMANDS if path.is_dir() else commands)
    if not any(one.words == hooks.FRESH for one in given):
        raise Trouble("no command is `fresh`: nobody knows what the card knew before")
    counts = collections.Counter(dropped=capture.dropped)
    played, sent = sorted_out(frames, ports, capture.ways, bench, counts)
    parts = parts_of(sorted(set(ports.values())), given, played, sent, end_of(about, frames, given))
    stood = stalls.Stalls(read_stalls(path / STALLS))
    for part, fresh in zip(parts, [one for one in given if one.words == hooks.FRESH]):
        part.stalls = stood.since(fresh.last)
    return Record(parts, about, counts)


def read_stalls(path):
    """When the bench stood still; nothing where nobody watched."""
    if not path.exists():
        return []
    return [tuple(map(nanoseconds, line.split())) for line in read_text(path).splitlines() if re.fullmatch(r"[0-9.]+ [0-9.]+", line)]


def interfaces_in(capture):
    return "in the file: " + (", ".join(one.name or f"interface {one.number}" for one in capture.interfaces) or "none")


def end_of(about, frames, given):
    """When the recording ended, by its own word or by the last thing in it."""
    if "ended" in about:
        return nanoseconds(about["ended"])
    return max([frame.time for frame in frames if frame.time] + [one.last for one in given])


def sorted_out(frames, ports, ways, bench, counts):
    """Frames that the bench played and those of the card; what is neither is counted."""
    played, sent, latest = [], [], {}
    for frame in frames:
        port = ports.get(frame.interface.number)
        if port is None or frame.time is None or len(frame.octets) < frame.length:
            counts["unusable" if port is not None else "unmapped"] += 1
            continue
        counts["back"] += latest.get(port, 0) > frame.time + NS_A_MS
        latest[port] = max(latest.get(port, 0), frame.time)
        if not captures.is_esmc(frame.octets) or len(frame.octets) > LARGEST_FRAME:
            counts["foreign"] += 1
        elif ways.get(frame.number, frame.octets[6:12] in bench):
            played.append(Played(frame.time, frame.time, None, frame.octets, port, None, ""))
        else:
            sent.append((port, Sent(frame.time, frame.octets)))
    counts["played"], counts["sent"] = len(played), len(sent)
    return played, sorted(sent, key=lambda one: one[1].at)


LARGEST_FRAME = 1_514


def parts_of(ports, given, played, sent, end):
    """A part for each `fresh`, up to the next."""
    starts = [one for one in given if one.words == hooks.FRESH]
    found = []
    for fresh, after in zip(starts, [*starts[1:], None]):
        zero, until = fresh.last, after.first if after else end
        part = Part(ports, fresh.first - zero)
        part.end = max(until - zero, 0)
        here = [one for one in [*given, *played] if fresh.last <= one.first < until or one.first == until == end]
        part.played = sorted((moved(one, zero) for one in here if one.words != hooks.FRESH), key=lambda one: one.first)
        for port, one in sent:
            if one.at < fresh.first:
                part.before[port] = Sent(one.at - zero, one.octets)
            elif one.at <= until:
                part.sent[port].append(Sent(one.at - zero, one.octets))
        found.append(part)
    return found


def moved(one, zero):
    return one._replace(first=one.first - zero, last=one.last - zero)


# ---- the log of what was played


def line_of(one, ms, option_number):
    """The log's line for what was played, at a time."""
    if one.words is not None:
        said = [words.Word(each.group(), each.start() + 1) for each in re.finditer(r"\S+", f"{ms} {one.words}")]
        try:
            return words.line_of_words(said, option_number)
        except words.Wrong as wrong:
            raise Trouble(f"command \"{one.words}\": {wrong.args[1]}") from wrong
    return words.event_line(words.FRAME_KIND, ms, one.port, 0, one.octets, option_number)


def log_of(part, option_number, shift=None):
    """Time and line of all that was played but what the console cannot do; `shift` is a place and the ns it is moved to."""
    timed, latest = [], 0
    order = [(shift[1] if shift and place == shift[0] else one.first, place) for place, one in enumerate(part.played)]
    for at, place in sorted(order):
        if part.played[place].reply != hooks.CANNOT:
            latest = max(latest, at // NS_A_MS, 0)
            timed.append((latest, line_of(part.played[place], latest, option_number)))
    return timed


class Clock:
    """CLOCK_REALTIME of a time of CLOCK_MONOTONIC, by the reading just before it."""

    def __init__(self, readings):
        self.times, self.offsets = [one[0] for one in readings], [one[1] for one in readings]

    def real(self, monotonic):
        return monotonic + self.offsets[max(bisect.bisect_right(self.times, monotonic) - 1, 0)]

    def step(self):
        """The most that one reading differs from the next, in ns."""
        return max((abs(late - early) for early, late in zip(self.offsets, self.offsets[1:])), default=0)
