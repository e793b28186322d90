"""Puts a capture of the bench into an event log.

FILE is a pcap or pcapng capture of Ethernet frames. Its ESMC frames, sound or damaged, become
frame events in the order of their times, byte for byte: an event's time is that since the
capture's first frame, of whatever protocol, in whole milliseconds; with --first the log's first frame
gets that time. VLAN-tagged, short and oversized frames are kept as they are; replay refuses them
with document 01's number. --map says which input a frame is heard
on, by the sender's address or by the interface of the capture (its name, or its number from 0; in a cooked
capture of version 2 also index-N, N as `ip link` has it). A cooked capture (interface "any") lacks each frame's
destination, and in version 2 VLAN tags: ESMC's destination is put in, and it says so.
The card is of option I; of option II where --setup has a line "option 2", or with --option 2.
Where the capture's clock was set back, the order of the file is kept and time goes on from there; --clock times
takes the times as they are. What is left out is counted on standard error, and why. Exit status 1: frames of a mapped
input are missing in the log, since the capture cut them short, gave them no time or says that it dropped some; the
clock was set back, and --clock doesn't say what to do; something in --map has no frame; or the log has none at all."""

import collections
import re
import sys

from nurrispane import captures, words
from nurrispane.files import FINDING, FINE, Trouble, name_of, read_text, write

SUMMARY = "a capture of the bench as an event log"
EXAMPLES = [
    "./nurrispane capture examples/bench.pcapng --map 02:00:00:00:00:03=3 east=4 --setup examples/bench-setup.words",
    "./nurrispane capture examples/bench.pcapng --map east=4 --tick 1000 --until 9000 --list",
]

OTHER, UNMAPPED, CUT, NO_TIME, NOT_ETHERNET, NOT_CARRIED = (
    "another protocol",
    "no input mapped",
    "cut short by the capture",
    "no time in the capture",
    "not captured as Ethernet",
    "cooked, and sent to no group",
)
LARGEST_FRAME = 1_514
LAST_INPUT = 15
# in ns
MILLISECOND, SECOND = 10**6, 10**9
# How much one interface's time may go back without its clock having been set: frames are written a little out of order.
DISORDER = 10 * MILLISECOND
# A longer time without a frame is told, in case the clock was set forward.
LONG_SILENCE = 60 * SECOND
# So many addresses of a capture are told.
MOST_ADDRESSES = 16
LINKS = {captures.ETHERNET: "Ethernet", captures.COOKED_1: "cooked, version 1", captures.COOKED_2: "cooked, version 2"}


def arguments(parser):
    parser.add_argument("file", help="a pcap or pcapng file, plain or packed by gzip")
    parser.add_argument(
        "--map", nargs="+", action="extend", default=[], metavar="KEY=INPUT", help="ADDRESS=INPUT or INTERFACE=INPUT"
    )
    parser.add_argument("--option", type=int, choices=words.OPTIONS, help="the card's option; else that of the words")
    parser.add_argument("--setup", metavar="WORDS", help="settings and commands in words, put in by their times")
    parser.add_argument("--tick", type=positive, metavar="MS", help="put in a tick each MS milliseconds")
    parser.add_argument("--until", type=whole, metavar="MS", help="ticks go on up to this time")
    parser.add_argument("--first", type=whole, metavar="MS", help="the time of the log's first frame")
    parser.add_argument("--clock", choices=["file", "times"], help="where the clock was set back: file, the order of the file, and time goes "
                        "on from there; times, the times as they are, in their order")
    parser.add_argument("--all", action="store_true", help="frames of other protocols too, as a card may be handed them")
    parser.add_argument("--list", action="store_true", help="tell each frame that is left out")
    parser.add_argument("--out", metavar="LOG", help="write to LOG, whole or not at all")


def whole(text):
    if not re.fullmatch("[0-9]{1,15}", text):
        raise ValueError
    return int(text)


def positive(text):
    if whole(text) == 0:
        raise ValueError
    return whole(text)


def read_map(pairs):
    """Inputs by address (twelve digits) and by interface (name or number)."""
    addresses, interfaces = {}, {}
    for pair in pairs:
        key, equals, number = pair.rpartition("=")
        if not key or not equals or not re.fullmatch("[0-9]{1,2}", number) or int(number) > LAST_INPUT:
            raise Trouble("--map takes KEY=INPUT, an input from 0 to %d: %s" % (LAST_INPUT, pair))
        address = re.fullmatch("[0-9a-fA-F]{2}([:-][0-9a-fA-F]{2}){5}", key)
        where = addresses if address else interfaces
        key = re.sub("[:-]", "", key).lower() if address else key
        if where.setdefault(key, int(number)) != int(number):
            raise Trouble("--map gives %s two inputs" % key)
    return addresses, interfaces


def with_colons(address):
    return ":".join(re.findall("..", address))


def keys_of(frame):
    """What --map may call the interface of a frame."""
    index = [] if frame.index is None else [f"index-{frame.index}"]
    return [*index, frame.interface.name, f"{frame.interface.number}"]


def input_of(frame, addresses, interfaces):
    """The input that a frame is heard on, or None."""
    by_interface = next((interfaces[key] for key in keys_of(frame) if key in interfaces), None)
    by_address = addresses.get(frame.octets[6:12].hex())
    if None not in (by_interface, by_address) and by_interface != by_address:
        raise Trouble("frame %d: its address is mapped to %d, its interface to %d" % (frame.number, by_address, by_interface))
    return by_interface if by_address is None else by_address


def left_out(frame, number, take_all):
    """Why a frame is left out, or None."""
    if frame.link not in LINKS:
        return NOT_ETHERNET
    if frame.link != captures.ETHERNET and not frame.octets:
        return NOT_CARRIED
    if not take_all and not captures.is_esmc(frame.octets):
        return OTHER
    if number is None:
        return UNMAPPED
    if len(frame.octets) < frame.length:
        return CUT
    return NO_TIME if frame.time is None else None


class Clock:
    """The capture's clock as its frames come in the file: what is added to a frame's time, and where it went back or far ahead."""

    def __init__(self, chosen):
        self.chosen, self.added, self.latest, self.first = chosen, 0, None, None
        self.own, self.back, self.ahead = {}, [], []

    def time_of(self, frame):
        """The frame's time in ns, on a clock that is never set back unless `times` is chosen."""
        before = self.own.get(frame.interface.number)
        if before is not None and frame.time < before - DISORDER:
            self.back.append((frame.number, before - frame.time))
            self.own = {}
            if self.chosen != "times":
                self.added = self.latest - frame.time
        self.own[frame.interface.number] = max(frame.time, self.own.get(frame.interface.number, frame.time))
        time = frame.time + self.added
        if self.latest is not None and time - self.latest > LONG_SILENCE:
            self.ahead.append((frame.number, time - self.latest))
        self.latest = time if self.latest is None else max(self.latest, time)
        self.first = time if self.first is None else min(self.first, time)
        return time

    def told(self):
        """What is said of it."""
        for number, by in self.back:
            done = "the times are taken as they are" if self.chosen == "times" else "the order of the file is kept, and time goes on from there"
            yield f"the clock was set back by {by / SECOND:,.3f} s at frame {number}: {done}"
        if self.back and self.chosen is None:
            yield "--clock file says that this is meant, --clock times takes the times as they are"
        for number, by in self.ahead:
            yield f"frame {number} comes {by / SECOND:,.3f} s after those before it: a silence, or the clock was set forward"


class Content:
    """What is in a capture: frames and ESMC frames of each interface, and of each sender's address."""

    def __init__(self, take_all):
        self.frames, self.esmc, self.addresses = collections.Counter(), collections.Counter(), collections.Counter()
        # what --map may name of the frames that it may take
        self.take_all, self.heard = take_all, set()

    def take(self, frame):
        where, address = (frame.interface.number, frame.index), frame.octets[6:12].hex()
        is_esmc = frame.link in LINKS and captures.is_esmc(frame.octets)
        self.frames[where] += 1
        if is_esmc:
            self.esmc[where] += 1
            self.addresses[address] += 1
        if is_esmc or self.take_all:
            self.heard.update([address, *keys_of(frame)])

    def told(self, interfaces):
        """The lines that say what there is to map."""
        for it in interfaces:
            link = LINKS.get(it.link, f"link type {it.link}")
            for number, index in sorted(self.frames, key=str):
                if number == it.number:
                    name = "" if it.name is None else f" ({it.name})"
                    name += "" if index is None else f", index-{index}"
                    counts = f"{self.frames[number, index]} frames, {self.esmc[number, index]} of ESMC"
                    yield f"in the file: interface {number}{name}, {link}: {counts}"
        for address, count in self.addresses.most_common(MOST_ADDRESSES):
            yield f"in the file: {with_colons(address)} sent {count} of ESMC"
        if len(self.addresses) > MOST_ADDRESSES:
            yield f"in the file: {len(self.addresses) - MOST_ADDRESSES} further addresses sent ESMC"


def setup_lines(path, log):
    """Time and line of each event of a log in words; their times don't go back."""
    lines, latest = [], 0
    for line in log.lines:
        event = words.event_of(line.data)
        if event is None:
            raise Trouble("%s:%d:1: an event with a time is needed here" % (name_of(path), line.place))
        if event.time < latest:
            raise Trouble("%s:%d:1: %d comes after %d" % (name_of(path), line.place, event.time, latest))
        latest = event.time
        lines.append((event.time, line.data))
    return lines


def ticks(step, last, option):
    """A tick each `step` milliseconds up to the last time."""
    return [(time, words.event_line(words.BY_WORD["tick"].number, time, 0, 0, option=option)) for time in range(step, last + 1, step)]


class Taken:
    """What a capture gives: time, input and octets of each frame that is taken, and of the others how many for what reason."""

    def __init__(self, options):
        self.addresses, self.interfaces = read_map(options.map)
        self.options, self.capture = options, captures.Capture(options.file)
        self.clock, self.content = Clock(options.clock), Content(options.all)
        self.events, self.reasons, self.first, self.links = [], collections.Counter(), {}, collections.Counter()
        for frame in self.capture.frames():
            self.take(frame)

    def take(self, frame):
        self.content.take(frame)
        time = None if frame.time is None else self.clock.time_of(frame)
        number = input_of(frame, self.addresses, self.interfaces)
        why = left_out(frame, number, self.options.all)
        if why is None:
            self.events.append((time, number, frame.octets))
            self.links[frame.link] += 1
            return
        self.reasons[why] += 1
        self.first.setdefault(why, frame.number)
        if self.options.list:
            sys.stderr.write("capture: frame %d left out: %s\n" % (frame.number, why))

    def in_time(self):
        """Time in ms, input and octets of what is taken, in the order of the times."""
        events = sorted(self.events, key=lambda event: event[0])
        zero = self.clock.first
        if self.options.first is not None and events:
            zero = events[0][0] - self.options.first * MILLISECOND
        return [((time - zero) // MILLISECOND, number, octets) for time, number, octets in events]

    def unheard(self):
        """What --map names and no ESMC frame has."""
        unheard = [key for key in [*self.addresses, *self.interfaces] if key not in self.content.heard]
        return [with_colons(key) if key in self.addresses else key for key in unheard]


def run(options):
    if options.until is not None and options.tick is None:
        raise Trouble("--until says how far ticks go, and there are none without --tick")
    taken = Taken(options)
    keys = {key for it in taken.capture.interfaces for key in (it.name, "%d" % it.number)}
    unused = sorted(key for key in taken.interfaces if key not in keys and not key.startswith("index-"))
    if unused:
        raise Trouble("the capture has no interface %s" % ", ".join(unused))
    write(options.out, log_of(options, taken.in_time()))
    return report(taken)


def log_of(options, events):
    """The log: in each millisecond settings, then frames, then a tick."""
    setup = words.one_log(read_text(options.setup), name_of(options.setup)) if options.setup else words.Log(None, 1, options.option or 1)
    if options.option not in (None, setup.option):
        raise Trouble("%s is of option %d, not %d" % (name_of(options.setup), setup.option, options.option))
    lines = setup_lines(options.setup, setup)
    lines += [(time, words.event_line(words.FRAME_KIND, time, number, 0, octets, setup.option)) for time, number, octets in events]
    last = max([time for time, _ in lines] + [options.until or 0], default=0)
    if last >= words.TIME_LIMIT:
        raise Trouble("a time of %d ms is more than a log can carry" % last)
    if options.tick:
        lines += ticks(options.tick, last, setup.option)
    return b"".join(line + b"\n" for _, line in sorted(lines, key=lambda line: line[0]))


def report(taken):
    """Tells what was taken and what was left out; a finding where the log lacks what an input heard, or is not to be believed."""
    say = lambda text: sys.stderr.write(f"capture: {text}\n")
    reasons, capture = taken.reasons, taken.capture
    say("%d frames: %d in the log, %d left out" % (capture.frames_read, len(taken.events), sum(reasons.values())))
    for why in (OTHER, UNMAPPED, CUT, NO_TIME, NOT_ETHERNET, NOT_CARRIED):
        if reasons[why]:
            say("%d left out: %s (the first is frame %d)" % (reasons[why], why, taken.first[why]))
    oversized = sum(1 for _, _, octets in taken.events if len(octets) > LARGEST_FRAME)
    if oversized:
        say("%d of more than %d octets: too long for a line, replay refuses it with 1" % (oversized, LARGEST_FRAME))
    cooked = len(taken.events) - taken.links[captures.ETHERNET]
    if cooked:
        say(f"{cooked} were captured cooked, without their destination: ESMC's is put in, and a wrong one doesn't show")
    if taken.links[captures.COOKED_2]:
        say(f"{taken.links[captures.COOKED_2]} of these in version 2, in which tcpdump leaves VLAN tags out: a tag doesn't show")
    if capture.dropped:
        say("the capture says that it dropped %d frames" % capture.dropped)
    for text in [*taken.clock.told(), *nothing_heard(taken)]:
        say(text)
    doubtful = taken.clock.back and taken.options.clock is None
    lacking = reasons[CUT] or reasons[NO_TIME] or capture.dropped or taken.unheard() or not taken.events
    return FINDING if doubtful or lacking else FINE


def nothing_heard(taken):
    """What --map doesn't reach, and then what is in the file."""
    unheard = taken.unheard()
    if not taken.options.map:
        yield "without --map no frame has an input"
    elif unheard:
        yield f"no frame of ESMC in the file has {', '.join(unheard)}"
    if unheard or not taken.events:
        yield from taken.content.told(taken.capture.interfaces)
