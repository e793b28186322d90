"""Sequences made for the wire: a log turned into one of Ethernet inputs alone, with room around what is due; and which known
faults the codes on its ports show."""

import random

from nurrispane import courses, faults, profiles, programs, words
from nurrispane.files import Trouble

# The inputs of a wire's sequence, and a port that is never one: it tells the clock's quality.
INPUTS, OUTPUT = (3, 4, 5), 2
PORTS = (OUTPUT, *INPUTS)
# The ports that a bench may see.
VIEWS = {"all": tuple(range(16)), "four": PORTS, "one": (OUTPUT,)}
# Between two events, and between an event and what ends by itself, ms; and how often a source that stays is heard.
GAP, MARGIN, CROSSING, SHIFT, BEAT = 300, 120, 100, 170, 1_000
# How far a change is from where a heartbeat would tell it, ms; and how often events are moved for it all.
OFF_BEAT, MOST_TURNS = 250, 24
# How late a card may be, and how close it is looked at, ms.
TOLERANCE, STEP = 50, 25
# A long log is not looked at as closely, ms: what shows there lasts seconds.
LONG, LONG_STEP = 300_000, 500
JITTER = 20
# After the last event, ms.
TAIL = 1_500
SHORTEST, LONGEST = 60, 1_514
NUMBER = {word: kind.number for word, kind in words.BY_WORD.items()}
REPORTS_NEEDED = 3


class NotForTheWire(Exception):
    """Why a log can't be turned into one for the wire."""


def used_inputs(events):
    """The inputs that a log speaks of, in order."""
    return sorted({event.input for event in events if event.kind == words.FRAME_KIND or event.kind in words.BY_NUMBER
                   and words.BY_NUMBER[event.kind].has_input})


class Turned:
    """A log as it grows for the wire: settings and frames at new times, a line's code as a frame each second."""

    def __init__(self, inputs):
        self.places = dict(zip(inputs, INPUTS[-len(inputs):] if len(inputs) < len(INPUTS) else INPUTS))
        self.made, self.time, self.old = [], 0, 0
        self.ethernet, self.rows, self.beats, self.good = set(), {}, {}, set()

    def put(self, kind, number, argument=0, octets=b""):
        self.made.append((self.time, kind, number, argument, bytes(octets)))

    def advance(self, time):
        """Moves on as the log does, but by a gap at least; what is heard each second is heard meanwhile."""
        until = self.time + max(GAP, time - self.old)
        self.old = max(self.old, time)
        for number, (code, next_beat) in self.beats.items():
            while next_beat < until - GAP // 2:
                self.made.append((next_beat, words.FRAME_KIND, number, 0, bytes(words.sound_frame(code))))
                next_beat += BEAT
            self.beats[number] = code, next_beat
        self.time = until

    def begin(self):
        for number in self.places.values():
            self.put(NUMBER["kind"], number, 1)
            self.time += GAP // 6

    def take(self, event):
        number = self.places.get(event.input, 0)
        if event.kind == NUMBER["code"]:
            return self.code(event, number)
        self.advance(event.time)
        if event.kind == NUMBER["kind"]:
            (self.ethernet.add if event.argument == 1 else self.ethernet.discard)(event.input)
            self.beats.pop(number, None)
            return self.put(event.kind, number, 1)
        if event.kind == NUMBER["signal"] and event.argument == 1:
            self.beats.pop(number, None)
            self.rows.pop(number, None)
        if event.kind == NUMBER["signal"]:
            (self.good.discard if event.argument else self.good.add)(number)
        has_input = event.kind == words.FRAME_KIND or words.BY_NUMBER[event.kind].has_input
        self.put(event.kind, number if has_input else 0, event.argument, event.octets)

    def code(self, event, number):
        """The third equal code of a line in a row is a frame, and one each second from then on."""
        before, count = self.rows.get(number, (None, 0))
        self.rows[number] = event.argument, count + 1 if event.argument == before else 1
        if self.rows[number][1] != REPORTS_NEEDED or self.beats.get(number, (None,))[0] == event.argument:
            return
        self.advance(event.time)
        self.put(words.FRAME_KIND, number, 0, words.sound_frame(event.argument))
        self.beats[number] = event.argument, self.time + BEAT


def turned(data):
    """The events of a log for the wire: time, kind, input, argument and octets."""
    lines = words.split_log(data)[0]
    answers = programs.answers("replay", data)
    events = [(words.event_of(line, 1), int(answer[:2], 16)) for line, answer in zip(lines, answers)]
    kept = [(event, number) for event, number in events if event and playable(event, number)]
    inputs = used_inputs([event for event, _ in kept if event.kind != NUMBER["tick"]])
    if not 1 <= len(inputs) <= len(INPUTS):
        raise NotForTheWire(f"{len(inputs)} inputs")
    log = Turned(inputs)
    log.begin()
    for event, _ in kept:
        if event.kind == NUMBER["tick"]:
            log.advance(event.time)
        else:
            log.take(event)
    log.advance(log.old + GAP)
    return sorted(log.made, key=lambda one: one[0])


def playable(event, number):
    """Whether a bench can give this by a wire: no short or oversized frame, no odd command."""
    if event.kind == words.FRAME_KIND:
        return SHORTEST <= len(event.octets) <= LONGEST and event.input < 16 and number not in (5, 7)
    return event.kind in words.BY_NUMBER and (number == 0 or number >= 14) and event.kind not in (NUMBER["word"],)


# ---- room around what is due


def line_of(one, option=1):
    time, kind, number, argument, octets = one
    return words.event_line(kind, time, number, argument, octets, option)


def events_of(log):
    """The events of a log in words but its ticks, and how long it lasts."""
    events = [event for line in log.lines if (event := words.event_of(line.data))]
    made = [(one.time, one.kind, one.input, one.argument, one.octets) for one in events if one.kind != NUMBER["tick"]]
    return made, events[-1].time - made[-1][0]


def roomy(events, option=1):
    """The events with room between each and what would end then, what comes by another way, and the heartbeats."""
    for turn in range(MOST_TURNS):
        course = course_of(events, option)
        shifts = shifts_of(events, course, beats=turn < MOST_TURNS // 2)
        if not any(shifts):
            if courses.close_ends(course, MARGIN):
                raise NotForTheWire("two ends at once")
            return events
        moved, late = [], 0
        for one, shift in zip(events, shifts):
            late += shift
            moved.append((one[0] + late, *one[1:]))
        events = moved
    raise NotForTheWire("no room around what is due")


def course_of(events, option):
    return courses.Course([(one[0], line_of(one, option)) for one in events], events[-1][0] + TAIL, profiles.of_log(option))


def way(one):
    return one[2] if one[1] == words.FRAME_KIND else None


def shifts_of(events, course, beats=True):
    """How much later each event and all after it have to come; `beats` are looked at first, which not every log can keep."""
    changes = {port: [ms for ms, _ in course.of(port)[1:]] for port in PORTS}
    last, shifts, late = {port: 0 for port in PORTS}, [], 0
    for place, (one, ends) in enumerate(zip(events, course.ends())):
        time, shift = one[0], 0
        close = any(abs(end - time) < MARGIN for end in ends)
        crossed = place and way(events[place - 1]) != way(one) and time - events[place - 1][0] < CROSSING
        while shift == 0 and (close or crossed) or beats and is_on_a_beat(changes, last, time, time + late + shift) and shift < BEAT:
            shift += SHIFT
        late += shift
        shifts.append(shift)
        for port in PORTS:
            last[port] = max([last[port], *(ms + late for ms in changes[port] if ms == time)])
    return shifts


def is_on_a_beat(changes, last, time, moved):
    """Whether a change at this time comes where the port's heartbeat would tell it too."""
    gaps = [moved - last[port] for port in PORTS if time in changes[port]]
    return any(gap >= OFF_BEAT and not OFF_BEAT <= gap % BEAT <= BEAT - OFF_BEAT for gap in gaps)


def in_words(shows, events, tail=TAIL, option=1):
    """The text of a sequence's file; a last tick says how long the card is watched."""
    lines = [line_of(one, option) for one in events] + [words.event_line(NUMBER["tick"], events[-1][0] + tail, 0, 0, option=option)]
    told = [f"shows {shows}", *(["option 2"] if option == 2 else []), *map(words.line_in_words, lines)]
    return "".join(line + "\n" for line in told)


# ---- what shows


def jittered(lines, seed):
    """A log with each event up to 20 ms late, the order kept."""
    chance, made, latest = random.Random(seed), [], 0
    for line in lines:
        event = words.event_of(line)
        latest = max(latest, event.time + chance.randint(0, JITTER))
        made.append(words.event_line(event.kind, latest, event.input, event.argument, event.octets, event.option))
    return made


def looked_at(lines):
    """The log with a tick each step, and the places of these in it."""
    option = words.option_of(lines)
    end = words.event_of(lines[-1]).time + TAIL
    made, marks, place = [], [], 0
    for ms in range(0, end + 1, STEP if end < LONG else LONG_STEP):
        while place < len(lines) and words.event_of(lines[place]).time <= ms:
            made.append(lines[place])
            place += 1
        marks.append(len(made))
        made.append(words.event_line(NUMBER["tick"], ms, 0, 0, option=option))
    return b"".join(line + b"\n" for line in made), marks


def longest(right, wrong, marks, ports):
    """The longest that some port of these tells another code, ms."""
    if wrong is None or len(wrong) != len(right):
        return STEP * len(marks)
    best = run = 0
    for mark in marks:
        one, other = right[mark], wrong[mark]
        run = run + 1 if one != other and any(one[port] != other[port] for port in ports) else 0
        best = max(best, run)
    return max(best - 1, 0) * STEP


class Looked:
    """A log as it is looked at, of option II with this START: its right codes, and what a fault makes of them."""

    def __init__(self, lines, start=()):
        self.start = start
        self.data, self.marks = looked_at(lines)
        self.right = programs.answers("outgoing", self.data, start)
        if self.right != faults.run(faults.build(faults.RIGHT), "outgoing", self.data, start):
            raise Trouble("the independent program and the proved outgoing differ")

    def shows(self, fault):
        """The views in which a fault makes a code wrong for longer than the tolerance."""
        wrong = faults.run(faults.build(fault), "outgoing", self.data, self.start)
        if wrong == self.right:
            return []
        return [view for view, ports in VIEWS.items() if longest(self.right, wrong, self.marks, ports) > TOLERANCE]
