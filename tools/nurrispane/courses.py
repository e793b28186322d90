"""What is right for what was played: the proved codes of each port over time; and races, where what came first decides that
and no bench can know it."""

import bisect
import collections
import copy

from nurrispane import hooks, logs, programs, proved, records, timeline, words

TICK = words.BY_WORD["tick"].number

# What began with the fresh start ends so early, ms: in the same order for every card.
FRESH_ENDS = 300

Race = collections.namedtuple("Race", "limit words")


class Ticked:
    """A log with a tick at each moment at which something ends between two of its lines; its lines without their LFs, their right
    answers, and the state's time after each."""

    def __init__(self, lines, profile):
        log = logs.Log("", b"".join(line + b"\n" for line in lines), profile.start)
        course = timeline.Course(log)
        before = [0, *course.times]
        ticks = [(one.number, words.tick_line(one.time, profile.option)) for one in course.found if one.time > before[one.number]]
        ended = timeline.with_ticks(log.lines, ticks)
        self.lines = [line[:-1] for line in ended]
        self.answers = programs.answers("replay", b"".join(ended), profile.start)
        right = proved.Times(ended, b"".join(answer + b"\n" for answer in self.answers))
        self.times = [int(time, 16) for time in right]

    def line_at(self, time):
        """The last line whose time is not later; 0 before any."""
        return bisect.bisect_right(self.times, time)


class Course:
    """The right codes of a log up to a millisecond, with a tick at each due moment."""

    def __init__(self, timed, end, profile):
        lines = [line for _, line in timed]
        lines.append(words.event_line(TICK, max([end, *(time for time, _ in timed)]), 0, 0, option=profile.option))
        self.ticked, self.profile, self.end = Ticked(lines, profile), profile, end
        self.codes = programs.answers("outgoing", b"".join(line + b"\n" for line in self.ticked.lines), profile.start)

    def ends(self):
        """For each line that was played what would end next of each input just before it, served or not, in ms."""
        own = [number for number, line in enumerate(self.ticked.lines[:-1]) if words.event_of(line).kind != TICK]
        facts = proved.after(self.ticked.lines, own, self.profile.start)
        return [sorted({end for fact in facts[number] for end in (fact.timer, fact.frame) if end}) for number in own]

    def served(self):
        """(ms, input) of each end of an input that is on, by which a due moment was served; what ends from the fresh start is left out."""
        found, before = [], []
        facts_after = proved.after(self.ticked.lines, range(1, len(self.ticked.lines) + 1), self.profile.start)
        for number, line in enumerate(self.ticked.lines, 1):
            facts, time = facts_after[number], words.event_of(line).time
            if time > FRESH_ENDS:
                found += [(time, each) for each, fact in enumerate(before) if fact.priority and time in (fact.timer, fact.frame)]
            before = facts
        return sorted(found)

    def of(self, port):
        """When a port starts to tell what: (ms, code)."""
        found = []
        for time, codes in zip(self.ticked.times, self.codes):
            code = int(codes[port:port + 1], 16)
            if not found or found[-1][1] != code:
                found.append((time if found else 0, code))
        return found

    def at(self, port, ms):
        """The right code of a port at a millisecond, of several in it the last."""
        course = self.of(port)
        return course[max(bisect.bisect_right([time for time, _ in course], ms) - 1, 0)][1]

    def line_at(self, ms):
        """The last line not later, from 1; 0 before any."""
        return self.ticked.line_at(ms)


# ---- races


def spans(course, end):
    """(from, to, code) of a port's course; `to` is not in it."""
    ends = [time for time, _ in course[1:]] + [end + 1]
    return [(start, stop, code) for (start, code), stop in zip(course, ends) if start < stop]


def is_within(one, other, tolerance):
    """Whether each code of a course is right in the other at most the tolerance before or after, as long as it stands."""
    for start, stop, code in one:
        place = start
        for first, last, right in other:
            if right == code and first - tolerance <= place < last + tolerance:
                place = last + tolerance
        if place < stop:
            return False
    return True


def agree(one, other, ports, end, tolerance):
    """Whether two courses tell the same on these ports, to within the tolerance."""
    for port in ports:
        mine, its = spans(one.of(port), end), spans(other.of(port), end)
        if not is_within(mine, its, tolerance) or not is_within(its, mine, tolerance):
            return False
    return True


def way(one):
    """By which way something came: commands by one, frames by one a port. What came by one way keeps its order."""
    return None if one.words is not None else one.port


def near(part, one, ends, margin):
    """What lies within the margin of something played, in ns: what would end then, and what came by another way."""
    least, most = one.first - margin, one.last + margin
    found = [end * records.NS_A_MS for end in ends if least <= end * records.NS_A_MS <= most]
    return found + [other.first for other in part.played if way(other) != way(one) and least <= other.first <= most]


def moves(part, place, margin):
    """The two times to which something is moved, ns: as far as the margin and what came by the same way let it."""
    one = part.played[place]
    same = [other for other in part.played if way(other) == way(one)]
    at = same.index(one)
    least = same[at - 1].first if at else 0
    most = same[at + 1].first if at + 1 < len(same) else part.end
    return sorted({max(one.first - margin, least), min(one.last + margin, most)} - {one.first})


def close_ends(course, margin):
    """Pairs of ends of two inputs, each (ms, input), that come within a margin of one another, ms."""
    ends = course.served()
    return [(one, other) for place, one in enumerate(ends) for other in ends[place + 1:]
            if other[0] - one[0] <= margin and other[1] != one[1]]


def concerns(one, number):
    """Whether something played is of an input."""
    return one.port == number if one.words is None else one.words.split()[1:2] == [str(number)]


def race_of_ends(part, course, tolerance):
    """The first two ends whose order decides what is right: all that was played of one input is moved by the tolerance."""
    for one, other in close_ends(course, tolerance + 1):
        for number in (one[1], other[1]):
            for shift in (-tolerance, tolerance):
                moved = copy.copy(part)
                moved.played = [each._replace(first=max(each.first + shift * records.NS_A_MS, 0)) if concerns(each, number) else each
                                for each in part.played]
                other_course = Course(records.log_of(moved, course.profile.option), course.end, course.profile)
                if not agree(course, other_course, part.ports, course.end, tolerance + part.slack() + 1):
                    return Race(max(one[0] - tolerance, 0), f"of inputs {one[1]} and {other[1]} something ends at {one[0]:,} and at {other[0]:,} ms")
    return None


def race(part, course, tolerance):
    """The first race; None where there is none."""
    found = [each for each in (race_of_stimuli(part, course, tolerance), race_of_ends(part, course, tolerance)) if each]
    return min(found, default=None)


def race_of_stimuli(part, course, tolerance):
    """The first thing whose order among others decides what is right; None where there is none."""
    margin, slack = tolerance * records.NS_A_MS, part.slack()
    taken = [place for place, one in enumerate(part.played) if one.reply != hooks.CANNOT]
    for place, ends in zip(taken, course.ends()):
        one = part.played[place]
        close = near(part, one, ends, margin)
        if not close:
            continue
        for time in moves(part, place, margin):
            other = Course(records.log_of(part, course.profile.option, (place, time)), course.end, course.profile)
            if not agree(course, other, part.ports, course.end, tolerance + slack + 1):
                limit = (min([*close, one.first]) - margin) // records.NS_A_MS
                said = one.words or f"a frame on port {one.port}"
                return Race(max(limit, 0), f"{said} at {one.first // records.NS_A_MS:,} ms against what came or was due at "
                            f"{close[0] // records.NS_A_MS:,} ms")
    return None
