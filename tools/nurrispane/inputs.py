"""What is known of the sixteen inputs after a line of a log, by the proved program `facts` (docs/LABORATORY.md), in words. Nothing is
worked out here but which of the facts is told."""

import functools
import re

from nurrispane import answers, profiles
from nurrispane.proved import ANSWER

# The kinds of input, by number, and what comes in there.
KINDS = ("line", "Ethernet", "words")
REPORTS = ("code", "frame", "word")

# ---- in words


def left(fact, end, brief=False):
    """How long something still runs; in brief, only when it ends."""
    ends = "ends at %s" % format(end, ",")
    return ends if brief else "%s ms left, %s" % (format(end - fact.time, ","), ends)


# So many equal reports in a row make a code or a word count.
REPORTS_NEEDED = 3


def unfit(fact, names, brief=False, equal=0):
    """Why an input that is not eligible is not, in the names of a profile: a reason and its words; `equal` is how many equal
    reports the log has of it."""
    if fact.priority == 0:
        return "off", "off"
    if fact.locked:
        return "locked", "locked out"
    quality = functools.partial(profiles.quality, profile=names)
    if fact.passed == names.failed:
        if fact.raw != names.failed:
            return "wait", "wait: " + left(fact, fact.timer, brief)
        if not fact.signal:
            return "failed", "failed: the signal is failing"
        so_far = f" yet: {equal} of {REPORTS_NEEDED} equal reports" if equal else ""
        return "failed", f"failed: no {REPORTS[fact.kind]} counts{so_far}"
    if fact.passed == names.do_not_use:
        return quality(fact.passed), "%s can't be followed" % quality(fact.passed)
    if fact.passed == names.invalid:
        return "invalid", "an invalid code can't be followed"
    if fact.passed == 0:
        return "not told", "no quality is told, from when quality mode was off"
    if fact.passed == names.prov and not names.place:
        return "PROV", "PROV has no place, so it can't be followed"
    below = " stands just below %s," % quality(names.place) if fact.passed == names.prov else ""
    return "floor", "%s%s is below its floor, %s" % (quality(fact.passed), below, quality(fact.floor))


def outdone(facts, number, selected, names):
    """Why an eligible input is not selected where another is, with no switch: a reason and its words."""
    fact, best = facts[number], facts[selected]
    if fact.mode and fact.passed != best.passed:
        told = profiles.quality(fact.passed, names), profiles.quality(best.passed, names), selected
        return "quality", "%s is worse than %s of input %d" % told
    if fact.priority != best.priority:
        return "priority", "priority %d is worse than %d of input %d" % (fact.priority, best.priority, selected)
    kept = "was kept" if number < selected else "was kept or has the lower number"
    return "equal", "equal to input %d, which %s" % (selected, kept)


def why(facts, number, answer, names, brief=False, equal=0):
    """Why an input is selected or is not, by the facts and the right answer: a reason and its words, in brief without what
    changes with each millisecond; `equal` is how many equal reports the log has of it."""
    _, selected, _, _, switch, on = answer
    fact = facts[number]
    if number == selected:
        reason = "selected", "selected" + (" by a %s switch" % answers.SWITCHES[switch] if switch else "")
    elif not fact.eligible:
        reason = unfit(fact, names, brief, equal)
    elif switch:
        reason = "switch", "a %s switch stands on input %d" % (answers.SWITCHES[switch], on)
    else:
        reason = outdone(facts, number, selected, names)
    if fact.passed != names.failed and fact.raw == names.failed:
        passed = profiles.quality(fact.passed, names)
        return reason[0], "%s; has failed, still passes %s: hold-off, %s" % (reason[1], passed, left(fact, fact.timer, brief))
    return reason


def told(facts, number, answer, names):
    """What is known of an input, with why it is selected or is not."""
    fact = facts[number]
    raw, passed = (profiles.quality(each, names) for each in (fact.raw, fact.passed))
    return "input %d: raw %s, passes %s, priority %d: %s" % (number, raw, passed, fact.priority, why(facts, number, answer, names)[1])


REPORT = re.compile(rb"(02|03|12)0[12]([0-9a-f]{12})([0-9a-f]{2})([0-9a-f]{4})(?:[0-9a-f]{55}([0-9a-f])[0-9a-f]*)?")
WORD, FRAME = b"12", b"02"
REPORTED = {b"03": "code", FRAME: "frame with code", WORD: "word"}
# What forgets the reports of an input: a failing signal, and its kind set.
SIGNAL = re.compile(rb"010[12][0-9a-f]{12}([0-9a-f]{2})000([01])")
KIND = re.compile(rb"100[12][0-9a-f]{12}([0-9a-f]{2})[0-9a-f]{4}")


def report_in_words(kind, number, names):
    """What a code, a frame's code or a word says."""
    if kind == WORD:
        return names.words.get(number, "word %04x" % number)
    return names.codes.get(number, "code %d" % number)


class Reports:
    """The last report of each input that was accepted, and how many equal ones there are in a row since its signal is good and
    its kind is set: as the log has it. Whether they count, the facts say."""

    def __init__(self, names):
        self.names, self.last, self.rows, self.good = names, {}, {}, set()

    def take(self, line, answer):
        if answer[:2] != b"00":
            return
        if report := REPORT.fullmatch(line):
            said, number = int(report.group(5) or report.group(4), 16), int(report.group(3), 16)
            self.last[number] = int(report.group(2), 16), report_in_words(report.group(1), said, self.names)
            if report.group(1) != FRAME and number in self.good:
                before, count = self.rows.get(number, (None, 0))
                self.rows[number] = said, count + 1 if said == before else 1
        elif signal := SIGNAL.fullmatch(line):
            number, failing = (int(part, 16) for part in signal.groups())
            if failing:
                self.good.discard(number)
                self.rows.pop(number, None)
            else:
                self.good.add(number)
        elif kind := KIND.fullmatch(line):
            self.rows.pop(int(kind.group(1), 16), None)

    def equal(self, number):
        """How many equal codes or words in a row."""
        return self.rows.get(number, (None, 0))[1]

    def told(self, number, time):
        if number not in self.last:
            return "-"
        came, said = self.last[number]
        return "%s %s ms ago" % (said, format(time - came, ","))


class Received:
    """The last report of an input that was accepted up to a line, as the log has it, with the line it came in."""

    def __init__(self, lines, right, names):
        self.lines, self.right, self.names = lines, right, names
        # of an input: up to which line it was looked for, and where it was found
        self.found = {}

    def place_of(self, number, last):
        """The place of the last report up to line `last`; None where there is none."""
        done, place = self.found.get(number, (0, None))
        if last < done:
            done, place = 0, None
        digits = b"%02x" % number
        for at in range(last - 1, done - 1, -1):
            line = self.lines[at]
            if line[16:18] == digits and line[:2] in REPORTED and self.right[ANSWER * at:ANSWER * at + 2] == b"00":
                place = at
                break
        self.found[number] = last, place
        return place

    def told(self, number, last):
        """The same in words, as "code 0100 (SSU-A), line 12 at 1,000 ms"."""
        place = self.place_of(number, last)
        report = REPORT.fullmatch(self.lines[place][:-1]) if place is not None else None
        if not report:
            return "nothing received"
        kind, said = report.group(1), int(report.group(5) or report.group(4), 16)
        digits = "%04x" % said if kind == WORD else format(said, "04b")
        return "last received %s %s (%s), line %d at %s ms" % (
            REPORTED[kind], digits, meant(kind, said, self.names), place + 1, format(int(report.group(2), 16), ","))


def meant(kind, said, names):
    """The quality that a report says, or that it says none."""
    return (names.words if kind == WORD else names.codes).get(said, "no quality")
