"""A log as lanes over time, a card beside it, and the list of what is wrong with it.

A lane is stretches of time with a value each and a text that says more; stretches that follow one another and say the
same are one. What is right changes when it does, also between two lines of the log (`timeline`)."""

import bisect
import collections

from nurrispane import answers, inputs, profiles, proved, shown
from nurrispane.proved import ANSWER

PLAIN, FAILED, WAITING, WRONG, SWITCHED, NOT_TOLD = "plain", "failed", "waiting", "wrong", "switched", "not-told"
QUALITIES = {
    "PRC": "q1", "SSU-A": "q2", "SSU-B": "q3", "SEC": "q4", "DNU": "unused", "PRS": "q1", "STU": "q1-lined", "ST2": "q2", "TNC": "q2-lined",
    "ST3E": "q3", "ST3": "q3-lined", "SIC": "q4", "ST4": "q4-lined", "PROV": "prov", "DUS": "unused", "invalid": "invalid",
    "not told": NOT_TOLD, "failed": FAILED,
}
DIFFERS = "differs"
# So many wrong stretches are listed with their reasons.
MOST_LISTED = 200

Stretch = collections.namedtuple("Stretch", "start end value text look")
# A wrong stretch from a time to before another, its head, and the lines that say more.
Wrong = collections.namedtuple("Wrong", "start end head said")


class Lane:
    """A lane that grows to the right."""

    def __init__(self, name):
        self.name, self.stretches, self.same = name, [], None

    def take(self, start, value, text, look, same=None):
        """From this time on; what is the same as the last goes on with it."""
        same = same or (value, text, look)
        if same != self.same:
            self.stretches.append((start, value, text, look))
            self.same = same

    def ended(self, last):
        """The stretches; of several in one millisecond the last, and each that is wrong."""
        ends = [each[0] for each in self.stretches[1:]] + [last]
        found = [Stretch(start, end, value, text, look) for (start, value, text, look), end in zip(self.stretches, ends)]
        return [each for each in found[:-1] if each.start < each.end or each.look == WRONG] + found[-1:]


def look_of(number, profile):
    """What a quality looks like, by its number."""
    return QUALITIES.get(profiles.quality(number, profile), NOT_TOLD)


def selection(selected):
    return "no input" if selected == answers.NONE else "input %d" % selected


def of_course(course, profile):
    """The lanes of what is right: the selection; the inputs that are ever used; the switch and the clock."""
    right, switch, clock, used = Lane("right card"), Lane("switch"), Lane("clock"), set()
    passed = [Lane("input %d" % number) for number in range(proved.INPUTS)]
    for moment in course.found:
        time, octets, facts = moment.time, answers.octets_of(moment.answer), moment.facts
        used.update(each for each, fact in enumerate(facts) if fact.priority or each == octets[1])
        why = [inputs.why(facts, each, octets, profile, brief=True)[1] for each in range(proved.INPUTS)]
        chosen = octets[1] if octets[1] < proved.INPUTS else None
        look = FAILED if chosen is None else look_of(octets[3], profile)
        right.take(time, selection(octets[1]), "" if chosen is None else why[chosen], look)
        for each, fact in enumerate(facts):
            waits = fact.passed == profile.failed and fact.raw != profile.failed
            value = "wait" if waits else profiles.quality(fact.passed, profile)
            passed[each].take(time, value, "raw %s: %s" % (profiles.quality(fact.raw, profile), why[each]),
                              WAITING if waits else look_of(fact.passed, profile))
        switched = "no switch" if octets[4] == 0 else "%s to input %d" % (answers.SWITCHES[octets[4]], octets[5])
        switch.take(time, switched, "", SWITCHED if octets[4] else PLAIN)
        clock.take(time, answers.CLOCK[octets[2]], "quality %s" % profiles.quality(octets[3], profile), look_of(octets[3], profile))
    return right, [passed[number] for number in sorted(used)] + [switch, clock]


class Facts:
    """What is known at any time of a course."""

    def __init__(self, course):
        self.found = course.found
        self.keys = [(moment.number, moment.time) for moment in course.found]
        self.times = [moment.time for moment in course.found]

    def after(self, number, time):
        """After a line, which left the state at this time."""
        return proved.facts_at(time, self.found[bisect.bisect_right(self.keys, (number, time)) - 1].rests)

    def at(self, time):
        """At a time, after its last event: the answer and the facts."""
        moment = self.found[bisect.bisect_right(self.times, time) - 1]
        return moment.answer, proved.facts_at(time, moment.rests)


# ---- a card by its answers


def of_answers(course, judged):
    """The lane of a card's answers, which are known at the log's lines alone, and where they are wrong."""
    card, flat, profile = Lane("card under test"), judged.card.flat, judged.log.profile
    before = None
    for place, time in enumerate(course.times):
        said = flat[ANSWER * place + 2:ANSWER * place + ANSWER - 1]
        if said != before and said[:1] != b"-":
            octets, before = answers.octets_of(b"00" + said), said
            if octets is None:
                card.take(time, "no answer", "", FAILED)
            else:
                look = FAILED if octets[1] == answers.NONE else look_of(octets[3], profile)
                card.take(time, selection(octets[1]), "by its answers, which are known at the log's lines alone", look)
    return card, list(wrong_answers(course, judged))


def wrong_answers(course, judged):
    """The wrong stretches of lines; the first ones with the reasons."""
    facts = Facts(course)
    for place, each in enumerate(judged.stretches()):
        time = course.times[each.first - 1]
        said = judged.of_line(each.first, facts.after(each.first, time) if place < MOST_LISTED else None)
        to = "" if each.first == each.last else ", to line %d" % each.last
        end = course.times[each.last] if each.last < len(course.times) else course.end + 1
        yield Wrong(time, end, said.head + to, ["right: " + said.right, "card: " + said.card, *said.reasons])


# ---- a card by what it shows over time


def of_shown(course, judged):
    """The lane of what a card shows, and where it is wrong."""
    card, form, profile = Lane("card under test"), judged.question.form, judged.log.profile
    card.take(0, "nothing shown", "", PLAIN)
    for row in judged.shown.rows:
        said = shown.in_words(row.octets, form, profile)
        unseen = look_of(row.octets[2], profile) if "q" in form else NOT_TOLD
        card.take(row.time, said.partition(", ")[0], said, FAILED if "s" in form and row.octets[0] == answers.NONE else unseen)
    return card, list(wrong_stretches(course, judged))


def wrong_stretches(course, judged):
    """The wrong stretches of what is shown; the first ones with the reasons."""
    facts = Facts(course)
    for place, each in enumerate(judged.wrong):
        answer, known = facts.at(each.start)
        said = judged.of_stretch(each, answer, known if place < MOST_LISTED else None)
        yield Wrong(each.start, each.end + 1, said.head, ["right: " + said.right, "card: " + said.card, *said.reasons])


# ---- where it is wrong


def differs(course, wrong, judged=None):
    """The lane that says where a card is wrong, and why; from when to when it is judged, where that is not all the time."""
    lane = Lane(DIFFERS)
    first, last = (judged.first, judged.question.end) if judged else (0, course.end)
    if first:
        lane.take(0, "not judged", "", PLAIN)
    lane.take(first, "right", "", PLAIN)
    for place, each in enumerate(wrong):
        lane.take(each.start, "wrong", "\n".join([each.head, *each.said]), WRONG, same=place)
        ends = each.end <= course.end and (place + 1 == len(wrong) or wrong[place + 1].start > each.end)
        if ends:
            lane.take(each.end, "right", "", PLAIN)
    if last < course.end:
        lane.take(last + 1, "not judged", "", PLAIN)
    return lane


def key(profile):
    """The looks that a page explains, best quality first."""
    return [(said, QUALITIES[said]) for number, said in sorted(profile.qualities.items()) if number] + [
        ("not told", NOT_TOLD), ("a wait runs", WAITING), ("a switch", SWITCHED), ("the card is wrong", WRONG)]
