"""What is wrong with a card, with the reason from what is proved of the inputs and from what was received: the same for `judge`
and `picture`."""

import bisect
import collections

from nurrispane import answered, answers, inputs, logs, proved, shown, timeline, words
from nurrispane.files import Trouble
from nurrispane.proved import ANSWER

COLUMNS = {"s": "selected", "c": "state", "q": "quality", "w": "switch"}
FIELDS = ["refusal", "selection", "clock state", "clock quality", "switch", "switch"]
# A stretch of wrong lines, from 1, and the sort of their difference; and where a stretch stands, its words, and why.
Lines = collections.namedtuple("Lines", "first last sort")
Told = collections.namedtuple("Told", "head right card reasons")


def difference(right, card):
    """Two answers without the number of refusal where that is right."""
    return (right[2:], card[2:]) if right[:2] == card[:2] else (right, card)


def sort_of(right, wrong):
    """Which parts of an answer differ, in words."""
    one, other = answers.octets_of(right), answers.octets_of(wrong)
    if other is None:
        return "no answer line"
    return ", ".join(dict.fromkeys(field for field, first, second in zip(FIELDS, one, other) if first != second))


def named_inputs(right, wrong, event=None):
    """The inputs that two answers and an event name; None is no answer."""
    named = [octets[at] for octets in (right, wrong) if octets is not None for at in (1, 5)]
    if event is not None and (event.kind == words.FRAME_KIND or getattr(words.BY_NUMBER.get(event.kind), "has_input", False)):
        named.append(event.input)
    return list(dict.fromkeys(number for number in named if number < proved.INPUTS))


class Judged:
    """A log with its right answers, beside which a card is judged."""

    def __init__(self, log):
        self.log, self.right = log, proved.replayed(log)
        self.received = inputs.Received(log.lines, self.right, log.profile)

    def reasons(self, number, named, facts, right):
        """What is known of these inputs after a line, and what they have received up to it; without facts nothing."""
        return ["%s; %s" % (inputs.told(facts, each, right, self.log.profile), self.received.told(each, number)) for each in named] if facts else []


class ByAnswers(Judged):
    """A card's answers to a log beside the right ones, and the wrong lines."""

    def __init__(self, log, path):
        super().__init__(log)
        self.card = answered.Answered(path, self.right)
        # number, right and wrong answer of each
        self.wrong = [(at // ANSWER + 1, self.right[at:at + ANSWER - 1], self.card.flat[at:at + ANSWER - 1]) for at in self.card.differing]
        self.count = len(self.wrong) + sum(map(len, self.card.lost + self.card.extra)) + abs(self.card.unmatched)

    def summary(self):
        """In a few words, how right the card is."""
        said = ["the card is wrong in %s" % format(len(self.wrong), ",") if self.wrong else "the card is right in all that it answers"]
        said += ["%d answers are lost" % sum(map(len, self.card.lost))] * bool(self.card.lost)
        said += ["%d answers are too many" % sum(map(len, self.card.extra))] * bool(self.card.extra)
        said += ["%d answers are too %s" % (abs(self.card.unmatched), "few" if self.card.unmatched < 0 else "many")] * bool(self.card.unmatched)
        return ", ".join(said)

    def sorts(self):
        """The numbers of the wrong lines by the sort of their difference, the first of each in front."""
        alike, sorts = {}, {}
        for number, right, card in self.wrong:
            alike.setdefault((right, card), []).append(number)
        for pair, numbers in alike.items():
            sorts.setdefault(sort_of(*pair), []).extend(numbers)
        return sorts

    def stretches(self):
        """Wrong lines in a row, right and wrong alike, as one."""
        found, before = [], None
        for number, right, card in self.wrong:
            same = difference(right, card)
            if same == before and found[-1].last == number - 1:
                found[-1] = found[-1]._replace(last=number)
            else:
                found.append(Lines(number, number, sort_of(right, card)))
            before = same
        return found

    def told(self, numbers):
        """What is told of these lines, by their numbers, which rise."""
        for known in proved.along(self.log.lines, numbers, self.log.profile.start):
            yield known.number, self.of_line(known.number, known.facts)

    def of_line(self, number, facts):
        """What is told of a wrong line; without facts no reasons."""
        line, at, profile = self.log.line(number), ANSWER * (number - 1), self.log.profile
        right, card = self.right[at:at + ANSWER - 1], self.card.odd.get(number - 1, self.card.flat[at:at + ANSWER - 1])
        octets, (time, event) = answers.octets_of(right), logs.event_in_words(line, profile.option)
        named = named_inputs(octets, answers.octets_of(card), words.event_of(line, profile.option))
        return Told("line %d  %s  %s" % (number, logs.seconds(time), event), answers.meaning(right, profile), answers.meaning(card, profile),
                    self.reasons(number, named, facts, octets))


class ByShown(Judged):
    """What a card shows over time beside what is right, and the wrong stretches: the verdict is the program `verdict`'s."""

    def __init__(self, log, options):
        super().__init__(log)
        self.times = proved.Times(log.lines, self.right)
        self.shown = shown.taken(options, log, self.times.first_event())
        self.row_times = [row.time for row in self.shown.rows]
        self.question = shown.question(self.shown, options, int(self.times[len(log.lines) - 1], 16))
        verdict = proved.verdict(log.lines, self.times, self.shown.tellings(), self.question, log.profile)
        if verdict.judged[0] is None:
            raise Trouble("%s shows nothing, so there is no verdict" % self.shown.name)
        (self.first, self.milliseconds), self.wrong = verdict.judged[0], verdict.stretches[0]
        self.count = len(self.wrong)

    def judged(self):
        """What was judged and how, in words."""
        late, early, end = (format(number, ",") for number in self.question[1:])
        columns = ", ".join(COLUMNS[letter] for letter in self.question.form)
        return "judged: %s from %s to %s ms, late by up to %s ms, early by up to %s ms" % (columns, format(self.first, ","), end, late, early)

    def summary(self):
        """In a few words, how right the card is."""
        if not self.wrong:
            return "the card is right throughout"
        return "the card is wrong for %s ms in %s stretch%s" % (format(self.milliseconds, ","), format(self.count, ","), "" if self.count == 1 else "es")

    def place_of(self, time):
        """How many lines of the log come up to a time."""
        return proved.place_of(self.times, time)

    def told(self, stretches):
        """What is told of these stretches, each with it."""
        ticks = [(self.place_of(each.start), each.start) for each in stretches]
        for each, known in zip(stretches, timeline.at_ticks(self.log.lines, ticks, self.log.profile)):
            yield each, self.of_stretch(each, known.answer, known.facts)

    def of_stretch(self, stretch, right, facts):
        """What is told of a wrong stretch, by what is right as it begins; without facts no reasons."""
        octets, card = answers.octets_of(right), self.as_answer(stretch)
        head = "from %s to %s ms (%s ms): %s wrong" % (
            *(format(each, ",") for each in (stretch.start, stretch.end, stretch.end - stretch.start + 1)), self.columns(octets, card))
        said = shown.in_words(bytes.fromhex(stretch.value), self.question.form, self.log.profile)
        changes = bisect.bisect_right(self.row_times, stretch.end) - bisect.bisect_right(self.row_times, stretch.start)
        more = "" if not changes else "; it changes %s in this time" % ("once" if changes == 1 else "%s times" % format(changes, ","))
        meant = answers.meaning(right, self.log.profile).partition("; ")[2]
        return Told(head, meant, said + more, self.reasons(self.place_of(stretch.start), named_inputs(octets, card), facts, octets))

    def as_answer(self, stretch):
        """What is shown as an answer's six octets, with no input where none is judged."""
        chosen, state, quality, switch, on = bytes.fromhex(stretch.value)
        form = self.question.form
        return 0, chosen if "s" in form else answers.NONE, state, quality, switch, on if "w" in form else answers.NONE

    def columns(self, right, card):
        """The columns that are wrong, in words."""
        places = {"s": (1,), "c": (2,), "q": (3,), "w": (4, 5)}
        return ", ".join(COLUMNS[letter] for letter in self.question.form if any(right[at] != card[at] for at in places[letter]))
