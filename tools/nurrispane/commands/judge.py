"""Judges a card: by its own answers to a log, ANSWERS, or by what it shows over time, --shown. What is wrong is told in words beside
what is right, with the reason from what is proved of the inputs and what they received.

ANSWERS has the card's answer line to each line of the log; CR LF line ends and capital digits are taken, and an answer that was lost
or doubled is found, named and passed over. Of each sort of difference the first is told, and how many there are. With --candidates the
known faults that would give exactly these answers are named: candidates, never a verdict.

--shown has a table of what the card shows from when on: selected, state, quality, switch, or some of them. It is judged at every
millisecond, from the first row to --end: what is shown has to have been right at most --tolerance before, or to be right at most --early
after. The verdict is the program `verdict`'s. --times is the same for lines of "TIME INPUT".

--all tells every stretch that is wrong, --csv has them as rows. Exit status 0: all is right; 1: something is wrong, lost or too many;
2: trouble, also where there is nothing to judge."""

import csv
import io
import sys

from nurrispane import answered, findings, logs, profiles, shown
from nurrispane.files import FINDING, FINE, Trouble, name_of, write

SUMMARY = "where a card is wrong, by its own answers or by what it shows over time, and why"
EXAMPLES = [
    "./nurrispane judge examples/whole-replay.log examples/whole-replay.answers",
    "./nurrispane judge examples/whole-replay.log --times examples/whole-replay.times --tolerance 50ms",
    "./nurrispane judge examples/cards/wait.log --shown examples/cards/wait.csv --tolerance 50ms --as 'T0-2=2,T0-3=3,none=-'",
]
PROGRESS = True
# What is told of sorts at most.
MOST_SORTS = 20
CSV = ["from", "to", "first line", "last line", "wrong", "right", "card", "reasons"]


def arguments(parser):
    parser.add_argument("log", help="an event log; - for standard input")
    profiles.argument(parser)
    parser.add_argument("answers", nargs="?", metavar="ANSWERS", help="the card's answer lines")
    shown.arguments(parser)
    parser.add_argument("--all", action="store_true", help="every stretch that is wrong, not the first of each sort")
    parser.add_argument("--csv", action="store_true", help="every stretch that is wrong as a row, for other programs")
    parser.add_argument("--candidates", nargs="?", const="", metavar="TEXT",
                        help="name the known faults, or those with TEXT in their names, that would give exactly these answers")
    parser.add_argument("--out", metavar="FILE", help="write to FILE, whole or not at all")


def run(options):
    over_time = shown.is_given(options)
    if over_time == (options.answers is not None):
        raise Trouble("either ANSWERS or --shown FILE is needed")
    if over_time and options.candidates is not None:
        raise Trouble("--candidates has no effect without ANSWERS")
    if options.csv and (options.all or options.candidates is not None):
        raise Trouble("--csv has every stretch and nothing else: %s has no effect with it" % ("--all" if options.all else "--candidates"))
    log = logs.taken("judge", options.log, options.start)
    logs.judged_by(log)
    judged = findings.ByShown(log, options) if over_time else findings.ByAnswers(log, options.answers)
    if options.csv:
        told = rows_in_csv(shown_rows(judged) if over_time else answer_rows(judged))
    else:
        told = "".join(by_shown(judged, options) if over_time else by_answers(judged, options))
    write(options.out, told.encode())
    return FINDING if judged.count else FINE


def in_words(title, said, where=""):
    yield "\n%s\n%s    right: %s\n    card:  %s\n" % (title, where, said.right, said.card)
    yield from ("    %s\n" % reason for reason in said.reasons)


def rows_in_csv(rows):
    out = io.StringIO()
    writer = csv.writer(out, lineterminator="\n")
    writer.writerow(CSV)
    writer.writerows(rows)
    return out.getvalue()


# ---- by answers


def by_answers(judged, options):
    card = judged.card
    lost = "; lost: %d" % sum(map(len, card.lost)) if card.lost else ""
    extra = "; too many: %d" % sum(map(len, card.extra)) if card.extra else ""
    yield "lines: %d; answers: %d; wrong: %d%s%s\n" % (len(judged.log.lines), card.count, len(judged.wrong), lost, extra)
    yield from (line + "\n" for line in on_the_file(card))
    titles = every_stretch(judged) if options.all else each_sort(judged)
    most = len(titles) if options.all else MOST_SORTS
    for number, said in judged.told(list(titles)[:most]):
        yield from in_words(titles[number], said, "  %s\n" % said.head)
    if len(titles) > most:
        yield "\n%d further sorts of differences are not told: --all tells each\n" % (len(titles) - most)
    if options.candidates is not None:
        yield "\n"
        yield from (line + "\n" for line in (candidates(judged, options.candidates) if judged.wrong else ["no candidates: no answer is wrong"]))


def on_the_file(card):
    """What is said of the file of answers as such."""
    name = name_of(card.path)
    if card.forms:
        yield "%s has %s, which are taken as they are meant" % (name, " and ".join(card.forms))
    if card.odd:
        places = logs.ranges([place + 1 for place in sorted(card.odd)][:MOST_SORTS])
        more = " .." if len(card.odd) > MOST_SORTS else ""
        yield "lines of %s that are no answers: %d, to line %s%s" % (name, len(card.odd), places, more)
    for gap in card.lost:
        yield "%s has lost the answer%s to %s" % (name, "" if len(gap) == 1 else "s", gap.told("line"))
    for gap in card.extra:
        what = "is doubled" if gap.last - gap.first > len(gap) else "too many" if len(gap) > 1 else "is one too many"
        yield "%s: %s %s; it belongs to no line" % (name, gap.told("answer"), what)
    if card.unmatched:
        yield "%s has %d answers too %s; which can't be said, so that lines are judged by their numbers" % (
            name, abs(card.unmatched), "few" if card.unmatched < 0 else "many")


def each_sort(judged):
    """How often each sort of difference comes, by the number of its first line."""
    return {numbers[0]: "%s wrong: %s" % (sort, "once" if len(numbers) == 1 else "%s times, to line %d" % (format(len(numbers), ","), max(numbers)))
            for sort, numbers in judged.sorts().items()}


def every_stretch(judged):
    """Every stretch of wrong lines, by the number of its first line."""
    return {each.first: "%s wrong: line%s" % (each.sort, " %d" % each.first if each.first == each.last else "s %d to %d" % each[:2])
            for each in judged.stretches()}


def answer_rows(judged):
    """Every stretch; lines that were lost or are too many have rows too."""
    found = {each.first: each for each in judged.stretches()}
    time = lambda number: logs.event_in_words(judged.log.line(number), judged.log.profile.option)[0]
    for number, said in judged.told(found):
        each = found[number]
        yield [time(number), time(each.last), number, each.last, each.sort, said.right, said.card, " | ".join(said.reasons)]
    for gaps, what, noun in ((judged.card.lost, "lost", "line"), (judged.card.extra, "too many", "answer")):
        yield from (["", "", gap.first + 1, gap.last, what, "", "", gap.told(noun)] for gap in gaps)


def candidates(judged, only):
    """The known faults that would give exactly these answers."""
    from nurrispane import faults, reach  # only here, since few ask for it
    log = judged.log
    chosen = [fault for fault in faults.of_answers(log.profile.option) if only in fault.name]
    if not chosen:
        raise Trouble("no known fault has %s in its name" % ascii(only))
    before = [line[:-1] for line in log.lines[:judged.wrong[0][0] if judged.wrong else None]]
    able = reach.able(chosen, before, log.profile.start)
    if len(able) < len(chosen):
        sys.stderr.write("judge: %d of %d known faults can change an answer up to the first wrong one\n" % (len(able), len(chosen)))
    faults.prepare(able, "judge")
    card = judged.card.flat.split(b"\n")[:-1]
    same = [fault.name for fault in able if alike(faults.run(faults.build(fault), "replay", log.data, log.profile.start), card)]
    if same:
        yield "candidates: a card with one of these known faults would give exactly these answers"
        yield from ("  " + name for name in same)
    else:
        yield "none of %d known faults would give exactly these answers" % len(chosen)


def alike(one, card):
    """Whether a copy gives the card's answers, those apart that were lost."""
    return one is not None and len(one) == len(card) and all(other in (first, answered.LOST) for first, other in zip(one, card))


# ---- by what is shown over time


def by_shown(judged, options):
    told = judged.wrong if options.all else judged.wrong[:MOST_SORTS]
    yield "%s\n%s: %s\n" % (judged.judged(), judged.shown.name, judged.summary())
    yield from (line + "\n" for line in judged.shown.said)
    for _, said in judged.told(told):
        yield from in_words(said.head, said)
    if len(judged.wrong) > len(told):
        yield "\n%d further stretches are not told: --all tells each\n" % (len(judged.wrong) - len(told))


def shown_rows(judged):
    for stretch, said in judged.told(judged.wrong):
        lines = map(judged.place_of, (stretch.start, stretch.end))
        yield [stretch.start, stretch.end, *lines, said.head.rpartition(": ")[2].removesuffix(" wrong"), said.right, said.card, " | ".join(said.reasons)]
