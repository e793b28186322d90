"""Explains a log line by line: the event, the right answer, and for each input what is known of it and why it isn't
selected. Inputs that are off are told in one line.

All of it is asked of the proved programs; the column "last report" is the input's last accepted code or frame as the log
has it, recorded or not. Times are those of the log in ms. Exit status 0, or 2 for trouble."""

import csv
import io

from nurrispane import answers, inputs, logs, profiles, proved
from nurrispane.files import FINE, Trouble, write

SUMMARY = "why each input is selected or isn't, line by line, by what is proved"
EXAMPLES = [
    "./nurrispane explain examples/whole-replay.log --line 11",
    "./nurrispane explain examples/whole-replay.log --input 3 --csv",
]
HEAD = ["in", "kind", "priority", "lockout", "signal", "last report", "raw", "passed", "why not"]
PROGRESS = True
CSV = ["line", "time", "event", "number", "selected", "state", "quality", "switch", "on", "input", "kind", "priority", "lockout",
       "signal", "last report", "raw", "passed", "eligible", "timer", "frame", "reason", "why"]


def arguments(parser):
    parser.add_argument("log", help="an event log; - for standard input")
    profiles.argument(parser)
    parser.add_argument("--line", type=int, metavar="N", help="only line N, from 1")
    parser.add_argument("--input", type=int, metavar="I", help="only input I, 0 to 15")
    parser.add_argument("--csv", action="store_true", help="a row an input, for other programs")
    parser.add_argument("--out", metavar="FILE", help="write to FILE, whole or not at all")


def run(options):
    if options.input is not None and not 0 <= options.input < proved.INPUTS:
        raise Trouble("there is no input %d: 0 to 15" % options.input)
    log = logs.taken("explain", options.log, options.start)
    if options.line is not None and not 1 <= options.line <= len(log.lines):
        raise Trouble("there is no line %d: the log has %d" % (options.line, len(log.lines)))
    told = in_csv if options.csv else in_words
    write(options.out, "".join(told(log, options)).encode())
    return FINE


def explained(log, options):
    """Number, event, answer line, facts and reports of each line asked for."""
    asked = [options.line] if options.line else range(1, len(log.lines) + 1)
    reports, done = inputs.Reports(log.profile), 0
    for known in proved.along(log.lines, asked, log.profile.start):
        for place in range(done, known.number):
            reports.take(log.lines[place][:-1], known.said[proved.ANSWER * (place - done):proved.ANSWER * (place - done) + 2])
        done = known.number
        yield done, log.line(done), known.answer, known.facts, reports


def asked_inputs(options, facts, answer):
    """The inputs to tell one by one: those that are not off, and the selected one."""
    if options.input is not None:
        return [options.input]
    return [number for number, fact in enumerate(facts) if fact.priority or number == answer[1]]


def cells(number, facts, answer, reports, profile):
    fact = facts[number]
    kind = inputs.KINDS[fact.kind]
    return ["%d" % number, kind, "%d" % fact.priority if fact.priority else "off", "set" if fact.locked else "none",
            "good" if fact.signal else "failing", reports.told(number, fact.time), profiles.quality(fact.raw, profile),
            profiles.quality(fact.passed, profile), inputs.why(facts, number, answer, profile, equal=reports.equal(number))[1]]


def in_words(log, options):
    profile = log.profile
    for number, line, answer, facts, reports in explained(log, options):
        octets = answers.octets_of(answer)
        time, event = logs.event_in_words(line, profile.option)
        taken, *rest = answers.meaning(answer, profile).split("; ")
        rest.insert(1, "quality mode %s" % ("on" if facts[0].mode else "off"))
        yield "line %d  %s  %s: %s\n  %s\n" % (number, logs.seconds(time), event, taken, "; ".join(rest))
        shown = asked_inputs(options, facts, octets)
        if shown:
            yield from table([HEAD] + [cells(each, facts, octets, reports, profile) for each in shown])
        hidden = [each for each in range(proved.INPUTS) if each not in shown]
        if hidden and options.input is None:
            yield "  off: %s\n" % logs.ranges(hidden)
        yield "\n"


def table(rows):
    widths = [max(len(row[at]) for row in rows) for at in range(len(HEAD))]
    for row in rows:
        first = "  " + row[0].rjust(widths[0])
        yield (first + "".join("  " + cell.ljust(width) for cell, width in zip(row[1:], widths[1:]))).rstrip() + "\n"


def in_csv(log, options):
    profile = log.profile
    out = io.StringIO()
    writer = csv.writer(out, lineterminator="\n")
    writer.writerow(CSV)
    for number, line, answer, facts, reports in explained(log, options):
        octets = answers.octets_of(answer)
        time, event = logs.event_in_words(line, profile.option)
        for each in range(proved.INPUTS) if options.input is None else [options.input]:
            fact = facts[each]
            told = cells(each, facts, octets, reports, profile)
            reason, said = inputs.why(facts, each, octets, profile, equal=reports.equal(each))
            writer.writerow([number, fact.time if time is None else time, event, *octets, each, *told[1:6], fact.raw, fact.passed,
                             fact.eligible, fact.timer, fact.frame, reason, said])
    yield out.getvalue()
