"""Replays an event log by the proved program and prints an answer line for each of its lines.

An answer is twelve digits: the number of the refusal or 00, the selected input or ff, the clock
state, the clock quality, the switch and its input or ff. With --words it is told in words. A log with
CR LF line ends, or of another wrong form, gets a line on standard error that says so; with --summary
how many lines were accepted, and refused for what reason, is told there too.

Without LOG it is standard input that is replayed; at a terminal the example, examples/whole-replay.log. The
first call builds and proves the program, which takes some minutes. ./replay is the same."""

import collections
import sys

from nurrispane import answers, logs, profiles, programs, words
from nurrispane.files import FINE, ROOT, read, write

SUMMARY = "an event log's answers, by the proved program"
EXAMPLES = [
    "./nurrispane replay examples/whole-replay.log",
    "./nurrispane replay --words examples/whole-replay.log",
    "./nurrispane replay --summary examples/whole-replay.log",
]


def arguments(parser):
    parser.add_argument("log", nargs="?", help="an event log; - or nothing for standard input")
    profiles.argument(parser)
    parser.add_argument("--words", action="store_true", help="answers in words: docs/LABORATORY.md")
    parser.add_argument("--summary", action="store_true", help="how many lines were accepted and refused, on standard error")
    parser.add_argument("--out", metavar="FILE", help="write to FILE, whole or not at all")


def log_of(options):
    """The log that is replayed: as it is given, else standard input, or at a terminal the example."""
    if options.log is not None or sys.stdin is None or not sys.stdin.isatty():
        return options.log or "-"
    sys.stderr.write("nurrispane replay: no log given, so this is the example, examples/whole-replay.log\n")
    return ROOT / "examples" / "whole-replay.log"


def run(options):
    start, log = profiles.start_of(options.start), log_of(options)
    if options.words or options.summary:
        data = read(log)
        profile = profiles.of_log(words.option_in(data), start)
        right = programs.answers("replay", data, start)
        said = [answers.words(line).encode() for line in right] if options.words else right
        write(options.out, b"".join(line + b"\n" for line in said))
        logs.word_on_form("replay", log, data)
        if options.summary:
            sys.stderr.write("".join(line + "\n" for line in summary(right, profile)))
    else:
        front = programs.put_out("replay", log, options.out, start)
        logs.word_on_form("replay", log, front)
    return FINE


def summary(right, profile):
    """How many lines were accepted, and refused with each number."""
    counted = collections.Counter(int(line[:2], 16) for line in right)
    yield "lines: %d; accepted: %d" % (len(right), counted.pop(0, 0))
    for number in sorted(counted):
        yield "refused with %s: %d" % (answers.refusal(number, profile), counted[number])
