"""Converts an event log: to `new`, with the option's byte 01 written in after the kind of each line, or back to `old`, the form
of document 01, without it.

The proved program converts; the last line's missing LF stays missing, and there and back gives the same bytes. The log is
written whole or not at all. Exit status 0: converted; 1: refused, and a line on standard error says why: a line is malformed
(1), or the log is of option II, for which the old form has no byte (21); 2: trouble."""

import sys

from nurrispane import programs, words
from nurrispane.files import FINDING, FINE, Trouble, name_of, write, write_out

SUMMARY = "a log of the old form in the new one, or back, by the proved program"
EXAMPLES = [
    "./nurrispane convert new examples/whole-replay.old.log",
    "./nurrispane convert old examples/whole-replay.log -o /tmp/whole-replay.old.log",
]

# More than any converted log has: the largest number that the program takes.
LENGTH = 2**64 - 1
# What the program says first.
CONVERTED, MALFORMED, OPTION_TWO = b"00", b"01", b"15"
# The most digits of a line of the old form.
LONGEST_OLD_LINE = 3_048


def arguments(parser):
    parser.add_argument("form", choices=["new", "old"], help="the form that the log gets")
    parser.add_argument("log", help="an event log; - for standard input")
    parser.add_argument("-o", "--out", metavar="FILE", help="write to FILE, whole or not at all")


def run(options):
    log = programs.read_log(options.log)
    number, _, converted = programs.on_files("convert", [log], LENGTH, first=[options.form]).partition(b"\n")
    if number == CONVERTED:
        write(options.out, converted)
        if options.out is not None:
            write_out(b"%d lines are in %s\n" % (len(words.split_log(converted)[0]), name_of(options.out).encode()))
        return FINE
    sys.stderr.write("nurrispane convert: %s is not converted: %s\n" % (name_of(options.log), refusal(number, options.form, log)))
    return FINDING


def refusal(number, form, log):
    """Why a log was not converted."""
    if number == OPTION_TWO:
        return "refused with 21: it is of option II, for which the old form has no byte"
    if number != MALFORMED:
        raise Trouble("the program convert says: %s" % ascii(number[:80]))
    lines = words.split_log(log)[0]
    place = next(place for place, malformed in enumerate(malformed_lines(form, log, lines)) if malformed)
    if form == "new" and words.option_of(lines[place:place + 1]):
        why = ", which has the new form already"
    elif form == "old" and is_old(lines[place]):
        why = ", which has the old form already"
    else:
        why = ", which is malformed"
    said = words.line_in_words(lines[place], words.option_of(lines))
    return "refused with 1 for line %d%s: %s" % (place + 1, why, said if len(said) <= 60 else said[:58] + "..")


def malformed_lines(form, log, lines):
    """Of each line whether it is malformed: by the old form each line alone, by the new one as replay has it."""
    if form == "new":
        return (not is_old(line) for line in lines)
    return (answer.startswith(b"01") for answer in programs.answers("replay", log))


def is_old(line):
    return len(line) <= LONGEST_OLD_LINE and words.OLD_EVENT.fullmatch(line) is not None
