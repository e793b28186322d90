"""Salvages a damaged log: writes a new one with every line that replay doesn't refuse with 1 to 13, unchanged, and tells
each line that is dropped with its refusal.

The proved program makes the new log; its lines replay to the answers they had. Where a line whose time was torn is kept, and shuts
out what comes after it, that line is named. NEW is written whole or not at all: a
crash leaves the file that was there, or the new one. Exit status 0: nothing is dropped; 1: something is; 2: trouble. The
log has any length; one with more than 32,768 lines to drop is trouble, and nothing is written."""

import os

from nurrispane import answers, logs, profiles, programs, words
from nurrispane.files import FINDING, FINE, Trouble, name_of, write, write_out

SUMMARY = "a damaged log without the lines that replay can't take, by the proved program"
EXAMPLES = ["./nurrispane salvage tests/vectors/L11/torn-option-two.log -o /tmp/salvaged.log"]

# The most numbers of a report, two a dropped line; and what the program says where there are more.
PLACES, TOO_SHORT = 65_536, b"14"
# The refusal of a time before that of the state.
TOO_EARLY = 4


def arguments(parser):
    parser.add_argument("log", help="a damaged event log; - for standard input")
    parser.add_argument("-o", "--out", metavar="NEW", required=True, help="where the new log goes")


def run(options):
    if os.path.exists(options.log) and os.path.exists(options.out) and os.path.samefile(options.log, options.out):
        raise Trouble("%s is the damaged log itself: what is dropped would be lost" % name_of(options.out))
    log = programs.read_log(options.log)
    logs.word_on_old_form("salvage", options.log, log)
    report, salvaged = kept(log)
    write(options.out, salvaged)
    write_out("".join(line + "\n" for line in told(options, log, report)).encode())
    return FINDING if report else FINE


def kept(log):
    """The lines that are dropped, each with its refusal, and the new log."""
    number, _, rest = programs.on_files("salvage", [log], len(log), PLACES).partition(b"\n")
    if number == TOO_SHORT:
        raise Trouble("more than %s lines would be dropped: nothing is written" % format(PLACES // 2, ","))
    if number != b"00":
        raise Trouble("the program salvage says: %s" % ascii(number[:80]))
    report, _, salvaged = rest.partition(b"\n")
    numbers = [int(part) for part in report.split()]
    dropped = list(zip(numbers[::2], numbers[1::2]))
    if count_of(salvaged) + len(dropped) != count_of(log):
        raise Trouble("the program salvage kept %d and dropped %d lines of %d" % (count_of(salvaged), len(dropped), count_of(log)))
    return dropped, salvaged


def count_of(log):
    return len(words.split_log(log)[0])


def told(options, log, report):
    """What is said of what was dropped."""
    lines = words.split_log(log)[0]
    profile = profiles.of_log(words.option_of(lines))
    for number, refusal in report:
        yield "line %d dropped, refused with %s: %s" % (number, answers.refusal(refusal, profile), shortened(lines[number - 1], profile))
    for kept, shut_out in shutting_out(report):
        time = words.event_of(lines[kept - 1]).time
        count = "1 line" if len(shut_out) == 1 else f"{len(shut_out)} lines"
        yield (f"line {kept} is kept, and its time, {time:,} ms, shut out {count} with an earlier one (line {logs.ranges(shut_out)}); if it is "
               f"torn, take that line out and salvage again: {shortened(lines[kept - 1], profile)}")
    yield "%d of %d lines are in %s, %d dropped" % (len(lines) - len(report), len(lines), name_of(options.out), len(report))


def shutting_out(report):
    """The kept lines whose time lies after that of lines dropped for it, each with these: the state's time is that of the last
    line that was kept."""
    dropped, found = {number for number, _ in report}, {}
    for number, refusal in report:
        if refusal == TOO_EARLY:
            kept = number - 1
            while kept in dropped:
                kept -= 1
            found.setdefault(kept, []).append(number)
    return found.items()


def shortened(line, profile):
    said = words.line_in_words(line, profile.option)
    return said if len(said) <= 60 else said[:58] + ".."
