"""What a log can find: how many of the known faults change an answer or an outgoing code of this log,
and which don't.

The known faults are the wrong copies of the independent program (tests/independent/wrong-copies*.txt):
readings not taken, slips, borders off by one, and last year's four causes in several sizes. They are
built with rustc at the first call, half a second each, and kept below target/. Of several logs, each
from a fresh card, a fault is found by the first that shows it. With --jitter each log is tried as a bench
sends it that is late with every event, by a random number of ms up to the one given, in order: a fault is
found where it shows in the log that was really sent. Exit status 1: some are not found, or not with every seed."""

from nurrispane import answers, faults, jitter, words
from nurrispane.files import FINDING, FINE, Trouble, name_of, read, read_text, write

SUMMARY = "how many of the known faults a log can find, and which it can't"
EXAMPLES = [
    "./nurrispane score examples/whole-replay.log --only 'hold-off cut short'",
    "./nurrispane score --words examples/whole-replay.words --found --only 'hold-off cut short'",
    "./nurrispane score --words sequences/known/looked-wait.words --only 'wait cut short: by' --jitter 50ms",
]


def arguments(parser):
    parser.add_argument("log", nargs="+", help="event logs; - for standard input")
    parser.add_argument("--words", action="store_true", help="the logs are in words")
    parser.add_argument("--only", metavar="TEXT", help="only the faults with this text in their names")
    parser.add_argument("--found", action="store_true", help="tell each fault found: the line, the right answer, the wrong one")
    parser.add_argument("--jitter", metavar="MS", help="each event late by a random 0 to MS ms, as 50ms")
    parser.add_argument("--seeds", type=int, metavar="N", help="with --jitter: so many tries, %d by default" % jitter.SEEDS)
    parser.add_argument("--out", metavar="FILE", help="write to FILE, whole or not at all")


def known(only):
    """The faults asked for; trouble where there is none."""
    chosen = [fault for fault in faults.known() if not only or only in fault.name]
    if not chosen:
        raise Trouble("no known fault has %s in its name" % ascii(only))
    return chosen


def log_data(path, in_words):
    return words.one_log(read_text(path), name_of(path)).data() if in_words else read(path)


def amount_of(options):
    """The jitter asked for, in ms, or None; trouble with options that don't go together."""
    if options.jitter is None:
        if options.seeds is not None:
            raise Trouble("--seeds goes with --jitter alone: without it there is one try")
        return None
    if options.found:
        raise Trouble("--found goes without --jitter: each try shows a fault at another line")
    if options.seeds is not None and not 1 <= options.seeds <= 1000:
        raise Trouble("--seeds is 1 to 1000")
    return jitter.read(options.jitter)


def run(options):
    chosen, amount = known(options.only), amount_of(options)
    logs = [(path, log_data(path, options.words)) for path in options.log]
    faults.prepare([faults.RIGHT, *chosen], "score")
    if amount is not None:
        seeds = options.seeds or jitter.SEEDS
        counts = found_under(chosen, [data for _, data in logs], amount, seeds)
        lines, all_found = told_under(chosen, logs, amount, seeds, counts), all(count[1] == seeds for count in counts.values())
    else:
        found = found_in(chosen, logs)
        lines, all_found = told(options, logs, chosen, found), len(found) == len(chosen)
    write(options.out, "".join(line + "\n" for line in lines).encode())
    return FINE if all_found else FINDING


def found_in(chosen, logs):
    """For each fault that is found the first log that shows it, and where."""
    datas, found = [data for _, data in logs], {}
    right = faults.rights(datas)
    for fault in chosen:
        for (path, data), one, other in zip(logs, right, faults.several(faults.build(fault), datas)):
            shown = faults.difference(fault, one, other)
            if shown is not None:
                found[fault.name] = (path, data, faults.Found(fault, *shown))
                break
    return found


def found_under(chosen, datas, amount, seeds):
    """For each fault how many logs find it, the least of all seeds and the most, and with how many seeds one does."""
    sent = [jitter.late(data, amount, seed) for data in datas for seed in range(seeds)]
    right, counts = faults.rights(sent), {}
    for fault in chosen:
        wrong = faults.several(faults.build(fault), sent)
        shows = [faults.difference(fault, *pair) is not None for pair in zip(right, wrong)]
        by_seed = [sum(shows[seed::seeds]) for seed in range(seeds)]
        counts[fault.name] = (min(by_seed), sum(map(bool, by_seed)), max(by_seed))
    return counts


def told_under(chosen, logs, amount, seeds, counts):
    """What is said of them under jitter."""
    lines = sum(len(words.split_log(data)[0]) for _, data in logs)
    every = sum(1 for _, found, _ in counts.values() if found == seeds)
    none = sum(1 for _, found, _ in counts.values() if found == 0)
    yield "lines: %d; jitter: 0 to %d ms, %d seeds; known faults: %d, found with every seed %d, with some %d, with none %d" % (
        lines, amount, seeds, len(chosen), every, len(chosen) - every - none, none)
    for name, (least, found, most) in counts.items():
        if found == seeds:
            yield "found with every seed: %s, by %s" % (name, logs_in_words(least, most))
    for name, (_, found, _) in counts.items():
        if 0 < found < seeds:
            yield "found with %d of %d seeds: %s" % (found, seeds, name)
    for name, (_, found, _) in counts.items():
        if not found:
            yield "not found: %s" % name


def logs_in_words(least, most):
    if least == most:
        return "1 log" if most == 1 else "%d logs" % most
    return "%d to %d logs" % (least, most)


def told(options, logs, chosen, found):
    """What is said of them."""
    lines = sum(len(words.split_log(data)[0]) for _, data in logs)
    yield "lines: %d; known faults: %d, found %d, not found %d" % (lines, len(chosen), len(found), len(chosen) - len(found))
    if options.found:
        for path, data, shown in found.values():
            yield "found: " + finding(path if len(logs) > 1 else None, data, shown)
    for fault in chosen:
        if fault.name not in found:
            yield "not found: %s" % fault.name


def finding(path, data, shown):
    """A fault that is found: its name, the line, and both answers in words."""
    line = words.split_log(data)[0][shown.line - 1:shown.line]
    where = "%sline %d" % ("%s, " % name_of(path) if path else "", shown.line)
    said = words.line_in_words(line[0], words.option_in(data)) if line else "the end of the log"
    right, wrong = (faults.in_words(shown.mode, answer, answers.meaning) for answer in (shown.right, shown.wrong))
    return "%s: %s, %s\n    right:          %s\n    with the fault: %s" % (shown.fault.name, where, said, right, wrong)
