"""Compares two logs of one site: each is replayed from fresh, and where the answers differ the logs are shown side by side,
with what each answer means.

Whether they differ the proved program says, which lists lines by their numbers; its list comes last. For the eye, lines are first matched by
time and content, so that a line that one recorder lost shifts nothing: shown are the lines that only one log has, and matched lines
that are answered differently. Exit status 0: the answers are the same; 1: they differ; 2: trouble, also where nothing
differs and no line of a log is formed."""

from nurrispane import answers, logs, matching, profiles, programs, words
from nurrispane.files import FINDING, FINE, Trouble, name_of, write

SUMMARY = "where the answers of two logs differ, side by side, by the proved program"
EXAMPLES = ["./nurrispane compare tests/vectors/L11/card-one.log tests/vectors/L11/card-two.log"]

# The most lines that the program lists, and what it says where there are more.
ROOM, TOO_MANY = 65_536, "14"
WIDEST = 58
# So many differences are shown.
MOST_SHOWN = 100


def arguments(parser):
    parser.add_argument("first", metavar="A", help="an event log; - for standard input")
    parser.add_argument("second", metavar="B", help="another one")
    parser.add_argument("--out", metavar="FILE", help="write to FILE, whole or not at all")


def run(options):
    if options.first == options.second == "-":
        raise Trouble("standard input is one log, not two")
    names = [name_of(options.first), name_of(options.second)]
    recorded = [programs.read_log(path) for path in (options.first, options.second)]
    for path, log in zip((options.first, options.second), recorded):
        logs.word_on_old_form("compare", path, log)
    number, numbers = differing(recorded)
    if number != TOO_MANY and not numbers:
        comparable(names, recorded)
    sides = [list(zip(words.split_log(log)[0], programs.answers("replay", log))) for log in recorded]
    told = [*report(names, sides, bool(numbers) or number == TOO_MANY), "", listed(number, numbers)]
    write(options.out, "".join(line.rstrip() + "\n" for line in told).encode())
    return FINDING if number == TOO_MANY or numbers else FINE


def comparable(names, recorded):
    """Trouble where no line of a log is formed: that two such are answered alike says nothing."""
    for name, log in zip(names, recorded):
        if words.option_in(log) is None:
            raise Trouble("%s, so there is nothing to compare" % ("no line of %s is formed" % name if log else "%s is empty" % name))


def differing(recorded):
    """What the program says first, and the numbers of the lines that differ."""
    said = programs.on_files("compare", recorded, ROOM).decode("ascii", "replace").split("\n")
    if len(said) != 4 or said[0] not in ("00", TOO_MANY):
        raise Trouble("the program compare says: %s" % ascii("\n".join(said)[:80]))
    return said[0], [int(number) for number in said[1].split()]


def listed(number, numbers):
    """The proved program's list."""
    if number == TOO_MANY:
        return f"line by line, by the proved program: more than {ROOM:,} lines are answered differently"
    if not numbers:
        return "line by line, by the proved program: all lines are answered alike"
    return f"line by line, by the proved program: {len(numbers)} differ: {logs.ranges(numbers)}"


def report(names, sides, differ):
    """What is matched, and the differences, the first log on the left."""
    lines = [[line for line, _ in side] for side in sides]
    pairs = matching.matched(*lines)
    found = list(differences(sides, pairs))
    moved = sum(lines[0][one] != lines[1][other] for one, other in pairs)
    alone = [sum(pair[1 - place] is None for pair in found) for place in (0, 1)]
    yield f"lines: {len(lines[0])} and {len(lines[1])}; matched by time and content: {len(pairs)}, {moved} of them at another time"
    yield f"only in the first: {alone[0]}; only in the second: {alone[1]}; matched and answered differently: {len(found) - sum(alone)}"
    if not differ:
        return
    told_of = [profiles.of_log(words.option_of(side)) for side in lines]
    yield row("", *names)
    for pair in found[:MOST_SHOWN]:
        yield ""
        cells = [["no such line"] if place is None else cell(*side[place], profile) for place, side, profile in zip(pair, sides, told_of)]
        for place in range(max(map(len, cells))):
            shown = [lines[place] if place < len(lines) else "" for lines in cells]
            yield row(head(pair) if place == 0 else "", *shown)
    if len(found) > MOST_SHOWN:
        yield ""
        yield f"{len(found) - MOST_SHOWN} further differences are not shown"


def differences(sides, pairs):
    """Places in both logs of matched lines that are answered differently, and of lines that only one has: None for the other."""
    last = [-1, -1]
    for pair in [*pairs, tuple(map(len, sides))]:
        yield from ((place, None) for place in range(last[0] + 1, pair[0]))
        yield from ((None, place) for place in range(last[1] + 1, pair[1]))
        if pair[0] < len(sides[0]) and pair[1] < len(sides[1]) and sides[0][pair[0]][1] != sides[1][pair[1]][1]:
            yield pair
        last = pair


def head(pair):
    numbers = ["-" if place is None else f"{place + 1}" for place in pair]
    return f"line {numbers[0]}" if numbers[0] == numbers[1] else f"line {' / '.join(numbers)}"


def cell(line, answer, profile):
    """What is shown of a line of a log of this profile: its words, and its answer, a part a line."""
    said = words.line_in_words(line, profile.option)
    return [said if len(said) <= WIDEST else said[: WIDEST - 2] + "..", *answers.meaning(answer, profile).split("; ")]


def row(first, left, right):
    return "%-12s %-*s  %s" % (first, WIDEST, left, right)
