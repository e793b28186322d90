"""What the proved programs say of a log: the one place that asks `replay` for its answers, `facts` for what is known of its inputs, and
`verdict` for what is wrong of what a card shows beside it. Lines have their LFs.

    right = proved.replayed(log)
    for known in proved.along(log.lines, numbers, log.profile.start): ..
    times = proved.Times(log.lines, right)
    question = proved.Question("codes", late=50, early=1, end=60_000)
    verdict = proved.verdict(log.lines, times, [(time, proved.code(port, code)), ..], question, log.profile)
    verdict.stretches[port]     the stretches of a lane that are wrong, in order
    verdict.judged[port]        the first millisecond that is judged and how many are wrong; None where nothing was shown

A lane is something that a card shows: its answer as a whole, or the code of a port. What is shown holds until the next is shown. It is
right at a millisecond if it was right at most `late` ms before or is right at most `early` ms after."""

import bisect
import collections
import functools

from nurrispane import programs, progress, words
from nurrispane.files import Trouble

INPUTS = 16
# An answer line with its LF; so many lines are handed over at a time.
ANSWER, PART = 13, 10_000

# ---- replay


def replayed(log):
    """The right answers to a log in hand, ANSWER bytes for each of its lines."""
    count = len(log.lines)
    progress.doing("replaying %s lines" % format(count, ","))
    told = b"".join(programs.pieces("replay", [log.data], start=log.profile.start))
    if len(told) != ANSWER * count or told[ANSWER - 1::ANSWER] != b"\n" * count:
        raise Trouble("the program replay answered %d of %d lines" % (told.count(b"\n"), count))
    return told


# ---- facts

MARK = b"?"
# Stands in a malformed line for a mark: the line stays malformed.
UNMARKED = b"x"

Fact = collections.namedtuple("Fact", "time mode raw passed eligible timer frame signal kind priority locked floor")


def parts(lines, done, end):
    """The lines after so many and up to an end, joined, many at a time."""
    while done < end:
        yield b"".join(lines[done:min(done + PART, end)])
        done += PART


def marked(lines, numbers):
    """The log up to the last of these lines, a mark after each of them."""
    done = 0
    for number in numbers:
        yield from (part.replace(MARK, UNMARKED) for part in parts(lines, done, number))
        yield MARK
        done = number


class Known:
    """What is known after a line: its number, the answers since the last one asked for, the state's time, and of each input
    the rest of its row, which `facts` reads."""

    def __init__(self, number, said, rows):
        self.number, self.said = number, said
        time = rows[0].partition(b" ")[0]
        self.time = int(time)
        self.rests = [row[len(time) + 1:] for row in rows]

    @property
    def answer(self):
        """The answer to the line."""
        return self.said[-ANSWER:-1]

    @functools.cached_property
    def facts(self):
        return facts_at(self.time, self.rests)


@functools.lru_cache(maxsize=1 << 16)
def numbers_in(rest):
    return tuple(map(int, rest.split()))


def facts_at(time, rests):
    """What is known of each input at a time, by the rest of its row."""
    return [Fact(time, *numbers_in(rest)) for rest in rests]


class Output:
    """What the program says, taken from the front."""

    def __init__(self, pieces):
        self.pieces, self.held, self.place = pieces, b"", 0

    def more(self):
        """Holds more of it, from the place on."""
        piece = next(self.pieces, None)
        if piece is None:
            raise Trouble("the program facts answered in part")
        self.held, self.place = self.held[self.place:] + piece, 0

    def answers(self, count):
        """So many answer lines."""
        told, wanted = [], count * ANSWER
        while len(self.held) - self.place < wanted:
            told.append(self.held[self.place:])
            wanted, self.place = wanted - len(told[-1]), len(self.held)
            self.more()
        start, self.place = self.place, self.place + wanted
        return b"".join([*told, self.held[start:self.place]])

    def rows(self):
        """The rows of the sixteen inputs."""
        while True:
            end = self.place
            for _ in range(INPUTS):
                end = self.held.find(b"\n", end) + 1
                if end == 0:
                    break
            if end:
                rows = self.held[self.place:end - 1].split(b"\n")
                self.place = end
                return rows
            self.more()

    def ended(self):
        if self.place != len(self.held) or next(self.pieces, None) is not None:
            raise Trouble("the program facts said more than it was asked")


def along(lines, numbers, start=()):
    """Each of these lines, by numbers that rise from 0, before any, with what is known after it; the log is gone through once, up to the
    last of them, and not at all where there are none."""
    if not numbers:
        return
    output, done = Output(programs.pieces("facts", marked(lines, numbers), start=start)), 0
    progress.doing("asking what is known of the inputs")
    for number in numbers:
        if number % PART == 0:
            progress.doing("asking what is known of the inputs", number / len(lines))
        said = output.answers(number - done)
        done = number
        yield Known(number, said, output.rows())
    output.ended()


def after(lines, numbers, start=()):
    """The facts by the numbers of lines without their LFs."""
    return {known.number: known.facts for known in along([line + b"\n" for line in lines], sorted(set(numbers)), start)}


# ---- verdict

# An answer's number is 01 to 0d, which leaves the state's time: of its two digits, whether the first and the second may be of these.
FIRST = bytes(int(digit == b"0"[0]) for digit in range(256))
SECOND = bytes(int(digit in b"123456789abcd") for digit in range(256))
TAKEN, FRESH = b"\0", b"%012x" % 0

# What is judged, `codes` or letters of `scqw` (selected, clock state, clock quality, switch with its input), the tolerance, and to
# which millisecond.
Question = collections.namedtuple("Question", "form late early end")
# A wrong stretch, both milliseconds included, and the first wrong value in it, in digits.
Stretch = collections.namedtuple("Stretch", "start end value")
Verdict = collections.namedtuple("Verdict", "stretches judged")


def code(port, shown):
    """What a port tells, in digits."""
    return b"%02x%02x" % (port, shown)


class Times:
    """The state's time after each line of a log, in digits, by the right answers; made where it is asked for."""

    def __init__(self, lines, right):
        self.lines = lines
        # whether each line was refused with 1 to 13, by the two digits of its answer
        first, second = right[0::ANSWER].translate(FIRST), right[1::ANSWER].translate(SECOND)
        self.refused = (int.from_bytes(first, "big") & int.from_bytes(second, "big")).to_bytes(len(lines), "big")

    def __len__(self):
        return len(self.lines)

    def __getitem__(self, place):
        taken = self.refused.rfind(TAKEN, 0, place + 1)
        return FRESH if taken < 0 else self.lines[taken][4:16]

    def __iter__(self):
        return map(self.__getitem__, range(len(self)))

    def first_event(self):
        """The time of the first line that is not refused with 1 to 13, in ms; 0 where there is none."""
        taken = self.refused.find(TAKEN)
        return 0 if taken < 0 else int(self.lines[taken][4:16], 16)


def place_of(times, time):
    """How many lines come up to a time."""
    return bisect.bisect_right(times, b"%012x" % time) if time < words.TIME_LIMIT else len(times)


def stream(lines, times, shown, early, option):
    """The lines with what is shown in them: each after the last line that is not later by more than `early`. A tick at 0 stands in front, so
    that what is shown before the first line is judged by the log's own option."""
    yield words.tick_line(0, option)
    done = 0
    for time, digits in sorted(shown, key=lambda each: each[0]):
        place = place_of(times, time + early)
        yield from parts(lines, done, place)
        yield b"=%012x%s\n" % (time, digits)
        done = place
    yield from parts(lines, done, len(lines))


def verdict(lines, times, shown, question, profile):
    """The verdict on what is shown beside lines with their times in digits, which rise: pairs of a time and digits. Of one time they are
    taken in their order."""
    progress.doing("asking for the verdict on %s lines" % format(len(lines), ","))
    asked = stream(lines, times, shown, question.early, profile.option)
    told = b"".join(programs.pieces("verdict", asked, *question, start=profile.start)).decode("ascii", "replace").split("\n")
    if told[-2:] != ["end", ""]:
        raise Trouble("the program verdict says: %s" % ascii("\n".join(told[-3:]).strip()[-80:]))
    stretches, judged = {}, {}
    for line in told[:-2]:
        lane, *rest = line.removeprefix(". ").split(" ")
        if not line.startswith(". "):
            stretches.setdefault(int(lane), []).append(Stretch(int(rest[0]), int(rest[1]), rest[2]))
        else:
            judged[int(lane)] = None if rest == ["-"] else (int(rest[0]), int(rest[1]))
    return Verdict({lane: stretches.get(lane, []) for lane in judged}, judged)
