"""The bench's sequences: event logs that a bench can play to a card, and what they find.

sequences/known has the logs that find the known faults and sequences/table.txt what each of them finds, and under how
much jitter; sequences/make makes both anew, from the stored logs of tests/logs, from sequences/own and, with looks
at their own pace, from sequences/looked. sequences/ethernet.txt says the same of the logs that Ethernet ports alone
can play, some of which are in sequences/ethernet. sequences/pairs has the logs in which rules meet; sequences/search
makes them."""

import collections
import hashlib
import re

from nurrispane import faults, jitter, words
from nurrispane.files import ROOT, Trouble, read_text

HERE = ROOT / "sequences"
STORED = ROOT / "tests" / "logs"
TABLE, ETHERNET_TABLE = HERE / "table.txt", HERE / "ethernet.txt"
# The logs made by hand: of these `looked` keep their pace.
BY_HAND, LOOKED, ETHERNET = "own", "looked", "ethernet"
# No sequence is longer, in ms.
LONGEST = 3_600_000
SHORTEST_FRAME, LARGEST_FRAME = 60, 1_514
# Numbers of refusal that only odd commands are given: unknown kinds, inputs and arguments out of
# range, a code or a frame for the wrong kind of input.
ODD_COMMANDS = (2, 5, 6, 7)

# A log for the bench; `dropped` says what was left out of the stored one and how often.
Sequence = collections.namedtuple("Sequence", "name shows data dropped")

MALFORMED, BACK, LATE = "malformed lines", "times that go back", "times no bench waits for"
UNENDED = "a last line without LF"


def playable(data, allowed=None):
    """The log without what no bench can play, and how many lines were left out for what reason; nothing is left out
    for the reason `allowed`.

    A line that is malformed or whose time goes back is refused and leaves the state; a line past the
    longest time is left out with all after it."""
    kept, dropped, latest = [], collections.Counter(), 0
    lines, ended = words.split_log(data)
    option = words.option_of(lines)
    for line in lines:
        event = words.event_of(line, option)
        if event is None or len(event.octets) > LARGEST_FRAME:
            why = MALFORMED
        elif event.time > LONGEST:
            why = LATE
        else:
            why = BACK if event.time < latest else None
            latest = max(latest, event.time)
        if why in (None, allowed):
            kept.append(line)
        else:
            dropped[why] += 1
    if not ended and allowed != UNENDED:
        dropped[UNENDED] += 1
        ended = True
    return b"\n".join(kept) + b"\n" * bool(kept and ended), dropped


def stored():
    """A sequence of each hand-made log of option I that is stored."""
    path = STORED / "hand-made.txt"
    for log in words.logs(read_text(path), path):
        if log.option == 1:
            data, dropped = playable(log.data())
            yield Sequence(log.name, log.shows, data, dropped)


def kept(folder):
    """The sequences that are kept in words in a folder of sequences/, by name."""
    found = {}
    for path in sorted((HERE / folder).glob("*.words")):
        log = words.one_log(read_text(path), path)
        data, dropped = playable(log.data())
        if dropped:
            raise Trouble("%s: no bench can play this: %s" % (path, ", ".join(dropped)))
        found["%s/%s" % (folder, path.stem)] = Sequence("%s/%s" % (folder, path.stem), log.shows, data, dropped)
    return found


def candidates():
    """Every sequence that the set may be chosen from, by name."""
    made = [sequence for folder in (BY_HAND, LOOKED) for sequence in kept(folder).values()]
    return {sequence.name: sequence for sequence in [*stored(), *made] if sequence.data}


def of_ethernet():
    """Every sequence that Ethernet ports alone can play, by name."""
    every = {**candidates(), **kept(ETHERNET)}
    return {name: sequence for name, sequence in every.items() if on_ethernet(sequence.data)}


def duration(data):
    """How long a sequence takes, in ms."""
    return max((words.event_of(line).time for line in words.split_log(data)[0]), default=0)


def needs(data, answers):
    """What a bench needs for a sequence beyond frames, codes, signals and sound commands."""
    told, events = [], [words.event_of(line) for line in words.split_log(data)[0]]
    if any(event.kind == words.FRAME_KIND and len(event.octets) < SHORTEST_FRAME for event in events):
        told.append("short frames")
    if any(int(answer[:2], 16) in ODD_COMMANDS for answer in answers):
        told.append("odd commands")
    return told


# Words for what is set before the first frame where there is no console: settings, and a signal that is good, a link.
SET_BEFORE = ("signal", "priority", "lockout", "hold-off", "wait", "fixed", "mode", "sending", "kind", "floor")


def on_ethernet(data):
    """Whether a bench of Ethernet ports alone can play a sequence: settings before the first frame, then frames and looks."""
    events = [words.event_of(line) for line in words.split_log(data)[0]]
    first = next((place for place, event in enumerate(events) if event.kind == words.FRAME_KIND), None)
    return first is not None and all(map(can_be_set, events[:first])) and all(map(can_come, events[first:]))


def can_be_set(event):
    word = words.BY_NUMBER[event.kind].word if event.kind in words.BY_NUMBER else None
    return word in SET_BEFORE and not (word == "signal" and event.argument) or word == "tick"


def can_come(event):
    return is_tick(event) or event.kind == words.FRAME_KIND and len(event.octets) >= SHORTEST_FRAME and event.argument == 0


def is_tick(event):
    return event.kind == words.BY_WORD["tick"].number


def ethernet_ports(data):
    """The ports that a sequence makes Ethernet ports: what these send is seen."""
    kind = words.BY_WORD["kind"]
    events = [words.event_of(line) for line in words.split_log(data)[0]]
    return sorted({event.input for event in events if event.kind == kind.number and event.argument == kind.names["ethernet"]})


def in_words(shows, lines):
    """The text of a sequence's file."""
    told = ["shows " + shows] if shows else []
    told += ["option 2"] * (words.option_of(lines) == 2)
    return "".join(line + "\n" for line in told + [words.line_in_words(line) for line in lines])


# ---- choosing

# What a sequence costs beside its time, in ms: a fresh card, and each thing that a bench may not have.
FRESH_CARD, NEED = 10_000, 60_000


def chosen(finds, costs, wanted, kept=()):
    """Names of sequences that together find all that is wanted, the kept ones first: the cheapest a fault first, then none too
    many."""
    names, left = list(kept), set(wanted).difference(*(finds[name] for name in kept))
    while left:
        name = min(finds, key=lambda name: (costs[name] / max(len(finds[name] & left), 1e-9), name))
        names.append(name)
        left -= finds[name]
    for name in sorted(names, key=lambda name: -costs[name]):
        others = set().union(*(finds[other] for other in names if other != name))
        if wanted <= others and name not in kept:
            names.remove(name)
    return names


def chosen_under(entries, costs, amount, only=None):
    """The names of the logs that together find, with every seed of this jitter, all that is found so; in the order of
    `costs`. Of the faults `only` those that no log finds so are found without jitter."""
    best = collections.Counter()
    for entry in entries:
        best[entry.fault] = max(best[entry.fault], entry.jitter)
    wanted = {fault for fault, most in best.items() if (fault in only if only else most >= amount)}
    finds = {name: set() for name in costs}
    for entry in entries:
        if entry.fault in wanted and (entry.jitter >= amount or best[entry.fault] < amount):
            finds[entry.log].add(entry.fault)
    names = chosen(finds, costs, wanted)
    return [name for name in costs if name in names]


# ---- pace

# What stands between two events if it may, in ms, what is wanted most first; and where jitter counts: what is too close for the
# greatest may stand far apart.
PACES = (250, 50, 10)
PACES_UNDER_JITTER = (250, 1_000, 50, 10)


def time_of(line):
    return words.event_of(line).time


def moved(line, time):
    """The line at another time."""
    event = words.event_of(line)
    return words.event_line(event.kind, time, event.input, event.argument, event.octets, event.option)


def paced(lines, is_good, paces=PACES):
    """The lines with time between one and the next wherever they stay good with it; no line is put in or left out."""
    for place in range(1, len(lines)):
        gap = time_of(lines[place]) - time_of(lines[place - 1])
        for pace in paces:
            if gap >= pace:
                break
            later = lines[:place] + [moved(line, time_of(line) + pace - gap) for line in lines[place:]]
            if time_of(later[-1]) <= LONGEST and is_good(later):
                lines = later
                break
    return lines


def joined(lines):
    return b"".join(line + b"\n" for line in lines)


# ---- the table

# What the table says of a log that finds a fault: where it shows first, and up to how much jitter it is found with every
# seed.
Entry = collections.namedtuple("Entry", "fault log line mode right wrong jitter")
# The table: what it was made of, the faults that each log of the set finds, an entry for each fault and each log that finds
# it, in the order of the set, how many logs of the set that is written by default find a fault (the least and the most
# of all seeds, for each amount of jitter), and the faults out of reach with the reason.
Table = collections.namedtuple("Table", "made_of finds entries under out_of_reach")


def digest(texts=None):
    """A name made of all that the table is made of and of the set: its files, or these texts by their names. Of a log in words its
    name, what it shows and its lines count; comments and other words for the same line don't."""
    if texts is None:
        texts = {path.stem: path.read_text() for path in (HERE / "known").glob("*.words")}
    made_of = sorted(path for folder in (BY_HAND, LOOKED, ETHERNET) for path in (HERE / folder).glob("*.words"))
    made_of.append(STORED / "hand-made.txt")
    told = [(path.name, path.read_text()) for path in made_of] + sorted(texts.items())
    parts = [part for named in faults.sources(faults.RIGHT).items() for part in named]
    parts += [repr(fault) for fault in faults.known()]
    for name, text in told:
        parts += [name, *(part for log in words.logs(text, name) for part in (str(log.name), log.shows, log.data().decode("latin-1")))]
    parts.append(repr((jitter.LEVELS, jitter.SEEDS)))
    return hashlib.sha256("\0".join(parts).encode()).hexdigest()[:24]


def read_table(path=TABLE):
    """A table as it is stored."""
    table = Table([], {}, [], {}, {})
    for line in read_text(path).splitlines():
        kind, _, rest = line.partition(" ")
        cells = [cell.strip() for cell in rest.split(" | ")]
        if kind == "made-of":
            table.made_of.append(rest)
        elif kind == "log":
            table.finds[cells[0]] = set()
        elif kind == "fault":
            name, log, place, mode, right, wrong, amount = cells
            table.entries.append(Entry(name, log, int(place), mode, right, wrong, int(amount)))
            table.finds[log].add(name)
        elif kind == "under":
            table.under[cells[0]] = [tuple(map(int, cell.split("-"))) for cell in cells[1:]]
        elif kind == "out-of-reach":
            table.out_of_reach[cells[0]] = cells[1]
    return table


def is_stale(table):
    return table.made_of != [digest()]


# ---- the guide's table on jitter

GUIDE = ROOT / "docs" / "LABORATORY.md"
MARKED = re.compile(r"(<!-- the table, by sequences/make -->\n).*(<!-- end -->\n)", re.S)


def jitter_table(table):
    """How many logs of the set that is written by default find each known fault, the least and the most of all seeds, for
    each amount of jitter."""
    amounts = ["%d ms" % amount for amount in jitter.LEVELS]
    yield "| Known fault | %s |" % " | ".join(amounts)
    yield "|---|%s" % ("---|" * len(amounts))
    for fault, cells in table.under.items():
        yield "| %s | %s |" % (fault, " | ".join("%d" % least if least == most else "%d to %d" % (least, most) for least, most in cells))


def guide(table):
    """docs/LABORATORY.md with that table in it."""
    made = "".join(line + "\n" for line in jitter_table(table))
    return MARKED.sub(lambda found: found.group(1) + made + found.group(2), GUIDE.read_text())
