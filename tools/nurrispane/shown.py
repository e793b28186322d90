"""What a card shows over time, as a table has it: a header row, comma or tab, a time column, and any of selected, state, quality and
switch, in the card's own words. docs/LABORATORY.md says what a table may have."""

import collections
import csv
import datetime
import decimal
import io
import re

from nurrispane import answers, profiles, proved, words
from nurrispane.files import Trouble, name_of, read_text

# The columns that are judged, by the letter that the verdict has for each, and what else they may be called.
COLUMNS = {"selected": "s", "state": "c", "clock state": "c", "quality": "q", "clock quality": "q", "switch": "w"}
LETTERS = "scqw"
MS, SECONDS, EITHER = "ms", "seconds", "ms or ISO 8601"
TIMES = {"time": EITHER, "timestamp": EITHER, "ms": MS, "time ms": MS, "s": SECONDS, "seconds": SECONDS, "time s": SECONDS, "time seconds": SECONDS}
UNITS = {"": 1, "ms": 1, "s": 1_000, "min": 60_000}
# How much too early a card may show something, in ms, unless it is told otherwise: the rounding of two clocks.
EARLY = 1
ISO = re.compile(r"[0-9]{4}-[0-9]{2}-[0-9]{2}[T ].*")
EPOCH = datetime.datetime(1970, 1, 1, tzinfo=datetime.timezone.utc)

# What is shown from a time on: selected, clock state, clock quality, switch and its input; 0 where that is not judged.
Row = collections.namedtuple("Row", "time octets")


class Shown:
    """What a card shows: which letters are judged, the rows, and what has to be said of the table."""

    def __init__(self, path, form, rows, said):
        self.name, self.form, self.said = name_of(path), form, said
        self.rows = from_zero(rows, said)

    def tellings(self):
        """The rows for the verdict."""
        return [(row.time, b"%02x%02x%02x%02x%02x" % row.octets) for row in self.rows]


def from_zero(rows, said):
    """The rows from the log's time 0 on: of those before it the last, which still stands then."""
    early = sum(row.time < 0 for row in rows)
    if early:
        said.append("%d rows are before the log's time 0: the last of them is taken as shown at 0" % early)
        rows = [rows[early - 1]._replace(time=0), *rows[early:]]
    if rows and rows[-1].time >= words.TIME_LIMIT:
        raise Trouble("what is shown at %s ms is later than any log" % format(rows[-1].time, ","))
    return rows


# ---- options


def arguments(parser):
    parser.add_argument("--shown", metavar="FILE", help="a table of what the card shows over time: docs/LABORATORY.md")
    parser.add_argument("--times", metavar="FILE", help="the same of a selection alone: lines of \"TIME INPUT\" in ms, - for none")
    parser.add_argument("--tolerance", metavar="TIME", help="how late the card may be, as 50ms, 1s or 2min; 0 without it")
    parser.add_argument("--early", metavar="TIME", help="how early the card's clock may be; 1ms without it")
    parser.add_argument("--end", metavar="TIME", help="to when it is judged, in the log's time; without it the later of the last event and the last row")
    parser.add_argument("--offset", metavar="TIME", help="what time the table has at the log's time 0, as 1500ms or 2026-11-17T09:00:00Z")
    parser.add_argument("--first-event", nargs="?", const="", metavar="TIME",
                        help="what time the table has at the log's first event; without TIME that of its first row")
    parser.add_argument("--as", dest="meant", metavar="WORDS", help="what the card's words mean, as 'T0-3=4,none=-'")


OPTIONS = {"--tolerance": "tolerance", "--early": "early", "--end": "end", "--offset": "offset", "--first-event": "first_event", "--as": "meant"}


def is_given(options):
    """Whether a table is given; trouble where there are two, or where an option has no effect."""
    given = [path for path in (options.shown, options.times) if path is not None]
    if len(given) > 1:
        raise Trouble("--shown and --times are two tables: one is judged")
    for name, field in OPTIONS.items():
        if getattr(options, field) is not None and (not given or (name == "--as" and options.times is not None)):
            raise Trouble("%s has no effect without --shown" % name)
    if options.offset is not None and options.first_event is not None:
        raise Trouble("--offset and --first-event both say where the log begins: one is enough")
    return bool(given)


def duration(text, option):
    """A time as 50ms, 1s or 2min, in ms."""
    told = re.fullmatch(r"([0-9]{1,15}(?:\.[0-9]{1,9})?)(ms|s|min|)", text)
    if not told:
        raise Trouble("%s is a time as 50ms, 1s or 2min, not %s" % (option, ascii(text)))
    return int(decimal.Decimal(told.group(1)) * UNITS[told.group(2)])


def tolerance(options):
    """How late and how early a card may be."""
    early = EARLY if options.early is None else duration(options.early, "--early")
    return duration(options.tolerance, "--tolerance") if options.tolerance is not None else 0, early


def question(shown, options, last):
    """What is asked of the program; `last` is the time of the log's last event."""
    end = max(last, shown.rows[-1].time) if options.end is None else duration(options.end, "--end")
    if shown.rows[0].time > end:
        raise Trouble("%s shows nothing up to %s ms, so there is no verdict" % (shown.name, format(end, ",")))
    late = sum(row.time > end for row in shown.rows)
    if late:
        shown.said.append("%d %s behind the end and not judged" % (late, "row is" if late == 1 else "rows are"))
    return proved.Question(shown.form, *tolerance(options), end)


# ---- a table


def taken(options, log, first):
    """What a card shows in the log's time; `first` is the time of the log's first event."""
    path = options.times if options.shown is None else options.shown
    text = read_text(path).removeprefix("\ufeff")
    said = []
    form, rows, iso = selections(path, text) if options.shown is None else table(path, text, meanings(options.meant), log.profile, said)
    if not rows:
        raise Trouble("%s shows nothing, so there is no verdict" % name_of(path))
    for before, row in zip(rows, rows[1:]):
        if row.time < before.time:
            raise Trouble("%s:%d: a time before the one above it" % (name_of(path), row.place))
    zero = zero_of(options, rows, iso, first, name_of(path))
    return Shown(path, form, [Row(row.time - zero, row.octets) for row in rows], said)


# A row as the table has it, and in which line it stands.
Placed = collections.namedtuple("Placed", "place time octets")


def zero_of(options, rows, iso, first, name):
    """What time the table has at the log's time 0."""
    if options.offset is None and options.first_event is None:
        if iso:
            raise Trouble("%s has times of day: --offset says what time it is at the log's time 0, or --first-event at its first event" % name)
        return 0
    option, text = ("--offset", options.offset) if options.offset is not None else ("--first-event", options.first_event)
    if text == "":
        return rows[0].time - first
    if bool(ISO.fullmatch(text)) != iso:
        raise Trouble("%s has to be a time as those of %s, not %s" % (option, name, ascii(text)))
    time = instant(text, option) if iso else duration(text, option)
    return time if option == "--offset" else time - first


def selections(path, text):
    """Lines of TIME INPUT."""
    rows = []
    for place, line in enumerate(text.splitlines(), 1):
        told = line.split("#")[0].split()
        if not told:
            continue
        if len(told) != 2 or not re.fullmatch("[0-9]{1,15}", told[0]) or selected(told[1], None) is None:
            raise Trouble("%s:%d: a line is TIME INPUT, in ms and 0 to 15 or -" % (name_of(path), place))
        rows.append(Placed(place, int(told[0]), (*selected(told[1], None), 0, 0, 0, 0)))
    return "s", rows, False


def table(path, text, meant, profile, said):
    """The letters of the columns that are there, the rows, and whether their times are of day."""
    name = name_of(path)
    cells = cells_of(name, text)
    time, unit, columns = header(name, cells[0][1], said)
    if unit == EITHER:
        unit = ISO if len(cells) > 1 and ISO.fullmatch(cells[1][1][time]) else MS
    timed = [(place, time_in(name, place, row[time], unit), {letter: row[column] for letter, column in columns.items() if row[column]})
             for place, row in cells[1:]]
    if meant and not any(cell in meant for _, _, row in timed for cell in row.values()):
        raise Trouble("--as has no effect: none of its words stands in %s" % name)
    rows = []
    for place, when, row in joined(timed):
        rows.append(Placed(place, when, {letter: value(name, place, letter, cell, meant, profile) for letter, cell in row.items()}))
    return "".join(letter for letter in LETTERS if letter in columns), standing(rows, columns, said), unit == ISO


def cells_of(name, text):
    """The rows that have something in them, each with its line."""
    reader = csv.reader(io.StringIO(text, newline=""), delimiter="\t" if "\t" in text.partition("\n")[0] else ",")
    try:
        cells = [(reader.line_num, [cell.strip() for cell in row]) for row in reader if any(cell.strip() for cell in row)]
    except csv.Error as error:
        raise Trouble("%s:%d: %s" % (name, reader.line_num, error)) from error
    if not cells:
        raise Trouble("%s is empty, so there is no verdict" % name)
    for place, row in cells[1:]:
        if len(row) != len(cells[0][1]):
            raise Trouble("%s:%d: %d cells under %d columns" % (name, place, len(row), len(cells[0][1])))
    return cells


def joined(timed):
    """Rows of one time that fill different columns as one."""
    made = []
    for place, when, row in timed:
        if made and made[-1][1] == when and not made[-1][2].keys() & row.keys():
            row = made.pop()[2] | row
        made.append((place, when, row))
    return made


def standing(rows, columns, said):
    """What stands from each row on: an empty cell leaves what was there; from the row on with which each column has had something."""
    stands, made = dict.fromkeys(columns), []
    for row in rows:
        stands.update(row.octets)
        if None not in stands.values():
            made.append(row._replace(octets=octets_of(stands)))
    if made and len(made) < len(rows):
        said.append("the first %d rows are not judged: a column was still empty" % (len(rows) - len(made)))
    return made


def header(name, cells, said):
    """Where the time stands and in what unit, and where each letter that is judged does."""
    names = [re.sub("[^a-z]+", " ", cell.lower()).strip() for cell in cells]
    times = [place for place, each in enumerate(names) if each in TIMES]
    if len(times) != 1:
        raise Trouble("%s: one column is the time: time (in ms or ISO 8601), ms, or seconds; the header has %s" % (name, ascii(", ".join(cells))))
    columns = {}
    for place, each in enumerate(names):
        if each in COLUMNS and columns.setdefault(COLUMNS[each], place) != place:
            raise Trouble("%s: two columns are called %s" % (name, each))
    if not columns:
        raise Trouble("%s: no column is called selected, state, quality or switch; the header has %s" % (name, ascii(", ".join(cells))))
    others = [cell for place, cell in enumerate(cells) if place not in times and place not in columns.values()]
    if others:
        said.append("columns that are not judged: %s" % ", ".join(others))
    return times[0], TIMES[names[times[0]]], columns


# ---- times


def instant(text, where):
    """A time of day with its zone, in ms; what is finer is cut off."""
    try:
        told = datetime.datetime.fromisoformat(text)
    except ValueError as error:
        raise Trouble("%s: no time as 2026-11-17T09:00:00.000Z: %s" % (where, ascii(text))) from error
    if told.tzinfo is None:
        raise Trouble("%s: a time of day needs its zone, as Z or +01:00: %s" % (where, ascii(text)))
    return (told - EPOCH) // datetime.timedelta(milliseconds=1)


def time_in(name, place, cell, unit):
    """A cell's time in ms."""
    where = "%s:%d" % (name, place)
    if unit == ISO:
        return instant(cell, where)
    if unit == MS and re.fullmatch(r"-?[0-9]{1,15}", cell):
        return int(cell)
    if unit == SECONDS and re.fullmatch(r"-?[0-9]{1,12}(\.[0-9]{1,12})?", cell):
        return int((decimal.Decimal(cell) * 1000).to_integral_value(decimal.ROUND_FLOOR))
    raise Trouble("%s: no time in %s: %s" % (where, unit, ascii(cell)))


# ---- words


def meanings(text):
    """The card's words and what they mean."""
    found = {}
    for part in text.split(",") if text is not None else []:
        word, equals, meant = part.strip().rpartition("=")
        if not equals or not word or not meant or word in found:
            raise Trouble("--as is WORD=MEANING, .., each word once, not %s" % ascii(text))
        found[word] = meant
    return found


def value(name, place, letter, cell, meant, profile):
    """What a cell says in a column."""
    word = meant.get(cell, cell)
    read = READERS[letter](word, profile)
    if read is None:
        what = {"s": "an input is 0 to 15, or - for none", "c": "a clock state is free, hold or lock",
                "q": "a quality is %s" % ", ".join(profile.qualities.values()), "w": "a switch is forced N, manual N, or - for none"}[letter]
        raise Trouble("%s:%d: %s, not %s: --as '%s=..' says what it means" % (name, place, what, ascii(word), cell))
    return read


def selected(word, _profile):
    if word == "-":
        return (answers.NONE,)
    return (int(word),) if re.fullmatch("[0-9]|1[0-5]", word) else None


def state(word, _profile):
    names = [*answers.CLOCK.items(), *answers.STATES.items()]
    return next(((number,) for number, said in names if said == word.lower() and number in answers.CLOCK), None)


def quality(word, profile):
    names = {said.lower(): number for number, said in profile.qualities.items()} | {"%d" % number: number for number in profile.qualities}
    return (names[word.lower()],) if word.lower() in names else None


def switch(word, _profile):
    if word == "-":
        return 0, answers.NONE
    told = re.fullmatch("(forced|manual) ([0-9]|1[0-5])", word.lower())
    return (1 if told.group(1) == "forced" else 2, int(told.group(2))) if told else None


READERS = {"s": selected, "c": state, "q": quality, "w": switch}
WIDTHS = {"s": 1, "c": 1, "q": 1, "w": 2}


def octets_of(stands):
    """Selected, clock state, clock quality, switch and its input; 0 where that is not judged."""
    return tuple(octet for letter in LETTERS for octet in stands.get(letter, (0,) * WIDTHS[letter]))


def in_words(octets, form, profile):
    """What is shown, in words."""
    chosen, clock, told, switched, on = octets
    said = {
        "s": "input %d" % chosen if chosen != answers.NONE else "no input",
        "c": answers.CLOCK.get(clock, "clock state %02x" % clock),
        "q": profiles.quality(told, profile) if told else "no quality",
        "w": "no switch" if (switched, on) == (0, answers.NONE) else "%s to input %d" % (answers.SWITCHES.get(switched) or "switch %02x" % switched, on),
    }
    return ", ".join(said[letter] for letter in form)
