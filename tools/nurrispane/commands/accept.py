"""Accepts a card, or doesn't: plays the sequences of sequences/wire to it one after the other, judges each from the wire alone, and
writes a report. docs/ACCEPTANCE.md is the guide. --lines adds those of sequences/wire-lines, for a hook that can give line codes.

REPORT is a directory: report.html is one page that prints, report.json has the same, report.xml is JUnit's form; below records/ is the
record of each sequence, which `./nurrispane wire` judges again at any time. It runs unattended and says how long it will take. Where it was
stopped, --resume goes on with the sequences that are not played yet. Exit status 0: nothing is wrong; 1: a finding; 2: trouble, which is
never a verdict on the card."""

import pathlib
import sys
import time

from nurrispane import durations, hooks, judgements, plays, profiles, records, reports, words
from nurrispane.commands import play, wire
from nurrispane.files import FINDING, FINE, ROOT, TROUBLE, Trouble, free_directory, name_of, read_text, write

SUMMARY = "accept a card: the whole set played and judged from the wire, with a report"
LIVE = True
EXAMPLES = [
    "./nurrispane accept --map 4=eth1 5=eth2 3=eth3 2=eth4 --hook './our-card' -o REPORT",
    "./nurrispane accept --short --map 4=eth1 5=eth2 3=eth3 2=eth4 --hook 'hooks/ask' --patience 5min -o REPORT",
]
SET, LINES = ROOT / "sequences" / "wire", ROOT / "sequences" / "wire-lines"
SHORT = SET / "short.txt"
# A fresh card and a judgement take about so long beside a sequence, ms.
BESIDE = 2_500


def arguments(parser):
    play.card_arguments(parser)
    wire.tolerances(parser)
    profiles.argument(parser)
    parser.add_argument("--option", type=int, choices=words.OPTIONS, default=1, help="the card's option (1)")
    parser.add_argument("--short", action="store_true", help="the short set, for each morning")
    parser.add_argument("--lines", action="store_true", help="also the sequences with line codes, which the hook gives to the card")
    parser.add_argument("--only", nargs="+", metavar="NAME", help="these sequences alone")
    parser.add_argument("--resume", action="store_true", help="go on where REPORT stopped")
    parser.add_argument("-o", "--out", required=True, type=pathlib.Path, metavar="REPORT", help="a directory that is made")


def chosen(options):
    """The files of the set; those of the short set come first, in its order."""
    first, lines = read_text(SHORT).split(), list(LINES.glob("*.words"))
    found = [*SET.glob("*.words"), *(lines if options.lines or options.only else [])]
    paths = sorted(found, key=lambda path: (first.index(path.stem) if path.stem in first else len(first), path.stem))
    names = options.only or ([*first, *(path.stem for path in lines)] if options.short else None)
    if names is not None:
        missing = set(names) - {path.stem for path in paths}
        if options.only and missing:
            raise Trouble(f"no such sequence: {', '.join(sorted(missing))}; there are {', '.join(path.stem for path in paths)}")
        paths = [path for path in paths if path.stem in names]
    return [path for path in paths if words.options_of(read_text(path))[:1] == [options.option]]


def prepared(out, resume):
    """The directory of records."""
    if not resume:
        free_directory(out)
    try:
        (out / "records").mkdir(parents=True, exist_ok=True)
    except OSError as error:
        raise Trouble(f"{name_of(out)} cannot be made: {error.strerror}") from error
    return out / "records"


def is_whole(record):
    """Whether a record is there and was not stopped."""
    return (record / records.ABOUT).exists() and "stopped" not in records.read_about(record / records.ABOUT)


def set_aside(record):
    """Makes room for a new record: what was stopped is kept under another name."""
    if record.exists():
        record.rename(record.with_name(f"{record.name}.stopped-{time.time_ns()}"))


def run(options):
    ports, start = plays.ports_of(options.map), profiles.start_of(options.start)
    profiles.of_log(options.option, start)
    todo = [plays.Play(path, ports, start) for path in chosen(options)]
    if not todo:
        raise Trouble("no sequence is chosen")
    folder = prepared(options.out, options.resume)
    whole = sum(one.length + BESIDE for one in todo if not (options.resume and is_whole(folder / one.path.stem)))
    say(f"{len(todo)} sequence{'s' * (len(todo) > 1)}, about {durations.in_words(whole)}")
    done = all_played(options, todo, folder, whole)
    data = reports.data_of(done, about(options, ports))
    for name, text in (("report.json", reports.in_json(data)), ("report.xml", reports.in_junit(data)), ("report.html", reports.in_html(data, done))):
        write(options.out / name, text.encode())
    say(f"{data['says']}: {name_of(options.out / 'report.html')}")
    return {"right": FINE, "wrong": FINDING, "none": TROUBLE}[data["verdict"]]


def say(text):
    sys.stderr.write(text + "\n")
    sys.stderr.flush()


def all_played(options, todo, folder, whole):
    """Each sequence played, unless it was before, and judged; after a trouble no further one is played."""
    card, done, progress, past, stopped = None, [], plays.Progress(whole), 0, None
    try:
        for one in todo:
            record, trouble = folder / one.path.stem, None
            if not (options.resume and is_whole(record)) and stopped is None:
                card = card or started(options)
                set_aside(record)
                trouble = stopped = played(one, card, record, progress, past)
                past += one.length + BESIDE
            done.append(judged(one, record, trouble or (None if record.exists() else f"not played: {stopped}"), options))
            say(f"{one.path.stem}: {summary(done[-1])}")
    finally:
        if card:
            card.close()
    return done


def started(options):
    card = hooks.Hook(options.hook, options.patience)
    if options.real_time:
        plays.take_real_time()
    return card


def played(one, card, record, progress, past):
    """What went wrong with playing a sequence, None where nothing did."""
    try:
        one.to(card, record, progress, past)
    except Trouble as trouble:
        return str(trouble)
    return None


def judged(one, record, trouble, options):
    judgement = None
    if record.exists():
        try:
            judgement = judgements.judged(records.read(record), options.tolerance, options.heartbeat)
        except Trouble as what:
            trouble = trouble or str(what)
    return reports.Played(one.path.stem, one.shows, one.length, record, judgement, trouble)


def summary(done):
    """A line for a sequence."""
    if done.judgement and done.judgement.findings:
        return "; ".join(f"{one.rule}: {one.text}" for one in done.judgement.findings)
    return "; ".join(reports.troubles_of(done)) or "right"


def about(options, ports):
    """What the report says of the bench."""
    return {
        "made": time.strftime("%Y-%m-%d %H:%M:%S %Z"), "ports": ", ".join(f"{port} = {name}" for port, name in ports.items()),
        "hook": options.hook, "option": str(options.option), "start": options.start or "-",
        "tolerance": f"{options.tolerance} ms", "heartbeats": f"{options.heartbeat} ms", **plays.versions(),
    }
