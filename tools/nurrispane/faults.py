"""The known faults: wrong copies of the independent program, and what each does to a log.

tests/independent/wrong-copies*.txt list them: a name, the mode in which the fault shows if it isn't
`replay`, with START where it is one of option II, and edits of the program's text. A copy is built once and kept below target/, under a name
made of its text, so that it is built anew where anything of it has changed. One for a mode that takes
a log has sequences/log_modes.rs in place of the program's main.rs.
"""

import collections
import hashlib
import os
import pathlib
import re
import shutil
import subprocess
import sys
import tempfile

from nurrispane import answers, programs
from nurrispane.files import ROOT, Trouble, reason

SOURCES = ROOT / "tests" / "independent"
MAIN = ROOT / "sequences" / "log_modes.rs"
BUILT = ROOT / "target" / "known-faults"
# Not optimised: a build is quick, and no check is in it that the program doesn't have.
FLAGS = "-C opt-level=0 -C debug-assertions=off -C overflow-checks=off -C strip=symbols --edition 2021 -A warnings"
# A copy that takes longer has lost its way; that shows.
PATIENCE = 60
# Octets of logs that a copy gets through in a second, at the least.
SLOWEST = 100_000
# How many are built between two words on it.
EVERY = 20
# What every card shows: its answers, and the codes on its ports.
SHOWN = ("replay", "outgoing")
# The modes that take a log. The count of due moments is asked for where a fault shows in nothing else.
LOG_MODES = SHOWN + ("counts",)

Fault = collections.namedtuple("Fault", "name mode edits")
# Where a fault shows first in a log: the line from 1, and what is right and what the fault says there.
Found = collections.namedtuple("Found", "fault mode line right wrong")


def lists():
    """The files that list known faults, the independent program's own first."""
    return sorted(SOURCES.glob("wrong-copies*.txt"), key=lambda path: len(path.name))


def known():
    """The known faults that a log of option I may show."""
    return [fault for fault in every() if fault.mode in LOG_MODES]


def known_of_option_two():
    """The known faults that a log of option II alone may show, with the START of their mode."""
    return [fault for fault in every() if fault.mode not in LOG_MODES and fault.mode.split()[0] in LOG_MODES]


def start_of(fault):
    """START of a fault's mode, as the programs take it."""
    return tuple(fault.mode.split()[1:])


def of_answers(option):
    """The known faults that the answers to a log of this option may show."""
    return [fault for fault in every() if fault.mode == "replay" or option != 1 and fault.mode.startswith("replay ")]


# "NAME (MODE START)"
NAMED = re.compile(r"(.*?)(?: \(([a-z_-]+(?: [0-9a-f ]+)?)\))?")


def every():
    """Every known fault, in the order of the lists: those of frames and of other tools too."""
    faults = []
    for path in lists():
        for text in path.read_text().splitlines():
            mark, rest = text[:1], text[2:]
            if mark == "#":
                name, mode = NAMED.fullmatch(rest).groups()
                faults.append(Fault(name, mode or "replay", []))
            elif mark == "@":
                faults[-1].edits.append((rest, [], []))
            elif mark in ("<", ">"):
                faults[-1].edits[-1][1 if mark == "<" else 2].append(rest)
    return faults


RIGHT = Fault("no fault", "replay", [])


def main_of(fault):
    return MAIN.name if fault.mode.split()[0] in LOG_MODES else "main.rs"


def sources(fault, added=None):
    """The text of each file that the program with this fault is built of, its main file first; `added` are files beside
    the program's own."""
    texts = {path.name: path.read_text() for path in [MAIN, *SOURCES.glob("*.rs")]}
    texts.update(added or {})
    for name, old, new in fault.edits:
        old = "\n".join(old)
        if old not in texts.get(name, ""):
            raise Trouble("known fault \"%s\": %s has no longer the text it changes" % (fault.name, name))
        texts[name] = texts[name].replace(old, "\n".join(new), 1)
    main = main_of(fault)
    modules = [name + ".rs" for name in re.findall(r"^mod (\w+);", texts[main], re.M)]
    return {name: texts[name] for name in [main, *modules]}


def key(fault, added=None):
    """A name made of the text of the program with this fault."""
    parts = [part for named in sources(fault, added).items() for part in named]
    return hashlib.sha256("\0".join([FLAGS] + parts).encode()).hexdigest()[:24]


def path_of(fault, added=None):
    return BUILT / key(fault, added)


def build(fault, added=None):
    """The path of the built program."""
    program = path_of(fault, added)
    if program.exists():
        return program
    if not shutil.which("rustc"):
        raise Trouble("rustc is not there, so the known faults cannot be built")
    try:
        BUILT.mkdir(parents=True, exist_ok=True)
        with tempfile.TemporaryDirectory(dir=BUILT) as directory:
            for name, text in sources(fault, added).items():
                (pathlib.Path(directory) / name).write_text(text)
            made = os.path.join(directory, "made")
            call = ["rustc", *FLAGS.split(), os.path.join(directory, main_of(fault)), "-o", made]
            said = subprocess.run(call, capture_output=True)
            if said.returncode != 0:
                what = said.stderr.decode(errors="replace").strip().splitlines()
                raise Trouble("known fault \"%s\" does not compile: %s" % (fault.name, what[0] if what else "no reason"))
            os.replace(made, program)
    except OSError as error:
        raise Trouble("known fault \"%s\" cannot be built: %s" % (fault.name, reason(error))) from error
    return program


def run(program, mode, data, start=()):
    """What a copy says to a log, line by line; None where it doesn't end or has no such mode."""
    try:
        said = subprocess.run([str(program), mode, *(start if mode in programs.TAKE_START else ())], input=data, capture_output=True, timeout=PATIENCE)
    except subprocess.TimeoutExpired:
        return None
    return said.stdout.split(b"\n")[:-1] if said.returncode == 0 else None


def prepare(chosen, who):
    """Builds what is not built yet; `who` says on standard error how far it is."""
    missing = [fault for fault in chosen if not path_of(fault).exists()]
    if missing:
        sys.stderr.write("%s: building %d programs, half a second each, once: they are kept\n" % (who, len(missing)))
    for count, fault in enumerate(missing, 1):
        build(fault)
        if count % EVERY == 0 or count == len(missing) > EVERY:
            sys.stderr.write("%s: %d of %d built\n" % (who, count, len(missing)))
            sys.stderr.flush()


def several(program, logs):
    """What a copy says to each of these logs: a line for each of its lines with answer, codes and count. None where
    it doesn't end."""
    asked = b"".join(b"%d\n%s" % (len(log), log) for log in logs)
    try:
        said = subprocess.run([str(program), "several"], input=asked, capture_output=True, timeout=PATIENCE + len(asked) / SLOWEST)
        told = said.stdout.split(b"log\n")[1:] if said.returncode == 0 else []
    except subprocess.TimeoutExpired:
        told = []
    if len(told) == len(logs):
        return told
    # one of them brings it down: the others are asked without it
    half = len(logs) // 2
    return several(program, logs[:half]) + several(program, logs[half:]) if half else [None] * len(logs)


def difference(fault, right, wrong):
    """Where a fault shows first in a log, by what `several` tells: mode, line from 1, right and wrong; None where it doesn't."""
    if right == wrong:
        return None
    one, other = ((told or b"").split(b"\n")[:-1] for told in (right, wrong))
    places = [place for place, pair in enumerate(zip(one, other)) if pair[0] != pair[1]]
    if len(one) != len(other):
        places.append(min(len(one), len(other)))
    for column, mode in enumerate(LOG_MODES):
        for place in places if mode in modes(fault) else ():
            said = [side[place].split(b" ")[column] if place < len(side) else b"" for side in (one, other)]
            if said[0] != said[1]:
                return mode, place + 1, *said
    return None


def difference_on_ports(ports, right, wrong):
    """Where the codes that these ports send differ first, told as `difference` tells it: those of these ports."""
    if right == wrong:
        return None
    sent = [[bytes(line.split(b" ")[1][port] for port in ports) for line in (told or b"").splitlines()] for told in (right, wrong)]
    first = first_difference(*sent)
    if first is None:
        return None
    return "outgoing", first + 1, *(side[first] if first < len(side) else b"" for side in sent)


def rights(logs):
    """What is right for each of these logs, told as `several` tells it: what the proved programs say, with which the
    independent program has to agree."""
    told = several(build(RIGHT), logs)
    for log, said in zip(logs, told):
        lines = zip(*(programs.answers(mode, log) for mode in LOG_MODES))
        proved = b"".join(b" ".join(line) + b"\n" for line in lines)
        if proved != said:
            place = first_difference(proved.splitlines(), (said or b"").splitlines())
            raise Trouble("line %d: the independent program and the proved ones differ" % (place + 1))
    return told


def first_difference(one, other):
    """The first place at which two lists differ, or None."""
    for place, (first, second) in enumerate(zip(one, other)):
        if first != second:
            return place
    return None if len(one) == len(other) else min(len(one), len(other))


def modes(fault):
    """The modes in which a log may show a fault."""
    return [mode for mode in LOG_MODES if mode in SHOWN or mode == fault.mode]


def find(fault, data):
    """Where a log shows a fault first: in its answers, otherwise in the outgoing codes or the fault's own mode. None
    where it doesn't."""
    (right,), (wrong,) = rights([data]), several(build(fault), [data])
    shown = difference(fault, right, wrong)
    return shown and Found(fault, *shown)


def in_words(mode, line, told=answers.words):
    """An answer as `told` has it, codes or a count."""
    if line == b"":
        return "nothing"
    return told(line) if mode == "replay" else "%s %s" % (mode, line.decode(errors="replace"))
