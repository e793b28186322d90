"""The faulty cards: livecard/ with a patch of tests/laboratory/faulty-cards each, applied to a copy and built there."""

import collections
import hashlib
import os
import pathlib
import platform
import shutil
import subprocess

ROOT = pathlib.Path(__file__).resolve().parents[3]
HERE = ROOT / "tests" / "laboratory" / "faulty-cards"
BUILT = ROOT / "target" / "faulty-cards"
LIBRARIES = ROOT / "target" / "staticlib" / ("aarch64" if platform.machine() == "aarch64" else "")
CALL = [os.environ.get("CC", "cc"), "-std=c11", "-D_GNU_SOURCE", "-O2", "-I", str(ROOT / "include")]

# A faulty card: the rule that its first finding has to name, "-" where no wire shows it, and the sequences that show it.
Fields = collections.namedtuple("Fields", "name patch flags rule by")


# The sequences of which it is known whether they show a fault, the short set; of others it is not said.
LOOKED_AT = (ROOT / "sequences" / "wire" / "short.txt").read_text().split()
OPTION_II = "option-2"
# What a card of option II is started with: PROV just below STU, ports 2 and 3 of the first generation.
PLACE, MARKS = "2", "0f0f"
# The patch of a card that is built right and started otherwise, with its flags.
NONE = "-"


class Faulty(Fields):
    def shown_by(self, names):
        """Those of some sequences that have to show the fault."""
        return [name for name in names if "all" in self.by or name in self.by]

    def silent_in(self, names):
        """Those of some sequences that can't show it."""
        return [name for name in names if name in LOOKED_AT and name not in self.shown_by(names)]

    def played(self):
        """The sequences that it is played: the short set of its option, and what else has to show it."""
        option = [name for name in LOOKED_AT if name.startswith(OPTION_II) == is_of_option_two(self.name)]
        return [*option, *(name for name in self.by if name not in (*option, "all"))]


def is_of_option_two(name):
    return name.endswith(OPTION_II)


def started(name):
    """What a card of this name is started with."""
    one = cards().get(name)
    if one and one.patch == NONE:
        return one.flags
    return ["--option", "2", "--place", PLACE, "--marks", MARKS] if is_of_option_two(name) else []


def cards():
    """The faulty cards by name."""
    lines = [line for line in (HERE / "cards.txt").read_text().splitlines() if line and not line.startswith("#")]
    rows = [[cell.strip() for cell in line.split("|")] for line in lines]
    found = [Faulty(name, patch, flags.split(), rule, by.split()) for name, patch, flags, rule, by in rows]
    return {one.name: one for one in found}


def key(one):
    """A name made of all that a card is built of."""
    parts = [path.read_bytes() for path in [*sorted((ROOT / "livecard").glob("*.[ch]")), HERE / (one.patch + ".patch")]]
    return hashlib.sha256(b"\0".join([*parts, " ".join(one.flags).encode()])).hexdigest()[:16]


def build(one):
    """The built program of a faulty card, None for the right one; livecard/build has made the libraries."""
    if one.patch == NONE:
        return None
    program = BUILT / f"{one.name}-{key(one)}"
    if program.exists():
        return program
    room = BUILT / (one.name + ".room")
    shutil.rmtree(room, ignore_errors=True)
    shutil.copytree(ROOT / "livecard", room / "livecard")
    applied = subprocess.run(["patch", "-p1", "-s", "-i", str(HERE / (one.patch + ".patch"))], cwd=room, capture_output=True, text=True)
    if applied.returncode != 0:
        raise AssertionError("%s.patch: %s" % (one.patch, applied.stdout + applied.stderr))
    sources = [str(path) for path in sorted((room / "livecard").glob("*.c"))]
    libraries = [str(LIBRARIES / name) for name in ("libunitcard.a", "libcard.a")]
    new = room / "card"
    made = subprocess.run([*CALL, *one.flags, *sources, *libraries, "-pthread", "-o", str(new)], capture_output=True, text=True)
    if made.returncode != 0:
        raise AssertionError("%s does not compile: %s" % (one.name, made.stderr[-2000:]))
    new.replace(program)
    shutil.rmtree(room)
    return program
