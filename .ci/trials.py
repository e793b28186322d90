"""Edits tried: a crate copied into a room of its own, beside copies of all that it rests on, the edits made there, and the crate checked by
`rt check`, over what is proved of it as it stands: what the room's first check left, which begins with what checks in this checkout kept. So an
edit costs what it changes, and not its whole crate; the prover says the same of it, whatever was tried before it. Nothing is written to the
repository's crates, nor to what is proved of them.

A function is judged against its own contract, and by no more than the contracts of those that it calls. So edits of the bodies of different
functions are tried in one check, each told by what is said of its own function. An edit of anything else, a promise, a definition or a
constant, is tried alone, and so is one of which such a check shows nothing."""
import glob
import os
import re
import shutil
import subprocess
import tempfile

from documents import changes, read

PARTS = ("src", "specs", "proofs")
ERROR = re.compile(r"^(?:note: )?(\S+?:\d+:\d+): (?:error: |(?=it is not proved))")
# what is said of a declaration that rests on one that was refused: of itself it shows nothing
LEFT_OPEN = re.compile(r"was not admitted|was rejected")


def write(path, text):
    with open(path, "w", encoding="utf-8") as file:
        file.write(text)


class Function:
    """A function in a file of a crate: from its head to its last brace; its body; where its proof stands."""

    def __init__(self, at, text, owner, head):
        indent, name = head.group("indent"), head.group("name")
        self.at, self.text = at, text
        # (a clause begins behind its brace, on the same line)
        # (an attribute above it is its own: the prover names what is not proved by the first of these lines)
        self.start = re.search(r"(?:^ *#\[[^\n]*\]\n)*\Z", text[:head.start()], re.M).start()
        self.body = head.start() + re.search(r"^[^\n]*\{$", text[head.start():], re.M).end()
        self.end = text.index(f"\n{indent}}}", self.body)
        module = [part for part in at.removesuffix(".rt").split("/")[1:] if part not in ("lib", "main", "mod")]
        self.path = [*module, *owner, name]

    def holds(self, at, old):
        """Whether a text of a file stands in the body, and nowhere else."""
        return at == self.at and self.text.count(old) == 1 and self.body <= self.text.find(old) < self.end

    def is_own(self, place):
        """Whether a place stands in the function or in its proof."""
        path, line, _ = place.removeprefix("./").rsplit(":", 2)
        first, last = (self.text[:end].count("\n") + 1 for end in (self.start, self.end))
        return os.path.dirname(path) == "/".join(["proofs", *self.path]) or (path == self.at and first <= int(line) <= last + 1)


def functions_of(crate):
    """The functions of a crate, methods too."""
    for path in sorted(glob.glob(f"crates/{crate}/src/**/*.rt", recursive=True)):
        text, owner = read(path), []
        for found in re.finditer(r'^(?:impl(?:<[^>]*>)? (?:\w+ for )?(?P<type>\w+)|\}|(?P<indent> *)(?:pub(?:\(\w+\))? )?(?:extern "C" )?fn (?P<name>\w+))', text, re.M):
            if found.group("name"):
                yield Function(os.path.relpath(path, f"crates/{crate}"), text, owner, found)
            else:
                owner = [found.group("type")] if found.group("type") else []


def changed_by(edit, functions):
    """The one function whose body an edit changes, if it changes that and nothing else; a text that an earlier pair of the edit put there
    stands where that one did."""
    pairs = changes(edit)
    first = [(at, old) for number, (at, old, _) in enumerate(pairs) if not any(at == other and old in new for other, _, new in pairs[:number])]
    holding = {function for at, old in first for function in functions if function.holds(at, old)}
    if len(holding) == 1 and all(function.holds(at, old) for function in holding for at, old in first):
        return holding.pop()
    return None


def of_function(said, function):
    """What a check said, of the errors those alone that stand in a function or in its proof; nothing where none shows that it is refused."""
    kept, own, shown = [], True, False
    for line in said.splitlines():
        error = ERROR.match(line)
        if error:
            own = function.is_own(error.group(1))
            shown = shown or (own and not LEFT_OPEN.search(line))
            if own and not shown:
                return None
        elif re.match(r"(?:fn|logic|library|crate|holes|rattle)\b", line):
            own = True
        if own:
            kept.append(line)
    return "\n".join(kept) + "\n" if shown else None


def below(crate):
    """The crates of the repository that a crate rests on, by crates.txt, and the crate itself."""
    lists = {name: words.split() for name, words in re.findall(r"^(\w+)(?: staticlib)?:([^#\n]*)", read("crates.txt"), re.M)}
    found, todo = [], [crate]
    while todo:
        name = todo.pop()
        if name in lists and name not in found:
            found.append(name)
            todo += lists[name]
    return found


def prove(crates):
    """Proves crates as they stand here, so that what is proved of them and below them is there for the rooms. What was said where that fails."""
    for crate in crates:
        done = subprocess.run(["rt", "check"], cwd=f"crates/{crate}", stdin=subprocess.DEVNULL, capture_output=True, text=True, errors="replace")
        if not is_proved(done.stdout + done.stderr, done.returncode):
            return f"{crate} is not proved:\n{(done.stdout + done.stderr)[-2000:]}"
    return None


class Room:
    """A repository of its own with copies of one crate and of those that it rests on."""

    def __init__(self, crate):
        self.crate, self.root = crate, tempfile.mkdtemp()
        self.folder = f"{self.root}/crates/{crate}"
        for name in below(crate):
            for part in PARTS:
                if os.path.isdir(f"crates/{name}/{part}"):
                    shutil.copytree(f"crates/{name}/{part}", f"{self.root}/crates/{name}/{part}")
        write(f"{self.root}/crates.txt", "".join(re.search(rf"^{name}(?: staticlib)?:.*\n", read("crates.txt"), re.M).group() for name in below(crate)))
        if os.path.exists("HANDLES"):
            shutil.copy("HANDLES", self.root)
        # (it is the top of a repository)
        os.mkdir(f"{self.root}/.git")
        self.kept, self.proved = f"{self.folder}/out/incremental", None

    def __enter__(self):
        return self

    def __exit__(self, *_):
        shutil.rmtree(self.root, ignore_errors=True)

    def check(self):
        """Checks the crate as it stands; what is said, with places from the crate's folder on, and the exit status."""
        if self.proved:
            shutil.rmtree(self.kept, ignore_errors=True)
            shutil.copytree(self.proved, self.kept, symlinks=True)
        done = subprocess.run(["rt", "check", "--jobs", "1"], cwd=self.folder, stdin=subprocess.DEVNULL, capture_output=True, text=True, errors="replace")
        if not self.proved and done.returncode == 0 and os.path.isdir(self.kept):
            self.proved = f"{self.root}/proved"
            os.rename(self.kept, self.proved)
        said = done.stdout + done.stderr
        return re.sub(r"^((?:note: )?)\./", r"\1", said.replace(f"{self.folder}/", ""), flags=re.M), done.returncode

    def tried(self, pairs):
        """Checks the crate with some changes made, and takes them back; or says which of them can't be made."""
        kept = {}
        try:
            for at, old, new in pairs:
                text = kept.setdefault(at, read(f"{self.folder}/{at}"))
                now = read(f"{self.folder}/{at}")
                if now.count(old) != 1:
                    return f"BAD EDIT: its old text stands {now.count(old)} times in {at}: {text[:0]}{old}", 2
                write(f"{self.folder}/{at}", now.replace(old, new))
            return self.check()
        finally:
            for at, text in kept.items():
                write(f"{self.folder}/{at}", text)


def is_proved(said, status):
    """Whether a check has proved its crate."""
    return status == 0 and "\nlogic=proved" in f"\n{said}"


def is_refused(said, status):
    """Whether the prover has refused a crate: it got there, over what is proved of it, and said no."""
    return status == 1 and "\nlogic=not-proved" in f"\n{said}" and bool(re.search(r"^crate \w+: modules loaded=[1-9]", said, re.M))


def try_together(room, paths):
    """Tries edits of different functions' bodies in one check, as often as there are two to try so. Of each of which it is shown that it is
    refused its path, what was said of its function and the exit status."""
    functions = list(functions_of(room.crate))
    waiting = {path: function for path in paths if (function := changed_by(path, functions))}
    while True:
        together = {function: path for path, function in reversed(waiting.items())}
        if len(together) < 2:
            return
        said, status = room.tried([change for path in together.values() for change in changes(path)])
        for function, path in together.items():
            del waiting[path]
            own = of_function(said, function) if is_refused(said, status) else None
            if own:
                yield path, own, status


def try_edits(crate, paths):
    """Tries edits of a crate. First of the crate as it stands, with no path, then of each its path, what was said and the exit status."""
    with Room(crate) as room:
        yield None, *room.check()
        shown = set()
        for path, said, status in try_together(room, paths):
            shown.add(path)
            yield path, said, status
        for path in paths:
            if path not in shown:
                yield path, *room.tried(changes(path))
