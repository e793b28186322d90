"""What the checks of .ci/more that read the documents and the sources share. They run at the repository's root."""
import glob
import os
import re
import sys

os.chdir(os.path.dirname(os.path.dirname(os.path.abspath(__file__))))
CRATES = sorted(os.path.basename(os.path.dirname(path)) for path in glob.glob("crates/*/src"))
MUST_FAIL, FURTHER, WRONG_ANSWERS = "crates/{}/must-fail", "tests/edits/further-edits/{}", "tests/edits/wrong-answers/{}"


def read(path):
    with open(path, encoding="utf-8") as file:
        return file.read()


def edits(folder):
    """The edits in a folder of each crate: their paths, with the crate of each."""
    return {path: crate for crate in CRATES for path in glob.glob(folder.format(crate) + "/*.edit")}


def name_of(path):
    """An edit's name, by its path."""
    return os.path.basename(path).removesuffix(".edit")


def changes(path):
    """What an edit changes: of each of its pairs the file, below its crate's folder, the old text and the new one."""
    at, old, pairs = None, None, []
    for line in read(path).splitlines():
        if line.startswith("file: "):
            at = line[len("file: "):]
        elif line.startswith("old: "):
            old = line[len("old: "):]
        elif line.startswith("new:"):
            pairs.append((at, old, line[len("new:"):].removeprefix(" ")))
    return pairs


def declared(paths):
    """The names that files of antt declare: definitions, records, fields and laws."""
    names = set()
    for path in paths:
        for line in read(path).splitlines():
            match = re.match(r"\s*(?:abbrev |unfoldable )?(?:pub )?([^\s:(){}]+)(?: [^:]*)? :", line)
            if match:
                names.add(match.group(1))
            names.update(re.findall(r"^\s*(?:pub )?(?:record|data) (\w+)", line))
    return names


def cells(line):
    """The cells of a table's row."""
    return [cell.strip() for cell in line.strip().strip("|").split(" | ")]


def sections(path):
    """A document's sections: the title of each, and its lines."""
    parts = re.split(r"^## (.*)$", read(path), flags=re.M)[1:]
    return {title: text.splitlines() for title, text in zip(parts[::2], parts[1::2])}


def end(wrong, said):
    """Prints what is wrong, and what was looked at; the command fails where something is wrong."""
    print("\n".join([*wrong, said]))
    sys.exit(1 if wrong else 0)
