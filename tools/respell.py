#!/usr/bin/env python3
"""Brings the repository's own definitions and lemmas to one spelling: snake case.

usage: python3 tools/respell.py [--list]     at the top, once, on what the kit's port.py has turned

A name of specs/ or proofs/ in camel case, or with words joined by dashes, is written in snake case. A dash stays where
it joins two names that are declared, as in `answer_text-length`. A lemma that would have its function's name ends in
`_lem`. Names of src/, strings, inputs and outputs keep their spelling; so do the names that the prover makes, which
follow a dot in a proof that answers goals. --list prints the table and changes nothing.
"""
import collections
import os
import re
import sys

NAME = r"[^\s(){}\[\];,.:`\"|]+"
WORDS = re.compile(r"[A-Za-z_\u00b7][^\s(){}\[\];,.:`\"|]*")
LIBRARY = set("length append drop take map set add sub mul zero suc one nil cons filter reverse slice get flatten min max".split())


def antt_files(root):
    for folder, folders, files in os.walk(os.path.join(root, "crates")):
        folders[:] = sorted(f for f in folders if f != "out")
        for name in sorted(files):
            if name.endswith(".antt"):
                yield os.path.join(folder, name)


def is_answers(path):
    return os.path.basename(path) in ("Proof.antt", "Answers.antt", "Invariants.antt")


def declared(root):
    """Each declared name, with how often it is declared in specs/, as a record's field, and in all."""
    places = collections.defaultdict(lambda: collections.Counter())
    for path in antt_files(root):
        if is_answers(path):
            continue
        place = "specs" if "/specs/" in path else "proofs"
        record = None
        with open(path, encoding="utf-8") as file:
            for line in file:
                if not line.strip() or line.lstrip().startswith("--"):
                    continue
                indent = len(line) - len(line.lstrip())
                if record is not None and indent <= record:
                    record = None
                head = re.match(r"\s*(?:pub )?(record|data)\s+(" + NAME + ")", line)
                if head:
                    places[head.group(2)]["type"] += 1
                    record = indent
                    continue
                found = re.match(r"\s*(?:(?:abbrev|unfoldable|pub|axiom)\s+)*(" + NAME + r")\s+:(?=\s|$)", line)
                if found:
                    places[found.group(1)][place] += 1
                    if record is not None:
                        places[found.group(1)]["field"] += 1
    return places


def snake_word(word):
    word = re.sub(r"(?<=[a-z0-9])([A-Z])", lambda m: "_" + m.group(1), word)
    return word[0] + word[1:].lower() if word else word


def is_camel(name):
    return bool(re.search("[A-Z]", name))


def table(places):
    names = {n for n in places if not n[0].isupper()}
    plain = {}
    for name in sorted(names):
        if not (name[0].islower() and (is_camel(name) or "-" in name)):
            continue
        parts = name.split("-")
        new = snake_word(parts[0])
        before = parts[0]
        for part in parts[1:]:
            joins = (before in names or before in LIBRARY) and (part in names or part in LIBRARY)
            new += ("-" if joins else "_") + snake_word(part)
            before = part
        plain[name] = new
    groups = collections.defaultdict(list)
    for name in sorted(names):
        groups[plain.get(name, name)].append(name)
    turned = {}
    for new, group in groups.items():
        if len(group) == 1:
            chosen = group[0]
        else:
            # the definition of specs/ has the name; what is said of it ends in _lem
            ranked = sorted(group, key=lambda n: (places[n]["specs"] == 0, not is_camel(n), "-" in n, n))
            chosen = ranked[0]
        for name in group:
            to = new if name == chosen else new + "_lem"
            if to != name:
                turned[name] = to
    return turned


def turn_text(text, turned, fields, answers):
    out = []
    end = 0
    for found in WORDS.finditer(text):
        name = found.group(0)
        to = turned.get(name)
        if to is None:
            continue
        start = found.start()
        if start and re.match(r"[\w'\-\u00b7]", text[start - 1]):
            continue
        if start and text[start - 1] == ".":
            owner = re.search(r"([^\s(){}\[\];,.:`\"|]+)\.$", text[:start])
            of_module = bool(owner) and owner.group(1)[0].isupper()
            if answers and not of_module and (name not in fields or "-" in name):
                continue
            if not of_module and name not in fields:
                continue
        out.append(text[end:start])
        out.append(to)
        end = found.end()
    out.append(text[end:])
    return "".join(out)


CLAUSE = re.compile(r"\b(ghost use|requires\*?|ensures\*?|ghost)\b")


def turn_source(text, turned, fields):
    """Only what is ghost in a source file: its imports, clauses and ghost items, and names in backquotes in comments."""
    # a name in snake case may be a function's own: what says something of it has another name, and stands in no source
    turned = {name: to for name, to in turned.items() if is_camel(name) or "-" in name}
    out = []
    for line in text.split("\n"):
        code = line.split("//")[0]
        if "//" in line:
            comment = line[len(code):]
            comment = re.sub(r"`[^`]*`", lambda m: turn_text(m.group(0), turned, fields, False), comment)
        else:
            comment = ""
        # a name in camel case or with a dash stands in no Rust code of ours, but for a string
        pieces = re.split(r'("(?:[^"\\]|\\.)*")', code)
        code = "".join(p if p.startswith('"') else turn_text(p, turned, fields, False) for p in pieces)
        out.append(code + comment)
    return "\n".join(out)


def main():
    root = "."
    places = declared(root)
    turned = table(places)
    fields = {n for n in places if places[n]["field"]}
    if "--list" in sys.argv:
        for name in sorted(turned):
            print(name, turned[name])
        return 0
    changed = 0
    for folder, folders, files in os.walk(os.path.join(root, "crates")):
        folders[:] = sorted(f for f in folders if f != "out")
        for name in sorted(files):
            path = os.path.join(folder, name)
            if not name.endswith((".antt", ".rt", ".edit")):
                continue
            with open(path, encoding="utf-8") as file:
                text = file.read()
            if name.endswith(".antt"):
                new = turn_text(text, turned, fields, is_answers(path))
            else:
                new = turn_source(text, turned, fields)
            if new != text:
                changed += 1
                with open(path, "w", encoding="utf-8") as file:
                    file.write(new)
    for folder, folders, files in os.walk(os.path.join(root, "tests", "edits")):
        for name in sorted(files):
            path = os.path.join(folder, name)
            if not name.endswith(".edit"):
                continue
            with open(path, encoding="utf-8") as file:
                text = file.read()
            new = turn_source(text, turned, fields)
            if new != text:
                changed += 1
                with open(path, "w", encoding="utf-8") as file:
                    file.write(new)
    # pages name definitions in backquotes
    for folder, folders, files in os.walk(root):
        folders[:] = [f for f in folders if f not in ("crates", ".git", "out", "target")]
        for name in files:
            if not name.endswith(".md"):
                continue
            path = os.path.join(folder, name)
            with open(path, encoding="utf-8") as file:
                text = file.read()
            new = re.sub(r"`[^`\n]*`", lambda m: turn_text(m.group(0), turned, fields, False), text)
            if new != text:
                changed += 1
                with open(path, "w", encoding="utf-8") as file:
                    file.write(new)
    print(f"respelled: {len(turned)} names, {changed} files")
    return 0


if __name__ == "__main__":
    raise SystemExit(main())
