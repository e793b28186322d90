"""Which known faults a log can show at all, without building them: those of which the log reaches what they change.

The independent program, with sequences/entered.rs put in, tells each of its functions that a log enters, and each event that is
obeyed or judged. A fault that changes nothing but the inside of functions that aren't entered, or arms of a `match` for events
that don't come, gives the right answers. Nothing here knows a rule.
"""

import collections
import re
import subprocess

from nurrispane import faults
from nurrispane.files import ROOT, Trouble

ENTERED = ROOT / "sequences" / "entered.rs"
# The files that a fault of answers changes.
FILES = ("frame.rs", "hex.rs", "line.rs", "log.rs", "replay.rs", "selector.rs")
FUNCTION = re.compile(r"^( *)(?:pub(?:\([a-z]+\))? )?fn (\w+)", re.M)
CONSTANT = re.compile(r"(?:pub )?const (\w+):")
# An arm for an event, or for a switch, which comes from the event of its name.
ARM = re.compile(r" *(?:Event|Switch)::(\w+).*=>")

# A function: its name with the file, the place of its first character, of its body, and after its last.
Function = collections.namedtuple("Function", "name start body end")


def functions(name, text):
    """The functions of a file that rustfmt has put in form: one ends with a brace that stands as far in as it begins."""
    found = []
    for head in FUNCTION.finditer(text):
        body, end = text.find("{\n", head.start()), text.find("\n%s}\n" % head.group(1), head.start())
        if 0 <= body < end:
            found.append(Function("%s:%s:%d" % (name, head.group(2), head.start()), head.start(), body + 2, end))
    return found


def observer():
    """The independent program that tells what it enters, and which events it obeys."""
    edits = [(faults.MAIN.name, ["mod log;"], ["mod log;", "mod entered;"])]
    program, texts = faults.Fault("told what it enters", "replay", edits), {ENTERED.name: ENTERED.read_text()}
    for name in FILES:
        text = (faults.SOURCES / name).read_text()
        for function in reversed(functions(name, text)):
            told = "crate::entered::function(\"%s\");\n" % function.name
            if re.search(r"\bevent: Event\b", text[function.start:function.body]):
                told += "crate::entered::event(&event);\n"
            text = text[:function.body] + told + text[function.body:]
        texts[name] = text
    return faults.build(program, texts)


def reached(lines, start=()):
    """The functions that these lines of a log enter, and the names of their events."""
    run = subprocess.run([str(observer()), "replay", *start], input=b"".join(line + b"\n" for line in lines), capture_output=True)
    if run.returncode != 0:
        raise Trouble("the independent program does not tell what a log reaches")
    told = [line.split(" ", 1) for line in run.stderr.decode().splitlines()]
    return ({what for kind, what in told if kind == "function"}, {what for kind, what in told if kind == "event"})


def able(chosen, lines, start=()):
    """Of these faults those that may change an answer to these lines, of a log of option II with this START."""
    entered, events = reached(lines, start)
    return [fault for fault in chosen if can_show(fault, entered, events)]


def can_show(fault, entered, events):
    """Whether a log that reaches this may show a fault."""
    return not fault.edits or any(can_act(edit, entered, events) for edit in fault.edits)


def can_act(edit, entered, events):
    """Whether what an edit changes is reached. What stands in no function is a part of a type, which does nothing by itself, a
    constant, which does something where it is named, or may do anything."""
    name, old, new = edit
    text, old = (faults.SOURCES / name).read_text() if name in FILES else "", "\n".join(old)
    start = text.find(old)
    if start < 0:
        return True
    inside = [function for function in functions(name, text) if function.start < start + len(old) and start < function.end]
    if not inside:
        constant = CONSTANT.match(text, text.rfind("\n", 0, start) + 1)
        return bool(named_in(constant.group(1)) & entered) if constant else not is_part_of_a_type(text, start)
    names = arms(text[text.rfind("\n", 0, start) + 1:start], old, new)
    return any(function.name in entered for function in inside) and (names is None or bool(names & events))


def arms(before, old, new):
    """The events for which the arms of a `match` are that an edit changes; None where it may change anything else. `before`
    is what stands in the line before the old text."""
    if "\n" in old or not ARM.match(before + old):
        return None
    found = [ARM.match(line) for line in [before + old, before + new[0], *new[1:]] if "=>" in line]
    return {arm.group(1) for arm in found} if all(found) else None


def named_in(constant):
    """The functions that name a constant, by itself or by another constant that does."""
    found = set()
    for name in FILES:
        text = (faults.SOURCES / name).read_text()
        inside = functions(name, text)
        for place in (it.start() for it in re.finditer(r"\b%s\b" % constant, text)):
            around = {function.name for function in inside if function.start < place < function.end}
            other = CONSTANT.match(text, text.rfind("\n", 0, place) + 1)
            if not around and other and other.group(1) != constant:
                around = named_in(other.group(1))
            found |= around
    return found


def is_part_of_a_type(text, start):
    """Whether the place is inside a `struct` or an `enum`."""
    head = max(text.rfind("\n" + word, 0, start) for word in ("pub struct ", "struct ", "pub enum ", "enum "))
    return head >= 0 and "\n}\n" not in text[head:start]
