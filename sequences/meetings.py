"""Which rules act in which millisecond of a log, and which of them meet.

The independent program, with sequences/observe.rs put in, tells each moment of a replay: `acts` says which
rules it shows, by what has changed since the moment before. Nothing here says what ought to change.
"""

import collections
import itertools
import re
import subprocess

from nurrispane import faults, words
from nurrispane.files import ROOT, Trouble

TRACE = ROOT / "docs" / "TRACE.md"
OBSERVE = ROOT / "sequences" / "observe.rs"

# Each rule that acts in a millisecond of its own, and the words of docs/TRACE.md that it stands for.
RULES = {
    "signal fails": "signal failing gives 7",
    "signal good": "signal failing gives 7",
    "signal repeated": "A repeated fail or good changes nothing.",
    "what was heard forgotten": "forget the codes heard, the count of equal ones and the frames heard",
    "report not recorded": "While the signal fails, reports of codes and frames are checked and accepted but not recorded.",
    "code counted": "the last code that came in three consecutive code reports",
    "code settles": "the last code that came in three consecutive code reports",
    "frame heard": "the code of the last accepted frame",
    "frame expires": "if it came less than 5,000 ms ago; otherwise 7",
    "expiry before a wait's end": "At one and the same millisecond an expired frame comes first.",
    "invalid quality": "Any other of the sixteen codes reads as 6, invalid",
    "quality changes in a run": "the five rows, number and code",
    "fixed quality set": "a fixed quality gives itself",
    "fixed quality taken away": "a fixed quality gives itself",
    "failure held off": "or, in a failed run, the last raw quality before that run.",
    "failure breaks a wait": "A run is the unbroken stretch",
    "recovery in time": "A run is the unbroken stretch",
    "wait begins": "A run is the unbroken stretch",
    "hold-off ends": "began at least the hold-off ago",
    "wait ends": "either began at least the wait ago",
    "up at once": "either began at least the wait ago",
    "clear-wait acts": "is a clear-wait on it",
    "clear-wait in vain": "is a clear-wait on it",
    "shortened hold-off acts": "so a shortened timer acts at once",
    "shortened wait acts": "so a shortened timer acts at once",
    "hold-off set": "Settings are those in force at the moment",
    "wait set": "Settings are those in force at the moment",
    "priority set": "Each has: kind .., priority ..",
    "switched off": "Eligible: priority not 0",
    "locked out": "not locked",
    "lockout ended": "not locked",
    "sending set": "if its sending is off",
    "kind set": "any event setting its kind",
    "forced": "Forced: selects its input whatever its quality;",
    "manual": "Manual: stands while its input is eligible",
    "refused 6": "argument out of range",
    "refused 7": "code for an Ethernet input, frame for a line input",
    "refused 8": "Lengths are without FCS: 60 to 1,514 octets",
    "refused 9": "destination 01-80-C2-00-00-02",
    "refused 10": "13-14 88-09; 15 0A",
    "refused 11": "16-18 00-19-A7; 19-20 00-01",
    "refused 12": "21 upper half version 1",
    "refused 13": "25 type 01; 26-27 length 00-04",
    "refused 14": "forced: input off or locked",
    "refused 15": "manual: a forced switch stands",
    "refused 16": "manual: input not eligible",
    "refused 17": "manual: an eligible input has lower passed quality",
    # of no input
    "refused 2": "kind unknown",
    "refused 5": "input above 15, or not 0 for 0c, 0d, 0f",
    "mode off": "quality mode off gives 0",
    "mode on": "quality mode off gives 0",
    "switch cleared": "stands until cleared",
    "forced replaced": "replaced by another forced switch",
    "forced falls": "or its input is off or locked",
    "manual removed by forced": "Accepting it removes a manual one.",
    "manual replaced": "a newer manual replaces it",
    "manual falls": "Once cancelled it doesn't come back.",
    "selection begins": "Eligible: priority not 0",
    "selection ends": "Eligible: priority not 0",
    "lower quality wins": "Better: lower passed quality",
    "priority wins": "then lower priority number",
    "equal kept": "keep the one selected at the choice just before",
    "lowest of equals": "otherwise lowest input number",
    "first lock": "02 locked if an input is selected",
    "holdover begins": "01 holdover if it was locked after any earlier choice",
    "locked again": "02 locked if an input is selected",
    "due, nothing changes": "needed or not",
}
OF_NO_INPUT = list(RULES)[list(RULES).index("refused 2"):]

# Pairs that no log can show, and why: rules, others, where they would meet.
COMES_UP = {"clear-wait acts", "shortened wait acts", "up at once", "wait ends"}
GOES_DOWN = {"hold-off ends", "shortened hold-off acts"}
EXPIRES = {"frame expires", "expiry before a wait's end"}
NEVER = [
    (COMES_UP, COMES_UP, "one input", "up, an input comes down again after a hold-off of 300 ms at least"),
    (GOES_DOWN, GOES_DOWN, "one input", "down, an input goes down again after it has come up and failed for a hold-off"),
    (EXPIRES, GOES_DOWN, "one input", "the failed run begins with the expiry, and a hold-off takes 300 ms at least"),
    (EXPIRES | GOES_DOWN, {"wait ends"}, "one input", "a run that has failed in this millisecond, or before it, has no wait"),
    ({"wait begins", "failure breaks a wait"}, {"wait ends"}, "one input", "the input is up from there on"),
    (EXPIRES | {"hold-off ends", "wait ends"}, {"due, nothing changes"}, "", "a millisecond has one due moment"),
]

# Rows of docs/TRACE.md, by a part of their first cell, that are no rule of one millisecond, and why.
NO_MOMENT = {
    "Lower is better.": "a comparison, at every choice",
    "7 is failed; 0 is": "names of numbers",
    "Inputs 0 to 15 are also": "names of numbers",
    "Fresh: line, priority 0": "the start of every log",
    "The selector starts": "the start of every log",
    "An input number, a priority": "kinds of number",
    "Time 0, fresh, is down.": "the start of every log",
    "Moments between two events": "every rule that acts at a due moment",
    "Each accepted event is first a tick": "every line",
    "Clock quality:": "told after every line",
    "7-12 source;": "ignored on reading",
    "28 upper half unused": "every frame heard",
    "Reserved and unused bits": "ignored on reading",
    "and zero on writing.": "frames written",
    "We write 60 octets": "frames written",
    "octets after 60 are kept.": "frames written",
    "1 \"line malformed\"": "no bench sends a malformed line",
    "3 \"time at or above": "no bench sends a time that goes back",
    "8 to 13": "one by one, with the frame's octets",
    "18 \"frame buffer": "frames written",
    "The smallest number that applies": "the pairs of two refusals",
    "except that writing checks": "frames written",
    "Numbers 1 to 13 leave": "every refusal",
    "14 to 17 are judged after the tick": "refusals 14 to 17",
    "6, 18 and 19 on writing": "frames written",
}
SECTIONS = ("Qualities and codes", "The sixteen inputs", "Raw quality", "Passed quality", "Choosing", "ESMC frame",
            "Numbers of refusal")

# A moment of a log: whether something was due, the line from 1, its number, the time, all inputs, the selector.
Moment = collections.namedtuple("Moment", "due line number time inputs selector")


def observer():
    """The independent program that tells each moment of a replay."""
    due = ["        self.bring_up_to_date(self.earliest_due);", "        self.judge_and_choose();"]
    answer = ["    pub fn answer_values(&self) -> [u8; 5] {"]
    edits = [
        (faults.MAIN.name, ["mod log;"], ["mod log;", "mod observe;"]),
        ("selector.rs", due, due + ["        crate::observe::tell(\"due\", self);"]),
        ("selector.rs", answer, answer + ["        crate::observe::tell(\"line\", self);"]),
    ]
    return faults.build(faults.Fault("told moment by moment", "replay", edits), {"observe.rs": OBSERVE.read_text()})


FIELD = re.compile(r"(\w+): (Some\((?:[^()]|\([^()]*\))*\)|None|\w+\(\w+\((?:\d+)\)\)|\w+\(\d+\)|\w+)")


def fields(text):
    return dict(FIELD.findall(text))


def moments(program, data):
    """Each moment of a log, the fresh one first."""
    # an extra tick changes nothing, and shows the fresh state
    first = words.tick_line(0, words.option_in(data) or 1)
    run = subprocess.run([str(program), "replay"], input=first + data, capture_output=True)
    numbers = [int(answer[:2], 16) for answer in run.stdout.splitlines()]
    if run.returncode != 0 or len(numbers) != 1 + data.count(b"\n"):
        raise Trouble("the independent program does not tell the moments of a log")
    found, inputs, selector, head, count = [], [{}] * 16, {}, None, -1
    for line in run.stderr.decode().splitlines() + ["end"]:
        word, _, rest = line.partition(" ")
        if word == "input":
            number, _, text = rest.partition(" ")
            inputs = inputs[: int(number)] + [fields(text)] + inputs[int(number) + 1:]
        elif word == "selector":
            selector = fields(rest)
        elif word == "time":
            head[3] = int(rest)
        else:
            if head:
                found.append(Moment(*head, inputs, selector))
            count += word == "line"
            # line 0 is the extra tick
            head = [word == "due", count or None if word == "line" else None, numbers[count] if word == "line" else 0, None]
    return found


def acts(before, after, event):
    """The rules that a moment shows, each with its input or None."""
    shown = set()
    if after.line is not None:
        shown |= of_line(before, after, event)
    for number, (was, now) in enumerate(zip(before.inputs, after.inputs)):
        if was is not now:
            shown |= {(rule, number) for rule in of_run(was, now)}
            if after.due:
                shown |= {(rule, number) for rule in of_timer(was, now)}
    shown |= {(rule, None) for rule in of_choice(before.selector, after.selector, after, event)}
    if after.due and before.inputs is after.inputs and before.selector is after.selector:
        shown.add(("due, nothing changes", None))
    return shown


def changed(was, now, name):
    return was.get(name) != now.get(name)


FAILED = "Quality(7)"


def of_run(was, now):
    """What became of the run of an input, and of its quality."""
    failed, fails = was.get("raw") == FAILED, now["raw"] == FAILED
    down, is_down = was.get("down") == "true", now["down"] == "true"
    if not failed and fails:
        yield "failure breaks a wait" if down else "failure held off"
    elif failed and not fails:
        yield "recovery in time" if not down else "wait begins" if is_down else "up at once"
    elif changed(was, now, "raw"):
        yield "quality changes in a run"
    if changed(was, now, "raw") and now["raw"] == "Quality(6)":
        yield "invalid quality"


def of_timer(was, now):
    """What ended at a due moment."""
    if was.get("raw") != FAILED and now["raw"] == FAILED:
        yield "frame expires"
        if was["down"] == "true" and int(now["run_began"]) - int(was["run_began"]) == int(was["wait"]):
            yield "expiry before a wait's end"
    if changed(was, now, "down"):
        yield "hold-off ends" if now["down"] == "true" else "wait ends"


def of_line(before, after, event):
    """What a line's own event did: to its input, or as a refusal."""
    if after.number:
        rule = "refused %d" % after.number
        return {(rule, None if rule in OF_NO_INPUT else event.input)} if rule in RULES else set()
    word = "frame" if event.kind == words.FRAME_KIND else words.BY_NUMBER[event.kind].word
    was, now = before.inputs[event.input], after.inputs[event.input]
    shown = set(of_event(word, was, now, event.argument))
    if word in ("forced", "manual"):
        shown.add(word)
    return {(rule, event.input) for rule in shown}


def heard(fields_of_input):
    return tuple(fields_of_input.get(name) for name in ("settled", "equal", "frame"))


def of_event(word, was, now, argument):
    if word == "signal":
        yield "signal repeated" if not changed(was, now, "failing") else "signal fails" if argument else "signal good"
    if word in ("signal", "kind") and heard(was) != heard(now):
        yield "what was heard forgotten"
    if word in ("code", "frame") and was["failing"] == "true":
        yield "report not recorded"
    elif word == "code":
        yield "code settles" if changed(was, now, "settled") else "code counted"
    elif word == "frame":
        yield "frame heard"
    if word == "clear-wait":
        yield "clear-wait acts" if changed(was, now, "down") else "clear-wait in vain"
    if word == "hold-off":
        yield "shortened hold-off acts" if changed(was, now, "down") else "hold-off set"
    if word == "wait":
        yield "shortened wait acts" if changed(was, now, "down") else "wait set"
    if word == "fixed":
        yield "fixed quality set" if argument else "fixed quality taken away"
    if word == "priority":
        yield "priority set" if argument else "switched off"
    if word == "lockout":
        yield "locked out" if argument else "lockout ended"
    if word in ("sending", "kind"):
        yield word + " set"


def of_choice(was, now, after, event):
    """What became of mode, switch, selection and clock."""
    word = None
    if after.line is not None and event is not None and not after.number:
        word = words.BY_NUMBER[event.kind].word if event.kind in words.BY_NUMBER else None
    if changed(was, now, "mode"):
        yield "mode on" if now["mode"] == "true" else "mode off"
    yield from of_switch(was.get("switch", "None"), now["switch"], word)
    switched = was.get("switch") != "None" or now["switch"] != "None"
    old, new = was.get("selected", "None"), now["selected"]
    if old != new and not switched:
        if old == "None":
            yield "selection begins"
        elif new == "None":
            yield "selection ends"
        elif changed(was, now, "quality"):
            yield "lower quality wins"
        else:
            yield "priority wins"
    if now["switch"] == "None" and int(now["equals"]) > 1 and was is not now:
        if new != now["lowest"]:
            yield "equal kept"
        elif old != new:
            yield "lowest of equals"
    if changed(was, now, "state"):
        state = now["state"]
        yield "holdover begins" if state == "Holdover" else "first lock" if was.get("state") == "FreeRun" else "locked again"


def of_switch(was, now, word):
    if was == now:
        return
    old, new = was.split("(")[0], now.split("(")[0]
    if old == new == "Forced":
        yield "forced replaced"
    elif old == new == "Manual":
        yield "manual replaced"
    elif (old, new) == ("Manual", "Forced"):
        yield "manual removed by forced"
    elif new == "None":
        yield "switch cleared" if word == "clear-switch" else old.lower() + " falls"


def by_millisecond(program, data):
    """The rules that act in each millisecond of a log."""
    lines = [words.event_of(line) for line in words.split_log(data)[0]]
    told, seen = collections.defaultdict(set), moments(program, data)
    for before, after in itertools.pairwise(seen):
        event = lines[after.line - 1] if after.line else None
        time = event.time if event else after.time
        told[time] |= acts(before, after, event)
    return told


def met(program, data):
    """The pairs of rules that meet in a log: two names and where, "one input", "two inputs" or "" where one of them
    belongs to none."""
    pairs = set()
    for shown in by_millisecond(program, data).values():
        for (first, one), (second, other) in itertools.combinations(sorted(shown, key=str), 2):
            if first == second and one == other:
                continue
            where = "" if one is None or other is None else "one input" if one == other else "two inputs"
            pairs.add((*sorted((first, second)), where))
    return pairs


def conceivable():
    """Every pair that there could be."""
    for first, second in itertools.combinations_with_replacement(sorted(RULES), 2):
        none = (first in OF_NO_INPUT) + (second in OF_NO_INPUT)
        if none == 0:
            yield first, second, "two inputs"
            if first != second:
                yield first, second, "one input"
        elif first != second:
            yield first, second, ""


def why_never(pair):
    """Why no log shows a pair, or None."""
    first, second, where = pair
    for some, others, place, why in NEVER:
        if where == place and (first in some and second in others or first in others and second in some):
            return why
    return None


# ---- docs/TRACE.md


def rows():
    """The first cells of the rows that are about rules."""
    section = ""
    for line in TRACE.read_text().splitlines():
        if line.startswith("## "):
            section = line[3:]
        elif line.startswith("| ") and section in SECTIONS:
            cell = line.split(" | ")[0][2:]
            if cell not in ("Sentence", "Slip"):
                yield cell


def stale():
    """What of the names above no longer fits docs/TRACE.md: words that are gone, and rows that nothing stands for."""
    text = TRACE.read_text()
    gone = [sentence for sentence in dict.fromkeys([*RULES.values(), *NO_MOMENT]) if sentence not in text]
    known = [*RULES.values(), *NO_MOMENT]
    new = [row for row in rows() if not any(sentence in row for sentence in known)]
    return gone, new
