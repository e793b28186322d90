"""Answers in words, both ways: docs/LABORATORY.md, "The words of a log". `words` is the short form, which `read` takes back; `meaning`
is the same for a person."""

import collections
import re

from nurrispane import profiles

STATES = {0: "free", 1: "hold", 2: "lock", 3: "state-03"}
SWITCHES = {0: None, 1: "forced", 2: "manual"}
NONE = 0xFF
CLOCK = {0: "free run", 1: "holdover", 2: "locked"}
# The words of document 01.
REFUSALS = {
    1: "line malformed",
    2: "kind unknown",
    3: "time at or above 2^48",
    4: "time before that of the state",
    5: "input above 15, or not 0 for 0c, 0d, 0f",
    6: "argument out of range",
    7: "code for an Ethernet input, frame for a line input",
    8: "frame length",
    9: "destination",
    10: "octets 13-15",
    11: "octets 16-20",
    12: "version",
    13: "octets 25-27",
    14: "forced: input off or locked",
    15: "manual: a forced switch stands",
    16: "manual: input not eligible",
    17: "manual: an eligible input has lower passed quality",
}
# Those of document 02 for option II.
REFUSALS_II = {7: "code, frame or word for an input of another kind"}

# An answer in words: what is left out is None.
Answer = collections.namedtuple("Answer", "number shown outgoing count")


def octets_of(line):
    """The six octets of an answer line, or None if it is none."""
    return bytes.fromhex(line.decode()) if re.fullmatch(b"[0-9a-f]{12}", line) else None


def no_answer(line):
    return "no answer line: %s" % ascii(line.decode("latin-1"))


def words(line):
    """The words of an answer line, as "!16 3 lock 1 manual 3"; as it stands if it is no answer line."""
    octets = octets_of(line)
    if octets is None:
        return no_answer(line)
    number, selected, state, quality, switch, switch_input = octets
    said = ["!%d" % number] if number else []
    said.append("-" if selected == NONE else "%d" % selected)
    said.append(STATES.get(state, "state-%02x" % state))
    said.append("%d" % quality)
    if (switch, switch_input) != (0, NONE):
        said += [SWITCHES.get(switch) or "switch-%02x" % switch, "%d" % switch_input]
    return " ".join(said)


def line_of(answer):
    """The answer line of an answer in words."""
    return ("%02x%s" % (answer.number, answer.shown)).encode()


def refusal(number, profile=profiles.OPTION_I):
    """A number of refusal with what it says, as "16, manual: input not eligible"."""
    told = REFUSALS if profile.prov is None else {**REFUSALS, **REFUSALS_II}
    return "%d, %s" % (number, told.get(number, "no number of document 01"))


def meaning(line, profile=profiles.OPTION_I):
    """What an answer line says, as "refused (16, manual: input not eligible); locked to input 3, PRC; no switch"."""
    octets = octets_of(line)
    if octets is None:
        return no_answer(line)
    number, selected, state, quality, switch, switch_input = octets
    clock, selection = CLOCK.get(state, "clock state %02x" % state), "input %d" % selected
    if state == 2:
        clock += " to " + (selection if selected != NONE else "no input")
    elif selected != NONE:
        clock += " with %s selected" % selection
    taken = "refused (%s)" % refusal(number, profile) if number else "accepted"
    switched = "no switch"
    if (switch, switch_input) != (0, NONE):
        switched = "%s to input %d" % (SWITCHES.get(switch) or "switch %02x" % switch, switch_input)
    return "%s; %s, %s; %s" % (taken, clock, profiles.quality(quality, profile) if quality else "no quality", switched)


def read(text):
    """The answer in words after "|"; a ValueError says what is wrong with it."""
    text, equals, count = text.partition("=")
    text, greater, outgoing = text.partition(">")
    said, outgoing, count = text.split(), outgoing.strip(), count.strip()
    if greater and not re.fullmatch("[0-9a-f]{16}", outgoing):
        raise ValueError("after \">\" come sixteen digits, the outgoing codes")
    if equals and not re.fullmatch("[0-9]+", count):
        raise ValueError("after \"=\" comes a number, the count of due moments")
    number = 0
    if said and said[0].startswith("!"):
        number = decimal(said.pop(0)[1:], "a number of refusal")
    return Answer(number, shown(said) if said else None, outgoing or None, int(count) if equals else None)


def shown(said):
    """The ten digits after an answer's number."""
    if len(said) not in (3, 5):
        raise ValueError("an answer is [!NUMBER] SELECTED STATE QUALITY [forced|manual INPUT]")
    selected = NONE if said[0] == "-" else decimal(said[0], "an input or -")
    states = [number for number, word in STATES.items() if word == said[1]]
    if not states:
        raise ValueError("no such clock state: %s" % said[1])
    switch, switch_input = 0, NONE
    if len(said) == 5:
        switches = [number for number, word in SWITCHES.items() if word == said[3]]
        if not switches:
            raise ValueError("no such switch: %s" % said[3])
        switch, switch_input = switches[0], decimal(said[4], "an input")
    return "%02x%02x%02x%02x%02x" % (selected, states[0], decimal(said[2], "a quality"), switch, switch_input)


def decimal(text, what):
    if not re.fullmatch("[0-9]{1,3}", text) or int(text) > 255:
        raise ValueError("%s, not %s" % (what, text))
    return int(text)
