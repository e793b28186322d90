"""What a judge of a wire found, one finding a fault: the rule, where and when, what is right, and why by what is proved.
`names` is the profile of the card."""

import collections

from nurrispane import answers, inputs, profiles

# What each rule is of: document 01's demands, or a request of document 02.
PARTS = {"codes": "demand 2", "silence": "demand 2", "wait": "demand 2", "choice": "demand 3", "equals": "demand 3", "switch": "demand 3",
         "outgoing": "demand 2", "at once": "L1", "heartbeat": "L1", "ceiling": "L1", "flag": "L1", "frame": "demand 2", "refusals": "demand 1"}
# The rules that a wire can show, in the order of the report.
RULES = {
    "codes": "Each code is read and told as written; a code that is none of the five (option II: of the ten) is invalid",
    "silence": "A frame counts for 5,000 ms; a failure passes after the hold-off",
    "wait": "A source that comes back waits to restore; clear-wait ends that",
    "choice": "The best quality is selected, then the lowest priority; never what is off, locked out or below its floor",
    "equals": "Of equals the selected one is kept, otherwise the lowest number",
    "switch": "A forced or manual switch stands until it is cleared",
    "outgoing": "The selected port, every port with mode off and one with sending off tell DNU, all others the clock's quality",
    "at once": "A change is told at once",
    "ceiling": "At most ten frames a second",
    "heartbeat": "A frame each 1,000 ms, none of the same code earlier",
    "flag": "The event flag is set exactly where the code changes, never in a fresh port's first frame",
    "frame": "The sixty octets of a frame are as written",
    "refusals": "What is refused, and what is not: as far as the card's console tells",
}
# The rule that a sort of slip breaks.
SLIP_RULES = {"layout": "frame", "flag": "flag", "slow": "heartbeat", "fast": "heartbeat", "rate": "ceiling", "silent": "heartbeat"}
# The rule by the reason why an input isn't selected that a card follows.
REASON_RULES = {"wait": "wait", "equal": "equals", "switch": "switch", "failed": "silence", "quality": "choice", "priority": "choice",
                "off": "choice", "locked": "choice", "floor": "choice", "PROV": "choice", "selected": "codes"}
DO_NOT_USE = 0b1111
# Our own clock's quality by option, and the clock state locked.
OWN_CLOCK, LOCKED = {1: 4, 2: 6}, 2
FRAME = b"02"
SECOND = 1_000
# A frame that is older has been missed once at least.
MISSED = 1_100

# What no wire shows, whatever is played.
UNSEEN = ("whether the clock is in holdover or in free run: both tell the same code", "the numbers of refusal",
          "what is selected among inputs that are not cabled and of one quality", "line codes and words: they need a line analyser",
          "a time wrong by less than the tolerance")

# A finding: times in ms, both ends included; how often it is found; the ports; a line; and lines with the reasons.
Finding = collections.namedtuple("Finding", "rule sort ports first last count text reasons")


def name(code, names):
    """A code as a quality's name in a profile, or as it stands."""
    return names.codes.get(code, f"code {code:04b}")


def some(numbers, what):
    """ "port 4", "ports 2, 4 and 5"."""
    told = [str(number) for number in numbers]
    return f"{what} {told[0]}" if len(told) == 1 else f"{what}s {', '.join(told[:-1])} and {told[-1]}"


def told_and_right(ports, told, right, names):
    """ "ports 2 and 5 tell PRC, right is SSU-B; port 4 tells DNU, right is SSU-B"."""
    alike = collections.OrderedDict()
    for port in ports:
        alike.setdefault((told[port], right[port]), []).append(port)
    return "; ".join(f"{some(numbers, 'port')} tell{'s' * (len(numbers) == 1)} {name(code, names)}, right is {name(due, names)}"
                     for (code, due), numbers in alike.items())


def times(first, last):
    return f"at {first:,} ms" if first == last else f"from {first:,} to {last:,} ms"


# ---- which rule a wrong code breaks


def rule_of(told, right, facts, answer, names):
    """The rule by what the seen ports tell and should tell, what is known of the inputs, and the right answer."""
    shown, due = dnu_of(told), dnu_of(right)
    if told and shown == set(told) or shown - due and not (due - shown) and not facts[min(shown - due)].priority:
        return "outgoing"
    if shown - due:
        return REASON_RULES.get(inputs.why(facts, min(shown - due), answer, names)[0], "codes")
    rest = [port for port in told if told[port] != right[port] and port not in due]
    if due - shown and not rest:
        # an input of our own clock's quality that is not followed looks the same as one that is not told DNU
        return "codes" if answer[1] < len(facts) and answer[3] == OWN_CLOCK[names.option] else "outgoing"
    if due - shown:
        return dropped_rule(facts, answer, told, names)
    return "codes" if answer[1] in due and answer[2] == LOCKED else quality_rule(facts, answer, [told[port] for port in rest], names)


def dnu_of(codes):
    return {port for port, code in codes.items() if code == DO_NOT_USE}


def dropped_rule(facts, answer, told, names):
    """The card follows no seen port where it should follow one."""
    selected = answer[1]
    if answer[4]:
        return "switch"
    if selected == answers.NONE or selected >= len(facts):
        return "outgoing"
    fact = facts[selected]
    follows = [number for number in followed(facts, told.values(), names) if number != selected]
    if follows:
        return REASON_RULES.get(inputs.why(facts, follows[0], answer, names)[0], "codes")
    is_old = fact.frame and fact.frame - fact.time < 5_000 - MISSED
    return "silence" if fact.raw == names.failed or is_old else "codes"


def quality_rule(facts, answer, codes, names):
    """The seen ports show no wrong selection, and tell a wrong quality."""
    follows = [number for number in followed(facts, codes, names) if number != answer[1]]
    if follows:
        return REASON_RULES.get(inputs.why(facts, follows[0], answer, names)[0], "codes")
    if answer[4]:
        return "switch"
    return "codes" if answer[1] != answers.NONE else "silence"


def followed(facts, codes, names):
    """The inputs that are on whose own quality is one of the codes told: what a card may follow."""
    told = {name(code, names) for code in codes} - {name(DO_NOT_USE, names)}
    return [number for number, fact in enumerate(facts) if fact.priority and profiles.quality(fact.raw, names) in told]


def reasons(facts, answer_line, names):
    """The right answer and what is known of each input that isn't off."""
    answer = answers.octets_of(answer_line)
    yield "right: " + answers.meaning(answer_line, names).split("; ", 1)[1]
    for number, fact in enumerate(facts):
        if fact.priority or number == answer[1]:
            said = inputs.why(facts, number, answer, names)[1]
            raw, passed = profiles.quality(fact.raw, names), profiles.quality(fact.passed, names)
            yield f"input {number}: raw {raw}, passes {passed}, priority {fact.priority}: {said}"


def touched(facts, answer, line, ports, names):
    """The rules that decide something in a state, after a line of the log."""
    found = {"codes"} if line.startswith(FRAME) else set()
    for number, fact in enumerate(facts):
        if fact.priority and number in ports:
            reason = inputs.why(facts, number, answer, names)[0]
            found |= {"silence"} if fact.raw == names.failed != fact.passed else set()
            found |= {REASON_RULES[reason]} if reason in REASON_RULES and reason not in ("off", "failed", "selected") else set()
    return found | ({"switch"} if answer[4] else set())


# ---- one finding a fault


def of_slips(slips):
    """A finding for each sort of slip, the first of it told."""
    sorts = collections.OrderedDict()
    for slip in sorted(slips, key=lambda slip: slip.first):
        sorts.setdefault(slip.sort, []).append(slip)
    for sort, all_ in sorts.items():
        first = all_[0]
        ms = first.first // 10**6, first.last // 10**6
        yield Finding(SLIP_RULES[sort], sort, sorted({slip.port for slip in all_}), max(ms[0], 0), max(ms[1], 0), len(all_),
                      f"{times(max(ms[0], 0), max(ms[1], 0))}: port {first.port}: {first.text}", [])


def noticed(one):
    """When a finding can first be known, ms: a gap once its second is over, frames that come too early with the last of them."""
    return one.first + SECOND if one.sort == "slow" else one.last if one.sort in ("fast", "rate") else one.first


def joined(found):
    """Findings that say the same are one, and all changes told late; the first is told, and how often."""
    kept = collections.OrderedDict()
    for one in sorted(found, key=lambda one: (noticed(one), list(RULES).index(one.rule))):
        key = one.rule, one.sort, "" if one.sort == "late" else one.text.split(": ", 1)[1]
        if key in kept:
            first = kept[key]
            kept[key] = first._replace(count=first.count + one.count, ports=sorted({*first.ports, *one.ports}))
        else:
            kept[key] = one
    return list(kept.values())


def in_words(number, one):
    """A finding for people, line by line."""
    often = f" ({one.count} times; {some(one.ports, 'port')})" if one.count > 1 else ""
    yield f"{number}. {RULES[one.rule]}"
    yield f"   {one.text}{often}"
    yield from (f"     {reason}" for reason in one.reasons)
