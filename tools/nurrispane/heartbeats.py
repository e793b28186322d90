"""What is wrong with a port's frames by themselves: the sixty octets, the event flag, a frame each 1,000 ms, ten a second."""

import collections

from nurrispane import words
from nurrispane.records import NS_A_MS

SECOND = 1_000
CODE_OCTET, FLAG_OCTET, CODE_BITS, FLAG_BIT = 27, 20, 0x0F, 0x08
# A change may wait while so many frames are younger than a second.
CEILING = 10
# How many wrong octets are named.
MOST_OCTETS = 8

# The sort of a slip, its port, from when to when in ns, and its words.
Slip = collections.namedtuple("Slip", "sort port first last text")


def code_of(octets):
    """The code that a frame tells, or None where no neighbour would follow it: document 01's refusals 8 to 13."""
    sound = bytes(words.sound_frame(0))
    same = [slice(0, 6), slice(12, 20), slice(24, 27)]
    if len(octets) < len(sound) or any(octets[part] != sound[part] for part in same) or octets[FLAG_OCTET] >> 4 != 1:
        return None
    return octets[CODE_OCTET] & CODE_BITS


def flag_of(octets):
    return bool(octets[FLAG_OCTET] & FLAG_BIT) if len(octets) > FLAG_OCTET else False


def milliseconds(ns):
    """For people: whole ms, rounded."""
    return f"{(ns + NS_A_MS // 2) // NS_A_MS:,} ms"


def layout(port, one):
    """A frame whose octets are not as document 01 writes them, but for source, code and flag."""
    told = one.octets[CODE_OCTET] & CODE_BITS if len(one.octets) > CODE_OCTET else 0
    sound = bytes(words.sound_frame(told, one.octets[6:12].hex().ljust(12, "0"), int(flag_of(one.octets))))
    if one.octets == sound:
        return []
    odd = [place + 1 for place in range(max(len(one.octets), len(sound))) if one.octets[place:place + 1] != sound[place:place + 1]]
    said = ", ".join(map(str, odd[:MOST_OCTETS])) + (" .." if len(odd) > MOST_OCTETS else "")
    return [Slip("layout", port, one.at, one.at, f"octet {said} of a frame is not as written, as in {one.octets.hex()}")]


def flag(port, one, before, is_first):
    """The event flag is set if and only if the code differs from that of the frame before; a fresh port's first has none.

    The first frame after `fresh` may go on from the frame before it or begin anew: either flag is right where the code differs."""
    told, set_ = code_of(one.octets), flag_of(one.octets)
    if before is None:
        return [Slip("flag", port, one.at, one.at, "the first frame has the event flag")] if set_ else []
    differs = told != code_of(before.octets)
    if set_ == differs or is_first and differs:
        return []
    said = "the code changed and the event flag is not set" if differs else "the event flag is set and the code is that of the frame before"
    return [Slip("flag", port, one.at, one.at, said)]


def gap(part, port, early, late, tolerance):
    """More than 1,000 ms without a frame."""
    if late - early <= (SECOND + tolerance) * NS_A_MS + part.stalls.held(early, late):
        return []
    return [Slip("slow", port, early, late, f"{milliseconds(late - early)} without a frame")]


def hurry(part, port, one, before, tolerance):
    """An information frame before its second is over."""
    same = code_of(one.octets) == code_of(before.octets)
    if not same or before.at < 0 or one.at - before.at >= (SECOND - tolerance) * NS_A_MS - part.stalls.held(before.at, one.at):
        return []
    return [Slip("fast", port, before.at, one.at, f"a frame of the same code after {milliseconds(one.at - before.at)}")]


def crowd(part, port, place, tolerance):
    """Eleven frames within a second."""
    if place < CEILING:
        return []
    first, last = part.sent[port][place - CEILING].at, part.sent[port][place].at
    if last - first >= (SECOND - tolerance) * NS_A_MS - part.stalls.held(first, last):
        return []
    return [Slip("rate", port, first, last, f"eleven frames in {milliseconds(last - first)}")]


def slips(part, port, tolerance):
    """All that is wrong with the frames of a port."""
    sent, found = part.sent[port], []
    if not sent:
        return [Slip("silent", port, 0, part.end, "no frame at all")]
    found += gap(part, port, 0, sent[0].at, tolerance)
    for place, one in enumerate(sent):
        before = sent[place - 1] if place else part.before[port]
        found += layout(port, one) + flag(port, one, before, place == 0)
        if place:
            found += gap(part, port, max(before.at, 0), one.at, tolerance) + hurry(part, port, one, before, tolerance)
        found += crowd(part, port, place, tolerance)
    return found + gap(part, port, max(sent[-1].at, 0), part.end, tolerance)


def waits(part, port, tolerance):
    """(from, to) in ms, both included: after a frame, while its tenth last is younger than 1,000 ms and the tolerance."""
    sent, found = part.sent[port], []
    for place in range(CEILING - 1, len(sent)):
        tenth = sent[place - CEILING + 1].at
        until = tenth + (SECOND + tolerance) * NS_A_MS + part.stalls.held(tenth, tenth + (SECOND + tolerance) * NS_A_MS)
        if until > sent[place].at:
            found.append((sent[place].at // NS_A_MS, until // NS_A_MS))
    return found
