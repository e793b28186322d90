"""The jitter of a bench: how late it is with each event.

A bench with a jitter of J ms sends each event, reading the card's state too, a whole number of ms late, from 0 to
J, each as likely as the others and each event for itself. It keeps the order: an event that would come before the one
before it comes in the same millisecond. The log that is judged has the times at which the events were really sent.
"""

import random
import re

from nurrispane import words
from nurrispane.files import Trouble

# The amounts for which the bench's set is checked, in ms, and with how many seeds each.
LEVELS = (0, 10, 50, 200)
SEEDS = 20
DEFAULT = 50

AMOUNT = re.compile("([0-9]{1,6})(ms)?")


def read(text):
    """An amount of jitter in ms: "50ms" or "50"."""
    said = AMOUNT.fullmatch(text)
    if not said:
        raise Trouble("a jitter is a number of ms, as 50ms, not %s" % ascii(text))
    return int(said.group(1))


def level_for(amount):
    """The least amount checked that is no less than this one."""
    for level in LEVELS:
        if amount <= level:
            return level
    raise Trouble("the set is checked up to a jitter of %d ms: %d is more" % (LEVELS[-1], amount))


def late(data, amount, seed):
    """A log as such a bench sends it; each seed gives another, the same on every machine."""
    chance, sent, latest = random.Random("jitter %d %d" % (amount, seed)), [], 0
    lines, ended = words.split_log(data)
    for line in lines:
        event = words.event_of(line)
        if event is not None:
            # `random()` alone is the same in every version of Python
            latest = max(latest, event.time + int(chance.random() * (amount + 1)))
            line = words.event_line(event.kind, latest, event.input, event.argument, event.octets, event.option)
        sent.append(line)
    return b"\n".join(sent) + b"\n" * bool(sent and ended)


def each(data, amount):
    """The log under this jitter with each seed; the log alone where there is none."""
    return [late(data, amount, seed) for seed in range(SEEDS)] if amount else [data]
