"""Times as the command line has them: 50ms, 10s, 5min."""

import argparse
import re

UNITS = {"ms": 1, "s": 1_000, "min": 60_000}
DURATION = re.compile(r"([0-9]{1,9})(ms|s|min)?")


def milliseconds(text):
    """The ms of a time on the command line; a plain number is ms."""
    told = DURATION.fullmatch(text)
    if not told:
        raise argparse.ArgumentTypeError(f"{ascii(text)} is no time, as 50ms or 10s")
    return int(told.group(1)) * UNITS[told.group(2) or "ms"]


def in_words(ms):
    """A time for people: 4 min 10 s, 55 s."""
    seconds = round(ms / 1000)
    minutes, seconds = divmod(seconds, 60)
    return f"{minutes} min {seconds} s" if minutes else f"{seconds} s"
