"""A log in hand, and small words on logs: their form, an event, times, numbers in a row."""

import functools
import gc
import io
import re
import shlex
import sys

from nurrispane import profiles, words
from nurrispane.files import Trouble, name_of, read

# So much of a log is looked at.
FRONT, LINES = 65_536, 100


class Log:
    """A log in hand: its bytes, its lines with their LFs, its profile and what it is called."""

    def __init__(self, path, data, start=()):
        self.name, self.data = name_of(path), data
        # a third of what `split` takes, which looks at each byte by itself
        self.lines = io.BytesIO(data).readlines()
        if self.lines and not data.endswith(b"\n"):
            self.lines[-1] += b"\n"
        # a million lines are not looked through for rubbish again and again
        gc.freeze()
        self.option = words.option_in(data)
        self.profile = profiles.of_log(self.option, start)

    def line(self, number):
        """A line by its number, from 1, without its LF."""
        return self.lines[number - 1][:-1]


def taken(command, path, start):
    """A log that a command is given, with START as it is given; one that has the wrong form gets a line on standard error."""
    data = read(path)
    word_on_form(command, path, data)
    return Log(path, data, profiles.start_of(start))


def nothing_to_judge(log):
    """Why nothing can be judged by a log; None where it can."""
    if not log.lines:
        return "%s is empty" % log.name
    return None if log.option else "no line of %s is formed" % log.name


def judged_by(log):
    """Trouble where nothing can be judged by a log."""
    wrong = nothing_to_judge(log)
    if wrong:
        raise Trouble("%s, so there is no verdict" % wrong)


def event_in_words(line, option):
    """When a line's event came and what it is; a malformed line of a log of this option as it stands."""
    event = words.event_of(line, option)
    if event is None:
        said = words.line_in_words(line, option)
        return None, said if len(said) <= 60 else said[:58] + ".."
    if event.kind == words.FRAME_KIND:
        return event.time, "frame on input %d" % event.input
    said = words.line_in_words(line).split()[1:]
    kind = words.BY_NUMBER.get(event.kind)
    if kind is not None and kind.has_input and said[0] != "event":
        return event.time, " ".join([said[0], *said[2:], "on input", said[1]])
    return event.time, " ".join(said)


def first_lines(data):
    return words.split_log(data[:FRONT])[0][:LINES]


def is_old(data):
    """Whether a log has lines of the old form, and none of the new one."""
    lines = first_lines(data)
    return not any(map(words.event_of, lines)) and any(map(words.OLD_EVENT.fullmatch, lines))


@functools.cache
def in_words():
    """A line of a log in words: an event, or what says something of a log."""
    return re.compile(r"[0-9]+ (?:%s)(?: .*)?|(?:log|shows|bytes|raw) .*|option [12]" % "|".join([*words.BY_WORD, "frame", "event"]))


def is_utf_16(data):
    """Whether a text has two bytes a character: it says so in front, or many are zero."""
    front = data[:FRONT]
    return front[:2] in (b"\xff\xfe", b"\xfe\xff") or front.count(0) > len(front) // 3


def is_in_words(lines):
    return any(in_words().fullmatch(line.decode("latin-1").split("#")[0].strip()) for line in lines)


def form_of(data, name):
    """What is wrong with a log as a whole, in words; None where nothing is."""
    if is_utf_16(data):
        return "is UTF-16 text, of which no line is formed: iconv -f UTF-16 -t ASCII %s > NEW makes plain text of it" % name
    if is_old(data):
        return "has lines of the old form, without the option's byte, which are refused with 1: ./nurrispane convert new %s -o NEW" % name
    lines = first_lines(data)
    returns = sum(line.endswith(b"\r") for line in lines)
    if returns:
        told = "%d of its first %d lines" % (returns, len(lines)) if returns < len(lines) else "its lines"
        return "has CR LF line ends, so that %s are malformed and refused with 1: tr -d '\\r' takes the CRs away" % told
    if not any(map(words.event_of, lines)) and is_in_words(lines):
        return "is a log in words, of which no line is formed: ./nurrispane words --log %s --out NEW makes the log of it" % name
    if lines and not any(map(words.event_of, lines)):
        return "is no event log: none of its first %d lines is formed, and such lines are refused with 1" % len(lines)
    return None


def word_on_form(command, path, data):
    """One line on standard error where a log has the wrong form."""
    wrong = form_of(data, shlex.quote(str(path)))
    if wrong:
        sys.stderr.write("nurrispane %s: %s %s\n" % (command, name_of(path), wrong))


def word_on_old_form(command, path, data):
    """The same where it has the old form alone: for a log that may be damaged otherwise."""
    if is_old(data):
        word_on_form(command, path, data)


def seconds(time):
    """A time in ms as "199.991 s"."""
    return "-" if time is None else "%s.%03d s" % (format(time // 1000, ","), time % 1000)


def ranges(numbers):
    """Numbers that rise as "0 4-15"."""
    runs = []
    for number in numbers:
        if runs and number == runs[-1][1] + 1:
            runs[-1][1] = number
        else:
            runs.append([number, number])
    return " ".join("%d" % first if first == last else "%d-%d" % (first, last) for first, last in runs)
