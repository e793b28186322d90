"""The words of an event log, both ways: docs/LABORATORY.md has the language.

`logs` reads words, `log_in_words` writes them. Line N of what it writes is line N of the log.
"""

import collections
import re

from nurrispane import answers, profiles
from nurrispane.files import Trouble

TIME_LIMIT = 2**48
LARGEST_INPUT = 0xFF
LARGEST_ARGUMENT = 0xFFFF
LARGEST_CODE = 0b1111
BINARY_CODE = re.compile("[01]{4}")
LARGEST_FRAME = 65_535
# The options, by the byte after a line's kind; and the most digits of a line.
OPTIONS = (1, 2)
LONGEST_LINE = 3_050
# More octets than these are not told one by one.
MOST_CHANGES = 8

# A kind of event: its number, its word, whether an input is named, its argument: None where
# there is none, otherwise the names that some of its numbers have.
Kind = collections.namedtuple("Kind", "number word has_input names")
KINDS = [
    Kind(0x01, "signal", True, {"good": 0, "fail": 1}),
    Kind(0x03, "code", True, {}),
    Kind(0x04, "priority", True, {}),
    Kind(0x05, "lockout", True, {"set": 1, "clear": 0}),
    Kind(0x06, "hold-off", True, {}),
    Kind(0x07, "wait", True, {}),
    Kind(0x08, "fixed", True, {"none": 0}),
    Kind(0x09, "clear-wait", True, None),
    Kind(0x0A, "forced", True, None),
    Kind(0x0B, "manual", True, None),
    Kind(0x0C, "clear-switch", False, None),
    Kind(0x0D, "mode", False, {"on": 1, "off": 0}),
    Kind(0x0E, "sending", True, {"on": 1, "off": 0}),
    Kind(0x0F, "tick", False, None),
    Kind(0x10, "kind", True, {"line": 0, "ethernet": 1, "words": 2}),
    Kind(0x11, "floor", True, {}),
    Kind(0x12, "word", True, {said: word for word, said in profiles.OPTION_II.words.items()}),
]
FRAME_KIND = 0x02
BY_WORD = {kind.word: kind for kind in KINDS}
BY_NUMBER = {kind.number: kind for kind in KINDS}

# What a well-formed line holds; the frame's octets are empty for other kinds.
Event = collections.namedtuple("Event", "kind option time input argument octets")
# A line of a log: its bytes without LF, the answer in words if one is given, and where it stands.
Line = collections.namedtuple("Line", "data answer place words")
# A word and the column of its first character.
Word = collections.namedtuple("Word", "text column")


class Log:
    """A log in words."""

    def __init__(self, name, place, option=1):
        self.name, self.place, self.option, self.shows = name, place, option, ""
        self.lines, self.ended = [], True

    def data(self):
        """The log's bytes."""
        data = b"\n".join(line.data for line in self.lines)
        return data + b"\n" if self.lines and self.ended else data


class Wrong(Exception):
    """A column and what is wrong there."""


# ---- frames


def sound_frame(code, source="020000000001", flag=0):
    """An ESMC frame of 60 octets."""
    head = "0180c2000002" + source + "88090a" "0019a7" "0001" + ("18" if flag else "10")
    return bytearray(bytes.fromhex(head + "000000" "010004") + bytes([code]) + bytes(32))


def frame_in_words(octets):
    """The words for a frame after its input, or None where they would be longer than its octets."""
    source = octets[6:12].hex() if len(octets) >= 12 else "020000000001"
    flag = int(len(octets) > 20 and octets[20] == 0x18)
    said_code = octets[27] & LARGEST_CODE if len(octets) > 27 else 0
    sound = resized(sound_frame(said_code, source, flag), len(octets))
    said = [f"{said_code:04b}"]
    if source != "020000000001":
        said.append("source=" + "-".join(re.findall("..", source)))
    if flag:
        said.append("flag=1")
    if len(octets) != 60:
        said.append("length=%d" % len(octets))
    changes = ["o%d=%02x" % (place, new) for place, (new, old) in enumerate(zip(octets, sound), 1) if new != old]
    return " ".join(said + changes) if len(changes) <= MOST_CHANGES else None


def resized(octets, length):
    """Cut, or with zeros after it."""
    return (octets + bytes(length))[:length]


def change_frame(octets, word):
    """A frame with oN=HH, length=N, source=ADDRESS or flag=1 applied."""
    name, equals, value = word.text.partition("=")
    if not equals:
        raise Wrong(word.column, "a frame's further words are oN=HH, length=N, source=ADDRESS, flag=1")
    if name == "length":
        return resized(octets, number(Word(value, word.column), LARGEST_FRAME, "a length"))
    if name == "source":
        if not re.fullmatch("[0-9a-f]{2}(-[0-9a-f]{2}){5}", value):
            raise Wrong(word.column, "a source address is six octets, as 02-00-00-00-00-01")
        new = bytes.fromhex(value.replace("-", ""))
        return octets[:6] + new + octets[12:] if len(octets) >= 12 else octets
    if name == "flag":
        if value not in ("0", "1"):
            raise Wrong(word.column, "flag=0 or flag=1")
        name, value = "o21", "18" if value == "1" else "10"
    place = re.fullmatch("o([0-9]{1,5})", name)
    if not place or not re.fullmatch("[0-9a-f]{2}", value):
        raise Wrong(word.column, "an octet is oN=HH: its number from 1, two lowercase digits")
    if not 1 <= int(place.group(1)) <= len(octets):
        raise Wrong(word.column, "the frame has octets 1 to %d" % len(octets))
    octets[int(place.group(1)) - 1] = int(value, 16)
    return octets


# ---- from words to a line


def number(word, largest, what):
    if not re.fullmatch("[0-9]{1,30}", word.text):
        raise Wrong(word.column, "%s is a decimal number, not %s" % (what, ascii(word.text)))
    if int(word.text) > largest:
        raise Wrong(word.column, "%s is at most %d" % (what, largest))
    return int(word.text)


def event_line(kind, time, input_number, argument, octets=b"", option=1):
    """The bytes of a line of the log."""
    return b"%02x%02x%012x%02x%04x" % (kind, option, time, input_number, argument) + bytes(octets).hex().encode()


def tick_line(time, option):
    """A tick, with its LF."""
    return event_line(BY_WORD["tick"].number, time, 0, 0, option=option) + b"\n"


def line_of_words(said, option):
    """The line for "TIME WORD ..", given as words with their columns, in a log of this option."""
    said = collections.deque(said)
    end = said[-1].column + len(said[-1].text)

    def take(what):
        if not said:
            raise Wrong(end, "%s is missing" % what)
        return said.popleft()

    time = number(take("a time"), TIME_LIMIT - 1, "a time in ms")
    word = take("the event's word")
    if word.text == "event":
        line = any_event(time, take, said, option)
    elif word.text == "frame":
        line = frame_line(time, take, said, option)
    elif word.text in BY_WORD:
        line = known_event(BY_WORD[word.text], time, take, option)
    else:
        raise Wrong(word.column, "no such word: %s" % ascii(word.text))
    if said:
        raise Wrong(said[0].column, "one word too many: %s" % ascii(said[0].text))
    return line


def code(word, option):
    """A code: four binary digits or the name of a quality. A plain number is none: 11 would be three to one reader, eleven to another."""
    if BINARY_CODE.fullmatch(word.text):
        return int(word.text, 2)
    codes = profiles.of_option(option).codes
    for value, name in codes.items():
        if name == word.text:
            return value
    names = ", ".join(codes.values())
    raise Wrong(word.column, f"a code is four binary digits, as 1011, or a quality's name ({names}), not {ascii(word.text)}")


def known_event(kind, time, take, option):
    input_number = number(take("an input"), LARGEST_INPUT, "an input") if kind.has_input else 0
    argument = 0
    if kind.word == "code":
        argument = code(take("a code"), option)
    elif kind.names is not None:
        word = take("an argument")
        named = kind.names.get(word.text)
        what = "an argument of %s" % kind.word
        if kind.names and named is None and not word.text.isdigit():
            raise Wrong(word.column, "%s is %s or a number" % (what, ", ".join(kind.names)))
        argument = number(word, LARGEST_ARGUMENT, what) if named is None else named
    return event_line(kind.number, time, input_number, argument, option=option)


def frame_line(time, take, said, option):
    input_number = number(take("an input"), LARGEST_INPUT, "an input")
    octets = sound_frame(code(take("a code"), option))
    while said:
        octets = change_frame(octets, said.popleft())
    return event_line(FRAME_KIND, time, input_number, 0, octets, option)


def any_event(time, take, said, option):
    """ "event KIND INPUT ARGUMENT [DIGITS]": any numbers."""
    kind = take("a kind")
    if not re.fullmatch("[0-9a-f]{2}", kind.text):
        raise Wrong(kind.column, "a kind is two lowercase hexadecimal digits")
    input_number = number(take("an input"), LARGEST_INPUT, "an input")
    argument = number(take("an argument"), LARGEST_ARGUMENT, "an argument")
    digits = said.popleft() if said else Word("", 0)
    if not re.fullmatch("[0-9a-f]*", digits.text):
        raise Wrong(digits.column, "a frame's octets are lowercase hexadecimal digits")
    return event_line(int(kind.text, 16), time, input_number, argument, option=option) + digits.text.encode()


ESCAPES = {"\\": b"\\", "t": b"\t", "r": b"\r"}


def plain_bytes(text, column):
    """The bytes of "bytes TEXT": escapes, and "(PART)*N REST" for N times PART and then REST."""
    if text.startswith("("):
        group = re.match(r"\(([^()]*)\)\*([0-9]{1,9})( |$)", text)
        if not group:
            raise Wrong(column, "a repeated part is (PART)*N, then a space or nothing")
        part = plain_bytes(group.group(1), column + 1)
        return part * int(group.group(2)) + plain_bytes(text[group.end():], column + group.end())
    data, place = b"", 0
    while place < len(text):
        escape = re.compile(r"\\(?:x([0-9a-f]{2})|(.))?", re.S).match(text, place)
        if not escape:
            if not "!" <= text[place] <= "~" and text[place] != " ":
                raise Wrong(column + place, "a character that isn't plain is written \\xHH")
            data, place = data + text[place].encode(), place + 1
            continue
        if escape.group(1):
            data += bytes.fromhex(escape.group(1))
        elif escape.group(2) in ESCAPES:
            data += ESCAPES[escape.group(2)]
        else:
            raise Wrong(column + place, "the escapes are \\xHH, \\t, \\r and \\\\")
        place = escape.end()
    if b"\n" in data:
        raise Wrong(column, "a line has no LF in it")
    return data


def raw_line(text, column, option):
    """The bytes of "raw TEXT": the same with the option's byte after the first two."""
    data = plain_bytes(text, column)
    return data[:2] + b"%02x" % option + data[2:] if len(data) >= 2 else data


# ---- a text in words


def logs(text, source):
    """The logs of a text; errors name `source`, line and column."""
    found, options = [], options_of(text)
    for place, line in enumerate(text.split("\n"), 1):
        try:
            take_line(found, line.split("#")[0].rstrip(), place, options)
        except Wrong as wrong:
            column, what = wrong.args
            raise Trouble("%s:%d:%d: %s" % (source, place, column, what)) from wrong
    return found


def one_log(text, source, name=None):
    """The log of a text that has one, or the one of this name; an empty text is an empty log."""
    found = logs(text, source)
    if name is not None:
        found = [log for log in found if log.name == name]
        if not found:
            raise Trouble("%s has no log %s" % (source, name))
    if len(found) > 1:
        raise Trouble("%s has %d logs: name one of them" % (source, len(found)))
    return found[0] if found else Log(None, 1)


def options_of(text):
    """The option of each log of a text: that of its line "option N", wherever it stands, otherwise 1."""
    found = []
    for line in text.split("\n"):
        said = line.split("#")[0].split("|")[0].split()
        if len(said) > 1 and said[0] == "log":
            found.append(1)
        elif said:
            found = found or [1]
            if len(said) == 2 and said[0] == "option" and said[1] in map(str, OPTIONS):
                found[-1] = int(said[1])
    return found


def take_line(found, text, place, options):
    """One line of words, its comment gone."""
    if not text:
        return
    told, bar, answer = text.partition("|")
    said = [Word(word.group(), word.start() + 1) for word in re.finditer(r"\S+", told)]
    first = said[0].text if said else ""
    if first == "log" and len(said) > 1:
        found.append(Log(told[3:].strip(), place, options[len(found)]))
        return
    if not found:
        found.append(Log(None, place, options[0] if options else 1))
    log = found[-1]
    if first == "shows":
        log.shows = " ".join([log.shows, text[6:].strip()]).strip()
        return
    if first == "option":
        return take_option(log, said)
    if not log.ended:
        raise Wrong(1, "a line after \"no final LF\"")
    if told.split() == ["no", "final", "LF"]:
        log.ended = False
        return
    if not said:
        raise Wrong(1, "an answer without an event")
    log.lines += told_lines(told, said, bar, answer, place, log.option)


def take_option(log, said):
    """A line "option N", which `options_of` has read: only what is wrong with it is left to tell."""
    if len(said) != 2 or said[1].text not in map(str, OPTIONS):
        raise Wrong(said[1].column if len(said) > 1 else len("option") + 1, "an option is 1 or 2")
    if int(said[1].text) != log.option:
        raise Wrong(said[1].column, "the log has another option: %d" % log.option)


def told_lines(told, said, bar, answer, place, option):
    """The lines of "EVENT [xN] [| ANSWER]"; of N equal ones the last is answered so."""
    times = re.search(r"\sx([0-9]{1,6})\s*$", told)
    if times:
        told, said = told[: times.start()], said[:-1]
    try:
        expected = answers.read(answer) if bar else None
    except ValueError as error:
        raise Wrong(len(told) + 2, str(error)) from error
    first = said[0].text
    if first in ("bytes", "raw"):
        end = said[0].column - 1 + len(first)
        rest, column = told[end:].strip(), said[1].column if len(said) > 1 else end + 1
        data = plain_bytes(rest, column) if first == "bytes" else raw_line(rest, column, option)
    else:
        data = line_of_words(said, option)
    count = int(times.group(1)) if times else 1
    lines = [Line(data, None, place, told.strip())] * (count - 1)
    return lines + [Line(data, expected, place, told.strip())] * min(count, 1)


# ---- from a line to words


def split_log(data):
    """The lines of a log and whether the last is ended; a final LF starts no further line."""
    lines = data.split(b"\n")
    return (lines[:-1], True) if lines[-1] == b"" else (lines, False)


EVENT = re.compile(rb"[0-9a-f]{2}0[12][0-9a-f]{18}|020[12][0-9a-f]{18}(?:[0-9a-f]{2})*")
# A line in the form of document 01, which has no option's byte.
OLD_EVENT = re.compile(rb"[0-9a-f]{20}|02[0-9a-f]{18}(?:[0-9a-f]{2})*")


def event_of(data, option=None):
    """What a line holds, or None where it is no line of digits with an event's length, or not one of this option."""
    if not EVENT.fullmatch(data):
        return None
    octets = bytes.fromhex(data.decode())
    if option not in (None, octets[1]):
        return None
    kind, time, argument = octets[0], octets[2:8], octets[9:11]
    return Event(kind, octets[1], int.from_bytes(time, "big"), octets[8], int.from_bytes(argument, "big"), octets[11:])


def option_of(lines):
    """The option of a log: that of its first line that is formed; None where there is none."""
    for line in lines:
        if len(line) <= LONGEST_LINE and (event := event_of(line)):
            return event.option
    return None


def option_in(data):
    """The same of a log's bytes, which are looked at no further than needed."""
    return option_of(line.group() for line in re.finditer(rb"[^\n]+", data))


def line_in_words(data, option=None):
    """The words of a line of a log that has this option; None for a line alone."""
    event = event_of(data, option)
    if event is None:
        return ("bytes " + bytes_in_words(data)).rstrip()
    if event.kind == FRAME_KIND and event.argument == 0:
        frame = frame_in_words(event.octets)
        if frame is not None:
            return "%d frame %d %s" % (event.time, event.input, frame)
    kind = BY_NUMBER.get(event.kind)
    if kind is None or not has_words(kind, event):
        said = "%d event %02x %d %d %s" % (event.time, event.kind, event.input, event.argument, event.octets.hex())
        return said.rstrip()
    said = ["%d" % event.time, kind.word]
    if kind.has_input:
        said.append("%d" % event.input)
    if kind.word == "code":
        said.append(f"{event.argument:04b}")
    elif kind.names is not None:
        names = [name for name, value in kind.names.items() if value == event.argument]
        said.append(names[0] if names else "%d" % event.argument)
    return " ".join(said)


def has_words(kind, event):
    """Whether an event can be said with its kind's word: one without input or argument has 0 there, and a code has four bits."""
    if kind.word == "code" and event.argument > LARGEST_CODE:
        return False
    return (kind.has_input or event.input == 0) and (kind.names is not None or event.argument == 0)


# So many equal bytes in a row are told once.
LONG_RUN = re.compile(rb"(.)\1{63,}", re.S)


def bytes_in_words(data):
    """The text of a line that is no event; a long run of one byte is told once."""
    said, place = [], 0
    for run in LONG_RUN.finditer(data):
        if place < run.start():
            said.append("(%s)*1" % escaped(data[place:run.start()]))
        said.append("(%s)*%d" % (escaped(run.group(1)), len(run.group())))
        place = run.end()
    return " ".join(said + [escaped(data[place:])]).rstrip()


ESCAPED = [chr(byte) if 0x21 <= byte <= 0x7E and chr(byte) not in "\\#|()" else "\\x%02x" % byte for byte in range(256)]
# So many bytes are escaped at a time: a piece of text for each byte of a long line would take many times its room.
PIECE = 1 << 16


def escaped(data):
    """Plain characters as they stand, all others as \\xHH; no text that could be read as something else."""
    pieces = (data[place:place + PIECE] for place in range(0, len(data), PIECE))
    text = "".join("".join(map(ESCAPED.__getitem__, piece)) for piece in pieces)
    return "\\x78" + text[1:] if re.fullmatch("x[0-9]+", text) else text


def log_in_words(data):
    """A log in words, a line for each of its lines."""
    lines, ended = split_log(data)
    option = option_of(lines) or 1
    said = [line_in_words(line, option) for line in lines]
    # behind the lines, so that line N of the words is line N of the log
    if option != 1:
        said.append("option %d" % option)
    if not ended:
        said.append("no final LF")
    return "".join(line + "\n" for line in said)
