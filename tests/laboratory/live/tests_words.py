"""The card's reader of words against that of tools/nurrispane/words.py: every kind of word, both ways, and wrong ones."""

import subprocess
import unittest

from live import running, settings
from nurrispane import profiles, words
from nurrispane.files import Trouble

NUMBERS = ["0", "1", "7", "16", "65535"]


def codes_by_name(option):
    """Each quality's name as a code, of a line and in a frame."""
    for name in profiles.of_option(option).codes.values():
        yield "code 3 " + name
        yield "frame 4 %s flag=1" % name


def every_word():
    """Each kind of word with each of its names and some numbers."""
    for kind in words.KINDS:
        inputs = ["0", "4", "15", "16", "255"] if kind.has_input else [""]
        arguments = [*kind.names, *NUMBERS] if kind.names is not None else [""]
        if kind.word == "code":
            arguments = [f"{code:04b}" for code in range(16)]
        for number in inputs:
            for argument in arguments:
                yield " ".join(word for word in (kind.word, number, argument) if word)


FRAMES = [
    "frame 4 0010", "frame 0 1111", "frame 255 0000", "frame 4 0010 flag=1", "frame 4 0010 flag=0 flag=1", "frame 4 0010 length=59",
    "frame 4 0010 length=0", "frame 4 0010 length=1514", "frame 4 0010 length=10 source=02-00-5e-10-20-30", "frame 4 0010 length=61 o61=ff",
    "frame 4 0010 source=02-00-5e-10-20-30", "frame 4 0010 o21=20", "frame 4 0010 o1=00 o60=ff", "frame 4 0010 o00021=20",
    "event 02 4 0", "event 02 4 0 0180c2000002", "event 02 4 7 00", "event 13 9 300", "event ff 0 0", "event 0f 3 1", "event 09 4 1",
]
WRONG = [
    "priority", "priority 4", "priority 4 x", "priority 256 1", "priority 4 65536", "priority 4 1 1", "priority -4 1", "priority 4 +1",
    "signal 4 up", "signal 4", "mode", "mode maybe", "clear-wait", "clear-wait 4 1", "clear-switch 1", "tick 0", "kind 4 foo", "foo",
    "frame 4", "frame 4 16", "frame 4 0010 length=65536", "frame 4 0010 length=", "frame 4 0010 o61=00", "frame 4 0010 o0=00", "frame 4 0010 o1=0",
    "frame 4 0010 o1=0G", "frame 4 0010 o1=000", "frame 4 0010 ox=00", "frame 4 0010 flag=2", "frame 4 0010 length=20 flag=1",
    "frame 4 0010 source=02-00-00-00-00", "frame 4 0010 source=020000000001", "frame 4 0010 source=02-00-00-00-00-0g", "frame 4 0010 word",
    "event 2 0 0", "event 0G 0 0", "event 02", "event 02 4 0 0g", "event 02 4 0 00 00", "Priority 4 1", "word 4 prs",
    "priority 4 0000000000000000000000000000001", "frame 4 0011 0",
]
# No code: a plain number, too few or too many digits, a name of the other option.
NO_CODES = ["0", "2", "8", "11", "15", "16", "65536", "010", "00010", "02", "0012", "0b10", "-1", "prc", "PRS", "ssu-a"]
WRONG_CODE = "a code is four binary digits, as 1011, or a quality's name"
# Words for a line that is no event, as the proved replay answers it with 1: a console has none to give.
MALFORMED = ["frame 4 0010 length=1515", "frame 4 0010 length=65535", "event 02 4 0 000", "event 04 4 1 00"]


def told(lines, *options):
    """What the card says to each line."""
    call = [str(settings.program or running.BUILT), "--words", *options]
    run = subprocess.run(call, input="".join(line + "\n" for line in lines), capture_output=True, text=True, check=True)
    return run.stdout.splitlines()


def line_of(said, option):
    """The line of the log for words without a time, or None where they are wrong."""
    try:
        log = words.one_log("%s\noption %d\n" % ("0 " + said, option), "words")
    except Trouble:
        return None
    return log.lines[0].data.decode()


class Words(unittest.TestCase):
    def test_every_word_both_ways(self):
        for option in (1, 2):
            said = [*every_word(), *codes_by_name(option), *FRAMES]
            found = told(said, "--option", str(option))
            self.assertEqual([line_of(line, option) for line in said], found)
            back = words.log_in_words("".join(line + "\n" for line in found).encode()).splitlines()[: len(found)]
            again = told([line.split(" ", 1)[1] for line in back], "--option", str(option))
            self.assertEqual(found, again)

    def test_wrong_words(self):
        for line, found in zip(WRONG, told(WRONG)):
            self.assertIsNone(line_of(line, 1), line)
            self.assertTrue(found.startswith("cannot: column "), "%s: %s" % (line, found))

    def test_a_code_is_binary_or_a_name(self):
        said = [f"{event} 4 {code}" for event in ("code", "frame") for code in NO_CODES]
        for line, found in zip(said, told(said)):
            self.assertIsNone(line_of(line, 1), line)
            self.assertEqual(found, "cannot: column %d: %s" % (line.rindex(" ") + 2, WRONG_CODE))

    def test_what_has_no_line(self):
        for line, found in zip(MALFORMED, told(MALFORMED)):
            self.assertTrue(found.startswith("cannot: column "), "%s: %s" % (line, found))

    def test_blanks(self):
        self.assertEqual(told(["  priority \t4  1  # a comment"]), [line_of("priority 4 1", 1)])

    def test_unit_says_which(self):
        said = ["e priority 4 1", "s priority 4 1", "signal 4 good", "s frame 4 0010", "priority 4 1", "forced 4"]
        found = told(said, "--unit", "2")
        self.assertEqual(found[0], "e " + line_of("priority 4 1", 1))
        self.assertEqual(found[1], "s " + line_of("priority 4 1", 1))
        self.assertEqual(found[2], "e " + line_of("signal 4 good", 1))
        self.assertEqual(found[3], "s " + line_of("frame 4 0010", 1))
        self.assertTrue(all(line.startswith("cannot: ") for line in found[4:]), found)
