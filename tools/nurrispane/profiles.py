"""The profile of a log: its option by the byte of its lines, its place of PROV and its marks by START as the proved programs take
it; and the names of its numbers. It is made once a log, `of_log`, and handed to whatever tells of that log."""

import collections
import re

from nurrispane.files import Trouble

# The option, the names of the qualities by number, what a code of four bits and a word of sixteen say, which numbers are unlike the
# others, the place of PROV, 0 for none, and START as the programs take it.
Profile = collections.namedtuple("Profile", "option qualities codes words prov do_not_use invalid failed place start")

OPTION_I = Profile(
    option=1,
    qualities={0: "not told", 1: "PRC", 2: "SSU-A", 3: "SSU-B", 4: "SEC", 5: "DNU", 6: "invalid", 7: "failed"},
    codes={0b0010: "PRC", 0b0100: "SSU-A", 0b1000: "SSU-B", 0b1011: "SEC", 0b1111: "DNU"},
    words={},
    prov=None,
    do_not_use=5,
    invalid=6,
    failed=7,
    place=0,
    start=(),
)
OPTION_II = Profile(
    option=2,
    qualities={0: "not told", 1: "PRS", 2: "STU", 3: "ST2", 4: "TNC", 5: "ST3E", 6: "ST3", 7: "SIC", 8: "ST4", 9: "PROV", 10: "DUS",
               11: "invalid", 12: "failed"},
    codes={0b0001: "PRS", 0b0000: "STU", 0b0111: "ST2", 0b0100: "TNC", 0b1101: "ST3E", 0b1010: "ST3", 0b1100: "SIC", 0b1110: "PROV",
           0b1111: "DUS"},
    words={0x04FF: "PRS", 0x08FF: "STU", 0x0CFF: "ST2", 0x78FF: "TNC", 0x7CFF: "ST3E", 0x10FF: "ST3", 0x22FF: "SIC", 0x28FF: "ST4",
           0x40FF: "PROV", 0x30FF: "DUS"},
    prov=9,
    do_not_use=10,
    invalid=11,
    failed=12,
    place=0,
    start=(),
)



def of_option(option):
    """What the option alone says."""
    return OPTION_II if option == OPTION_II.option else OPTION_I


def argument(parser):
    parser.add_argument("--start", metavar="START", help="with what a log of option II starts, as '2 3 00ff': the card's place of PROV and "
                        "its first-generation ports; without it none")


def start_of(text):
    """START in words for the programs; None is PROV unplaced and no marks."""
    if text is None:
        return ()
    if not re.fullmatch("2 [0-8] [0-9a-f]{4}", text):
        raise Trouble("--start is '2 PLACE MARKS', the place of PROV from 0 to 8 and four lowercase digits, not %s" % ascii(text))
    return tuple(text.split())


def of_log(option, start=()):
    """The profile of a log of this option with this START; None, where no line of it is formed, is option I."""
    if option == OPTION_I.option and start:
        raise Trouble("--start is for a log of option II, and this one is of option I")
    placed = option == OPTION_II.option and start
    return of_option(option)._replace(place=int(start[1]) if placed else 0, start=tuple(start))


def quality(number, profile):
    return profile.qualities.get(number, "quality %d" % number)
