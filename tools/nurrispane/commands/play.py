"""Plays a sequence to a card on real interfaces and records the wire: docs/ACCEPTANCE.md is the guide.

SEQUENCE is a log in words. Its frames go out at their milliseconds on the interfaces of --map, its commands to the hook, a
program that is started once: a line of words in; `ok`, `refused TEXT` or `cannot` out, once the card has the command. All
frames of both directions are recorded by the kernel's times. RECORD is a directory with wire.pcapng, which Wireshark opens,
commands.times and about.txt; `./nurrispane wire RECORD` judges it. Ctrl-C leaves a record that can be judged up to there.
It needs the right to open packet sockets (root, or CAP_NET_RAW)."""

import pathlib

from nurrispane import durations, hooks, plays, profiles
from nurrispane.files import FINE, free_directory

SUMMARY = "play a sequence to a card on real interfaces, and record the wire"
LIVE = True
EXAMPLES = ["./nurrispane play sequences/wire/codes.words --map 4=eth1 5=eth2 3=eth3 2=eth4 --hook './our-card' -o RECORD"]


def card_arguments(parser):
    """How the card is reached."""
    parser.add_argument("--map", nargs="+", required=True, metavar="PORT=INTERFACE", help="which interface is cabled to which port")
    parser.add_argument("--hook", required=True, metavar="CMD", help="a program that gives commands to the card")
    parser.add_argument("--patience", type=durations.milliseconds, default="10s", metavar="TIME", help="how long it may take (10s)")
    parser.add_argument("--real-time", action="store_true", help="real-time priority for the bench, on a machine with other work")


def arguments(parser):
    parser.add_argument("sequence", type=pathlib.Path, help="a log in words, as sequences/wire/codes.words")
    card_arguments(parser)
    profiles.argument(parser)
    parser.add_argument("-o", "--out", required=True, metavar="RECORD", help="a directory that is made")


def run(options):
    free_directory(options.out)
    play = plays.Play(options.sequence, plays.ports_of(options.map), profiles.start_of(options.start))
    card = hooks.Hook(options.hook, options.patience)
    try:
        if options.real_time:
            plays.take_real_time()
        play.to(card, options.out, plays.Progress(play.length))
    finally:
        card.close()
    return FINE
