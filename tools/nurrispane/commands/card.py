"""Runs a reference card on Ethernet ports: the proved selector and its senders on packet sockets. docs/LIVECARD.md is the guide.

Each port is an interface; frames that come are given to the selector, and its senders tell its codes. The program is in C
(livecard/) over the proved libraries; both are built first where that has not been done, which needs a C compiler and takes some
minutes. It needs CAP_NET_RAW, with --real-time CAP_SYS_NICE too, and runs until `quit`, SIGTERM or SIGINT."""

import os
import re
import subprocess

from nurrispane.files import ROOT, Trouble

SUMMARY = "a reference card on real Ethernet ports"
LIVE = True
EXAMPLES = [
    "./nurrispane card --port 4=eth1 5=eth2 --setup site.words --console /run/card --log /var/log/card --keep /var/lib/card",
    "./nurrispane card --port 2=eth3 --option 2 --place 3 --marks 00ff --signals console --real-time",
]
PROGRAM = ROOT / "target" / "livecard" / "livecard"
# Options with a value, in the order in which the help lists them; and those without.
VALUES = {
    "--setup": ("FILE", "words without a time that a fresh card is given first: docs/LABORATORY.md"),
    "--console": ("PATH", "a Unix socket: a line in, a line out"),
    "--log": ("DIR", "write every event and its answer there"),
    "--log-size": ("MIB", "size of a file of the log (64)"),
    "--follow": ("CMD", "a program that is told which input to follow"),
    "--keep": ("FILE", "keep the card's state there, and take it up at the start"),
    "--option": ("N", "1 or 2 (1)"),
    "--place": ("P", "option II: the place of PROV, 0 to 8 (0)"),
    "--marks": ("M", "option II: first-generation ports, four hexadecimal digits (0000)"),
    "--unit": ("MINIMUM", "a station clock unit with this minimum"),
    "--signals": ("WHO", "who says the inputs' signals, link or console (link)"),
    "--user": ("NAME", "become this user once the sockets are open"),
}
FLAGS = {
    "--every-frame": "log also frames that cannot be ESMC",
    "--real-time": "real-time priority: heartbeats are not late on a busy machine",
}


def name_of(option):
    return option[2:].replace("-", "_")


def arguments(parser):
    parser.add_argument("--port", nargs="+", required=True, metavar="PORT=INTERFACE", help="the card's ports, 0 to 15")
    for option, (what, told) in VALUES.items():
        parser.add_argument(option, metavar=what, help=told)
    for option, told in FLAGS.items():
        parser.add_argument(option, action="store_true", help=told)


def call_of(options):
    """The program's own words."""
    call = [str(PROGRAM), "--port", *options.port]
    for option in VALUES:
        value = getattr(options, name_of(option))
        call += [] if value is None else [option, value]
    return call + [option for option in FLAGS if getattr(options, name_of(option))]


def is_built():
    """Whether the program is there and no older than its sources."""
    sources = [*(ROOT / "livecard").glob("*.[ch]"), ROOT / "include" / "nurrispane.h"]
    return PROGRAM.exists() and all(path.stat().st_mtime <= PROGRAM.stat().st_mtime for path in sources)


def ready():
    """Builds the program where that has not been done; what the compiler says goes to standard error."""
    if not is_built() and subprocess.run([str(ROOT / "livecard" / "build")], stdin=subprocess.DEVNULL).returncode != 0:
        raise Trouble("the card is not built")


def run(options):
    for port in options.port:
        if not re.fullmatch("[0-9]+=.+", port):
            raise Trouble("--port is PORT=INTERFACE, as 4=eth1, not %s" % ascii(port))
    ready()
    call = call_of(options)
    os.execv(call[0], call)
