"""What the tools share that print a line after each line of a log, by a proved program."""

from nurrispane import profiles, programs
from nurrispane.files import FINE


def arguments(parser):
    parser.add_argument("log", help="an event log; - for standard input")
    profiles.argument(parser)
    parser.add_argument("--out", metavar="FILE", help="write to FILE, whole or not at all")


def by(name):
    """What such a tool does, by the program of this name."""
    def run(options):
        programs.put_out(name, options.log, options.out, profiles.start_of(options.start))
        return FINE
    return run
