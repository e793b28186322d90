"""A log with marks, by the proved program: what is known of the sixteen inputs at each mark.

A mark is the character ?; it may stand anywhere. The log without its marks is answered as `replay` does, and
each mark with a line of twelve numbers for each input: docs/LABORATORY.md. `explain` puts them into words."""

from nurrispane import profiles, programs
from nurrispane.files import FINE

SUMMARY = "what is known of each input at the marks of a log, as numbers, by the proved program"
EXAMPLES = ["./nurrispane facts crates/facts/stdin"]


def arguments(parser):
    parser.add_argument("log", nargs="?", default="-", metavar="FILE", help="what it reads; otherwise standard input")
    profiles.argument(parser)


def run(options):
    programs.handed_on("facts", options.log, *profiles.start_of(options.start))
    return FINE
