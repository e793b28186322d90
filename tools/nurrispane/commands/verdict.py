"""Log lines and shown lines in the order of their times, by the proved program: when what is shown is wrong.

A shown line is =, twelve digits of the time, and ten of an answer or four of a port and its code. Each wrong
stretch is a line `LANE FROM TO VALUE`; then `. LANE FIRST COUNT` for each lane, and `end`: docs/PROGRAMS.md.
`judge` asks this of a card's own table."""

from nurrispane import profiles, programs
from nurrispane.files import FINE

SUMMARY = "when what is shown is wrong, lane by lane, by the proved program"
EXAMPLES = ["./nurrispane verdict scqw 10 1 600 crates/verdict/stdin"]


def arguments(parser):
    parser.add_argument("form", metavar="FORM", help="codes, or letters of scqw: selected, clock state, quality, switch")
    parser.add_argument("late", metavar="LATE", help="how late what is shown may be, in ms")
    parser.add_argument("early", metavar="EARLY", help="how early, in ms")
    parser.add_argument("end", metavar="END", help="to when it is judged, in ms")
    parser.add_argument("lines", nargs="?", default="-", metavar="FILE", help="what it reads; otherwise standard input")
    profiles.argument(parser)


def run(options):
    start = profiles.start_of(options.start)
    programs.handed_on("verdict", options.lines, options.form, options.late, options.early, options.end, *start)
    return FINE
