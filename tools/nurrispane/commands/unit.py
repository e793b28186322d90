"""Events at a station clock unit, two selectors with one output, by the proved program.

A line is `e LINE` for the equipment's selector or `s LINE` for the station's, LINE as in an event log. Each is
answered with a line: both answers, `ais` or `out`, the source or ff, and the sixteen codes of each selector.
OPTION is 1 or 2, PLACE the place of PROV, MARKS the first-generation ports as four digits, MINIMUM the worst
quality that is put out. A start that is refused is told, with status 2."""

from nurrispane import programs
from nurrispane.files import FINE

SUMMARY = "events at a station clock unit, by the proved program"
EXAMPLES = ["./nurrispane unit 1 0 0000 4 tests/vectors/L13/independence-one.text"]


def arguments(parser):
    for name in ("option", "place", "marks", "minimum"):
        parser.add_argument(name, metavar=name.upper())
    parser.add_argument("events", nargs="?", default="-", metavar="EVENTS", help="what it reads; otherwise standard input")


def run(options):
    programs.handed_on("replay_unit", options.events, options.option, options.place, options.marks, options.minimum)
    return FINE
