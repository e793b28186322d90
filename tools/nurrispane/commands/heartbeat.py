"""Log lines, and between them questions to the senders of the ports, by the proved program.

A log line is answered as `replay` does. A question is `? PORT TIME LENGTH SOURCE`: the time in ms, the room for
a frame in octets, the source address in twelve digits. Its answer is the frame's 120 digits, - for nothing to
send, or the two digits of the refusal; ?? for any other line that begins with ?."""

from nurrispane import profiles, programs
from nurrispane.files import FINE

SUMMARY = "what the senders send and when, by the proved program"
EXAMPLES = ["./nurrispane heartbeat crates/heartbeat/stdin"]


def arguments(parser):
    parser.add_argument("questions", nargs="?", default="-", metavar="FILE", help="what it reads; otherwise standard input")
    profiles.argument(parser)


def run(options):
    programs.handed_on("heartbeat", options.questions, *profiles.start_of(options.start))
    return FINE
