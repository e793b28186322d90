"""What ESMC frames say, by the proved program. A frame is a line of its octets in digits.

Each is answered with 00, its code, its event flag and its source address, or with the number of its refusal.
With --ours the thirty-two frames are printed that our writer makes: each code without the event flag, then each
with it."""

from nurrispane import programs
from nurrispane.files import FINE

SUMMARY = "what ESMC frames in digits say, by the proved program"
EXAMPLES = ["./nurrispane frames tests/vectors/L2/flag-and-source.frames", "./nurrispane frames --ours"]


def arguments(parser):
    parser.add_argument("frames", nargs="?", default="-", metavar="FILE", help="what it reads; otherwise standard input")
    parser.add_argument("--ours", action="store_true", help="the frames that we write; nothing is read")


def run(options):
    if options.ours:
        programs.handed_on("our_frames", "/dev/null")
    else:
        programs.handed_on("read_frames", options.frames)
    return FINE
