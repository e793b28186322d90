"""An event log in words, a line for each of its lines, and back with --log: docs/LABORATORY.md.

Both ways give the same log, byte for byte, malformed lines and a missing last LF included. A word
that is wrong is told with its file, line and column."""

from nurrispane import words
from nurrispane.files import FINE, Trouble, name_of, read, read_text, write

SUMMARY = "an event log in words, and words as an event log"
EXAMPLES = [
    "./nurrispane words examples/whole-replay.log",
    "./nurrispane words --log examples/whole-replay.words",
    "./nurrispane words --log tests/logs/hand-made.txt --name whole-replay/table",
]


def arguments(parser):
    parser.add_argument("file", help="an event log, with --log words; - for standard input")
    parser.add_argument("--log", action="store_true", help="from words to the log")
    parser.add_argument("--name", help="with --log: which log, where the file has several")
    parser.add_argument("--out", metavar="FILE", help="write to FILE, whole or not at all")


def run(options):
    if options.name is not None and not options.log:
        raise Trouble("--name says which log of a file in words, so it goes with --log")
    if options.log:
        log = words.one_log(read_text(options.file), name_of(options.file), options.name)
        write(options.out, log.data())
    else:
        write(options.out, words.log_in_words(read(options.file)).encode())
    return FINE
