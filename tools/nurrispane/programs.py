"""The proved programs, run on a log; what they answer is counted line by line."""

import contextlib
import functools
import pathlib
import subprocess
import sys
import tempfile
import threading

from nurrispane import profiles, words
from nurrispane.files import ROOT, Trouble, name_of, read, reason, standard, write, write_out

CHUNK, LARGE_CHUNK = 1 << 16, 1 << 20


@functools.cache
def ready(name):
    """Proves and builds a program where that has not been done; its progress goes to standard error."""
    built = subprocess.run([str(ROOT / "tools" / "built"), name], stdin=subprocess.DEVNULL, stdout=subprocess.DEVNULL)
    if built.returncode != 0:
        raise Trouble("the program %s is not built" % name)


# Those that take START, after their other arguments.
TAKE_START = ("replay", "outgoing", "counts", "words", "heartbeat", "facts", "verdict")


def command(name, *arguments, start=()):
    """A program's call; START where it takes one."""
    return [str(ROOT / "tools" / "program"), name, *map(str, arguments), *(start if name in TAKE_START else ())]


class LineCount:
    """How many lines some bytes have, handed over in pieces."""

    def __init__(self):
        self.ended, self.open = 0, False

    def take(self, piece):
        self.ended += piece.count(b"\n")
        self.open = not piece.endswith(b"\n") if piece else self.open

    def lines(self):
        return self.ended + self.open


def stream(name, source, sink, start=()):
    """Hands a log from a file to a program and its output on to `sink`, piece by piece; gives the log's front.

    A line that is not answered, or an answer that is not whole, is trouble."""
    ready(name)
    asked, told, failed = LineCount(), LineCount(), []
    try:
        front = source.read(CHUNK)
    except OSError as error:
        raise Trouble("the log cannot be read: %s" % reason(error)) from error
    profiles.of_log(words.option_in(front), start)
    process = subprocess.Popen(command(name, start=start), stdin=subprocess.PIPE, stdout=subprocess.PIPE, stderr=subprocess.PIPE)

    def feed():
        try:
            piece = front
            while piece:
                asked.take(piece)
                process.stdin.write(piece)
                piece = source.read(CHUNK)
            process.stdin.close()
        except (BrokenPipeError, ValueError):
            pass  # the program ended early, or its input was closed as our output failed: the count tells
        except OSError as error:
            failed.append("the log cannot be read: %s" % reason(error))
            process.kill()

    feeder = threading.Thread(target=feed, daemon=True)
    feeder.start()
    try:
        while piece := process.stdout.read1(CHUNK):
            told.take(piece)
            sink(piece)
    except BaseException:
        process.kill()
        raise
    feeder.join()
    said = process.stderr.read()
    status = process.wait()
    if failed:
        raise Trouble(failed[0])
    ended_well(name, status, said, asked, told)
    return front


def given(name, data, start=()):
    """A program run on data, which it reads from a file: handed over by a pipe, a large log would cost more than its replay."""
    ready(name)
    with tempfile.TemporaryFile() as source:
        source.write(data)
        source.seek(0)
        return subprocess.run(command(name, start=start), stdin=source, capture_output=True)


def pieces(name, parts, *arguments, start=()):
    """What a program says to its input, piece by piece; the input comes in parts and is read from a file."""
    ready(name)
    with tempfile.TemporaryFile() as source:
        source.writelines(parts)
        source.seek(0)
        process = subprocess.Popen(command(name, *arguments, start=start), stdin=source, stdout=subprocess.PIPE, stderr=subprocess.PIPE)
        try:
            while piece := process.stdout.read1(LARGE_CHUNK):
                yield piece
            said, status = process.stderr.read(), process.wait()
        finally:
            process.kill()
            process.communicate()
    went_on(name, status, said)


def answers(name, data, start=()):
    """The program's output for a log, line by line."""
    run = given(name, data, start)
    asked, told = LineCount(), LineCount()
    asked.take(data)
    told.take(run.stdout)
    ended_well(name, run.returncode, run.stderr, asked, told)
    return run.stdout.split(b"\n")[:-1]


def went_on(name, status, said):
    """Trouble where a program ended badly, or said that it could not go on."""
    if status != 0:
        raise Trouble("the program %s ended with status %d" % (name, status))
    if said:
        raise Trouble("the program %s says: %s" % (name, said.decode(errors="replace").strip()))


def ended_well(name, status, said, asked, told):
    """Trouble there too, and where it left a line without its answer."""
    went_on(name, status, said)
    if told.open or told.ended != asked.lines():
        raise Trouble("the program %s answered %d of %d lines" % (name, told.ended, asked.lines()))


def put_out(name, path, out, start=()):
    """What a program says to a log: on standard output piece by piece, or in the file `out`, whole or not at all; gives
    the log's front."""
    if out is None:
        with opened(path) as source:
            return stream(name, source, write_out, start)
    data = read(path)
    profiles.of_log(words.option_in(data), start)
    write(out, b"".join(line + b"\n" for line in answers(name, data, start)))
    return data[:CHUNK]


# What stands alone where a start is refused.
REFUSED_START = b"06\n"


def handed_on(name, path, *arguments):
    """A program run on a file as it is; what it says goes to standard output as it comes. What it says on standard error, a
    wrong call above all, is trouble, and so is a start that it refuses."""
    ready(name)
    with opened(path) as source:
        process = subprocess.Popen(command(name, *arguments), stdin=source, stdout=subprocess.PIPE, stderr=subprocess.PIPE)
    told = b""
    try:
        while piece := process.stdout.read1(CHUNK):
            told = (told + piece)[:len(REFUSED_START) + 1]
            write_out(piece)
    except BaseException:
        with contextlib.suppress(ProcessLookupError):
            process.kill()
        raise
    said = process.stderr.read()
    went_on(name, process.wait(), said)
    if told == REFUSED_START:
        raise Trouble("the program %s refuses this start with 6" % name)


def opened(path):
    """A log to read piece by piece; "-" is standard input."""
    if str(path) == "-":
        return standard(sys.stdin, "input")
    try:
        return open(path, "rb", buffering=0)
    except OSError as error:
        raise Trouble("%s cannot be read: %s" % (name_of(path), reason(error))) from error


# ---- programs that take logs in files

# How many octets of a log are read at a time.
PIECE = 1 << 20


def read_log(path):
    """A log of any length; "-" is standard input."""
    pieces = []
    with opened(path) as source:
        try:
            while piece := source.read(PIECE):
                pieces.append(piece)
        except OSError as error:
            raise Trouble("%s cannot be read: %s" % (name_of(path), reason(error))) from error
    return b"".join(pieces)


def on_files(name, logs, *numbers, first=()):
    """What a program says to logs in files and numbers, after words that come first: the files are copies, so that nothing
    changes under it."""
    ready(name)
    with tempfile.TemporaryDirectory() as directory:
        paths = [pathlib.Path(directory) / ("log-%d" % place) for place in range(1, len(logs) + 1)]
        for path, data in zip(paths, logs):
            path.write_bytes(data)
        call = command(name, *first, *paths, *numbers)
        run = subprocess.run(call, stdin=subprocess.DEVNULL, capture_output=True)
    went_on(name, run.returncode, run.stderr)
    return run.stdout
