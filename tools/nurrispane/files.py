"""Reading in full, and writing whole or not at all."""

import contextlib
import os
import pathlib
import shutil
import sys
import tempfile

ROOT = pathlib.Path(__file__).resolve().parents[2]

# Exit status.
FINE, FINDING, TROUBLE = 0, 1, 2


class Trouble(Exception):
    """Something that could not be done: told in one line, with exit status 2."""


class NobodyReads(Exception):
    """Standard output has no reader any more, as behind `| head`."""


def reason(error):
    """What the system says of an error, without its number."""
    return getattr(error, "strerror", None) or str(error)


def plain(text):
    """Text that a terminal shows and doesn't obey: what isn't printable is written as \\xHH, but for the ends of lines."""
    return "".join(each if each.isprintable() or each == "\n" else ascii(each)[1:-1] for each in text)


def name_of(path):
    """A file's name as it is told."""
    return "standard input" if str(path) == "-" else plain(str(path)).replace("\n", "\\n")


class PlainText:
    """A text stream that gets plain text only, for what is told of names and arguments that come from anywhere."""

    def __init__(self, stream):
        self.stream = stream

    def write(self, text):
        return self.stream.write(plain(text))

    def __getattr__(self, name):
        return getattr(self.stream, name)


def standard(stream, name):
    """Standard input or output as bytes."""
    if stream is None:
        raise Trouble("standard %s is closed" % name)
    return stream.buffer


def read(path):
    """All bytes of a file, of standard input for "-"."""
    try:
        if str(path) == "-":
            return standard(sys.stdin, "input").read()
        with open(path, "rb") as file:
            return file.read()
    except OSError as error:
        raise Trouble("%s cannot be read: %s" % (name_of(path), reason(error))) from error


def read_text(path):
    """The same, of text."""
    data = read(path)
    try:
        return data.decode("utf-8")
    except UnicodeDecodeError as error:
        line = data[: error.start].count(b"\n") + 1
        raise Trouble("%s: line %d is no text" % (name_of(path), line)) from error


def write(path, data):
    """Writes a file whole or not at all; to standard output where there is no path."""
    if path is None:
        return write_out(data)
    # behind a link it is the file that is replaced, not the link
    path = pathlib.Path(os.path.realpath(path))
    if path.exists() and not path.is_file():
        raise Trouble("%s cannot be written: it is no file" % name_of(path))
    temporary = None
    try:
        handle, temporary = tempfile.mkstemp(prefix=".%s." % path.name, dir=path.parent)
        with os.fdopen(handle, "wb") as file:
            file.write(data)
            file.flush()
            os.fsync(file.fileno())
        os.chmod(temporary, permissions(path))
        os.replace(temporary, path)
    except BaseException as error:
        if temporary:
            with contextlib.suppress(OSError):
                os.unlink(temporary)
        if isinstance(error, OSError):
            raise Trouble("%s cannot be written: %s" % (name_of(path), reason(error))) from error
        raise


def permissions(path):
    """Those that a file has, or a new one gets."""
    return path.stat().st_mode & 0o777 if path.exists() else 0o666 & ~current_umask()


def current_umask():
    umask = os.umask(0)
    os.umask(umask)
    return umask


def write_out(data):
    """Standard output, to the last byte."""
    output = standard(sys.stdout, "output")
    try:
        output.write(data)
        output.flush()
    except OSError as error:
        # what is left in the buffer would be tried again at the end
        with contextlib.suppress(OSError):
            os.dup2(os.open(os.devnull, os.O_WRONLY), sys.stdout.fileno())
        if isinstance(error, BrokenPipeError):
            raise NobodyReads from error
        raise Trouble("standard output cannot be written: %s" % reason(error)) from error


def free_directory(path):
    """Trouble where something is there already, but for an empty directory."""
    path = pathlib.Path(path)
    if path.exists() and not (path.is_dir() and not any(path.iterdir())):
        raise Trouble("%s is there already" % name_of(path))


@contextlib.contextmanager
def whole_directory(path):
    """A directory to fill, which gets its name once all of it is there."""
    free_directory(path)
    path = pathlib.Path(path)
    try:
        temporary = pathlib.Path(tempfile.mkdtemp(prefix=".%s." % path.name, dir=path.absolute().parent))
    except OSError as error:
        raise Trouble("%s cannot be made: %s" % (name_of(path), reason(error))) from error
    try:
        yield temporary
        os.chmod(temporary, 0o777 & ~current_umask())
        os.replace(temporary, path)
    except OSError as error:
        raise Trouble("%s cannot be made: %s" % (name_of(path), reason(error))) from error
    finally:
        shutil.rmtree(temporary, ignore_errors=True)
