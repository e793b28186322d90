"""The hook: a program that gives commands to a card. Started once; a line of words in, a line out: `ok`, `refused TEXT` or
`cannot`, once the card has the command. docs/ACCEPTANCE.md says how to write one."""

import collections
import os
import select
import shlex
import subprocess
import time

from nurrispane.files import Trouble, reason

OK, REFUSED, CANNOT = "ok", "refused", "cannot"
REPLIES = (OK, REFUSED, CANNOT)
FRESH = "fresh"
PIECE = 4_096
# How long a hook may take to end once its input is closed, in seconds.
FAREWELL = 5

# A command: when it was given and when answered, ns of CLOCK_MONOTONIC; its words; the reply's first word, and the rest.
Command = collections.namedtuple("Command", "first last words reply told")


class Hook:
    """A running hook; `patience` is in ms."""

    def __init__(self, call, patience):
        self.call, self.patience, self.pending = call, patience, b""
        try:
            self.process = subprocess.Popen(shlex.split(call), stdin=subprocess.PIPE, stdout=subprocess.PIPE)
        except (OSError, ValueError, IndexError) as error:
            raise Trouble(f"the hook {call} cannot be started: {reason(error)}") from error

    def say(self, words):
        """Gives a command and waits for its reply."""
        first = time.monotonic_ns()
        try:
            self.process.stdin.write(words.encode() + b"\n")
            self.process.stdin.flush()
        except OSError as error:
            raise Trouble(f"the hook takes no more commands at \"{words}\": {self.ended() or reason(error)}") from error
        line = self.line(words)
        reply, _, told = line.partition(" ")
        if reply.rstrip(":") not in REPLIES:
            raise Trouble(f"the hook answered \"{words}\" with {ascii(line)}, which is neither ok, refused nor cannot")
        return Command(first, time.monotonic_ns(), words, reply.rstrip(":"), told.strip())

    def line(self, words):
        """The next line that the hook says."""
        until = time.monotonic() + self.patience / 1000
        while b"\n" not in self.pending:
            left = until - time.monotonic()
            if left <= 0 or not select.select([self.process.stdout], [], [], left)[0]:
                raise Trouble(f"the hook did not answer \"{words}\" in {self.patience:,} ms")
            piece = os.read(self.process.stdout.fileno(), PIECE)
            if not piece:
                raise Trouble(f"the hook ended at \"{words}\"{self.ended()}")
            self.pending += piece
        line, _, self.pending = self.pending.partition(b"\n")
        return line.decode(errors="replace").strip()

    def ended(self):
        """How the hook ended, in words; nothing where it still runs."""
        try:
            return f" with status {self.process.wait(1)}"
        except subprocess.TimeoutExpired:
            return ""

    def close(self):
        """Ends the hook: its input is closed; one that goes on is killed."""
        try:
            self.process.stdin.close()
        except OSError:
            pass  # it has ended already
        try:
            self.process.wait(FAREWELL)
        except subprocess.TimeoutExpired:
            self.process.kill()
            self.process.wait()
        self.process.stdout.close()
