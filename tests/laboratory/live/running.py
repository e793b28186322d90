"""A card that runs in a namespace, its console, and the files that it leaves."""

import pathlib
import re
import signal
import socket
import subprocess
import time

from live import settings

ROOT = pathlib.Path(__file__).resolve().parents[3]
PATIENCE = 15
BUILT = ROOT / "target" / "livecard" / "livecard"


class Console:
    """A line in, a line out."""

    def __init__(self, path):
        self.socket = socket.socket(socket.AF_UNIX)
        self.socket.settimeout(PATIENCE)
        self.socket.connect(str(path))
        self.lines = self.socket.makefile("r")

    def say(self, line):
        self.socket.sendall(line.encode() + b"\n")
        return self.lines.readline().rstrip("\n")

    def close(self):
        self.lines.close()
        self.socket.close()


class Card:
    """The program in a namespace; `program` may be another build of it."""

    def __init__(self, folder, namespace, interfaces, *more, program=None, tag="card"):
        self.folder, self.namespace = pathlib.Path(folder), namespace
        self.program = program or settings.program or BUILT
        self.console_path, self.logs = self.folder / (tag + ".console"), self.folder / (tag + ".logs")
        self.keep, self.said_path = self.folder / (tag + ".kept"), self.folder / (tag + ".said")
        ports = ["%d=%s" % (port, name) for port, name in interfaces.items()]
        self.call = [str(self.program), "--port", *ports, "--console", str(self.console_path), "--log", str(self.logs), *more]
        self.process = self.console = None

    def start(self):
        with open(self.said_path, "ab") as said:
            self.process = subprocess.Popen(["ip", "netns", "exec", self.namespace, *self.call], stdin=subprocess.DEVNULL,
                                            stdout=said, stderr=said)
        until = time.monotonic() + PATIENCE
        while True:
            try:
                self.console = Console(self.console_path)
                return self
            except OSError:
                if self.process.poll() is not None or time.monotonic() > until:
                    raise AssertionError("the card did not start: %s" % self.said()) from None
                time.sleep(0.02)

    __enter__ = start

    def __exit__(self, *_):
        if self.process and self.process.poll() is None:
            self.process.send_signal(signal.SIGTERM)
            try:
                self.process.wait(PATIENCE)
            except subprocess.TimeoutExpired:
                self.process.kill()
                self.process.wait()
        if self.console:
            self.console.close()
        if re.search("Sanitizer|runtime error", self.said()):
            raise AssertionError("the sanitizers say: %s" % self.said()[-3000:])

    def say(self, line):
        console = self.console
        if console is None:
            raise ConnectionError("the card has been ended")
        return console.say(line)

    def quit(self):
        """Ends the card in order; its exit status."""
        self.say("quit")
        self.console.close()
        self.console = None
        return self.process.wait(PATIENCE)

    def kill(self):
        """Ends it as a power cut would."""
        self.process.kill()
        self.process.wait()
        self.console.close()
        self.console = None

    def said(self):
        return self.said_path.read_text(errors="replace") if self.said_path.exists() else ""

    def zero(self):
        """The card's time 0 on CLOCK_MONOTONIC, in ns, to a millisecond: the latest that its replies allow."""
        least, most = 0, 2**63
        for _ in range(20):
            before = time.monotonic_ns()
            ms = int(self.say("status").split()[1])
            after = time.monotonic_ns()
            least, most = max(least, before - (ms + 1) * 10**6), min(most, after - ms * 10**6)
            time.sleep(0.013)
        return (least + most) // 2

    def sequences(self):
        return sorted({re.match(r"card-(\d+)-", path.name).group(1) for path in self.logs.glob("card-*.log")})

    def log(self, ending="log", sequence=-1):
        """A whole sequence of the log, its files one after the other; the last one if none is named."""
        number = self.sequences()[sequence]
        return b"".join(path.read_bytes() for path in sorted(self.logs.glob("card-%s-*.%s" % (number, ending))))
