"""The console, the follower and the rights: a client or a follower that misbehaves stops nothing."""

import shutil
import signal
import socket
import subprocess
import time

from live import right, running, settings
from live.tests_wire import LATE, OnWire
from nurrispane import words


class Console(OnWire):
    """A line in, a line out."""

    ports = (3, 4)

    def test_lines(self):
        with self.card("--signals", "console") as card:
            self.assertRegex(card.say("priority 4 1"), r"^ok \d+ - free 4$")
            self.assertRegex(card.say("forced 9"), r"^refused 14 \d+ - free 4: forced: input off or locked$")
            self.assertEqual(card.say("foo"), "cannot: column 1: no such word: foo")
            self.assertRegex(card.say("explain 4"), r"^ok \d+ - free 4; input 4 raw failed passed failed priority 1 signal fail floor 4")
            self.assertRegex(card.say("explain 16"), "^cannot")
            self.assertRegex(card.say("code 4 0010"), r"^ok")
            self.assertRegex(card.say("fresh"), r"^ok 0 - free 4$")
            self.assertEqual(card.say("x" * 5000), "cannot: the line is too long")
            self.assertRegex(card.say("event 02 4 0 " + "00" * 1514), r"^refused 7 ")
            self.two_lines_in_a_packet(card)
            card.quit()
        for sequence in (0, 1):
            self.replays(card, sequence)

    def two_lines_in_a_packet(self, card):
        card.console.socket.sendall(b"tick\r\n\n  tick # twice\nti")
        card.console.socket.sendall(b"ck\n")
        self.assertEqual([card.console.lines.readline()[:3] for _ in range(3)], ["ok "] * 3)

    def test_one_way_client(self):
        with self.card() as card:
            with socket.socket(socket.AF_UNIX) as one:
                one.connect(str(card.console_path))
                one.sendall(b"status\nexplain\n")
                one.shutdown(socket.SHUT_WR)
                said = b""
                while piece := one.recv(4096):
                    said += piece
            self.assertEqual(said.count(b"\n"), 2)

    def test_floods_and_stalls(self):
        """Lines without end, replies that nobody reads, clients that go away, more clients than there are places."""
        wire = self.wire((3,))
        with self.card("--signals", "console") as card:
            clients = []
            for _ in range(12):
                one = socket.socket(socket.AF_UNIX)
                one.connect(str(card.console_path))
                one.setblocking(False)
                clients.append(one)
            until = time.monotonic() + (2 if settings.short else 5)
            while time.monotonic() < until:
                for place, one in enumerate(clients):
                    self.push(one, place % 2 == 0)
            for one in clients:
                one.close()
            self.assertTrue(running.Console(card.console_path).say("status").startswith("ok "))
            time.sleep(0.3)
            self.assertLess(right.longest_gap(wire.sent_by_card(3)), 1000 + LATE)
            card.process.send_signal(signal.SIGTERM)
            self.assertEqual(card.process.wait(running.PATIENCE), 0)
        log = self.replays(card)
        print("\n  %d lines of the flood were given" % log.count(b"\n"))

    def push(self, one, reads):
        """Says lines without waiting for an answer; of the clients every other one reads what it is told."""
        try:
            if reads:
                one.recv(1 << 16)
            one.send(b"priority 4 1\nstatus\nexplain\n" * 20)
        except (BlockingIOError, BrokenPipeError, ConnectionResetError):
            pass

    def test_second_card(self):
        with self.card() as card:
            other = subprocess.run(["ip", "netns", "exec", self.here, *card.call], capture_output=True, text=True, timeout=20)
            self.assertEqual(other.returncode, 2)
            self.assertIn("another card", other.stderr)


class Follow(OnWire):
    """A line a change; a slow or dead follower stops nothing and is told."""

    ports = (4,)

    def setUp(self):
        super().setUp()
        self.setup_path = self.folder / "setup"
        self.setup_path.write_text("kind 4 ethernet\nwait 4 0\npriority 4 1\n")

    def test_follow(self):
        told, wire = self.folder / "told", self.wire()
        with self.card("--setup", str(self.setup_path), "--follow", "exec cat >> %s" % told) as card:
            wire.play(4, words.sound_frame(2))
            time.sleep(0.3)
            wire.play(4, words.sound_frame(4))
            time.sleep(0.3)
            wire.play(4, words.sound_frame(15))
            time.sleep(0.3)
            card.say("fresh")
            card.quit()
        self.assertEqual(told.read_text().splitlines(), ["free run", "input 4", "holdover", "free run"])

    def test_slow(self):
        """It reads nothing for a while: then it gets the last word, and the card has not waited."""
        told, wire = self.folder / "told", self.wire()
        with self.card("--setup", str(self.setup_path), "--follow", "sleep 4; exec cat >> %s" % told) as card:
            until, code = time.monotonic() + 3, 2
            while time.monotonic() < until:
                for _ in range(200):
                    code = 17 - code
                    wire.play(4, words.sound_frame(code))
                time.sleep(0.02)
            wire.play(4, words.sound_frame(2))
            time.sleep(2)
            self.assertLess(right.longest_gap(wire.sent_by_card(4)), 1000 + LATE)
            card.quit()
        self.assertIn("--follow is slow", card.said())
        self.assertEqual(told.read_text().splitlines()[-1], "input 4")
        self.replays(card)

    def test_dead(self):
        """It ends, is started again, and is told what stands."""
        told, wire = self.folder / "told", self.wire()
        with self.card("--setup", str(self.setup_path), "--follow", "head -n 1 >> %s; exit 3" % told) as card:
            time.sleep(0.5)
            wire.play(4, words.sound_frame(2))
            time.sleep(2)
            self.assertLess(right.longest_gap(wire.sent_by_card(4)), 1000 + LATE)
            card.quit()
        self.assertIn("--follow ended with status 3", card.said())
        self.assertEqual(told.read_text().splitlines()[:2], ["free run", "input 4"])


class Rights(OnWire):
    """What the program may do: it says what is missing, and keeps nothing once its sockets are open."""

    ports = (4,)

    def test_drops_rights(self):
        with self.card() as card:
            status = open("/proc/%d/status" % card.process.pid, encoding="ascii").read()
            for name in ("CapPrm", "CapEff", "CapAmb"):
                self.assertRegex(status, r"%s:\s+0{16}\n" % name)
            self.assertRegex(status, r"NoNewPrivs:\s+1\n")
            card.quit()

    def without(self, *more):
        """The card as a user without rights."""
        if not shutil.which("setpriv"):
            self.skipTest("setpriv is not there")
        call = ["ip", "netns", "exec", self.here, "setpriv", "--reuid=65534", "--clear-groups", "--regid=65534", *more]
        return subprocess.run([*call, str(settings.program), "--port", "4=c4"], capture_output=True, text=True, timeout=20)

    def test_missing_raw(self):
        run = self.without()
        self.assertEqual(run.returncode, 2)
        self.assertIn("CAP_NET_RAW is missing", run.stderr)

    def test_missing_nice(self):
        if not shutil.which("setpriv"):
            self.skipTest("setpriv is not there")
        call = ["ip", "netns", "exec", self.here, "setpriv", "--bounding-set=-sys_nice", "--inh-caps=-sys_nice",
                str(settings.program), "--port", "4=c4", "--real-time"]
        run = subprocess.run(call, capture_output=True, text=True, timeout=20)
        self.assertEqual(run.returncode, 2)
        self.assertIn("CAP_SYS_NICE is missing", run.stderr)

    def test_wrong_calls(self):
        for call, told in ((["--port", "4=none"], "no interface none"), (["--port", "16=c4"], "0 to 15"), ([], "no port is mapped"),
                           (["--port", "4=c4", "5=c4"], "port 4's already"), (["--port", "4=c4", "--place", "2"], "option II alone"),
                           (["--port", "4=c4", "--unit", "5"], "does not start"), (["--foo"], "no such option")):
            run = subprocess.run(["ip", "netns", "exec", self.here, str(settings.program), *call], capture_output=True, text=True, timeout=20)
            self.assertEqual(run.returncode, 2, call)
            self.assertIn(told, run.stderr)

    def test_wrong_setup(self):
        setup = self.folder / "setup"
        for text, told in (("priority 4 1\npriority 4 x\n", "line 2, column 12"), ("priority 4 17\n", "line 1 is refused with 6")):
            setup.write_text(text)
            run = subprocess.run(["ip", "netns", "exec", self.here, str(settings.program), "--port", "4=c4", "--setup", str(setup)],
                                 capture_output=True, text=True, timeout=20)
            self.assertEqual(run.returncode, 2)
            self.assertIn(told, run.stderr)
