"""What a card leaves on the disk: logs that replay, whole to the last second, and a state that is taken up again."""

import random
import re
import subprocess
import threading
import time

from live import right, settings
from live.tests_wire import LATE, OnWire
from nurrispane import words

SETUP = "kind 4 ethernet\nkind 5 ethernet\nwait 4 0\nwait 5 0\npriority 4 1\npriority 5 2\n"
# s: what is older than this when the power goes is on the disk.
LAST_SECOND = 1.0


class Talker(threading.Thread):
    """Frames and commands at random moments, until it is told to end; remembers what was acknowledged, and when."""

    def __init__(self, card, wire, seed):
        super().__init__(daemon=True)
        self.card, self.wire, self.random, self.ending, self.given = card, wire, random.Random(seed), False, []

    def run(self):
        while not self.ending:
            time.sleep(self.random.uniform(0, 0.03))
            self.wire.play(self.random.choice((4, 5)), words.sound_frame(self.random.choice((2, 4, 8, 11, 15))))
            said = self.random.choice(("priority 4 %d", "wait 5 %d", "floor 4 %d")) % self.random.randint(1, 4)
            try:
                reply = self.card.say(said)
            except OSError:
                return
            if reply.startswith("ok "):
                self.given.append((time.monotonic(), "%s %s" % (reply.split()[1], said)))


class Files(OnWire):
    ports = (4, 5)

    def setUp(self):
        super().setUp()
        self.setup_path = self.folder / "setup"
        self.setup_path.write_text(SETUP)

    def card(self, *more, ports=None):
        return super().card("--setup", str(self.setup_path), *more, ports=ports)


def answer_in_words(status):
    return status.split(" > ")[0].split(" ", 2)[2]


class Kept(Files):
    """A card that is ended, and one that is killed, go on where they were."""

    def card(self, *more, ports=None):
        return super().card("--keep", str(self.folder / "kept"), *more, ports=ports)

    def test_goes_on(self):
        wire = self.wire()
        with self.card() as card:
            wire.play(4, words.sound_frame(2))
            card.say("floor 5 2")
            time.sleep(0.2)
            before = card.say("status")
            card.quit()
            card.start()
            after = card.say("status")
            self.assertEqual(answer_in_words(after), "4 lock 1")
            self.assertGreaterEqual(int(after.split()[1]), int(before.split()[1]))
            self.assertIn("floor 2", card.say("explain 5"))
            card.quit()
        self.assertEqual(len(card.sequences()), 1)
        self.replays(card)

    def test_killed(self):
        """SIGKILL at random moments: what is on the disk replays, is whole to the last second, and the card goes on."""
        wire, times = self.wire(), 4 if settings.short else 20
        card, chance = self.card("--log-size", "1"), random.Random(42)
        with card:
            for turn in range(times):
                talker = Talker(card, wire, turn)
                talker.start()
                time.sleep(chance.uniform(0.05, 2.5))
                killed = time.monotonic()
                talker.ending = True
                card.process.kill()
                card.kill()
                talker.join()
                self.disk_is_whole(card, talker.given, killed)
                card.start()
                self.goes_on(card)
            card.quit()
        self.assertEqual(len(card.sequences()), 1)
        print("\n  %d events in the log of a card that was killed %d times" % (self.replays(card).count(b"\n"), times))

    def disk_is_whole(self, card, given, killed):
        """Whole lines replay to the answers that are there; what was acknowledged a second before is among them."""
        log = card.log()
        log = log[: log.rindex(b"\n") + 1]
        answers = card.log("answers")
        answers = answers[: answers.rindex(b"\n") + 1]
        right_answers = right.replayed(log)
        self.assertTrue(right_answers.startswith(answers))
        said = set(words.log_in_words(log).splitlines())
        for when, line in given:
            if when < killed - LAST_SECOND:
                self.assertIn(line, said)

    def goes_on(self, card):
        """Every line of the log has its answer, and the state is that of the last."""
        status = card.say("status")
        time.sleep(1.2)
        log, answers = card.log(), card.log("answers")
        self.assertEqual(log.count(b"\n"), answers.count(b"\n"))
        self.assertIn("received", status)

    def test_damaged(self):
        """A kept state with any octet changed is not taken up; nor one of another profile."""
        with self.card() as card:
            card.say("priority 4 3")
            card.quit()
        kept = self.folder / "kept"
        octets = bytearray(kept.read_bytes())
        for place in random.Random(1).sample(range(len(octets)), 3 if settings.short else 12):
            damaged = bytearray(octets)
            damaged[place] ^= 1 << place % 8
            kept.write_bytes(damaged)
            with self.card() as card:
                self.assertIn("was not taken up", card.said())
                self.assertIn("priority 1", card.say("explain 4"))
                card.quit()
        kept.write_bytes(octets)
        other = subprocess.run(["ip", "netns", "exec", self.here, *self.card("--option", "2").call], capture_output=True, text=True,
                               timeout=20)
        self.assertEqual(other.returncode, 2)
        self.assertIn("another profile", other.stderr)

    def test_another_boot(self):
        """After a reboot the clock begins anew: the card's time goes on from its own."""
        with self.card() as card:
            time.sleep(0.5)
            card.quit()
        # the kept form has the start of the machine as text, and its checksum over all
        other = self.rebooted((self.folder / "kept").read_bytes())
        (self.folder / "kept").write_bytes(other)
        with self.card() as card:
            self.assertIn("the clock began anew", card.said())
            self.assertLess(int(card.say("status").split()[1]), 60000)
            card.quit()
        self.replays(card)

    def rebooted(self, octets):
        place = re.search(rb"[0-9a-f]{8}(-[0-9a-f]{4}){3}-[0-9a-f]{12}", octets).start()
        body = octets[:place] + b"00000000" + octets[place + 8 : -8]
        return body + crc64(body).to_bytes(8, "little")


def crc64(octets):
    """CRC-64 of ECMA-182, reflected."""
    total = 2**64 - 1
    for octet in octets:
        total ^= octet
        for _ in range(8):
            total = total >> 1 ^ (0xC96C5795D7870F42 if total & 1 else 0)
    return total ^ (2**64 - 1)


class Logs(Files):
    """Rotated files, a full disk, a log without its beginning."""

    def fill(self, wire, frames):
        for place in range(frames):
            wire.play(4, words.resized(words.sound_frame((2, 4)[place // 50 % 2]), 1514))
            time.sleep(0.001 if place % 20 == 0 else 0)

    def test_rotated(self):
        """Each file replays from the state that it starts with, all of them one after the other from nothing."""
        wire = self.wire()
        with self.card("--log-size", "1") as card:
            for _ in range(3):
                self.fill(wire, 400)
                time.sleep(0.7)
            card.quit()
        self.replays(card)
        starts = sorted(card.logs.glob("*.start"))
        self.assertGreaterEqual(len(starts), 2)
        for start in starts:
            self.replays_from(start)

    def replays_from(self, start):
        log = start.with_suffix(".log").read_bytes()
        run = subprocess.run([str(settings.program), "--replay", str(start)], input=log, capture_output=True, check=True)
        self.assertEqual(run.stdout, start.with_suffix(".answers").read_bytes())
        self.assertGreater(len(log), 0)

    def test_full_disk(self):
        """The log stops and says so; the card goes on, keeps its state, and begins a log anew from it."""
        small = self.folder / "card.logs"
        small.mkdir()
        mounted = subprocess.run(["mount", "-t", "tmpfs", "-o", "size=1m", "none", str(small)], capture_output=True)
        if mounted.returncode != 0:
            self.skipTest("no right to mount a small disk")
        self.addCleanup(subprocess.run, ["umount", str(small)], capture_output=True)
        wire = self.wire()
        with self.card("--keep", str(self.folder / "kept")) as card:
            self.fill(wire, 800)
            time.sleep(1.5)
            self.assertIn("the log stops: it cannot be written: No space left", card.said())
            self.assertIn("log stopped", card.say("status"))
            self.assertRegex(card.say("priority 5 7"), "^ok ")
            time.sleep(1.2)
            card.quit()
            self.replays(card)
            self.assertLess(right.longest_gap(wire.sent_by_card(5)), 1000 + LATE)
            for path in small.glob("card-*"):
                path.rename(self.folder / path.name) if path.stat().st_dev == self.folder.stat().st_dev else path.unlink()
            card.start()
            self.assertIn("priority 7", card.say("explain 5"))
            self.assertIn("a new sequence begins with it", card.said())
            time.sleep(1)
            card.quit()
            self.replays_from(next(card.logs.glob("*.start")))


class Profiles(Files):
    """A card of option II, and a station clock unit."""

    def test_option_two(self):
        wire = self.wire()
        with self.card("--option", "2", "--place", "3", "--marks", "00f0") as card:
            zero = card.zero()
            for code in (1, 0, 7, 4, 13, 10, 12, 14, 15, 2):
                wire.play(4, words.sound_frame(code))
                time.sleep(0.25)
            self.assertRegex(card.say("word 4 PRS"), "^refused 7 ")
            card.quit()
        log = self.replays(card, start="2 3 00f0")
        self.assertTrue(all(line[2:4] == b"02" for line in log.splitlines()))
        self.frames_right(wire, log, zero, "2 3 00f0")

    def test_unit(self):
        self.setup_path.write_text("kind 4 ethernet\ne wait 4 0\ns wait 4 0\ne priority 4 1\ns priority 4 1\n")
        told, wire = self.folder / "told", self.wire()
        with self.card("--unit", "2", "--follow", "exec cat >> %s" % told, "--keep", str(self.folder / "kept")) as card:
            for code in (2, 4, 8, 15, 2):
                wire.play(4, words.sound_frame(code))
                time.sleep(0.3)
            self.assertRegex(card.say("s lockout 4 set"), r"^ok \d+ 4 lock 1 / - hold 4 squelched$")
            self.assertRegex(card.say("lockout 4 set"), "^cannot: .*which selector")
            self.assertRegex(card.say("s explain 4"), "locked out")
            card.quit()
            card.start()
            self.assertRegex(card.say("status"), r"^ok \d+ 4 lock 1 / - hold 4 squelched > ")
            card.quit()
        self.assertEqual(right.replayed_unit(card.log(), 1, 0, "0000", 2), card.log("answers"))
        self.assertEqual(told.read_text().splitlines()[:5], [
            "free run station squelched", "input 4 station input 4", "input 4 station squelched", "holdover station squelched",
            "input 4 station input 4"])
