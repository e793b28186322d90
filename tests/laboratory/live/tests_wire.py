"""What a card sends and takes on its ports: sequences, two cards back to back, links, odd frames, a flood."""

import pathlib
import tempfile
import time
import unittest

from live import network, right, settings
from live.running import Card
from live.wire import Wire
from nurrispane import words

HERE = pathlib.Path(__file__).resolve().parent
PORTS = (2, 3, 4, 5)
# ms: how long a wrong code may stand, and how late a heartbeat may be, on a busy machine.
TOLERANCE, LATE = 50, 50
SHORT = ("codes",)


def wait_until(zero, ms):
    left = zero + ms * 10**6 - time.monotonic_ns()
    if left > 0:
        time.sleep(left / 1e9)


class OnWire(unittest.TestCase):
    """A card in a namespace of its own, with pairs to the bench's."""

    ports = PORTS
    mtu = 1500

    def setUp(self):
        self.folder = pathlib.Path(self.enterContext(tempfile.TemporaryDirectory()))
        self.network = self.enterContext(network.Network(self.id().split("_")[-1][:6]))
        self.here, self.there = self.network.namespace("card"), self.network.namespace("bench")
        for port in self.ports:
            self.network.pair(self.here, "c%d" % port, self.there, "b%d" % port, self.mtu)

    def wire(self, ports=None):
        return self.enterContext(Wire(self.there, {port: "b%d" % port for port in ports or self.ports}))

    def card(self, *more, ports=None):
        interfaces = {port: "c%d" % port for port in ports or self.ports}
        return Card(self.folder, self.here, interfaces, "--real-time", *more)

    def replays(self, card, sequence=-1, start=None):
        """The log replays to its answers; gives the log."""
        log, answers = card.log("log", sequence), card.log("answers", sequence)
        self.assertTrue(log.endswith(b"\n"))
        self.assertEqual(right.replayed(log, start), answers)
        return log

    def frames_right(self, wire, log, zero, start=None):
        """Every port's frames: octets as proved, codes at their times, no heartbeat late."""
        for port in self.ports:
            frames = [one for one in wire.sent_by_card(port) if one.at >= zero - 2 * right.NS_A_MS]
            self.assertEqual(right.wrong_octets(frames), [])
            self.assertEqual(right.wrong_codes(frames, port, log, zero, TOLERANCE, start), [])
            self.assertLess(right.longest_gap(frames), 1000 + LATE, "port %d" % port)


class Sequences(OnWire):
    """A right run of a sequence, and what tshark says of it."""

    def play(self, name):
        log = words.one_log((HERE / "sequences" / (name + ".words")).read_text(), name)
        plan = [(words.event_of(line.data), line.data) for line in log.lines]
        wire = self.wire()
        with self.card("--signals", "console") as card:
            self.assertTrue(card.say("fresh").startswith("ok 0 "))
            zero = card.zero()
            for event, data in plan:
                wait_until(zero, event.time + 300)
                if event.kind == words.FRAME_KIND:
                    wire.play(event.input, event.octets)
                else:
                    said = words.line_in_words(data).split(" ", 1)[1]
                    self.assertTrue(card.say(said).startswith("ok "), said)
            time.sleep(1.5)
            self.assertEqual(card.quit(), 0)
        log = self.replays(card)
        given = [words.event_of(line) for line in log.splitlines()]
        given = [event for event in given if event.kind != words.BY_WORD["tick"].number]
        self.assertEqual([event._replace(time=0) for event in given], [event._replace(time=0) for event, _ in plan])
        self.assertLess(max(abs(ours.time - event.time - 300) for ours, (event, _) in zip(given, plan)), 400)
        self.frames_right(wire, log, zero)
        sent = [one for one in wire.sent_by_card() if one.at >= zero - 2 * right.NS_A_MS]
        self.assertEqual(right.wrongly_dissected(sent, zero, LATE), [], name)


def add_sequences():
    for path in sorted((HERE / "sequences").glob("*.words")):
        def test(self, name=path.stem):
            if settings.short and name not in SHORT:
                self.skipTest("not in the short form")
            self.play(name)
        setattr(Sequences, "test_" + path.stem, test)


add_sequences()


class BackToBack(OnWire):
    """Two cards with a cable between them and a source each: no timing loop, and holdover when both sources go."""

    ports = (2,)

    def setUp(self):
        super().setUp()
        self.other = self.network.namespace("other")
        self.network.pair(self.here, "c4", self.other, "d4")
        self.network.pair(self.other, "d2", self.there, "e2")
        self.setup_path = self.folder / "setup"
        self.setup_path.write_text("kind 2 ethernet\nkind 4 ethernet\nwait 2 0\nwait 4 0\npriority 2 1\npriority 4 2\nfloor 4 3\n")

    def card_in(self, namespace, letter, tag):
        """Port 2 is the source, 4 the other card."""
        interfaces = {port: "%s%d" % (letter, port) for port in (2, 4)}
        return Card(self.folder, namespace, interfaces, "--real-time", "--setup", str(self.setup_path), tag=tag)

    def feed(self, seconds, *sources):
        """Each source tells its code every half second."""
        until = time.monotonic() + seconds
        while time.monotonic() < until:
            for wire, code in sources:
                wire.play(2, words.sound_frame(code))
            time.sleep(0.5)

    def stands(self, first, second, told):
        """What each card follows, and what each last told the other on the cable between them."""
        shown = [card.say("status").split(" > ")[0].split(" ", 2)[2] for card in (self.first, self.second)]
        self.assertEqual(shown, [first, second])
        last = {one.played: one.octets[27] & 15 for one in sorted(self.between.found)}
        self.assertEqual((last[False], last[True]), told)

    def test_back_to_back(self):
        east = self.enterContext(Wire(self.there, {2: "b2"}))
        west = self.enterContext(Wire(self.there, {2: "e2"}))
        self.between = self.enterContext(Wire(self.other, {4: "d4"}))
        self.first, self.second = self.card_in(self.here, "c", "first"), self.card_in(self.other, "d", "second")
        with self.first, self.second:
            # the second hears PRC by the first and SSU-A by its own source, and tells the first DNU
            self.feed(2, (east, 2), (west, 4))
            self.stands("2 lock 1", "4 lock 1", (2, 15))
            # the first's source is silent for more than 5,000 ms: now it follows the second, and tells it DNU
            self.feed(6.5, (west, 4))
            self.stands("4 lock 2", "2 lock 2", (15, 4))
            # both sources are silent: neither follows the other, whose own clock is below the floor
            time.sleep(7)
            self.stands("- hold 4", "- hold 4", (11, 11))
        for card in (self.first, self.second):
            self.replays(card)


def odd_frames():
    """Frames that are not followed, and the number each is refused with; None for one that has no line in a log."""
    sound = bytes(words.sound_frame(4))
    yield sound[:12] + b"\x81\x00\x00\x07" + sound[12:], 10
    yield sound[:12] + b"\x81\x00\xe0\x00" + sound[12:], 10
    yield sound[:12] + b"\x88\xa8\x00\x07\x81\x00\x00\x08" + sound[12:], 10
    yield sound[:59], 8
    yield sound[:15], 8
    yield sound + bytes(1515 - 60), None
    yield sound + bytes(9000 - 60), None
    yield (sound[:12] + b"\x81\x00\x00\x07" + sound[12:] + bytes(1600))[:1518], None
    yield b"\x00" + sound[1:], 9
    yield sound[:12] + b"\x89\x09" + sound[14:], 10
    yield sound[:14] + b"\x0b" + sound[15:], 10
    yield sound[:17] + b"\xa6" + sound[18:], 11
    yield sound[:20] + b"\x20" + sound[21:], 12
    yield sound[:26] + b"\x05" + sound[27:], 13


FOREIGN = [
    bytes.fromhex("ffffffffffff0200000000030806") + bytes(46),
    bytes.fromhex("01005e0000010200000000030800") + bytes(100),
    bytes.fromhex("0180c2000002020000000003880901") + bytes(109),
    bytes.fromhex("0180c2000000020000000003002642420300") + bytes(42),
]


class Frames(OnWire):
    """Tagged, short, oversized, damaged and foreign frames: none is followed, each is refused with its number."""

    ports = (3, 4)
    mtu = 9100

    def run_odd(self, *more):
        wire = self.wire()
        setup = self.folder / "setup"
        setup.write_text("kind 4 ethernet\nwait 4 0\npriority 4 1\n")
        with self.card("--setup", str(setup), *more) as card:
            wire.play(4, words.sound_frame(2))
            for octets, _ in odd_frames():
                wire.play(4, octets)
            for octets in FOREIGN:
                wire.play(4, octets)
            wire.play(4, words.sound_frame(8))
            time.sleep(0.5)
            status = card.say("status")
            self.assertIn(" 4 lock 3 ", status)
            self.assertIn("oversized 3", status)
            card.quit()
        log = self.replays(card)
        answers = card.log("answers").splitlines()
        return [int(answer[:2], 16) for line, answer in zip(log.splitlines(), answers) if line.startswith(b"02")]

    def test_odd_frames(self):
        right_numbers = [0, *(number for _, number in odd_frames() if number is not None), 0]
        self.assertEqual(self.run_odd(), right_numbers)

    def test_every_frame(self):
        right_numbers = [0, *(number for _, number in odd_frames() if number is not None), 9, 9, 10, 9, 0]
        self.assertEqual(self.run_odd("--every-frame"), right_numbers)


class Links(OnWire):
    """A link that goes down and comes back is the input's signal; one that is removed and made again is taken up."""

    ports = (3, 4)

    def test_link_down_and_up(self):
        wire = self.wire()
        setup = self.folder / "setup"
        setup.write_text("kind 4 ethernet\nwait 4 0\npriority 4 1\n")
        with self.card("--setup", str(setup)) as card:
            wire.play(4, words.sound_frame(2))
            time.sleep(0.3)
            self.assertIn(" 4 lock 1 ", card.say("status"))
            self.network.link(self.there, "b4", "down")
            time.sleep(1)
            self.assertIn(" - hold 4 ", card.say("status"))
            self.assertIn("input 4 raw failed passed failed priority 1 signal fail", card.say("explain"))
            self.network.link(self.there, "b4", "up")
            time.sleep(0.3)
            wire.play(4, words.sound_frame(4))
            time.sleep(0.5)
            self.assertIn(" 4 lock 2 ", card.say("status"))
            self.assertTrue(card.say("signal 4 fail").startswith("cannot: "))
            card.quit()
        log = self.replays(card)
        signals = [line for line in log.splitlines() if line.startswith(b"01")]
        self.assertEqual([line[-6:] for line in signals], [b"030000", b"040000", b"040001", b"040000"])

    def test_interface_comes_back(self):
        wire = self.wire((3,))
        with self.card() as card:
            network.ip("-n", self.here, "link", "del", "c4")
            time.sleep(0.5)
            self.assertIn("port 4 c4 down", card.say("status"))
            self.network.pair(self.here, "c4", self.there, "b4")
            again = self.enterContext(Wire(self.there, {4: "b4"}))
            time.sleep(2)
            self.assertIn("port 4 c4 up", card.say("status"))
            self.assertGreater(len(again.sent_by_card(4)), 0)
            self.assertLess(right.longest_gap(wire.sent_by_card(3)), 1000 + LATE)
            card.quit()
        self.replays(card)


class Flood(OnWire):
    """10,000 frames a second on one port: no heartbeat late on the others, and the log replays."""

    ports = (2, 3, 4)
    rate = 10000

    def test_flood(self):
        seconds = 2 if settings.short else 10
        wire = self.wire((2, 3))
        flood = Wire(self.there, {4: "b4"})
        setup = self.folder / "setup"
        setup.write_text("kind 4 ethernet\nwait 4 0\npriority 4 1\n")
        with self.card("--setup", str(setup)) as card:
            time.sleep(1.1)
            played = self.flood(flood, seconds)
            time.sleep(1.2)
            status = card.say("status")
            card.quit()
        log = self.replays(card)
        frames = [line for line in log.splitlines() if line.startswith(b"02")]
        print("\n  %d frames played, %d given; longest gaps %.1f and %.1f ms; %s" % (
            played, len(frames), *(right.longest_gap(wire.sent_by_card(port)) for port in (2, 3)), status.split("; port 4")[1][:60]))
        self.assertGreater(played, 0.8 * self.rate * seconds)
        self.assertEqual(len(frames) + self.dropped(status), played)
        for port in (2, 3):
            self.assertLess(right.longest_gap(wire.sent_by_card(port)), 1050)

    def flood(self, wire, seconds):
        """Plays 100 frames each 10 ms, two codes in turn each 100 ms."""
        frames = [bytes(words.sound_frame(2)), bytes(words.sound_frame(4))]
        begun, played = time.monotonic(), 0
        while (now := time.monotonic()) < begun + seconds:
            while played < (now - begun) * self.rate:
                wire.play(4, frames[played // 1000 % 2])
                played += 1
            time.sleep(0.002)
        return played

    def dropped(self, status):
        port = status.split("; port 4")[1].split(";")[0].split()
        return int(port[port.index("dropped") + 1]) if "dropped" in port else 0
