"""Capture files of Ethernet frames: pcap and pcapng are read, pcap is written.

The formats are those of draft-ietf-opsawg-pcap and draft-ietf-opsawg-pcapng; why they are read
here is in docs/DECISIONS.md. Nothing is dissected: what a frame is, document 01 says.
"""

import collections
import contextlib
import gzip
import struct

from nurrispane import words
from nurrispane.files import Trouble, name_of, reason

ETHERNET = 1
# Cooked captures, as of Linux's interface "any": the octets before the payload are the system's, and no destination is among them.
COOKED_1, COOKED_2 = 113, 276
# What a cooked header says of a frame: sent to a group, or sent by this machine; and that its address is one of Ethernet.
TO_A_GROUP, SENT_HERE = 2, 4
ETHERNET_DEVICE, ADDRESS = 1, 6
NANO = 10**9
SHORTEST_BLOCK = 12
# No block or frame is longer: more is a damaged length.
LARGEST_BLOCK = 1 << 26

# A frame of a capture: its number from 1, its time in ns or None, its interface, its octets
# without FCS, and how many octets it had on the wire, also without FCS. `link` is how it was captured; a cooked one has ESMC's
# destination put in, and `index` is the number that the system has of its interface, where the file says it.
Frame = collections.namedtuple("Frame", "number time interface octets length link index")


class Interface:
    """Where frames were captured: its number from 0 in the file, and what the file says of it."""

    def __init__(self, number, link, name=None, units=10**6, offset=0, fcs=0, snap=0):
        self.number, self.link, self.name = number, link, name
        self.units, self.offset, self.fcs, self.snap = units, offset, fcs, snap

    def nanoseconds(self, count):
        return count * NANO // self.units + self.offset * NANO


class Capture:
    """A capture file, read once from front to back; `dropped` is what it says that it missed."""

    def __init__(self, path):
        self.path, self.frames_read, self.interfaces = path, 0, []
        self.dropped = 0

    @contextlib.contextmanager
    def opened(self):
        try:
            with open(self.path, "rb") as file:
                packed = file.read(2) == b"\x1f\x8b"
                file.seek(0)
                with gzip.open(file) if packed else contextlib.nullcontext(file) as plain:
                    yield plain
        except (OSError, EOFError) as error:
            raise Trouble("%s cannot be read: %s" % (name_of(self.path), reason(error))) from error

    def wrong(self, what):
        raise Trouble("%s: after frame %d: %s" % (name_of(self.path), self.frames_read, what))

    def bytes(self, file, count):
        """So many bytes; the end of the file is trouble."""
        data = file.read(count) if 0 <= count <= LARGEST_BLOCK else self.wrong("a length of %d" % count)
        if len(data) < count:
            self.wrong("the file is cut off (editcap mends it)")
        return data

    def frames(self):
        """The frames as they stand in the file."""
        with self.opened() as file:
            magic = file.read(4)
            if magic in PCAP_FORMS:
                yield from self.pcap_frames(file, *PCAP_FORMS[magic])
            elif magic == SECTION:
                yield from self.pcapng_frames(file)
            else:
                self.wrong("neither pcap nor pcapng; tshark -r OLD -w NEW turns other captures into pcapng")

    def frame(self, time, interface, octets, length, fcs):
        """A frame, its FCS taken off as far as it was captured."""
        self.frames_read += 1
        length = max(length, len(octets)) - fcs
        octets, index = octets[:max(length, 0)], None
        if interface.link in COOKED:
            header, octets, index = uncooked(interface.link, octets)
            length = length - header + HEADER
        return Frame(self.frames_read, time, interface, octets, length, interface.link, index)

    # ---- pcap

    def pcap_frames(self, file, order, units):
        _, _, _, _, _, link = struct.unpack(order + "HHiIII", self.bytes(file, 20))
        fcs = 2 * (link >> 28) if link & 0x0400_0000 else 0
        interface = Interface(0, link & 0xFFFF, units=units, fcs=fcs)
        self.interfaces.append(interface)
        while head := file.read(16):
            if len(head) < 16:
                self.wrong("the file is cut off (editcap mends it)")
            seconds, part, captured, length = struct.unpack(order + "IIII", head)
            time = interface.nanoseconds(seconds * units + part)
            yield self.frame(time, interface, self.bytes(file, captured), length, fcs)

    # ---- pcapng

    def pcapng_frames(self, file):
        order, kind = self.section(file), None
        first = len(self.interfaces)
        while head := file.read(4):
            if head == SECTION:
                order = self.section(file)
                first = len(self.interfaces)
                continue
            if len(head) < 4:
                self.wrong("the file is cut off (editcap mends it)")
            (kind,) = struct.unpack(order + "I", head)
            body = self.block(file, order)
            here = self.interfaces[first:]
            try:
                if kind == 1:
                    self.interfaces.append(self.interface(order, body))
                elif kind == 2:
                    yield self.old_packet(order, body, here)
                elif kind == 3:
                    yield self.simple_packet(order, body, here)
                elif kind == 5:
                    self.dropped += dropped_of(order, body)
                elif kind == 6:
                    yield self.packet(order, body, here)
            except (struct.error, IndexError):
                self.wrong("a block of kind %d is damaged" % kind)

    def section(self, file):
        """The byte order of a section; its own block is passed over."""
        length, magic = self.bytes(file, 4), self.bytes(file, 4)
        order = {b"\x1a\x2b\x3c\x4d": ">", b"\x4d\x3c\x2b\x1a": "<"}.get(magic) or self.wrong("a damaged section")
        (length,) = struct.unpack(order + "I", length)
        self.bytes(file, length - SHORTEST_BLOCK)
        return order

    def block(self, file, order):
        """The body of a block whose kind has been read."""
        (length,) = struct.unpack(order + "I", self.bytes(file, 4))
        body = self.bytes(file, length - SHORTEST_BLOCK)
        if struct.unpack(order + "I", self.bytes(file, 4)) != (length,):
            self.wrong("a block whose two lengths differ")
        return body

    def interface(self, order, body):
        link, _, snap = struct.unpack_from(order + "HHI", body)
        made = Interface(len(self.interfaces), link, snap=snap)
        for code, value in options(order, body[8:]):
            if code == 2:
                made.name = value.split(b"\0")[0].decode(errors="replace")
            elif code == 9:
                made.units = 2 ** (value[0] & 0x7F) if value[0] & 0x80 else 10 ** value[0]
            elif code == 13:
                # octets by some writers, bits by the draft
                made.fcs = value[0] if value[0] < 8 else value[0] // 8
            elif code == 14:
                (made.offset,) = struct.unpack_from(order + "q", value)
        return made

    def packet(self, order, body, here):
        number, high, low, captured, length = struct.unpack_from(order + "IIIII", body)
        interface = here[number]
        fcs = interface.fcs
        for code, value in options(order, body[20 + padded(captured):]):
            if code == 2:
                fcs = struct.unpack_from(order + "I", value)[0] >> 5 & 15 or fcs
        octets = slice_of(body, 20, captured)
        return self.frame(interface.nanoseconds(high << 32 | low), interface, octets, length, fcs)

    def old_packet(self, order, body, here):
        number, _, high, low, captured, length = struct.unpack_from(order + "HHIIII", body)
        interface = here[number]
        octets = slice_of(body, 20, captured)
        return self.frame(interface.nanoseconds(high << 32 | low), interface, octets, length, interface.fcs)

    def simple_packet(self, order, body, here):
        (length,) = struct.unpack_from(order + "I", body)
        interface = here[0]
        captured = min(length, interface.snap) if interface.snap else length
        return self.frame(None, interface, slice_of(body, 4, captured), length, interface.fcs)


# The first octets of a file: byte order, and ticks a second, or a section of pcapng.
PCAP_FORMS = {
    b"\xd4\xc3\xb2\xa1": ("<", 10**6),
    b"\xa1\xb2\xc3\xd4": (">", 10**6),
    b"\x4d\x3c\xb2\xa1": ("<", 10**9),
    b"\xa1\xb2\x3c\x4d": (">", 10**9),
}
SECTION = b"\x0a\x0d\x0d\x0a"


def padded(length):
    return length + -length % 4


def slice_of(body, start, length):
    if start + length > len(body):
        raise IndexError
    return body[start:start + length]


def options(order, body):
    """Code and value of each option of a pcapng block."""
    place = 0
    while place + 4 <= len(body):
        code, length = struct.unpack_from(order + "HH", body, place)
        if code == 0:
            return
        yield code, slice_of(body, place + 4, length)
        place += 4 + padded(length)


def dropped_of(order, body):
    """How many frames an interface's statistics call dropped, by the interface or by the system."""
    return sum(struct.unpack_from(order + "Q", value)[0] for code, value in options(order, body[12:]) if code in (5, 7))


# ---- cooked captures

# Of each kind: the octets before the payload, and where in them packet type, device, length of the address, address, protocol and the
# interface's number are.
Cooked = collections.namedtuple("Cooked", "length layout fields")
COOKED = {
    COOKED_1: Cooked(16, ">HHH8s2s", ("sort", "device", "size", "address", "protocol")),
    COOKED_2: Cooked(20, ">2sHIHBB8s", ("protocol", "reserved", "index", "device", "sort", "size", "address")),
}
# An Ethernet header.
HEADER = 14


def uncooked(link, octets):
    """How many octets were the system's; the frame as Ethernet has it, with ESMC's destination, b"" where it was sent to no
    group or can't be one of Ethernet; and the number of its interface, if that is told."""
    kind = COOKED[link]
    if len(octets) < kind.length:
        return kind.length, b"", None
    told = dict(zip(kind.fields, struct.unpack_from(kind.layout, octets)))
    fits = told["sort"] in (TO_A_GROUP, SENT_HERE) and told["device"] == ETHERNET_DEVICE and told["size"] == ADDRESS
    head = DESTINATION + told["address"][:ADDRESS] + told["protocol"]
    return kind.length, head + octets[kind.length:] if fits else b"", told.get("index")


# ---- what is ESMC

VLAN_TAGS = (b"\x81\x00", b"\x88\xa8", b"\x91\x00")
SOUND = bytes(words.sound_frame(0))
DESTINATION, PROTOCOL, ORGANISATION = SOUND[0:6], SOUND[12:15], SOUND[15:20]


def is_esmc(octets):
    """Whether a frame is ESMC, sound or damaged: it has ESMC's octets 16 to 20, or both its destination and its
    octets 13 to 15; octets 13 on may stand behind VLAN tags."""
    place = 12
    while octets[place:place + 2] in VLAN_TAGS:
        place += 4
    if octets[place + 3:place + 8] == ORGANISATION:
        return True
    return octets[:6] == DESTINATION and octets[place:place + 3] == PROTOCOL


# ---- writing

SNAP = 262_144


def pcap(frames):
    """A capture file of frames, each with its time in ms."""
    packets = [
        struct.pack("<IIII", time // 1000, time % 1000 * 1000, len(octets), len(octets)) + bytes(octets)
        for time, octets in frames
    ]
    return struct.pack("<IHHiIII", 0xA1B2C3D4, 2, 4, 0, 0, SNAP, ETHERNET) + b"".join(packets)
