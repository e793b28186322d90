"""The bench's side of the wire: frames played on interfaces, and all that passes there recorded by the kernel's times."""

import collections
import errno
import select
import socket
import struct
import threading
import time

from nurrispane.files import Trouble, reason

# Linux's numbers, which Python's library has not.
SOL_PACKET, ADD_MEMBERSHIP, STATISTICS, AUXDATA = 263, 1, 6, 8
PROMISCUOUS, SO_TIMESTAMPNS, OUTGOING, VLAN_VALID, ALL_PROTOCOLS = 1, 35, 4, 0x10, 3
VLAN_TYPE = 0x8100
ADDRESSES = 12
RECEIVE_ROOM = 4 << 20
LARGEST, CONTROL_ROOM = 65_536, 512
# How often the clocks are compared, in seconds.
OFTEN = 0.2
NANO = 10**9

# A frame that passed: when by CLOCK_REALTIME in ns, on which port, whether the bench played it.
Passed = collections.namedtuple("Passed", "at port played octets")


def real_less_monotonic():
    """CLOCK_REALTIME less CLOCK_MONOTONIC in ns: the closest of some readings."""
    readings = []
    for _ in range(5):
        before = time.monotonic_ns()
        real = time.time_ns()
        after = time.monotonic_ns()
        readings.append((after - before, real - (before + after) // 2))
    return min(readings)[1]


def opened(interface):
    """A socket that sees all frames of an interface, also those that go out."""
    try:
        one = socket.socket(socket.AF_PACKET, socket.SOCK_RAW | socket.SOCK_NONBLOCK, 0)
        one.setsockopt(socket.SOL_SOCKET, SO_TIMESTAMPNS, 1)
        one.setsockopt(socket.SOL_SOCKET, socket.SO_RCVBUF, RECEIVE_ROOM)
        one.setsockopt(SOL_PACKET, AUXDATA, 1)
        one.bind((interface, ALL_PROTOCOLS))
        member = struct.pack("iHH8s", socket.if_nametoindex(interface), PROMISCUOUS, 0, b"")
        one.setsockopt(SOL_PACKET, ADD_MEMBERSHIP, member)
    except OSError as error:
        raise Trouble(f"interface {interface} cannot be used: {reason(error)}{right_missing(error)}") from error
    return one


def right_missing(error):
    return " (CAP_NET_RAW is missing: run this as root)" if error.errno == errno.EPERM else ""


class Players:
    """Sends frames on the interfaces of ports."""

    def __init__(self, ports):
        self.sockets = {}
        for port, interface in ports.items():
            try:
                self.sockets[port] = socket.socket(socket.AF_PACKET, socket.SOCK_RAW, 0)
                self.sockets[port].bind((interface, 0))
            except OSError as error:
                raise Trouble(f"interface {interface} cannot be used: {reason(error)}{right_missing(error)}") from error

    def play(self, port, octets):
        if port not in self.sockets:
            raise Trouble(f"the sequence has a frame for input {port}, which has no interface in --map")
        try:
            self.sockets[port].send(bytes(octets))
        except OSError as error:
            raise Trouble(f"a frame could not be sent on port {port}: {reason(error)}") from error

    def close(self):
        for one in self.sockets.values():
            one.close()


class Recorder(threading.Thread):
    """Records all frames of ports until it is ended, and how far the two clocks are apart."""

    def __init__(self, ports):
        super().__init__(daemon=True)
        self.sockets = {opened(interface): port for port, interface in ports.items()}
        self.found, self.offsets, self.dropped, self.failed, self.ending = [], [], {}, None, False

    def run(self):
        try:
            while not self.ending:
                self.compare()
                for one in select.select(list(self.sockets), [], [], OFTEN)[0]:
                    self.drain(one)
        except OSError as error:
            self.failed = reason(error)

    def compare(self):
        self.offsets.append((time.monotonic_ns(), real_less_monotonic()))

    def drain(self, one):
        """All that has come on a socket."""
        while True:
            try:
                octets, extra, _, where = one.recvmsg(LARGEST, CONTROL_ROOM)
            except BlockingIOError:
                return
            except OSError as error:
                if error.errno == errno.ENETDOWN:
                    return  # the link went down; what is sent meanwhile has no copy either
                raise
            self.found.append(passed(octets, extra, self.sockets[one], where[2] == OUTGOING))

    def end(self):
        """Ends the recording; what the kernel dropped is counted."""
        self.ending = True
        self.join()
        self.compare()
        for one, port in self.sockets.items():
            if not self.failed:
                self.drain(one)
            self.dropped[port] = struct.unpack("II", one.getsockopt(SOL_PACKET, STATISTICS, 8))[1]
            one.close()
        self.found.sort()


def passed(octets, extra, port, played):
    """A frame as it stood on the wire: the tag that the kernel took off is put back."""
    at = time.time_ns()
    for level, kind, value in extra:
        if level == socket.SOL_SOCKET and kind == SO_TIMESTAMPNS:
            seconds, ns = struct.unpack("qq", value[:16])
            at = seconds * NANO + ns
        if level == SOL_PACKET and kind == AUXDATA:
            status, _, _, _, _, tag, type_of_tag = struct.unpack("IIIHHHH", value[:20])
            if status & VLAN_VALID:
                octets = octets[:ADDRESSES] + struct.pack(">HH", type_of_tag or VLAN_TYPE, tag) + octets[ADDRESSES:]
    return Passed(at, port, played, octets)
