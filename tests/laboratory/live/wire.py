"""The bench's side of the wire: frames played, and all that passes recorded with the kernel's times."""

import collections
import errno
import select
import socket
import struct
import threading
import time

from live.network import within

SOL_PACKET, ADD_MEMBERSHIP, STATISTICS, AUXDATA = 263, 1, 6, 8
PROMISCUOUS, SO_TIMESTAMPNS, OUTGOING, VLAN_VALID, ALL_PROTOCOLS = 1, 35, 4, 0x10, 3

# A frame on the wire: when, ns of CLOCK_MONOTONIC; its port; whether the bench sent it.
Passed = collections.namedtuple("Passed", "at port played octets")


def real_less_monotonic():
    """The closest of some readings, in ns."""
    readings = []
    for _ in range(5):
        before = time.monotonic_ns()
        real = time.time_ns()
        after = time.monotonic_ns()
        readings.append((after - before, real - (before + after) // 2))
    return min(readings)[1]


def opened(interface):
    """A socket that sees all frames of an interface."""
    one = socket.socket(socket.AF_PACKET, socket.SOCK_RAW, 0)
    one.setsockopt(socket.SOL_SOCKET, SO_TIMESTAMPNS, 1)
    one.setsockopt(socket.SOL_SOCKET, socket.SO_RCVBUF, 4 << 20)
    one.setsockopt(SOL_PACKET, AUXDATA, 1)
    one.bind((interface, ALL_PROTOCOLS))
    member = struct.pack("iHH8s", socket.if_nametoindex(interface), PROMISCUOUS, 0, b"")
    one.setsockopt(SOL_PACKET, ADD_MEMBERSHIP, member)
    return one


class Wire(threading.Thread):
    """Records the frames of ports, from when it is entered until it is left; `play` sends one."""

    def __init__(self, namespace, interfaces):
        super().__init__(daemon=True)
        self.found, self.ending = [], False
        with within(namespace):
            self.sockets = {opened(name): port for port, name in interfaces.items()}
            self.senders = {port: socket.socket(socket.AF_PACKET, socket.SOCK_RAW, 0) for port in interfaces}
            for port, one in self.senders.items():
                one.bind((interfaces[port], 0))

    def __enter__(self):
        self.start()
        return self

    def __exit__(self, *_):
        self.ending = True
        self.join()
        for one in [*self.sockets, *self.senders.values()]:
            one.close()

    def run(self):
        while not self.ending:
            offset = real_less_monotonic()
            for one in select.select(list(self.sockets), [], [], 0.1)[0]:
                self.take(one, offset)

    def take(self, one, offset):
        try:
            data, extra, _, where = one.recvmsg(65536, 512)
        except OSError as error:
            if error.errno not in (errno.ENETDOWN, errno.EAGAIN):
                raise
            return  # the link went down, which the test did
        at = time.monotonic_ns()
        for level, kind, value in extra:
            if level == socket.SOL_SOCKET and kind == SO_TIMESTAMPNS:
                seconds, ns = struct.unpack("qq", value[:16])
                at = seconds * 10**9 + ns - offset
            if level == SOL_PACKET and kind == AUXDATA:
                status, _, _, _, _, tag, kind_of_tag = struct.unpack("IIIHHHH", value[:20])
                if status & VLAN_VALID:
                    data = data[:12] + struct.pack(">HH", kind_of_tag or 0x8100, tag) + data[12:]
        self.found.append(Passed(at, self.sockets[one], where[2] == OUTGOING, data))

    def play(self, port, octets):
        self.senders[port].send(bytes(octets))

    def sent_by_card(self, port=None):
        """The card's own frames, by their times."""
        return sorted(one for one in list(self.found) if not one.played and port in (None, one.port))

    def dropped(self):
        return sum(struct.unpack("II", one.getsockopt(SOL_PACKET, STATISTICS, 8))[1] for one in self.sockets)
