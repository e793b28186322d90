"""Network namespaces with virtual pairs of interfaces, made and removed by the test itself."""

import contextlib
import ctypes
import os
import shutil
import subprocess

CLONE_NEWNET = 0x40000000
# Names of namespaces begin so: two runs at once do not meet.
PREFIX = "%s-%d" % (os.environ.get("NURRISPANE_NETNS", "nurrispane"), os.getpid())
LIBC = ctypes.CDLL(None, use_errno=True)


def ip(*words):
    subprocess.run(["ip", *words], check=True, capture_output=True, text=True)


def missing():
    """Why no namespace can be made here, or None."""
    if not shutil.which("ip"):
        return "the program ip is not there"
    made = subprocess.run(["ip", "netns", "add", PREFIX + "-try"], capture_output=True, text=True)
    if made.returncode != 0:
        return "no right to make a network namespace"
    ip("netns", "del", PREFIX + "-try")
    return None


def set_namespace(descriptor):
    if LIBC.setns(descriptor, CLONE_NEWNET) != 0:
        raise OSError(ctypes.get_errno(), "setns")


@contextlib.contextmanager
def within(namespace):
    """Sockets opened inside belong to a namespace; of this thread alone."""
    own = os.open("/proc/thread-self/ns/net", os.O_RDONLY)
    other = os.open("/run/netns/" + namespace, os.O_RDONLY)
    try:
        set_namespace(other)
        yield
    finally:
        set_namespace(own)
        os.close(own)
        os.close(other)


class Network:
    """Namespaces with pairs between them; all are gone at the end."""

    def __init__(self, tag):
        self.tag, self.names = tag, []

    def __enter__(self):
        return self

    def __exit__(self, *_):
        for name in self.names:
            subprocess.run(["ip", "netns", "del", name], capture_output=True)

    def namespace(self, word):
        name = "%s-%s-%s" % (PREFIX, self.tag, word)
        ip("netns", "add", name)
        self.names.append(name)
        return name

    def pair(self, here, name, there, peer, mtu=1500):
        """A pair of interfaces, up on both sides; the system sends nothing of its own on them."""
        ip("-n", here, "link", "add", name, "type", "veth", "peer", "name", peer, "netns", there)
        for namespace, interface in ((here, name), (there, peer)):
            subprocess.run(["ip", "netns", "exec", namespace, "sysctl", "-qw", "net.ipv6.conf.%s.disable_ipv6=1" % interface],
                           capture_output=True)
            ip("-n", namespace, "link", "set", interface, "mtu", str(mtu), "up")

    def link(self, namespace, interface, state):
        ip("-n", namespace, "link", "set", interface, state)
