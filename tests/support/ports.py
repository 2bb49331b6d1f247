"""Ports that are free, each for one script alone."""

import contextlib
import random
import socket

# A port above these may be given by the system to the next socket that has none, before the program that it is for begins.
LOW = 10000
RANGE = "/proc/sys/net/ipv4/ip_local_port_range"


def highest():
    """The last port that the system gives to nobody by itself; where it gives all, some of them have to do."""
    with contextlib.suppress(OSError), open(RANGE, encoding="ascii") as it:
        first = int(it.read().split()[0])
        if first > LOW + 5000:
            return first - 1
    return 32000


def is_free(port):
    """Whether no UDP and no TCP socket has it, at any address. The system's lists are read: a socket that tried to have the port would go with every program
    that another thread begins just then, and keep the port from its owner for a moment."""
    for name in ("udp", "udp6", "tcp", "tcp6"):
        with contextlib.suppress(FileNotFoundError), open(f"/proc/net/{name}", encoding="ascii") as it:
            if any(int(line.split()[1].rsplit(":", 1)[1], 16) == port for line in it.readlines()[1:]):
                return False
    return True


class Ports:
    """The ports of a script. What keeps another script from one is a name of the system's, which goes with the process."""

    def __init__(self):
        self.locks = []

    def lock(self, port):
        it = socket.socket(socket.AF_UNIX, socket.SOCK_DGRAM)
        try:
            it.bind(f"\0pdc test port {port}")
        except OSError:
            it.close()
            return False
        self.locks.append(it)
        return True

    def block(self, count):
        """The first of so many free ports, one behind the other."""
        for _ in range(1000):
            first = random.SystemRandom().randrange(LOW, highest() - count)
            kept = len(self.locks)
            if all(self.lock(port) and is_free(port) for port in range(first, first + count)):
                return first
            while len(self.locks) > kept:
                self.locks.pop().close()
        raise OSError(f"no {count} ports are free")

    def one(self):
        """A free port."""
        return self.block(1)

    def some(self, count):
        """So many free ports."""
        return [self.one() for _ in range(count)]

    def close(self):
        while self.locks:
            self.locks.pop().close()
