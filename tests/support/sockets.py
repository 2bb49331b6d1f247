"""Who sends to a node and who reads from it: PMUs by UDP and TCP, readers of its datagrams, and consumers of its sessions."""

import collections
import contextlib
import socket
import threading
import time
import urllib.request

from .frames import DATA, DATA_ON, HEADER, SEND_CFG2, SEND_HEADER, command, instant_of, kind_of, rows_of, split
from .script import fail, sleep_to, until

HOST = "127.0.0.1"
# Above what the system grants to everybody: it is root's.
SO_RCVBUFFORCE = 33


def datagrams(host=HOST, port=None, buffer=1 << 24):
    """A UDP socket, bound where a port is given, with room for what comes while its reader is held up."""
    family = socket.AF_INET6 if ":" in host else socket.AF_INET
    it = socket.socket(family, socket.SOCK_DGRAM)
    try:
        it.setsockopt(socket.SOL_SOCKET, SO_RCVBUFFORCE, buffer)
    except OSError:
        it.setsockopt(socket.SOL_SOCKET, socket.SO_RCVBUF, buffer)
    if port is not None:
        it.bind((host, port))
    return it


def configure(places):
    """Sends the configuration of each device to its ports."""
    with datagrams() as out:
        for device, ports in places:
            for port in ports:
                out.sendto(device.configuration(), (HOST, port))


def queues():
    """Of each UDP port of this machine's IPv4: how many bytes wait there to be read, and how many datagrams were dropped since it was opened."""
    found = {}
    with open("/proc/net/udp", encoding="ascii") as it:
        for words in map(str.split, list(it)[1:]):
            port = int(words[1].split(":")[1], 16)
            waiting, dropped = found.get(port, (0, 0))
            found[port] = waiting + int(words[4].split(":")[1], 16), dropped + int(words[12])
    return found


def until_read(ports, most=60000, limit=60):
    """Waits until no more bytes than these wait at any of the ports, so that what is sent next is not dropped."""
    until("what was sent is read", lambda: all(queues().get(it, (0, 0))[0] <= most for it in ports), limit)


def dropped(ports):
    """How many datagrams were dropped at these ports since they were opened."""
    found = queues()
    return sum(found.get(it, (0, 0))[1] for it in ports)


def counters(port):
    """The counters that a node or the merger serves at this port, by their names and labels."""
    with urllib.request.urlopen(f"http://{HOST}:{port}/metrics", timeout=30) as answer:
        lines = answer.read().decode().splitlines()
    return {name: float(value) for name, _, value in (it.rpartition(" ") for it in lines if not it.startswith("#"))}


class Reader(threading.Thread):
    """Takes the frames that come to a UDP port, each with the time at which it came, and sends them on to other ports, if there are any."""

    def __init__(self, port, *onwards, host=HOST, rate=50):
        super().__init__(daemon=True)
        self.socket = datagrams(host, port)
        self.onwards, self.rate, self.frames, self.times, self.instants = onwards, rate, [], [], []
        # The layout that came last, and the data frame that came last with the layout that it is of.
        self.layout, self.newest = None, None
        self.start()

    def run(self):
        while True:
            frame = self.socket.recv(65536)
            for port in self.onwards:
                self.socket.sendto(frame, (HOST, port))
            self.times.append(time.time())
            self.frames.append(frame)
            if kind_of(frame) == DATA:
                self.instants.append(instant_of(frame, self.rate))
                self.newest = (self.layout, frame)
            else:
                self.layout = frame

    def rows(self):
        return rows_of(list(self.frames), self.rate)

    def latest(self):
        """The row that came last, if one did whose layout is known. Layouts that came behind it, which are repeated where no data comes, change nothing."""
        layout, frame = self.newest or (None, None)
        return rows_of([layout, frame], self.rate)[0] if layout else None

    def present(self, count, limit=30):
        """Waits until a row comes with so many blocks present."""

        def came():
            row = self.latest()
            return row and len(row.present()) >= count

        until(f"a row has {count} blocks present", came, limit, lambda: f"of {len(self.frames)} frames {len(self.instants)} are data, the last ones of {self.instants[-3:]}")

    def delays(self):
        """How many seconds behind its instant each data frame came."""
        came = [(instant_of(frame, self.rate), at) for frame, at in zip(list(self.frames), list(self.times)) if kind_of(frame) == DATA]
        return [(instant, at - instant / self.rate) for instant, at in came]

    def has(self, instant, limit=30):
        """Waits until this instant, or one above it, has come."""
        until(f"instant {instant} comes", lambda: self.instants and self.instants[-1] >= instant, limit, lambda: f"the last one is {self.instants[-1:]}")


class Devices(threading.Thread):
    """PMUs in one thread: at each instant a data frame of each to its ports, and their configurations before the first and then every second. `leaves` is asked
    of each PMU and instant whether nothing is sent."""

    def __init__(self, places, seconds=None, leaves=lambda ident, instant: False, first=None):
        super().__init__(daemon=True)
        # (a device, and the ports that it sends to)
        self.places, self.leaves = places, leaves
        self.rate = places[0][0].rate
        self.first = int((time.time() + 1) * self.rate) if first is None else first
        self.last = None if seconds is None else self.first + int(seconds * self.rate) - 1
        self.next = self.first
        self.is_over = False
        self.socket = socket.socket(socket.AF_INET, socket.SOCK_DGRAM)
        self.start()

    def run(self):
        # A node adopts a configuration at a tick, so what is to be taken comes after one.
        sleep_to(self.first / self.rate - 0.5)
        configure(self.places)
        while not self.is_over and (self.last is None or self.next <= self.last):
            instant = self.next
            sleep_to(instant / self.rate)
            if instant > self.first and (instant - self.first) % self.rate == 0:
                configure(self.places)
            for device, ports in self.places:
                if not self.leaves(device.ident, instant):
                    frame = device.data(instant)
                    for port in ports:
                        self.socket.sendto(frame, (HOST, port))
            self.next = instant + 1

    def end(self):
        """Waits for the last one; without a number of seconds it is the next one."""
        if self.last is None:
            self.is_over = True
        self.join()
        return self.next - 1


class Consumer:
    """A session over TCP."""

    def __init__(self, port, ident=201, host=HOST, limit=30):
        self.ident, self.rest, self.ready, self.frames, self.is_over = ident, b"", collections.deque(), [], False

        def connected():
            with contextlib.suppress(OSError):
                return socket.create_connection((host, port), timeout=10)
            return None

        self.stream = until(f"sessions are served at port {port} of {host}", connected, limit)

    def asks(self, word):
        self.stream.sendall(command(self.ident, word))

    def take(self, limit):
        """Takes what comes within this time, if anything does."""
        self.stream.settimeout(max(limit, 0.001))
        try:
            piece = self.stream.recv(1 << 20)
        except (TimeoutError, BlockingIOError):
            return
        except OSError:
            piece = b""
        found, self.rest = split(self.rest + piece)
        self.ready.extend(found)
        self.is_over = not piece

    def next(self, limit=10):
        """The next frame; None where none comes in this time, or the session ended."""
        end = time.monotonic() + limit
        while not self.ready and not self.is_over and time.monotonic() < end:
            self.take(end - time.monotonic())
        return self.ready.popleft() if self.ready else None

    def reply(self, word, kind, limit=10):
        """Asks, and returns the first frame of this kind that comes; None where none comes in time. Those that come before it are kept in `frames`."""
        self.asks(word)
        end = time.monotonic() + limit
        while frame := self.next(end - time.monotonic()):
            if kind_of(frame) == kind:
                return frame
            self.frames.append(frame)
        return None

    def header(self, limit=10):
        """The text of the header frame that comes when it is asked for; None where none comes in time."""
        frame = self.reply(SEND_HEADER, HEADER, limit)
        return frame and frame[14:-2].decode()

    def close(self):
        self.stream.close()


class Server:
    """A PMU that waits to be asked over TCP."""

    def __init__(self, port, ident, host=HOST):
        self.ident = ident
        self.socket = socket.create_server((host, port))
        self.socket.settimeout(90)

    def asked(self):
        """A connection over which CFG-2 and data were asked for."""
        stream, _ = self.socket.accept()
        stream.settimeout(30)
        stream.setsockopt(socket.IPPROTO_TCP, socket.TCP_NODELAY, 1)
        heard = b""
        while len(heard) < 36:
            piece = stream.recv(64)
            if not piece:
                fail(f"the node closed its connection after {heard.hex()}")
            heard += piece
        words = [int.from_bytes(heard[at + 14 : at + 16], "big") for at in (0, 18)]
        if words != [SEND_CFG2, DATA_ON] or int.from_bytes(heard[4:6], "big") != self.ident:
            fail(f"the node asked by {heard.hex()}")
        return stream
