"""Frames of IEEE C37.118.2-2011 in 16-bit formats, as PMUs send them and readers take them apart."""

import binascii
import dataclasses
import struct
import time

from .script import fail

TIME_BASE = 1000000
DATA, HEADER, CFG1, CFG2, COMMAND = range(5)
DATA_OFF, DATA_ON, SEND_HEADER, SEND_CFG1, SEND_CFG2 = range(1, 6)
# The own block of a node or the merger in front of a data frame: STAT, FREQ, DFREQ and the stamp's four digital words.
OWN = 14


def framed(kind, ident, soc, frac, payload, version=2):
    """A frame with its check word."""
    body = struct.pack(">BBHHII", 0xAA, (kind << 4 | version) & 0xFF, (16 + len(payload)) & 0xFFFF, ident, soc, frac) + payload
    return body + struct.pack(">H", binascii.crc_hqx(body, 0xFFFF))


def command(ident, word):
    """A command frame to this stream."""
    return framed(COMMAND, ident, int(time.time()), 0, struct.pack(">H", word))


def kind_of(frame):
    return frame[1] >> 4 & 7


def tag(instant, rate, time_base=TIME_BASE):
    """SOC and FRACSEC of an instant, which is counted in frames since 1970."""
    soc, slot = divmod(instant, rate)
    return soc, (2 * slot * time_base + rate) // (2 * rate)


def instant_of(frame, rate, time_base=TIME_BASE):
    """The instant of a data frame."""
    soc, frac = struct.unpack(">II", frame[6:14])
    return soc * rate + ((frac & 0xFFFFFF) * rate * 2 + time_base) // (2 * time_base)


def now(rate):
    """The instant that the clock is at."""
    return int(time.time() * rate)


@dataclasses.dataclass(frozen=True)
class Shape:
    """How many phasors, analogs and digital words a PMU has."""

    phasors: int = 1
    analogs: int = 0
    digitals: int = 0

    @property
    def block(self):
        """The bytes of its block: STAT, phasors, FREQ, DFREQ, analogs and digital words."""
        return 6 + 4 * self.phasors + 2 * self.analogs + 2 * self.digitals

    @property
    def absent(self):
        """The block that says that nothing came."""
        return b"\xa1\xf0" + b"\x80\x00" * (2 * self.phasors + 2 + self.analogs) + bytes(2 * self.digitals)

    @property
    def section(self):
        """The bytes of its section in a configuration."""
        return 30 + 20 * (self.phasors + self.analogs) + 260 * self.digitals


SMALL = Shape()
MEDIUM = Shape(8, 4, 1)
LARGE = Shape(32, 32, 8)


def section(ident, count=1, shape=SMALL, form=0):
    """The section of a PMU in a configuration."""
    channels = shape.phasors + shape.analogs + 16 * shape.digitals
    head = b"PMU %-12d" % ident + struct.pack(">HHHHH", ident, form, shape.phasors, shape.analogs, shape.digitals)
    names = b"".join(b"CHANNEL %-8d" % k for k in range(channels))
    units = struct.pack(">I", 1) * (shape.phasors + shape.analogs) + struct.pack(">I", 0xFFFF) * shape.digitals
    return head + names + units + struct.pack(">HH", 1, count)


def configuration(ident, rate, sections=None, soc=None, kind=CFG2, time_base=TIME_BASE):
    """A configuration frame, of the PMU's own section where no others are given."""
    sections = [section(ident)] if sections is None else sections
    payload = struct.pack(">IH", time_base, len(sections)) + b"".join(sections) + struct.pack(">h", rate)
    return framed(kind, ident, int(time.time()) if soc is None else soc, 0, payload)


def data(ident, instant, rate, block, time_base=TIME_BASE):
    """A data frame of this block."""
    return framed(DATA, ident, *tag(instant, rate, time_base), block)


@dataclasses.dataclass
class Device:
    """A PMU of a script: what it says of itself, and what it sends for an instant."""

    ident: int
    rate: int = 50
    shape: Shape = SMALL
    count: int = 1

    def configuration(self):
        return configuration(self.ident, self.rate, [section(self.ident, self.count, self.shape)])

    def block(self, instant, more=0):
        """Its words for an instant; with another number more they are others."""
        at = (instant + more) % 32768
        phasors = b"".join(struct.pack(">HH", at, (self.ident + k) % 32768) for k in range(self.shape.phasors))
        analogs = b"".join(struct.pack(">H", (at + k) % 32768) for k in range(self.shape.analogs))
        digitals = b"".join(struct.pack(">H", (at ^ self.ident << k) & 0xFFFF) for k in range(self.shape.digitals))
        return bytes(2) + phasors + struct.pack(">hh", 2500, self.count % 100) + analogs + digitals

    def data(self, instant, more=0):
        return data(self.ident, instant, self.rate, self.block(instant, more))


def sections_of(layout):
    """The sections of a configuration: of each its source, its shape and its count."""
    at, found = 20, []
    for _ in range(struct.unpack(">H", layout[18:20])[0]):
        source, _, *numbers = struct.unpack(">HHHHH", layout[at + 16 : at + 26])
        shape = Shape(*numbers)
        at += shape.section
        found.append((source, shape, struct.unpack(">H", layout[at - 2 : at])[0]))
    return found


def stamp_of(frame):
    """The stamp of a frame of a concentrator's: the normal masks of its own section, or the digital words of its own block."""
    if kind_of(frame) == DATA:
        return frame[20:28]
    # Behind the names of its 64 digital channels each mask stands in front of one of the channels that are valid.
    return b"".join(frame[at : at + 2] for at in range(1070, 1086, 4))


@dataclasses.dataclass
class Row:
    """A data frame of a node or the merger: its instant, and the block of each PMU of the layout that came last before it."""

    instant: int
    blocks: dict
    shapes: dict

    def is_absent(self, source):
        return self.blocks[source] == self.shapes[source].absent

    def present(self):
        """The PMUs whose block is there."""
        return [it for it in self.blocks if not self.is_absent(it)]


def rows_of(frames, rate, time_base=TIME_BASE):
    """The data frames among these, each under the layout that came last before it; those before the first one are left out."""
    found, shapes = [], None
    for frame in frames:
        if kind_of(frame) == CFG2:
            shapes = {source: shape for source, shape, _ in sections_of(frame)[1:]}
        elif kind_of(frame) == DATA and shapes is not None:
            if len(frame) != 16 + OWN + sum(it.block for it in shapes.values()):
                fail(f"a data frame of {len(frame)} bytes under a layout of {len(shapes)} PMUs")
            at, blocks = 14 + OWN, {}
            for source, shape in shapes.items():
                blocks[source] = frame[at : at + shape.block]
                at += shape.block
            found.append(Row(instant_of(frame, rate, time_base), blocks, shapes))
    return found


def split(stream):
    """The whole frames at the front of a stream's bytes, and what is left."""
    at, found = 0, []
    while len(stream) - at >= 4:
        size = struct.unpack(">H", stream[at + 2 : at + 4])[0]
        if size < 16 or len(stream) - at < size:
            break
        found.append(stream[at : at + size])
        at += size
    return found, stream[at:]
