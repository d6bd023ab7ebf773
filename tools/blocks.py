"""Captures in the pcapng format, made block by block with Python's standard library alone (draft-ietf-opsawg-pcapng)."""

import ipaddress
import struct
import typing

from frames import FIRST_SECOND, LINK_ETHERNET

# Types of blocks, and codes of options.
SECTION, INTERFACE, SIMPLE, NAMES, STATISTICS, PACKET, CUSTOM = 0x0A0D0D0A, 1, 3, 4, 5, 6, 0x00000BAD
ORDER_MAGIC = 0x1A2B3C4D
COMMENT, HARDWARE, SYSTEM, APPLICATION = 1, 2, 3, 4
IF_NAME, IF_RESOLUTION, IF_OFFSET = 2, 9, 14
RECEIVED, LOST = 4, 5
# Custom options of text and of bytes. The latter two, and a block, must not be copied into a capture that was changed.
CUSTOM_TEXT, CUSTOM_BYTES, UNCOPIED_TEXT, UNCOPIED_BYTES, UNCOPIED = 2988, 2989, 19372, 19373, 0x40000BAD
OF_IPV4, OF_IPV6 = 1, 2

MICROSECONDS, NANOSECONDS = 6, 9


def twos(power):
    """The byte of a resolution of 2 to the minus this power seconds."""
    return 0x80 | power


def ticks_a_second(resolution):
    return 2 ** (resolution - 0x80) if resolution & 0x80 else 10**resolution


def padded(data):
    return data + bytes(-len(data) % 4)


def options(order, told):
    """Codes and values, followed by the end of options if there are any."""
    spelled = [struct.pack(order + 'HH', code, len(value)) + padded(value) for code, value in told]
    return b''.join(spelled) + (bytes(4) if told else b'')


def block(order, kind, body):
    length = struct.pack(order + 'I', 12 + len(body))
    return struct.pack(order + 'I', kind) + length + body + length


class Section(typing.NamedTuple):
    """A section header: all numbers after it have this byte order. The length of the section is given as unknown."""

    order: str
    options: list = []

    def spelled(self, order):
        return block(order, SECTION, struct.pack(order + 'IHHq', ORDER_MAGIC, 1, 0, -1) + options(order, self.options))


class Interface(typing.NamedTuple):
    name: str
    snaplen: int
    resolution: typing.Optional[int] = None  # the byte of if_tsresol; None if there is no such option, which means microseconds
    offset: typing.Optional[int] = None  # the seconds of if_tsoffset
    link: int = LINK_ETHERNET

    def spelled(self, order):
        told = [(IF_NAME, self.name.encode())]
        told += [] if self.resolution is None else [(IF_RESOLUTION, bytes([self.resolution]))]
        told += [] if self.offset is None else [(IF_OFFSET, struct.pack(order + 'q', self.offset))]
        return block(order, INTERFACE, struct.pack(order + 'HHI', self.link, 0, self.snaplen) + options(order, told))


class Packet(typing.NamedTuple):
    interface: int
    ticks: int
    what: str
    frame: bytes  # as it was sent
    captured: typing.Optional[int] = None  # the number of its bytes that were captured; None: all
    comments: tuple = ()
    options: list = []  # other options, after the comments

    def spelled(self, order):
        kept = self.frame[: self.captured]
        head = struct.pack(order + '5I', self.interface, self.ticks >> 32, self.ticks & 0xFFFFFFFF, len(kept), len(self.frame))
        told = [(COMMENT, comment.encode()) for comment in self.comments] + self.options
        return block(order, PACKET, head + padded(kept) + options(order, told))


class Names(typing.NamedTuple):
    """The names to which addresses were resolved."""

    names: dict

    def spelled(self, order):
        records = b''
        for address, name in self.names.items():
            at = ipaddress.ip_address(address)
            value = at.packed + name.encode() + b'\0'
            records += struct.pack(order + 'HH', OF_IPV4 if at.version == 4 else OF_IPV6, len(value)) + padded(value)
        return block(order, NAMES, records + bytes(4))


class Statistics(typing.NamedTuple):
    """What an interface had counted by this tick."""

    interface: int
    ticks: int
    received: int
    lost: int

    def spelled(self, order):
        told = [(RECEIVED, struct.pack(order + 'Q', self.received)), (LOST, struct.pack(order + 'Q', self.lost))]
        return block(order, STATISTICS, struct.pack(order + 'III', self.interface, self.ticks >> 32, self.ticks & 0xFFFFFFFF) + options(order, told))


class Unread(typing.NamedTuple):
    """A block of a type that the program copies without reading it."""

    kind: int
    body: bytes

    def spelled(self, order):
        return block(order, self.kind, padded(self.body))


class Capture(typing.NamedTuple):
    parts: list  # the first is a section

    @property
    def records(self):
        return [part for part in self.parts if isinstance(part, Packet)]


def written(capture):
    spelled, order = [], '<'
    for part in capture.parts:
        order = part.order if isinstance(part, Section) else order
        spelled.append(part.spelled(order))
    return b''.join(spelled)


def ticks_at(nanoseconds, resolution=MICROSECONDS):
    """The last tick of an interface at or before this number of nanoseconds after the first second of the captures that are made here."""
    return (FIRST_SECOND * 1_000_000_000 + nanoseconds) * ticks_a_second(resolution) // 1_000_000_000
