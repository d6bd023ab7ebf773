"""The rules of flows, in Python's standard library alone: which flows a capture has, how they are exported, and what `nfp flows` must write.

This is a second account of what the program is proved to do, and shares nothing with it. docs/FLOWS.md says the same in words.
capture_rules.py reads the captures, and packet_rules.py finds the fields of frames.
"""

import ipaddress
import struct
import typing

import capture_rules
import packet_rules

MOST_32 = 2**32 - 1
MOST_64 = 2**64 - 1

# Cisco's NetFlow version 5: a header, followed by 1 to 30 records, most significant byte first.
VERSION = 5
RECORDS = 30
HEADER = struct.Struct('>HHIIIIBBH')
RECORD = struct.Struct('>IIIHHIIIIHHBBBBHHBBH')


class Key(typing.NamedTuple):
    """What the packets of one flow have in common. A port that is not there is None."""

    proto: int
    source: bytes
    source_port: typing.Optional[int]
    destination: bytes
    destination_port: typing.Optional[int]

    @property
    def is_wide(self):
        """Whether the flow is one of IPv6, whose addresses version 5 has no room for."""
        return len(self.source) == 16


class Line:
    """What is counted of a flow: packets, bytes, times in nanoseconds, and the bitwise or of its TCP control bits."""

    def __init__(self, number, time):
        self.first, self.begun, self.last = number, time, time
        self.packets = self.bytes = self.flags = 0

    def add(self, time, length, flags):
        self.packets, self.bytes = min(self.packets + 1, MOST_64), min(self.bytes + length, MOST_64)
        self.begun, self.last = min(self.begun, time), max(self.last, time)
        self.flags |= flags


def key_of(packet):
    """The flow of a packet, or None if it has none."""
    if packet.proto is None or packet.length is None or not packet.has('src', 'dst'):
        return None
    return Key(packet.proto, packet.get('src'), packet.port('sport'), packet.get('dst'), packet.port('dport'))


def control_bits(packet):
    """The control bits of the TCP header; 0 if there is none or they weren't captured."""
    header = packet.header
    if header.transport is None or header.proto != packet_rules.TCP or header.transport + 13 >= header.end:
        return 0
    return packet.read[header.transport + 13]


def lines_of(records):
    """The flows of these records, each with its line, in the order of first sight."""
    lines = {}
    for number, record in enumerate(records, 1):
        packet = packet_rules.Packet(record.frame, record.time)
        key = key_of(packet)
        if key is not None:
            lines.setdefault(key, Line(number, record.time)).add(record.time, packet.length, control_bits(packet))
    return lines


def milliseconds(time, origin):
    return min(max(time - origin, 0) // 1_000_000, MOST_32)


def record_of(key, line, origin):
    return RECORD.pack(
        int.from_bytes(key.source, 'big'),
        int.from_bytes(key.destination, 'big'),
        0,
        0,
        0,
        min(line.packets, MOST_32),
        min(line.bytes, MOST_32),
        milliseconds(line.begun, origin),
        milliseconds(line.last, origin),
        key.source_port or 0,
        key.destination_port or 0,
        0,
        line.flags,
        key.proto,
        *[0] * 6,
    )


def export(records, lines):
    """The export packets of these lines, in order."""
    narrow = [(key, line) for key, line in lines.items() if not key.is_wide]
    if not narrow:
        return []
    origin = min(record.time for record in records)
    up = milliseconds(max(record.time for record in records), origin)
    now = origin + up * 1_000_000
    seconds, nanoseconds = min(now // 10**9, MOST_32), now % 10**9
    packets = []
    for begin in range(0, len(narrow), RECORDS):
        part = narrow[begin : begin + RECORDS]
        head = HEADER.pack(VERSION, len(part), up, seconds, nanoseconds, begin, 0, 0, 0)
        packets.append(head + b''.join(record_of(key, line, origin) for key, line in part))
    return packets


class Answer(typing.NamedTuple):
    lines: dict  # by their keys
    packets: typing.Optional[list]  # None if nothing is written
    note: str
    status: int


def answer(data):
    """What `nfp flows` must write for a capture, whatever its bytes are."""
    fault = capture_rules.head_fault(data)
    if fault:
        return Answer({}, None, f'capture: {fault}', 3)
    capture = capture_rules.read_classic(data)
    lines = lines_of(capture.records)
    packets = export(capture.records, lines)
    if capture.fault:
        return Answer(lines, packets, f'capture: {capture.fault}', 3)
    narrow = sum(not key.is_wide for key in lines)
    return Answer(lines, packets, f'flows records {len(capture.records)} flows {len(lines)} exported {narrow} packets {len(packets)}', 0)


def told(address):
    return str(ipaddress.ip_address(address))
