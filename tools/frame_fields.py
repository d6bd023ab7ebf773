"""Where the fields of a frame stand, in Python's standard library alone.

Both `explain` and the second account (packet_rules.py) read frames by it. It decides nothing about a packet.
"""

import functools
import struct
import typing

TCP, UDP = 6, 17
TAG_TYPES = (b'\x81\x00', b'\x88\xa8')


def number(data):
    return int.from_bytes(data, 'big')


class Header(typing.NamedTuple):
    """The IP header of a frame, and where it and the one of TCP or UDP stand."""

    version: int
    begin: int
    size: int  # of the IP header, as it states it
    proto: typing.Optional[int]  # None where it wasn't captured
    length: typing.Optional[int]  # of the packet with its header, None where it wasn't captured or takes more than 16 bits
    transport: typing.Optional[int]  # None where there is none, as in a later fragment
    end: int  # of what was captured of the packet


# Where the fields of an IP header are in it, and their sizes (RFC 791, 3.1; RFC 8200, 3).
PLACES = {
    4: {'tos': (1, 1), 'ttl': (8, 1), 'src': (12, 4), 'dst': (16, 4)},
    6: {'ttl': (7, 1), 'src': (8, 16), 'dst': (24, 16)},
}
PROTO = {4: 9, 6: 6}


def type_place(frame):
    """Where the type of Ethernet is, after all tags, or None in a runt."""
    if len(frame) < 14:
        return None
    place = 12
    while frame[place : place + 2] in TAG_TYPES and place + 6 <= len(frame):
        place += 4
    return place


def version_of(kind, first):
    """The version of the IP header that begins with this byte after this type of Ethernet, or None: IPv4's has at least five words."""
    if kind == b'\x08\x00' and b'\x45' <= first <= b'\x4f':
        return 4
    return 6 if kind == b'\x86\xdd' and b'\x60' <= first <= b'\x6f' else None


def header_of(frame, place):
    """The headers of a frame, or None if it has no IP header. Its type of Ethernet is at this place."""
    version = None if place is None else version_of(frame[place : place + 2], frame[place + 2 : place + 3])
    if version is None:
        return None
    begin = place + 2
    proto = frame[begin + PROTO[version]] if len(frame) > begin + PROTO[version] else None
    if version == 4:
        size, length = 4 * (frame[begin] & 0xF), number(frame[begin + 2 : begin + 4]) if len(frame) >= begin + 4 else None
    else:
        size, length = 40, 40 + number(frame[begin + 4 : begin + 6]) if len(frame) >= begin + 6 else None
        length = None if length is None or length > 65535 else length
    is_first = version == 6 or number(frame[begin + 6 : begin + 8]) & 0x1FFF == 0
    has_transport = proto in (TCP, UDP) and length is not None and is_first and size <= length
    end = len(frame) if length is None else min(len(frame), begin + length)
    return Header(version, begin, size, proto, length, begin + size if has_transport else None, end)


def data_offset(frame, header):
    """The byte of a TCP header that says where its data begin, or None if there is none."""
    if header is None or header.transport is None or header.proto != TCP or header.transport + 12 >= header.end:
        return None
    return frame[header.transport + 12]


def control_bits(frame, header):
    """The byte of a TCP header with its flags, or None if there is none."""
    if header is None or header.transport is None or header.proto != TCP or header.transport + 13 >= header.end:
        return None
    return frame[header.transport + 13]


# Of many frames few differ in where their fields stand.
@functools.lru_cache(16384)
def places_of(size, behind_tags, header, offset):
    """The places of the fields that a frame of this size with these tags and headers has, by the words that name them."""
    places = {}
    if size >= 6:
        places['link-dst'] = 0, 6
    if size >= 12:
        places['link-src'] = 6, 12
    if behind_tags is not None:
        places['tag'] = 12, behind_tags
    if header is None:
        return places
    for name, (begin, length) in PLACES[header.version].items():
        if header.begin + begin + length <= size:
            places[name] = header.begin + begin, header.begin + begin + length
    if header.transport is None:
        return places
    for name, begin in ('sport', header.transport), ('dport', header.transport + 2):
        if begin + 2 <= header.end:
            places[name] = begin, begin + 2
    payload = payload_place(header, offset)
    if payload is not None and payload <= header.end:
        places['payload'] = payload, header.end
    return places


def payload_place(header, offset):
    """Where the data after the header of TCP or UDP begin, or None if the header doesn't say it."""
    if header.proto == UDP:
        return header.transport + 8
    return None if offset is None or offset >> 4 < 5 else header.transport + 4 * (offset >> 4)


def even(data):
    """A last odd byte is the high one of a word whose low one is 0."""
    return data + b'\0' if len(data) % 2 else data


def words_of(data):
    """Words of 16 bits."""
    return struct.unpack(f'>{(len(data) + 1) // 2}H', even(data))


@functools.lru_cache(65536)
def told(address):
    """The bytes of an address as a report prints it: that of IPv6 as eight groups, none of them left out."""
    return '.'.join(map(str, address)) if len(address) == 4 else ':'.join(f'{group:x}' for group in words_of(address))


# The fields that are shown, in their order.
SHOWN = ['link-dst', 'link-src', 'tag', 'tos', 'ttl', 'proto', 'src', 'dst', 'sport', 'dport', 'payload']


def fields_of(frame):
    """The values of the fields of a frame, in their order. The protocol is that of the outermost header."""
    behind_tags = type_place(frame)
    header = header_of(frame, behind_tags)
    places = places_of(len(frame), behind_tags, header, data_offset(frame, header))
    values = {field: frame[slice(*place)] for field, place in places.items()}
    if header is not None and header.proto is not None:
        values['proto'] = bytes([header.proto])
    return {field: values[field] for field in SHOWN if field in values}


def source_of(frame):
    """The source of a frame, by its address or that of the link, or an empty text in a runt."""
    header = header_of(frame, type_place(frame))
    if header is not None:
        begin, size = PLACES[header.version]['src']
        if header.begin + begin + size <= len(frame):
            return told(frame[header.begin + begin : header.begin + begin + size])
    return frame[6:12].hex(':') if len(frame) >= 12 else ''
