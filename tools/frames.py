"""Frames and captures, made byte by byte with Python's standard library alone. The captures of the examples are made of them."""

import ipaddress
import struct
import typing

# The classic capture file: magic number for microseconds or nanoseconds, version 2.4, time zone, accuracy, snaplen, link type.
MICRO, NANO, LINK_ETHERNET = 0xA1B2C3D4, 0xA1B23C4D, 1
PER_SECOND = {MICRO: 1_000_000, NANO: 1_000_000_000}
FIRST_SECOND = 1_700_000_000

VLAN_TAG, SERVICE_TAG = 0x8100, 0x88A8
TYPE_IPV4, TYPE_ARP, TYPE_IPV6, TYPE_PPPOE = 0x0800, 0x0806, 0x86DD, 0x8864
ICMP, IP_IN_IP, TCP, UDP, ICMP6 = 1, 4, 6, 17, 58

GATEWAY, STATION = bytes.fromhex('020000000001'), bytes.fromhex('020000000002')
BROADCAST = b'\xff' * 6


def address(text):
    """The bytes of an address: four for IPv4, sixteen for IPv6."""
    return ipaddress.ip_address(text).packed


def internet_checksum(data):
    """The Internet checksum of RFC 1071."""
    if len(data) % 2:
        data += b'\0'
    total = sum(struct.unpack(f'>{len(data) // 2}H', data))
    while total >> 16:
        total = (total & 0xFFFF) + (total >> 16)
    return ~total & 0xFFFF


def transport_checksum(source, destination, protocol, segment):
    """The checksum over the pseudo-header and the segment (RFC 793, 3.1; RFC 8200, 8.1). The length has 32 bits, which is the same sum for both."""
    return internet_checksum(source + destination + struct.pack('>II', len(segment), protocol) + segment)


def udp(source_port, destination_port, payload):
    def segment(source, destination):
        head = struct.pack('>HHH', source_port, destination_port, 8 + len(payload))
        total = transport_checksum(source, destination, UDP, head + b'\0\0' + payload)
        return head + struct.pack('>H', total or 0xFFFF) + payload

    return UDP, segment


def tcp(source_port, destination_port, flags, payload=b''):
    def segment(source, destination):
        head = struct.pack('>HHIIBBH', source_port, destination_port, 1000, 2000 if flags & 0x10 else 0, 0x50, flags, 8192)
        total = transport_checksum(source, destination, TCP, head + b'\0\0\0\0' + payload)
        return head + struct.pack('>HH', total, 0) + payload

    return TCP, segment


def echo(number):
    def segment(source, destination):
        text = bytes(range(16))
        total = internet_checksum(struct.pack('>BBHHH', 8, 0, 0, 7, number) + text)
        return struct.pack('>BBHHH', 8, 0, total, 7, number) + text

    return ICMP, segment


def icmp6(kind, rest):
    """An ICMPv6 message (RFC 4443). Its checksum covers the addresses."""

    def segment(source, destination):
        total = transport_checksum(source, destination, ICMP6, struct.pack('>BBH', kind, 0, 0) + rest)
        return struct.pack('>BBH', kind, 0, total) + rest

    return ICMP6, segment


def echo6(number):
    return icmp6(128, struct.pack('>HH', 7, number))


def asked_neighbour(target):
    """A neighbour solicitation for this address, with the link address of the sender (RFC 4861, 4.3)."""
    return icmp6(135, bytes(4) + address(target) + bytes([1, 1]) + STATION)


SYN, ACK, PUSH_ACK = 0x02, 0x10, 0x18


def ipv4(source, destination, content, options=b'', offset=0, more=False, is_unsplit=False, lead=None, tos=0, ttl=64):
    """A whole packet (RFC 791). `lead` replaces the first byte, version and header length. `is_unsplit` sets the bit that forbids fragments."""
    protocol, segment = content
    source, destination = address(source), address(destination)
    body = segment(source, destination)
    words = 5 + len(options) // 4
    first = 0x40 + words if lead is None else lead
    fragment = offset // 8 + (0x2000 if more else 0) + (0x4000 if is_unsplit else 0)
    head = struct.pack('>BBHHHBB', first, tos, 4 * words + len(body), 0x1234, fragment, ttl, protocol)
    total = internet_checksum(head + b'\0\0' + source + destination + options)
    return head + struct.pack('>H', total) + source + destination + options + body


# The extension headers of IPv6, by their numbers in the header before them (RFC 8200, 4.2 to 4.6).
HOP_BY_HOP, ROUTING, FRAGMENT, DESTINATION = 0, 43, 44, 60


def extended(kind, content, offset=0, more=False):
    """The same content after an extension header of eight bytes."""
    protocol, segment = content
    padding = bytes.fromhex('0104 00000000')
    rest = {FRAGMENT: struct.pack('>HI', offset + more, 0x12345678), ROUTING: bytes([253]) + bytes(5)}.get(kind, padding)
    return kind, lambda source, destination: bytes([protocol, 0]) + rest + segment(source, destination)


def ipv6(source, destination, content, ttl=64, traffic_class=0, payload_length=None, lead=None):
    """A whole packet (RFC 8200). `payload_length` replaces the true length in the header, and `lead` the first byte."""
    protocol, segment = content
    source, destination = address(source), address(destination)
    body = segment(source, destination)
    first = 0x60 + (traffic_class >> 4) if lead is None else lead
    head = struct.pack('>BBHHBB', first, (traffic_class & 0xF) << 4, 0, len(body) if payload_length is None else payload_length, protocol, ttl)
    return head + source + destination + body


def carried(packet):
    """An IPv4 packet as the content of another one (RFC 2003)."""
    return IP_IN_IP, lambda *_: packet


def tag(kind, vlan, priority=0):
    return struct.pack('>HH', kind, (priority << 13) + vlan)


def ethernet(ether_type, body, tags=b'', to=GATEWAY):
    frame = to + STATION + tags + struct.pack('>H', ether_type) + body
    # Ethernet sends at least 60 bytes, without the checksum of the frame.
    return frame + b'\0' * (60 - len(frame))


def plain(source, content, to='192.0.2.80', tags=b'', **fields):
    return ethernet(TYPE_IPV4, ipv4(source, to, content, **fields), tags)


def arp_request(source, target):
    body = struct.pack('>HHBBH', 1, TYPE_IPV4, 6, 4, 1) + STATION + address(source) + b'\0' * 6 + address(target)
    return ethernet(TYPE_ARP, body, to=BROADCAST)


def plain6(source, content, to='2001:db8::1', tags=b'', **fields):
    return ethernet(TYPE_IPV6, ipv6(source, to, content, **fields), tags)


def ping6():
    return plain6('2001:db8::66', echo6(1))


# The places of checksums in a frame: of an IPv4 header without a tag and after one tag, of TCP and UDP after an IPv4 header of five words, and of
# both after an IPv6 header.
IPV4_SUM, TAGGED_IPV4_SUM, TCP_SUM, UDP_SUM = 14 + 10, 18 + 10, 34 + 16, 34 + 6
TCP6_SUM, UDP6_SUM = 54 + 16, 54 + 6


def miscounted(frame, at):
    """The same frame with a wrong checksum."""
    return frame[:at] + bytes([frame[at] ^ 0x5A]) + frame[at + 1 :]


def uncounted(frame, at=UDP_SUM):
    """The same UDP frame without a checksum: the field is 0."""
    return frame[:at] + b'\0\0' + frame[at + 2 :]


class Capture(typing.NamedTuple):
    order: str  # the byte order of the capture's own numbers, as struct writes it
    magic: int
    snaplen: int
    records: list  # time, what it is, frame as it was sent, number of captured bytes (None: up to the snaplen)
    room: typing.Optional[int] = None  # the free bytes of the disk that the capture was written to


def written(capture):
    parts = [struct.pack(capture.order + 'IHHiIII', capture.magic, 2, 4, 0, 0, capture.snaplen, LINK_ETHERNET)]
    for moment, _, frame, kept in capture.records:
        captured = frame[: capture.snaplen if kept is None else kept]
        seconds, fraction = divmod(moment, PER_SECOND[capture.magic])
        parts.append(struct.pack(capture.order + 'IIII', FIRST_SECOND + seconds, fraction, len(captured), len(frame)))
        parts.append(captured)
    return b''.join(parts)[: capture.room]
