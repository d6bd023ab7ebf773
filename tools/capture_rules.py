"""How captures are read and written, in the classic format and in pcapng, in Python's standard library alone.

This is a second account of what the program is proved to do, and shares nothing with it. The formats are those of draft-ietf-opsawg-pcap and
draft-ietf-opsawg-pcapng. docs/POLICY.md and docs/FAULTS.md say in words what is read of them, and which fault comes first.
"""

import struct
import typing

MICRO, NANO = 0xA1B2C3D4, 0xA1B23C4D
NANOSECONDS = {MICRO: 1_000, NANO: 1}  # in one unit of the fraction of a second
ETHERNET = 1
LONGEST_FRAME = 262_144
MOST_RECORDS = 2**32 - 1

# pcapng: the types of blocks that are read or refused, the number that shows the byte order of a section, and the bytes of the fixed fields of a body.
SECTION, INTERFACE, OLD_PACKET, SIMPLE_PACKET, PACKET = 0x0A0D0D0A, 1, 2, 3, 6
SECTION_LEAD = SECTION.to_bytes(4, 'big')
ORDER_MAGIC = 0x1A2B3C4D
FIXED = {SECTION: 16, INTERFACE: 8, PACKET: 20}
# A custom block, and custom options of text and of bytes, that must not be copied into a capture that was changed.
UNCOPIED, UNCOPIED_OPTIONS = 0x40000BAD, (19372, 19373)
LONGEST_BLOCK = 2**24
END_OF_OPTIONS, RESOLUTION = 0, 9
TICKS_A_SECOND = 10**6  # if an interface has no resolution
MOST_TENS, MOST_TWOS = 18, 60
LAST_MOMENT = 2**32 * 10**9 - 1


class Record(typing.NamedTuple):
    """A packet of a capture."""

    time: int  # in nanoseconds
    original: int  # the length of the frame as it was sent
    frame: bytes
    spell: typing.Callable  # returns its bytes, with this original length and this frame


class Other(typing.NamedTuple):
    """A part of a capture that is no packet."""

    spell: typing.Callable  # returns its bytes, if frames may be longer by this number of bytes


class Capture(typing.NamedTuple):
    parts: list  # records and others, in their order
    fault: typing.Optional[str]  # what is wrong after them
    is_refused: bool  # because of its head or its first block, so that nothing is written

    @property
    def records(self):
        return [part for part in self.parts if isinstance(part, Record)]


def read(data):
    """The first four bytes show the format."""
    return read_blocks(data) if data[:4] == SECTION_LEAD else read_classic(data)


def in_32_bits(value):
    return min(max(value, 0), 0xFFFFFFFF)


def grown(snaplen, growth):
    """A snaplen of 0 means that there is no limit."""
    return in_32_bits(snaplen + growth) if snaplen else 0


def written(capture, frames, growth):
    """What is written for a capture whose frames may be longer by `growth` bytes. A frame that was dropped is None."""
    left = iter(frames)
    return b''.join(part.spell(growth) if isinstance(part, Other) else written_record(part, next(left)) for part in capture.parts)


def written_record(record, frame):
    """The original length changes as the length of the frame does, which only tags and the headers of tunnels change. It stays within 32 bits."""
    return b'' if frame is None else record.spell(in_32_bits(record.original + len(frame) - len(record.frame)), frame)


# The classic format.


def order_of_classic(data):
    return next((order for order in '<>' if struct.unpack(order + 'I', data[:4])[0] in NANOSECONDS), None)


def head_fault(data):
    """What is wrong with the head of a capture, or None."""
    if len(data) < 24:
        return 'cut head'
    order = order_of_classic(data)
    if order is None:
        return 'bad magic'
    if struct.unpack(order + 'HH', data[4:8]) != (2, 4):
        return 'bad version'
    (link,) = struct.unpack(order + 'I', data[20:24])
    return None if link == ETHERNET else f'bad link {link}'


def classic_head(order, head, growth):
    """The snaplen grows by what frames may grow, whether or not one does."""
    (snaplen,) = struct.unpack(order + 'I', head[16:20])
    return head[:16] + struct.pack(order + 'I', grown(snaplen, growth)) + head[20:]


def classic_record(order, stamp, original, frame):
    return stamp + struct.pack(order + 'II', len(frame), original) + frame


def read_classic(data):
    fault = head_fault(data)
    if fault:
        return Capture([], fault, True)
    order, head = order_of_classic(data), data[:24]
    unit = NANOSECONDS[struct.unpack(order + 'I', data[:4])[0]]
    parts, place = [Other(lambda growth: classic_head(order, head, growth))], 24
    while place < len(data):
        lead = data[place : place + 16]
        seconds, fraction, captured, original = struct.unpack(order + 'IIII', lead) if len(lead) == 16 else (0, 0, 0, 0)
        if captured > LONGEST_FRAME:
            return Capture(parts, f'frame too long {len(parts)} {captured}', False)
        frame = data[place + 16 : place + 16 + captured]
        if len(lead) < 16 or len(frame) < captured:
            return Capture(parts, f'cut record {len(parts)}', False)
        parts.append(Record(seconds * 1_000_000_000 + fraction * unit, original, frame, spelling(classic_record, order, lead[:8])))
        place += 16 + captured
    return Capture(parts, None, False)


def spelling(spell, *told):
    """A function that writes a record of which `told` is known."""
    return lambda original, frame: spell(*told, original, frame)


# pcapng.


class Fault(Exception):
    """The first fault of a block."""


class Block(typing.NamedTuple):
    order: str
    kind: int
    data: bytes  # the whole block

    def numbers(self, form, place):
        return struct.unpack_from(self.order + form, self.data, place)

    @property
    def body(self):
        return self.data[8:-4]


def order_of_section(data, place, number):
    """The byte order of a section header. Its first twelve bytes have to be there."""
    if len(data) < place + 12:
        raise Fault(f'cut block {number}')
    order = next((order for order in '<>' if struct.unpack_from(order + 'I', data, place + 8)[0] == ORDER_MAGIC), None)
    if order is None:
        raise Fault(f'bad block {number}')
    return order


def block_at(data, place, number, order):
    """The whole block at `place`. Its numbers have this byte order, unless it is a section header."""
    if len(data) < place + 8:
        raise Fault(f'cut block {number}')
    if data[place : place + 4] == SECTION_LEAD:
        order = order_of_section(data, place, number)
    kind, length = struct.unpack_from(order + 'II', data, place)
    if length < 12 or length % 4 or kind in (OLD_PACKET, SIMPLE_PACKET):
        raise Fault(f'bad block {number}')
    if length > LONGEST_BLOCK:
        raise Fault(f'block too long {number} {length}')
    if len(data) < place + length:
        raise Fault(f'cut block {number}')
    block = Block(order, kind, data[place : place + length])
    if block.numbers('I', length - 4) != (length,) or len(block.body) < FIXED.get(kind, 0):
        raise Fault(f'bad block {number}')
    return block


def padded(length):
    return length + -length % 4


def options_of(block, place, number):
    """Codes and values of the options that begin at this place of a body. The code 0 ends them, whatever length follows it."""
    body, found = block.body, []
    while place < len(body):
        code, length = struct.unpack_from(block.order + 'HH', body, place)
        if code == END_OF_OPTIONS:
            break
        if place + 4 + padded(length) > len(body):
            raise Fault(f'bad block {number}')
        found.append((code, body[place + 4 : place + 4 + length]))
        place += 4 + padded(length)
    return found


def ticks_a_second(block, number):
    """The ticks of an interface in a second, by the first option that gives its resolution in one byte."""
    resolution = next((value[0] for code, value in options_of(block, 8, number) if code == RESOLUTION and len(value) == 1), None)
    (link,) = block.numbers('H', 8)
    if link != ETHERNET:
        raise Fault(f'bad link {link}')
    if resolution is None:
        return TICKS_A_SECOND
    base, power, most = (2, resolution - 128, MOST_TWOS) if resolution >= 128 else (10, resolution, MOST_TENS)
    if power > most:
        raise Fault(f'bad resolution {number}')
    return base**power


def copied_options(order, data):
    """Options without the custom ones that must not be copied. What follows the end of the list, or an option that runs past it, stays."""
    kept, place = b'', 0
    while place < len(data):
        code, length = struct.unpack_from(order + 'HH', data, place)
        behind = place + 4 + padded(length)
        if code == END_OF_OPTIONS or behind > len(data):
            break
        kept += b'' if code in UNCOPIED_OPTIONS else data[place:behind]
        place = behind
    return kept + data[place:]


def spelled(order, kind, body):
    length = struct.pack(order + 'I', 12 + len(body))
    return struct.pack(order + 'I', kind) + length + body + length


def written_section(block):
    """The length of the section is written as unknown."""
    return spelled(block.order, SECTION, block.body[:8] + b'\xff' * 8 + copied_options(block.order, block.body[16:]))


def written_interface(block, growth):
    (snaplen,) = block.numbers('I', 12)
    fixed = block.body[:4] + struct.pack(block.order + 'I', grown(snaplen, growth))
    return spelled(block.order, INTERFACE, fixed + copied_options(block.order, block.body[8:]))


def written_packet(order, place, options, original, frame):
    return spelled(order, PACKET, place + struct.pack(order + 'II', len(frame), original) + frame.ljust(padded(len(frame)), b'\0') + options)


def packet_of(block, number, interfaces, before):
    """The packet of a block. `before` is the number of packets before it."""
    interface, high, low, captured, original = block.numbers('5I', 8)
    if interface >= len(interfaces):
        raise Fault(f'no interface {number}')
    if before == MOST_RECORDS:
        raise Fault('too many records')
    if captured > LONGEST_FRAME:
        raise Fault(f'frame too long {before + 1} {captured}')
    behind = 20 + padded(captured)
    if behind > len(block.body):
        raise Fault(f'bad block {number}')
    time = ((high << 32) + low) * 1_000_000_000 // interfaces[interface]
    spell = spelling(written_packet, block.order, block.body[:12], copied_options(block.order, block.body[behind:]))
    return Record(min(time, LAST_MOMENT), original, block.body[20 : 20 + captured], spell)


def part_of(block, number, interfaces, before):
    """The part that a block gives. `interfaces` has the ticks per second of each interface of the section; a new section clears it."""
    if block.kind == SECTION:
        if block.numbers('H', 12) != (1,):
            raise Fault(f'bad block {number}')
        interfaces.clear()
        return Other(lambda _: written_section(block))
    if block.kind == INTERFACE:
        interfaces.append(ticks_a_second(block, number))
        return Other(lambda growth: written_interface(block, growth))
    if block.kind == UNCOPIED:
        return Other(lambda _: b'')
    return packet_of(block, number, interfaces, before) if block.kind == PACKET else Other(lambda _: block.data)


def read_blocks(data):
    parts, interfaces, place, order, packets = [], [], 0, '<', 0
    while place < len(data):
        try:
            block = block_at(data, place, len(parts) + 1, order)
            parts.append(part_of(block, len(parts) + 1, interfaces, packets))
        except Fault as fault:
            return Capture(parts, str(fault), not parts)
        packets += isinstance(parts[-1], Record)
        order, place = block.order, place + len(block.data)
    return Capture(parts, None, False)
