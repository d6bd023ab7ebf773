"""What tools/throw-mutations throws in the pcapng format: captures that are made, and mutations of their blocks.

A mutation takes any bytes in which at least one block is whole by its own lengths. All is drawn from a generator of random numbers, so that a
number gives the same case again.
"""

import struct
import typing

import blocks

SECTION_LEAD = blocks.SECTION.to_bytes(4, 'big')
LONGEST_BLOCK, LONGEST_FRAME = 2**24, 262_144
OLD_PACKET = 2

# Numbers at the ends of their ranges, and beside them.
ENDS = sorted({0, 1, 2, 3, 4, 8, 11, 12, 13, 16, 20, 28, 32, *(2**bits + by for bits in (7, 8, 16, 31, 32, 63, 64) for by in (-1, 0, 1))})
LENGTHS = [*ENDS, LONGEST_FRAME - 1, LONGEST_FRAME, LONGEST_FRAME + 1, LONGEST_BLOCK - 4, LONGEST_BLOCK, LONGEST_BLOCK + 4, 2**32 - 4]
TYPES = [0, 1, 2, 3, 4, 5, 6, 7, 9, 10, 0xBAD, 0x40000BAD, 0x80000001, 2**32 - 1, blocks.SECTION]
RESOLUTIONS = [None, None, 0, 3, 6, 9, 9, 10, 12, 15, 18, *(blocks.twos(power) for power in (0, 1, 10, 24, 30, 32, 59, 60))]
BAD_RESOLUTIONS = [19, 20, 100, 127, blocks.twos(61), blocks.twos(64), 255]


class Unit(typing.NamedTuple):
    """A whole block by its own lengths."""

    begin: int
    end: int
    kind: int
    order: str


def is_blocks(data):
    return data[:4] == SECTION_LEAD


def units_of(data):
    units, place, order = [], 0, '<'
    while place + 12 <= len(data):
        if data[place : place + 4] == SECTION_LEAD:
            order = next((order for order in '<>' if struct.unpack_from(order + 'I', data, place + 8)[0] == blocks.ORDER_MAGIC), None)
        kind, length = struct.unpack_from((order or '<') + 'II', data, place)
        if order is None or length < 12 or place + length > len(data):
            break
        units.append(Unit(place, place + length, kind, order))
        place += length
    return units


# Captures that are made.


def some_resolution(rng):
    return rng.choice(RESOLUTIONS if rng.randrange(30) else BAD_RESOLUTIONS)


def some_options(rng):
    """Options of a packet: flags, a hash, an identity, unknown codes, and custom ones, of which some must not be copied."""
    known = [(2, bytes(4)), (3, b'\x02abcd'), (5, rng.randbytes(8)), (0x8001, b''), (7, b'x' * rng.randrange(9)), (blocks.CUSTOM_TEXT, rng.randbytes(5))]
    known += [(code, rng.randbytes(rng.choice([4, 5, 9]))) for code in (blocks.UNCOPIED_TEXT, blocks.UNCOPIED_BYTES)]
    return [rng.choice(known) for _ in range(rng.choice([0, 0, 0, 1, 2]))]


def some_interface(rng):
    name, snaplen = rng.choice(['', 'lan', 'wan', 'eth0.100']), rng.choice([0, 1, 96, 65535, 262144, 2**32 - 1, 2**32 - 3])
    link = 1 if rng.randrange(30) else rng.choice([0, 101, 113, 276, 65535])
    return blocks.Interface(name, snaplen, some_resolution(rng), rng.choice([None, None, None, 0, 3600, -1]), link)


def some_ticks(rng, resolution):
    """A time near the others, or one at the ends of the range."""
    near = blocks.ticks_at(rng.randrange(10**6), 6 if resolution is None else resolution) % 2**64
    return near if rng.randrange(10) else rng.choice([0, 1, 2**32 - 1, 2**32, 2**63, 2**64 - 1, rng.randrange(2**64)])


def some_packet(rng, made_frame, interfaces):
    at = rng.randrange(len(interfaces))
    frame, comments = made_frame(rng), rng.choice([(), (), (), ('a note',), ('one', 'another')])
    captured = rng.choice([None, None, None, 60, 35, 0])
    return blocks.Packet(at, some_ticks(rng, interfaces[at].resolution), '', frame, captured, comments, some_options(rng))


def some_other(rng):
    """A block that is copied unread."""
    return rng.choice(
        [
            blocks.Names({'10.0.0.1': 'one.example', '2001:db8::1': 'two.example'}),
            blocks.Statistics(rng.choice([0, 1, 77]), rng.randrange(2**64), 9, 1),
            blocks.Unread(rng.choice([7, 9, 10, 0xBAD, 0x40000BAD, 2**32 - 1]), rng.randbytes(rng.choice([0, 1, 3, 4, 40]))),
        ]
    )


def made_section(rng, made_frame):
    interfaces = [some_interface(rng) for _ in range(rng.choice([0, 1, 1, 2, 3]))]
    told = rng.choice([[], [], [(blocks.COMMENT, b'a note')], [(blocks.APPLICATION, b'made'), (blocks.SYSTEM, b'none')], some_options(rng)])
    parts = [blocks.Section(rng.choice('<>'), told), *interfaces]
    for _ in range(rng.choice([0, 1, 2, 4, 8])):
        parts.append(some_packet(rng, made_frame, interfaces) if interfaces and rng.randrange(5) else some_other(rng))
    return parts


def made_capture(rng, made_frame):
    """A capture of one to three sections, sometimes with an interface that is refused."""
    return blocks.written(blocks.Capture([part for _ in range(rng.choice([1, 1, 1, 2, 3])) for part in made_section(rng, made_frame)]))


# Mutations.


def put_in(data, place, size, value, order):
    return data[:place] + (value % 256**size).to_bytes(size, 'little' if order == '<' else 'big') + data[place + size :]


FIELDS = {
    blocks.SECTION: [(8, 4), (12, 2), (12, 2), (14, 2), (16, 8)],
    blocks.INTERFACE: [(8, 2), (8, 2), (10, 2), (12, 4), (12, 4)],
    blocks.PACKET: [(8, 4), (8, 4), (12, 4), (16, 4), (20, 4), (20, 4), (24, 4)],
}


def block_field(rng, data):
    """Changes a field of a block: its type, one of its lengths, or a field of its type."""
    unit = rng.choice(units_of(data))
    last = unit.end - unit.begin - 4
    place, size = rng.choice([(0, 4), (4, 4), (last, 4), *FIELDS.get(unit.kind, [(8, 4)]) * 2])
    length = unit.end - unit.begin
    near = [length + by for by in (-32, -16, -4, -3, -1, 1, 2, 3, 4, 12)] + [last, len(data) - unit.begin]
    value = rng.choice(TYPES) if place == 0 else rng.choice([rng.choice(LENGTHS), rng.choice(near), blocks.ORDER_MAGIC])
    return put_in(data, unit.begin + place, size, value, rng.choice([unit.order] * 5 + ['<', '>']))


def both_lengths(rng, data):
    """Changes both lengths of a block to the same value."""
    unit = rng.choice(units_of(data))
    length = rng.choice([*LENGTHS, unit.end - unit.begin + rng.choice([-8, -4, 4, 8]), len(data) - unit.begin])
    return put_in(put_in(data, unit.begin + 4, 4, length, unit.order), unit.end - 4, 4, length, unit.order)


def rebuilt(data, unit, body):
    """The capture with another body of a block, and the right lengths for it."""
    length = struct.pack(unit.order + 'I', (12 + len(body)) % 2**32)
    return data[: unit.begin + 4] + length + body + length + data[unit.end :]


def resize_body(rng, data):
    """Cuts the end of a body, or appends bytes to it."""
    unit = rng.choice(units_of(data))
    body = data[unit.begin + 8 : unit.end - 4]
    cut = body[: rng.choice([rng.randrange(len(body) + 1), rng.randrange(len(body) + 1) // 4 * 4])]
    return rebuilt(data, unit, rng.choice([cut, cut, body + rng.randbytes(rng.choice([1, 2, 4, 8, 400]))]))


def options_place(data, unit):
    """The place in a block at which its options begin."""
    if unit.kind == blocks.PACKET and unit.end - unit.begin >= 32:
        (captured,) = struct.unpack_from(unit.order + 'I', data, unit.begin + 20)
        return 28 + captured + -captured % 4
    return {blocks.SECTION: 24, blocks.INTERFACE: 16}.get(unit.kind, 8)


def option_field(rng, data):
    """Changes the code or the length of an option, or the bytes in their place."""
    unit = rng.choice(units_of(data))
    begin, end = options_place(data, unit), unit.end - unit.begin - 4
    if begin + 4 > end:
        return data
    at = rng.randrange(begin, end - 3) // 4 * 4
    left = end - at - 4
    value = rng.choice([0, 1, 2, 4, 8, 9, 9, 14, 2988, 0x8001, 0xFFFF, left, left + 1, max(0, left - 1), max(0, left - 4), rng.randrange(40)])
    return put_in(data, unit.begin + at + rng.choice([0, 2, 2]), 2, value, unit.order)


def put_resolution(rng, data):
    """Adds one more resolution to an interface, before or after its options, of one byte or of more."""
    interfaces = [unit for unit in units_of(data) if unit.kind == blocks.INTERFACE and unit.end - unit.begin >= 20]
    if not interfaces:
        return data
    unit = rng.choice(interfaces)
    value = bytes([rng.choice([*RESOLUTIONS[2:], *BAD_RESOLUTIONS])]) + bytes(rng.choice([0, 0, 0, 0, 1, 3, 7]))
    option = struct.pack(unit.order + 'HH', 9, len(value) if rng.randrange(20) else 0) + blocks.padded(value)
    body = data[unit.begin + 8 : unit.end - 4]
    return rebuilt(data, unit, rng.choice([body[:8] + option + body[8:], body + option, body[:8] + option]))


def some_block(rng, order):
    """A block: one that is refused, one of any type with a short body, one that is copied unread, an interface, or a section in either order."""
    frame = rng.randbytes(rng.choice([0, 14, 60]))
    simple = struct.pack(order + 'I', len(frame)) + blocks.padded(frame)
    old = struct.pack(order + 'HHIIII', 0, 0, 0, 0, len(frame), len(frame)) + blocks.padded(frame)
    made = [
        blocks.block(order, blocks.SIMPLE, simple),
        blocks.block(order, OLD_PACKET, old),
        blocks.block(order, rng.choice(TYPES), rng.randbytes(rng.choice([0, 4, 8, 16, 20, 24]))),
        some_other(rng).spelled(order),
        some_other(rng).spelled(order),
        some_interface(rng).spelled(order),
        blocks.Section(order).spelled(order),
        blocks.Section('<').spelled('<'),
        blocks.Section('>').spelled('>'),
    ]
    return rng.choice(made)


def insert_block(rng, data):
    unit = rng.choice(units_of(data))
    place = rng.choice([unit.begin, unit.end, unit.end])
    return data[:place] + some_block(rng, rng.choice([unit.order] * 4 + ['<', '>'])) + data[place:]


def with_units(change):
    """A mutation that changes the list of whole blocks, rarely including the first."""

    def mutated(rng, data):
        units = units_of(data)
        first = 0 if rng.randrange(8) == 0 else 1
        pieces = [data[unit.begin : unit.end] for unit in units[first:]]
        if pieces:
            change(rng, pieces)
        return data[: units[first - 1].end if first else 0] + b''.join(pieces) + data[units[-1].end :]

    return mutated


def turn_order(rng, data):
    """The magic number of a section header, or the whole header, gets the other byte order; what follows keeps its own."""
    unit = rng.choice([unit for unit in units_of(data) if unit.kind == blocks.SECTION])
    other = '<' if unit.order == '>' else '>'
    if rng.randrange(2):
        return put_in(data, unit.begin + 8, 4, blocks.ORDER_MAGIC, other)
    return data[: unit.begin] + blocks.Section(other).spelled(other) + data[unit.end :]


def join(rng, data):
    """Appends the capture to itself, with or without its first block, with or without a cut block between."""
    return data + rng.choice([b'', b'', data[:rng.randrange(13)]]) + data[rng.choice([0, 0, units_of(data)[0].end]) :]


def long_block(rng, data):
    """Inserts a block of the greatest length or beyond it, or a packet of the greatest length or beyond it."""
    unit = rng.choice(units_of(data))
    if rng.randrange(2):
        length = rng.choice([LONGEST_BLOCK - 4, LONGEST_BLOCK, LONGEST_BLOCK + 4])
        made = blocks.block(unit.order, 0xBAD, bytes(length - 12))
    else:
        size = rng.choice([LONGEST_FRAME - 1, LONGEST_FRAME, LONGEST_FRAME + 1])
        made = blocks.Packet(0, 1, '', bytes(12) + b'\x08\0' + b'a' * (size - 14)).spelled(unit.order)
    return data[: unit.end] + made + data[unit.end :]


def frames_of(data):
    """The packets whose frames are whole: the block, and the places where its frame begins and ends."""
    found = []
    for unit in units_of(data):
        if unit.kind == blocks.PACKET and unit.end - unit.begin >= 32:
            (captured,) = struct.unpack_from(unit.order + 'I', data, unit.begin + 20)
            if unit.begin + 28 + captured <= unit.end - 4:
                found.append((unit, unit.begin + 28, unit.begin + 28 + captured))
    return found


def with_frame(change):
    """A mutation that changes the frame of a packet, with the right lengths."""

    def mutated(rng, data):
        found = frames_of(data)
        if not found:
            return data
        unit, begin, end = rng.choice(found)
        frame = change(rng, data[begin:end])
        behind = data[begin + len(blocks.padded(data[begin:end])) : unit.end - 4]
        lengths = struct.pack(unit.order + 'I', len(frame)) + data[begin - 4 : begin]
        return rebuilt(data, unit, data[unit.begin + 8 : begin - 8] + lengths + blocks.padded(frame) + behind)

    return mutated


def dirty_padding(rng, data):
    """Makes the padding between a frame and its options other than zeros."""
    found = [(unit, begin, end) for unit, begin, end in frames_of(data) if (end - begin) % 4]
    if not found:
        return data
    _, begin, end = rng.choice(found)
    return data[:end] + b'\xee' * (-(end - begin) % 4) + data[end + -(end - begin) % 4 :]


OF_FIELDS = [block_field, block_field, block_field, both_lengths, option_field, option_field, put_resolution, turn_order, dirty_padding]
OF_BLOCKS = [resize_body, resize_body, insert_block, insert_block, join]
