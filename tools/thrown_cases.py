"""What tools/throw-mutations throws: mutated policies and captures.

A seed is a good policy and a good capture in either format, from examples/ or made here, with every kind of function and of frame. A mutation
changes bytes, lines, words, records, blocks (thrown_blocks.py) or fields. All is drawn from a generator of random numbers, so that a number gives the
same case again.
"""

import pathlib
import re
import struct
import typing

import blocks
import frames
import make_examples
import policy_rules
import thrown_blocks

EXAMPLES = pathlib.Path(__file__).resolve().parent.parent / 'examples'

# Numbers at the ends of their ranges, and one past them, for policies and captures.
BITS = (4, 5, 8, 12, 16, 31, 32, 63, 64)
ENDS = sorted({0, 1, 2, 32, 33, 40000, *(2**bits + by for bits in BITS for by in (-1, 0, 1))})
SPELLED = [str(end) for end in ENDS] + ['007', '0' * 19 + '1', '0' * 20 + '1', '9' * 20, '1' * 21, '-1', '+1', '1e3', '0x10', '']
LENGTHS = (0, 1, 13, 14, 33, 34, 42, 60, 65535, 65536, 262143, 262144, 262145, 2**31 - 1, 2**31, 2**32 - 1)

CAPTURE_HEAD, RECORD_HEAD = 24, 16


class Seed(typing.NamedTuple):
    policy: bytes
    capture: bytes


# Policies that are made: chains of functions with settings that their kinds accept.


def some_address(rng):
    return rng.choice(['10.0.0.1', '10.0.0.9', '192.0.2.1', '198.51.100.5', '203.0.113.66', '0.0.0.0', '255.255.255.255'])


def some_address6(rng):
    return rng.choice(['2001:db8::1', '2001:db8::2', '2001:DB8::9', '::', '::1', 'fe80::1', '1:2:3:4:5:6:7:8', 'ffff:ffff:ffff:ffff:ffff:ffff:ffff:ffff'])


# What replaces an address or a prefix: forms at the ends of the ranges, and past them.
SPELLED_IP = (
    '10.0.0.1 010.000.000.001 10.0.0.256 10.0.0 10.0.0.0.1 0010.0.0.1 10.0.0.0/32 10.0.0.0/33 10.0.0.0/032 10.0.0.0/ '
    ':: ::/0 ::/00 ::/000 ::/0000 ::/128 ::/129 ::/-1 ::/ ::1 1:: 2001:DB8::ABCD 2001:db8::/32 0:0:0:0:0:0:0:0 0000:0000:0000:0000:0000:0000:0000:0000 '
    '1:2:3:4:5:6:7:: ::2:3:4:5:6:7:8 1::3:4:5:6:7:8 1:2:3:4:5:6:7:8 1:2:3:4:5:6:7:8:: ::1:2:3:4:5:6:7:8 1:2:3:4::5:6:7:8 1:2:3:4:5:6:7 1:2:3:4:5:6:7:8:9 '
    '1::2::3 ::: ::::: 1:::2 : :1 1: 12345:: g:: ::0x1 ::ffff:10.0.0.1 ::10.0.0.1 1.2.3.4:: [::1] ::1%1 ::1/64/64 fe80::1/10 /64 :/ ::#1'
).split()


def some_prefix4(rng):
    return some_address(rng) + rng.choice(['', '/0', '/1', '/8', '/24', '/31', '/32'])


def some_prefix(rng):
    """A prefix of either version of IP."""
    return rng.choice([some_prefix4(rng), some_address6(rng) + rng.choice(['', '/0', '/1', '/32', '/64', '/127', '/128'])])


def some_ports(rng):
    low, high = sorted(rng.choice([0, 1, 53, 80, 1000, 1024, 40000, 65535]) for _ in range(2))
    return rng.choice([str(low), f'{low}-{high}'])


def some_flags(rng):
    names = rng.sample(['fin', 'syn', 'rst', 'psh', 'ack', 'urg'], rng.choice([1, 1, 2, 3, 6]))
    return ' '.join(rng.choice(['', '!']) + name for name in names)


def some_clauses(rng, leads=('src', 'dst', 'sport', 'dport', 'proto', 'tag', 'version', 'flags')):
    values = {
        'src': some_prefix,
        'dst': some_prefix,
        'sport': some_ports,
        'dport': some_ports,
        'proto': lambda rng: rng.choice(['tcp', 'udp', '6', '1', '255']),
        'tag': lambda rng: rng.choice(['none', '0', '7', '100', '4095']),
        'version': lambda rng: rng.choice(['4', '6']),
        'flags': some_flags,
    }
    chosen = rng.sample(leads, rng.choice([0, 1, 1, 2, len(leads)]) if len(leads) > 1 else rng.randrange(2))
    return ''.join(f' {lead} {values[lead](rng)}' for lead in chosen)


def some_patterns(rng):
    return [f'rule {rng.choice(["text a", "text secret", "text evil", "hex 00", "hex 2e2e", "hex FFff"])}' for _ in range(rng.randrange(3))]


def some_link(rng):
    return ':'.join(f'{rng.randrange(256):02x}' for _ in range(6))


def some_exit(rng):
    """The exit of a tunnel, mostly the same, so that packets come to its end."""
    return some_address(rng) if rng.randrange(4) == 0 else '203.0.113.66'


def nat_lines(rng):
    low = rng.choice([1, 40000, 65535])
    return [f'set inside {some_prefix4(rng)}', f'set public {some_address(rng)}', f'set ports {low}-{min(low + rng.randrange(3), 65535)}']


def balancer_lines(rng):
    """A virtual address and backends, of one IP version in nine of ten cases."""
    virtual = rng.choice([some_address, some_address6])
    backend = virtual if rng.randrange(10) else some_address
    return [f'set vip {virtual(rng)}'] + [f'rule backend {backend(rng)}' for _ in range(1 + rng.randrange(3))]


LINES = {
    'firewall': lambda rng: [f'set default {rng.choice(["allow", "deny"])}'] * rng.randrange(2)
    + [f'rule {rng.choice(["allow", "deny"])}{some_clauses(rng)}' for _ in range(rng.randrange(4))],
    'signature': some_patterns,
    'nat': nat_lines,
    'balancer': balancer_lines,
    'monitor': lambda rng: [],
    'limiter': lambda rng: [f'set rate {rng.choice([1, 1000, 2**32 - 1])}', f'set burst {rng.choice([1, 28, 1000, 2**32 - 1])}'],
    'marker': lambda rng: [
        f'rule tos {rng.choice([0, 46, 255])}{some_clauses(rng, ("src", "dst", "sport", "dport", "proto", "version", "flags"))}' for _ in range(rng.randrange(3))
    ],
    'nexthop': lambda rng: [f'rule {some_prefix(rng)} to {some_link(rng)} from {some_link(rng)}' for _ in range(rng.randrange(3))],
    'hop': lambda rng: [],
    'redactor': some_patterns,
    'tagger': lambda rng: [
        f'rule vid {rng.choice([0, 7, 4095])} pcp {rng.randrange(8)}{some_clauses(rng, ("src",))}' for _ in range(rng.randrange(3))
    ],
    'untagger': lambda rng: [],
    'encap': lambda rng: [f'set entry {some_address(rng)}', f'set exit {some_exit(rng)}', f'set ttl {rng.choice([1, 2, 64, 255])}'],
    'decap': lambda rng: [f'set exit {some_exit(rng)}'],
}


def statement(rng, names):
    first, second = rng.choice(names), rng.choice(names)
    return rng.choice(
        [
            f'order {first} before {second}',
            f'order {names[0]} before {names[-1]}',
            f'priority {first} > {second}',
            f'position {first} {rng.choice(["first", "last"])}',
        ]
    )


def made_policy(rng):
    """A policy of up to three chains. The statements of some are faulty, which is tested too."""
    lines = ['nfp 1']
    for chain in range(rng.choice([0, 1, 1, 1, 2, 3])):
        clauses = some_clauses(rng) if chain < 2 else ''
        lines.append(f'chain c{chain}' + (f' match{clauses}' if clauses else ''))
        names = []
        for place in range(rng.choice([0, 1, 1, 2, 3, 4, 6])):
            kind = rng.choice(list(LINES))
            names.append(f'{kind[:3]}{chain}{place}')
            lines += [f'fn {names[-1]} {kind}', *LINES[kind](rng)]
        lines += [statement(rng, names) for _ in range(rng.choice([0, 0, 1, 2]) if names else 0)]
    return '\n'.join(lines).encode() + b'\n'


# Captures that are made, with few frames of every kind.


# What an IPv4 header rarely has: options, a fragment, a last hop, a type of service, another version or length.
UNUSUAL = [{'options': b'\x01' * 8}, {'offset': 8}, {'more': True}, {'ttl': 1}, {'ttl': 0}, {'tos': 255}, {'lead': 0x4F}, {'lead': 0x44}]


# What an IPv6 header rarely has: a last hop, a traffic class, another version, and a payload length other than that of the payload: 0, one
# that ends in the header of UDP or TCP, the greatest of a packet of 65,535 bytes, one more, and the greatest of the field.
UNUSUAL6 = [{'ttl': 1}, {'ttl': 0}, {'traffic_class': 255}, {'lead': 0x6F}, {'lead': 0x4F}, {'lead': 0x70}]
UNUSUAL6 += [{'payload_length': length} for length in (0, 1, 4, 7, 8, 9, 19, 20, 65495, 65496, 65535)]

# What may be between an IPv6 header and that of TCP or UDP, and other values of the next header: none at all (59), ESP, SCTP.
EXTENSIONS = [frames.HOP_BY_HOP, frames.ROUTING, frames.FRAGMENT, frames.DESTINATION]
OTHER_NEXT = [59, 50, 132, 1, 4, 41]


def some_tag(rng):
    return frames.tag(rng.choice([frames.VLAN_TAG, frames.SERVICE_TAG]), rng.choice([0, 7, 100, 4095]))


def some_content(rng, is_ipv4):
    data = rng.choice([b'', b'a', b'my secret', b'evil secret', b'.' * 64, bytes(range(256)), b'a' * 1400])
    ports = rng.choice([1000, 1001, 40000, 65535, 0]), rng.choice([53, 80, 40000])
    content = rng.choice([frames.udp(*ports, data), frames.tcp(*ports, rng.choice([2, 16, 24]), data), frames.echo(1) if is_ipv4 else frames.echo6(1)])
    if is_ipv4 or rng.randrange(8):
        return content
    if rng.randrange(3) == 0:
        return rng.choice(OTHER_NEXT), content[1]
    return frames.extended(rng.choice(EXTENSIONS), content, offset=rng.choice([0, 8, 1480]), more=rng.randrange(2) == 0)


def with_sum(rng, frame, at):
    """The same frame with another checksum: none, 0xffff, or a wrong one."""
    (there,) = struct.unpack_from('>H', frame, at)
    return frame[:at] + struct.pack('>H', rng.choice([0, 0xFFFF, there ^ 1, rng.randrange(65536)])) + frame[at + 2 :]


def with_tunnel(rng, packet, tags):
    """A frame with an IPv4 packet, or something else, inside a packet to the exit of a tunnel, or to another address."""
    inside = rng.choice([packet, packet, packet, b'', b'\x60' + packet[1:], b'\x4f'])
    content = rng.choice([4, 4, 4, 4, 41, 17]), lambda *_: inside
    return frames.plain(some_address(rng), content, to=some_exit(rng), tags=tags, **rng.choice([{}, {}, {}, {}, *UNUSUAL]))


def made_frame(rng):
    is_ipv4 = rng.randrange(2) == 0
    made, address, unusual = (frames.plain, some_address, UNUSUAL) if is_ipv4 else (frames.plain6, some_address6, UNUSUAL6)
    source, to, content = address(rng), address(rng), some_content(rng, is_ipv4)
    tags = b''.join(some_tag(rng) for _ in range(rng.choice([0, 0, 0, 1, 2])))
    more = rng.choice([{}, {}, {}, {}, {}, {}, rng.choice(unusual), rng.choice(unusual)])
    frame = made(source, content, to=to, tags=tags, **more)
    if content[0] in (frames.TCP, frames.UDP) and rng.randrange(4) == 0:
        header, own = len(tags) + (34 if is_ipv4 else 54), 16 if content[0] == frames.TCP else 6
        frame = with_sum(rng, frame, header + own)
    if is_ipv4 and rng.randrange(6) == 0:
        frame = with_tunnel(rng, frame[len(tags) + 14 :], tags)
    others = [frames.arp_request(some_address(rng), some_address(rng)), frames.ping6(), b'', b'\0' * 13, frame[: rng.randrange(len(frame) + 1)]]
    return frame if rng.randrange(8) else rng.choice(others)


def made_capture(rng, most=8):
    """A capture in either format; a classic one has at most `most` records."""
    return made_classic(rng, most) if rng.randrange(2) else thrown_blocks.made_capture(rng, made_frame)


def made_classic(rng, most=8):
    records = [(moment * rng.choice([0, 1, 10**5]), '', made_frame(rng), rng.choice([None, None, None, 60, 35])) for moment in range(rng.randrange(most + 1))]
    snaplen = rng.choice([0, 96, 65535, 262144, 2**32 - 1])
    return frames.written(frames.Capture(rng.choice('<>'), rng.choice([frames.MICRO, frames.NANO]), max(snaplen, 96), records))


class Part(typing.NamedTuple):
    """A part of a capture that is whole by its own lengths: the head or a record of the classic format, or a block of pcapng."""

    end: int
    is_packet: bool


def parts_of(capture):
    if thrown_blocks.is_blocks(capture):
        return [Part(unit.end, unit.kind == blocks.PACKET) for unit in thrown_blocks.units_of(capture)]
    head, *records = ends_of(capture)
    return [Part(head, False), *(Part(end, True) for end in records)]


def ends_of(capture):
    """The places at which the head and the records of a capture end, or its blocks, by its own lengths."""
    if thrown_blocks.is_blocks(capture):
        return [unit.end for unit in thrown_blocks.units_of(capture)]
    order, ends = order_of(capture), [CAPTURE_HEAD]
    while ends[-1] + RECORD_HEAD <= len(capture):
        (captured,) = struct.unpack_from(order + 'I', capture, ends[-1] + 8)
        if ends[-1] + RECORD_HEAD + captured > len(capture):
            break
        ends.append(ends[-1] + RECORD_HEAD + captured)
    return ends


def some_part(capture):
    """A record or a block with a thousand bytes, in the byte order of a capture."""
    if thrown_blocks.is_blocks(capture):
        return blocks.block(thrown_blocks.units_of(capture)[0].order, blocks.CUSTOM, bytes(1000))
    return struct.pack(order_of(capture) + 'IIII', 0, 0, 1000, 1000) + bytes(1000)


def order_of(capture):
    return '<' if capture[:1] in (b'\xd4', b'\x4d') else '>'


def seeds(rng, count):
    """The seeds: those of the examples, also with a front part of their captures, and `count` that are made."""
    examples = [path.parent for path in sorted(EXAMPLES.glob('*/policy')) if make_examples.capture_in(path.parent)]
    found = [Seed((each / 'policy').read_bytes(), make_examples.capture_in(each).read_bytes()) for each in examples]
    policies = [path.read_bytes() for path in sorted(EXAMPLES.glob('**/policy'))]
    for seed in list(found):
        ends = ends_of(seed.capture)
        found += [Seed(seed.policy, seed.capture[: ends[min(size, len(ends) - 1)]]) for size in (2, 6, 6)]
        found.append(Seed(rng.choice(policies), made_capture(rng)))
    return found + [Seed(made_policy(rng), made_capture(rng)) for _ in range(count)]


# Mutations of any bytes.


def place_in(rng, data):
    """A place, more often near one of the ends than in the middle."""
    return rng.choice([0, len(data), rng.randrange(len(data) + 1), rng.randrange(len(data) + 1), rng.randrange(min(len(data), 40) + 1)])


def piece_in(rng, data):
    begin = rng.randrange(len(data) + 1)
    return begin, min(len(data), begin + rng.choice([1, 1, 2, 4, 16, 58, len(data)]))


def noise(rng):
    known = [b'\0', b'\n', b'\r', b'\r\n', b' ', b'\t', b'#', b'\x7f', b'\xff', b'\xc3', b'\xed\xa0\x80', b'\xef\xbb\xbf']
    return rng.choice([*known, rng.randbytes(1 + rng.randrange(8))])


def flip_bit(rng, data):
    place = rng.randrange(len(data))
    return data[:place] + bytes([data[place] ^ (1 << rng.randrange(8))]) + data[place + 1 :]


def set_byte(rng, data):
    place = rng.randrange(len(data))
    return data[:place] + bytes([rng.choice([0, 1, 10, 32, 127, 128, 255, rng.randrange(256)])]) + data[place + 1 :]


def cut(rng, data):
    return data[: place_in(rng, data)]


def cut_front(rng, data):
    return data[rng.randrange(len(data) + 1) :]


def double(rng, data):
    begin, end = piece_in(rng, data)
    return data[:end] + data[begin:]


def delete(rng, data):
    begin, end = piece_in(rng, data)
    return data[:begin] + data[end:]


def insert(rng, data):
    place = place_in(rng, data)
    return data[:place] + noise(rng) + data[place:]


def move(rng, data):
    begin, end = piece_in(rng, data)
    rest = data[:begin] + data[end:]
    place = rng.randrange(len(rest) + 1)
    return rest[:place] + data[begin:end] + rest[place:]


OF_BYTES = [flip_bit, flip_bit, set_byte, cut, cut_front, double, delete, insert, move]


# Mutations of policies.

WORDS = sorted(
    {*policy_rules.KINDS, *policy_rules.CLAUSES, *'nfp chain fn set rule order priority position before > first last match allow deny default'.split()}
    | set('inside public ports vip backend rate burst entry exit tos to from vid pcp text hex tcp udp none 1 a a-b A _ - 10.0.0.0/8 0-65535 2001:db8::/32 ::'.split())
)


def with_lines(change):
    def mutated(rng, data):
        lines = data.split(b'\n')
        change(rng, lines)
        return b'\n'.join(lines)

    return mutated


def with_words(change):
    def mutated(rng, data):
        lines = data.split(b'\n')
        place = rng.randrange(len(lines))
        words = lines[place].split(b' ')
        change(rng, words)
        lines[place] = b' '.join(words)
        return b'\n'.join(lines)

    return mutated


def swap(rng, parts):
    first, second = rng.randrange(len(parts)), rng.randrange(len(parts))
    parts[first], parts[second] = parts[second], parts[first]


def repeat(rng, parts):
    parts.insert(rng.randrange(len(parts) + 1), rng.choice(parts))


def repeat_often(rng, parts):
    """Repeats a part often enough to exceed the limits of chains, functions and rules."""
    place = rng.randrange(len(parts))
    parts[place:place] = [parts[place]] * rng.choice([2, 15, 16, 17, 64, 65, 256, 257])


def remove(rng, parts):
    del parts[rng.randrange(len(parts))]


def put_word(rng, words):
    words[rng.randrange(len(words))] = rng.choice(WORDS).encode()


def add_word(rng, words):
    words.insert(rng.randrange(len(words) + 1), rng.choice(WORDS).encode())


def put_number(rng, data):
    numbers = list(re.finditer(rb'[0-9]+', data))
    if not numbers:
        return data
    chosen = rng.choice(numbers)
    return data[: chosen.start()] + rng.choice(SPELLED).encode() + data[chosen.end() :]


def put_address(rng, data):
    """Replaces an address or a prefix of either version of IP."""
    addresses = list(re.finditer(rb'(?<=[ \t])[0-9a-fA-F]*[.:][0-9a-fA-F.:]*(/[0-9]*)?', data))
    if not addresses:
        return data
    chosen = rng.choice(addresses)
    return data[: chosen.start()] + rng.choice(SPELLED_IP).encode() + data[chosen.end() :]


def rename(rng, data):
    """Replaces a name by another one of the text, or by one at the limits of what a name may be."""
    names = re.findall(rb'(?:chain|fn) ([a-z][a-z0-9_-]*)', data)
    if not names:
        return data
    other = rng.choice([*names, b'a' * 32, b'a' * 33, b'z-_9', b'9a', 'é'.encode()])
    return data.replace(rng.choice(names), other, rng.choice([1, 2, -1]))


def append_chains(rng, data):
    return data + b'\n' + b''.join(b'chain x%d\n' % number for number in range(rng.choice([14, 15, 16, 17])))


def append_functions(rng, data):
    kinds = rng.choice([list(LINES), ['monitor'], ['firewall', 'signature', 'hop']])
    told = [f'fn y{number} {rng.choice(kinds)}\n' for number in range(rng.choice([8, 30, 62, 64, 65]))]
    return data + b'\n' + ''.join(told).encode()


def append_statements(rng, data):
    names = [name.decode() for name in re.findall(rb'fn ([a-z][a-z0-9_-]*)', data)]
    told = [statement(rng, names) for _ in range(rng.choice([1, 2, 4, 30]))] if names else []
    return data + b'\n' + '\n'.join(told).encode()


def lengthen(rng, data):
    """Appends a comment up to the greatest length, or past it."""
    size = policy_rules.LONGEST + rng.choice([-1, 0, 1, 70000]) - len(data)
    return data + b'#' + rng.choice([b'.', 'é'.encode(), b'\n', b' a'])[:2] * (size // 2) + b'.' * (size % 2)


def other_ends(rng, data):
    return data.replace(b'\n', rng.choice([b'\r\n', b'\r', b'\n\n', b' # c\n', b'\t\n']))


OF_LINES = [with_lines(swap), with_lines(repeat), with_lines(repeat_often), with_lines(remove), with_words(swap), with_words(repeat), with_words(remove)]
OF_WORDS = [with_words(put_word), with_words(add_word), put_number, put_number, put_number, put_address, put_address, put_address, rename, append_statements]
OF_LIMITS = [append_chains, append_functions, other_ends, lengthen]


def mutated_policy(rng, data):
    """The text after one to four mutations; a few are made as long as a text may be, or longer."""
    for _ in range(rng.choice([1, 1, 1, 2, 4])):
        pool = rng.choice([OF_BYTES, OF_LINES, OF_LINES, OF_WORDS, OF_WORDS, OF_WORDS, OF_LIMITS[: 4 if rng.randrange(40) == 0 else 3]])
        data = rng.choice(pool)(rng, data or b'\n')
    return data


# Mutations of captures.


def put_in(data, place, size, value, order):
    return data[:place] + value.to_bytes(size, 'little' if order == '<' else 'big') + data[place + size :]


def head_field(rng, data):
    place, size = rng.choice([(0, 4), (4, 2), (6, 2), (8, 4), (12, 4), (16, 4), (20, 4)])
    value = rng.choice([*ENDS, frames.MICRO, frames.NANO, 0xA1B2CD34, blocks.SECTION, 113, 276]) % 256**size
    return put_in(data, place, size, value, rng.choice([order_of(data), '<', '>']))


def record_field(rng, data):
    ends = ends_of(data)
    begin, field = rng.choice(ends), rng.choice([0, 4, 8, 8, 8, 12])
    left = max(0, len(data) - begin - RECORD_HEAD)
    value = rng.choice([*LENGTHS, left, left + 1, max(0, left - 1), rng.randrange(200)])
    return put_in(data, begin + field, 4, value, order_of(data)) if begin + RECORD_HEAD <= len(data) else data


# Fields of a frame, by their places in a frame without tags and options, and their sizes. Of both versions: the type, and the version of the
# header after it. Of IPv4: type of service, length, fragment, time to live, protocol, checksum, addresses, ports, length of UDP or a part of TCP's
# sequence number, TCP's data offset, and checksums. Of IPv6: length, next header, hop limit, the last part of both addresses, ports, UDP's checksum,
# TCP's data offset and checksum.
OF_BOTH = [(12, 2), (14, 1)]
OF_IPV4 = [(15, 1), (16, 2), (20, 2), (22, 1), (23, 1), (24, 2), (26, 4), (30, 4), (34, 2), (36, 2), (38, 2), (40, 2), (46, 1), (50, 2)]
OF_IPV6 = [(18, 2), (18, 2), (20, 1), (20, 1), (21, 1), (36, 2), (52, 2), (54, 2), (56, 2), (60, 2), (66, 1), (70, 2)]
FRAME_FIELDS = [*OF_BOTH, *OF_BOTH, *OF_IPV4, *OF_IPV6]
FRAME_VALUES = [*ENDS, 0x0800, 0x8100, 0x88A8, 0x86DD, 0x45, 0x4F, 0x44, 0x60, 0x6F, 0x2000, 0x50, 0xF0, 6, 17, 19, 20, 21, 27, 28, 29, 43, 44, 58, 59, 65495, 65496]


def frame_field(rng, data):
    begin = rng.choice(ends_of(data)) + RECORD_HEAD
    place, size = rng.choice(FRAME_FIELDS)
    place += rng.choice([0, 0, 4, 8])
    return put_in(data, begin + place, size, rng.choice(FRAME_VALUES) % 256**size, '>') if begin + place + size <= len(data) else data


def with_records(change):
    def mutated(rng, data):
        ends = ends_of(data)
        records = [data[begin:end] for begin, end in zip(ends, ends[1:])]
        if records:
            change(rng, records)
        return data[:CAPTURE_HEAD] + b''.join(records) + data[ends[-1] :]

    return mutated


def resize_frame(rng, data):
    """Cuts the end of a frame or appends bytes to it, and corrects the length in its record."""
    ends = ends_of(data)
    if len(ends) < 2:
        return data
    chosen = rng.randrange(len(ends) - 1)
    begin, end = ends[chosen] + RECORD_HEAD, ends[chosen + 1]
    frame = rng.choice([data[begin : begin + rng.randrange(end - begin + 1)], data[begin:end] + rng.randbytes(rng.choice([1, 2, 500]))])
    return put_in(data, begin - 8, 4, len(frame), order_of(data))[:begin] + frame + data[end:]


def some_tags(rng):
    return b''.join(frames.tag(rng.choice([0x8100, 0x88A8, 0x9100]), rng.choice([0, 7, 4095])) for _ in range(rng.choice([1, 1, 2, 200])))


def push_tag(rng, data):
    ends = ends_of(data)
    begin = rng.choice(ends) + RECORD_HEAD
    tags = some_tags(rng)
    if begin + 12 > len(data):
        return data
    (captured,) = struct.unpack_from(order_of(data) + 'I', data, begin - 8)
    grown = put_in(data, begin - 8, 4, min(captured + len(tags), 2**32 - 1), order_of(data))
    return grown[: begin + 12] + tags + data[begin + 12 :]


def long_frame(rng, data):
    """Inserts a record whose frame has the greatest length, or is longer, at the end or before it."""
    size = rng.choice([65535, 262143, 262144, 262145])
    record = struct.pack(order_of(data) + 'IIII', 1, 1, size, size) + frames.plain('10.0.0.9', frames.udp(1000, 53, b'a' * 20)).ljust(size, b'a')
    place = rng.choice(ends_of(data))
    return data[:place] + record + data[place:]


def join(rng, data):
    return data + data[rng.choice([0, CAPTURE_HEAD]) :]


OF_RECORDS = [with_records(swap), with_records(repeat), with_records(remove), resize_frame, push_tag, join]
OF_FIELDS = [head_field, record_field, record_field, frame_field, frame_field, frame_field]


def retag(rng, frame):
    """A frame with tags before its type."""
    return frame[:12] + some_tags(rng) + frame[12:]


def change_field(rng, frame):
    place, size = rng.choice(FRAME_FIELDS)
    place += rng.choice([0, 0, 4, 8])
    return put_in(frame, place, size, rng.choice(FRAME_VALUES) % 256**size, '>') if place + size <= len(frame) else frame


def resized(rng, frame):
    return rng.choice([frame[: rng.randrange(len(frame) + 1)], frame + rng.randbytes(rng.choice([1, 2, 3, 500]))])


OF_UNITS = [*thrown_blocks.OF_BLOCKS, *(thrown_blocks.with_units(change) for change in (swap, repeat, remove))]
OF_NG_FRAMES = [thrown_blocks.with_frame(change) for change in (retag, change_field, resized)]


def pools_of(data):
    """The mutations that are possible for these bytes."""
    if thrown_blocks.is_blocks(data):
        has_blocks = bool(thrown_blocks.units_of(data))
        return [OF_BYTES, OF_UNITS, OF_UNITS, thrown_blocks.OF_FIELDS, thrown_blocks.OF_FIELDS, OF_NG_FRAMES] if has_blocks else [OF_BYTES]
    # Mutations of records need a head.
    return [OF_BYTES, OF_BYTES, OF_RECORDS, OF_FIELDS, OF_FIELDS] if len(data) >= CAPTURE_HEAD else [[insert, double]]


def mutated_capture(rng, data):
    """The file after one to four mutations; one of three hundred first gets a frame or a block of the greatest length, or a longer one."""
    if rng.randrange(300) == 0:
        data = (thrown_blocks.long_block if thrown_blocks.is_blocks(data) else long_frame)(rng, data)
    for _ in range(rng.choice([1, 1, 1, 2, 4])):
        data = rng.choice(rng.choice(pools_of(data)))(rng, data or b'\0')
    return data
