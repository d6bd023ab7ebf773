"""The examples of docs/POLICY.md, docs/PLANS.md, docs/FAULTS.md and docs/GRAPHS.md: what a page says is printed, and what it says becomes of packets.

After each block of a policy, or of a command that prints one, comes what `nfp plan` prints for it, or a table. After a block of graphs, or of a command that prints
them, comes what `nfp plan --graph` prints for it and the last policy before it; a page of graphs has commands for check-looking too.

A table of packets has the head `| record | ..`, and a block of the report that they give follows it. A packet is spelled as in `UDP from 10.1.4.20:40000 to
198.51.100.5:53` or `ping from 2001:db8::7 to 2001:db8::80`, with brackets if a port follows an address of IPv6. More
follows if that matters: `, 500 bytes` for its length with the IP header, `, tos 184`, `, ttl 1` for the hop limit of IPv6 too, `,
traffic class 184` and `, payload length 0` of an IPv6 header, `, data ..` for what UDP or TCP carry, `, tags 100 and 7 pcp 5` for the
VLAN ids of its tags from the outermost on, with priorities that aren't 0, `, flags syn ack` for those of TCP, and `, cut to 20 bytes` for what was captured of the frame; `,
a later fragment`, without ports, `, with a routing header` and the like for an extension header of IPv6, and `, in MPLS` and the like
for what it is inside, `, in a tunnel from 192.0.2.1 to 192.0.2.2` for an IPv4 packet in another of these addresses. What becomes of it is spelled in
the same words, and of what comes `out of the tunnel` its ends.

A table of lines has the head `| the line | .. | reported | ..`. Each of its rows is a policy of its own: the one above the table, changed by the lines in the first cell. A `set` takes the place of that
of the policy, and every other line comes at the end, or at the end of the chain that the cell under `in the chain` names; `no ..` removes the lines that begin so, `, a second time` adds a `set`, and `, alone` removes the
lines of this sort first. What is reported is `this line` or `the fn line` of a bad setting, or the fault, in which L is the number of the last line that was put in. The lines in
the last cell have to be accepted in the same way, each alternative (`, or`) by itself.

The table of forbidden priorities has the head `| B | A .. |`. Each pair of kinds is a policy with `priority a > b`, which is forbidden if the table has the pair, and else accepted.
The table of values has the head `| value | spelling | good | not good |`: a firewall has a rule with each of them.
"""

import itertools
import pathlib
import re
import struct
import subprocess
import typing

import frames
import graph_rules
import packet_rules
import policy_rules

DOCS = pathlib.Path(__file__).resolve().parent.parent / 'docs'
POLICY, PLANS, FAULTS, GRAPHS = (DOCS / name for name in ('POLICY.md', 'PLANS.md', 'FAULTS.md', 'GRAPHS.md'))
REFERENCE = [POLICY, PLANS, FAULTS]  # the pages of the language, without that of graphs written by hand

BLOCK = r'^```(policy|sh|graph|graph-sh|plan|order|report)\n(.*?)^```$'
TABLE = r'^\| (record|the line|B|value) \|([^\n]*)\n\|[-|]+\n((?:\|[^\n]*\n)+)'
PART = re.compile(f'{BLOCK}|{TABLE}', re.MULTILINE | re.DOTALL)
CODE, STATEMENT = re.compile('`([^`]+)`'), re.compile('(?:chain|fn|set|rule|order|priority|position|#) [^`]*')
END = re.compile(r'\[([0-9a-f:]+)\]:(\d+)|([0-9.]+):(\d+)|([0-9.]+|[0-9a-f:]+)')
PACKET = re.compile(r'(UDP|TCP|ping) from (\S+) to (\S+)')
TAG = r'(\d+)(?: pcp (\d))?'
MORE = {
    'length': re.compile('([0-9,]+) bytes'),
    'cut': re.compile(r'cut to (\d+) bytes'),
    'tos': re.compile(r'tos (\d+)'),
    'ttl': re.compile(r'ttl (\d+)'),
    'traffic_class': re.compile(r'traffic class (\d+)'),
    'payload_length': re.compile(r'payload length (\d+)'),
    'tags': re.compile(f'tags? ({TAG}(?: and {TAG})*)'),
    'flags': re.compile(f'flags ((?:{"|".join(policy_rules.FLAGS)})(?: (?:{"|".join(policy_rules.FLAGS)}))*)'),
    'data': re.compile('data `(.*)`'),
    'fragment': re.compile('(a later fragment)'),
    'extension': re.compile('with a (hop-by-hop|routing|fragment|destination) header'),
    'tunnel': re.compile(r'in a tunnel (from [0-9.]+ to [0-9.]+)'),
    'inside': re.compile('in (PPPoE|MPLS|LLC|GRE|IPv4|VXLAN|a tag of type 0x9100)'),
}


# The lines that kinds require.
REQUIRED = {
    'nat': ['set inside 10.0.0.0/8', 'set public 192.0.2.1', 'set ports 40000-40999'],
    'balancer': ['set vip 192.0.2.1', 'rule backend 10.9.0.1'],
    'limiter': ['set rate 1000', 'set burst 2000'],
    'encap': ['set entry 192.0.2.1', 'set exit 192.0.2.2', 'set ttl 64'],
    'decap': ['set exit 192.0.2.2'],
}


class Planned(typing.NamedTuple):
    policy: bytes
    told: str  # what the page says is printed
    orders: bool  # of which these are the lines of the chains and their orders
    graphs: typing.Optional[bytes] = None


class Tried(typing.NamedTuple):
    """A policy with the lines of a row."""

    policy: bytes
    told: typing.Optional[str]  # what the page says is reported, or nothing if it is accepted


class Led(typing.NamedTuple):
    """Packets that are sent through a policy."""

    policy: bytes
    capture: bytes
    told: list  # what the page says becomes of each
    report: str  # and the report that it shows


def more_of(parts):
    """What is said of a packet after its ends."""
    said = {name: form.fullmatch(part)[1] for part in parts for name, form in MORE.items() if form.fullmatch(part)}
    if len(said) != len(parts):
        raise ValueError(f'not said of a packet: {parts}')
    return said


def frame_of(text):
    """A packet's frame, and how many bytes of it were captured (None: all)."""
    what, *parts = text.split(', ')
    said = more_of(parts)
    tags = b''.join(frames.tag(frames.VLAN_TAG, int(vlan), int(priority or 0)) for vlan, priority in re.findall(TAG, said.get('tags', '')))
    frame = OTHERS[what](tags) if what in OTHERS else packet_of(what, said, tags)
    frame = in_tunnel(frame, *said['tunnel'].split(' ')[1::2]) if 'tunnel' in said else frame
    return INSIDE[said['inside']](frame) if 'inside' in said else frame, int(said['cut']) if 'cut' in said else None


def arp(tags):
    request = frames.arp_request('10.1.4.20', '10.1.0.1')
    return frames.ethernet(frames.TYPE_ARP, request[14:], tags=tags, to=frames.BROADCAST)


# What has no ends.
OTHERS = {'ARP': arp}


def after(ether_type, header):
    """A frame with a packet of IPv4 after this type and this header."""
    return lambda frame: frames.ethernet(ether_type, header(len(frame) - 14) + frame[14:])


def tunnelled(content):
    """A frame of IPv4 with another in it."""
    return lambda frame: frames.plain('198.51.100.1', content(frame), to='198.51.100.2')


def in_tunnel(frame, entry, end):
    """A frame with its packet of IPv4 in another one (RFC 2003)."""
    header = packet_rules.header_of(frame, packet_rules.type_place(frame))
    return frames.plain(entry, frames.carried(frame[header.begin : header.end]), to=end, tags=frame[12 : header.begin - 2])


# What a packet may be in, where no rule sees it, and the frame that has it there.
INSIDE = {
    'PPPoE': after(frames.TYPE_PPPOE, lambda size: struct.pack('>BBHHH', 0x11, 0, 1, size + 2, 0x21)),
    'MPLS': after(0x8847, lambda _: struct.pack('>I', 100 << 12 | 1 << 8 | 64)),
    'LLC': lambda frame: after(len(frame) - 14 + 8, lambda _: bytes.fromhex('aaaa03 000000 0800'))(frame),
    'GRE': tunnelled(lambda frame: (47, lambda *_: bytes.fromhex('0000 0800') + frame[14:])),
    'IPv4': tunnelled(lambda frame: (41, lambda *_: frame[14:])),
    'VXLAN': tunnelled(lambda frame: frames.udp(50000, 4789, bytes.fromhex('08000000 00000700') + frame)),
    'a tag of type 0x9100': lambda frame: frame[:12] + frames.tag(0x9100, 20) + frame[12:],
}


# The extension headers of IPv6 by their names.
EXTENSIONS = {'hop-by-hop': frames.HOP_BY_HOP, 'routing': frames.ROUTING, 'fragment': frames.FRAGMENT, 'destination': frames.DESTINATION}


def end_of(text):
    """The address and the port of an end, or no port."""
    spelled = END.fullmatch(text)
    if spelled is None:
        raise ValueError(f'no end of a packet: {text}')
    six, six_port, four, four_port, alone = spelled.groups()
    return six or four or alone, int(six_port or four_port or 0)


def packet_of(text, said, tags):
    spelled = PACKET.fullmatch(text)
    if spelled is None:
        raise ValueError(f'no packet: {text}')
    what, (source, source_port), (destination, port) = spelled[1], end_of(spelled[2]), end_of(spelled[3])
    is_ipv6 = ':' in source
    fields = {name: int(said[name]) for name in ('tos', 'ttl', 'traffic_class', 'payload_length') if name in said}
    content = content_of(what, source_port, port, said, is_ipv6)
    if 'fragment' in said:
        rest = content[0], lambda *_: said['data'].encode('ascii')
        if is_ipv6:
            content = frames.extended(frames.FRAGMENT, rest, offset=1480)
        else:
            content, fields['offset'] = rest, 1480
    elif 'extension' in said:
        content = frames.extended(EXTENSIONS[said['extension']], content, more=said['extension'] == 'fragment')
    made = frames.plain6 if is_ipv6 else frames.plain
    return made(source, content, to=destination, tags=tags, **fields)


def content_of(what, source_port, port, said, is_ipv6):
    """What follows the IP header of a packet of this kind."""
    if what == 'ping':
        return frames.echo6(1) if is_ipv6 else frames.echo(1)
    header = (40 if is_ipv6 else 20) + (20 if what == 'TCP' else 8)
    size = int(said['length'].replace(',', '')) - header if 'length' in said else 0
    data = said.get('data', '.' * size).encode('ascii')
    flags = sum(policy_rules.flag(flag)[0] for flag in said['flags'].split()) if 'flags' in said else frames.PUSH_ACK
    return frames.tcp(source_port, port, flags, data) if what == 'TCP' else frames.udp(source_port, port, data)


def microseconds(text):
    """A moment in seconds, with a point if there is a fraction."""
    whole, _, fraction = text.partition('.')
    return int(whole) * 1_000_000 + int(fraction.ljust(6, '0'))


def cells_of(lead, head, rows):
    """The rows of a table, each its cells by the names of their columns."""
    names = [name.strip() for name in f'{lead} |{head}'.strip('| ').split('|')]
    return [dict(zip(names, (cell.strip() for cell in row.removeprefix('|').removesuffix('|').split('|')), strict=True)) for row in rows.splitlines()]


def changed(policy, said, chain=None):
    """The lines of a policy, changed as a cell says, and the number of the last line that was put in."""
    lines, spans, last = policy.splitlines(), CODE.findall(said), 0
    if said.startswith('no '):
        return [line for line in lines if not line.startswith(f'{spans[0]} ')], last
    if said.endswith(', alone'):
        lines = [line for line in lines if line.split()[:2] != spans[0].split()[:2]]
    for new in spans:
        of_key = [at for at, line in enumerate(lines) if new.startswith('set ') and line.split()[:2] == new.split()[:2]]
        if of_key and not said.endswith(', a second time'):
            last = of_key[-1]
            lines[last] = new
            continue
        begun = next((at for at, line in enumerate(lines) if line.split()[:2] == ['chain', chain]), len(lines))
        last = next((at for at, line in enumerate(lines) if at > begun and line.startswith('chain ')), len(lines))
        lines.insert(last, new)
    return lines, last + 1


def tried(policy, head, rows):
    """The policies of a table of lines."""
    for row in cells_of('the line', head, rows):
        lines, at = changed(policy, row['the line'], row.get('in the chain', '').strip('`'))
        function = max(number for number, line in enumerate(lines, 1) if line.startswith('fn '))
        if row['reported'] in ('this line', 'the `fn` line'):
            fault = f'line {function if "fn" in row["reported"] else at}: bad setting'
        else:
            fault = CODE.fullmatch(row['reported'])[1].replace('line L', f'line {at}')
        yield Tried(text_of(lines), f'policy: {fault}\n')
        for way in list(row.values())[-1].split(', or '):
            cure = ' '.join(f'`{span}`' for span in CODE.findall(way) if STATEMENT.fullmatch(span))
            if cure:
                yield Tried(text_of(changed(policy, cure, row.get('in the chain', '').strip('`'))[0]), None)


def pairs(rows):
    """A policy for each pair of kinds, with a priority."""
    forbidden = {}
    for first, second, ends in (row.removeprefix('|').removesuffix('|').split('|') for row in rows.splitlines()):
        forbidden.update({(b, a): CODE.findall(ends)[0] for b in CODE.findall(first) for a in CODE.findall(second)})
    for b, a in itertools.product(policy_rules.KINDS, repeat=2):
        lines = ['nfp 1', 'chain c', f'fn b {b}', *REQUIRED.get(b, []), f'fn a {a}', *REQUIRED.get(a, []), 'priority a > b']
        due = forbidden.pop((b, a), None)
        yield Tried(text_of(lines), due and f'policy: line {len(lines)}: priority a over b forbidden: {due}\n')
    if forbidden:
        raise ValueError(f'no kinds: {forbidden}')


def values(head, rows):
    """A policy for each value."""
    words = {'number': 'dport', 'RANGE': 'dport', 'P': 'proto', 'N of `tag`': 'tag', 'F': 'flags'}
    for row in cells_of('value', head, rows):
        for good, value in [(True, value) for value in CODE.findall(row['good'])] + [(False, value) for value in CODE.findall(row['not good'])]:
            rule = f'rule deny {words.get(row["value"], "src")} {value}'
            yield Tried(text_of(['nfp 1', 'chain c', 'fn f firewall', rule]), None if good else 'policy: line 4: bad setting\n')


def text_of(lines):
    return '\n'.join([*lines, '']).encode('ascii')


def led(policy, head, rows, report):
    """The packets of a table, the capture that they make, and what the table says of them."""
    cells = cells_of('record', head, rows)
    if [row['record'] for row in cells] != [str(at) for at in range(1, len(cells) + 1)]:
        raise ValueError(f'records that do not count from 1: {rows}')
    records = [(microseconds(row.get('second', str(at))), '', *frame_of(row['packet'])) for at, row in enumerate(cells)]
    capture = frames.written(frames.Capture('<', frames.MICRO, 65535, records))
    return Led(policy, capture, [row['what happens'].replace('*', '') for row in cells], report)


def printed(command):
    return subprocess.run(['bash', '-c', command], capture_output=True, check=True).stdout


def examples_of(page, is_of_graphs=False):
    """All examples of the page, in their order."""
    policy, graphs, answered, table = None, None, True, None
    for kind, text, lead, head, rows in PART.findall(page):
        if kind == 'sh' and is_of_graphs or lead == 'the line' and ' reported |' not in head:
            continue
        if lead in ('B', 'value'):
            yield from pairs(rows) if lead == 'B' else values(head, rows)
            continue
        if kind in ('policy', 'sh'):
            if not answered or table:
                raise ValueError(f'an example without what is printed: {policy}')
            policy, graphs, answered = printed(text) if kind == 'sh' else text.encode('ascii'), None, False
        elif kind in ('graph', 'graph-sh'):
            if policy is None or graphs is not None and not answered:
                raise ValueError(f'graphs without a policy, or without what is printed: {text}')
            graphs, answered = printed(text) if kind == 'graph-sh' else text.encode('ascii'), False
        elif kind in ('plan', 'order'):
            if answered:
                raise ValueError(f'what is printed without an example: {text}')
            answered = True
            yield Planned(policy, text, kind == 'order', graphs)
        elif kind == 'report':
            yield led(policy, *table, text)
            table = None
        elif lead == 'the line':
            answered = True
            yield Tried(policy, None)
            yield from tried(policy.decode('ascii'), head, rows)
        else:
            answered, table = True, (head, rows)
    if not answered or table:
        raise ValueError(f'an example without what is printed: {policy}')


def reference():
    """The text of the pages of the language, one after another."""
    return '\n'.join(page.read_text('ascii') for page in REFERENCE)


def examples_of_pages(pages=(*REFERENCE, GRAPHS)):
    """All examples of these pages, each with its page."""
    for page in pages:
        for example in examples_of(page.read_text('ascii'), page == GRAPHS):
            yield page, example


def untrue(example):
    """What the rules say in place of what the page says, or nothing if both say the same."""
    if isinstance(example, Tried):
        due, status = policy_rules.plan(example.policy)
        return '' if (status == 0 if example.told is None else due == example.told) else due or 'no chain'
    if isinstance(example, Planned):
        due = (policy_rules.plan(example.policy) if example.graphs is None else graph_rules.plan(example.policy, example.graphs))[0]
        due = policy_rules.order_lines(due) if example.orders else due
        return '' if due == example.told else due
    answer = packet_rules.answer(example.policy, example.capture)
    told = [fate_text(frame, fate) for frame, fate in zip(answer.frames, answer.fates, strict=True)]
    faults = [f'record {at}: {due}' for at, (due, said) in enumerate(zip(told, example.told, strict=True), 1) if due != said]
    return '\n'.join(faults + ([] if answer.report == example.report else [answer.report]))


def fate_text(frame, fate):
    """What becomes of a packet, as the page spells it."""
    if fate.drop is not None:
        return 'is dropped'
    before, after = layers_of(frame), layers_of(fate.frame)
    entered = max(len(after) - len(before), 0)
    parts = [f'in a tunnel {tunnel_text(layer)}' for layer in after[:entered]]
    if len(after) < len(before):
        # (of a packet that was cut off before its addresses nothing more is known)
        parts += ['out of the tunnel'] + ([ends_text(fate.frame)] if packet_rules.Packet(fate.frame, 0).has('src', 'dst') else [])
    was, now = before[max(len(before) - len(after), 0)], after[entered]
    return ', '.join(parts + changes_of(was, now, len(after) >= len(before))) or 'passes'


def layers_of(frame):
    """A frame, and as long as it has a packet of IPv4 in another one, the frame without the outer one."""
    layers = [frame]
    while True:
        header = packet_rules.Packet(layers[-1], 0).header
        inside = header and header.begin + header.size
        if header is None or header.version != 4 or header.proto != packet_rules.IN_IP or not b'\x45' <= layers[-1][inside : inside + 1] <= b'\x4f':
            return layers
        layers.append(layers[-1][: header.begin] + layers[-1][inside:])


def tunnel_text(frame):
    """The ends of a tunnel, and what its header says else."""
    packet = packet_rules.Packet(frame, 0)
    tos, ttl = (packet_rules.number(packet.get(field)) for field in ('tos', 'ttl'))
    return f'{ends_text(frame)} with ttl {ttl}' + (f' and tos {tos}' if tos else '')


def changes_of(was, now, tells_ends):
    """What changed from one frame to the other."""
    before, after = (packet_rules.Packet(each, 0) for each in (was, now))
    changed = {field for field in before.places if before.get(field) != after.got(field)}
    parts = [ends_text(now)] if tells_ends and changed & {'src', 'dst', 'sport', 'dport'} else []
    if changed & {'link-dst', 'link-src'}:
        parts.append('to {} from {}'.format(*(after.get(field).hex(':') for field in ('link-dst', 'link-src'))))
    parts += [f'{field} {packet_rules.number(after.get(field))}' for field in ('tos', 'ttl') if field in changed]
    parts += [tags_text(after.get('tag'))] if 'tag' in changed else []
    return parts + (['data `{}`'.format(after.get('payload').decode('ascii'))] if 'payload' in changed else [])


def tags_text(tags):
    told = []
    for _, control in struct.iter_unpack('>HH', tags):
        told.append(f'{control % 4096}' + (f' pcp {control >> 13}' if control >> 13 else ''))
    return f"tag{'s' if len(told) > 1 else ''} {' and '.join(told)}" if told else 'no tag'


def ends_text(frame):
    """Where a frame comes from and where it goes, with the ports that it has."""
    packet = packet_rules.Packet(frame, 0)
    source, destination = (end_text(packet.address(address), packet.port(port)) for address, port in (('src', 'sport'), ('dst', 'dport')))
    return f'from {source} to {destination}'


def end_text(address, port):
    """An address, and its port if there is one. One of IPv6 has brackets before a port (RFC 5952, 6)."""
    if port is None:
        return f'{address}'
    return f'[{address}]:{port}' if address.version == 6 else f'{address}:{port}'
