"""What network functions do with packets, by their rules, in Python's standard library alone: what `nfp run` must write.

It is a second account of what the program is proved to do, and shares nothing with it. A packet walks through the
functions of its chain one after another; no stage or branch plays a part, but for the copies that a plan costs.
Before and after one that rewrites it whole its checksums follow what was written, and it is seen anew.
docs/POLICY.md says the same in words. How captures are read and written is in capture_rules.py.
"""

import struct
import typing

import capture_rules
import graph_rules
import policy_rules
from frame_fields import TCP, UDP, control_bits, data_offset, even, header_of, number, places_of, told, type_place, words_of
from packet_clauses import FirstMet, address_of

VLAN_TAG, SERVICE_TAG = 0x8100, 0x88A8


# Packets.


class Packet:
    """A frame as functions see it, which they may write, and what none of them writes. What they write is held beside it."""

    def __init__(self, frame, time):
        behind_tags = type_place(frame)
        self.read, self.header, self.time = frame, header_of(frame, behind_tags), time
        self.places = places_of(len(frame), behind_tags, self.header, data_offset(frame, self.header))
        self.proto, self.length = (self.header.proto, self.header.length) if self.header else (None, None)
        # The version counts where the packet has a source.
        self.values = {'proto': self.proto, 'version': self.header.version if 'src' in self.places else None, 'flags': control_bits(frame, self.header)}  # of the fields that someone asked for, and of what is asked for like one
        self.written = set()  # the fields that got another value
        self.is_changed = False  # whether one did since someone took it back

    def has(self, *fields):
        for field in fields:
            if field not in self.places:
                return False
        return True

    def get(self, field):
        if field not in self.values:
            self.values[field] = self.read[slice(*self.places[field])]
        return self.values[field]

    def put(self, field, value):
        """Writes a field, which for all but the tags has a fixed length."""
        before = self.get(field)
        if value != before:
            assert field == 'tag' or len(value) == len(before)
            self.values[field] = value
            self.is_changed = True
            self.written.add(field)

    def got(self, field):
        """Its bytes, or None where it has no such field."""
        if field in self.values:
            return self.values[field]
        return self.get(field) if field in self.places else None

    def laid(self):
        """The frame with all that was written but tags."""
        frame = bytearray(self.read)
        for field in self.written - {'tag'}:
            frame[slice(*self.places[field])] = self.values[field]
        return frame

    def address(self, field):
        return address_of(self.get(field)) if self.has(field) else None

    def port(self, field):
        return number(self.get(field)) if self.has(field) else None


# Checksums, RFC 1624: what words changed by is what their sum changes by, so a wrong one stays wrong by the same difference.


def adjusted(old, before, after):
    """The checksum of words that were these and are those. A sum of words with end-around carry is that of the whole number modulo 65535, so it's
    enough to go word by word where that is 0, which 0 and 65535 are alike."""
    if before == after:
        return old
    total = ((old ^ 0xFFFF) + number(even(after)) - number(even(before))) % 0xFFFF
    return total ^ 0xFFFF if total else adjusted_by_words(old, before, after)


def adjusted_by_words(old, before, after):
    changed = [(was, now) for was, now in zip(words_of(before), words_of(after), strict=True) if was != now]
    total = (old ^ 0xFFFF) + sum((was ^ 0xFFFF) + now for was, now in changed)
    while total > 0xFFFF:
        total = total % 65536 + total // 65536
    return total ^ 0xFFFF


def sealed(packet):
    """The frame with what was written into it, its checksums adjusted. Of tags, which are put in last, no checksum knows."""
    frame = packet.laid()
    if packet.header is not None:
        adjust_sums(packet, frame)
    begin, end = packet.places.get('tag', (0, 0))
    return bytes(frame[:begin]) + packet.get('tag') + bytes(frame[end:]) if 'tag' in packet.written else bytes(frame)


def frame_of(packet):
    """The frame with what was written into it, or as it was read."""
    return sealed(packet) if packet.written else packet.read


def adjust_sums(packet, after):
    """Of a frame that was read as that of the packet, and is this one now."""
    before, header = packet.read, packet.header
    if header.version == 4 and header.begin + 12 <= len(before):
        fixed = slice(header.begin, header.begin + 20)
        put_sum(after, header.begin + 10, adjusted(sum_at(before, header.begin + 10), before[fixed], bytes(after[fixed])))
    if header.transport is None:
        return
    at = header.transport + (6 if packet.proto == UDP else 16)
    old = sum_at(before, at)
    if at + 2 > header.end or (packet.proto == UDP and old == 0):
        return
    # A field that nobody wrote changes no sum, and all but the last have whole words.
    covered = [slice(*packet.places[field]) for field in ('src', 'dst', 'sport', 'dport') if field in packet.written]
    if 'payload' in packet.written:
        covered.append(slice(packet.places['payload'][0], covered_end(packet, before)))
    was, now = (b''.join(frame[part] for part in covered) for frame in (before, after))
    new = adjusted(old, was, now)
    put_sum(after, at, 0xFFFF if packet.proto == UDP and new == 0 and was != now else new)


def covered_end(packet, frame):
    """Where the payload ends for a checksum of TCP or UDP: that of UDP covers what its own length says, if that counts its header (RFC 768)."""
    begin, end = packet.places['payload']
    counted = number(frame[begin - 4 : begin - 2]) if packet.proto == UDP else 0
    return min(end, begin - 8 + counted) if counted >= 8 else end


def sum_at(frame, at):
    return number(frame[at : at + 2])


def put_sum(frame, at, value):
    frame[at : at + 2] = value.to_bytes(2, 'big')


# The kinds. Each is made of what its lines say. Its step is true where the packet passes, and its lines tell its state in
# the order of first sight.


class Cause(typing.NamedTuple):
    """Why a function did what it did with a packet."""

    reason: str
    lines: tuple = ()  # of the policy, those that decided


# The reasons. The first three are followed by lines, but for a default that no line states.
RULE, DEFAULT, PATTERN = 'rule', 'default', 'pattern'
NO_PORT, NOBODY, NO_TOKENS, NO_HOPS = 'no port left', 'a port that nobody has', 'no tokens', 'time to live'
LEAVES, COMES = 'outbound and translated', 'inbound and translated'
NOTHING = Cause('nothing')


class Function:
    """What all kinds have: the cause of the last step, if it is noted."""

    cause = NOTHING

    def lines(self):
        return []

    def take(self, place):
        """The value of the rule at this place, which decides, or None where there is none."""
        self.cause = NOTHING if place is None else self.causes[place]
        return None if place is None else self.rules[place]

    def drop(self, reason):
        """A packet is dropped, for a reason that isn't a line."""
        self.cause = Cause(reason)
        return False


def all_of(said, *lead):
    return [setting.value for setting in said if setting.lead == lead]


def rules_of(said, reason=RULE):
    """The rules, and beside them the cause that each is."""
    rules = [setting for setting in said if setting.lead[0] == 'rule']
    return rules, [Cause(reason, (setting.number,)) for setting in rules]


def only(said, *lead):
    (value,) = all_of(said, *lead)
    return value


class Firewall(Function):
    def __init__(self, said):
        self.default = [*all_of(said, 'set', 'default'), True][0]
        self.by_default = Cause(DEFAULT, tuple(setting.number for setting in said if setting.lead == ('set', 'default')))
        rules, self.causes = rules_of(said)
        self.rules = [setting.lead[1] == 'allow' for setting in rules]
        self.first = FirstMet([setting.value for setting in rules])

    def step(self, packet):
        place = self.first.place(packet)
        if place is not None:
            return self.take(place)
        self.cause = self.by_default
        return self.default


class Nat(Function):
    def __init__(self, said):
        inside, public, self.ports = (only(said, 'set', key) for key in ('inside', 'public', 'ports'))
        self.inside, self.public = FirstMet([{'src': inside}]), public.packed
        self.port_of = {}  # by protocol, address and port of an endpoint inside
        self.endpoint_of = {}  # by protocol and public port

    def step(self, packet):
        self.cause = NOTHING
        if not packet.has('src', 'dst', 'sport', 'dport') or packet.header.version == 6:
            return True
        if self.inside.place(packet) is not None:
            return self.leave(packet)
        if packet.get('dst') == self.public:
            return self.come(packet)
        return True

    def leave(self, packet):
        endpoint = packet.proto, packet.get('src'), packet.get('sport')
        if endpoint not in self.port_of:
            low, high = self.ports
            if len(self.port_of) == high - low + 1:
                return self.drop(NO_PORT)
            self.port_of[endpoint] = (low + len(self.port_of)).to_bytes(2, 'big')
            self.endpoint_of[packet.proto, self.port_of[endpoint]] = endpoint
        packet.put('src', self.public)
        packet.put('sport', self.port_of[endpoint])
        self.cause = Cause(LEAVES)
        return True

    def come(self, packet):
        if (packet.proto, packet.get('dport')) not in self.endpoint_of:
            return self.drop(NOBODY)
        _, address, port = self.endpoint_of[packet.proto, packet.get('dport')]
        packet.put('dst', address)
        packet.put('dport', port)
        self.cause = Cause(COMES)
        return True

    def lines(self):
        told_all = ((proto, told(address), number(port), number(public)) for (proto, address, port), public in self.port_of.items())
        return (f'map {proto} {address} {port} port {public}' for proto, address, port, public in told_all)


class Balancer(Function):
    def __init__(self, said):
        self.virtual = only(said, 'set', 'vip').packed
        backends, self.causes = rules_of(said)
        self.rules = [setting.value.packed for setting in backends]
        self.place_of = {}  # of the backend, by protocol, source and source port

    def step(self, packet):
        self.cause = NOTHING
        if packet.has('src', 'sport', 'dst') and packet.get('dst') == self.virtual:
            flow = packet.proto, packet.get('src'), packet.get('sport')
            place = self.place_of.setdefault(flow, len(self.place_of) % len(self.rules))
            packet.put('dst', self.take(place))
        return True

    def lines(self):
        flows = self.place_of.items()
        return (f'flow {proto} {told(source)} {number(port)} backend {told(self.rules[place])}' for (proto, source, port), place in flows)


class Monitor(Function):
    def __init__(self, said):
        self.counts = {}  # packets and bytes, by protocol, source and destination, an absent port as None

    def step(self, packet):
        self.flow = None
        if packet.proto is not None and packet.length is not None and packet.has('src', 'dst'):
            self.flow = packet.proto, packet.get('src'), packet.got('sport'), packet.get('dst'), packet.got('dport')
            self.add(self.flow, 1, packet.length)
        return True

    def add(self, flow, packets, size):
        before, total = self.counts.get(flow, (0, 0))
        self.counts[flow] = before + packets, total + size

    def lines(self):
        return (f'flow {flow_words(*flow)} packets {packets} bytes {total}' for flow, (packets, total) in self.counts.items())


def flow_words(proto, source, source_port, destination, destination_port):
    ports = ['-' if port is None else number(port) for port in (source_port, destination_port)]
    return f'{proto} {told(source)} {ports[0]} {told(destination)} {ports[1]}'


class Limiter(Function):
    """A token is what a rate of one byte a second brings in a nanosecond."""

    BYTE = 1_000_000_000

    def __init__(self, said):
        self.rate, self.most = only(said, 'set', 'rate'), only(said, 'set', 'burst') * self.BYTE
        self.buckets = {}  # tokens and their moment, by source

    def step(self, packet):
        self.cause = NOTHING
        if not packet.has('src') or packet.length is None:
            return True
        return self.spend(packet.get('src'), packet.length, packet.time) or self.drop(NO_TOKENS)

    def spend(self, source, length, time):
        """Whether this source has the tokens for a packet of this length, which are taken then."""
        cost = length * self.BYTE
        tokens, moment = self.buckets.get(source, (self.most, time))
        if time > moment:
            tokens, moment = min(self.most, tokens + (time - moment) * self.rate), time
        passes = tokens >= cost
        self.buckets[source] = tokens - cost if passes else tokens, moment
        return passes

    def lines(self):
        return (f'source {told(source)} tokens {tokens} at {moment}' for source, (tokens, moment) in self.buckets.items())


class Stateless(Function):
    """A kind that remembers nothing, made of its rules."""

    def __init__(self, said):
        rules, self.causes = rules_of(said, PATTERN if isinstance(self, Signature) else RULE)
        self.rules = [setting.value for setting in rules]
        if isinstance(self, (Marker, Tagger)):
            self.first = FirstMet([value[-1] for value in self.rules])
        if isinstance(self, Nexthop):
            self.first = FirstMet([{'dst': value[0]} for value in self.rules])


class Signature(Stateless):
    def step(self, packet):
        return self.take(self.found(packet.get('payload')) if packet.has('payload') else None) is None

    def found(self, payload):
        """The place of the first pattern that is in this payload, or None."""
        for place, pattern in enumerate(self.rules):
            if pattern in payload:
                return place
        return None


class Marker(Stateless):
    def step(self, packet):
        rule = self.take(self.first.place(packet) if packet.has('tos') else None)
        if rule is not None:
            packet.put('tos', bytes([rule[0]]))
        return True


class Nexthop(Stateless):
    def step(self, packet):
        rule = self.take(self.first.place(packet) if packet.has('dst', 'link-dst', 'link-src') else None)
        if rule is not None:
            _, to, sender = rule
            packet.put('link-dst', to)
            packet.put('link-src', sender)
        return True


class Hop(Stateless):
    def step(self, packet):
        self.cause = NOTHING
        if not packet.has('ttl'):
            return True
        left = number(packet.get('ttl'))
        if left > 1:
            packet.put('ttl', bytes([left - 1]))
        return left > 1 or self.drop(NO_HOPS)


class Redactor(Stateless):
    def step(self, packet):
        self.cause = NOTHING
        if packet.has('payload'):
            payload, self.cause = self.redacted(packet.get('payload'))
            packet.put('payload', payload)
        return True

    def redacted(self, payload):
        """A payload without the patterns, and the cause of that."""
        found = ()
        for pattern, (_, lines) in zip(self.rules, self.causes):
            if pattern in payload:
                found += lines
                payload = payload.replace(pattern, b'x' * len(pattern))
        return payload, Cause(RULE, found) if found else NOTHING


class Tagger(Stateless):
    def step(self, packet):
        rule = self.take(self.first.place(packet) if packet.has('tag') else None)
        if rule is not None:
            vlan, priority, _ = rule
            packet.put('tag', struct.pack('>HH', VLAN_TAG, priority * 8192 + vlan) + packet.get('tag'))
        return True


class Untagger(Stateless):
    def step(self, packet):
        if packet.has('tag'):
            packet.put('tag', packet.get('tag')[4:])
        return True


# The ends of tunnels (RFC 2003), which rewrite a packet whole.

IN_IP = 4  # the protocol of a packet of IPv4 in one
LONGEST_INSIDE = 65535 - 20


def has_header(packet):
    """Whether a packet has a header of IPv4 that was captured whole."""
    header = packet.header
    return header is not None and header.version == 4 and header.begin + header.size <= len(packet.read)


def with_right_sum(header):
    """A header of 20 bytes, whose checksum is 0 yet, with the right one. The sum of its words isn't 0, so with end-around carry it isn't either."""
    total = (sum(words_of(header)) - 1) % 0xFFFF + 1
    return header[:10] + (0xFFFF - total).to_bytes(2, 'big') + header[12:]


class Tunnel(Function):
    """What both ends have. A step gives the frame that leaves it."""

    def step(self, packet):
        """A packet passes always; what left it is in `frame`."""
        self.cause = NOTHING
        self.frame = self.rewritten(packet, packet.read) if has_header(packet) else packet.read
        return True


class Encap(Tunnel):
    def __init__(self, said):
        self.entry, self.exit, self.ttl = (only(said, 'set', key) for key in ('entry', 'exit', 'ttl'))

    def rewritten(self, packet, frame):
        header, begin = packet.header, packet.header.begin
        if header.length is None or not header.size <= header.length <= LONGEST_INSIDE:
            return frame
        lead = struct.pack('>BBHHBBBBH', 0x45, frame[begin + 1], header.length + 20, 0, frame[begin + 6] & 0x40, 0, self.ttl, IN_IP, 0)
        return frame[:begin] + with_right_sum(lead + self.entry.packed + self.exit.packed) + frame[begin:]


class Decap(Tunnel):
    def __init__(self, said):
        self.exit = only(said, 'set', 'exit')

    def rewritten(self, packet, frame):
        header, begin = packet.header, packet.header.begin
        inside = begin + header.size
        is_fragment = number(frame[begin + 6 : begin + 8]) & 0x3FFF != 0
        is_for_it = header.proto == IN_IP and frame[begin + 16 : begin + 20] == self.exit.packed and not is_fragment
        is_inside = header.length is not None and header.size < header.length and frame[inside : inside + 1] >= b'\x40' and frame[inside : inside + 1] <= b'\x4f'
        return frame[:begin] + frame[inside:] if is_for_it and is_inside else frame


KINDS = {
    'firewall': Firewall,
    'signature': Signature,
    'nat': Nat,
    'balancer': Balancer,
    'monitor': Monitor,
    'limiter': Limiter,
    'marker': Marker,
    'nexthop': Nexthop,
    'hop': Hop,
    'redactor': Redactor,
    'tagger': Tagger,
    'untagger': Untagger,
    'encap': Encap,
    'decap': Decap,
}


# Chains of them, and what is written.


class Piece(typing.NamedTuple):
    """Functions between two cuts of a chain, or one that rewrites packets whole."""

    names: list
    is_whole: bool
    stages: list  # the names in each
    copied: list  # how many copies a packet costs in each, by their fields


class Chain:
    def __init__(self, policy, order, graph=None):
        self.name, self.clauses, self.order, self.graph = policy.name, policy.clauses, order, graph
        self.kinds = {each.name: each.kind for each in policy.functions}
        self.functions = {each.name: KINDS[each.kind](policy_rules.read_settings(each)) for each in policy.functions}
        self.copies = dict.fromkeys(policy_rules.FIELDS, 0)
        self.pieces = [self.piece(places) for places in policy_rules.pieces_of([self.kinds[name] for name in order])]

    def piece(self, places):
        kinds = [self.kinds[name] for name in self.order]
        stages = policy_rules.stages_in(kinds, places) if self.graph is None else self.listed()
        copied = [copied_in([[kinds[place] for place in branch] for branch in stage]) for stage in stages]
        names = [{self.order[place] for branch in stage for place in branch} for stage in stages]
        return Piece([self.order[place] for place in places], policy_rules.is_whole(kinds[places[0]]), names, copied)

    def listed(self):
        """The stages of a graph that is written by hand: there is one piece then."""
        return [[[self.order.index(name) for name in branch] for branch in stage] for stage in self.graph]

    def walk(self, packet, look=None):
        """The name of the function that drops the packet, or None, and the packet as the last piece that it entered left it. Who looks is told what
        each function did."""
        for place, piece in enumerate(self.pieces):
            if place and packet.written:
                packet = Packet(frame_of(packet), packet.time)
            if piece.is_whole:
                packet = self.rewritten(piece, packet, look)
                continue
            drop = self.walk_in(piece, packet, look)
            self.count_copies(piece, packet.places, drop)
            if drop:
                return drop, packet
        return None, packet

    def walk_in(self, piece, packet, look):
        """The name of the function of a piece that drops the packet, which is written, or None."""
        for name in piece.names:
            function = self.functions[name]
            passes = function.step(packet)
            if look:
                look(name, function.cause, passes, packet)
            if not passes:
                return name
        return None

    def rewritten(self, piece, packet, look):
        """A packet as the one function of this piece rewrites it."""
        (name,) = piece.names
        function = self.functions[name]
        function.step(packet)
        after = packet if function.frame is packet.read else Packet(function.frame, packet.time)
        after.is_changed = after is not packet
        if look:
            look(name, function.cause, True, after)
        return after

    def count_copies(self, piece, places, drop, packets=1):
        """A copy is made when a packet enters a stage, which it does up to the one in which it is dropped. That many packets have the fields of these places."""
        for stage, copied in zip(piece.stages, piece.copied):
            for field, count in copied.items():
                self.copies[field] += count * packets if field in places else 0
            if drop in stage:
                break

    def report(self):
        for name, kind in self.kinds.items():
            yield f'function {self.name} {name} {kind}'
            yield from (f'  {line}' for line in self.functions[name].lines())


def copied_in(stage):
    """How many copies a packet costs that enters this stage, by the fields of which there are any, if it has them."""
    parts = {field: policy_rules.part_of(field, stage) or '' for field in policy_rules.FIELDS}
    return {field: int(part.removeprefix('copied ')) for field, part in parts.items() if part.startswith('copied ')}


class Fate(typing.NamedTuple):
    chain: typing.Optional[str]  # the chain that takes the packet, or None
    drop: typing.Optional[str]  # the function that drops it, or None
    frame: bytes  # as it goes out, or would but for the drop


class Chains:
    """The chains of a policy, in the order of the text, of which some may have graphs that are written by hand."""

    def __init__(self, checked, graphs=None):
        self.all = [Chain(chain, order, (graphs or {}).get(chain.name)) for chain, order in checked]
        self.first = FirstMet([chain.clauses for chain in self.all])
        kinds = [kind for chain in self.all for kind in chain.kinds.values()]
        self.growth = 4 * kinds.count('tagger') + 20 * kinds.count('encap')  # the most bytes by which frames get longer

    def fate(self, frame, time, look=None):
        """The first chain whose clauses the frame meets, as it was read, takes it; else it passes as it is."""
        packet = Packet(frame, time)
        place = self.first.place(packet)
        if place is None:
            return Fate(None, None, frame)
        chain = self.all[place]
        drop, packet = chain.walk(packet, look)
        return Fate(chain.name, drop, frame_of(packet))


class Answer(typing.NamedTuple):
    frames: list  # as they were read
    fates: list  # of the records, in their order
    out: typing.Optional[bytes]  # None where nothing is written
    report: typing.Optional[str]
    note: str
    status: int


def nothing_but(note, status):
    return Answer([], [], None, None, note, status)


def report_of(chains, fates, total, fault):
    yield 'nfp report 1'
    yield from (f'drop {at} {fate.chain} {fate.drop}' for at, fate in enumerate(fates, 1) if fate.drop is not None)
    yield from rest_of_report(chains, total, fault)


def rest_of_report(chains, total, fault):
    """What follows the lines of the drops."""
    yield total
    yield from (f'copies {chain.name} {field} {count}' for chain in chains for field, count in chain.copies.items() if count)
    for chain in chains:
        yield from chain.report()
    yield f'fault {fault}' if fault else 'end'


def answer(policy, data, graphs=None):
    """What `nfp run` must write for a policy, a capture and a text of graphs, if there is one, whatever their bytes."""
    try:
        checked = policy_rules.check(policy)
        listed = {} if graphs is None else graph_rules.read(graphs, checked)
    except policy_rules.Refused as refused:
        return nothing_but(f'policy: {refused}', 2)
    except graph_rules.Refused as refused:
        return nothing_but(f'graph: {refused}', 8)
    capture = capture_rules.read(data)
    fault = capture.fault and f'capture: {capture.fault}'
    if capture.is_refused:
        return nothing_but(fault, 3)
    chains = Chains(checked, listed)
    fates = [chains.fate(record.frame, record.time) for record in capture.records]
    return answered(chains, capture, fates, fault)


def answered(chains, capture, fates, fault):
    """What is written if these are the fates of the packets before the fault of a capture, if it has one."""
    emitted = [fate.frame if fate.drop is None else None for fate in fates]
    dropped = emitted.count(None)
    total = f'records {len(fates)} emitted {len(fates) - dropped} dropped {dropped}'
    report = ''.join(f'{line}\n' for line in report_of(chains.all, fates, total, fault))
    # There has to be room for a tag of each tagger and a header of each encap.
    out = capture_rules.written(capture, emitted, chains.growth)
    return Answer([record.frame for record in capture.records], fates, out, report, fault or f'done {total}', 3 if fault else 0)
