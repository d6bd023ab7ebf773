"""The rules of the policy language, in Python's standard library alone: what `nfp plan` must print for a text.

This is a second account of what the program is proved to do, and shares nothing with it. docs/POLICY.md, docs/PLANS.md
and docs/FAULTS.md say the same in words.
"""

import ipaddress
import re
import typing

LONGEST, CHAINS, FUNCTIONS, RULES = 1_048_576, 16, 64, 256

# The ten fields in their order, by their words.
FIELDS = ['link-dst', 'link-src', 'tag', 'tos', 'ttl', 'src', 'dst', 'sport', 'dport', 'payload']

# What each kind reads, what it writes, and what else it does.
KINDS = {
    'firewall': ('tag src dst sport dport', '', 'drop'),
    'signature': ('payload', '', 'drop'),
    'nat': ('src dst sport dport', 'src dst sport dport', 'drop state'),
    'balancer': ('src sport dst', 'dst', 'state'),
    'monitor': ('src dst sport dport', '', 'count'),
    'limiter': ('src', '', 'drop state'),
    'marker': ('src dst sport dport', 'tos', ''),
    'nexthop': ('dst', 'link-dst link-src', ''),
    'hop': ('ttl', 'ttl', 'drop'),
    'redactor': ('payload', 'payload', ''),
    'tagger': ('tag src', 'tag', ''),
    'untagger': ('tag', 'tag', ''),
    'encap': ('', '', 'whole'),
    'decap': ('', '', 'whole'),
}


class Refused(Exception):
    """A policy is refused with this line, without the `policy: ` before it."""


class Misfit(Exception):
    """The word at this place of its line, counted from 0, does not fit."""


class Function(typing.NamedTuple):
    name: str
    line: int
    kind: str
    settings: list  # line and words


class Chain(typing.NamedTuple):
    name: str
    line: int
    clauses: dict
    functions: list
    statements: list  # line, and the words of an order, priority or position


class Line(typing.NamedTuple):
    number: int
    words: list
    columns: list

    def misfit(self, place):
        """The fault of a word that does not fit. If the word is missing, its column is one past the last word."""
        column = self.columns[place] if place < len(self.words) else self.columns[-1] + len(self.words[-1].encode())
        return Refused(f'line {self.number} column {column}: syntax')

    def fault(self, what):
        return Refused(f'line {self.number}: {what}')


def lines_of(text):
    for number, line in enumerate(text.split(b'\n'), 1):
        line = line.removesuffix(b'\r').split(b'#')[0]
        found = list(re.finditer(rb'[^ \t]+', line))
        if found:
            yield Line(number, [word[0].decode() for word in found], [word.start() + 1 for word in found])


# Values: each raises ValueError if the word does not have its form.


def numeral(word, greatest, digits=20):
    if re.fullmatch(f'[0-9]{{1,{digits}}}', word) is None or int(word) > greatest:
        raise ValueError(word)
    return int(word)


def address(word):
    parts = [numeral(part, 255, 3) for part in word.split('.')]
    if len(parts) != 4:
        raise ValueError(word)
    return ipaddress.IPv4Address(bytes(parts))


def prefix(word):
    begin, slash, bits = word.partition('/')
    return ipaddress.IPv4Network((address(begin).packed, numeral(bits, 32, 2) if slash else 32), strict=False)


def groups(text):
    """The groups of an IPv6 address, separated by colons; there may be none."""
    parts = text.split(':') if text else []
    if not all(re.fullmatch('[0-9a-fA-F]{1,4}', part) for part in parts):
        raise ValueError(text)
    return [int(part, 16) for part in parts]


def address6(word):
    """Eight groups; two colons may replace one run of zeros."""
    front, gap, back = word.partition('::')
    left, right = groups(front), groups(back)
    zeros = 8 - len(left) - len(right)
    if zeros < 1 if gap else zeros != 0:
        raise ValueError(word)
    return ipaddress.IPv6Address(b''.join(group.to_bytes(2, 'big') for group in left + [0] * zeros + right))


def prefix6(word):
    begin, slash, bits = word.partition('/')
    return ipaddress.IPv6Network((address6(begin).packed, numeral(bits, 128, 3) if slash else 128), strict=False)


def either(four, six):
    """A reader of a value of IPv4 or IPv6; no word is both."""
    return lambda word: six(word) if ':' in word else four(word)


def port_range(word):
    low, dash, high = word.partition('-')
    ports = numeral(low, 65535), numeral(high, 65535) if dash else numeral(low, 65535)
    if ports[0] > ports[1]:
        raise ValueError(word)
    return ports


def protocol(word):
    return {'tcp': 6, 'udp': 17}[word] if word in ('tcp', 'udp') else numeral(word, 255)


def vlan(word):
    return None if word == 'none' else numeral(word, 4095)


any_prefix, any_address = either(prefix, prefix6), either(address, address6)

def version(word):
    if word not in ('4', '6'):
        raise ValueError(word)
    return int(word)


# The flags of TCP (RFC 793, 3.1), from the lowest bit.
FLAGS = ('fin', 'syn', 'rst', 'psh', 'ack', 'urg')


def flag(word):
    """The bit of a flag, and the bit if it has to be 1."""
    bit = 1 << FLAGS.index(word.removeprefix('!'))
    return bit, 0 if word.startswith('!') else bit


def flags_in(words):
    """The flags that words begin with, as the bits that are named and those of them that have to be 1; and how many words these are. Each bit is named once."""
    named, wanted = flag(words[0])
    for count, word in enumerate(words[1:], 1):
        try:
            bit, value = flag(word)
        except ValueError:
            return (named, wanted), count
        if named & bit:
            return (named, wanted), count
        named, wanted = named | bit, wanted | value
    return (named, wanted), len(words)


CLAUSES = {
    'src': any_prefix,
    'dst': any_prefix,
    'sport': port_range,
    'dport': port_range,
    'proto': protocol,
    'tag': vlan,
    'version': version,
    'flags': flag,
}


def read_clauses(words, place):
    """The clauses in the words from this place on, by their first words."""
    clauses = {}
    while place < len(words):
        lead = words[place]
        if lead not in CLAUSES or lead in clauses:
            raise Misfit(place)
        try:
            clauses[lead] = CLAUSES[lead](words[place + 1])
        except (IndexError, ValueError):
            raise Misfit(place + 1) from None
        place += 2
        if lead == 'flags':
            clauses[lead], count = flags_in(words[place - 1 :])
            place += count - 1
    return clauses


# The text, line by line.


def is_name(word):
    return re.fullmatch('[a-z][a-z0-9_-]{0,31}', word) is not None


FORMS = {
    'fn': [is_name, is_name],
    'order': [is_name, 'before'.__eq__, is_name],
    'priority': [is_name, '>'.__eq__, is_name],
    'position': [is_name, ('first', 'last').__contains__],
}


def fit(line, form):
    for place, fits in enumerate(form, 1):
        if place >= len(line.words) or not fits(line.words[place]):
            raise line.misfit(place)
    if len(line.words) > len(form) + 1:
        raise line.misfit(len(form) + 1)


def read_chain_line(chains, line):
    words = line.words
    if len(words) < 2 or not is_name(words[1]):
        raise line.misfit(1)
    if len(words) > 2 and words[2] != 'match':
        raise line.misfit(2)
    if len(words) == 3:
        raise line.misfit(3)
    try:
        clauses = read_clauses(words, 3)
    except Misfit as misfit:
        raise line.misfit(misfit.args[0]) from None
    if len(chains) == CHAINS:
        raise line.fault('too many chains')
    if words[1] in [chain.name for chain in chains]:
        raise line.fault('duplicate name')
    chains.append(Chain(words[1], line.number, clauses, [], []))


def read_function_line(chains, line):
    fit(line, FORMS['fn'])
    _, name, kind = line.words
    names = [function.name for chain in chains for function in chain.functions]
    if len(names) == FUNCTIONS:
        raise line.fault('too many functions')
    if name in names:
        raise line.fault('duplicate name')
    if kind not in KINDS:
        raise line.fault('unknown kind')
    chains[-1].functions.append(Function(name, line.number, kind, []))


def read_setting_line(chains, line):
    if len(line.words) < 2:
        raise line.misfit(1)
    settings = chains[-1].functions[-1].settings
    if line.words[0] == 'rule' and [words[0] for _, words in settings].count('rule') == RULES:
        raise line.fault('too many rules')
    settings.append((line.number, line.words))


def read_statement_line(chains, line):
    fit(line, FORMS[line.words[0]])
    named = line.words[1:2] if line.words[0] == 'position' else line.words[1::2]
    if not set(named) <= {function.name for function in chains[-1].functions}:
        raise line.fault('unknown name')
    chains[-1].statements.append((line.number, line.words))


def read_line(chains, line):
    lead = line.words[0]
    if lead == 'chain':
        read_chain_line(chains, line)
    elif lead == 'fn' and chains:
        read_function_line(chains, line)
    elif lead in ('set', 'rule') and chains and chains[-1].functions:
        read_setting_line(chains, line)
    elif lead in ('order', 'priority', 'position') and chains:
        read_statement_line(chains, line)
    else:
        raise line.misfit(0)


def read_text(text):
    """The chains of a text. Raises its first fault."""
    if len(text) > LONGEST:
        raise Refused('too long')
    try:
        text.decode()
    except UnicodeDecodeError as fault:
        raise Refused(f'not utf-8 at {fault.start}') from None
    lines = list(lines_of(text))
    if not lines or lines[0].words != ['nfp', '1']:
        raise Refused('bad version line')
    chains = []
    for line in lines[1:]:
        read_line(chains, line)
    return chains


# The settings of the kinds.


def verdict(word):
    if word not in ('allow', 'deny'):
        raise ValueError(word)
    return word == 'allow'


def public_ports(word):
    """Two ports from 1 on, with a dash between them."""
    low, high = port_range(word)
    if '-' not in word or low == 0:
        raise ValueError(word)
    return low, high


def amount(word):
    """A number of 32 bits that isn't 0."""
    number = numeral(word, 4294967295)
    if number == 0:
        raise ValueError(word)
    return number


def link_address(word):
    """Six pairs of hexadecimal digits."""
    if re.fullmatch('[0-9a-fA-F]{2}(:[0-9a-fA-F]{2}){5}', word) is None:
        raise ValueError(word)
    return bytes.fromhex(word.replace(':', ''))


def hops(word):
    """A time to live that isn't 0."""
    number = numeral(word, 255)
    if number == 0:
        raise ValueError(word)
    return number


def pattern(data):
    if not 1 <= len(data) <= 256:
        raise ValueError(data)
    return data


def text_pattern(word):
    return pattern(word.encode())


def hex_pattern(word):
    if re.fullmatch('([0-9a-fA-F]{2})+', word) is None:
        raise ValueError(word)
    return pattern(bytes.fromhex(word))


# Readers of the words after the first ones of a line. Each raises ValueError or Misfit if they don't have its form.


def one(read):
    """A reader of exactly one word."""

    def value(words):
        if len(words) != 1:
            raise ValueError(words)
        return read(words[0])

    return value


def with_clauses(*leads):
    """A reader of any number of clauses that begin with these words."""

    def value(words):
        clauses = read_clauses(words, 0)
        if not set(clauses) <= set(leads):
            raise ValueError(words)
        return clauses

    return value


def mark(words):
    if not words:
        raise ValueError(words)
    return numeral(words[0], 255), with_clauses('src', 'dst', 'sport', 'dport', 'proto', 'version', 'flags')(words[1:])


def next_hop(words):
    if len(words) != 5 or words[1] != 'to' or words[3] != 'from':
        raise ValueError(words)
    return any_prefix(words[0]), link_address(words[2]), link_address(words[4])


def pushed_tag(words):
    if len(words) < 3 or words[1] != 'pcp':
        raise ValueError(words)
    return numeral(words[0], 4095), numeral(words[2], 7), with_clauses('src')(words[3:])


# The lines of each kind, by the words with which they begin, with the readers of the words after these.
FIREWALL_CLAUSES = with_clauses(*CLAUSES)
PATTERNS = {('rule', 'text'): one(text_pattern), ('rule', 'hex'): one(hex_pattern)}
LINES = {
    'firewall': {('set', 'default'): one(verdict), ('rule', 'allow'): FIREWALL_CLAUSES, ('rule', 'deny'): FIREWALL_CLAUSES},
    'signature': PATTERNS,
    'nat': {('set', 'inside'): one(prefix), ('set', 'public'): one(address), ('set', 'ports'): one(public_ports)},
    'balancer': {('set', 'vip'): one(any_address), ('rule', 'backend'): one(any_address)},
    'monitor': {},
    'limiter': {('set', 'rate'): one(amount), ('set', 'burst'): one(amount)},
    'marker': {('rule', 'tos'): mark},
    'nexthop': {('rule',): next_hop},
    'hop': {},
    'redactor': PATTERNS,
    'tagger': {('rule', 'vid'): pushed_tag},
    'untagger': {},
    'encap': {('set', 'entry'): one(address), ('set', 'exit'): one(address), ('set', 'ttl'): one(hops)},
    'decap': {('set', 'exit'): one(address)},
}

# The kinds whose declaration needs each of its lines at least once.
COMPLETE = {'nat', 'balancer', 'limiter', 'encap', 'decap'}


def backends_apart(said):
    """The lines of backends whose IP version is not that of the virtual address, which is the first `set vip` that can be read."""
    virtual = next((setting.value for setting in said if setting.lead == ('set', 'vip')), None)
    for number, lead, value in said:
        if lead == ('rule', 'backend') and virtual is not None and value.version != virtual.version:
            yield number


class Setting(typing.NamedTuple):
    """What a line of a function says."""

    number: int  # the number of the line
    lead: tuple  # the words with which it begins
    value: typing.Any


def read_settings(function):
    """What the lines of a function say. Raises the fault of the first line that it refuses."""
    forms = LINES[function.kind]
    said, refused, keys = [], [], set()
    for number, words in function.settings:
        lead = tuple(words[:2]) if tuple(words[:2]) in forms else tuple(words[:1])
        try:
            said.append(Setting(number, lead, forms[lead](words[len(lead) :])))
        except (KeyError, ValueError, Misfit):
            refused.append(number)
        if words[0] == 'set':
            refused += [number] if words[1] in keys else []
            keys.add(words[1])
    if function.kind == 'balancer':
        refused += backends_apart(said)
    if function.kind in COMPLETE and {setting.lead for setting in said} != set(forms):
        refused.append(function.line)
    if refused:
        raise Refused(f'line {min(refused)}: bad setting')
    return said


# The order of a chain.


def actions(kind):
    reads, writes, others = (words.split() for words in KINDS[kind])
    return [f'read {field}' for field in FIELDS if field in reads] + [f'write {field}' for field in FIELDS if field in writes] + others


def forbidden(first, second):
    """The first two actions for which the second kind may not run beside the first, which precedes it; None if it may."""
    for a in actions(first):
        for b in actions(second):
            if 'whole' in (a, b) or (a, b) == ('drop', 'state') or a.startswith('write ') and b == a.replace('write', 'read'):
                return a, b
    return None


def edges_of(chain):
    names = [function.name for function in chain.functions]
    for _, (lead, name, *rest) in chain.statements:
        if lead == 'order':
            yield name, rest[1]
        elif lead == 'priority':
            yield rest[1], name
        else:
            yield from ((name, other) if rest == ['first'] else (other, name) for other in names if other != name)


def order_of(chain):
    """The names in the order of the chain. Raises its cycle, or its first forbidden priority."""
    edges = set(edges_of(chain))
    waiting, order = [function.name for function in chain.functions], []
    while waiting:
        ready = [name for name in waiting if not any((other, name) in edges for other in waiting)]
        if not ready:
            raise Refused('cycle ' + ' '.join(cycle_of(edges, waiting)))
        waiting.remove(ready[0])
        order.append(ready[0])
    kinds = {function.name: function.kind for function in chain.functions}
    for number, words in chain.statements:
        if words[0] == 'priority':
            _, high, _, low = words
            pair = forbidden(kinds[low], kinds[high])
            if pair:
                raise Refused(f'line {number}: priority {high} over {low} forbidden: {pair[0]} before {pair[1]}')
    return order


def cycle_of(edges, waiting):
    """From the first waiting function back to its first waiting predecessor, and so on, until a function occurs again."""
    trail = [waiting[0]]
    while True:
        before = next(name for name in waiting if (name, trail[-1]) in edges)
        if before in trail:
            cycle = trail[trail.index(before) :][::-1]
            start = cycle.index(min(cycle, key=waiting.index))
            return cycle[start:] + cycle[:start]
        trail.append(before)


def check(text):
    """The chains of a text, each with its order. Raises its first fault."""
    chains = read_text(text)
    for chain in chains:
        for function in chain.functions:
            read_settings(function)
    return [(chain, order_of(chain)) for chain in chains]


# The plan of a chain: stages of branches, each a list of places in the chain, and the parts of each stage.


def is_whole(kind):
    """Whether functions of this kind rewrite whole packets, so that no function runs beside them."""
    return 'whole' in actions(kind)


def pieces_of(kinds):
    """The places of a chain of these kinds, cut before and after each one that rewrites whole packets."""
    pieces = []
    for place, kind in enumerate(kinds):
        if not pieces or is_whole(kind) or is_whole(kinds[place - 1]):
            pieces.append([])
        pieces[-1].append(place)
    return pieces


def stages_of(kinds):
    """The stages of a chain of these kinds, piece by piece."""
    return [stage for piece in pieces_of(kinds) for stage in stages_in(kinds, piece)]


def stages_in(kinds, places):
    """The stages of a piece. The functions are taken one after another, each into the last stage if that is allowed."""
    stages = []
    for place in places:
        stage = stages[-1] if stages else []
        behind = [branch for branch in stage if any(forbidden(kinds[other], kinds[place]) for other in branch)]
        if not stages or len(behind) > 1:
            stages.append([[place]])
        elif behind:
            behind[0].append(place)
        else:
            stage.append([place])
    return stages


def part_of(field, stage):
    """How this field goes to the branches of a stage, each a list of kinds; None if no branch touches it."""
    reading, writing = ([any(field in KINDS[kind][way].split() for kind in branch) for branch in stage] for way in (0, 1))
    if not any(reading + writing):
        return None
    if not any(writing):
        return 'shared'
    touching = [reads or writes for reads, writes in zip(reading, writing)]
    if touching.count(True) == 1:
        return f'moved {touching.index(True) + 1}'
    # Branches that only read share the original. If there are none, the first branch that writes takes it and needs no copy.
    return f'copied {writing.count(True) - (touching == writing)}'


def kinds_in(chain):
    return {function.name: function.kind for function in chain.functions}


def compiled(chain, order):
    """The stages of a chain with this order, whose branches are lists of names."""
    stages = stages_of([kinds_in(chain)[name] for name in order])
    return [[[order[place] for place in branch] for branch in stage] for stage in stages]


def plan_lines(chain, order, stages=None):
    """The plan of a chain. Its stages are the compiled ones if none are given."""
    kinds = kinds_in(chain)
    yield f'chain {chain.name}'
    yield ' '.join(['order', *order])
    for number, stage in enumerate(compiled(chain, order) if stages is None else stages, 1):
        yield f'stage {number}'
        yield from (' '.join([f'branch {at}', *names]) for at, names in enumerate(stage, 1))
        parts = [(field, part_of(field, [[kinds[name] for name in names] for names in stage])) for field in FIELDS]
        yield from (f'part {field} {part}' for field, part in parts if part)


def plan(text):
    """What `nfp plan` prints for a text, and its status."""
    try:
        checked = check(text)
    except Refused as refused:
        return f'policy: {refused}\n', 2
    return ''.join(f'{line}\n' for chain, order in checked for line in plan_lines(chain, order)), 0


def order_lines(planned):
    """The lines of a plan that name the chains and their orders."""
    return ''.join(line for line in planned.splitlines(keepends=True) if re.match(r'chain |order( |$)', line))
