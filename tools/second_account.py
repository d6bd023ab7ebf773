"""A second account of `nfp why`: what each function of a policy does with the packets of a capture, by which lines, in Python's standard library alone.
The rules are those of policy_rules.py, packet_rules.py and capture_rules.py, which share nothing with the program.

Checks hold it against the program and against what `explain` prints. Nothing that an operator runs uses it.
"""

import collections
import typing

import capture_rules
import explained
import frame_fields
import packet_rules
import policy_rules
from explained import Change, Rule

# The lines that can decide, by kind, as they begin; the line of the function itself is `fn`.
RULES = ('rule',)
DECIDING = {
    'firewall': ('rule', 'set default'),
    'signature': RULES,
    'nat': ('fn', 'set inside', 'set public', 'set ports'),
    'balancer': RULES,
    'limiter': ('set rate',),
    'marker': RULES,
    'nexthop': RULES,
    'hop': ('fn',),
    'redactor': RULES,
    'tagger': RULES,
}

# The line that decides where a cause names none, as it begins.
LINES = {
    packet_rules.DEFAULT: 'fn',
    packet_rules.NO_PORT: 'set ports',
    packet_rules.NOBODY: 'fn',
    packet_rules.NO_TOKENS: 'set rate',
    packet_rules.NO_HOPS: 'fn',
    packet_rules.LEAVES: 'set inside',
    packet_rules.COMES: 'set public',
}


class Function:
    """A function, and how many packets it saw, dropped and changed."""

    def __init__(self, chain, declared):
        self.chain, self.name, self.kind, self.line = chain, declared.name, declared.kind, declared.line
        self.texts = {line: ' '.join(words) for line, words in declared.settings}
        leads = [('fn', self.line), *((explained.lead_of(words), line) for line, words in declared.settings)]
        self.line_of = {lead: line for lead, line in leads if lead != 'rule'}
        deciding = DECIDING.get(self.kind, ())
        if self.kind == 'firewall' and 'set default' not in self.line_of:
            deciding = ('rule', 'fn')
        self.hits = {line: 0 for lead, line in sorted(leads, key=lambda each: each[1]) if lead in deciding}
        self.seen = self.dropped = self.changed = 0

    def decides(self, cause):
        """The lines that decide a step with this cause, lowest first."""
        if cause.lines or cause.reason not in LINES:
            return cause.lines
        return (self.line_of[LINES[cause.reason]],)

    def count(self, lines, is_changed, is_dropped):
        self.seen += 1
        self.changed += is_changed
        self.dropped += is_dropped
        for line in lines:
            self.hits[line] += 1

    def rules(self):
        """In the order of the text."""
        for line, text in self.texts.items():
            if text.startswith(('rule ', 'set default ')):
                yield Rule(line, text, self.hits.get(line, 0))
        if self.kind == 'firewall' and self.line in self.hits:
            yield Rule(None, 'allow, by the default that no line states', self.hits[self.line])


class Drop(typing.NamedTuple):
    record: int
    function: Function
    cause: packet_rules.Cause
    source: str  # as it was read
    decides: int  # the line

    @property
    def line(self):
        return self.cause.lines[0] if self.cause.lines else None


class Step(typing.NamedTuple):
    """What a function did with a packet."""

    function: Function
    cause: packet_rules.Cause
    passes: bool
    changes: list
    lines: tuple  # that decided
    sizes: tuple  # of the frame, before and after


def fields_of(packet):
    values = {field: packet.get(field) for field in policy_rules.FIELDS if packet.has(field)}
    values.update({} if packet.proto is None else {'proto': bytes([packet.proto])})
    return {field: values[field] for field in frame_fields.SHOWN if field in values}


class Walk:
    """Runs the packets of a capture through the chains of a policy, one after another, and notes what each function does with each."""

    def __init__(self, policy, capture, number=None):
        checked, self.capture = policy_rules.check(policy), capture_rules.read(capture)
        self.chains = packet_rules.Chains(checked)
        self.functions = {each.name: Function(chain.name, each) for chain, _ in checked for each in chain.functions}
        self.orders = {chain.name: [self.functions[name] for name in order] for chain, order in checked}
        self.number, self.way, self.found, self.matches, self.wanted = number, None, [], 0, None
        self.fates, self.drops, self.counts = [], [], dict.fromkeys([*self.orders, None], 0)
        for at, record in enumerate(self.capture.records, 1):
            self.take(at, record)
        self.records, self.dropped = len(self.fates), len(self.drops)
        self.fault = self.capture.fault and f'capture: {self.capture.fault}'

    def take(self, at, record):
        steps, last = [], packet_rules.Packet(record.frame, record.time)
        before = fields_of(last) if at == self.number else {}
        fields = dict(before)

        def look(name, cause, passes, packet):
            nonlocal last, before
            function, changes, sizes = self.functions[name], [], ()
            lines = function.decides(cause)
            function.count(lines, packet.is_changed, not passes)
            packet.is_changed = False
            if at == self.number:
                sizes, after = (len(packet_rules.frame_of(last)), len(packet_rules.frame_of(packet))), fields_of(packet)
                changes = [Change(field, before.get(field), after.get(field)) for field in frame_fields.SHOWN if before.get(field) != after.get(field)]
                last, before = packet, after
            shown = packet_rules.NOTHING if cause.reason in (packet_rules.LEAVES, packet_rules.COMES) else cause
            steps.append(Step(function, shown, passes, changes, lines, sizes))

        fate = self.chains.fate(record.frame, record.time, look)
        self.fates.append(fate)
        self.counts[fate.chain] += 1
        if fate.drop:
            self.drops.append(Drop(at, steps[-1].function, steps[-1].cause, frame_fields.source_of(record.frame), *steps[-1].lines))
        if at == self.number:
            left = None if fate.drop else fate.frame
            self.way = explained.Way(at, record.time, record.frame, fields, steps, fate.chain, fate.drop, left)
            self.found, self.matches = [explained.found_of(at, record.time, fields, fate.chain, fate.drop)], 1

    def taken(self):
        """How many packets each chain took, and by None, how many none did."""
        return self.counts

    def sources(self):
        """How many packets of each source were dropped, by the function and the cause of the drops, the most first."""
        lots = {}
        for drop in self.drops:
            lots.setdefault((drop.function, drop.cause), collections.Counter())[drop.source] += 1
        for (function, cause), lot in sorted(lots.items(), key=lambda each: -sum(each[1].values())):
            yield function, cause, sorted(lot.items(), key=lambda each: (-each[1], each[0]))

    def totals(self):
        return f'records {self.records} emitted {self.records - self.dropped} dropped {self.dropped}'

    def report(self):
        """What `nfp why` must write."""
        return ''.join(f'{line}\n' for line in self.report_lines())

    def report_lines(self):
        yield 'nfp why 1'
        yield from (f'drop {each.record} {each.function.chain} {each.function.name} line {each.decides}' for each in self.drops)
        yield self.totals()
        yield f'no chain took {self.counts[None]}'
        for chain in self.orders:
            yield f'chain {chain} took {self.counts[chain]}'
            for each in (each for each in self.functions.values() if each.chain == chain):
                yield f'function {chain} {each.name} {each.kind} saw {each.seen} changed {each.changed} dropped {each.dropped}'
                yield from (f'  line {line} hits {count}' for line, count in each.hits.items())
        yield f'fault {self.fault}' if self.fault else 'end'

    def trace(self):
        """What `nfp why --record` must print of the record with the number."""
        return ''.join(f'{line}\n' for line in trace_lines(self.way))


def trace_lines(way):
    yield f'record {way.record}'
    yield f'chain {way.chain}' if way.chain else 'no chain'
    for step in way.steps:
        is_changed = bool(step.changes) or step.sizes[0] != step.sizes[1]
        verdict = 'dropped' if not step.passes else 'changed' if is_changed else 'passed'
        yield ' '.join(['function', step.function.name, step.function.kind, verdict, *(f'line {line}' for line in step.lines)])
        if step.function.kind in ('encap', 'decap'):
            yield from [f'  frame {step.sizes[0]} {step.sizes[1]}'] if is_changed else []
        else:
            yield from map(changed_line, step.changes)
    yield f'dropped {way.drop}' if way.drop else 'out'


def changed_line(change):
    if change.field == 'payload':
        return f'  payload {sum(one != other for one, other in zip(change.before, change.after))} bytes differ'
    return f'  {change.field} {word_of(change.field, change.before)} {word_of(change.field, change.after)}'


def word_of(field, value):
    """A value as `nfp why` prints it."""
    if field == 'tag':
        return value.hex() or 'none'
    if field in ('src', 'dst'):
        return frame_fields.told(value)
    return value.hex(':') if field.startswith('link-') else str(frame_fields.number(value))
