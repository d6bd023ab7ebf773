"""What each function of a policy did with the packets of a capture and why, as `nfp why` reports it, and where the files of a run differ from what
`nfp run` writes. Used by `explain`.

The program decides everything that is said of a packet: this reads its lines, and reads the capture for addresses, ports and times. The capture
and the files of the run are read a piece at a time.
"""

import array
import collections
import concurrent.futures
import contextlib
import ipaddress
import re
import typing

import capture_stream
import frame_fields
import policy_lines
import program_calls
from program_calls import PIPE, Call
from report_rows import PROTOCOLS

STEP = 1000  # packets between two reports of the progress
CHUNK = 1 << 20  # bytes of a file that are compared at once


class Changed(Exception):
    """A file was changed while it was read."""


class Cause(typing.NamedTuple):
    """Why a function did what it did with a packet."""

    reason: str
    lines: tuple = ()  # of the policy, those that decided


# The reasons. The first three are followed by lines, but for a default that no line states.
RULE, DEFAULT, PATTERN = 'rule', 'default', 'pattern'
NO_PORT, NOBODY, NO_TOKENS, NO_HOPS = 'no port left', 'a port that nobody has', 'no tokens', 'time to live'
NOTHING = Cause('nothing')

# Deciding lines that are named by a reason, by the kind of the function and the words with which the line begins.
NAMED = {
    ('firewall', 'fn'): Cause(DEFAULT),
    ('nat', 'fn'): Cause(NOBODY),
    ('nat', 'set ports'): Cause(NO_PORT),
    ('limiter', 'set rate'): Cause(NO_TOKENS),
    ('hop', 'fn'): Cause(NO_HOPS),
}


class Rule(typing.NamedTuple):
    """A line that may decide on packets: each rule, and the default of a firewall."""

    line: typing.Optional[int]  # None for a default that no line states
    text: str
    packets: int  # on which it decided


class Function:
    """A function, and how many packets it saw, dropped and changed."""

    def __init__(self, declared):
        self.chain, self.name, self.kind, self.line = declared.chain, declared.name, declared.kind, declared.declared.number
        self.texts = {line.number: line.text for line in declared.settings}
        self.leads = {line.number: lead_of(line.words) for line in declared.settings} | {self.line: 'fn'}
        self.seen = self.dropped = self.changed = 0
        self.hits = {}  # by the lines that can decide

    def cause(self, lines):
        """What these deciding lines are called."""
        if not lines:
            return NOTHING
        lead = self.leads[lines[0]]
        if (self.kind, lead) in NAMED:
            return NAMED[self.kind, lead]
        if lead not in ('rule', 'set default'):
            return NOTHING
        return Cause(DEFAULT if lead != 'rule' else PATTERN if self.kind == 'signature' else RULE, tuple(lines))

    def rules(self):
        """In the order of the text."""
        for line, text in self.texts.items():
            if self.leads[line] in ('rule', 'set default'):
                yield Rule(line, text, self.hits.get(line, 0))
        if self.kind == 'firewall' and self.line in self.hits:
            yield Rule(None, 'allow, by the default that no line states', self.hits[self.line])


def lead_of(words):
    return 'rule' if words[0] == 'rule' else ' '.join(words[:2])


class Drop(typing.NamedTuple):
    record: int
    function: Function
    cause: Cause
    source: str  # as it was read


class Drops:
    """The packets that were dropped, in few bytes each."""

    def __init__(self):
        self.records, self.places, self.known = array.array('Q'), array.array('L'), {}

    def add(self, record, why):
        self.records.append(record)
        self.places.append(self.known.setdefault(why, len(self.known)))

    def __iter__(self):
        whys = list(self.known)
        return (Drop(record, *whys[place]) for record, place in zip(self.records, self.places))


# The way of a packet.


class Change(typing.NamedTuple):
    field: str
    before: typing.Optional[bytes]  # None where the packet had no such field, as after an end of a tunnel
    after: typing.Optional[bytes]


class Step(typing.NamedTuple):
    """What a function did with a packet."""

    function: Function
    cause: Cause
    passes: bool
    changes: list


class Way(typing.NamedTuple):
    """The whole way of a packet."""

    record: int
    time: int
    frame: bytes  # as it was read
    fields: dict  # of it
    steps: list
    chain: typing.Optional[str]  # the chain that takes the packet, or None
    drop: typing.Optional[str]  # the function that drops it, or None
    left: typing.Optional[bytes]  # the frame as it goes out, or None


def value_of(field, word):
    """A value of a field as `nfp why` prints it."""
    if field == 'tag':
        return b'' if word == 'none' else bytes.fromhex(word)
    if word == 'none':
        return None
    if field in ('src', 'dst'):
        return ipaddress.ip_address(word).packed
    if field in ('link-dst', 'link-src'):
        return bytes.fromhex(word.replace(':', ''))
    return int(word).to_bytes(2, 'big')


def changes_between(before, after):
    before, after = frame_fields.fields_of(before), frame_fields.fields_of(after)
    return [Change(field, before.get(field), after.get(field)) for field in frame_fields.SHOWN if before.get(field) != after.get(field)]


class Traced(typing.NamedTuple):
    """A line `function` of a trace, and those below it."""

    name: str
    verdict: str  # passed, changed or dropped
    lines: list
    values: list  # the words of each line below it


def traced(lines):
    """The functions of a trace."""
    functions = []
    for line in lines:
        words = line.split()
        if line.startswith('function '):
            functions.append(Traced(words[1], words[3], [int(word) for word in words[5::2]], []))
        elif line.startswith('  '):
            functions[-1].values.append(words)
    return functions


# Packets that are looked for.


class Found(typing.NamedTuple):
    """A packet that was looked for and found."""

    record: int
    time: int
    proto: typing.Optional[str]
    source: typing.Optional[str]
    source_port: typing.Optional[int]
    destination: typing.Optional[str]
    destination_port: typing.Optional[int]
    chain: typing.Optional[str]
    drop: typing.Optional[str]  # the function that dropped it


def found_of(number, time, fields, chain, drop):
    told = {field: frame_fields.told(fields[field]) if field in fields else None for field in ('src', 'dst')}
    ports = {field: frame_fields.number(fields[field]) if field in fields else None for field in ('sport', 'dport')}
    proto = PROTOCOLS.get(fields['proto'][0], str(fields['proto'][0])) if 'proto' in fields else None
    return Found(number, time, proto, told['src'], ports['sport'], told['dst'], ports['dport'], chain, drop)


# Files of a run.


class Difference(typing.NamedTuple):
    file: str
    record: typing.Optional[int]  # None where the place has to do with no record
    byte: int  # counted from 0
    is_cut: bool  # what came is a front part of what is due, as a run leaves that was cut off
    came: int  # the number of bytes
    due: int


def first_difference(one, other):
    """The first byte that differs, which may be behind the shorter one."""
    low, high = 0, min(len(one), len(other))
    if one[:high] == other[:high]:
        return high
    while high - low > 1:
        middle = (low + high) // 2
        low, high = (middle, high) if one[low:middle] == other[low:middle] else (low, middle)
    return low


DROP = re.compile(rb'drop (\d+)')


def dropped_at(due, came, at):
    """The record of a line of a report in which there is a difference. The drop of the lesser record is the one that only one of both has."""
    begin = due.rfind(b'\n', 0, at) + 1
    told = [int(found[1]) for text in (due, came) if (found := DROP.match(text, begin))] if at < len(due) else []
    return min(told, default=None)


def compared(name, due, file):
    """Where a file differs from what is due, if it does. The record of OUT is not known yet."""
    at = record = None
    due_size = came_size = 0
    while piece := b''.join(due.readlines(CHUNK)) if name == 'REPORT' else due.read(CHUNK):
        if at is None:
            came = file.read(len(piece))
            while len(came) < len(piece) and (more := file.read(len(piece) - len(came))):
                came += more
            if came != piece:
                place = first_difference(piece, came)
                at, record = due_size + place, dropped_at(piece, came, place) if name == 'REPORT' else None
            came_size += len(came)
        due_size += len(piece)
    while piece := file.read(CHUNK):
        came_size += len(piece)
    if at is None and came_size > due_size:
        at = due_size
    return None if at is None else Difference(name, record, at, at == came_size < due_size, came_size, due_size)


class Inputs(typing.NamedTuple):
    """The files that are given to the program."""

    policy: program_calls.File
    capture: program_calls.File
    graphs: typing.Optional[program_calls.File]

    def run(self, out, report):
        return Call('run', self.policy, self.capture, out, report, *(['--graph', self.graphs] if self.graphs else []))

    def why(self, policy=None, number=None, report=PIPE):
        return Call('why', policy or self.policy, self.capture, report, *(['--record', number] if number else []))


def dropped_records(why):
    """The record and the rest of each line `drop` of a report, and then the lines behind them."""
    for line in why.pipes[0]:
        lead, _, rest = line.partition(b' ')
        if lead == b'drop':
            record, _, rest = rest.partition(b' ')
            yield int(record), rest
        elif lead != b'nfp':
            yield None, line


NONE_LEFT = float('inf'), b''


class Walk:
    """What the program reports of the packets of a capture, beside what the capture has of them."""

    def __init__(self, text, orders, inputs, capture, wanted=None, keeps_drops=True, most_found=None):
        self.inputs, self.capture = inputs, capture_stream.Stream(capture)
        self.policy = policy_lines.Policy(text)
        self.functions = {each.name: Function(each) for each in self.policy.functions}
        self.orders = {chain: [self.functions[name] for name in order] for chain, order in orders.items()}
        self.wanted = wanted
        self.records = self.dropped = 0
        self.drops = Drops() if keeps_drops else None
        self.way, self.found, self.matches, self.most_found = None, [], 0, most_found
        self.first = None  # of the packets that were found: its number, time and frame, and where it ends in the capture
        self.lots, self.known = {}, {}
        self.counts, self.fault, self.refusal = {}, None, None
        self.differences = []

    def go(self, out, report, show):
        """Compares these files of a run with what is due, and reads what the program reports. Each thousand packets it is shown their number."""
        number = self.wanted.number if self.wanted else None
        with contextlib.ExitStack() as open_now:
            pool = open_now.enter_context(concurrent.futures.ThreadPoolExecutor(2))
            run = open_now.enter_context(self.inputs.run(PIPE, PIPE))
            why = open_now.enter_context(self.inputs.why(number=number))
            due = [pool.submit(compared, *each) for each in (('REPORT', run.pipes[1], report), ('OUT', run.pipes[0], out))]
            chains = iter(())
            if self.wanted:
                policy = open_now.enter_context(program_calls.file_of(self.policy.classing()))
                chains = dropped_records(open_now.enter_context(self.inputs.why(policy)))
            lines = dropped_records(why)
            behind = self.read(lines, chains, show)
            self.count(line.decode().rstrip('\n') for line in behind)
            ended = why.ended()
            found = [each.result() for each in due]
            run.ended()
        if not self.counts:
            self.refusal = ended.note.strip()
            return
        self.differences = [self.with_owner(each) for each in found if each]
        if self.first and not self.is_other:
            self.way = self.traced(ended.note if number else None)

    @property
    def is_other(self):
        """Whether the files are not of such a run, so that nothing is explained."""
        return bool(self.differences) and not all(each.is_cut for each in self.differences)

    # What the program reports.

    def read(self, lines, chains, show):
        """Reads the lines `drop` beside the packets. Returns the lines behind them."""
        wanted, number, known = self.wanted, 0, {}
        dropped, rest = next(lines, NONE_LEFT)
        classed = next(chains, NONE_LEFT)
        for time, frame, _, _ in self.capture.items(0):
            if time is None:
                continue
            number += 1
            if number % STEP == 0:
                show(number)
            drop = None
            if number == dropped:
                drop = self.note_drop(number, rest, frame)
                dropped, rest = next(lines, NONE_LEFT)
            if wanted is not None and wanted.fits(number, time, frame, known):
                while classed[0] is not None and classed[0] < number:
                    classed = next(chains, NONE_LEFT)
                chain = classed[1].split(b' ')[0].decode() if classed[0] == number else None
                self.find(number, time, frame, chain, drop)
        self.records = number
        if dropped is not None:
            if dropped != NONE_LEFT[0]:
                raise Changed
            return
        yield rest
        yield from (line for _, line in lines)

    def note_drop(self, number, rest, frame):
        """A line `drop` of this record. Returns the name of the function."""
        if rest not in self.known:
            _, name, _, line = rest.decode().split()
            self.known[rest] = self.functions[name], self.functions[name].cause([int(line)])
        why, source = self.known[rest], frame_fields.source_of(frame)
        lot = self.lots.setdefault(why, {})
        lot[source] = lot.get(source, 0) + 1
        if self.drops is not None:
            self.drops.add(number, (*why, source))
        self.dropped += 1
        return why[0].name

    def find(self, number, time, frame, chain, drop):
        """Notes a packet that is looked for."""
        self.matches += 1
        if self.first is None:
            self.first = number, time, frame, self.capture.tell()
        if self.most_found is None or len(self.found) < self.most_found:
            self.found.append(found_of(number, time, frame_fields.fields_of(frame), chain, drop))

    def count(self, lines):
        """Reads the lines behind those of the drops."""
        function, took = None, {}
        for line in lines:
            words = line.split(' ')
            if words[0] == 'records' and [int(word) for word in words[1::2]] != [self.records, self.records - self.dropped, self.dropped]:
                raise Changed
            if words[0] == 'no':
                took[None] = int(words[3])
            elif words[0] == 'chain':
                took[words[1]] = int(words[3])
            elif words[0] == 'function':
                function = self.functions[words[2]]
                function.seen, function.changed, function.dropped = (int(word) for word in words[5::2])
            elif words[0] == '':
                function.hits[int(words[3])] = int(words[5])
            elif words[0] == 'fault':
                self.fault = line.partition(' ')[2]
        self.counts = took

    def taken(self):
        """How many packets each chain took, and by None, how many none did."""
        return self.counts

    def sources(self):
        """How many packets of each source were dropped, by the function and the cause of the drops, the most first."""
        for (function, cause), lot in sorted(self.lots.items(), key=lambda each: -sum(each[1].values())):
            yield function, cause, sorted(lot.items(), key=lambda each: (-each[1], each[0]))

    # The first packet that was found.

    def traced(self, note):
        """Its way, by the trace of its record."""
        number, time, frame, _ = self.first
        if note is None:
            with self.inputs.why(number=number, report='/dev/null') as why:
                note = why.ended().note
        _, took, *lines, end = note.splitlines()
        chain, drop = took.removeprefix('chain ') if took != 'no chain' else None, end.partition(' ')[2] or None
        functions = traced(lines)
        frames = Frames(self, chain, [each.name for each in functions])
        steps = [self.step(each, at, frames) for at, each in enumerate(functions)]
        left = None if drop else frames.behind(len(steps))
        return Way(number, time, frame, frame_fields.fields_of(frame), steps, chain, drop, left)

    def step(self, told, at, frames):
        changes = []
        for field, *values in told.values:
            if field == 'frame':
                changes += changes_between(frames.behind(at), frames.behind(at + 1))
            elif field == 'payload':
                changes += [each for each in changes_between(frames.behind(at), frames.behind(at + 1)) if each.field == 'payload']
            else:
                changes.append(Change(field, *(value_of(field, value) for value in values)))
        function = self.functions[told.name]
        return Step(function, function.cause(told.lines), told.verdict != 'dropped', changes)

    # Where files differ.

    def with_owner(self, found):
        """A difference of OUT with the record in which it is."""
        if found.file != 'OUT' or found.byte >= found.due:
            return found
        with self.inputs.run(PIPE, '/dev/null') as run, self.inputs.why() as why:
            lines, place, number = dropped_records(why), 0, 0
            dropped, _ = next(lines, NONE_LEFT)
            for time, frame, spelled, respell in capture_stream.Stream(run.pipes[0]).items(0):
                if time is not None:
                    number += 1
                    while dropped == number:
                        number, (dropped, _) = number + 1, next(lines, NONE_LEFT)
                place += len(spelled if spelled is not None else respell(spelled, frame))
                if place > found.byte:
                    return found._replace(record=None if time is None else number)
        return found


class Frames:
    """The frames of the first packet that was found, behind each function of its chain. The program makes them: a policy with the functions up to
    that one runs over the capture up to that packet."""

    def __init__(self, walk, chain, names):
        self.walk, self.chain, self.names = walk, chain, names
        _, _, frame, self.end = walk.first
        self.known = {0: frame}

    def behind(self, count):
        """Behind that many functions, all of which let it pass."""
        if count not in self.known:
            with contextlib.ExitStack() as open_now:
                policy = open_now.enter_context(program_calls.file_of(self.walk.policy.front(self.chain, self.names[:count])))
                capture = open_now.enter_context(program_calls.fed(self.walk.inputs.capture, self.end))
                run = open_now.enter_context(Call('run', policy, capture, PIPE, '/dev/null'))
                for item in capture_stream.Stream(run.pipes[0]).items(0):
                    frame = item[1]
                self.known[count] = frame
        return self.known[count]
