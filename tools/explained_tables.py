"""What `explain` knows of a run, as the rows of tables, as an object of JSON, and as the lines of a text. explained.py asks the program for it."""

import datetime
import struct
import typing

import explained
import frame_fields

# The columns of each table.
TABLES = {
    'totals': ('records', 'emitted', 'dropped', 'unclaimed', 'fault'),
    'chains': ('chain', 'packets'),
    'functions': ('chain', 'function', 'kind', 'line', 'seen', 'dropped', 'changed'),
    'rules': ('chain', 'function', 'line', 'rule', 'packets'),
    'drops': ('record', 'chain', 'function', 'reason', 'line', 'source'),
    'sources': ('chain', 'function', 'reason', 'line', 'source', 'packets'),
    'found': ('record', 'time', 'proto', 'source', 'source_port', 'destination', 'destination_port', 'chain', 'function'),
    'fields': ('record', 'field', 'before', 'after'),
    'steps': ('record', 'step', 'chain', 'function', 'passes', 'reason', 'lines', 'field', 'before', 'after'),
    'differences': ('file', 'record', 'byte', 'is_cut', 'came', 'due'),
}

# The columns that are numbers; all others are texts.
NUMBERS = {'records', 'emitted', 'dropped', 'unclaimed', 'packets', 'line', 'seen', 'changed', 'record', 'step', 'passes', 'byte', 'is_cut', 'came', 'due', 'time', 'source_port', 'destination_port'}

# What a text shows without --all.
MOST_SOURCES = 5  # of each reason
MOST_REASONS = 10
MOST_RULES = 20  # of each chain
MOST_FOUND = 20
LONGEST_DATA = 48  # bytes of a payload


def schema():
    for table, columns in TABLES.items():
        typed = (f'{name} INTEGER' if name in NUMBERS else f'{name} TEXT' for name in columns)
        yield f'CREATE TABLE {table} ({", ".join(typed)});\n'


# Values of fields.


def tags_text(tags):
    controls = [control for _, control in struct.iter_unpack('>HH', tags)]
    return ', '.join(f'{control % 4096} pcp {control >> 13}' for control in controls) or 'none'


SPELLED = {
    'link-dst': lambda value: value.hex(':'),
    'link-src': lambda value: value.hex(':'),
    'tag': tags_text,
    'proto': lambda value: explained.PROTOCOLS.get(value[0], str(value[0])),
    'src': frame_fields.told,
    'dst': frame_fields.told,
    'payload': lambda value: value.hex(),
}


def spelled(field, value):
    """A value of a field, or None where there is none."""
    if value is None:
        return None
    return SPELLED[field](value) if field in SPELLED else str(frame_fields.number(value))


def shown(text):
    """A text of a file without what a terminal would take for an order."""
    return ''.join(letter if letter.isprintable() else f'\\x{ord(letter):02x}' for letter in text)


def data_text(data, begin):
    piece = data[begin : begin + LONGEST_DATA]
    letters = ''.join(chr(byte) if 32 <= byte < 127 else '.' for byte in piece)
    return f"'{letters}'" + ('..' if begin + LONGEST_DATA < len(data) else '')


def value_text(field, value):
    return data_text(value, 0) if field == 'payload' else spelled(field, value)


def change_text(change):
    if None in change:
        return f'{change.field} {" -> ".join("absent" if value is None else value_text(change.field, value) for value in change[1:])}'
    if change.field != 'payload':
        return f'{change.field} {spelled(*change[:2])} -> {spelled(change.field, change.after)}'
    at = next(at for at, (was, now) in enumerate(zip(change.before, change.after)) if was != now)
    return f'payload from byte {at} {data_text(change.before, at)} -> {data_text(change.after, at)}'


# Rows.


def totals_row(walk):
    return walk.records, walk.records - walk.dropped, walk.dropped, walk.taken()[None], walk.fault


def field_rows(way):
    """The fields as they were read and as they go out, where they do."""
    if not way:
        return
    after = {} if way.drop else frame_fields.fields_of(way.left)
    for field in frame_fields.SHOWN:
        if field in way.fields or field in after:
            yield way.record, field, spelled(field, way.fields.get(field)), spelled(field, after.get(field))


def step_rows(way):
    for at, step in enumerate(way.steps, 1) if way else ():
        lead = way.record, at, step.function.chain, step.function.name, int(step.passes), step.cause.reason, ' '.join(map(str, step.cause.lines)) or None
        if not step.changes:
            yield *lead, None, None, None
        for field, before, after in step.changes:
            yield *lead, field, spelled(field, before), spelled(field, after)


def rows(walk, differences, is_other=False):
    """Each row with the name of its table. What there isn't is None. Of files of another run there are the differences alone."""
    if not is_other:
        yield from walk_rows(walk)
    yield from (('differences', tuple(int(value) if isinstance(value, bool) else value for value in each)) for each in differences)


def walk_rows(walk):
    yield 'totals', totals_row(walk)
    yield from (('chains', (name, packets)) for name, packets in walk.taken().items() if name is not None)
    for each in walk.functions.values():
        yield 'functions', (each.chain, each.name, each.kind, each.line, each.seen, each.dropped, each.changed)
        yield from (('rules', (each.chain, each.name, rule.line, rule.text, rule.packets)) for rule in each.rules())
    for drop in walk.drops:
        yield 'drops', (drop.record, drop.function.chain, drop.function.name, drop.cause.reason, drop.cause.lines[0] if drop.cause.lines else None, drop.source or None)
    for function, cause, lot in walk.sources():
        lead = function.chain, function.name, cause.reason, cause.lines[0] if cause.lines else None
        yield from (('sources', (*lead, source or None, packets)) for source, packets in lot)
    yield from (('found', row) for row in walk.found)
    yield from (('fields', row) for row in field_rows(walk.way))
    yield from (('steps', row) for row in step_rows(walk.way))


def as_object(walk, differences, is_other=False):
    """Of JSON: a list of objects for each table."""
    tables = {name: [] for name in TABLES}
    for name, row in rows(walk, differences, is_other):
        tables[name].append(dict(zip(TABLES[name], row, strict=True)))
    return tables


# Text.


class Columns(typing.NamedTuple):
    """Lines of a text whose words stand below each other, numbers to the right."""

    head: tuple
    rows: list

    def lines(self):
        cells = [[str(value) for value in row] for row in [self.head, *self.rows]]
        widths = [max(map(len, column)) for column in zip(*cells)]
        is_number = [all(isinstance(row[at], int) for row in self.rows) for at in range(len(self.head))]
        for row in cells:
            spaced = (cell.rjust(width) if right else cell.ljust(width) for cell, width, right in zip(row, widths, is_number))
            yield f'  {"  ".join(spaced)}'.rstrip()


def counted(count, what='packet'):
    return f'{count:,} {what}{"" if count == 1 else "s"}'


def reason_text(function, cause):
    if not cause.lines:
        return 'the default' if cause.reason == explained.DEFAULT else cause.reason
    texts = (f'line {line}: {shown(function.texts[line])}' for line in cause.lines)
    return f'{"the pattern of " if cause.reason == explained.PATTERN else ""}{", ".join(texts)}'


def counted_all(shown, all_of, what):
    """What is left out of a list that has these many lines, of which a part is shown."""
    return f'  ({shown} of {counted(all_of, what)}; --all shows all)'


def chain_lines(walk, name, packets, shows_all):
    yield ''
    yield f'chain {name} took {counted(packets)}'
    order = walk.orders[name]
    if order:
        told = [(each.name, each.kind, each.seen, each.dropped, each.changed) for each in order]
        yield from Columns(('function', 'kind', 'saw', 'dropped', 'changed'), told).lines()
    deciding = [(each.name, rule) for each in order for rule in each.rules()]
    decided = [(name, rule.line or '-', rule.packets, shown(rule.text)) for name, rule in deciding if rule.packets]
    if decided:
        yield ''
        few = decided if shows_all or len(decided) <= MOST_RULES else sorted(decided, key=lambda row: -row[2])[:MOST_RULES]
        yield from Columns(('decided by', 'line', 'packets', 'rule'), few).lines()
        if len(few) < len(decided):
            yield counted_all(f'the {len(few)} that decided most', len(decided), 'line')
    never = [(name, rule.line, shown(rule.text)) for name, rule in deciding if not rule.packets and rule.line]
    if never and shows_all:
        yield ''
        yield from Columns(('never by', 'line', 'rule'), never).lines()
    elif never:
        yield ''
        yield f'  {counted(len(never), "line")} never decided (--all shows {"it" if len(never) == 1 else "them"})'


def drop_lines(walk, shows_all):
    lots = list(walk.sources())
    for function, cause, lot in lots if shows_all else lots[:MOST_REASONS]:
        packets = sum(count for _, count in lot)
        yield f'  {packets:,} by {function.name}: {reason_text(function, cause)}'
        most = len(lot) if shows_all else MOST_SOURCES
        yield from (f'    {count:,} from {source or "a frame without a source"}' for source, count in lot[:most])
        if lot[most:]:
            rest = sum(count for _, count in lot[most:])
            yield f'    {rest:,} from {counted(len(lot) - most, "other source")}'
    if not shows_all and lots[MOST_REASONS:]:
        rest = sum(count for _, _, lot in lots[MOST_REASONS:] for _, count in lot)
        yield f'  {rest:,} for {counted(len(lots) - MOST_REASONS, "other reason")} (--all shows them)'


def text(walk, shows_all=False):
    """Of the packet whose way is asked for, or of all."""
    if walk.wanted is None:
        yield from all_lines(walk, shows_all)
        return
    if walk.wanted.is_search:
        yield from found_lines(walk)
        yield ''
    yield from way_lines(walk.way)


def all_lines(walk, shows_all):
    records, emitted, dropped, unclaimed, fault = totals_row(walk)
    yield f'{counted(records)}: {emitted:,} emitted, {dropped:,} dropped' + (f', {unclaimed:,} taken by no chain' if unclaimed else '')
    if walk.dropped:
        yield ''
        yield 'dropped, with the sources as they were read:'
        yield from drop_lines(walk, shows_all)
    for name, packets in walk.taken().items():
        if name is not None:
            yield from chain_lines(walk, name, packets, shows_all)


def time_text(time):
    """In UTC, as tools/explain takes it."""
    seconds, fraction = divmod(time, 10**9)
    moment = datetime.datetime(1970, 1, 1) + datetime.timedelta(seconds=seconds)
    return moment.isoformat() + (f'.{fraction:09}'.rstrip('0') if fraction else '')


def end_text(address, port):
    return '-' if address is None else address if port is None else f'{address} {port}'


def found_lines(walk):
    yield f'{counted(walk.matches)} found' + (f', the first {len(walk.found)} here (--all shows all)' if walk.matches > len(walk.found) else '')
    ends = [(end_text(each.source, each.source_port), end_text(each.destination, each.destination_port)) for each in walk.found]
    fates = [f'dropped by {each.drop}' if each.drop else 'goes out' if each.chain else 'goes out, taken by no chain' for each in walk.found]
    told = [(each.record, time_text(each.time), each.proto or '-', *both, fate) for each, both, fate in zip(walk.found, ends, fates)]
    yield from Columns(('record', 'time', 'proto', 'source', 'destination', 'what became of it'), told).lines()


def way_lines(way):
    yield f'record {way.record}: {counted(len(way.frame), "byte")}, {time_text(way.time)}'
    yield from (f'  {field} {value_text(field, value)}' for field, value in way.fields.items())
    if way.chain is None:
        yield 'no chain takes it: it goes out as it was read'
        return
    yield f'chain {way.chain} takes it'
    for at, step in enumerate(way.steps, 1):
        why = '' if step.cause == explained.NOTHING else f', {reason_text(step.function, step.cause)}'
        yield f'  {at}. {step.function.name}, {step.function.kind}: {"passes" if step.passes else "DROPPED"}{why}'
        yield from (f'       {change_text(change)}' for change in step.changes)
    yield f'dropped by {way.drop}' if way.drop else f'goes out with {counted(len(way.left), "byte")}'
