"""What a policy says of the picture of its plan: which packets enter a chain, how a stage passes the fields on, and why its functions come one
after another or side by side. tools/plan-to-dot and plan_picture.py write it into their pictures.
"""

import itertools
import textwrap
import typing

import policy_rules

WIDEST = 62  # characters of a line in a stage's box
INDENT = '\N{NO-BREAK SPACE}' * 2


class Told(typing.NamedTuple):
    """What is said of a chain."""

    takes: str  # which packets enter
    kinds: dict  # of its functions, by their names
    branches: list  # for each stage the names in its branches
    stages: list  # for each the lines that say why


def listed(names):
    *most, last = names
    return f'{", ".join(most)} and {last}' if most else last


def verb(names, one, many):
    return one if len(names) == 1 else many


def clause_text(lead, value):
    """A clause as an operator writes it."""
    if lead in ('src', 'dst'):
        value = value if value.prefixlen < value.max_prefixlen else value.network_address
    elif lead in ('sport', 'dport'):
        low, high = value
        value = low if low == high else f'{low}-{high}'
    elif lead == 'flags':
        named, wanted = value
        bits = [(name, 1 << place) for place, name in enumerate(policy_rules.FLAGS)]
        value = ' '.join(name if wanted & bit else f'!{name}' for name, bit in bits if named & bit)
    elif lead == 'proto':
        value = {6: 'tcp', 17: 'udp'}.get(value, value)
    return f'{lead} {"none" if value is None else value}'


# Which packets enter.


def takes_all(chains):
    """The first chain without clauses, after which no packet comes."""
    return next((chain.name for chain in chains if not chain.clauses), None)


def takes_text(chains, at):
    before, chain = takes_all(chains[:at]), chains[at]
    if before:
        return f'no packet enters: {before} takes all of them'
    if not chain.clauses:
        return 'all the rest enter' if at else 'all packets enter'
    clauses = ' '.join(clause_text(*clause) for clause in chain.clauses.items())
    return f'of the rest enter those with {clauses}' if at else f'packets enter with {clauses}'


def left_text(chains):
    """What becomes of packets that no chain takes, or nothing where there are none."""
    return None if not chains or takes_all(chains) else 'packets that no chain takes go out as they came'


# How fields are handed on.


def part_text(fields, mode):
    match mode:
        case ['moved', branch]:
            return f'{fields}: moved to branch {branch}, without a copy'
        case ['copied', count]:
            return f'{fields}: copied, {count} to a packet'
        case ['shared']:
            return f'{fields}: shared, without a copy'
        case _:
            return f'{fields}: {" ".join(mode)}'


def part_lines(parts):
    """How the fields go to the branches, those together that go alike. A part is a field and the words after it."""
    alike = {}
    for field, mode in parts:
        alike.setdefault(tuple(mode), []).append(field)
    return wrapped(part_text(' '.join(fields), list(mode)) for mode, fields in alike.items())


def wrapped(lines):
    """Lines that aren't too wide, of which those that go on are indented."""
    for line in lines:
        yield from textwrap.wrap(line, WIDEST, subsequent_indent=INDENT, break_long_words=False, break_on_hyphens=False) or ['']


# Why functions are where they are.


def reads(kind):
    return policy_rules.KINDS[kind][0].split()


def writes(kind):
    return policy_rules.KINDS[kind][1].split()


def has(kind, what):
    return what in policy_rules.KINDS[kind][2].split()


def waiting_cause(first, second):
    """Which fields the first kind writes and the second reads, whether the first drops what the second would remember at once, and which of them rewrites
    packets whole, the second or else the first."""
    fields = [field for field in policy_rules.FIELDS if field in writes(first) and field in reads(second)]
    rewriting = 'second' if has(second, 'whole') else 'first' if has(first, 'whole') else ''
    return ' '.join(fields), has(first, 'drop') and has(second, 'state'), rewriting


def waiting_lines(name, others, kinds):
    """Why a function comes after others."""
    alike = {}
    for other in others:
        cause = waiting_cause(kinds[other], kinds[name])
        if any(cause):
            alike.setdefault(cause, []).append(other)
    for (fields, counts, rewriting), names in alike.items():
        why = {'second': ['rewrites packets whole'], 'first': [f'sees packets as {listed(names)} {verb(names, "leaves", "leave")} them']}.get(rewriting, [])
        why += [f'reads {fields}, which {listed(names)} {verb(names, "writes", "write")}'] if fields else []
        why += [f'keeps a state, and {listed(names)} may drop'] if counts else []
        yield f'{name} behind {listed(names)}: it {", and ".join(why)}'


def behind_lines(stage, before, order, kinds):
    """The functions that wait for others of their branch, or for several of the stage before."""
    opener = stage[0][0]
    if before:
        yield from waiting_lines(opener, [name for name in order if any(name in branch for branch in before)], kinds)
    for name in order:
        for branch in stage:
            if name in branch[1:]:
                yield from waiting_lines(name, branch[: branch.index(name)], kinds)


def behind_by_hand(stage, number, before, order, kinds):
    """The same of a stage that is written by hand: each of its functions may wait for some of the stage before, or none does."""
    there = [name for name in order if any(name in branch for branch in before)]
    here = [name for name in order if any(name in branch for branch in stage)]
    lines = [line for name in here for line in waiting_lines(name, there, kinds)]
    yield from lines or ([f'behind stage {number}: so it is written, and none of its functions waits for one there'] if before else [])
    for name in here:
        (branch,) = [branch for branch in stage if name in branch]
        others = branch[: branch.index(name)]
        alone = [f'{name} behind {listed(others)}: so it is written, and it waits for none of them'] if others else []
        yield from list(waiting_lines(name, others, kinds)) or alone


def touching(stage, field, way, kinds):
    """Which functions of each branch read or write a field."""
    return [[name for name in branch if field in way(kinds[name])] for branch in stage]


def meetings(stage, order, kinds):
    """The fields that one branch writes and another touches: for each who reads it as it came, and who writes it."""
    for field in policy_rules.FIELDS:
        writing, reading = touching(stage, field, writes, kinds), touching(stage, field, reads, kinds)
        elsewhere = [any(names for other, names in enumerate(writing) if other != at) for at in range(len(stage))]
        readers = {name for at, names in enumerate(reading) if elsewhere[at] for name in names if name not in writing[at]}
        writers = {name for names in writing for name in names}
        if readers or sum(map(bool, writing)) > 1:
            yield field, tuple(name for name in order if name in readers), tuple(name for name in order if name in writers), sum(map(bool, writing)) > 1


def meeting_lines(fields, readers, writers, several):
    """Why functions are side by side that read and write the same fields."""
    names, came = ' '.join(fields), verb(fields, 'it came', 'they came')
    if readers:
        first = f'{listed(readers)} {verb(readers, "comes", "come")} first, and {verb(readers, "reads", "read")} {names} as {came}'
        yield f'{listed(readers)} beside {listed(writers)}: {first}'
    if several:
        yield f'{listed(writers)} side by side: each writes {names}, and the last of them has the last word'


def counting_lines(stage, order, kinds):
    """Who counts what one before it, in another branch, lets pass, and who remembers what one after it, in another branch, drops."""
    branch_of = {name: at for at, branch in enumerate(stage) for name in branch}
    for name in order:
        if name in branch_of and (has(kinds[name], 'state') or has(kinds[name], 'count')):
            drops = [other for other in order if branch_of.get(other, branch_of[name]) != branch_of[name] and has(kinds[other], 'drop')]
            before, later = ([other for other in drops if (order.index(other) < order.index(name)) == is_before] for is_before in (True, False))
            if before:
                passed = verb(before, 'it lets pass', 'they let pass')
                yield f'{name} beside {listed(before)}: {listed(before)} {verb(before, "comes", "come")} first, and {name} counts what {passed}'
            if later:
                yield f'{name} beside {listed(later)}: {name} comes first, and counts what {listed(later)} {verb(later, "drops", "drop")} too'


def beside_lines(stage, order, kinds):
    if len(stage) < 2:
        return
    met = list(meetings(stage, order, kinds))
    lines = []
    for who, group in itertools.groupby(sorted(met, key=lambda it: it[1:]), key=lambda it: it[1:]):
        lines += meeting_lines([field for field, *_ in group], *who)
    lines += counting_lines(stage, order, kinds)
    yield from lines
    if not any(writes(kinds[name]) for branch in stage for name in branch):
        yield 'side by side: none of them writes'
    elif not met:
        yield 'side by side: no branch has to do with what another one writes'


def why_lines(stages, order, kinds, by_hand):
    """For each stage the lines that say why its functions are where they are."""
    for at, stage in enumerate(stages):
        before = stages[at - 1] if at else []
        behind = behind_by_hand(stage, at, before, order, kinds) if by_hand else behind_lines(stage, before, order, kinds)
        yield list(wrapped([*behind, *beside_lines(stage, order, kinds)]))


def told(policy, graphs=None):
    """What is said of each chain of a policy, by its name, and of the packets that no chain takes, where some chains may have these graphs that are
    written by hand. Raises Refused."""
    checked = policy_rules.check(policy)
    chains = [chain for chain, _ in checked]
    said = {}
    for at, (chain, order) in enumerate(checked):
        kinds, compiled = policy_rules.kinds_in(chain), policy_rules.compiled(chain, order)
        stages = (graphs or {}).get(chain.name, compiled)
        by_hand = stages != compiled
        takes = takes_text(chains, at) + ('; its graph is written by hand' if by_hand else '')
        said[chain.name] = Told(takes, kinds, stages, list(why_lines(stages, order, kinds, by_hand)))
    return said, left_text(chains)
