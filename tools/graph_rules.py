"""The rules of texts of graphs, in Python's standard library alone: the stages that a text gives the chains of a policy, or its first fault, and
what `nfp plan --graph` must print.

This is a second account of what the program is proved to do, and shares nothing with it. docs/GRAPHS.md says the same in words.
"""

import itertools

import policy_rules
from policy_rules import is_name


class Refused(Exception):
    """A text of graphs is refused with this line, without the `graph: ` before it."""


# The forms of the lines after the first, by their first words.
FORMS = {
    'chain': lambda words: len(words) == 1 and is_name(words[0]),
    'stage': lambda words: not words,
    'branch': lambda words: bool(words) and all(map(is_name, words)),
}


def form_of(line):
    """The first word of a line, or None if the line has no such form."""
    lead, *words = line.words
    return lead if lead in FORMS and FORMS[lead](words) else None


def has_branch(later):
    """Whether these lines have a branch before the next stage and the next chain."""
    return next(filter(None, map(form_of, later)), None) == 'branch'


def read_lines(lines, chains):
    """The stages of the listed chains, by the names of these. Raises the fault of the first line that has one."""
    listed, here = {}, None
    for place, line in enumerate(lines):
        form, words = form_of(line), line.words[1:]
        if form == 'chain':
            here = listed[words[0]] = chain_line(line, listed, chains)
        elif form == 'stage' and listed and has_branch(itertools.islice(lines, place + 1, None)):
            here.append([])
        elif form == 'branch' and here:
            last = list(listed)[-1]
            branch_line(line, [name for stage in here for branch in stage for name in branch], chains[last])
            here[-1].append(words)
        else:
            raise line_fault(line, 'syntax')
    return listed


def line_fault(line, what):
    return Refused(f'line {line.number}: {what}')


def chain_line(line, listed, chains):
    """The stages of a chain that begins here: none yet."""
    name = line.words[1]
    if name not in chains:
        raise line_fault(line, 'unknown name')
    if name in listed:
        raise line_fault(line, 'twice')
    if any(policy_rules.is_whole(kind) for kind in chains[name].values()):
        raise line_fault(line, 'whole chain')
    return []


def branch_line(line, stood, kinds):
    """Checks a branch: it names functions of its chain, each of them once in the text."""
    names = line.words[1:]
    if not set(names) <= set(kinds):
        raise line_fault(line, 'unknown name')
    if len({*stood, *names}) < len(stood) + len(names):
        raise line_fault(line, 'twice')


def check_stages(order, kinds, stages):
    """Raises the first fault of the stages of a listed chain."""
    places = {name: (s, b, at) for s, stage in enumerate(stages) for b, branch in enumerate(stage) for at, name in enumerate(branch)}
    for name in order:
        if name not in places:
            raise Refused(f'missing {name}')
    pairs = [(first, second, *places[first], *places[second]) for first, second in itertools.combinations(order, 2)]
    for first, second, stage, branch, at, other_stage, other_branch, to in pairs:
        if other_stage < stage or (stage, branch) == (other_stage, other_branch) and to < at:
            raise Refused(f'{first} before {second} out of order')
    for first, second, stage, branch, _, other_stage, other_branch, _ in pairs:
        actions = policy_rules.forbidden(kinds[first], kinds[second])
        if stage == other_stage and branch != other_branch and actions:
            raise Refused(f'{first} before {second} forbidden: {actions[0]} before {actions[1]}')


def read(text, checked):
    """The stages that a text gives the chains of a policy without fault, whose orders are `checked`. Raises the first fault of the text."""
    if len(text) > policy_rules.LONGEST:
        raise Refused('too long')
    try:
        text.decode()
    except UnicodeDecodeError as fault:
        raise Refused(f'not utf-8 at {fault.start}') from None
    lines = list(policy_rules.lines_of(text))
    if not lines or lines[0].words != ['nfp-graph', '1']:
        raise Refused('bad version line')
    orders = {chain.name: order for chain, order in checked}
    kinds = {chain.name: policy_rules.kinds_in(chain) for chain, _ in checked}
    graphs = read_lines(lines[1:], kinds)
    for name, stages in graphs.items():
        check_stages(orders[name], kinds[name], stages)
    return graphs


def plan(policy, text):
    """What `nfp plan --graph` prints for a policy and a text of graphs, and its status."""
    try:
        checked = policy_rules.check(policy)
        graphs = read(text, checked)
    except policy_rules.Refused as refused:
        return f'policy: {refused}\n', 2
    except Refused as refused:
        return f'graph: {refused}\n', 8
    return ''.join(f'{line}\n' for chain, order in checked for line in policy_rules.plan_lines(chain, order, graphs.get(chain.name))), 0
