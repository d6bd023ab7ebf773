"""Texts of graphs that tools/throw-mutations throws, for a policy that is thrown beside them.

Most texts for a policy without fault keep its order: they have the compiled stages, or others that are drawn function by function. In some of them functions
are then moved, doubled, removed or exchanged, and some are mutated like any text.
"""

import policy_rules
import thrown_cases

ANY = ['nfp-graph 1', 'chain c0', 'chain nobody', 'stage', 'branch a b', 'branch', 'stage 1', 'chain', 'branch 1', 'part src shared', '', '# it is', 'nfp 1']


def drawn_stages(rng, order):
    """Stages that keep an order: each function goes into a new stage, into a new branch of the last stage, or to the end of a branch of it."""
    stages = []
    for name in order:
        way = rng.randrange(4) if stages else 0
        if way == 0:
            stages.append([[name]])
        elif way == 1:
            stages[-1].append([name])
        else:
            rng.choice(stages[-1]).append(name)
    return stages


def compiled_stages(rng, chain, order):
    """The compiled stages, with their branches in any order."""
    stages = policy_rules.compiled(chain, order)
    for stage in stages:
        rng.shuffle(stage)
    return stages


def exchanged(rng, stages):
    """Exchanges two functions."""
    names = [name for stage in stages for branch in stage for name in branch]
    one, other = rng.choice(names), rng.choice(names)
    turned = {one: other, other: one}
    return [[[turned.get(name, name) for name in branch] for branch in stage] for stage in stages]


def moved(rng, stages):
    """Moves a function to the end of another branch, or into a branch of its own."""
    name = rng.choice([name for stage in stages for branch in stage for name in branch])
    left = [[[each for each in branch if each != name] for branch in stage] for stage in stages]
    left = [[branch for branch in stage if branch] for stage in left]
    if rng.randrange(3) and any(left):
        rng.choice(rng.choice([stage for stage in left if stage])).append(name)
    else:
        rng.choice(left).append([name])
    return [stage for stage in left if stage]


def without(rng, stages):
    """Removes a function."""
    name = rng.choice([name for stage in stages for branch in stage for name in branch])
    left = [[[each for each in branch if each != name] for branch in stage] for stage in stages]
    return [stage for stage in ([branch for branch in stage if branch] for stage in left) if stage]


def doubled(rng, stages):
    """Doubles a function."""
    name = rng.choice([name for stage in stages for branch in stage for name in branch])
    rng.choice(rng.choice(stages)).append(name)
    return stages


CHANGES = [exchanged, moved, moved, without, doubled]


def some_stages(rng, chain, order):
    stages = compiled_stages(rng, chain, order) if rng.randrange(3) == 0 else drawn_stages(rng, order)
    for _ in range(rng.choice([0, 0, 0, 1, 2])):
        if any(stages):
            stages = rng.choice(CHANGES)(rng, stages)
    return stages


def blanks(rng):
    return rng.choice(['', '', '', ' ', '\t', '  '])


def lines_of(rng, name, stages):
    yield f'{blanks(rng)}chain {name}{blanks(rng)}'
    for stage in stages:
        yield f'{blanks(rng)}stage' + rng.choice(['', '', ' # in turn'])
        for branch in stage:
            yield f'{blanks(rng)}branch' + ''.join(f' {blanks(rng)}{name}' for name in branch)
        yield from rng.choice([[], [], [''], ['# then']])


def made_text(rng, policy):
    """A text for a policy. If the policy has a fault, the text lists none of its chains."""
    try:
        checked = policy_rules.check(policy)
    except (policy_rules.Refused, UnicodeDecodeError):
        checked = []
    lines = [*rng.choice([[], [], [''], ['# mine']]), 'nfp-graph 1']
    for chain, order in rng.sample(checked, len(checked)):
        # (a chain with an end of a tunnel can't be listed)
        is_whole = any(map(policy_rules.is_whole, policy_rules.kinds_in(chain).values()))
        if rng.randrange(16) == 0 if is_whole else rng.randrange(4):
            lines += lines_of(rng, chain.name, some_stages(rng, chain, order))
    if rng.randrange(12) == 0:
        lines.insert(rng.randrange(len(lines) + 1), rng.choice(ANY))
    return rng.choice(['\n', '\n', '\n', '\r\n']).join(lines).encode() + rng.choice([b'\n', b'\n', b''])


def thrown_text(rng, policy):
    """A text. One of four is mutated; one of two hundred has the greatest length, or one byte more."""
    text = made_text(rng, policy)
    if rng.randrange(4) == 0:
        for _ in range(rng.choice([1, 1, 2])):
            pool = rng.choice([thrown_cases.OF_BYTES, thrown_cases.OF_LINES, thrown_cases.OF_LINES])
            text = rng.choice(pool)(rng, text or b'\n')
    if rng.randrange(200) == 0:
        text += b'#' * (policy_rules.LONGEST + rng.choice([0, 1]) - len(text))
    return text
