"""Plans, as `nfp plan` prints them, read for the tools that make something of them."""

import sys


class NoPlan(Exception):
    """A text is no plan, for this reason."""


class Stage:
    def __init__(self):
        self.branches = []  # of the names of functions
        self.parts = []  # fields, each with the words that say how it is handed on


class Chain:
    def __init__(self, name):
        self.name, self.order, self.stages = name, [], []

    def graph(self):
        """The branches of each stage."""
        return [stage.branches for stage in self.stages]

    def lines(self):
        """The lines of it."""
        yield f'chain {self.name}'
        yield ' '.join(['order', *self.order])
        for number, stage in enumerate(self.stages, 1):
            yield f'stage {number}'
            yield from (' '.join([f'branch {at}', *names]) for at, names in enumerate(stage.branches, 1))
            yield from (' '.join(['part', field, *mode]) for field, mode in stage.parts)


def chains_of(lines):
    """The chains of a plan. Stages count from 1 in each chain, and branches in each stage."""
    chains = []
    for number, line in enumerate(lines, 1):
        stages = chains[-1].stages if chains else []
        match line.split(' '):
            case ['chain', name]:
                chains.append(Chain(name))
            case ['order', *names] if chains and not stages:
                chains[-1].order = names
            case ['stage', count] if chains and count == str(len(stages) + 1):
                stages.append(Stage())
            case ['branch', count, *names] if stages and names and count == str(len(stages[-1].branches) + 1):
                stages[-1].branches.append(names)
            case ['part', field, *mode] if stages and mode:
                stages[-1].parts.append((field, mode))
            case _:
                raise NoPlan(f'line {number} is none of a plan: {line}')
    return chains


def read(path):
    """The chains of a plan, from the file that is named or else from standard input."""
    try:
        with open(path or sys.stdin.fileno(), encoding='utf-8') as plan:
            return chains_of(plan.read().splitlines())
    except OSError as error:
        raise NoPlan(f'{path or "standard input"}: {error.strerror}') from None
    except UnicodeDecodeError:
        raise NoPlan(f'{path or "standard input"} is no plan: it is no UTF-8') from None
