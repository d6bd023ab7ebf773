"""The lines of a policy that the program accepted, and policies made of some of them. Nothing is judged here."""

import typing


class Line(typing.NamedTuple):
    number: int
    words: list

    @property
    def text(self):
        return ' '.join(self.words)


def lines_of(text):
    for number, line in enumerate(text.decode('utf-8', 'replace').split('\n'), 1):
        words = [word for word in line.removesuffix('\r').partition('#')[0].replace('\t', ' ').split(' ') if word]
        if words:
            yield Line(number, words)


class Function(typing.NamedTuple):
    """A function as it is declared."""

    chain: str
    name: str
    kind: str
    declared: Line
    settings: list


# What a policy made of another leaves out: its functions and their order.
OF_FUNCTIONS = ('fn', 'set', 'rule', 'order', 'priority', 'position')


class Policy:
    """The chains and functions of a text, in its order."""

    def __init__(self, text):
        self.lines, self.chains, self.functions, chain = [*lines_of(text)], [], [], None
        for line in self.lines:
            lead = line.words[0]
            if lead == 'chain':
                chain = line.words[1]
                self.chains.append(chain)
            elif lead == 'fn':
                self.functions.append(Function(chain, *line.words[1:3], line, []))
            elif lead in ('set', 'rule'):
                self.functions[-1].settings.append(line)

    def made(self, functions):
        """The chains with these functions: `functions` returns lines for the name of a chain."""
        for line in self.lines:
            if line.words[0] not in OF_FUNCTIONS:
                yield line.text
            if line.words[0] == 'chain':
                yield from functions(line.words[1])

    def classing(self):
        """A policy that drops each packet that a chain takes, so that its drops name the chains."""
        return text_of(self.made(lambda chain: [f'fn f{self.chains.index(chain)} firewall', 'set default deny']))

    def front(self, chain, order):
        """A policy of these functions of one chain, in this order, and of no other ones."""
        functions = {each.name: each for each in self.functions if each.chain == chain}

        def lines(name):
            for each in map(functions.get, order) if name == chain else ():
                yield each.declared.text
                yield from (line.text for line in each.settings)
            if name == chain:
                yield from (f'order {first} before {second}' for first, second in zip(order, order[1:]))

        return text_of(self.made(lines))


def text_of(lines):
    return ''.join(f'{line}\n' for line in lines).encode()
