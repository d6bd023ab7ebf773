"""A report of a run, read line by line: the tables that are in it, and their rows."""

import re

LF = '\n'
NAME, NUMBER, FIELD, PORT = r'([a-z][a-z0-9_-]*)', r'(\d+)', r'([a-z-]+)', r'(\d+|-)'
# An address of IPv4, and one of either version: that of IPv6 has eight groups.
IPV4 = r'\d+\.\d+\.\d+\.\d+'
ADDRESS = f'({IPV4}|[0-9a-f]{{1,4}}(?::[0-9a-f]{{1,4}}){{7}})'
STATE = ('chain', 'function', 'seen')

# The columns of each table.
TABLES = {
    'totals': ('records', 'emitted', 'dropped', 'fault'),
    'drops': ('record', 'chain', 'function'),
    'copies': ('chain', 'field', 'count'),
    'functions': ('chain', 'function', 'kind'),
    'nat': (*STATE, 'proto', 'address', 'port', 'public_port'),
    'balancer': (*STATE, 'proto', 'source', 'source_port', 'backend'),
    'monitor': (*STATE, 'proto', 'source', 'source_port', 'destination', 'destination_port', 'packets', 'bytes'),
    'limiter': (*STATE, 'source', 'tokens', 'moment'),
}

# The columns that are numbers; all others are texts. A number past 2^63 - 1 is rounded by sqlite3.
NUMBERS = {'records', 'emitted', 'dropped', 'record', 'count', 'seen', 'proto', 'port', 'public_port', 'source_port', 'destination_port'}
NUMBERS |= {'packets', 'bytes', 'tokens', 'moment'}

# The protocols that are named. The others are shown by their numbers.
PROTOCOLS = {1: 'icmp', 2: 'igmp', 4: 'ipip', 6: 'tcp', 17: 'udp', 47: 'gre', 50: 'esp', 51: 'ah', 58: 'icmpv6', 89: 'ospf', 103: 'pim', 112: 'vrrp', 132: 'sctp'}

# The lines of a report, in their order: those of each row here follow all of the rows before.
FIRST = re.compile('nfp report 1')
DROP = re.compile(f'drop {NUMBER} {NAME} {NAME}')
RECORDS = re.compile(f'records {NUMBER} emitted {NUMBER} dropped {NUMBER}')
COPIES = re.compile(f'copies {NAME} {FIELD} {NUMBER}')
FUNCTION = re.compile(f'function {NAME} {NAME} {NAME}')
END = re.compile('end|fault (capture: .+)')

# The lines of the states of each kind that has any.
STATES = {
    'nat': re.compile(f'  map {NUMBER} ({IPV4}) {NUMBER} port {NUMBER}'),
    'balancer': re.compile(f'  flow {NUMBER} {ADDRESS} {NUMBER} backend {ADDRESS}'),
    'monitor': re.compile(f'  flow {NUMBER} {ADDRESS} {PORT} {ADDRESS} {PORT} packets {NUMBER} bytes {NUMBER}'),
    'limiter': re.compile(f'  source {ADDRESS} tokens {NUMBER} at {NUMBER}'),
}


def shown(text):
    """A text without the letters that steer a terminal. Ends of lines stay."""
    return ''.join(letter if letter.isprintable() or letter == LF else spelled(letter) for letter in text)


def spelled(letter):
    return ''.join(f'\\x{byte:02x}' for byte in letter.encode('utf-8', 'surrogateescape'))


LONGEST = 80


def brief(line):
    """A line for a message: it may be one of any file."""
    text = shown(line.rstrip(LF))
    return text if len(text) <= LONGEST else f'{text[:LONGEST]}..'


class NoReport(Exception):
    """What is wrong with a report."""


class Reader:
    """Reads a report, a line at a time, and returns the rows of the tables. The first line is read at once."""

    def __init__(self, lines):
        self.lines, self.number, self.line = lines, 0, ''
        self.step()
        self.due(FIRST)

    def step(self):
        """Goes to the next line, with its end, which one that was cut lacks. After the last line comes an empty text."""
        self.line = next(self.lines, '')
        self.number += 1

    def take(self, form):
        """What the form finds in the line, or None if the line has another form."""
        found = form.fullmatch(self.line[:-1]) if self.line.endswith('\n') else None
        if found:
            self.step()
        return found

    def due(self, form):
        found = self.take(form)
        if found:
            return found
        if not self.line:
            raise NoReport(f'the report ends before line {self.number}')
        raise NoReport(f'line {self.number} is {"not one of a report" if self.line.endswith(LF) else "cut"}: {brief(self.line)}')

    def rows(self):
        """Each row with the name of its table. The fault that belongs to the totals is the last line, so their row is the last one."""
        while drop := self.take(DROP):
            yield 'drops', drop.groups()
        totals = self.due(RECORDS).groups()
        while copies := self.take(COPIES):
            yield 'copies', copies.groups()
        while function := self.take(FUNCTION):
            yield 'functions', function.groups()
            yield from self.state(*function.groups())
        yield 'totals', (*totals, self.due(END)[1] or '')
        if self.line:
            raise NoReport(f'line {self.number} follows the end: {brief(self.line)}')

    def state(self, chain, name, kind):
        seen = 0
        while kind in STATES and (line := self.take(STATES[kind])):
            seen += 1
            yield kind, (chain, name, seen, *('' if value == '-' else value for value in line.groups()))
