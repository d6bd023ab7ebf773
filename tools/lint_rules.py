"""What is odd in a policy without fault, by rules of its own: what the crate `policy_lint` finds.

None of it is a fault. Each finding has a name, the line that it speaks of, and the line that makes it so, or 0.

    chain-taken        no packet reaches this chain: each that meets its clauses meets those of the other, before it
    clauses-clash      no packet meets the clauses of this line
    bits-past-length   a prefix on this line has bits past its length that aren't 0
    rule-covered       this rule never decides: each packet that meets it meets the other, before it in the function
    marks-ipv6         this rule of a marker asks for an address of IPv6
    quoted-pattern     this pattern is in quotes
    comma-pattern      this pattern ends with a comma
    cut-pattern        a comment begins right after a word of this pattern
    glob-pattern       this pattern begins or ends with `*`
    regex-pattern      this pattern is written between slashes
    drops-none         this firewall drops no packet
    drops-each         this firewall drops every packet
    small-burst        the burst of this limiter is less than 1,500 bytes
    denies-ipv4-alone  the firewalls of a chain deny by addresses of IPv4 alone, and packets of IPv6 come to it: this is the first that denies
    denies-ipv6-alone  the same the other way round
    never-reached      no packet reaches this function: the other, before it in the chain, drops each
    limiter-behind     this limiter counts by the sources that the other function writes
    match-excludes     no packet that the other, which is the chain's line, takes meets the clauses of this rule
    source-rewritten   the other, a nat, rewrites the sources that this rule asks for
    vip-excluded       no packet that the other, which is the chain's line, takes is for this virtual address
    redacted-before    the other, a redactor, overwrites this pattern of a signature
    hidden-in-tunnel   in the tunnel of the other, an encap, no packet has the addresses that this rule asks for
    public-inside      the public address lies in the prefix inside
    shared-ports       a nat has the public address of the other, and at least one port
    limiter-apart      this chain has limiters, and the packets that it takes miss the nat whose prefix inside the other is
"""

import ipaddress
import typing

import policy_rules


class Finding(typing.NamedTuple):
    name: str
    line: int
    other: int


class Rule(typing.NamedTuple):
    line: int
    allow: bool
    clauses: dict
    words: list


# Clauses.


def implies(lead, value, other):
    """Does a packet that meets the first clause meet the other, of the same word?"""
    if lead in ('src', 'dst'):
        return value.version == other.version and value.subnet_of(other)
    if lead in ('sport', 'dport'):
        return other[0] <= value[0] and value[1] <= other[1]
    if lead == 'flags':
        return value[0] & other[0] == other[0] and value[1] & other[0] == other[1]
    return value == other


def covers(earlier, later):
    """Does each packet that meets the later clauses meet the earlier?"""
    return all(lead in later and implies(lead, later[lead], value) for lead, value in earlier.items())


def covered(name, things):
    """What comes after what covers it, with the first that does. A thing is a line and clauses."""
    for at, (line, clauses) in enumerate(things):
        before = next((other for other, earlier in things[:at] if covers(earlier, clauses)), None)
        if before is not None:
            yield Finding(name, line, before)


# Clauses that no packet meets together.

TCP, UDP = 6, 17


def version_of(value):
    """Of a prefix, or of a clause on versions."""
    return value if isinstance(value, int) else value.version


def excludes(lead, value, other_lead, other):
    """Does no packet meet both clauses, the first of which is not after the second by its word?"""
    addresses = {lead, other_lead} <= {'src', 'dst'}
    if {lead, other_lead} <= {'src', 'dst', 'version'} and version_of(value) != version_of(other):
        return True
    if {lead, other_lead} == {'flags', 'proto'}:
        return (value if lead == 'proto' else other) != TCP
    if {lead, other_lead} in ({'sport', 'proto'}, {'dport', 'proto'}):
        return (value if lead == 'proto' else other) not in (TCP, UDP)
    if lead != other_lead:
        return False
    if addresses:
        return not value.overlaps(other)
    if lead in ('sport', 'dport'):
        return value[1] < other[0] or other[1] < value[0]
    if lead == 'flags':
        return value[1] & other[0] != other[1] & value[0]
    return value != other


def exclude(clauses, others):
    """Is there a clause of the first that excludes one of the others?"""
    return any(excludes(lead, value, other, its) for lead, value in clauses.items() for other, its in others.items())


def is_loose(word):
    """Is the word a prefix that has bits past its length which aren't 0?"""
    address, slash, bits = word.partition('/')
    try:
        address = ipaddress.ip_address('.'.join(part.lstrip('0') or '0' for part in address.split('.')) if '.' in address else address)
    except ValueError:
        return False
    return bool(slash) and int(address) % 2 ** (address.max_prefixlen - int(bits)) != 0


def odd_clauses(line, clauses, words):
    """What is odd in the clauses of a line by themselves."""
    if exclude(clauses, clauses):
        yield Finding('clauses-clash', line, 0)
    if any(is_loose(word) for word in words):
        yield Finding('bits-past-length', line, 0)


# Patterns.

QUOTES, SIGNS = '"\'', set('\\^$[(|*+')


def odd_pattern(form, word):
    """The names of what is odd in a pattern, but for what a comment cuts off."""
    if form != 'text':
        return
    if len(word) > 1 and word[0] in QUOTES and word[-1] == word[0]:
        yield 'quoted-pattern'
    if len(word) > 1 and word.endswith(','):
        yield 'comma-pattern'
    if len(word) > 1 and '*' in (word[0], word[-1]):
        yield 'glob-pattern'
    if len(word) > 2 and word[0] == '/' and (word.endswith('/i') or word.endswith('/') and SIGNS & set(word)):
        yield 'regex-pattern'


def odd_patterns(function, cut):
    """What is odd in the patterns of a function, of a text in which comments cut these lines."""
    for line, words in function.settings if function.kind in ('signature', 'redactor') else ():
        names = [*odd_pattern(words[1], words[2]), *(['cut-pattern'] if line in cut else [])]
        yield from (Finding(name, line, 0) for name in sorted(names, key=PATTERNS.index))


PATTERNS = ['quoted-pattern', 'comma-pattern', 'cut-pattern', 'glob-pattern', 'regex-pattern']


def cut_lines(text):
    """The lines in which a comment begins right after a word."""
    lines = (line.partition(b'#') for line in text.split(b'\n'))
    return {number for number, (said, sign, _) in enumerate(lines, 1) if sign and said and said[-1:] not in b' \t'}


# Functions.


def clauses_of(kind, lead, value):
    if kind == 'marker':
        return value[1]
    if kind == 'tagger':
        return value[2]
    return {'dst': value[0]} if kind == 'nexthop' else value


def rules_of(function):
    """The rules of a function whose first that is met decides."""
    if function.kind not in ('firewall', 'marker', 'nexthop', 'tagger'):
        return []
    said = [setting for setting in policy_rules.read_settings(function) if setting.lead[0] == 'rule']
    words = dict(function.settings)
    return [Rule(line, lead == ('rule', 'allow'), clauses_of(function.kind, lead, value), words[line]) for line, lead, value in said]


def default_of(function):
    """Whether a firewall lets pass what meets no rule."""
    return all(setting.value for setting in policy_rules.read_settings(function) if setting.lead == ('set', 'default'))


def drops_all(function):
    """Does a function drop each packet? A firewall does that lets none pass before it denies all."""
    if function.kind != 'firewall':
        return False
    for rule in rules_of(function):
        if rule.allow or not rule.clauses:
            return not rule.allow
    return not default_of(function)


def versions(clauses, leads=('src', 'dst', 'version')):
    """The versions of IP that clauses ask for."""
    return {version_of(value) for lead, value in clauses.items() if lead in leads}


EVERYTHING = {4: ipaddress.ip_network('0.0.0.0/0'), 6: ipaddress.ip_network('::/0')}


def odd_firewall(function):
    """A firewall that lets each packet pass, or none, by its rules and its default together."""
    rules = rules_of(function)
    says_version = any(
        lead == 'version' or lead in ('src', 'dst') and value in EVERYTHING.values() for rule in rules for lead, value in rule.clauses.items()
    )
    if rules and default_of(function) and all(rule.allow for rule in rules) and not says_version:
        yield Finding('drops-none', function.line, 0)
    if rules and not default_of(function) and not any(rule.allow for rule in rules):
        yield Finding('drops-each', function.line, 0)


def odd_function(function, cut):
    """What is odd in a function by itself."""
    rules = rules_of(function)
    yield from covered('rule-covered', [(rule.line, rule.clauses) for rule in rules])
    for rule in rules:
        yield from odd_clauses(rule.line, rule.clauses, rule.words)
        if function.kind == 'marker' and 6 in versions(rule.clauses):
            yield Finding('marks-ipv6', rule.line, 0)
    yield from odd_patterns(function, cut)
    if function.kind == 'firewall':
        yield from odd_firewall(function)
    for setting in policy_rules.read_settings(function) if function.kind == 'limiter' else ():
        if setting.lead == ('set', 'burst') and setting.value < 1500:
            yield Finding('small-burst', setting.number, 0)


def takes_version(chain, version):
    """Does a chain take all packets with addresses of this version?"""
    return all(value == EVERYTHING[version] or (lead, value) == ('version', version) for lead, value in chain.clauses.items())


def one_version(chains, at):
    """The first firewall of a chain that denies by addresses of one version, where no firewall of the chain names the other version or has a rule without
    clauses, each lets pass what meets none of its rules, and packets of the other version come to them."""
    chain = chains[at]
    firewalls = [function for function in chain.functions if function.kind == 'firewall']
    rules = [(function.line, rule) for function in firewalls for rule in rules_of(function)]
    named = {version for _, rule in rules for version in versions(rule.clauses)}
    denied = [(line, version) for line, rule in rules if not rule.allow for version in versions(rule.clauses, ('src', 'dst'))]
    if not all(map(default_of, firewalls)) or any(not rule.clauses for _, rule in rules) or len(named) != 1 or not denied:
        return
    line, version = denied[0]
    if version not in versions(chain.clauses) and not any(takes_version(other, 10 - version) for other in chains[:at]):
        yield Finding(f'denies-ipv{version}-alone', line, 0)


def unreached(walk):
    """The functions after the first that drops each packet."""
    dropper = next((at for at, function in enumerate(walk) if drops_all(function)), len(walk))
    for function in walk[dropper + 1 :]:
        yield Finding('never-reached', function.line, walk[dropper].line)


def limited(walk):
    """The limiters after the first function that writes sources, if none before them rewrites packets whole, so that another source may be seen after it."""
    for at, function in enumerate(walk):
        writer = next((other for other in walk[:at] if 'src' in policy_rules.KINDS[other.kind][1].split()), None)
        if function.kind == 'limiter' and writer and not any(policy_rules.is_whole(other.kind) for other in walk[:at]):
            yield Finding('limiter-behind', function.line, writer.line)


# Functions by what is before them in their chain.


def writes(function, lead):
    """Does the function write what a clause with this word asks for?"""
    return lead in policy_rules.KINDS[function.kind][1].split()


def first(things):
    return next(iter(things), None)


def settings_of(function):
    return {setting.lead[1]: setting for setting in policy_rules.read_settings(function) if setting.lead[0] == 'set'}


def rewritten(walk, rule):
    """The first nat of these that rewrites the sources that a rule asks for."""
    asked = rule.clauses.get('src')
    for function in walk if asked and asked.version == 4 else ():
        if function.kind == 'nat':
            said = settings_of(function)
            if asked.subnet_of(said['inside'].value) and said['public'].value not in asked:
                return function
    return None


def hidden(encap, rule):
    """Is there an address of IPv4 among those that the rule asks for that isn't one of the tunnel?"""
    ends = {'src': 'entry', 'dst': 'exit'}
    said = settings_of(encap)
    return any(value.version == 4 and said[ends[lead]].value not in value for lead, value in rule.clauses.items() if lead in ends)


def odd_plain(chain, before, function):
    """What is odd in a function after these, none of which rewrites packets whole."""
    kept = {lead: value for lead, value in chain.clauses.items() if not any(writes(other, lead) for other in before)}
    for rule in rules_of(function):
        if exclude(kept, rule.clauses):
            yield Finding('match-excludes', rule.line, chain.line)
        nat = rewritten(before, rule)
        if nat:
            yield Finding('source-rewritten', rule.line, nat.line)
    if function.kind == 'balancer':
        vip = settings_of(function)['vip']
        if exclude(kept, {'dst': ipaddress.ip_network(vip.value)}):
            yield Finding('vip-excluded', vip.number, chain.line)
    for line, words in function.settings if function.kind == 'signature' else ():
        redactor = first(other for other in before if other.kind == 'redactor' and words[1:] in [its[1:] for _, its in other.settings])
        if redactor and words[1] == 'text' and 'x' not in words[2]:
            yield Finding('redacted-before', line, redactor.line)


def odd_by_order(chain, walk):
    """What is odd in the functions of a chain, in its order, by what is before them."""
    for at, function in enumerate(walk):
        whole = first(other for other in reversed(walk[:at]) if policy_rules.is_whole(other.kind))
        if not whole:
            yield from odd_plain(chain, walk[:at], function)
        elif whole.kind == 'encap':
            yield from (Finding('hidden-in-tunnel', rule.line, whole.line) for rule in rules_of(function) if hidden(whole, rule))


def limiters_apart(chains):
    """Chains of limiters that take packets from the inside of a nat in a chain after them."""
    for at, chain in enumerate(chains):
        for inside, _, _ in nats_of([chain]):
            for other in chains[:at]:
                kinds, asked = {function.kind for function in other.functions}, other.clauses.get('src')
                if 'limiter' in kinds <= {'limiter', 'monitor'} and asked and asked.version == 4 and asked.overlaps(inside.value):
                    yield Finding('limiter-apart', other.line, inside.number)
                    break


def nats_of(chains):
    for chain in chains:
        for function in chain.functions:
            if function.kind == 'nat':
                said = {setting.lead[1]: setting for setting in policy_rules.read_settings(function)}
                yield said['inside'], said['public'], said['ports']


def odd_nats(chains):
    before = []
    words = {number: words for chain in chains for function in chain.functions for number, words in function.settings}
    for inside, public, ports in nats_of(chains):
        if is_loose(words[inside.number][2]):
            yield Finding('bits-past-length', inside.number, 0)
        if public.value in inside.value:
            yield Finding('public-inside', public.number, inside.number)
        low, high = ports.value
        other = next((others for address, others in before if address == public.value and low <= others.value[1] and others.value[0] <= high), None)
        if other:
            yield Finding('shared-ports', ports.number, other.number)
        before.append((public.value, ports))


def findings(text):
    """What is found in a policy, in the order in which it is printed. Raises Refused where it has a fault."""
    checked = policy_rules.check(text)
    chains = [chain for chain, _ in checked]
    said = {line.number: line.words for line in policy_rules.lines_of(text)}
    cut = cut_lines(text)
    found = list(covered('chain-taken', [(chain.line, chain.clauses) for chain in chains]))
    for at, (chain, order) in enumerate(checked):
        walk = [next(function for function in chain.functions if function.name == name) for name in order]
        found += odd_clauses(chain.line, chain.clauses, said[chain.line])
        for function in chain.functions:
            found += odd_function(function, cut)
        found += [*one_version(chains, at), *unreached(walk), *limited(walk), *odd_by_order(chain, walk)]
    return [*found, *odd_nats(chains), *limiters_apart(chains)]
