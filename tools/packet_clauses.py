"""Which clauses of a policy a packet meets, in Python's standard library alone. Used by packet_rules.py, and like it an account of its own that shares nothing with
the program.
"""

import functools
import ipaddress

from frame_fields import number


# Of many packets few addresses differ, and making one takes long.
address_of = functools.lru_cache(65536)(ipaddress.ip_address)


def vlan_of(tags):
    """Of the outermost tag. None is no tag."""
    return number(tags[2:4]) & 0xFFF if tags else None


# What a clause sees of its field, whose bytes these are, and whether it is met by that.
SEEN = {
    'src': address_of,
    'dst': address_of,
    'sport': number,
    'dport': number,
    'proto': lambda value: value,
    'tag': vlan_of,
    'version': lambda value: value,
    'flags': lambda value: value,
}


def meets(lead, wanted, value):
    """Whether the value of a field that is no address meets a clause."""
    seen = SEEN[lead](value)
    if lead in ('sport', 'dport'):
        return wanted[0] <= seen <= wanted[1]
    if lead == 'flags':
        return seen & wanted[0] == wanted[1]
    return seen == wanted


def by_length(wanted):
    """The places of prefixes, as the bits of a number, by the first bits of the addresses in them; and these by how many bytes such an address has and how many bits they are."""
    tables = {}
    for place, prefix in enumerate(wanted):
        if prefix is not ...:
            size, length = len(prefix.network_address.packed), prefix.prefixlen
            table, first = tables.setdefault((size, length), {}), int(prefix.network_address) >> (8 * size - length)
            table[first] = table.get(first, 0) | 1 << place
    return tables


class FirstMet:
    """Whose clauses a packet meets first. A packet that lacks a field meets no clause on it. Of each field the clauses that a value meets are worked
    out once, as a number whose bit at a place is set where those at this place are met by it, or say nothing of the field."""

    MOST = 16384

    def __init__(self, clauses):
        self.all = (1 << len(clauses)) - 1
        self.wanted = {lead: [each.get(lead, ...) for each in clauses] for lead in SEEN if any(lead in each for each in clauses)}
        self.known = {lead: {} for lead in self.wanted}
        self.silent = {lead: sum(1 << place for place, each in enumerate(wanted) if each is ...) for lead, wanted in self.wanted.items()}
        self.prefixes = {lead: by_length(self.wanted[lead]) for lead in ('src', 'dst') if lead in self.wanted}

    def met(self, lead, value):
        known = self.known[lead]
        if len(known) == self.MOST:
            known.clear()
        known[value] = self.silent[lead] | (self.spoken(lead, value) if value is not None else 0)
        return known[value]

    def spoken(self, lead, value):
        """The clauses on this field that this value meets."""
        if lead not in self.prefixes:
            return sum(1 << place for place, wanted in enumerate(self.wanted[lead]) if wanted is not ... and meets(lead, wanted, value))
        found, whole = 0, number(value)
        for (size, length), places in self.prefixes[lead].items():
            found |= places.get(whole >> (8 * size - length), 0) if len(value) == size else 0
        return found

    def place(self, packet):
        """Its place, or None where it meets none."""
        left = self.all
        for lead, known in self.known.items():
            value = packet.got(lead)
            left &= known[value] if value in known else self.met(lead, value)
        return (left & -left).bit_length() - 1 if left else None
