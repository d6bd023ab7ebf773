"""The packets that `explain` is asked for, by their number, address, port or time, as they were read."""

import datetime
import ipaddress
import re
import typing

import frame_fields

PLAIN = b'\x08\x00\x45'  # IPv4 without options
MOST_KNOWN = 30_000  # pairs of ends that are kept


class Wanted(typing.NamedTuple):
    """What a packet that is looked for has, as it was read. None is not asked for."""

    number: typing.Optional[int] = None
    networks: tuple = ()  # source or destination in each
    ports: tuple = ()  # source or destination port, each
    times: typing.Optional[tuple] = None  # the first nanosecond and the first behind, and the nanoseconds after which they come again, or None

    @property
    def is_search(self):
        return bool(self.networks or self.ports or self.times)

    def fits(self, number, time, frame, known):
        """Whether a packet is wanted. What is `known` of addresses and ports is kept between two calls."""
        if self.number is not None and number != self.number:
            return False
        if self.times:
            low, high, again = self.times
            if not low <= (time % again if again else time) < high:
                return False
        if not self.networks and not self.ports:
            return True
        ends = ends_of(frame)
        if ends not in known:
            if len(known) == MOST_KNOWN:
                known.clear()
            known[ends] = self.has(*ends)
        return known[ends]

    def has(self, addresses, ports):
        return all(any(is_within(address, network) for address in addresses) for network in self.networks) and all(port in ports for port in self.ports)


def ends_of(frame):
    """The addresses and the ports of a frame, of those that it has."""
    # Most frames are TCP or UDP over IPv4, without tags, options and fragments.
    if frame[12:15] == PLAIN and len(frame) >= 38 and frame[23] in (6, 17) and not frame[21] and not frame[20] & 0x1F and (frame[16] << 8 | frame[17]) >= 24:
        return (frame[26:30], frame[30:34]), (frame[34:36], frame[36:38])
    fields = frame_fields.fields_of(frame)
    return tuple(tuple(fields[field] for field in both if field in fields) for both in (('src', 'dst'), ('sport', 'dport')))


def is_within(address, network):
    whole = network.network_address.packed
    if len(address) != len(whole):
        return False
    shift = 8 * len(whole) - network.prefixlen
    return int.from_bytes(address, 'big') >> shift == int(network.network_address) >> shift


def network_of(word):
    """An address or a prefix."""
    return ipaddress.ip_network(word, strict=False)


SECOND, DAY = 10**9, 86_400 * 10**9
MOMENT = re.compile(r'(?:(\d{4})-(\d\d)-(\d\d)[T ])?(\d\d):(\d\d):(\d\d)(\.\d{1,9})?|(\d{1,10})(\.\d{1,9})?')


def moment_of(word):
    """The first nanosecond of a moment and the first behind it, and whether it is a time of day."""
    found = MOMENT.fullmatch(word)
    if not found:
        raise ValueError(word)
    year, month, day, hours, minutes, seconds, fraction, epoch, epoch_fraction = found.groups()
    if epoch is not None:
        whole, part = int(epoch), epoch_fraction
    else:
        whole, part = int(hours) * 3600 + int(minutes) * 60 + int(seconds), fraction
        if int(hours) > 23 or int(minutes) > 59 or int(seconds) > 59:
            raise ValueError(word)
        if year is not None:
            whole += (datetime.date(int(year), int(month), int(day)) - datetime.date(1970, 1, 1)).days * 86_400
    digits = part[1:] if part else ''
    low = whole * SECOND + int(digits.ljust(9, '0'))
    return low, low + 10 ** (9 - len(digits)), epoch is None and year is None


def times_of(word):
    """What `Wanted` has of a moment, or of two with .. between them."""
    first, gap, last = word.partition('..')
    low, high, is_of_day = moment_of(first)
    if gap:
        _, high, ends_of_day = moment_of(last)
        if ends_of_day != is_of_day:
            raise ValueError(word)
    if high <= low:
        raise ValueError(word)
    return low, high, DAY if is_of_day else None
