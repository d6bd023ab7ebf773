"""The records of the captures of the examples, each with what it is."""

import blocks
from frames import (
    ACK,
    BROADCAST,
    DESTINATION,
    FRAGMENT,
    IPV4_SUM,
    MICRO,
    NANO,
    PUSH_ACK,
    SERVICE_TAG,
    STATION,
    SYN,
    TAGGED_IPV4_SUM,
    TCP,
    TCP6_SUM,
    TCP_SUM,
    TYPE_ARP,
    TYPE_IPV4,
    TYPE_IPV6,
    TYPE_PPPOE,
    UDP,
    UDP6_SUM,
    VLAN_TAG,
    Capture,
    arp_request,
    asked_neighbour,
    carried,
    echo,
    echo6,
    ethernet,
    extended,
    ipv4,
    ipv6,
    ping6,
    miscounted,
    plain,
    plain6,
    tag,
    tcp,
    udp,
    uncounted,
)

QUESTION = b'\x07example\x03com\0\0\x01\0\x01'
QUERY = bytes.fromhex('2a2a01000001000000000000') + QUESTION
ANSWER = bytes.fromhex('2a2a81830001000000000000') + QUESTION
DISCOVER = bytes.fromhex('01010600 2b2b2b2b') + b'\0' * 20 + STATION + b'\0' * 202 + bytes.fromhex('63825363 350101 ff')
RECORD_ROUTE = bytes.fromhex('070b04') + b'\0' * 8 + b'\0'
ROUTER_ALERT = bytes.fromhex('94040000')
OFFICE, NEIGHBOUR, OTHER_TEN, GUEST, SCREEN, SCANNER = '10.1.4.20', '10.1.4.21', '10.2.4.20', '192.168.20.31', '192.168.20.10', '203.0.113.66'
RESOLVER, CUSTOMER, PROBE = '192.0.2.53', '198.51.100.200', '203.0.113.9'

# After `quic` from 2001:db8:7::8 these bytes make the checksum of a packet to 2001:db8:1:9::2 zero, which is written as 0xffff.
ENDS_AT_ZERO = bytes.fromhex('0460')


def page(port):
    """A piece of a web page, in a frame of 1,500 bytes."""
    return tcp(80, port, PUSH_ACK, b'HTTP/1.1 200 OK\r\n\r\n' + b'.' * 1427)


def uplink():
    """Frames on the uplink of an office, each with the number of captured bytes (None: up to the snaplen)."""
    long_page = page(50123)
    service = tag(SERVICE_TAG, 100) + tag(VLAN_TAG, 20)
    return [
        ('ARP request of an office machine', arp_request(OFFICE, '10.1.0.1'), None),
        ('DNS query of an office machine', plain(OFFICE, udp(40001, 53, QUERY), to=RESOLVER), None),
        ('TCP SYN of an office machine', plain(OFFICE, tcp(50123, 443, SYN)), None),
        ('TCP SYN of the scanner', plain(SCANNER, tcp(4444, 22, SYN)), None),
        ('ping of the scanner', plain(SCANNER, echo(1)), None),
        ('TCP SYN of the scanner\'s neighbour', plain('203.0.113.67', tcp(4444, 22, SYN)), None),
        ('DNS query of a guest', plain(GUEST, udp(40002, 53, QUERY), to=RESOLVER), None),
        ('TCP of the meeting-room screen', plain(SCREEN, tcp(50124, 443, PUSH_ACK, b'hello')), None),
        ('TCP of a guest in VLAN 20', plain(GUEST, tcp(50125, 80, SYN), tags=tag(VLAN_TAG, 20)), None),
        ('the screen in VLAN 20', plain(SCREEN, tcp(50126, 80, SYN), tags=tag(VLAN_TAG, 20, 5)), None),
        ('ping of a guest in VLAN 20 inside service VLAN 100', plain(GUEST, echo(2), tags=service), None),
        ('an office machine in VLAN 20 inside service VLAN 100', plain(OFFICE, udp(40003, 53, QUERY), to=RESOLVER, tags=service), None),
        ('the scanner behind three tags', plain(SCANNER, echo(3), tags=tag(SERVICE_TAG, 100) + tag(SERVICE_TAG, 7) + tag(VLAN_TAG, 20)), None),
        ('the scanner behind a priority tag of VLAN 0', plain(SCANNER, echo(4), tags=tag(VLAN_TAG, 0, 7)), None),
        ('the scanner behind a tag of type 0x9100', plain(SCANNER, echo(5), tags=tag(0x9100, 20)), None),
        ('a machine of 10.0.0.0/8 that is no office', plain(OTHER_TEN, udp(40004, 123, b'\x23' + b'\0' * 47)), None),
        ('the last address of the offices', plain('10.1.255.255', echo(6)), None),
        ('the first address behind the offices', plain('10.2.0.0', echo(7)), None),
        ('the first address of 172.16.0.0/12', plain('172.16.0.0', echo(8)), None),
        ('the last address of 172.16.0.0/12', plain('172.31.255.255', echo(9)), None),
        ('the first address behind 172.16.0.0/12', plain('172.32.0.0', echo(10)), None),
        ('a loopback address on the wire', plain('127.0.0.1', udp(40005, 53, QUERY), to=RESOLVER), None),
        ('the lower half of 198.51.100.0/24', plain('198.51.100.127', tcp(4445, 25, SYN)), None),
        ('the upper half of 198.51.100.0/24', plain('198.51.100.128', tcp(4446, 25, SYN)), None),
        ('IPv6 ping', ping6(), None),
        ('a guest with a route to be recorded', plain(GUEST, echo(11), options=RECORD_ROUTE), None),
        ('an office machine with a router alert', plain(OFFICE, echo(12), options=ROUTER_ALERT), None),
        ('a later fragment of a guest', plain(GUEST, (UDP, lambda *_: b'x' * 24), offset=1480), None),
        ('a web page of 1,500 bytes, cut by the snaplen', plain('192.0.2.80', long_page, to=OFFICE), None),
        ('the scanner, 1,500 bytes, cut by the snaplen', plain(SCANNER, long_page, to=OFFICE), None),
        ('the scanner, cut right behind its address', plain(SCANNER, echo(13)), 30),
        ('the scanner, cut inside its address', plain(SCANNER, echo(14)), 29),
        ('the scanner in VLAN 20, cut inside its address', plain(SCANNER, echo(15), tags=tag(VLAN_TAG, 20)), 33),
        ('the scanner with a header length of 4 words', plain(SCANNER, echo(16), lead=0x44), None),
        ('the scanner as version 6 under the type of IPv4', plain(SCANNER, echo(17), lead=0x65), None),
        ('the scanner inside a PPPoE session', ethernet(TYPE_PPPOE, bytes.fromhex('110000010030 0021') + ipv4(SCANNER, '192.0.2.80', echo(18))), None),
        ('a runt that ends inside its tag', plain(GUEST, echo(19), tags=tag(VLAN_TAG, 20)), 17),
        ('a runt of 13 bytes', plain(GUEST, echo(20)), 13),
        ('a runt of 6 bytes', plain(GUEST, echo(21)), 6),
        ('a record of no bytes', plain(GUEST, echo(22)), 0),
        ('DHCP discover of a machine without an address', ethernet(TYPE_IPV4, ipv4('0.0.0.0', '255.255.255.255', udp(68, 67, DISCOVER)), to=BROADCAST), None),
        ('DNS answer to an office machine', plain(RESOLVER, udp(53, 40001, ANSWER), to=OFFICE), None),
    ]


def tap():
    """Frames on the line of a name server, seen by an appliance, with the nanoseconds since FIRST_SECOND."""

    def query(source, port):
        return plain(source, udp(port, 53, QUERY), to=RESOLVER)

    fragment = plain('10.66.0.1', (UDP, lambda *_: b'x' * 24), to=RESOLVER, offset=1480)
    probe = plain(PROBE, echo(1), to=RESOLVER, tags=tag(VLAN_TAG, 30))
    return [
        (999_999_105, 'DNS query of a customer', query(CUSTOMER, 40001), None),
        (999_999_777, 'DNS query of the flood', query('203.0.113.5', 53000), None),
        (999_999_999, 'the last nanosecond of a second, the flood', query('203.0.113.77', 53000), None),
        (1_000_000_000, 'the first of the next, DNS query of a customer', query('198.51.100.7', 40002), None),
        (1_000_000_672, 'ping of the probe in VLAN 30', probe, None),
        (1_000_000_518, 'DNS answer, from the appliance\'s other port', plain(RESOLVER, udp(53, 40001, ANSWER), to=CUSTOMER), None),
        (1_000_001_344, 'DNS query with a private source', query('192.168.1.5', 53000), None),
        (1_000_001_344, 'DNS query with a loopback source, at the same moment', query('127.0.0.1', 53000), None),
        (1_000_002_016, 'a later fragment with a private source', fragment, None),
        (1_000_002_688, 'the flood in VLAN 30', plain('203.0.113.200', udp(53000, 53, QUERY), to=RESOLVER, tags=tag(VLAN_TAG, 30)), None),
        (1_000_003_360, 'a web page of 1,500 bytes, whole', plain('192.0.2.80', page(50127), to=CUSTOMER), None),
        (1_000_004_032, 'IPv6 ping', ping6(), None),
    ]


def full_disk():
    """Frames that a gateway captured until its disk was full, with the microseconds since FIRST_SECOND."""
    made = [
        ('ARP request of an office machine', arp_request(OFFICE, '10.1.0.1')),
        ('TCP SYN of an office machine', plain(OFFICE, tcp(50123, 80, SYN))),
        ('a web page of 1,500 bytes', plain('192.0.2.80', page(50123), to=OFFICE)),
        ('TCP SYN of the scanner', plain(SCANNER, tcp(4444, 22, SYN))),
        ('DNS query of a guest', plain(GUEST, udp(40002, 53, QUERY), to=RESOLVER)),
        ('the same page, sent once more', plain('192.0.2.80', page(50123), to=OFFICE)),
        ('ping of the scanner', plain(SCANNER, echo(1))),
        ('DNS query of an office machine', plain(OFFICE, udp(40001, 53, QUERY), to=RESOLVER)),
        ('a page of the scanner, whose record is cut', plain(SCANNER, page(50124), to=OFFICE)),
    ]
    return [(number * 180_503, what, frame, None) for number, (what, frame) in enumerate(made)]


def servers():
    """Frames on the line to the servers of a site, each with the number of captured bytes."""
    web, name_server, operator = '192.0.2.80', '192.0.2.53', '198.51.100.20'

    def syn(source, port, to=web, **fields):
        return plain(source, tcp(50123, port, SYN), to=to, **fields)

    def query(source, port):
        return plain(source, udp(port, 53, QUERY), to=name_server)

    in_99, in_service = tag(VLAN_TAG, 99), tag(SERVICE_TAG, 100) + tag(VLAN_TAG, 99)
    return [
        ('ARP request of the gateway', arp_request('192.0.2.1', web), None),
        ('TCP SYN of a customer to the web server, port 443', syn(CUSTOMER, 443), None),
        ('the same to port 80', syn(CUSTOMER, 80), None),
        ('the same to port 22', syn(CUSTOMER, 22), None),
        ('UDP of a customer to the web server, port 443', plain(CUSTOMER, udp(50124, 443, b'quic'), to=web), None),
        ('TCP SYN to port 443 of the machine beside it', syn(CUSTOMER, 443, to='192.0.2.81'), None),
        ('DNS query of a customer', query(CUSTOMER, 40001), None),
        ('DNS query from port 1023', query(CUSTOMER, 1023), None),
        ('DNS query from port 1024', query(CUSTOMER, 1024), None),
        ('TCP SYN of the scanner to port 443', syn(SCANNER, 443), None),
        ('TCP SYN of the scanner to port 22', syn(SCANNER, 22), None),
        ('TCP SYN of the scanner in VLAN 99', syn(SCANNER, 443, tags=in_99), None),
        ('ping of the monitoring', plain(operator, echo(1), to=web), None),
        ('ping of a stranger', plain('198.51.101.1', echo(2), to=web), None),
        ('TCP SYN to port 22 in VLAN 99, from a private address', syn('10.9.0.1', 22, tags=in_99), None),
        ('the same without the tag', syn('10.9.0.1', 22), None),
        ('TCP SYN to port 443 without a tag, from a private address', syn('10.9.0.1', 443), None),
        ('TCP SYN to port 22 in VLAN 99 inside service VLAN 100', syn(operator, 22, tags=in_service), None),
        ('TCP SYN to port 443 in the same two', syn(operator, 443, tags=in_service), None),
        ('TCP SYN to port 443 behind IP options', syn(CUSTOMER, 443, options=RECORD_ROUTE), None),
        ('first fragment to port 443', plain(CUSTOMER, tcp(50123, 443, PUSH_ACK, b'x' * 28), to=web, more=True), None),
        ('a later fragment of it', plain(CUSTOMER, (TCP, lambda *_: b'x' * 24), to=web, offset=48), None),
        ('TCP SYN to port 443, cut behind the destination port', syn(CUSTOMER, 443), 38),
        ('TCP SYN to port 443, cut inside the destination port', syn(CUSTOMER, 443), 37),
        ('IPv6 ping', ping6(), None),
        ('ARP request in VLAN 99', ethernet(TYPE_ARP, arp_request('192.0.2.1', web)[14:], tags=in_99, to=BROADCAST), None),
        ('a runt of 13 bytes', syn(CUSTOMER, 443), 13),
    ]


def tenants():
    """Frames on the line of a house with two tenants, each with the number of captured bytes."""
    web, machine, relay, games = '192.0.2.80', '10.0.0.7', '10.0.0.25', '198.51.100.44'
    lawyers, school, camera = tag(VLAN_TAG, 10), tag(VLAN_TAG, 20), tag(VLAN_TAG, 30)
    carried = tag(SERVICE_TAG, 100) + lawyers

    def syn(source, port, tags, to=web):
        return plain(source, tcp(50123, port, SYN), to=to, tags=tags)

    def query(source, tags):
        return plain(source, udp(40001, 53, QUERY), to=RESOLVER, tags=tags)

    def arp(tags):
        return ethernet(TYPE_ARP, arp_request(machine, '10.0.0.1')[14:], tags=tags, to=BROADCAST)

    return [
        ('TCP SYN to port 443, in VLAN 10', syn(machine, 443, lawyers), None),
        ('the same in VLAN 20', syn(machine, 443, school), None),
        ('TCP SYN to port 22, in VLAN 10', syn(machine, 22, lawyers), None),
        ('the same in VLAN 20', syn(machine, 22, school), None),
        ('mail, TCP SYN to port 25, in VLAN 10', syn(machine, 25, lawyers), None),
        ('mail of the relay, in VLAN 10', syn(relay, 25, lawyers), None),
        ('mail of the same address, in VLAN 20', syn(relay, 25, school), None),
        ('TCP SYN to port 443 of the scanner, in VLAN 10', syn(machine, 443, lawyers, to=SCANNER), None),
        ('mail to the scanner, in VLAN 10', syn(machine, 25, lawyers, to=SCANNER), None),
        ('TCP SYN to port 443 of the games, in VLAN 20', syn(machine, 443, school, to=games), None),
        ('the same in VLAN 10', syn(machine, 443, lawyers, to=games), None),
        ('ARP request, in VLAN 10', arp(lawyers), None),
        ('the same in VLAN 20', arp(school), None),
        ('DNS query in VLAN 20, with a wrong header checksum', miscounted(query(machine, school), TAGGED_IPV4_SUM), None),
        ('the heating without a tag, TCP SYN to port 22 of the scanner', syn('192.168.1.9', 22, b'', to=SCANNER), None),
        ('a camera in VLAN 30, with a wrong header checksum', miscounted(query('192.168.30.2', camera), TAGGED_IPV4_SUM), None),
        ('TCP SYN to the scanner, in VLAN 10 inside service VLAN 100', syn(machine, 443, carried, to=SCANNER), None),
        ('a runt that ends inside the tag of VLAN 10', syn(machine, 25, lawyers), 17),
    ]


def backups():
    """Frames on the line to a backup store, each with the number of captured bytes."""
    store, other, server, rsync = '192.0.2.200', '192.0.2.201', '10.1.0.10', 873

    def syn(source, port, to=store, **fields):
        return plain(source, tcp(50123, port, SYN), to=to, **fields)

    return [
        ('ARP request of a server', arp_request(server, '10.1.0.1'), None),
        ('TCP SYN of a server to the store, port 873', syn(server, rsync), None),
        ('a piece of the backup', plain(server, tcp(50123, rsync, PUSH_ACK, b'x' * 200), to=store), None),
        ('the same in VLAN 99', plain(server, tcp(50123, rsync, PUSH_ACK, b'x' * 200), to=store, tags=tag(VLAN_TAG, 99)), None),
        ('what the store answers', plain(store, tcp(rsync, 50123, ACK), to=server), None),
        ('TCP SYN of a server to port 873 of another machine', syn(server, rsync, to=other), None),
        ('TCP SYN of a server to the store, port 22', syn(server, 22), None),
        ('TCP SYN of a server to the scanner, port 443', syn(server, 443, to=SCANNER), None),
        ('TCP SYN of a guest to a web server, port 443', syn(GUEST, 443, to='192.0.2.80'), None),
        ('TCP SYN of a guest to a web server, port 22', syn(GUEST, 22, to='192.0.2.80'), None),
        ('TCP SYN of a guest to the scanner, port 443', syn(GUEST, 443, to=SCANNER), None),
        ('TCP SYN of a guest to the store, port 873', syn(GUEST, rsync), None),
        ('TCP SYN of the scanner to the store, port 873', syn(SCANNER, rsync), None),
        ('first fragment to the store, port 873', plain(server, tcp(50123, rsync, PUSH_ACK, b'x' * 28), to=store, more=True), None),
        ('a later fragment of it', plain(server, (TCP, lambda *_: b'x' * 24), to=store, offset=48), None),
        ('a later fragment of the scanner', plain(SCANNER, (TCP, lambda *_: b'x' * 24), to=store, offset=48), None),
        ('IPv6 ping', ping6(), None),
    ]


def edge():
    """Frames at the edge of a site with four public ports, from both sides, each with the number of captured bytes."""
    web, other_web, resolver, public = '198.51.100.80', '198.51.100.81', '198.51.100.53', '192.0.2.1'
    third, lab = '10.1.4.22', '10.2.4.20'

    def out(source, port, flags=ACK, to=web, **fields):
        return plain(source, tcp(port, 443, flags), to=to, **fields)

    def back(source, source_port, port, flags=ACK):
        return plain(source, tcp(source_port, port, flags), to=public)

    voice, fragment = udp(50123, 3478, b'voice'), (UDP, lambda *_: b'x' * 24)
    return [
        ('ARP request of a machine', arp_request(OFFICE, '10.1.0.1'), None),
        ('TCP SYN of a machine to a web server', out(OFFICE, 50123, SYN), None),
        ('the answer of the web server', back(web, 443, 40000, SYN | ACK), None),
        ('DNS query of the same machine', plain(OFFICE, udp(40001, 53, QUERY), to=resolver), None),
        ('its answer', plain(resolver, udp(53, 40001, ANSWER), to=public), None),
        ('TCP SYN from the first port to another web server', out(OFFICE, 50123, SYN, to=other_web), None),
        ('TCP SYN of another machine, from a port of the same number', out(NEIGHBOUR, 50123, SYN), None),
        ('UDP without a checksum, from the first machine\'s port of the same number', uncounted(plain(OFFICE, voice, to=web)), None),
        ('TCP SYN of a third machine', out(third, 50124, SYN), None),
        ('the second machine goes on', out(NEIGHBOUR, 50123), None),
        ('the first one goes on, with a wrong TCP checksum', miscounted(out(OFFICE, 50123), TCP_SUM), None),
        ('the same in VLAN 10', out(OFFICE, 50123, tags=tag(VLAN_TAG, 10)), None),
        ('UDP of the scanner to a port that is taken', plain(SCANNER, udp(4444, 40003, b'hello'), to=public), None),
        ('TCP SYN of the scanner to a port that is taken for UDP', back(SCANNER, 4444, 40003, SYN), None),
        ('TCP SYN of the scanner to the port behind the last', back(SCANNER, 4444, 40004, SYN), None),
        ('TCP SYN of the scanner to port 22', back(SCANNER, 4444, 22, SYN), None),
        ('ping of the scanner', plain(SCANNER, echo(1), to=public), None),
        ('ping of a machine', plain(OFFICE, echo(2), to=web), None),
        ('first fragment of the UDP', plain(OFFICE, udp(50123, 3478, b'x' * 16), to=web, more=True), None),
        ('a later fragment of it', plain(OFFICE, fragment, to=web, offset=24), None),
        ('TCP SYN of a machine that is not inside', out(lab, 50123, SYN), None),
        ('DNS query to another machine of the provider', plain(SCANNER, udp(4444, 53, QUERY), to='192.0.2.53'), None),
        ('TCP of the second machine to the public address itself', plain(NEIGHBOUR, tcp(50123, 40000, SYN), to=public), None),
        ('the first machine, cut behind the ports', out(OFFICE, 50123), 38),
        ('the first machine, cut inside the destination port', out(OFFICE, 50123), 37),
    ]


def shop():
    """Frames on the line to two servers behind one address, each with the number of captured bytes."""
    shared, first_server, archive = '192.0.2.1', '10.9.0.1', '192.0.2.80'
    ann, bob = '198.51.100.7', '198.51.100.8'

    def to_shop(source, port, flags=ACK, service=443, **fields):
        return plain(source, tcp(port, service, flags), to=shared, **fields)

    def upload(port):
        return plain(bob, tcp(port, 443, PUSH_ACK, b'.' * 1446), to=shared)

    return [
        ('ARP request of the gateway', arp_request('192.0.2.254', shared), None),
        ('TCP SYN of a customer', to_shop(ann, 50001, SYN), None),
        ('TCP SYN of a second customer, from a port of the same number', to_shop(bob, 50001, SYN), None),
        ('the first customer goes on', to_shop(ann, 50001), None),
        ('and goes on', to_shop(ann, 50001, PUSH_ACK), None),
        ('TCP SYN of the first customer from another port', to_shop(ann, 50002, SYN), None),
        ('UDP of the first customer from the first port', plain(ann, udp(50001, 443, b'quic'), to=shared), None),
        ('TCP SYN of the first customer from the first port to port 80', to_shop(ann, 50001, SYN, service=80), None),
        ('the second customer in VLAN 10', to_shop(bob, 50001, tags=tag(VLAN_TAG, 10)), None),
        ('an upload of the second customer, cut by the snaplen', upload(50001), None),
        ('first fragment of the second customer', plain(bob, tcp(50001, 443, PUSH_ACK, b'x' * 28), to=shared, more=True), None),
        ('a later fragment of it', plain(bob, (TCP, lambda *_: b'x' * 24), to=shared, offset=48), None),
        ('ping of the second customer', plain(bob, echo(1), to=shared), None),
        ('what a server answers', plain(first_server, tcp(443, 50001, SYN | ACK), to=ann), None),
        ('TCP SYN of the first customer to another machine', plain(ann, tcp(50003, 443, SYN), to=archive), None),
        ('a third customer, cut behind the source port', to_shop(CUSTOMER, 50001, SYN), 36),
        ('the same, cut inside the source port', to_shop(CUSTOMER, 50001, SYN), 35),
        ('IPv6 ping', ping6(), None),
    ]


def farm():
    """Frames on the line to the servers of a web shop, each with the number of captured bytes."""
    shared, partner, ann, bob, eve, dan = '192.0.2.1', '198.51.100.40', '198.51.100.7', '198.51.100.8', '198.51.100.66', '198.51.100.9'

    def asked(source, text, port=50001, **fields):
        return plain(source, tcp(port, 443, PUSH_ACK, text), to=shared, **fields)

    page, path = b'GET /index.html HTTP/1.1', b'GET /../../etc/passwd HTTP/1.1'
    return [
        ('ARP request of the gateway', arp_request('192.0.2.254', shared), None),
        ('TCP SYN of a customer', plain(ann, tcp(50001, 443, SYN), to=shared), None),
        ('the customer asks for a page', asked(ann, page), None),
        ('TCP SYN of a second customer, with a mark of its own', plain(bob, tcp(50001, 443, SYN), to=shared, tos=184), None),
        ('TCP SYN of a scanner', plain(SCANNER, tcp(4444, 443, SYN), to=shared), None),
        ('a scanner asks for a file of the system', asked(SCANNER, path, 4445), None),
        ('a third customer begins with such a question', asked(eve, path), None),
        ('TCP SYN of a fourth customer', plain(dan, tcp(50001, 443, SYN), to=shared), None),
        ('a piece of a partner\'s backup', plain(partner, tcp(50001, 873, PUSH_ACK, b'.' * 400), to='192.0.2.80'), None),
        ('a question of the partner to a server', asked(partner, page), None),
        ('the second customer sends a script', asked(bob, b'POST /note <script>alert(1)</script>', tos=184), None),
        ('the same, ended inside the pattern', asked(bob, b'POST /note <scri'), None),
        ('what a server answers', plain('10.9.0.1', tcp(443, 50001, SYN | ACK), to=ann), None),
        ('a question with a quote, cut behind the pattern', asked(ann, b"GET /find?q=x' OR 1=1"), 71),
        ('the same, cut inside the pattern', asked(ann, b"GET /find?q=x' OR 1=1"), 70),
        ('the first customer in VLAN 10', asked(ann, page, tags=tag(VLAN_TAG, 10)), None),
        ('ping of the first customer', plain(ann, echo(1), to=shared), None),
        ('IPv6 ping', ping6(), None),
    ]


def both_versions():
    """Frames that came to a site by both versions of IP, each with the number of captured bytes."""
    web, shop = '192.0.2.80', '2001:db8:1::80'
    visitor, ann, bob, scanner = '198.51.100.7', '2001:db8:7::7', '2001:db8:7::8', '2001:db8:66::66'

    def to_web(source, port=443, **fields):
        return plain(source, tcp(50001, port, SYN), to=web, **fields)

    def to_shop(source, port=50001, flags=ACK, service=443, **fields):
        return plain6(source, tcp(port, service, flags), to=shop, **fields)

    def said(source, data):
        return plain6(source, udp(50001, 443, data), to=shop)

    neighbour = ethernet(TYPE_IPV6, ipv6('fe80::1', 'ff02::1:ff00:80', asked_neighbour(shop), ttl=255), to=bytes.fromhex('3333ff000080'))
    hidden = plain6(bob, extended(DESTINATION, tcp(50001, 25, SYN)), to=shop)
    long_upload = plain6(bob, tcp(50001, 443, PUSH_ACK, b'.' * 1426), to=shop)
    return [
        ('ARP request of the gateway', arp_request('192.0.2.254', web), None),
        ('the gateway asks for its neighbour 2001:db8:1::80', neighbour, None),
        ('TCP SYN of a visitor by IPv4', to_web(visitor), None),
        ('TCP SYN of a visitor by IPv6', to_shop(ann, flags=SYN), None),
        ('TCP SYN of a second one, from a port of the same number', to_shop(bob, flags=SYN), None),
        ('the first one goes on', to_shop(ann), None),
        ('UDP of the first one', said(ann, b'quic'), None),
        ('UDP of the second one, whose checksum comes out as 0', said(bob, b'quic' + ENDS_AT_ZERO), None),
        ('the same without a checksum', uncounted(said(bob, b'quic' + ENDS_AT_ZERO), UDP6_SUM), None),
        ('the second one goes on, with a wrong TCP checksum', miscounted(to_shop(bob), TCP6_SUM), None),
        ('the same in VLAN 10', to_shop(bob, tags=tag(VLAN_TAG, 10)), None),
        ('an upload of the second one, cut by the snaplen', long_upload, None),
        ('TCP SYN of the scanner by IPv4', to_web(SCANNER), None),
        ('TCP SYN of the scanner by IPv6', to_shop(scanner, flags=SYN), None),
        ('the scanner by another address of its network', to_shop('2001:db8:66::1:1', flags=SYN), None),
        ('somebody outside with an address of the site, IPv4', to_web('192.0.2.20'), None),
        ('the same by IPv6', to_shop('2001:db8:1::20', flags=SYN), None),
        ('mail by IPv4', to_web(visitor, 25), None),
        ('mail by IPv6', to_shop(bob, flags=SYN, service=25), None),
        ('mail behind an extension header', hidden, None),
        ('the scanner by IPv6, in a tunnel of IPv4', plain(visitor, (41, lambda *_: to_shop(scanner, flags=SYN)[14:]), to=web), None),
        ('first fragment of the second visitor', plain6(bob, extended(FRAGMENT, tcp(50001, 443, PUSH_ACK, b'x' * 28), more=True), to=shop), None),
        ('ping of the second visitor', plain6(bob, echo6(1), to=shop), None),
        ('TCP SYN of a third visitor, whose hop limit is at its end', to_shop('2001:db8:7::9', flags=SYN, ttl=1), None),
        ('TCP of a fourth one, cut behind the source port', to_shop('2001:db8:7::a'), 56),
        ('the same, cut inside the destination', to_shop('2001:db8:7::a'), 53),
        ('the same, cut inside the source', to_shop('2001:db8:7::a'), 37),
        ('a header that tells version 4 behind the type of IPv6', to_shop(scanner, flags=SYN, lead=0x45), None),
    ]


def slow_line():
    """Frames on a line with a source that sends too much, with the microseconds since FIRST_SECOND."""
    backup, camera, server = '10.1.0.10', '10.1.0.30', '192.0.2.80'

    def upload(length):
        return plain(backup, udp(40000, 9000, b'.' * (length - 28)), to=server)

    query = plain(OFFICE, udp(40001, 53, QUERY), to=RESOLVER)
    picture = plain(camera, udp(40000, 9000, b'.' * 1973), to=server)
    return [
        (0, 'a piece of the backup', upload(1000), None),
        (100_000, 'the next piece', upload(1000), None),
        (200_000, 'the next piece', upload(1000), None),
        (300_000, 'DNS query of an office machine', query, None),
        (400_000, 'a small piece of the backup', upload(300), None),
        (500_000, 'a piece of the backup', upload(1000), None),
        (1_300_000, 'the same once more', upload(1000), None),
        (1_250_000, 'a small piece that was written late', upload(300), None),
        (1_350_000, 'ping of the backup machine', plain(backup, echo(1), to=server), None),
        (1_400_000, 'ARP request of the backup machine', arp_request(backup, '10.1.0.1'), None),
        (10_000_000, 'a piece of the backup', upload(1000), None),
        (10_000_000, 'the next piece, in the same moment', upload(1000), None),
        (10_000_000, 'the next piece, in the same moment', upload(1000), None),
        (10_050_000, 'ping of the backup machine in VLAN 10', plain(backup, echo(2), to=server, tags=tag(VLAN_TAG, 10)), None),
        (10_060_000, 'a picture of 2,001 bytes from a camera', picture, None),
        (10_070_000, 'a piece of the backup, cut inside its address', upload(1000), 29),
        (10_080_000, 'IPv6 ping', ping6(), None),
    ]


def calls():
    """Frames on the line of an office with telephones, each with the number of captured bytes."""
    phone, provider, named, spoken = '10.1.8.21', '198.51.100.60', 5060, 16384

    def voice(source=phone, to=provider, port=spoken, size=172, **fields):
        return plain(source, udp(port, 20000 if source == phone else spoken, b'.' * size), to=to, **fields)

    call = plain(phone, udp(named, named, b'REGISTER sip:198.51.100.60 SIP/2.0'), to=provider)
    fragment = (UDP, lambda *_: b'.' * 24)
    return [
        ('ARP request of a telephone', arp_request(phone, '10.1.8.1'), None),
        ('a telephone asks for its calls', call, None),
        ('voice of a telephone', voice(), None),
        ('voice that comes back, which the provider has marked', voice(provider, phone, port=20000, tos=184), None),
        ('voice that comes back without a mark', voice(provider, phone, port=20000), None),
        ('TCP SYN of an office machine', plain(OFFICE, tcp(50123, 443, SYN)), None),
        ('the same, marked as voice', plain(OFFICE, tcp(50123, 443, SYN), tos=184), None),
        ('UDP of an office machine from a port of voice, marked as voice', voice(OFFICE, tos=184), None),
        ('DNS query of a telephone, marked as video', plain(phone, udp(40001, 53, QUERY), to=RESOLVER, tos=136), None),
        ('voice in VLAN 20', voice(tags=tag(VLAN_TAG, 20)), None),
        ('voice with the field ECN in use', voice(tos=2), None),
        ('voice with a wrong header checksum', miscounted(voice(), IPV4_SUM), None),
        ('voice behind IP options', voice(options=ROUTER_ALERT), None),
        ('ping of a telephone, marked as voice', plain(phone, echo(1), to=provider, tos=184), None),
        ('first fragment of a long piece of voice', voice(size=176, more=True), None),
        ('a later fragment of it, marked as voice', plain(phone, fragment, to=provider, offset=184, tos=184), None),
        ('voice, cut behind the source port', voice(), 36),
        ('voice with a mark, cut inside the source port', voice(tos=184), 35),
        ('voice with a mark, cut behind that', voice(tos=184), 16),
        ('voice with a mark, cut before it', voice(tos=184), 15),
        ('IPv6 ping', ping6(), None),
    ]


def logins():
    """Frames on the line to a test server, each with the number of captured bytes."""
    server, collector = '192.0.2.80', '192.0.2.90'

    def said(text, port=50123, to=server, **fields):
        return plain(OFFICE, tcp(port, 80, PUSH_ACK, text), to=to, **fields)

    def logged(text):
        return plain(OFFICE, udp(40000, 514, text), to=collector)

    login, fragment = b'user=ann&word=hunter2', (TCP, lambda *_: b'&word=hunter2&more=1&end')
    return [
        ('TCP SYN of an office machine', plain(OFFICE, tcp(50123, 80, SYN), to=server), None),
        ('a segment with the password', said(login), None),
        ('what the server answers', plain(server, tcp(80, 50123, PUSH_ACK, b'hello ann'), to=OFFICE), None),
        ('a later segment of this flow, with the password twice', said(b'old=hunter2&new=hunter2'), None),
        ('the first segment of another flow, which ends inside the password', said(login[:-4], 50124), None),
        ('its next segment, which begins with the rest', said(login[-4:], 50124), None),
        ('both sent once more in one segment', said(login, 50124), None),
        ('name and password in base64', said(b'Authorization: Basic YW5uOmh1bnRlcjI=', 50125), None),
        ('another name and the password in base64', said(b'Authorization: Basic Ym9iOmh1bnRlcjI=', 50125), None),
        ('the password with an escaped digit', said(b'user=ann&word=hunter%32', 50125), None),
        ('the password with a capital', said(b'user=ann&word=Hunter2', 50125), None),
        ('a line of a log, UDP', logged(b'login of ann with hunter2 failed'), None),
        ('the same without a UDP checksum', uncounted(logged(b'login of ann with hunter2 failed')), None),
        ('a segment with the password and a wrong TCP checksum', miscounted(said(login), TCP_SUM), None),
        ('the same in VLAN 10', said(login, tags=tag(VLAN_TAG, 10)), None),
        ('first fragment of a long segment, with the password', said(login + b'&keep=1', more=True), None),
        ('a later fragment of it, with the password too', plain(OFFICE, fragment, to=server, offset=48), None),
        ('a segment whose capture ends behind the password', said(login + b'&keep=1'), 75),
        ('a segment whose capture ends inside the password', said(login), 74),
        ('a segment without data', plain(OFFICE, tcp(50123, 80, ACK), to=server), None),
        ('ARP request of the office machine', arp_request(OFFICE, '10.1.0.1'), None),
    ]


def handed_on():
    """Frames on the line to a test server whose password became known to an outsider."""
    server, collector, stranger = '192.0.2.80', '192.0.2.90', '203.0.113.66'

    def said(text, source=OFFICE, port=50123):
        return plain(source, tcp(port, 80, PUSH_ACK, text), to=server)

    return [
        ('ARP request of the office machine', arp_request(OFFICE, '10.1.0.1'), None),
        ('TCP SYN of a stranger', plain(stranger, tcp(4444, 80, SYN), to=server), None),
        ('the stranger logs in with the password', said(b'user=ann&word=hunter2', stranger, 4444), None),
        ('what the server answers', plain(server, tcp(80, 4444, PUSH_ACK, b'hello ann'), to=stranger), None),
        ('an office machine logs in with another one', said(b'user=bob&word=secret9'), None),
        ('a line of a log, UDP', plain(OFFICE, udp(40000, 514, b'login of ann with hunter2'), to=collector), None),
        ('the first segment of a login, which ends inside the password', said(b'user=ann&word=hun', stranger, 4445), None),
        ('its next segment, which begins with the rest', said(b'ter2', stranger, 4445), None),
    ]


def provider_edge():
    """Frames at the edge of a provider, from two customers and back from its core, each with the number of captured bytes."""
    first, second, stranger, web = '10.1.4.20', '10.2.4.20', '10.3.4.20', '192.0.2.80'
    to_first, to_second, office = tag(VLAN_TAG, 101), tag(VLAN_TAG, 102, 3), tag(VLAN_TAG, 20)

    def query(source, tags=b''):
        return plain(source, udp(40001, 53, QUERY), to=RESOLVER, tags=tags)

    def answer(to, tags):
        return plain(RESOLVER, udp(53, 40001, ANSWER), to=to, tags=tags)

    def arp(tags):
        return ethernet(TYPE_ARP, arp_request('10.2.0.1', second)[14:], tags=tags, to=BROADCAST)

    return [
        ('DNS query of the first customer', query(first), None),
        ('its answer from the core', answer(first, to_first), None),
        ('DNS query of the second customer', query(second), None),
        ('its answer from the core', answer(second, to_second), None),
        ('the first customer in its own VLAN 20', query(first, office), None),
        ('its answer from the core', answer(first, to_first + office), None),
        ('the second customer in VLAN 20 inside service VLAN 100', query(second, tag(SERVICE_TAG, 100) + office), None),
        ('a web page of 1,500 bytes of the second customer, cut by the snaplen', plain(second, page(50123), to=CUSTOMER), None),
        ('one from the core for this customer, cut by the snaplen', plain(web, page(50123), to=second, tags=to_second), None),
        ('TCP of 60 bytes from the core to the first customer', plain(web, tcp(443, 50123, ACK), to=first, tags=to_first), None),
        ('ARP request from the core, in VLAN 102', arp(to_second), None),
        ('ARP request of the second customer', arp(b''), None),
        ('DNS query of a stranger', query(stranger), None),
        ('IPv6 ping', ping6(), None),
        ('DNS query of the first customer with a wrong header checksum', miscounted(query(first), IPV4_SUM), None),
        ('the first customer with a tag of VLAN 101 that it has put on itself', query(first, to_first), None),
        ('the same inside its VLAN 20', query(first, office + to_first), None),
        ('the first customer, cut behind its address', query(first), 30),
        ('the first customer, cut inside its address', query(first), 29),
        ('a runt from the core that ends inside its tag', answer(first, to_first), 17),
        ('a runt of 13 bytes', query(first), 13),
    ]


def two_sites():
    """Frames at the gateway of a site that reaches another site by a tunnel, each with the number of captured bytes."""
    here, there, resolver, web, mail = OFFICE, '10.2.4.20', '10.2.0.53', '10.2.0.80', '10.2.0.25'
    gateway, other_gateway, stranger = '192.0.2.1', '198.51.100.1', SCANNER

    def came(source, content, to=here, sender=other_gateway, outer=None, **fields):
        return plain(sender, carried(ipv4(source, to, content, **fields)), to=gateway, **outer or {})

    question, long_page = udp(40001, 53, QUERY), page(50123)
    return [
        ('DNS query for the other site', plain(here, question, to=resolver), None),
        ('its answer, out of the tunnel', came(resolver, udp(53, 40001, ANSWER)), None),
        ('TCP SYN for a server of the other site, which mustn\'t be split', plain(here, tcp(50123, 443, SYN), to=web, is_unsplit=True), None),
        ('its answer, marked with tos 8', came(web, tcp(443, 50123, SYN | ACK), tos=8, outer={'tos': 8}), None),
        ('a web page of 1,500 bytes for the other site, cut by the snaplen', plain(here, long_page, to=there), None),
        ('one from there, cut by the snaplen', came(web, long_page), None),
        ('mail for the other site', plain(here, tcp(50124, 25, SYN), to=mail), None),
        ('a packet at its last hop', plain(here, question, to=resolver, ttl=1), None),
        ('a later fragment for the other site', plain(here, udp(40002, 5000, b'r' * 64), to=there, offset=1480), None),
        ('a ping with options', plain(here, echo(1), to=there, options=RECORD_ROUTE), None),
        ('the same, cut inside its options', plain(here, echo(2), to=there, options=RECORD_ROUTE), 40),
        ('DNS query with a wrong header checksum', miscounted(plain(here, question, to=resolver), IPV4_SUM), None),
        ('DNS query of a machine in VLAN 20', plain(here, question, to=resolver, tags=tag(VLAN_TAG, 20)), None),
        ('somebody else sends into the tunnel', came(there, udp(40003, 53, QUERY), sender=stranger), None),
        ('out of the tunnel for a network that isn\'t here', came(there, udp(40004, 53, QUERY), to='10.9.0.1'), None),
        ('the first fragment of what went into the tunnel', came(web, long_page, outer={'more': True}), None),
        ('IPv6 in IPv4 for the gateway', plain(other_gateway, (41, lambda *_: ipv6('2001:db8:2::20', '2001:db8:1::20', echo6(1))), to=gateway), None),
        ('DNS query for a resolver outside', plain(here, question, to=RESOLVER), None),
        ('IPv6 ping', ping6(), None),
        ('ARP request of an office machine', arp_request(here, '10.1.0.1'), None),
    ]


def noted():
    """Frames on the two sides of a gateway, with notes of a help desk, followed by those that a probe outside saw. Each has a clock of its own."""
    lan, wan = 0, 1
    probe_unit, reading = blocks.twos(24), plain('10.1.0.30', udp(40000, 5000, b's' * 72), to='192.0.2.90')
    scanned = plain(SCANNER, tcp(4444, 22, SYN))

    def at_lan(moment, *packet, **more):
        return blocks.Packet(lan, blocks.ticks_at(moment), *packet, **more)

    def at_wan(moment, *packet, **more):
        return blocks.Packet(wan, blocks.ticks_at(moment, blocks.NANOSECONDS), *packet, **more)

    def at_probe(moment, *packet, **more):
        return blocks.Packet(0, blocks.ticks_at(moment, probe_unit), *packet, **more)

    return [
        blocks.Section('<', [(blocks.APPLICATION, b'Wireshark'), (blocks.COMMENT, b'Taken while the sensor lost readings')]),
        blocks.Interface('lan', 96),
        blocks.Interface('wan', 262144, blocks.NANOSECONDS),
        blocks.Names({'10.1.0.30': 'sensor.example', SCANNER: 'scanner.example'}),
        at_lan(100_000_000, 'ARP request of an office machine', arp_request(OFFICE, '10.1.0.1')),
        at_lan(100_200_000, 'DNS query of an office machine', plain(OFFICE, udp(40001, 53, QUERY), to=RESOLVER), comments=('Looks for the collector',)),
        at_wan(112_345_678, 'its answer', plain(RESOLVER, udp(53, 40001, ANSWER), to=OFFICE), comments=('12 ms', 'No such name')),
        at_lan(300_000_000, 'a web page of 1,500 bytes, cut by the snaplen of `lan`', plain('192.0.2.80', page(50123), to=OFFICE), 96),
        at_wan(250_000_001, 'TCP SYN of the scanner, earlier by its time', scanned, comments=('First of the scan',)),
        at_wan(400_000_000, 'a reading of the sensor', reading),
        at_wan(400_499_999, 'the next one', reading, comments=('Never came to the collector',)),
        at_wan(400_500_000, 'the next one, a nanosecond later', reading, comments=('Came',)),
        blocks.Statistics(lan, blocks.ticks_at(500_000_000), 3, 0),
        blocks.Statistics(wan, blocks.ticks_at(500_000_000, blocks.NANOSECONDS), 7, 2),
        blocks.Section('>', [(blocks.HARDWARE, b'probe of the provider')]),
        blocks.Interface('probe', 65535, probe_unit),
        at_probe(401_500_060, 'a reading of the sensor', reading),
        at_probe(402_000_000, 'TCP SYN of the scanner', scanned, comments=('It goes on',)),
        at_probe(402_500_000, 'IPv6 ping', ping6()),
        blocks.Statistics(0, blocks.ticks_at(500_000_000, probe_unit), 3, 0),
    ]


TWO_VERSIONS = Capture('<', MICRO, 96, [(n * 180_503, *record) for n, record in enumerate(both_versions())])
UPGRADE = Capture('<', MICRO, 262144, [(n * 180_503, *record) for n, record in enumerate(handed_on())])

# By the names of the folders. A folder in another one uses the capture of that one. The example without a capture is planned and not run.
MADE = {
    'first-path': Capture('<', MICRO, 96, [(n * 180_503, *record) for n, record in enumerate(uplink())]),
    'nanoseconds': Capture('>', NANO, 65535, tap()),
    'cut-capture': Capture('<', MICRO, 262144, full_disk(), room=4096),
    'two-firewalls': Capture('<', MICRO, 262144, [(n * 180_503, *record) for n, record in enumerate(servers())]),
    'two-tenants': Capture('<', MICRO, 262144, [(n * 180_503, *record) for n, record in enumerate(tenants())]),
    'pass-through': Capture('<', MICRO, 262144, [(n * 180_503, *record) for n, record in enumerate(backups())]),
    'refused-policy': UPGRADE,
    'refused-policy/before': UPGRADE,
    'refused-policy/mended': UPGRADE,
    'refused-policy/other-way': UPGRADE,
    'site-edge': Capture('<', MICRO, 262144, [(n * 180_503, *record) for n, record in enumerate(edge())]),
    'two-servers': Capture('<', MICRO, 96, [(n * 180_503, *record) for n, record in enumerate(shop())]),
    'both-versions': TWO_VERSIONS,
    'both-versions/ipv4-alone': TWO_VERSIONS,
    'slowed-source': Capture('<', MICRO, 96, slow_line()),
    'two-interfaces': blocks.Capture(noted()),
    'voice-marking': Capture('<', MICRO, 262144, [(n * 180_503, *record) for n, record in enumerate(calls())]),
    'redacted-secret': Capture('<', MICRO, 262144, [(n * 180_503, *record) for n, record in enumerate(logins())]),
    'tunnel': Capture('<', MICRO, 96, [(n * 180_503, *record) for n, record in enumerate(two_sites())]),
    'tenant-tags': Capture('<', MICRO, 96, [(n * 180_503, *record) for n, record in enumerate(provider_edge())]),
    'hand-written': Capture('<', MICRO, 262144, [(n * 180_503, *record) for n, record in enumerate(farm())]),
    'plan': None,
}
