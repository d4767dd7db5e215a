#!/usr/bin/env python3
"""What `gen` has to write of a seed, worked out apart from the program: class by class of packets, and step by step.

Usage: checks/generated.py SEED..
"""

import itertools
import sys

PORTS = [22, 23, 80, 443]
AREAS = range(16)

# Source and destination are an area or neither's addresses. What a list or a goal tells apart of the rest is the kind.
KINDS = [(protocol, port) for protocol in ('tcp', 'udp') for port in [*PORTS, None]] + [('icmp', None), ('other', None)]
PACKETS = list(itertools.product([None, *AREAS], [None, *AREAS], KINDS))


def drawn(seed):
    """The two areas of each device, each goal's areas and port, and the entries of each device."""
    state = seed

    def draw(bound):
        nonlocal state
        state = (1664525 * state + 1013904223) % 2 ** 32
        return state // 65536 % bound

    def entry():
        permit = draw(4) != 0
        protocol = ['ip', 'tcp', 'udp', 'icmp'][draw(4)]
        source = draw(16) if draw(2) else None
        destination = draw(16) if draw(2) else None
        port = PORTS[draw(4)] if protocol in ('tcp', 'udp') and draw(2) else None
        return permit, protocol, source, destination, port

    joined = [(k, (k + 1) % 16) for k in AREAS]
    joined += [(near, (near + 2 + draw(12)) % 16) for near in range(0, 16, 2)]
    goals = [(k, (k + 1 + draw(15)) % 16, PORTS[draw(4)]) for k in AREAS]
    return joined, goals, [[entry() for _ in range(40)] for _ in joined]


def lets(entries, packet):
    """Whether a list permits a packet: its first entry that matches says so, and without one it doesn't."""
    source, destination, (protocol, port) = packet
    for permit, kind, src, dst, eq in entries:
        if kind in ('ip', protocol) and src in (None, source) and dst in (None, destination) and eq in (None, port):
            return permit
    return False


def steps_to(joined, inward, begin, end):
    """How many hops the shortest path has over devices of which these let the packet in at their first interface."""
    steps, reached = 0, {begin}
    while end not in reached:
        more = {other for k, (one, other) in enumerate(joined) if one in reached and inward[k]}
        more |= {one for one, other in joined if other in reached} | reached
        if more == reached:
            return None
        steps, reached = steps + 1, more
    return steps


def report(seed):
    """The text. A violation is that of the least packet, so sources and then destinations are tried from the least on."""
    joined, goals, lists = drawn(seed)
    inward = {packet: [lets(entries, packet) for entries in lists] for packet in PACKETS}
    forbidden = {packet: [packet[2] == ('tcp', port) for _, _, port in goals] for packet in PACKETS}
    atoms = len({(*inward[packet], *forbidden[packet]) for packet in PACKETS})
    paths = []
    for begin, end, port in goals:
        found = [steps_to(joined, inward[packet], begin, end) for packet in PACKETS if packet[2] == ('tcp', port)]
        paths += [steps for steps in found if steps is not None][:1]
    return (f'gen {seed}\nareas 16 devices {len(joined)} interfaces {2 * len(joined)} goals {len(goals)}\n'
            f'atoms {atoms}\nviolated {len(paths)}\nhops {sum(paths)}\n')


if __name__ == '__main__':
    for word in sys.argv[1:]:
        print(report(int(word)), end='')
