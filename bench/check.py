#!/usr/bin/env python3
"""Times `netpol check` on networks at its limits.

Usage: bench/check.py [PROGRAM]

Each case is written into a folder of its own and run once; the line says its seconds and its status. The default
program is bin/netpol of this repository. Nothing here is a test: timings depend on the machine.
"""

import os
import random
import subprocess
import sys
import tempfile
import time

HERE = os.path.dirname(os.path.abspath(__file__))


def ring(areas, goals):
    """A ring of areas joined by devices with a list each; every goal is half of the ring away and holds for tcp alone."""
    net = [f'area a{k} none' for k in range(areas)]
    net += [f'device d{k} config d.cfg' for k in range(areas)]
    for k in range(areas):
        net += [f'interface d{k} e0 a{k}', f'interface d{k} e1 a{(k + 1) % areas}']
    net += [f'goal a{g} a{(g + areas // 2) % areas} never tcp' for g in range(goals)]
    config = ['interface e0', ' ip access-group 100 in', 'interface e1', ' ip access-group 100 in']
    config += ['access-list 100 deny tcp any any', 'access-list 100 permit ip any any']
    return net, config


def open_ring(areas, goals):
    """The same with goals for every packet and nothing denied, so that each is violated at once."""
    net, config = ring(areas, goals)
    net = [line.replace('never tcp', 'never any') for line in net]
    return net, config[:4] + ['access-list 100 permit ip any any']


def shut_chain(areas, goals):
    """A chain shut in its middle, with goals for every packet."""
    net = [f'area a{k} none' for k in range(areas)]
    net += [f'device d{k}' + (' config d.cfg' if k == areas // 2 else '') for k in range(areas - 1)]
    for k in range(areas - 1):
        net += [f'interface d{k} e0 a{k}', f'interface d{k} e1 a{k + 1}']
    net += [f'goal a{g} a{areas - 1 - g} never any' for g in range(goals)]
    return net, ['interface e0', ' ip access-group 100 in', 'access-list 100 deny ip any any']


def address(number):
    return '.'.join(str(number >> shift & 255) for shift in (24, 16, 8, 0))


def host_entry(chance, kind):
    return f'access-list 100 {kind} tcp host {address(chance.getrandbits(32))} {address(chance.getrandbits(24) << 8)} 0.0.0.255 eq {chance.randrange(1, 65536)}'


def long_list(entries):
    """Two areas, and one list of so many entries between them, each for a host, a prefix and a port."""
    chance = random.Random(1)
    net = ['area x none', 'area y none', 'device d config d.cfg', 'interface d e0 x', 'interface d e1 y']
    net += ['goal x y never udp', 'goal x y only and tcp dst 10.0.0.0/8']
    config = ['interface e0', ' ip access-group 100 in']
    config += [host_entry(chance, 'deny' if k % 5 == 0 else 'permit') for k in range(entries)]
    return net, config


def many_lists(devices, entries, goals):
    """Devices in a ring, each with two lists of its own of so many entries, in at both interfaces."""
    net = [f'area a{k} none' for k in range(devices)]
    net += [f'device d{k} config d{k}.cfg' for k in range(devices)]
    for k in range(devices):
        net += [f'interface d{k} e0 a{k}', f'interface d{k} e1 a{(k + 1) % devices}']
    net += [f'goal a{g % devices} a{(g + 1 + g // devices) % devices} never and tcp dport {20 + g}' for g in range(goals)]
    configs = {}
    for k in range(devices):
        chance = random.Random(k)
        config = ['interface e0', ' ip access-group 100 in', 'interface e1', ' ip access-group 101 in']
        for name in ('100', '101'):
            lines = [host_entry(chance, 'deny' if n % 5 == 0 else 'permit') for n in range(entries)]
            config += [line.replace('access-list 100', f'access-list {name}') for line in lines]
        configs[f'd{k}.cfg'] = config
    return net, configs


def chain(areas):
    """A line of areas with a small list at each device, and goals from end to end."""
    net = [f'area a{k} none' for k in range(areas)]
    net += [f'device d{k} config d{k}.cfg' for k in range(areas - 1)]
    for k in range(areas - 1):
        net += [f'interface d{k} e0 a{k}', f'interface d{k} e1 a{k + 1}']
    net += [f'goal a0 a{areas - 1} never tcp', f'goal a{areas - 1} a0 never udp']
    configs = {}
    for k in range(areas - 1):
        configs[f'd{k}.cfg'] = ['interface e0', ' ip access-group 100 in',
                                f'access-list 100 deny tcp any any eq {k + 1}', 'access-list 100 permit ip any any']
    return net, configs


def ladder(rungs):
    """Two lines of areas, joined at each device, and shut at the one in the middle."""
    net = [line for k in range(rungs + 1) for line in (f'area a{k} none', f'area b{k} none')]
    net += [f'device d{k}' + (' config d.cfg' if k == rungs // 2 else '') for k in range(rungs)]
    for k in range(rungs):
        net += [f'interface d{k} e0 a{k}', f'interface d{k} e1 b{k}', f'interface d{k} e2 a{k + 1}', f'interface d{k} e3 b{k + 1}']
    net += [f'goal a0 a{rungs} never any']
    return net, ['interface e0', ' ip access-group 100 in', 'interface e1', ' ip access-group 100 in', 'access-list 100 deny ip any any']


def long_text(megabytes):
    """A text of comments."""
    return ['# ' + 'x' * 1021] * (megabytes * 1024 - 1), []


CASES = [
    ('two areas, a list of 20,000 entries', long_list(20000)),
    ('16 devices, 32 lists of 200 entries, 32 goals', many_lists(16, 200, 32)),
    ('a line of 128 areas with small lists', chain(128)),
    ('a ladder of 101 rungs, shut in its middle', ladder(101)),
    ('a ring of 256 areas, 256 goals for tcp', ring(256, 256)),
    ('the same open, 256 goals for any', open_ring(256, 256)),
    ('a chain of 256 areas, shut, 16 goals for any', shut_chain(256, 16)),
    ('15 MiB of comments', long_text(15)),
]


def main():
    program = os.path.abspath(sys.argv[1]) if len(sys.argv) > 1 else os.path.join(HERE, '..', 'bin', 'netpol')
    for name, (net, configs) in CASES:
        if not isinstance(configs, dict):
            configs = {'d.cfg': configs}
        with tempfile.TemporaryDirectory() as folder:
            for file, lines in (('net', net), *configs.items()):
                with open(os.path.join(folder, file), 'w') as out:
                    out.write(''.join(line + '\n' for line in lines))
            start = time.monotonic()
            run = subprocess.run([program, 'check', 'net'], cwd=folder, capture_output=True)
            print(f'{time.monotonic() - start:8.2f} s  status {run.returncode}  {name}', flush=True)


if __name__ == '__main__':
    main()
