#!/usr/bin/env python3
"""Times `netpol atoms` and `netpol check` on networks whose lists tell many classes of packets apart.

Usage: bench/atoms.py [PROGRAM [WORDS]]

Each case, or each one whose name has the words, is written into a folder of its own and run once for each command; the line
says its lists, its atoms, the seconds and the most memory of each command. The default program is bin/netpol of this
repository. Where `rt ci` has built crates/atom_bench, another line says how many nodes the diagrams of the regions have and
how many places the partition. Nothing here is a test: timings depend on the machine.
"""

import os
import random
import subprocess
import sys
import tempfile
import time

HERE = os.path.dirname(os.path.abspath(__file__))
SIZES = os.path.join(HERE, '..', 'crates', 'atom_bench', 'out', 'atom_bench')


def network(areas, joins, lists, ways, goals):
    """Devices that join areas, each interface with a list for each of these ways, and goals for every packet from one area after another."""
    net = [f'area a{k} none' for k in range(areas)]
    net += [f'device d{k} config d{k}.cfg' for k in range(len(joins))]
    configs, left = {}, iter(lists)
    for k, joined in enumerate(joins):
        net += [f'interface d{k} e{n} a{area}' for n, area in enumerate(joined)]
        config = []
        for n in range(len(joined)):
            for way in ways:
                name = f'e{n}-{way}'
                config += [f'interface e{n}', f' ip access-group {name} {way}', f'ip access-list extended {name}']
                config += [f' {entry}' for entry in next(left, ['permit ip any any'])]
        configs[f'd{k}.cfg'] = config
    net += [f'goal a{k % areas} a{(k + areas // 2) % areas} never any' for k in range(goals)]
    return net, configs


def line(lists, goals):
    """Areas in a line, joined by devices with four lists each, one for each interface and way."""
    devices = (len(lists) + 3) // 4
    return network(devices + 1, [(k, k + 1) for k in range(devices)], lists, ('in', 'out'), goals)


def mesh(lists, goals):
    """Sixteen areas and sixteen devices, each of which joins four of them, with a list at each interface."""
    return network(16, [(k, (k + 1) % 16, (k + 4) % 16, (k + 9) % 16) for k in range(16)], lists, ('in',), goals)


def wide(lists, goals):
    """A ring of 256 areas and 256 devices, each of which joins four of them, with a list at each of the 2,048 slots."""
    joins = [(k, (k + 1) % 256, (k + 16) % 256, (k + 64) % 256) for k in range(256)]
    return network(256, joins, [lists[n % len(lists)] for n in range(2048)], ('in', 'out'), goals)


def host(chance):
    return f'host 10.{chance.randrange(32)}.{chance.randrange(8)}.{chance.randrange(250)}'


def hosts_in_line(areas, entries):
    """A line of areas, with a list of so many entries for one host each at each device."""
    chance = random.Random(1)
    lists = []
    for k in range(areas - 1):
        lists.append([f'deny tcp {host(chance)} any' for _ in range(entries)] + ['permit ip any any'])
        lists += [['permit ip any any']] * 3
    return line(lists, 2)


def between_hosts(count, entries, hosts, ports):
    """Lists with entries for one host, another one and a port each."""
    chance = random.Random(2)
    names = [host(chance) for _ in range(hosts)]
    numbers = [chance.randrange(1, 10000) for _ in range(ports)]
    return mesh([[f'{chance.choice(("permit", "permit", "deny"))} tcp {chance.choice(names)} {chance.choice(names)} eq {chance.choice(numbers)}'
                  for _ in range(entries)] + ['permit udp any any'] for _ in range(count)], 16)


def mixed(count, entries, hosts, ports):
    """The same, where one end of two entries in three is any host."""
    chance = random.Random(3)
    names = [host(chance) for _ in range(hosts)]
    numbers = [chance.randrange(1, 10000) for _ in range(ports)]
    lists = []
    for _ in range(count):
        entries_of = []
        for n in range(entries):
            source, target = chance.choice(names), chance.choice(names)
            ends = (f'{source} {target}', f'any {target}', f'{source} any')[n % 3]
            entries_of.append(f'{chance.choice(("permit", "permit", "deny"))} tcp {ends} eq {chance.choice(numbers)}')
        lists.append(entries_of)
    return mesh(lists, 16)


def grid(sources, targets, ports, count):
    """Lists that permit one source prefix, one destination prefix or one port each, and more that permit a pair of these prefixes: a class
    for each source, destination and port."""
    chance = random.Random(4)
    lists = [[f'permit ip 10.{k}.0.0 0.0.255.255 any'] for k in range(sources)]
    lists += [[f'permit ip any 10.{k}.0.0 0.0.255.255'] for k in range(targets)]
    lists += [[f'permit tcp any any eq {k + 1}'] for k in range(ports)]
    while len(lists) < count:
        lists.append([f'permit ip 10.{chance.randrange(sources)}.0.0 0.0.255.255 10.{chance.randrange(targets)}.0.0 0.0.255.255'])
    chance.shuffle(lists)
    return lists


def write(folder, net, configs):
    for name, lines in [('net', net), *configs.items()]:
        with open(os.path.join(folder, name), 'w') as file:
            file.write('\n'.join(lines) + '\n')


def run(program, command, net, configs):
    with tempfile.TemporaryDirectory() as folder:
        write(folder, net, configs)
        with open(os.path.join(folder, 'out'), 'wb') as out:
            start = time.monotonic()
            child = subprocess.Popen([program, command, 'net'], cwd=folder, stdout=out)
            _, status, usage = os.wait4(child.pid, 0)
            child.returncode = os.waitstatus_to_exitcode(status)
            seconds = time.monotonic() - start
        with open(os.path.join(folder, 'out'), 'rb') as out:
            atoms = next((text.split()[1].decode() for text in out if text.startswith(b'atoms ')), '?')
    return f'{seconds:.2f} s, {usage.ru_maxrss / 1024:.0f} MB, status {child.returncode}', atoms


def sizes(net, configs):
    """The nodes and the places."""
    with tempfile.TemporaryDirectory() as folder:
        write(folder, net, configs)
        return subprocess.run([SIZES, 'net'], cwd=folder, capture_output=True, text=True, check=True).stdout.strip()


# The text of its atoms would have 220 MB, so it is checked alone.
LARGEST = '200 of these lists at 2,048 slots, 64 goals from as many areas'

CASES = (
    ('a line of 128 areas, 4 host entries a list', hosts_in_line(128, 4)),
    ('a mesh, 64 lists, 50 entries between 2,000 hosts on 200 ports', between_hosts(64, 50, 2000, 200)),
    ('a mesh, 64 lists, 1,000 entries between 2,000 hosts on 200 ports', between_hosts(64, 1000, 2000, 200)),
    ('a mesh, 16 lists, 50 entries, of which two in three have any host at one end', mixed(16, 50, 2000, 200)),
    ('a mesh, 64 lists, 50 entries, of which two in three have any host at one end', mixed(64, 50, 2000, 200)),
    ('150 lists, a class for each of 37 sources, 37 destinations and 35 ports', line(grid(36, 36, 34, 150), 16)),
    ('200 lists, a class for each of 47 sources, 47 destinations and 46 ports', line(grid(46, 46, 45, 200), 16)),
    ('400 lists, a class for each of 59 sources, 59 destinations and 58 ports', line(grid(58, 58, 57, 400), 16)),
    (LARGEST, wide(grid(46, 46, 45, 200), 64)),
)


def main():
    words = [word for word in sys.argv[1:] if not word.startswith('-')]
    program = os.path.abspath(words[0] if words else os.path.join(HERE, '..', 'bin', 'netpol'))
    only = words[1] if len(words) > 1 else ''
    for name, (net, configs) in CASES:
        if only not in name:
            continue
        print(name, flush=True)
        if name is not LARGEST:
            figures, atoms = run(program, 'atoms', net, configs)
            print(f'  atoms: {atoms}, {figures}', flush=True)
        figures, _ = run(program, 'check', net, configs)
        print(f'  check: {figures}', flush=True)
        if os.path.exists(SIZES):
            print(f'  {sizes(net, configs)}', flush=True)


if __name__ == '__main__':
    main()
