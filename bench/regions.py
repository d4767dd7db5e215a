#!/usr/bin/env python3
"""Times the regions of long access lists, as decision diagrams.

Usage: bench/regions.py [PROGRAM]

Each case is one list in a configuration of its own. The line says the shape of its entries and their number, the
seconds from the start of the program to its end (reading included), the megabytes that it took at most, and what it
wrote. The default program is the one of crates/region_bench that `rt ci` has built. Nothing here is a test: timings
depend on the machine.
"""

import os
import random
import subprocess
import sys
import tempfile
import time

HERE = os.path.dirname(os.path.abspath(__file__))
PROGRAM = os.path.join(HERE, '..', 'crates', 'region_bench', 'out', 'region_bench')


def address(number):
    return '.'.join(str(number >> shift & 255) for shift in (24, 16, 8, 0))


def kind(chance):
    """Mostly `permit`."""
    return 'deny' if chance.random() < 0.2 else 'permit'


def hosts(chance):
    """One host, one prefix of 24 bits and one port."""
    source, target, port = chance.getrandbits(32), chance.getrandbits(24) << 8, chance.randrange(1, 65536)
    return f'{kind(chance)} tcp host {address(source)} {address(target)} 0.0.0.255 eq {port}'


def ranges(chance):
    """Mostly any source, a prefix of 24 bits and a range of ports."""
    source = f'{address(chance.getrandbits(16) << 16)} 0.0.255.255' if chance.random() < 0.1 else 'any'
    low, high = sorted(chance.sample(range(65536), 2))
    return f'{kind(chance)} tcp {source} {address(chance.getrandbits(24) << 8)} 0.0.0.255 range {low} {high}'


def wildcards(chance):
    """Two patterns whose wild bits are anywhere: on average 8 of 32 in the source, and 12 in the destination."""
    def wild(share):
        return sum(1 << bit for bit in range(32) if chance.random() < share)
    source, target = chance.getrandbits(32), chance.getrandbits(32)
    return f'{kind(chance)} ip {address(source)} {address(wild(0.25))} {address(target)} {address(wild(0.375))}'


def run(program, shape, count):
    chance = random.Random(1)
    with tempfile.TemporaryDirectory() as folder:
        with open(os.path.join(folder, 'r.cfg'), 'w') as out:
            out.write('ip access-list extended LIST\n')
            out.writelines(f' {shape(chance)}\n' for _ in range(count))
        begun = time.monotonic()
        child = subprocess.Popen([program, 'r.cfg'], cwd=folder, stdout=subprocess.PIPE)
        said = child.stdout.read().decode().strip()
        _, _, used = os.wait4(child.pid, 0)
        seconds = time.monotonic() - begun
    print(f'{shape.__name__:10} {count:6} {seconds:8.2f} s {used.ru_maxrss / 1024:8.0f} MB  {said}', flush=True)


def main():
    program = os.path.abspath(sys.argv[1] if len(sys.argv) > 1 else PROGRAM)
    for shape, counts in ((hosts, (1000, 5000, 20000)), (ranges, (1000, 5000, 20000)), (wildcards, (1000, 5000))):
        for count in counts:
            run(program, shape, count)


if __name__ == '__main__':
    main()
