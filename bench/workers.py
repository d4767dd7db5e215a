#!/usr/bin/env python3
"""Times `netpol check NET WORKERS` for several numbers of workers.

Usage: bench/workers.py [PROGRAM]

The networks have 128 and 256 areas in a ring, a device for each that joins four of them, a list at each inward slot, and 200
goals that begin at as many areas as there are. The lines say for each number of workers the seconds of wall-clock time and
of the processors. Nothing here is a test: timings depend on the machine. `valgrind --tool=callgrind` on a run with one
worker tells where the time goes.
"""

import os
import resource
import subprocess
import sys
import tempfile
import time

from atoms import grid, network, write

HERE = os.path.dirname(os.path.abspath(__file__))
GOALS = 200


def ring(areas, lists):
    joins = [(k, (k + 1) % areas, (k + 16) % areas, (k + areas // 4) % areas) for k in range(areas)]
    return network(areas, joins, [lists[n % len(lists)] for n in range(4 * areas)], ('in',), GOALS)


def few(count):
    """Lists that deny a port each, and permit the rest: a class or two for each of them."""
    return [[f'deny tcp any any eq {k + 1}', 'permit ip any any'] for k in range(count)]


CASES = (
    ('128 areas, 16 lists of one port', ring(128, few(16))),
    ('256 areas, 16 lists of one port', ring(256, few(16))),
    ('256 areas, 150 lists, a class for each of 37 sources, 37 destinations and 35 ports', ring(256, grid(36, 36, 34, 150))),
    ('256 areas, 200 lists, for 47, 47 and 46 of them', ring(256, grid(46, 46, 45, 200))),
)


def seconds(program, folder, workers):
    """Of the wall clock, and of the processors."""
    before = resource.getrusage(resource.RUSAGE_CHILDREN)
    begun = time.monotonic()
    subprocess.run([program, 'check', 'net', str(workers)], cwd=folder, stdout=subprocess.DEVNULL, check=False)
    wall = time.monotonic() - begun
    after = resource.getrusage(resource.RUSAGE_CHILDREN)
    return wall, after.ru_utime + after.ru_stime - before.ru_utime - before.ru_stime


def main():
    program = os.path.abspath(sys.argv[1] if len(sys.argv) > 1 else os.path.join(HERE, '..', 'bin', 'netpol'))
    print(f'{os.cpu_count()} processors')
    for name, (net, configs) in CASES:
        print(name, flush=True)
        with tempfile.TemporaryDirectory() as folder:
            write(folder, net, configs)
            for workers in (1, 2, 4, 64):
                wall, own = seconds(program, folder, workers)
                print(f'  {workers} workers: {wall:.2f} s, {own:.2f} s of the processors', flush=True)


if __name__ == '__main__':
    main()
