#!/usr/bin/env python3
"""Times `netpol trace` on scripts of nearly 16 MiB.

Usage: bench/trace.py [PROGRAM]

Each case is written into a folder of its own and run once; the line says its moves, its seconds, the bytes written and its
status. The default program is bin/netpol of this repository. Nothing here is a test: timings depend on the machine.
"""

import os
import subprocess
import sys
import tempfile
import time

HERE = os.path.dirname(os.path.abspath(__file__))
LIMIT = 16_777_216

NET = ['area a 10.0.0.0/8', 'area b none', 'device r', 'interface r e0 a', 'interface r e1 b', 'sa t ah r r']
START = 'start area a 10.0.0.1 0.0.0.0 0 0 0 0'
ROUND = ['enter r e0', 'cross r e1', 'leave', 'enter r e1', 'cross r e0', 'leave']


def script(moves):
    """A start and these moves, again and again up to the limit of a file."""
    size = sum(len(move) + 1 for move in moves)
    return [START] + moves * ((LIMIT - len(START) - 1) // size)


def run(program, net, lines):
    with tempfile.TemporaryDirectory() as folder:
        with open(os.path.join(folder, 'net'), 'w') as file:
            file.write('\n'.join(net) + '\n')
        with open(os.path.join(folder, 'script'), 'w') as file:
            file.write('\n'.join(lines) + '\n')
        start = time.monotonic()
        ended = subprocess.run([program, 'trace', 'net', 'script'], cwd=folder, stdout=subprocess.PIPE, check=False)
        return time.monotonic() - start, ended


def main():
    program = os.path.abspath(sys.argv[1] if len(sys.argv) > 1 else os.path.join(HERE, '..', 'bin', 'netpol'))
    goals = [f'auth b a src 10.0.{k}.0/24' for k in range(128)] + [f'conf a src 10.1.{k}.0/24' for k in range(128)]
    for name, net, moves in (
        ('round and round', NET, ROUND),
        ('the same with 256 goals', NET + goals, ROUND),
        ('push and pop', NET, ['push t', 'pop']),
    ):
        lines = script(moves)
        seconds, ended = run(program, net, lines)
        print(f'{name}, {len(lines) - 1} moves: {seconds:.2f} s, {len(ended.stdout)} bytes, status {ended.returncode}')


if __name__ == '__main__':
    main()
