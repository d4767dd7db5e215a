#!/usr/bin/env python3
"""Times `netpol show` on texts at the limits.

Usage: bench/show.py [PROGRAM]

Each case is written into a folder of its own and run once; the line says its seconds, its status and the first bytes
that it writes. The default program is bin/netpol of this repository. Nothing here is a test: timings depend on the
machine.
"""

import os
import subprocess
import sys
import tempfile
import time

HERE = os.path.dirname(os.path.abspath(__file__))

# The bytes of a file, at most.
LIMIT = 16_777_216


def everything():
    """As many areas, devices, interfaces and goals as there may be, with each slot free."""
    lines = [f'area a{k} 10.{k}.0.0/16' for k in range(256)]
    lines += [f'device d{k} config d{k}.cfg' for k in range(256)]
    lines += [f'interface d{k // 4} e{k % 4} a{k % 256}' for k in range(1024)]
    lines += [f'free d{k // 4} e{k % 4} {way}' for k in range(1024) for way in ('in', 'out')]
    lines += [f'goal a{k} a{(k + 1) % 256} never and src a{k} not or tcp dport 80-443' for k in range(256)]
    return ''.join(line + '\n' for line in lines)


def many_prefixes():
    """An area with as many prefixes as fit, which a goal names."""
    head, tail = 'area a ', '\narea b none\ngoal a b never src a\n'
    prefix = '10.0.0.0/8,'
    count = (LIMIT - len(head) - len(tail)) // len(prefix)
    return head + (prefix * count)[:-1] + tail


def fill(piece):
    """As many of these pieces as fit."""
    return piece * (LIMIT // len(piece))


CASES = [
    ('everything as often as there may be', everything()),
    ('one area with 1.5 million prefixes', many_prefixes()),
    ('4 million comments', fill('# x\n')),
    ('one line of 8 million words', fill('a ')),
    ('one word of 16 million letters', fill('a')),
]


def main():
    program = os.path.abspath(sys.argv[1]) if len(sys.argv) > 1 else os.path.join(HERE, '..', 'bin', 'netpol')
    for name, text in CASES:
        with tempfile.TemporaryDirectory() as folder:
            with open(os.path.join(folder, 'net'), 'w') as out:
                out.write(text)
            start = time.monotonic()
            run = subprocess.run([program, 'show', 'net'], cwd=folder, capture_output=True)
            seconds = time.monotonic() - start
            print(f'{seconds:8.2f} s  status {run.returncode}  {name}: {run.stdout[:40]!r}', flush=True)


if __name__ == '__main__':
    main()
