#!/usr/bin/env python3
"""Finds the least limit on the stack by which `netpol` ends as it does with the usual 8 MiB.

Usage: bench/stack.py PROGRAM

A line for each case: its name, the status, and the limit in KiB. What is nested as deep as it may be, and what is long, is
tried with each command that walks over it. The last line has the greatest of these limits.
"""

import os
import subprocess
import sys
import tempfile

from fuzz import GUARDED, SCRIPT
from hostile import AREAS, BETWEEN, NET, address, many_prefixes, many_words

OPEN = AREAS + 'device r\n' + BETWEEN
LIMITS = [16, 24, 32, 48, 64, 80, 96, 128, 192, 256, 512, 1024, 4096]
PREDICATES = {
    'not': 'not ' * 63 + 'tcp',
    'and, left': 'and ' * 63 + ' '.join(['tcp'] * 64),
    'and, right': 'and tcp ' * 63 + 'tcp',
    'or, left': 'or ' * 63 + ' '.join(f'dst 10.{k}.0.0/16' for k in range(64)),
    'or, right': ''.join(f'or dst 10.{k}.0.0/16 ' for k in range(63)) + 'udp',
}
LIST = 'interface e0\n ip access-group 100 in\n' + ''.join(f'access-list 100 deny tcp host {address(k * 4099)} any\n' for k in range(20000))
CHAIN = ''.join(f'area a{k} none\n' for k in range(256)) + ''.join(
    f'device d{k}\ninterface d{k} e0 a{k}\ninterface d{k} e1 a{k + 1}\n' for k in range(255)) + 'goal a0 a255 never tcp\n'
MOVES = 'start area out 0.0.0.0 0.0.0.0 0 0 0 0\n' + 'enter r e0\ncross r e0\nleave\n' * 20000


def cases():
    """Names, files and words."""
    for name, pred in PREDICATES.items():
        for command in ('show', 'check', 'atoms', 'synth'):
            yield f'nested 64 deep: {name}: {command}', {'net': OPEN + 'free r e0 in\ngoal out lan never ' + pred + '\n'}, [command, 'net']
        yield f'nested 64 deep: {name}: ipsec', {'net': GUARDED + 'auth x y ' + pred + '\nconf x ' + pred + '\n'}, ['ipsec', 'net']
    yield '20,000 prefixes', {'net': many_prefixes(20000, 2)}, ['check', 'net']
    yield '20,000 addresses in a predicate', {'net': many_words(20000)}, ['check', 'net']
    yield 'a list of 20,000 entries', {'net': NET, 'r.cfg': LIST}, ['atoms', 'net']
    yield 'a chain of 256 areas', {'net': CHAIN}, ['check', 'net']
    yield '16 headers around a packet', {'net': GUARDED.replace('depth 4', 'depth 16'), 'script': SCRIPT.split('\n', 1)[0] + '\n' + 'push u\n' * 16}, ['trace', 'net', 'script']
    yield '60,000 moves', {'net': OPEN, 'script': MOVES}, ['trace', 'net', 'script']


def ended(program, folder, words, limit):
    """The status and the text of a run with so many KiB of stack."""
    done = subprocess.run(['sh', '-c', f'ulimit -s {limit} && exec env -i "$0" "$@"', program, *words], cwd=folder, capture_output=True, check=False)
    return done.returncode, done.stdout


def main():
    program, most = os.path.abspath(sys.argv[1]), 0
    for name, files, words in cases():
        with tempfile.TemporaryDirectory() as folder:
            for file, text in files.items():
                with open(os.path.join(folder, file), 'w') as out:
                    out.write(text)
            usual = ended(program, folder, words, 8192)
            least = next((limit for limit in LIMITS if ended(program, folder, words, limit) == usual), 8192)
        most = max(most, least)
        print(f'{name}: status {usual[0]}, {least} KiB', flush=True)
    print(f'{most} KiB at most')


if __name__ == '__main__':
    main()
