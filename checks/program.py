#!/usr/bin/env python3
"""Runs the built program, and says which of its runs aren't as they have to be.

Usage: checks/program.py PROGRAM

Every expected text stands here or beside an example; none comes from the program. Each run has a folder of its own.
The last line says how many runs passed and how many failed.
"""

import os
import subprocess
import sys
import tempfile

from generated import report

TOP = os.path.join(os.path.dirname(os.path.abspath(__file__)), '..')

# Two areas and a device without filters.
OPEN = 'area out 0.0.0.0/0\narea lan 10.0.0.0/8\ndevice r\ninterface r e0 out\ninterface r e1 lan\ngoal out lan never tcp\n'

# The same with a configuration that denies TCP.
SHUT = OPEN.replace('device r\n', 'device r config r.cfg\n')
DENY = 'interface e0\n ip access-group 100 in\naccess-list 100 deny tcp any any\naccess-list 100 permit ip any any\n'

# TCP, which the list denies and the goal forbids, and all else.
ATOMS = ('cuts 2\ncut 1 list r 100\ncut 2 goal 1\natoms 2\n'
         'atom 1 0.0.0.0 0.0.0.0 0 0 0 0 10\natom 2 0.0.0.0 0.0.0.0 6 0 0 0 01\n')

# As many areas as there may be: more than two pieces of 4,096 bytes.
AREAS = ''.join(f'area a{k} 10.{k}.0.0/16\n' for k in range(256))

# The same at the end of a text of 1 MiB.
LONG = '# ' + 'x' * 61 + '\n'
LONG = LONG * ((1048576 - len(AREAS)) // len(LONG))
LONG += '#' * (1048576 - len(AREAS) - len(LONG) - 1) + '\n' + AREAS

# Files, words, the status, and the text that is written.
RUNS = [
    ('all goals hold', {'net': SHUT, 'r.cfg': DENY}, ['check', 'net'], 0, 'goal 1 holds\nholds\n'),
    ('a goal is violated', {'net': OPEN}, ['check', 'net'], 1,
     'goal 1 violated 0.0.0.0 0.0.0.0 6 0 0 0\nhop r e0 e1\nfails\n'),
    ('a goal that seven workers judge', {'net': OPEN}, ['check', 'net', '7'], 1,
     'goal 1 violated 0.0.0.0 0.0.0.0 6 0 0 0\nhop r e0 e1\nfails\n'),
    ('a line that is no list\'s', {'net': SHUT, 'r.cfg': DENY + 'hostname r\n'}, ['check', 'net'], 0, 'goal 1 holds\nholds\n'),
    ('a line like an entry and an interface that isn\'t there', {'net': SHUT, 'r.cfg': DENY + 'permit tcp any any\n'},
     ['notes', 'net'], 1, 'note r.cfg line 5 entry\nnote r.cfg no-interface e1\nnotes\n'),
    ('atoms of a list and a goal', {'net': SHUT, 'r.cfg': DENY}, ['atoms', 'net'], 0, ATOMS),
    ('a posture', {'net': SHUT + 'free r e1 out\n', 'r.cfg': DENY}, ['synth', 'net'], 0,
     'atoms 2\natom 1 0.0.0.0 0.0.0.0 0 0 0 0\natom 2 0.0.0.0 0.0.0.0 6 0 0 0\nslot r e1 out 1-2\nsynthesised\n'),
    ('goals that can\'t be attained', {'net': OPEN}, ['synth', 'net'], 1,
     'unattainable goal 1 0.0.0.0 0.0.0.0 6 0 0 0\nhop r e0 e1\n'),
    ('no IPsec goals', {'net': OPEN}, ['ipsec', 'net'], 0, 'yes\n'),
    ('a script', {'net': OPEN, 's': 'start area out 0.0.0.0 0.0.0.0 0 0 0 0\nenter r e0\n'}, ['trace', 'net', 's'], 0,
     'state 0 area out stack - mark -\nstate 1 in r e0 stack - mark -\nlegal\n'),
    ('a script without a start', {'net': OPEN, 's': 'pop\n'}, ['trace', 'net', 's'], 3, 'refused s line 1 NoStart\n'),
    ('a script that is not there', {'net': OPEN}, ['trace', 'net', 's'], 4, ''),
    ('atoms of nothing', {'net': ''}, ['atoms', 'net'], 0, 'cuts 0\natoms 1\natom 1 0.0.0.0 0.0.0.0 0 0 0 0 -\n'),
    ('no words', {}, [], 2, 'usage\n'),
    ('a word too many', {'net': OPEN}, ['show', 'net', 'net'], 2, 'usage\n'),
    ('no worker', {'net': OPEN}, ['check', 'net', '0'], 2, 'usage\n'),
    ('a seed past the greatest', {}, ['gen', '4294967296'], 2, 'usage\n'),
    ('a command that there is none of', {'net': OPEN}, ['--help'], 2, 'usage\n'),
    ('a refused line of a network', {'net': OPEN + 'color red\n'}, ['show', 'net'], 3, 'refused net line 7 UnknownStatement\n'),
    ('a refused line of a configuration', {'net': SHUT, 'r.cfg': DENY + 'no access-list 100\n'}, ['check', 'net'], 3,
     'refused r.cfg line 5 Negated\n'),
    ('a file of 16 MiB and a byte', {'net': '#' * 16777217}, ['show', 'net'], 3, 'refused net too-long\n'),
    ('a file that is not there', {}, ['check', 'net'], 4, ''),
    ('a configuration that is not there', {'net': SHUT}, ['check', 'net'], 4, ''),
    ('a folder', {}, ['show', '.'], 4, ''),
    ('a name with a blank', {'my net': AREAS}, ['show', 'my net'], 0, 'depth 8\n' + AREAS),
    ('a name with blanks at its ends', {' net ': AREAS}, ['show', ' net '], 0, 'depth 8\n' + AREAS),
    ('a name without the blanks of the file\'s', {'net': AREAS}, ['show', ' net '], 4, ''),
    ('a file of more than 4,096 bytes', {'net': AREAS}, ['show', 'net'], 0, 'depth 8\n' + AREAS),
    ('a file of 1 MiB', {'net': LONG}, ['show', 'net'], 0, 'depth 8\n' + AREAS),
]


def run(program, files, words, **streams):
    """The status of a run in a folder with these files, and what it wrote."""
    with tempfile.TemporaryDirectory() as folder:
        for name, text in files.items():
            with open(os.path.join(folder, name), 'w') as out:
                out.write(text)
        done = subprocess.run([program, *words], cwd=folder, stdin=subprocess.DEVNULL, timeout=60,
                              **(streams or {'stdout': subprocess.PIPE}))
        return done.returncode, done.stdout


def table(program):
    """The runs of the table."""
    for case, files, words, status, text in RUNS:
        yield case, run(program, files, words) == (status, text.encode())


# Twelve devices around an area, each with a list of 1,500 hosts whose TCP is denied, and more. Those of an even number deny all TCP.
DEVICES = range(12)
HOSTS = ''.join(f'access-list 100 deny tcp host 9.0.{n >> 8}.{n & 255} any\n' for n in range(1500))
APPLIED = 'interface e0\n ip access-group 100 in\n' + HOSTS
LISTS = {f'd{k}.cfg': APPLIED + ('access-list 100 deny tcp any any\n' if k % 2 == 0 else '') + 'access-list 100 permit ip any any\n'
         for k in DEVICES}
STAR = 'area hub none\n' + ''.join(f'area a{k} none\n' for k in DEVICES)
STAR += ''.join(f'device d{k} config d{k}.cfg\n' for k in DEVICES)
STAR += ''.join(f'interface d{k} e0 hub\ninterface d{k} e1 a{k}\n' for k in DEVICES)
STAR += ''.join(f'goal hub a{k} never tcp\n' for k in DEVICES)
FREE = ''.join(f'free d{k} e1 out\n' for k in DEVICES)

VERDICTS = ''.join(f'goal {k + 1} holds\n' if k % 2 == 0 else f'goal {k + 1} violated 0.0.0.0 0.0.0.0 6 0 0 0\nhop d{k} e0 e1\n'
                   for k in DEVICES) + 'fails\n'

# Not TCP, TCP of other hosts, and TCP of the hosts in the lists.
LEASTS = ['0.0.0.0 0.0.0.0 0 0 0 0', '0.0.0.0 0.0.0.0 6 0 0 0', '9.0.0.0 0.0.0.0 6 0 0 0']
STAR_ATOMS = 'cuts 24\n' + ''.join(f'cut {k + 1} list d{k} 100\n' for k in DEVICES)
STAR_ATOMS += ''.join(f'cut {k + 13} goal {k + 1}\n' for k in DEVICES) + 'atoms 3\n'
STAR_ATOMS += ''.join(f'atom {n + 1} {LEASTS[n]} {bits}\n' for n, bits in enumerate(
    ['1' * 12 + '0' * 12, '01' * 6 + '1' * 12, '0' * 12 + '1' * 12]))

# What a list denies may cross the slot behind it.
POSTURE = 'atoms 3\n' + ''.join(f'atom {n + 1} {least}\n' for n, least in enumerate(LEASTS))
POSTURE += ''.join(f'slot d{k} e1 out 1-3\n' if k % 2 == 0 else f'slot d{k} e1 out 1,3\ndrop 2 goal {k + 1}\nhop d{k} e0 e1\n'
                   for k in DEVICES) + 'synthesised\n'

# A packet that goes round, and goals that begin at an area that isn't trusted.
AROUND = 'area a 10.0.0.0/8\narea b none\ndevice r\ninterface r e0 a\ninterface r e1 b\n'
ROUND = ['enter r e0', 'cross r e1', 'leave', 'enter r e1', 'cross r e0', 'leave']
PLACES = ['in r e0', 'out r e1', 'area b', 'in r e1', 'out r e0', 'area a']
SCRIPT = '\n'.join(['start area a 10.0.0.1 0.0.0.0 0 0 0 0'] + ROUND * 500) + '\n'
STATES = ''.join(f'state {n} {place} stack - mark -\n' for n, place in enumerate(['area a'] + PLACES * 500)) + 'legal\n'
ASKED = AROUND + ''.join(f'sa t{k} esp r r\npop r e0 t{k}\n' for k in range(200)) + 'conf a any\n' * 12
ANSWERS = ''.join(f'ipgoal {k + 1} conf no K0 area a\n' for k in range(12)) + 'no\n'

# Runs in which every list that the program makes has many items.
AT_SIZE = [
    ('twelve lists of 1,500 entries', {'net': STAR, **LISTS}, ['check', 'net'], 1, VERDICTS),
    ('their atoms', {'net': STAR, **LISTS}, ['atoms', 'net'], 0, STAR_ATOMS),
    ('twelve free slots', {'net': STAR + FREE, **LISTS}, ['synth', 'net'], 0, POSTURE),
    ('a network of 75 lines', {'net': STAR + FREE}, ['show', 'net'], 0,
     'depth 8\n' + STAR[:STAR.index('goal')] + FREE + STAR[STAR.index('goal'):]),
    ('a faulty line past the hundredth', {'net': STAR, **LISTS, 'd3.cfg': APPLIED + 'access-list 100 permit tcp any\n'},
     ['check', 'net'], 3, 'refused d3.cfg line 1503 BadEntry\n'),
    ('a faulty line of a network past the hundredth', {'net': '#\n' * 150 + 'area a none\narea a none\n'}, ['show', 'net'], 3,
     'refused net line 152 Duplicate\n'),
    ('3,000 moves', {'net': AROUND, 'script': SCRIPT}, ['trace', 'net', 'script'], 0, STATES),
    ('a faulty line of a script past the hundredth', {'net': AROUND, 'script': SCRIPT + 'enter r e2\n'},
     ['trace', 'net', 'script'], 3, 'refused script line 3002 UnknownName\n'),
    ('200 associations and twelve goals on them', {'net': ASKED}, ['ipsec', 'net'], 1, ANSWERS),
]


def at_size(program):
    """The runs with much to read and to write."""
    for case, files, words, status, text in AT_SIZE:
        yield case, run(program, files, words) == (status, text.encode())


def generated(program):
    """Generated networks, whose goals are all violated for these seeds, by several numbers of workers."""
    for seed in (0, 1, 2, 4294967295):
        for workers in ([], ['7'], ['64']):
            yield f'the network of seed {seed}', run(program, {}, ['gen', str(seed), *workers]) == (1, report(seed).encode())


def strange_streams(program):
    """Runs whose words aren't text, and whose output can't be written."""
    files = {'net': OPEN}
    yield 'a word that is not UTF-8', run(program, files, ['show', b'\xff']) == (7, b'')
    with open('/dev/full', 'wb') as full:
        yield 'output to a full device', run(program, files, ['show', 'net'], stdout=full)[0] == 5
        yield 'usage to a full device', run(program, files, [], stdout=full)[0] == 5
    closed = subprocess.run(['/bin/sh', '-c', '"$0" >&-', program], stdin=subprocess.DEVNULL, timeout=60)
    yield 'output that is closed', closed.returncode == 5


def examples(program):
    """The examples, each with its output beside it and nothing to note, and that of the README, whose output stands there too."""
    for name in ('three-areas', 'branch-office'):
        folder = os.path.join(TOP, 'examples', name)
        with open(os.path.join(folder, 'expected')) as file:
            expected = file.read()
        done = subprocess.run([program, 'check', 'net'], cwd=folder, capture_output=True, timeout=60)
        yield f'the example {name}', (done.returncode, done.stdout) == (1, expected.encode())
        done = subprocess.run([program, 'notes', 'net'], cwd=folder, capture_output=True, timeout=60)
        yield f'the notes of the example {name}', (done.returncode, done.stdout) == (0, b'clean\n')
    with open(os.path.join(TOP, 'examples', 'three-areas', 'expected')) as file:
        shown = ''.join('    ' + line for line in file)
    with open(os.path.join(TOP, 'README.md')) as file:
        yield 'the example\'s output in the README', shown in file.read()


def main():
    program = os.path.abspath(sys.argv[1])
    passed = failed = 0
    for runs in (table, at_size, generated, strange_streams, examples):
        for case, good in runs(program):
            if good:
                passed += 1
            else:
                failed += 1
                print(f'failed: {case}', flush=True)
    print(f'program: {passed} passed, {failed} failed')
    return 1 if failed else 0


if __name__ == '__main__':
    sys.exit(main())
