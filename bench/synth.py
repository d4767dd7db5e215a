#!/usr/bin/env python3
"""Times `netpol synth` on networks with more and more free slots.

Usage: bench/synth.py [PROGRAM]

Each case is written into a folder of its own and run once; the line says its free slots, its atoms, its seconds and its
status. The default program is bin/netpol of this repository. Nothing here is a test: timings depend on the machine.
"""

import os
import random
import subprocess
import sys
import tempfile
import time

HERE = os.path.dirname(os.path.abspath(__file__))


def line(slots, entries):
    """A line of areas, each device with a list of entries at its way in and a free slot at its way out. Each list names
    ports of its own, so that the lists make atoms; a goal for each area but the last forbids some of the ports at the end."""
    chance = random.Random(1)
    net = [f'area a{k} none' for k in range(slots + 1)]
    net += [f'device d{k} config d{k}.cfg' for k in range(slots)]
    configs = []
    for k in range(slots):
        net += [f'interface d{k} e0 a{k}', f'interface d{k} e1 a{k + 1}', f'free d{k} e1 out']
        config = ['interface e0', ' ip access-group 100 in']
        for _ in range(entries):
            port = chance.randrange(1, 400)
            config.append(f'access-list 100 deny tcp any any eq {port}')
        configs.append(config + ['access-list 100 permit ip any any'])
    net += [f'goal a{k} a{slots} never and tcp dport {100 + k}-{140 + k}' for k in range(slots)]
    return net, configs


def run(program, net, configs):
    with tempfile.TemporaryDirectory() as folder:
        with open(os.path.join(folder, 'net'), 'w') as file:
            file.write('\n'.join(net) + '\n')
        for k, config in enumerate(configs):
            with open(os.path.join(folder, f'd{k}.cfg'), 'w') as file:
                file.write('\n'.join(config) + '\n')
        start = time.monotonic()
        ended = subprocess.run([program, 'synth', 'net'], cwd=folder, stdout=subprocess.PIPE, check=False)
        return time.monotonic() - start, ended


def main():
    program = os.path.abspath(sys.argv[1] if len(sys.argv) > 1 else os.path.join(HERE, '..', 'bin', 'netpol'))
    for slots in (8, 16, 32):
        seconds, ended = run(program, *line(slots, 120))
        first = ended.stdout.split(b'\n', 1)[0].decode()
        print(f'{slots} free slots, {first}: {seconds:.3f} s, {len(ended.stdout)} bytes, status {ended.returncode}')


if __name__ == '__main__':
    main()
