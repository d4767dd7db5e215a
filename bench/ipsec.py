#!/usr/bin/env python3
"""Times `netpol ipsec` on networks with many associations, rules and goals.

Usage: bench/ipsec.py [PROGRAM]

Each case is written into a folder of its own and run once; the line says its seconds, its last line and its status. The
default program is bin/netpol of this repository. Nothing here is a test: timings depend on the machine.
"""

import os
import subprocess
import sys
import tempfile
import time

HERE = os.path.dirname(os.path.abspath(__file__))


def star(associations, rules, goals):
    """Gateways around a net that isn't trusted, each with an area of its own behind it; from each to the next so many
    associations, with rules for the hosts that they protect, and goals between the areas."""
    gateways = 8
    net = ['area net 0.0.0.0/0']
    net += [f'area x{k} 10.{k}.0.0/16 trusted' for k in range(gateways)]
    net += [f'device g{k} trusted' for k in range(gateways)]
    for k in range(gateways):
        net += [f'interface g{k} e0 x{k}', f'interface g{k} e1 net']
    each = associations // gateways
    for k in range(gateways):
        net += [f'sa t{k}-{n} esp g{k} g{(k + 1) % gateways}' for n in range(each)]
    lines = []
    for n in range(each):
        for k in range(gateways):
            to = (k + 1) % gateways
            hosts = f'and src 10.{k}.{n}.0/24 dst 10.{to}.{n}.0/24'
            lines += [
                f'outrule g{k} e1 protect t{k}-{n} plain {hosts}',
                f'outrule g{k} e1 bypass under t{k}-{n}',
                f'pop g{to} e1 t{k}-{n}',
                f'inrule g{to} e1 bypass popped t{k}-{n} plain {hosts}',
            ]
    net += lines[:rules]
    for n in range(goals // 2):
        k = n % gateways
        net += [f'auth x{k} x{(k + 1) % gateways} and src x{k} dst 10.{(k + 1) % gateways}.{n}.0/24']
        net += [f'conf x{k} and src x{k} dst 10.{(k + 1) % gateways}.{n}.0/24']
    return net


def dear():
    """Sixteen goals of any packet, and an interface that removes 64 associations which give no integrity, with 192 rules on
    sources and destinations: some 9,000 classes of packets, each asked with each mark."""
    net = ['area x 10.0.0.0/8 trusted', 'area net 0.0.0.0/0', 'area y none trusted', 'device gx trusted', 'device gy trusted',
           'interface gx e0 x', 'interface gx e1 net', 'interface gy e0 net', 'interface gy e1 y']
    net += [f'sa t{k} esp-enc gx gy' for k in range(64)]
    net += [f'pop gy e0 t{k}' for k in range(64)]
    net += [f'inrule gy e0 discard anymark plain {end} 10.{k}.0.0/16' for end in ('src', 'dst') for k in range(96)]
    return net + ['auth x y any'] * 16


def dear_conf():
    """Sixteen goals of any packet, and 256 gateways with an interface each on an area and on a net that isn't trusted: 192 rules of
    the first one on sources and destinations make some 9,000 classes of packets, and each other has 14 of these rules and lets out
    what isn't the area's."""
    net = ['area x 10.0.0.0/8 trusted', 'area net 0.0.0.0/0']
    net += [f'device g{k} trusted' for k in range(256)]
    net += [f'interface g{k} {name}' for k in range(256) for name in ('e0 x', 'e1 net')]
    net += [f'sa t{k} ah g{k} g{(k + 1) % 256}' for k in range(256)]
    net += [f'outrule g0 e1 discard plain {end} 10.{k}.0.0/16' for end in ('src', 'dst') for k in range(96)]
    for k in range(1, 256):
        net += [f'outrule g{k} e1 discard plain src 10.{(k + n) % 96}.0.0/16' for n in range(14)]
        net += [f'outrule g{k} e1 bypass plain not src x']
    return net + ['conf x any'] * 16


def run(program, net):
    with tempfile.TemporaryDirectory() as folder:
        with open(os.path.join(folder, 'net'), 'w') as file:
            file.write('\n'.join(net) + '\n')
        start = time.monotonic()
        ended = subprocess.run([program, 'ipsec', 'net'], cwd=folder, stdout=subprocess.PIPE, check=False)
        return time.monotonic() - start, ended


def main():
    program = os.path.abspath(sys.argv[1] if len(sys.argv) > 1 else os.path.join(HERE, '..', 'bin', 'netpol'))
    for associations, rules, goals in ((16, 64, 16), (64, 256, 16), (256, 1024, 256)):
        seconds, ended = run(program, star(associations, rules, goals))
        last = ended.stdout.decode().splitlines()[-1:] or ['']
        print(f'{associations} associations, {rules} rules, {goals} goals: {seconds:.3f} s, {last[0]}, status {ended.returncode}')
    seconds, ended = run(program, dear())
    print(f'64 associations, 256 rules, 16 goals, each packet with each mark: {seconds:.3f} s, status {ended.returncode}')
    seconds, ended = run(program, dear_conf())
    print(f'256 associations, 4,017 rules, 16 goals, each packet at 512 interfaces: {seconds:.3f} s, status {ended.returncode}')


if __name__ == '__main__':
    main()
