#!/usr/bin/env python3
"""Runs `netpol` on inputs that are as large, as deep or as awkward as its limits allow.

Usage: bench/hostile.py PROGRAM [WORD]    (wants `cc` for some names)

Each run has to end by itself with the status and, where one is known, the text that its case says. It has the usual stack
of 8 MiB, and 8 GiB of address space, so that it can't take the machine with it; it is killed after 300 seconds. A line says
its seconds, the most memory that it took, its status and the bytes that it wrote. The inputs of the first kind have to end
within 30 seconds of the processor; those of the second, which are known to take long, are measured, and a run that is
killed is said to be. The last line counts the runs, and those that weren't as they have to be. With WORD, only cases whose
name has that word are run. All of them take more than an hour.
"""

import os
import resource
import subprocess
import sys
import tempfile
import threading
import time

SECONDS, KILLED_AFTER = 30, 300
STACK, SPACE = 8 << 20, 8 << 30
LONGEST = 16777216

AREAS = 'area out 0.0.0.0/0\narea lan 10.0.0.0/8\n'
BETWEEN = 'interface r e0 out\ninterface r e1 lan\n'
NET = AREAS + 'device r config r.cfg\n' + BETWEEN + 'goal out lan never tcp\n'
HOP = 'hop r e0 e1\nfails\n'
TCP = 'goal 1 violated 0.0.0.0 0.0.0.0 6 0 0 0\n' + HOP
ALL = 'goal 1 violated 0.0.0.0 0.0.0.0 0 0 0 0\n' + HOP
HOLDS = 'goal 1 holds\nholds\n'


def full(line, first=b''):
    """A file that begins so and has as many such lines as a file may have bytes for."""
    return first + line * ((LONGEST - len(first)) // len(line))


# What fills a file: a name, the line, and what is said of a network that it fills, and of an extended list's section.
FILLS = [
    ('letters in one line', b'a', 'refused net line 1 UnknownStatement\n', TCP),
    ('empty lines', b'\n', 'holds\n', TCP),
    ('spaces in one line', b' ', 'holds\n', TCP),
    ('lines of !', b'!\n', 'refused net line 1 UnknownStatement\n', TCP),
    ('! in one line', b'!', 'refused net line 1 UnknownStatement\n', TCP),
    ('comments', b'#\n', 'holds\n', TCP),
    ('lines of one word', b'a\n', 'refused net line 1 UnknownStatement\n', TCP),
    ('words in one line', b'a ', 'refused net line 1 UnknownStatement\n', TCP),
    ('bytes 0xFF', b'\xff', 'refused net line 1 NotText\n', TCP),
    ('remarks', b'remark x\n', 'refused net line 1 UnknownStatement\n', TCP),
    ('entries', b'permit ip any any\n', 'refused net line 1 UnknownStatement\n', 'refused r.cfg line 20002 TooManyEntries\n'),
]


def filled():
    """16 MiB of one kind of line, as a network, as a configuration, and in a list's section of one."""
    for name, line, net, section in FILLS:
        yield f'{name}: network', {'net': lambda line=line: full(line)}, ['check', 'net'], net
        yield f'{name}: configuration', {'net': NET, 'r.cfg': lambda line=line: full(line)}, ['check', 'net'], TCP
        yield f'{name}: in a list', {'net': NET, 'r.cfg': lambda line=line: full(line, b'ip access-list extended L\n')}, ['check', 'net'], section
        yield f'{name}: notes', {'net': NET, 'r.cfg': lambda line=line: full(line)}, ['notes', 'net'], None
        yield f'{name}: notes in a list', {'net': NET, 'r.cfg': lambda line=line: full(line, b'ip access-list extended L\n')}, ['notes', 'net'], None
        yield f'{name}: script', {'net': NET.replace(' config r.cfg', ''), 's': lambda line=line: full(line)}, ['trace', 'net', 's'], None
    start = b'start area out 0.0.0.0 0.0.0.0 0 0 0 0\n'
    yield 'pops: script', {'net': NET, 's': lambda: full(b'pop\n', start)}, ['trace', 'net', 's'], None
    yield 'moves: script', {'net': NET.replace(' config r.cfg', ''), 's': lambda: full(b'enter r e0\ncross r e0\nleave\n', start)}, ['trace', 'net', 's'], None


def nested():
    """Predicates that are nested as deep as they may be, and one deeper."""
    for depth in (64, 65):
        for name, words, text in [
                ('not', ['not'] * (depth - 1) + ['any'], HOLDS),
                ('and, left', ['and'] * (depth - 1) + ['any'] * depth, ALL),
                ('and, right', ['and any'] * (depth - 1) + ['any'], ALL),
                ('or, left', ['or'] * (depth - 1) + ['any'] * depth, ALL),
                ('or, right', ['or any'] * (depth - 1) + ['any'], ALL)]:
            net = AREAS + 'device r\n' + BETWEEN + 'goal out lan never ' + ' '.join(words) + '\n'
            yield (f'nested {depth} deep: {name}', {'net': net}, ['check', 'net'],
                   text if depth == 64 else 'refused net line 6 TooDeep\n')


def address(number):
    return '.'.join(str(number >> shift & 255) for shift in (24, 16, 8, 0))


def balanced(leaves, operator):
    """A predicate of these leaves, nested as little as may be."""
    if len(leaves) == 1:
        return leaves[0]
    half = len(leaves) // 2
    return f'{operator} {balanced(leaves[:half], operator)} {balanced(leaves[half:], operator)}'


def many_prefixes(count, goals):
    """An area with so many prefixes, which so many goals name."""
    area = 'area a ' + ','.join(address(k * 4099 & 0xffffffff) for k in range(count))
    return area + '\narea b none\ndevice r\ninterface r e0 a\ninterface r e1 b\n' + 'goal a b never src a\n' * goals


def named_often(count, times):
    """An area with so many prefixes, which one goal names so many times."""
    area = 'area a ' + ','.join(address(k << 8) for k in range(count))
    return area + '\narea b none\ndevice r\ninterface r e0 a\ninterface r e1 b\ngoal a b never ' + balanced(['src a'] * times, 'or') + '\n'


def named_in_one(count, times):
    """An area with so many prefixes, which each of 200 goals names so many times."""
    area = 'area a ' + ','.join(address(k << 8) for k in range(count))
    goal = 'goal a b never ' + balanced(['src a'] * times, 'or') + '\n'
    return area + '\narea b none\ndevice r\ninterface r e0 a\ninterface r e1 b\n' + goal * 200


def many_lists_of_addresses(count):
    """A goal on so many lists of 16 addresses, no two of which are the same."""
    lists = [f'src {",".join(address((k << 8) + n) for n in range(16))}' for k in range(count)]
    return AREAS + 'device r\n' + BETWEEN + 'goal out lan never ' + balanced(lists, 'or') + '\n'


def many_words(count):
    """A goal on so many addresses, each with a word of its own."""
    return AREAS + 'device r\n' + BETWEEN + 'goal out lan never ' + balanced([f'dst {address(k * 4099)}' for k in range(count)], 'or') + '\n'


def prefixes():
    """Areas with very many prefixes, which goals name again and again, and predicates of very many words."""
    for count in (100000, 700000, 1000000):
        for goals in (1, 200):
            for command in ('show', 'check', 'atoms'):
                net = lambda count=count, goals=goals: many_prefixes(count, goals)
                yield f'{count} prefixes, {goals} goals: {command}', {'net': net}, [command, 'net'], None
    for count, times in ((10000, 100), (3000, 300), (3000, 3000)):
        yield (f'{count} prefixes that one goal names {times} times: check', {'net': lambda count=count, times=times: named_often(count, times)},
               ['check', 'net'], None)
    for count in (100000, 400000):
        yield f'a predicate of {count} addresses: check', {'net': lambda count=count: many_words(count)}, ['check', 'net'], None
    for count in (2000, 80000):
        yield f'a predicate of {count} lists of 16 addresses: check', {'net': lambda count=count: many_lists_of_addresses(count)}, ['check', 'net'], None


def rules(prefixes, asked):
    """An area with so many prefixes, and so many rules of each of 16 interfaces that ask for them and a port each."""
    net = 'area a ' + ','.join(address(k << 8) for k in range(prefixes)) + '\narea b none\narea c none\n'
    net += ''.join(f'device g{k} trusted\n' for k in range(16)) + ''.join(f'interface g{k} e0 a\ninterface g{k} e1 b\n' for k in range(16))
    net += ''.join(f'inrule g{k} e0 discard unmarked plain and src a dport {1 + n}\n' for k in range(16) for n in range(asked))
    return net + 'auth a b any\n'


def named():
    """Areas that very many predicates name."""
    for times in (1000, 10000, 100000):
        yield (f'10000 prefixes that one goal names {times} times: show', {'net': lambda times=times: named_often(10000, times)},
               ['show', 'net'], None)
    yield '100000 prefixes that 200 goals name 400 times each: check', {'net': lambda: named_in_one(100000, 400)}, ['check', 'net'], None
    yield '100000 prefixes that 200 goals name 4000 times each: check', {'net': lambda: named_in_one(100000, 4000)}, ['check', 'net'], None
    for count in (100, 1000, 4000):
        yield f'{count} prefixes that 4000 rules name: ipsec', {'net': lambda count=count: rules(count, 250)}, ['ipsec', 'net'], None


def devices(files):
    """256 devices that name these files in turn."""
    net = 'area hub none\n' + ''.join(f'area a{k} none\n' for k in range(255))
    net += ''.join(f'device d{k} config {files[k % len(files)]}\n' for k in range(256))
    net += ''.join(f'interface d{k} e0 hub\ninterface d{k} e1 a{k % 255}\n' for k in range(256))
    return net + ''.join(f'goal hub a{k} never tcp\n' for k in range(255))


def entries():
    """A list of as many entries as there may be."""
    return b'interface e0\n ip access-group 100 in\n' + b''.join(
        b'access-list 100 deny tcp host %s any\n' % address(k * 4099).encode() for k in range(20000))


def groups():
    """430,000 lines that apply a list, each at another interface."""
    return b''.join(b'interface %06d\nip access-group A in\n' % k for k in range(430000))


def shared():
    """256 devices that name one file of 16 MiB, or two in turn."""
    of = {
        '!': lambda: full(b'!\n'),
        'lines of one word': lambda: full(b'a\n'),
        '20,000 entries and !': lambda: full(b'!\n', entries()),
        '540,000 lists': lambda: b''.join(b'ip access-list extended %06d\n' % k for k in range(540000)),
        '430,000 groups': groups,
    }
    for name, config in of.items():
        yield f'256 devices, one file of {name}: check', {'net': devices(['r.cfg']), 'r.cfg': config}, ['check', 'net'], None
    for name in ('!', 'lines of one word', '20,000 entries and !', '540,000 lists'):
        yield f'256 devices, one file of {name}: notes', {'net': devices(['r.cfg']), 'r.cfg': of[name]}, ['notes', 'net'], None
    for command in ('check', 'notes'):
        yield f'256 devices, two files of ! in turn: {command}', {'net': devices(['r.cfg', 's.cfg']), 'r.cfg': of['!'], 's.cfg': of['!']}, [command, 'net'], None


def apart():
    """Devices that name a file each, and very many notes for each of 256 devices."""
    for what, count, config in (('20,000 entries', 256, entries), ('430,000 groups', 64, groups)):
        files = [f'r{k}.cfg' for k in range(count)]
        for command in ('check', 'notes'):
            yield f'256 devices, {count} files of {what}: {command}', {'net': devices(files), **dict.fromkeys(files, config)}, [command, 'net'], None
    yield '256 devices, one file of 430,000 groups: notes', {'net': devices(['r.cfg']), 'r.cfg': groups}, ['notes', 'net'], None


def long_name():
    """An interface's name of 64 KiB, and very many lines that apply a list there."""
    groups = lambda: full(b'ip access-group A in\n', b'interface ' + b'x' * 65536 + b'\n')
    for command in ('check', 'notes'):
        yield f'an interface name of 64 KiB and its groups: {command}', {'net': NET, 'r.cfg': groups}, [command, 'net'], None


# Prints names of 9 bytes whose hashes, as the kit's maps make them, end in 16 bits 0. Finding them takes some seconds.
SAME_PLACE = '''
#include <stdint.h>
#include <stdio.h>
#include <stdlib.h>
#define MULTIPLIER 0x9e3779b97f4a7c15ull
static inline uint64_t after(uint64_t state, uint64_t fed, uint64_t length) {
    unsigned __int128 product = (unsigned __int128)(state ^ fed) * (MULTIPLIER ^ 2 * length);
    return (uint64_t)product ^ (uint64_t)(product >> 64);
}
int main(int count, char **words) {
    long left = atol(words[1]);
    for (long first = 0; left; first++) {
        unsigned char name[9];
        long rest = first;
        uint64_t state = after(0x243f6a8885a308d3ull, 9, 8);
        for (int k = 0; k < 7; k++, rest /= 26) state = after(state, (name[k] = 'a' + rest % 26) * 0x010101ull, 1);
        for (int k = 33; k < 256; k++)
            for (int n = 33; n < 256; n++) {
                uint64_t hash = after(after(state, k * 0x010101ull, 1), n * 0x010101ull, 1);
                if (left && ((hash ^ hash >> 32) & 65535) == 0) name[7] = k, name[8] = n, left--, fwrite(name, 1, 9, stdout);
            }
    }
}
'''


def names_at_one_place(count):
    """So many names that a map of the kit puts into one place. This wants a C compiler."""
    with tempfile.TemporaryDirectory() as folder:
        made = os.path.join(folder, 'same')
        subprocess.run(['cc', '-O2', '-x', 'c', '-', '-o', made], input=SAME_PLACE.encode(), check=True)
        text = subprocess.run([made, str(count)], stdout=subprocess.PIPE, check=True).stdout
    return [text[at:at + 9] for at in range(0, len(text), 9)]


def many_lists(found):
    return b''.join(b'ip access-list extended %s\n' % name for name in found)


def many_interfaces(found):
    return b''.join(b'interface %s\n ip access-group A in\n' % name for name in found)


def names():
    """Very many lists and interfaces in one configuration: with plain names, and with such as a map puts into one place."""
    for count in (20000, 40000, 160000, 370000):
        for what, made in (('lists', many_lists), ('interfaces', many_interfaces)):
            config = lambda made=made, count=count: made(b'%09d' % k for k in range(count))
            yield f'{count} {what}', {'net': NET, 'r.cfg': config}, ['check', 'net'], TCP
            if count <= 160000:
                config = lambda made=made, count=count: made(names_at_one_place(count))
                yield f'{count} {what} whose names have one place', {'net': NET, 'r.cfg': config}, ['check', 'net'], TCP


def wide():
    """Few entries whose region has no small diagram: a source that isn't the destination in one of the low bits."""
    for bits in (8, 12, 16, 20, 32):
        entries = ''.join(f'access-list 100 deny ip {address(one << k)} {address(~(1 << k) & 0xffffffff)} {address((1 - one) << k)} '
                          f'{address(~(1 << k) & 0xffffffff)}\n' for k in range(bits) for one in (0, 1))
        config = 'interface e0\n ip access-group 100 in\n' + entries + 'access-list 100 permit ip any any\n'
        yield f'an address that is the other in {bits} bits, {2 * bits + 1} entries', {'net': NET, 'r.cfg': config}, ['check', 'net'], None


def classes(count):
    """So many lists of one entry, each at a slot of its own: a third on sources, on destinations, and on ports. A goal for tcp."""
    entries = [lambda k: f'permit ip host {address(0x0a000000 + k)} any', lambda k: f'permit ip any host {address(0x0b000000 + k)}',
               lambda k: f'permit tcp any any eq {1 + k}']
    files, net, interfaces = {}, 'area hub none\narea a none\n', ''
    for device in range(0, count, 8):
        net += f'device d{device} config {device}\n'
        files[str(device)] = ''
        for k in range(device, min(count, device + 8)):
            if k % 2 == 0:
                interfaces += f'interface d{device} e{k} {"hub" if k % 4 else "a"}\n'
            files[str(device)] += f'interface e{k - k % 2}\n ip access-group L{k} {"out" if k % 2 else "in"}\nip access-list extended L{k}\n'
            files[str(device)] += f' {entries[k % 3](k)}\n'
    return {'net': net + interfaces + 'goal a hub never tcp\n', **files}


def free(count):
    """A ring of so many areas, of which each slot is free, and a goal from each area to the one across."""
    net = ''.join(f'area a{k} none\n' for k in range(count)) + ''.join(f'device d{k}\n' for k in range(count))
    net += ''.join(f'interface d{k} e0 a{k}\ninterface d{k} e1 a{(k + 1) % count}\n' for k in range(count))
    net += ''.join(f'free d{k} e{n} {way}\n' for k in range(count) for n in (0, 1) for way in ('in', 'out'))
    return net + ''.join(f'goal a{k} a{(k + count // 2) % count} never and tcp dport {k}-{k + 40}\n' for k in range(count))


def grown():
    """Networks whose lists tell very many classes of packets apart, and with very many free slots."""
    for count in (300, 600, 1200, 2000):
        files = classes(count)
        yield f'{count} lists on sources, destinations and ports', files, ['check', 'net'], None
    for count in (32, 64, 128, 256):
        yield f'{4 * count} free slots and {count} goals', {'net': free(count)}, ['synth', 'net'], None


def limits():
    resource.setrlimit(resource.RLIMIT_STACK, (STACK, STACK))
    resource.setrlimit(resource.RLIMIT_AS, (SPACE, SPACE))


def write(folder, files):
    """Writes the files, some of which are made only here, in a process of its own: what it takes isn't the program's."""
    writer = os.fork()
    if writer:
        if os.waitpid(writer, 0)[1]:
            raise OSError('the files of a case could not be written')
        return
    for name, text in files.items():
        text = text() if callable(text) else text
        with open(os.path.join(folder, name), 'wb') as file:
            file.write(text if isinstance(text, bytes) else text.encode())
    os._exit(0)


def run(program, files, words):
    """The seconds of a run on the processor and by the clock, the most MB that it took, its status, the first of its bytes and
    how many it wrote."""
    with tempfile.TemporaryDirectory() as folder:
        write(folder, files)
        start = time.monotonic()
        process = subprocess.Popen([program, *words], cwd=folder, stdin=subprocess.DEVNULL, stdout=subprocess.PIPE, preexec_fn=limits)
        killer = threading.Timer(KILLED_AFTER, process.kill)
        killer.start()
        text, count = b'', 0
        for piece in iter(lambda: process.stdout.read1(1 << 20), b''):
            text += piece[:max(0, 1000 - len(text))]
            count += len(piece)
        _, status, usage = os.wait4(process.pid, 0)
        killer.cancel()
        process.returncode = os.waitstatus_to_exitcode(status)
        seconds = usage.ru_utime + usage.ru_stime
        return seconds, time.monotonic() - start, usage.ru_maxrss / 1024, process.returncode, text, count


def status_of(text):
    """The status that a run with this text has."""
    return 3 if text.startswith('refused') else 1 if text.endswith('fails\n') else 0


def main():
    program = os.path.abspath(sys.argv[1])
    word = sys.argv[2] if len(sys.argv) > 2 else ''
    runs = wrongs = 0
    for bound, kinds in ((SECONDS, (filled, nested, prefixes, shared)), (None, (named, apart, long_name, names, wide, grown))):
        for name, files, words, expected in (case for cases in kinds for case in cases()):
            if word not in name:
                continue
            seconds, clock, memory, status, text, count = run(program, files, words)
            good = status in (0, 1, 3, 6) if expected is None else (status, text) == (status_of(expected), expected.encode())
            good = good and seconds <= bound if bound else good or clock >= KILLED_AFTER
            runs, wrongs = runs + 1, wrongs + (not good)
            print(f'{name}: {seconds:.2f} s ({clock:.2f} s by the clock), {memory:.0f} MB, status {status}, {count} bytes{"" if good else ", WRONG"}', flush=True)
    print(f'{runs} runs, {wrongs} wrong')
    return 1 if wrongs else 0


if __name__ == '__main__':
    sys.exit(main())
