#!/usr/bin/env python3
"""Refuses the memory that `netpol` asks for, one allocation at a time, and compares.

Usage: bench/refuse_memory.py PROGRAM [MOST]

Each run below is made once with ample memory, to count its allocations, and then once for each of them: that one is
refused, as `malloc` or `realloc` refuses it, and the ones after it are not. The run has to end with status 6 and write
nothing, or to end and write as with ample memory. Where a run makes more than MOST allocations, 25,000 by default, the
first half of so many are refused, and as many others at equal distances. The last line counts the wrong ones.

The program is the one that is named, unchanged on disk. It is stopped at the start of `main` by ptrace; its own entries
for `malloc` and `realloc` are then led through a few instructions that count, which lie where the program's first
instructions were. So this wants 64-bit x86 Linux and a program with its symbols, linked to the C library.
"""

import ctypes
import os
import signal
import struct
import sys
import tempfile
import threading

from fuzz import GUARDED, SCRIPT, usage

TRACEME, CONT, DETACH, GETREGS, SETREGS, SETOPTIONS, TRACE_EXIT = 0, 7, 17, 12, 13, 0x4200, 0x40
SECONDS = 60

OPEN = 'area out 0.0.0.0/0\narea lan 10.0.0.0/8\ndevice r\ninterface r e0 out\ninterface r e1 lan\ngoal out lan never tcp\n'
SHUT = OPEN.replace('device r\n', 'device r config r.cfg\n')
DENY = 'interface e0\n ip access-group 100 in\naccess-list 100 deny tcp any any\naccess-list 100 permit ip any any\n'
PLAIN = GUARDED.replace('depth 4\n', '')
RUNS = [
    ({'net': SHUT, 'r.cfg': DENY}, ['check', 'net']),
    ({'net': SHUT, 'r.cfg': DENY}, ['check', 'net', '2']),
    ({'net': SHUT, 'r.cfg': DENY}, ['atoms', 'net']),
    ({'net': SHUT, 'r.cfg': DENY}, ['notes', 'net']),
    ({'net': OPEN + 'free r e0 in\nfree r e1 out\n'}, ['synth', 'net']),
    ({'net': PLAIN}, ['ipsec', 'net']),
    ({'net': PLAIN, 'script': SCRIPT}, ['trace', 'net', 'script']),
    ({'net': OPEN}, ['show', 'net']),
    ({'net': OPEN + 'color red\n'}, ['show', 'net']),
    ({}, ['gen', '1']),
    ({}, ['gen', '1', '2']),
]

libc = ctypes.CDLL(None, use_errno=True)
libc.ptrace.argtypes = [ctypes.c_long] * 4
libc.ptrace.restype = ctypes.c_long


def ptrace(request, pid, address=0, data=0):
    if libc.ptrace(request, pid, address, data) < 0:
        raise OSError(ctypes.get_errno(), f'ptrace {request}')


class Program:
    """Where the program has its entry, `main`, its entries for `malloc` and `realloc`, and 24 bytes of free memory."""

    def __init__(self, path):
        self.path = path
        with open(path, 'rb') as file:
            elf = file.read()
        self.entry, phoff, shoff = struct.unpack_from('<3Q', elf, 24)
        phsize, phcount, shsize, shcount = struct.unpack_from('<4H', elf, 54)
        segments = [struct.unpack_from('<2I6Q', elf, phoff + n * phsize) for n in range(phcount)]
        # The end of the last page that can be written.
        self.free = max((s[3] + s[6] + 4095) // 4096 * 4096 for s in segments if s[0] == 1 and s[1] & 2) - 24
        sections = [struct.unpack_from('<2I4Q2I2Q', elf, shoff + n * shsize) for n in range(shcount)]
        self.slots = {}
        for section in sections:
            _, kind, _, _, offset, size, link, _, _, each = section
            if kind == 2:
                for at in range(offset, offset + size, each):
                    if name(elf, sections[link], at) == 'main':
                        self.main = struct.unpack_from('<Q', elf, at + 8)[0]
            if kind == 4:
                symbols = sections[link]
                for at in range(offset, offset + size, each):
                    slot, info = struct.unpack_from('<2Q', elf, at)
                    self.slots[name(elf, sections[symbols[6]], symbols[4] + (info >> 32) * 24)] = slot


def name(elf, strings, symbol):
    """The name of a symbol."""
    at = strings[4] + struct.unpack_from('<I', elf, symbol)[0]
    return elf[at:elf.index(b'\0', at)].decode()


def counting(entry, free):
    """The instructions for `malloc` and then those for `realloc`: count down, and answer null where none is left to count."""
    code = b''
    for original in (free + 8, free + 16):
        at = entry + len(code)
        code += b'\xf0\x48\xff\x0d' + struct.pack('<i', free - at - 8)
        code += b'\x74' + bytes([entry + 32 - at - 10])
        code += b'\xff\x25' + struct.pack('<i', original - at - 16)
    return code + b'\x31\xc0\xc3'


def refuse_from(program, pid, count):
    """Stops the program at `main` and has its allocation of this number refused. Answers where the count stands."""
    with open(f'/proc/{pid}/auxv', 'rb') as file:
        auxv = file.read()
    values = struct.unpack(f'<{len(auxv) // 8}Q', auxv)
    base = dict(zip(values[::2], values[1::2]))[9] - program.entry
    with open(f'/proc/{pid}/mem', 'r+b', buffering=0) as memory:
        def read(at, size):
            memory.seek(base + at)
            return memory.read(size)

        def write(at, data):
            memory.seek(base + at)
            memory.write(data)

        first = read(program.main, 1)
        write(program.main, b'\xcc')
        ptrace(CONT, pid)
        os.waitpid(pid, 0)
        write(program.main, first)
        registers = (ctypes.c_uint64 * 27)()
        ptrace(GETREGS, pid, 0, ctypes.addressof(registers))
        if registers[16] != base + program.main + 1:
            raise OSError('the program did not stop at main')
        registers[16] -= 1
        ptrace(SETREGS, pid, 0, ctypes.addressof(registers))
        malloc, realloc = program.slots['malloc'], program.slots['realloc']
        write(program.free, struct.pack('<q', count) + read(malloc, 8) + read(realloc, 8))
        write(program.entry, counting(program.entry, program.free))
        write(malloc, struct.pack('<Q', base + program.entry))
        write(realloc, struct.pack('<Q', base + program.entry + 16))
    return base + program.free


def run(program, folder, words, count):
    """A run whose allocation of this number is refused: its status, its text, and what is left to count, where that is asked
    for by a count below 0."""
    output, theirs = os.pipe()
    pid = os.fork()
    if pid == 0:
        os.chdir(folder)
        os.dup2(os.open(os.devnull, os.O_RDONLY), 0)
        os.dup2(theirs, 1)
        os.close(output)
        ptrace(TRACEME, 0)
        os.execve(program.path, [program.path, *words], dict(os.environ, LD_BIND_NOW='1'))
    os.close(theirs)
    os.waitpid(pid, 0)
    counter, left = refuse_from(program, pid, count), None
    killer = threading.Timer(SECONDS, os.kill, (pid, signal.SIGKILL))
    killer.start()
    if count < 0:
        ptrace(SETOPTIONS, pid, 0, TRACE_EXIT)
        ptrace(CONT, pid)
        os.waitpid(pid, 0)
        with open(f'/proc/{pid}/mem', 'rb', buffering=0) as memory:
            memory.seek(counter)
            left = struct.unpack('<q', memory.read(8))[0]
    ptrace(DETACH, pid)
    with open(output, 'rb') as file:
        text = file.read()
    status = os.waitstatus_to_exitcode(os.waitpid(pid, 0)[1])
    killer.cancel()
    return status, text, left


def refused(count, most):
    """The numbers of the allocations that are refused."""
    if count <= most:
        return range(1, count + 1)
    half = most // 2
    return [*range(1, half + 1), *(half + (count - half) * n // half for n in range(1, half + 1))]


def main():
    program = Program(os.path.abspath(sys.argv[1]))
    most = int(sys.argv[2]) if len(sys.argv) > 2 else 25000
    tried = wrongs = 0
    for files, words in RUNS:
        # Words that an older program doesn't know.
        if usage(program.path, *words):
            print(f'{" ".join(words)}: not known')
            continue
        with tempfile.TemporaryDirectory() as folder:
            for file, text in files.items():
                with open(os.path.join(folder, file), 'w') as out:
                    out.write(text)
            status, text, left = run(program, folder, words, -1)
            count, ends = -1 - left, {'without memory': 0, 'as with ample memory': 0, 'wrong': 0}
            for number in refused(count, most):
                ended = run(program, folder, words, number)[:2]
                if ended == (6, b''):
                    ends['without memory'] += 1
                elif ended == (status, text):
                    ends['as with ample memory'] += 1
                else:
                    ends['wrong'] += 1
                    print(f'{" ".join(words)}, allocation {number}: status {ended[0]}, {ended[1][:100]!r}')
        tried, wrongs = tried + sum(ends.values()), wrongs + ends['wrong']
        print(f'{" ".join(words)}, status {status}: {count} allocations, {sum(ends.values())} refused, ' + ', '.join(f'{ends[end]} {end}' for end in ends),
              flush=True)
    print(f'{tried} allocations refused, {wrongs} wrong')
    return 1 if wrongs else 0


if __name__ == '__main__':
    sys.exit(main())
