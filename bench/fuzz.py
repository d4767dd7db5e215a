#!/usr/bin/env python3
"""Runs `netpol` on examples and small texts that are changed by chance, and holds each run to what every run has to be.

Usage: bench/fuzz.py PROGRAM [RUNS] [SEED]

A run ends by itself within 10 seconds, writes nothing to standard error, and has a status of 0 to 4 and a text that fits
it (5 and 6 need a device or memory that fails): `usage` exactly where the words fit no command; a refusal that names one
of the run's files, a line that it has and a cause of its kind; a whole report with the last line that its status says; no
text where a file isn't there. A second run gives the same, with another number of workers where the command takes one,
and `show` of what `show` wrote does too. What an older program doesn't know (WORKERS, `notes`, `gen`) is left out. The last
line says how many runs ended with each status and how many were wrong; the folder of a wrong run is kept. Without RUNS and
SEED it makes 10,000 runs from seed 1.
"""

import collections
import os
import random
import re
import shutil
import subprocess
import sys
import tempfile

EXAMPLES = os.path.join(os.path.dirname(os.path.abspath(__file__)), '..', 'examples')
SECONDS = 10

# The most bytes of a file.
LONGEST = 16777216

GUARDED = '''depth 4
area x 10.1.0.0/16 trusted
area net 0.0.0.0/0
area y 10.2.0.0/16 trusted
device gx trusted
device gy trusted
device w
interface gx e0 x
interface gx e1 net
interface gy e0 net
interface gy e1 y
sa t esp gx gy
sa u ah w gy
pop gy e0 t
inrule gx e0 bypass unmarked plain and src x dst y
outrule gx e1 protect t plain and src x dst y
outrule gx e1 bypass under t
inrule gy e0 bypass popped t plain and src x dst y
outrule gy e1 bypass plain and src x dst y
auth x y src x
conf x dst y
'''
SCRIPT = '''start area x 10.1.0.1 10.2.0.1 6 1024 80 0
enter gx e0
cross gx e1
push t
leave
enter gy e0
pop
cross gy e1
leave
'''
AROUND = '''area a 10.1.0.0/16
area m 10.2.0.0/16,10.9.0.1
area s none
area b 10.4.0.0/16
device d1
device d2 config d2.cfg
device d3 config d3.cfg
interface d1 e0 a
interface d1 e1 m
interface d2 e0 m
interface d2 e1 s
interface d3 e0 s
interface d3 e1 b
free d2 e1 out
free d1 e0 in
goal a b never and udp not dport 53-99
goal b a only or established and icmp type 8
goal a s never or dscp 46 and src a not dst 10.4.0.0/17,10.4.200.1
goal m b only not proto 47
'''
FORMS = '''interface e0
 ip access-group ONE in
 ip access-group 101 out
interface e1
 ip access-group 10 in
ip access-list extended ONE
 10 permit tcp any 10.0.0.0 0.255.255.255 eq www 443 established
 20 deny udp host 10.1.2.3 range 100 200 any neq domain log
 remark all kinds of entries
 permit icmp any any 3 4
 deny icmp any any echo
 permit ip 10.1.0.7 0.0.255.0 any precedence critical
 deny ip any any dscp ef log-input
access-list 101 permit gre any any
access-list 101 permit tcp any gt 1023 any lt 1024
access-list 10 deny host 10.9.0.1
access-list 10 permit 10.0.0.0 0.255.255.255
'''

# Words that may stand somewhere, and numbers at limits.
WORDS = ('any nothing not and or none trusted config free goal only never src dst sport dport type code established dscp proto tcp udp '
         'icmp esp ah esp-enc esp-null protect bypass discard plain under every unmarked popped anymark depth auth conf in out area '
         'permit deny remark host eq neq lt gt range log evaluate dynamic no ip access-list access-group extended standard interface '
         'access-list precedence fragments start enter cross push pop leave # ! - , / 10.0.0.0/33 1.2.3.4 255.255.255.255').split()
LIMITS = ('0 1 7 8 16 17 63 64 65 99 100 199 200 255 256 1023 1024 1999 2000 2699 2700 32767 65535 65536 2147483647 2147483648 '
          '4294967295 4294967296 18446744073709551615 18446744073709551616 00000000000000000001').split()
BYTES = [b'\r', b'\0', b'\t', b' ', b'\n', b'\x7f', b'\x80', b'\xff', b'#', b'!', b'\n\n', b'\r\n', b'\x1b']

HEADER = r'(\d+\.){3}\d+ (\d+\.){3}\d+ \d+ \d+ \d+ [01]( dscp=\d+)?'
HOP = r'hop \S+ \S+ \S+\n'
SETS = r'(-|\d+(-\d+)?(,\d+(-\d+)?)*)'
FAULT = r'(A0|K0) (area \S+|interface \S+ \S+)|A1 area \S+ ' + HEADER + r'|A2 \S+ \S+ (unmarked|popped \S+) ' + HEADER \
    + r'|K1 \S+ \S+ ' + HEADER + r'|K2 \S+ \S+ under \S+'
# What each command writes with status 0, and with status 1 where it has one.
REPORTS = {
    'check': (r'(goal \d+ holds\n)*holds\n', rf'(goal \d+ holds\n|goal \d+ violated {HEADER}\n({HOP})+)+fails\n'),
    'atoms': (rf'cuts \d+\n(cut \d+ (list \S+ \S+|goal \d+)\n)*atoms \d+\n(atom \d+ {HEADER} ([01]+|-)\n)+', None),
    'synth': (rf'atoms \d+\n(atom \d+ {HEADER}\n)+(slot \S+ \S+ (in|out) {SETS}\n(drop \d+ goal \d+\n({HOP})+)*)*synthesised\n',
              rf'unattainable goal \d+ {HEADER}\n({HOP})+'),
    'ipsec': (r'(ipgoal \d+ (auth|conf) yes\n)*yes\n', rf'(ipgoal \d+ (auth|conf) (yes|no ({FAULT}))\n)+no\n'),
    'trace': (r'(state \d+ .*\n)+legal\n', r'(state \d+ .*\n)*(illegal \d+ \w+\n)?(breach \d+ state \d+\n)*(il)?legal\n'),
    'show': (r'depth \d+\n((area|device|interface|free|goal|sa|pop|inrule|outrule|auth|conf) .*\n)*', None),
    'notes': (r'clean\n', r'(note \S+ (line \d+ \S+( \S+)?|no-interface \S+)\n)+notes\n'),
    'gen': (r'gen \d+\nareas \d+ devices \d+ interfaces \d+ goals \d+\natoms \d+\nviolated 0\nhops 0\n',
            r'gen \d+\nareas \d+ devices \d+ interfaces \d+ goals \d+\natoms \d+\nviolated [1-9]\d*\nhops [1-9]\d*\n'),
}
CAUSES = {
    'net': ('NotText UnknownStatement BadShape BadName BadNumber Duplicate UnknownName TooMany BadPred TooDeep SameArea WrongEnd').split(),
    'script': 'NotText NoStart BadMove UnknownName BadNumber'.split(),
    'config': 'BadEntry Unsupported UnknownName BadNumber BadRange DuplicateSequence Negated TooManyEntries'.split(),
}
# Whether the command reads the configurations.
READS = {'check': True, 'atoms': True, 'synth': True, 'notes': True, 'ipsec': False, 'trace': False, 'show': False}


def bases():
    """The texts that are changed: each a network, configurations, and a script."""
    found = []
    for name in sorted(os.listdir(EXAMPLES)):
        files = {}
        for file in sorted(os.listdir(os.path.join(EXAMPLES, name))):
            if file != 'expected':
                with open(os.path.join(EXAMPLES, name, file), 'rb') as text:
                    files[file] = text.read()
        found.append(files)
    found.append({'net': GUARDED.encode(), 'script': SCRIPT.encode()})
    found.append({'net': AROUND.encode(), 'd2.cfg': FORMS.encode(), 'd3.cfg': FORMS.encode()})
    found.append({'net': (GUARDED + AROUND.replace(' config d2.cfg', '')).encode(), 'd3.cfg': FORMS.encode(), 'script': SCRIPT.encode()})
    return found


def change_bytes(chance, text):
    """A byte or a piece is changed, left out, put twice, or cut off."""
    at = chance.randrange(len(text) + 1)
    to = min(len(text), at + chance.choice((1, 1, 2, 8, 40)))
    kind = chance.randrange(5)
    if kind == 0 and at < len(text):
        return text[:at] + bytes([text[at] ^ 1 << chance.randrange(8)]) + text[at + 1:]
    if kind == 1:
        return text[:at] + text[to:]
    if kind == 2:
        return text[:to] + text[at:]
    if kind == 3:
        return text[:at]
    return text[:at] + chance.choice(BYTES) + text[at:]


def change_lines(chance, text, other):
    """A line is left out, put twice or elsewhere, changes places with another, or comes from another text."""
    lines = text.split(b'\n')
    at, to = chance.randrange(len(lines)), chance.randrange(len(lines))
    kind = chance.randrange(5)
    if kind == 0:
        del lines[at]
    elif kind == 1:
        lines[to:to] = [lines[at]] * chance.choice((1, 1, 1, 2, 300))
    elif kind == 2:
        lines.insert(to, lines.pop(at))
    elif kind == 3:
        lines[at], lines[to] = lines[to], lines[at]
    else:
        lines.insert(at, chance.choice(other.split(b'\n')))
    return b'\n'.join(lines)


def change_words(chance, text, other):
    """A word is left out, put twice or many times, changes places with another, or becomes a word or number of another kind."""
    lines = text.split(b'\n')
    at = chance.randrange(len(lines))
    words = lines[at].split(b' ')
    here, there = chance.randrange(len(words)), chance.randrange(len(words))
    kind = chance.randrange(6)
    if kind == 0:
        del words[here]
    elif kind == 1:
        words[here:here] = [words[there]] * chance.choice((1, 1, 2, 61, 62, 63, 64, 65, 2000))
    elif kind == 2:
        words[here], words[there] = words[there], words[here]
    elif kind == 3:
        words[here] = chance.choice(LIMITS).encode()
    elif kind == 4:
        words[here] = chance.choice((chance.choice(WORDS).encode(), chance.choice(other.split() or [b'x'])))
    else:
        words[here] = chance.choice((b'a', b'9', words[here] or b'x')) * chance.choice((3, 63, 64, 65, 1000, 70000))
    lines[at] = b' '.join(words)
    return b'\n'.join(lines)


def changed(chance, files, others):
    """The files with some changes, most often one to three."""
    files = dict(files)
    for _ in range(min(12, int(chance.expovariate(0.5)))):
        name, other = chance.choice(list(files)), chance.choice(others)
        text, donor = files[name], chance.choice(list(other.values()))
        kind = chance.randrange(10)
        if kind < 3:
            files[name] = change_bytes(chance, text)
        elif kind < 6:
            files[name] = change_lines(chance, text, donor)
        elif kind < 9:
            files[name] = change_words(chance, text, donor)[:LONGEST + 1000]
        elif chance.randrange(8) == 0:
            del files[name]
            if not files:
                break
        else:
            files[name] = text.replace(b'\n', b'\r\n') if chance.randrange(2) else (text * 2)[:200000]
    return files


def usage(program, *words):
    """Whether the program answers `usage` in an empty folder."""
    with tempfile.TemporaryDirectory() as folder:
        return execute(program, folder, words)[:2] == (2, b'usage\n')


def execute(program, folder, words):
    """The status, the text and the errors of a run. A status of None says that it was killed for its time."""
    try:
        done = subprocess.run([program, *words], cwd=folder, stdin=subprocess.DEVNULL, capture_output=True, timeout=SECONDS, check=False)
    except subprocess.TimeoutExpired:
        return None, b'', b''
    return done.returncode, done.stdout, done.stderr


def command(chance, known, workers):
    """The words of a run, others that have to give the same, and whether they fit a command."""
    name = chance.choice(known) if chance.randrange(40) else 'gen'
    if name == 'gen' and (chance.randrange(4) == 0 or 'gen' not in known):
        return ['gen', '4294967296'], ['gen', '4294967296'], False
    words = [name, str(chance.choice((chance.randrange(100), chance.randrange(2 ** 32))))] if name == 'gen' else [name, 'net']
    if name == 'trace':
        words.append('script')
    if chance.randrange(50) == 0:
        bad = chance.choice(([], words[:1], words + ['net', 'net'], ['--help'], [''], words[:1] + [''] * 4, ['check', 'net', '65']))
        return bad, bad, False
    others = words + [str(chance.randrange(1, 65))] if name in workers else words
    return words, others, True


def lines_in(text):
    return text.count(b'\n') + (1 if text and not text.endswith(b'\n') else 0)


def is_refusal(files, configs, name, text):
    """Whether this is a refusal of one of the run's files: it is too long, or has such a line, and the cause is of its kind."""
    said = re.fullmatch(rb'refused (.*) (?:line (\d+) (\w+)|too-long)\n', text)
    if not said:
        return False
    file = files.get(os.fsdecode(said.group(1)), b'')
    kinds = [kind for kind in ('net', 'script') if said.group(1) == kind.encode()]
    if name != 'trace' and 'script' in kinds:
        kinds.remove('script')
    if READS.get(name) and said.group(1) in configs:
        kinds.append('config')
    if not said.group(2) or len(file) > LONGEST:
        return bool(kinds) and not said.group(2) and len(file) > LONGEST
    number, why = int(said.group(2)), said.group(3).decode()
    return any(why in CAUSES[kind] for kind in kinds) and 1 <= number <= lines_in(file) + (why == 'NoStart')


def fault_of(files, words, fits, run):
    """What is wrong with a run, or None."""
    status, text, errors = run
    if status is None:
        return f'not ended after {SECONDS} s'
    if errors:
        return 'something on standard error'
    if not fits or status == 2:
        return None if not fits and (status, text) == (2, b'usage\n') else 'usage'
    name = words[0]
    configs = set(re.findall(rb'[^ \t\r\n]+', files.get('net', b'')))
    if status in (0, 1):
        form = REPORTS[name][status]
        return None if form and re.fullmatch(form.encode(), text) and shows(name, status, text) else 'the report'
    if status == 3:
        return None if is_refusal(files, configs, name, text) else 'the refusal'
    if status == 4:
        wanted = ['net'] + ['script'] * (name == 'trace') + [os.fsdecode(file) for file in configs if READS.get(name)]
        return None if not text and any(file not in files for file in wanted) else 'a file that could not be read'
    return f'status {status}'


def shows(name, status, text):
    """Whether the report is of its status where its form alone doesn't say so."""
    if name == 'check' and status == 1:
        return b' violated ' in text
    if name == 'ipsec' and status == 1:
        return b' no ' in text
    if name == 'trace' and status == 1:
        return (b'\nbreach ' in text or b'illegal ' in text) and (b'illegal ' in text) == text.endswith(b'illegal\n')
    return True


def one(program, chance, known, workers, folder):
    """Makes a case in this folder and runs it. Answers its words, its status, and what is wrong."""
    others = bases()
    files = changed(chance, chance.choice(others), others)
    for name, text in files.items():
        with open(os.path.join(folder, name), 'wb') as out:
            out.write(text)
    words, again, fits = command(chance, known, workers)
    run = execute(program, folder, words)
    wrong = fault_of(files, words, fits, run)
    if wrong is None and execute(program, folder, again) != run:
        wrong = f'another run differs: {again}'
    if wrong is None and words[:1] == ['show'] and run[0] == 0:
        with open(os.path.join(folder, 'shown'), 'wb') as out:
            out.write(run[1])
        if execute(program, folder, ['show', 'shown']) != run:
            wrong = 'the canonical text isn\'t its own'
    return words, run[0], wrong


def main():
    program = os.path.abspath(sys.argv[1])
    runs = int(sys.argv[2]) if len(sys.argv) > 2 else 10000
    seed = int(sys.argv[3]) if len(sys.argv) > 3 else 1
    known = [name for name in REPORTS if not usage(program, name, *{'trace': ('net', 'script'), 'gen': ('1',)}.get(name, ('net',)))]
    workers = [name for name in ('check', 'gen') if name in known and not usage(program, name, {'gen': '1'}.get(name, 'net'), '2')]
    print(f'seed {seed}, commands {" ".join(known)}, with workers: {" ".join(workers) or "none"}', flush=True)
    statuses, wrongs = collections.Counter(), 0
    for number in range(runs):
        folder = tempfile.mkdtemp(prefix=f'netpol-fuzz-{seed}-{number}-')
        words, status, wrong = one(program, random.Random(f'{seed} {number}'), known, workers, folder)
        statuses[status] += 1
        if wrong is None:
            shutil.rmtree(folder)
        else:
            wrongs += 1
            print(f'run {number}: {wrong}, status {status}, words {words}, kept in {folder}', flush=True)
    ended = ', '.join(f'status {status}: {count}' for status, count in sorted(statuses.items(), key=str))
    print(f'{runs} runs, {ended}; {wrongs} wrong')
    return 1 if wrongs else 0


if __name__ == '__main__':
    sys.exit(main())
