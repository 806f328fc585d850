#!/usr/bin/env python3
"""Prints docs/BASE.md: the sizes of the crates as they stand, and the verdicts, counts and ratios in a log of the gate.

    { time .ci/run; } >LOG 2>&1
    python3 .ci/base.py LOG >docs/BASE.md
"""
import collections
import pathlib
import re
import sys

root = pathlib.Path(__file__).resolve().parent.parent
log = pathlib.Path(sys.argv[1]).read_text(encoding='utf-8') if len(sys.argv) == 2 else sys.exit(__doc__)

HEAD = '''# The base

Numbers of the base, the 'before' of every later change. Sizes are those of this tree; verdicts, counts and ratios are from one run of the gate.
Printed by `python3 .ci/base.py LOG`, where LOG holds what `.ci/run` printed.

## Crates

Lines that are neither blank nor a comment nor an import. Code is src/ without its clauses (`requires`, `ensures`), definitions are specs/, proofs are
proofs/ with the tables of cases. Functions are those with a body. 'Proof' says whether the crate was proved in that run, or is kept: an earlier run on
that machine proved the same files. 'Refused' counts the must-fail edits that the checker refused, in that run or an earlier one.
'''


def lines(files):
    """The lines that count, of all the files."""
    found = []
    for file in sorted(files):
        found += [line.strip() for line in file.read_text(encoding='utf-8').splitlines()]
    imports = re.compile(r'(ghost |pub )?(use|mod) ')
    return [line for line in found if line and not line.startswith(('//', '--')) and not imports.match(line)]


def clauses(source):
    """How many of the lines are in a clause, which ends where its braces close."""
    count = depth = 0
    for line in source:
        if depth or re.match(r'(requires|ensures)\b', line):
            count += 1
            depth += line.count('{') - line.count('}')
    return count


def row(cells):
    return '| ' + ' | '.join(f'{c:,}' if isinstance(c, int) else c for c in cells) + ' |'


crates = re.findall(r'^(\w+)(?: staticlib)?:', (root / 'crates.txt').read_text(encoding='utf-8'), re.M)
proved = {name: 'in this run' if how == 'proved' else 'kept' for name, how in re.findall(r'^rt: (\w+) (proved$|is kept:)', log, re.M)}
edits = collections.Counter(re.findall(r'^rt: must-fail (\w+)/[\w.-]+: refused', log, re.M))

print(HEAD)
print(row(['crate', 'functions', 'code', 'clauses', 'definitions', 'proofs', 'must-fail edits', 'refused', 'proof']))
print('|---' + '|---:' * 7 + '|---|')
total = [0] * 7
for crate in crates:
    at = root / 'crates' / crate
    source = lines(at.glob('src/**/*.rt'))
    functions = sum(bool(re.match(r'(pub )?(extern "C" )?fn ', line)) for line in source)
    stated = clauses(source)
    sizes = [functions, len(source) - stated, stated, len(lines(at.glob('specs/**/*.antt'))), len(lines(at.glob('proofs/**/*.antt'))), len(list(at.glob('must-fail/*.edit')))]
    sizes.append(edits[crate])
    total = [a + b for a, b in zip(total, sizes)]
    print(row([f'`{crate}`'] + sizes + [proved.get(crate, 'not in the log')]))
print(row([f'{len(crates)} crates'] + total + [f'{len(proved)} proved']))

print('\n## Counts\n')
print(row(['part of the gate', 'passed', 'failed']))
print('|---|---:|---:|')
for name, n, m in re.findall(r'^counted: (.+): (\d+) passed, (\d+) failed$', log, re.M):
    print(row([name, int(n), int(m)]))
single = len(re.findall(r'^ok: ', log, re.M)), len(re.findall(r'^FAILED: ', log, re.M))
print(row(['single parts', *single]))
n, m = re.findall(r'^(\d+) passed, (\d+) failed$', log, re.M)[-1]
print(row(['the whole gate', int(n), int(m)]))
print('''
'Proofs' are the crates and the must-fail edits. 'The program' is 6,000 tapes, the 30 outcomes that they must bring up (11 refusals, 1 to 8 axes, p from 0 to 10),
and 91 runs in which nobody takes what it prints, or not all of it. Planning, marks, links, tapes, readings, steps and memory count calls, each compared in its answer and in all that it was lent;
links also what holds among its answers, and runs.''')
for minutes, seconds in re.findall(r'^real\s+(\d+)m([\d.]+)s', log, re.M)[-1:]:
    whole = round(60 * int(minutes) + float(seconds))
    print(f'\nThe whole gate took {whole // 60} min {whole % 60} s.')

bench = re.search(r'^plan of 8 axes.*?(?=^\d+ passed, \d+ failed$)', log, re.M | re.S)
print('''
## Ratios

Time of what is proved over time of `compare`, same input, both built for release. `linked bench` times calls of the libraries, `compare bench` whole
processes. Of the two ratios of opening, the first is to a scan and then a filling, each of which scans. Of a search over
links the time is for each division, but for a budget of 1, where it is the call's; `compare` has the same sum over the axes. A loaded machine shifts the ratios.
''')
print('```\n' + (bench.group() if bench else 'not in the log\n') + '```')
