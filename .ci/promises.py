#!/usr/bin/env python3
"""Checks that docs/PROMISES.md points to what is there.

Each `crate/File.name` must be a name that specs/ or proofs/ of that crate declares in that file, each `crate/File` such a
file, and the names in brackets after it, up to a colon, names of that file. Each `crate/file` must be a file of code of
that crate, and the names in backquotes that follow it, up to the next place or other text, functions, types or constants
of it. Each other name in backquotes must be one that some file of the crates declares, and each crate/edit_name a
must-fail edit; each edit must be named. The functions of the first table, the public entries, must have no `requires`.
Prints what is not so; exit status 1 if there is any.
"""
import pathlib
import re
import sys

root = pathlib.Path(__file__).resolve().parent.parent
text = (root / 'docs/PROMISES.md').read_text(encoding='utf-8')
declared = {}
# rt keeps copies of these in out/
for file in [*root.glob('crates/*/specs/**/*.antt'), *root.glob('crates/*/proofs/**/*.antt')]:
    body = file.read_text(encoding='utf-8')
    names = re.findall(r'^\s*(?:unfoldable |abbrev |pub )*([^\s:(]+) (?:\{[^}]*\} )?:', body, re.M)
    names += re.findall(r'^\s*(?:pub )?(?:data|record) (\S+)', body, re.M)
    crate = file.relative_to(root / 'crates').parts[0]
    declared.setdefault((crate, file.stem), set()).update(names)
every = set().union(*declared.values())
code = {}
bodies = {}
for file in root.glob('crates/*/src/*.rt'):
    body = file.read_text(encoding='utf-8')
    bodies[file.parts[-3], file.stem] = body
    every |= set(re.findall(r'\b(\w+)\b', body))
    code[file.parts[-3], file.stem] = set(re.findall(r'\b(?:fn|struct|enum|const|impl) (\w+)', body))
    code[file.parts[-3], file.stem] |= set(re.findall(r'^    (\w+)(?:\(.*\))?,$', body, re.M))  # the cases of an enum
bad = []
# a place in the code, and the names that follow it: `crate/file` `name`, `name` and `name`
places = r'`([a-z_]+)/([a-z_]+)`((?:(?:,| and|, and)? `[A-Za-z]\w*(?:::\w+)?`(?!/))*)'
for crate, stem, names in re.findall(places, text):
    if (crate, stem) not in code:
        bad.append(f'no code {crate}/{stem}')
        continue
    for name in re.findall(r'`([^`]+)`', names):
        if not set(name.split('::')) <= code[crate, stem]:
            bad.append(f'{stem}.rt of {crate} declares no {name}')
# the entries of the first table: what stands between a function's name and its body
entries = re.search(r'^Public entries.*?\n\n(.*?)\n\n', text, re.M | re.S)
rows = [row.split('|')[2] for row in entries[1].split('\n')[2:]] if entries else []
listed = [(crate, stem, name) for row in rows for crate, stem, names in re.findall(places, row) for name in re.findall(r'`(\w+)`', names)]
if len(listed) < len(rows) or not rows:
    bad.append('a row of the first table names no function')
for crate, stem, name in listed:
    head = re.search(rf'\bfn {name}\b(.*?)(?:^\{{$|\{{\n)', bodies.get((crate, stem), ''), re.M | re.S)
    if not head or 'requires' in head[1]:
        bad.append(f'the entry {name} of {crate} has a requires')
for word in re.findall(r'`([^`]+)`', text):
    place = re.fullmatch(r'([a-z_]+)/([A-Z]\w*)(?:\.(\S+))?', word)
    if place:
        crate, stem, name = place.groups()
        if (crate, stem) not in declared:
            bad.append(f'no file {word}')
        elif name and name not in declared[crate, stem]:
            bad.append(f'{stem}.antt of {crate} declares no {name}')
    elif re.fullmatch(r'[A-Za-z][\w-]*(?:(?:\.|::)[\w-]+)*(?:\(\w+\))?', word):
        for part in re.split(r'\.|::|\(|\)', word):
            if part and part not in every and part not in ('campaign_plan', 'requires', 'specs', 'antt'):
                bad.append(f'nothing declares {part} (in `{word}`)')
# a file and names of it in brackets: `crate/File` (`name`, `name`: what it says)
for place in re.finditer(r'`([a-z_]+)/([A-Z]\w*)(?:\.\S+?)?`((?:, `[\w.-]+`)*) \(((?:[^()]|\([^()]*\))*)\)', text):
    crate, stem, _, inside = place.groups()
    for name in re.findall(r'`([a-z][\w-]*)`', inside.split(':')[0]):
        if name not in declared.get((crate, stem), ()):
            bad.append(f'{stem}.antt of {crate} declares no {name}')
edits = {f'{e.parts[-3]}/{e.stem}' for e in root.glob('crates/*/must-fail/*.edit')}
crates = '|'.join(sorted({c for c, _ in declared} | {e.split('/')[0] for e in edits}))
named = set(re.findall(rf'\b((?:{crates})/[a-z]\w*_\w+)\b', text))
bad += [f'no edit {e}' for e in sorted(named - edits)] + [f'edit {e} is not named' for e in sorted(edits - named)]
for line in bad:
    print('docs/PROMISES.md:', line)
sys.exit(1 if bad else 0)
