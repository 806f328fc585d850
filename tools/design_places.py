#!/usr/bin/env python3
"""Lists the places in src/ that docs/DESIGN-PASS.md counts, by its points.

    python3 tools/design_places.py [TOP] [--list]

TOP is a checkout (this one by default). Each line is a point, a kind of place and how many there are; --list prints the places too.
It finds candidates by their shape; docs/DESIGN-PASS.md says of each kind what is kept and why.
"""
import collections
import glob
import os
import re
import sys

args = [a for a in sys.argv[1:] if not a.startswith('--')]
TOP = args[0] if args else os.path.dirname(os.path.dirname(os.path.abspath(__file__)))
LIST = '--list' in sys.argv

places = collections.OrderedDict()


def place(kind, where):
    places.setdefault(kind, []).append(where)


KINDS = [
    '1 enum with a case for a refusal or for nothing',
    '1 field that holds a refusal or a flag beside values',
    '1 function, not for C, that gives a refusal as a number',
    '1 number that stands for none or for a refusal',
    '1 number that stands for a kind',
    '2 functions alike but for types, sizes and constants',
    '3 while and loop',
    '3 for over an index range',
    '4 function that only converts',
    '4 comparison, text or number put together by hand',
    '5 clause in three contracts or more',
    '5 parameters, four or more, that three functions share',
    '6 array with a count beside it',
    '6 parallel arrays',
    '7 match or if that picks which step to run',
    '8 answers of functions',
]
for k in KINDS:
    places[k] = []

FN = re.compile(
    r'^(?P<ind> *)(?P<pub>pub )?(?P<ext>extern "C" )?fn (?P<name>\w+)(?P<gen><[^>]*>)?\((?P<params>[^{]*?)\)(?: -> (?P<ret>[^\n{]+?))?\s*\n(?P<cl>(?:(?P=ind)    (?:requires|ensures).*?\n)*?(?:.*?\n)*?)(?P=ind)\{\n(?P<body>.*?)^(?P=ind)\}',
    re.S | re.M)


def clean(s):
    return re.sub(r'//.*', '', s)


def line(s, i):
    return s.count('\n', 0, i) + 1


fns = []
for f in sorted(glob.glob(os.path.join(TOP, 'crates/*/src/*.rt'))):
    crate = f.split('/')[-3]
    rel = f[len(TOP):].lstrip('/')
    text = open(f).read()
    s = clean(text)
    for m in re.finditer(r'enum (\w+) \{(.*?)\n\}', s, re.S):
        if re.search(r'\b(Refused|Broken|Bad|None|Nothing)\b', m.group(2)):
            place(KINDS[0], '%s:%d %s' % (rel, line(s, m.start()), m.group(1)))
    for m in re.finditer(r'struct (\w+) \{(.*?)\n\}', s, re.S):
        for g in re.finditer(r'(\w+): (u8|bool)\b', m.group(2)):
            if g.group(2) == 'bool' or g.group(1) == 'refusal':
                place(KINDS[1], '%s:%d %s.%s' % (rel, line(s, m.start()), m.group(1), g.group(1)))
        arrays = re.findall(r'\w+: \[(\w+); (\w+)\]', m.group(2))
        if len(arrays) > 1:
            place(KINDS[13], '%s:%d struct %s' % (rel, line(s, m.start()), m.group(1)))
        if arrays and re.search(r'\b(axes|count|len|n): u', m.group(2)):
            place(KINDS[12], '%s:%d struct %s' % (rel, line(s, m.start()), m.group(1)))
    for m in FN.finditer(s):
        name, params, ret, body, cl = m.group('name'), m.group('params'), (m.group('ret') or '').strip(), m.group('body'), m.group('cl')
        where = '%s:%d %s' % (rel, line(s, m.start()), name)
        ps = [p.strip() for p in re.split(r',\s*(?![^\[]*\])', params.replace('\n', ' ')) if ':' in p]
        fns.append((crate, where, name, ps, ret, body, cl, m.group('ext')))
        if ret == 'u8' and not m.group('ext') and re.search(r'refus|lent_|Refuses|pick \(eqb bad', cl):
            place(KINDS[2], where)
        if not m.group('ext') and re.search(r'chosen|find a|seed_or', cl) and ret in ('usize', 'u32'):
            place(KINDS[3], where)
        if re.search(r'0x4[BD]', body) or re.search(r'\bcommand: u8', params):
            place(KINDS[4], where)
        st = [x for x in body.strip().split('\n') if x.strip()]
        if len(st) == 1 and re.fullmatch(r'\s*(\w+ as \w+|\w+::from_bits\(\w+\)|!\w+)', st[0]):
            place(KINDS[8], where)
        if re.search(r'\[\d+u8, |b\'\\?.\' <=|48 \+|256 \*|/ 256|4294967295 - |18446744073709551615 - ', body):
            place(KINDS[9], where)
        arr = [p for p in ps if re.search(r': &?(mut )?\[\w+; \w+\]', p)]
        if arr and any(re.match(r'(n|axes|count|m): (usize|u8)', p) for p in ps):
            place(KINDS[12], where)
        same = collections.Counter(re.search(r'; (\w+)\]', p).group(1) for p in arr)
        sl = [p for p in ps if re.search(r': &(mut )?\[', p) and not re.search(r'; \w+\]', p)]
        if any(v > 1 for v in same.values()) or re.search(r'extents', ' '.join(sl)) and re.search(r'strides', ' '.join(sl)) or re.search('lows', params):
            place(KINDS[13], where)
        if len(re.findall(r'Step::\w+|Found::\w+', body)) > 2 and 'match' in body:
            place(KINDS[14], where)
    for i, l in enumerate(s.split('\n'), 1):
        if re.match(r"\s*(while|loop)\b", l):
            place(KINDS[6], '%s:%d' % (rel, i))
        if re.match(r'\s*for \w+ in .*\.\.', l):
            place(KINDS[7], '%s:%d' % (rel, i))

# alike: the same tokens once types, numbers and names of parameters are blanked
seen = collections.defaultdict(list)
for crate, where, name, ps, ret, body, cl, ext in fns:
    t = body
    t = re.sub(r'\b(u8|u16|u32|u64|usize|i32|i64|f32)\b', 'T', t)
    t = re.sub(r'\b\d[\d_a-zA-Z]*\b', '0', t)
    names = [p.split(':')[0].strip() for p in ps] + re.findall(r'let (?:mut )?(\w+)', body) + re.findall(r'for (\w+)', body)
    for i, n in enumerate(dict.fromkeys(names)):
        t = re.sub(r'\b%s\b' % re.escape(n), 'v%d' % i, t)
    t = re.sub(r'\b([a-z_]+)\(', 'f(', t)
    t = re.sub(r'\s+', ' ', t)
    if len(t) > 40 and crate != 'campaign_c':
        seen[t].append(where)
for t, w in seen.items():
    if len(w) > 1:
        place(KINDS[5], ' = '.join(w))

# clauses and parameters
cls = collections.defaultdict(list)
groups = collections.defaultdict(list)
for crate, where, name, ps, ret, body, cl, ext in fns:
    if crate == 'campaign_c':
        continue
    req = re.search(r'requires \{(.*?)\}\s*(?:ensures|$)', cl.strip(), re.S)
    if req:
        for c in re.split(r'(?<=\)) × (?=\()|\) × |× \(', req.group(1)):
            c = re.sub(r'\s+', ' ', c).strip().strip('()')
            if len(c) > 8:
                cls[c].append(where)
    for i in range(len(ps)):
        for j in range(i + 4, len(ps) + 1):
            groups[', '.join(ps[i:j])].append(where)
for c, w in sorted(cls.items(), key=lambda x: -len(x[1])):
    if len(w) > 2:
        place(KINDS[10], '%d × %s' % (len(w), c))
best = []
for g, w in sorted(groups.items(), key=lambda x: (-len(x[0].split(',')), -len(x[1]))):
    if len(w) > 2 and not any(g in b for b in best):
        best.append(g)
        place(KINDS[11], '%d × %s' % (len(w), g))

for f in sorted(glob.glob(os.path.join(TOP, 'crates/*/proofs/**/Answers.antt'), recursive=True)):
    for m in re.finditer(r'^(?:abbrev )?pub (\S+) : goal', open(f).read(), re.M):
        place(KINDS[15], f[len(TOP):].lstrip('/') + ' ' + m.group(1))

for k in KINDS:
    print('%5d  %s' % (len(places[k]), k))
    if LIST:
        for w in places[k]:
            print('         ' + w)
