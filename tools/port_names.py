#!/usr/bin/env python3
"""Run once at the top of the repository, after the port's own script: brings its definitions and lemmas to snake case.

What specs/ and the lemma files of proofs/ declare in camel case or with dashes, and is no type, gets the newer
spelling there and wherever it is named: in clauses, proofs and must-fail edits. Names that Rattle makes keep their
dashes, and names of src/ their spelling. Where a lemma's name would fall together with a definition's, the lemma
gets `_lem`. Prints each file where a new name stood already.
"""
import collections
import pathlib
import re

root = pathlib.Path('crates')
NAME = r'[^\s(){}.;,@"«»:]+'
SIGNATURE = re.compile(rf'^\s*(?:(?:abbrev|unfoldable|pub|opaque|pattern)\s+)*({NAME})\s+:\s')
# a name with the fields or the module's path that dots join to it
CHAIN = re.compile(r'\.?[^\s(){}.;,@"«»⌜⌝`]+(?:\.[^\s(){}.;,@"«»⌜⌝`]+)*')
# of the port's own table, what the must-fail edits still have in the older spelling
EDITED = {'getD': 'get_or', 'bitXor': 'bit_xor', 'Reading′': "Reading'"}


def is_lemma_file(path):
    """Files of lemmas and definitions, but not the proof of a function, whose names Rattle makes."""
    return path.suffix == '.antt' and not ('proofs' in path.parts and path.name in ('Proof.antt', 'Answers.antt', 'Invariants.antt'))


def snake(word):
    return re.sub(r'(?<=[a-z0-9])([A-Z])(?![A-Z])', lambda m: '_' + m[1].lower(), word).replace('-', '_')


def declared():
    """The names that are declared, each with whether specs/ declares it, and the fields of records."""
    names, fields = collections.defaultdict(bool), set()
    for path in sorted(root.rglob('*.antt')):
        if not is_lemma_file(path) or 'out' in path.parts:
            continue
        record = None
        for line in path.read_text(encoding='utf-8').splitlines():
            if not line.strip() or line.lstrip().startswith('--'):
                continue
            indent = len(line) - len(line.lstrip())
            if re.match(r'\s*(pub )?(record|data)\s', line):
                record = indent
                continue
            if record is not None and indent <= record:
                record = None
            found = SIGNATURE.match(line)
            if found and record is not None:
                fields.add(found[1])
            elif found:
                names[found[1]] |= 'specs' in path.parts
    return names, fields


def table(names):
    """The new spelling of each name that gets one."""
    turned = {n for n in names if n[0].islower() and snake(n) != n}
    groups = collections.defaultdict(set)
    for n in names:
        groups[snake(n) if n in turned else n].add(n)
    to = {n: snake(n) for n in turned}
    for new, olds in groups.items():
        if len(olds) > 1:
            kept = [n for n in olds if names[n] or re.search('[a-z][A-Z]', n)] or sorted(olds)[:1]
            for n in olds:
                to[n] = new if n in kept else new + '_lem'
    return {a: b for a, b in to.items() if a != b}


def turn_words(text, words, fields):
    """The text of antt with whole names turned: a field behind a dot, any other name bare or behind a module's path."""
    def one(m):
        parts = m[0].split('.')
        for i, part in enumerate(parts):
            bare = part if part in words or part in fields else part.rstrip("'")
            prime = part[len(bare):]
            module = i > 0 and (parts[i - 1][:1].isupper() or parts[i - 1] == 'runs')
            parts[i] = (words if i == 0 or module else fields).get(bare, bare) + prime
        return '.'.join(parts)

    return CHAIN.sub(one, text)


def borrowed(text):
    """The names that a file has from a library, which are no names of this repository there."""
    found = set()
    for m in re.finditer(r'use ([\w.]+)\.\{([^}]*)\}', text):
        own = m[1].split('.')
        if own[0] != 'Rattle' or not (root / own[1]).is_dir():
            found |= {item.split()[-1] for item in m[2].split(',') if item.split()}
    return found


def turn_edit(text, path, words, fields):
    """A must-fail edit: the same names as the file that it changes, and fields written tight."""
    file = path.parent.parent / text.split('\n', 1)[0].removeprefix('file: ')
    target = file.read_text(encoding='utf-8')
    there = set(re.findall(r"[\w'-]+", target))
    lines = []
    for line in text.split('\n'):
        if line.startswith(('old: ', 'new: ')):
            head, said = line[:5], line[5:]
            if file.suffix == '.rt':
                said = turn_code(said, words, fields)
            else:
                said = turn_words(said, words, fields)
                said = re.sub(r"[\w′'-]+", lambda m: EDITED.get(m[0], snake(m[0]) if m[0] not in there and m[0][0].islower() and snake(m[0]) in there else m[0]), said)
                said = re.sub(r"(?<=[\w'\)]) (?=\.[a-z])", '', said)
                said = re.sub(r"(?<=[ (])\(([a-z]\w*(?:\.[a-z]\w*)+)\)", r'\1', said)
            line = head + said
        lines.append(line)
    return '\n'.join(lines)


def turn_lines(text, comment, words, fields):
    """A file's text; of a comment only what stands in backquotes, and names in camel case."""
    lines = []
    for line in text.split('\n'):
        at = line.find(comment)
        while at > 0 and not line[at - 1].isspace():
            at = line.find(comment, at + 1)
        code, said = (line, '') if at < 0 else (line[:at], line[at:])
        said = re.sub(r'`[^`]+`', lambda m: '`' + turn_words(m[0][1:-1], words, fields) + '`', said)
        said = re.sub(r'\b[a-z]+[A-Z]\w*', lambda m: words.get(m[0], m[0]), said)
        lines.append(turn_words(code, words, fields) + said)
    return '\n'.join(lines)


def cited(text, words):
    """Those of the words that a function's proof brings in from specs/ and lemma files of this repository."""
    found = set()
    for m in re.finditer(r'use Rattle\.\w+\.(?:specs|proofs)\.[A-Z][\w.]*\.\{([^}]*)\}', text):
        for item in m[1].split(','):
            found.add(item.split()[0] if item.split() else '')
    return {w: words[w] for w in found if w in words}


def clauses(text):
    """The places of a file of code that antt is in: clauses and imports of specifications."""
    spans = [m.span() for m in re.finditer(r'ghost use [^;]*;', text)]
    for m in re.finditer(r'\b(?:requires|ensures|ghost)\b[^{;\n]*\{', text):
        depth, at = 1, m.end()
        while depth and at < len(text):
            depth += {'{': 1, '}': -1}.get(text[at], 0)
            at += 1
        spans.append((m.start(), at))
    return sorted(spans)


def turn_code(text, words, fields):
    done, parts = 0, []
    for start, end in clauses(text):
        if start < done:
            continue
        parts += [text[done:start], turn_words(text[start:end], words, fields)]
        done = end
    text = ''.join(parts) + text[done:]
    return '\n'.join(re.sub(r'`[^`]+`', lambda m: '`' + words.get(m[0][1:-1], m[0][1:-1]) + '`', line) if line.lstrip().startswith('//') else line for line in text.split('\n'))


def main():
    names, own = declared()
    words = table(names)
    fields = {f: snake(f) for f in own if snake(f) != f}
    edits = []
    for path in sorted(root.rglob('*')):
        if not path.is_file() or 'out' in path.parts:
            continue
        text = path.read_text(encoding='utf-8') if path.suffix in ('.antt', '.rt', '.edit') else None
        if text is None:
            continue
        taken = borrowed(text)
        here = {a: b for a, b in words.items() if a not in taken}
        if path.suffix == '.rt':
            new = turn_code(text, here, fields)
        elif path.suffix == '.edit':
            edits.append((path, text))
            continue
        elif is_lemma_file(path):
            new = turn_lines(text, '--', fields | here, fields)
        else:
            new = turn_lines(text, '--', cited(text, here), fields)
        if new != text:
            before = set(re.findall(r"[^\s(){}.;,@\"«»⌜⌝`]+", re.sub(r'(--|//)[^\n]*', '', text)))
            turned = {words[w] for w in before if w in words}
            stood = sorted(turned & before)
            if stood:
                print(f'{path}: stood already: {", ".join(stood)}')
            path.write_text(new, encoding='utf-8')
    for path, text in edits:
        path.write_text(turn_edit(text, path, words, fields), encoding='utf-8')
    print(f'{len(words)} names and {len(fields)} fields')


main()
