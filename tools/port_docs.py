#!/usr/bin/env python3
"""Run at the top of the repository after the port: brings the names in its pages to today's spelling.

    python3 tools/port_docs.py BEFORE AFTER

BEFORE and AFTER are the commits around the port's scripts, the third and the second line of docs/PORT.md. What specs/
and the lemma files of proofs/ declare stands in the same order in both, so that each older name meets its newer one.
In the pages only what stands in backquotes is turned, with the names that dots join to it. Prints each name of the
pages that is older in some file and newer in another, and turns none of these.
"""
import collections
import pathlib
import re
import subprocess
import sys

PAGES = ['README.md', *sorted(map(str, pathlib.Path('docs').glob('*.md'))), *sorted(map(str, pathlib.Path('docs/changes').glob('*.md'))),
         *sorted(map(str, pathlib.Path('docs').glob('*.[13]')))]
NAME = r'[^\s(){}.;,@"«»:]+'
SIGNATURE = re.compile(rf'\s*(?:(?:abbrev|unfoldable|pub|opaque|pattern)\s+)*({NAME})\s+(?:\{{[^}}]*\}} )?:(?:\s|$)')
TYPE = re.compile(r'\s*(?:pub\s+)?(?:data|record)\s+(?:pub\s+)?(\S+)')


def git(*words):
    return subprocess.run(['git', *words], capture_output=True, text=True, check=True).stdout


def lemma_files(commit):
    """Files of definitions and lemmas, without those that are the proof of a function."""
    paths = git('ls-tree', '-r', '--name-only', commit, 'crates').split('\n')
    return [p for p in paths if re.match(r'crates/\w+/(specs/.*|proofs/(?!.*(Proof|Answers|Invariants)\.antt$).*)\.antt$', p)]


def declared(text):
    """The names that a file declares, fields too, in its order."""
    lines = [line for line in text.split('\n') if line.strip() and not line.lstrip().startswith('--')]
    found = [TYPE.match(line) or SIGNATURE.match(line) for line in lines]
    return [m[1] for m in found if m]


def table(before, after):
    """For each older name the newer ones that it has somewhere."""
    names = collections.defaultdict(set)
    there = set(lemma_files(after))
    for path in lemma_files(before):
        if path not in there:
            sys.exit(f'{path} is not in {after}')
        olds, news = declared(git('show', f'{before}:{path}')), declared(git('show', f'{after}:{path}'))
        if len(olds) != len(news):
            sys.exit(f'{path} declares {len(olds)} names in {before} and {len(news)} in {after}')
        for old, new in zip(olds, news):
            names[old].add(new)
    return names


def main(before, after):
    names = table(before, after)
    turned = {old: next(iter(news)) for old, news in names.items() if len(news) == 1 and news != {old}}
    torn = {old for old, news in names.items() if len(news) > 1}
    # a case of a table may have the name of an example
    for example in pathlib.Path('examples').iterdir():
        turned.pop(example.stem, None)

    def word(m):
        if m[0] in torn:
            print(f'{m[0]}: {", ".join(sorted(names[m[0]]))}')
        return turned.get(m[0], m[0])

    for path in PAGES:
        if path == 'docs/PORT.md':
            continue
        page = pathlib.Path(path)
        text = page.read_text(encoding='utf-8')
        # what has a slash is a place, `crate/File.name`, and its crate and file keep their names
        new = re.sub(r'`([^`\n]+)`', lambda m: '`' + re.sub(r"(?<![\w/-])[\w′'-]+(?![\w/-])", word, m[1]) + '`', text)
        if new != text:
            page.write_text(new, encoding='utf-8')
            print(f'{path}: turned')


if len(sys.argv) != 3:
    sys.exit(__doc__)
main(*sys.argv[1:])
