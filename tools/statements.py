#!/usr/bin/env python3
"""Lists the statements of specs/ and proofs/ (names with their types) that differ between two folders with crates/.

A statement is the same where one of that name and text stands anywhere in the new folder. What a module takes and the bodies of definitions are left out.

usage: tools/statements.py OLD NEW    prints how many are the same, changed and gone, and then a row for each that isn't the same
"""
import collections
import glob
import os
import re
import sys

STATEMENT = re.compile(r'^( *)(?:(?:pub|abbrev|unfoldable) )*([^\s:()={}]+) : (.*)$')
SKIPPED = ('use ', 'let ', '--', 'record ', 'data ', 'module ')


def statements(root):
    """(crate, name) -> the types that it is stated with, each with its file"""
    found = collections.OrderedDict()
    for path in sorted(glob.glob(root + '/crates/*/specs/**/*.antt', recursive=True) + glob.glob(root + '/crates/*/proofs/**/*.antt', recursive=True)):
        inside = path.split('/crates/')[1]
        if os.path.basename(path) in ('Invariants.antt', 'Lib.antt') or '/out/' in path:
            continue
        lines = open(path).read().split('\n')
        i = 0
        while i < len(lines):
            match = STATEMENT.match(lines[i])
            if not match or lines[i].lstrip().startswith(SKIPPED) or 'goal.' in match.group(3):
                i += 1
                continue
            indent, stated, i = len(match.group(1)), [match.group(3)], i + 1
            while i < len(lines) and lines[i].strip() and len(lines[i]) - len(lines[i].lstrip()) > indent:
                stated.append(lines[i].strip())
                i += 1
            text = ' '.join(' '.join(stated).split())
            # what stands deeper is a helper inside a lemma
            if ' = ' not in text and not text.endswith(';') and indent < 6:
                found.setdefault((inside.split('/')[0], match.group(2)), []).append((inside, text))
    return found


def cell(text):
    return '`' + text.replace('|', '\\|') + '`'


def main(old, new):
    before, after = statements(old), statements(new)
    anywhere = collections.defaultdict(set)
    for (_, name), stated in after.items():
        anywhere[name] |= {text for _, text in stated}
    same, changed, gone = 0, [], []
    for (crate, name), stated in before.items():
        here = after.get((crate, name), [])
        for path, text in stated:
            if text in anywhere[name]:
                same += 1
            elif here:
                changed.append((path, name, text, here[0][1]))
            else:
                gone.append((path, name, text))
    print(f'{same} the same, {len(changed)} changed, {len(gone)} gone\n')
    print('| | old | new |\n|---|---|---|')
    for path, name, text, now in changed:
        print(f'| {path} {name} | {cell(text)} | {cell(now)} |')
    for path, name, text in gone:
        print(f'| {path} {name} | {cell(text)} | gone |')


if __name__ == '__main__':
    main(sys.argv[1], sys.argv[2])
