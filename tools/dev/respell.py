#!/usr/bin/env python3
"""Brings this repository's own definitions and lemmas to today's spelling. It was run once, right after port.py of the kit, and is kept to show what was renamed.

usage: tools/dev/respell.py ROOT          rewrites crates/**/*.antt, *.rt and must-fail/*.edit below ROOT
       tools/dev/respell.py --table ROOT  prints the table alone

A word of the logic is in snake case. In a lemma's name a dash joins two names of definitions, and any other dash is an underscore.
Rust names, exported names, strings, types and modules keep theirs. It stops where two names would fall together.
"""
import os
import re
import sys

WORD = r'[^\s(){}.;,@"«»:]+'
TOKEN = re.compile(r'[^\s(){}.;,@"«»]+')
DECLARED = re.compile(r'^(\s*)((?:(?:abbrev|unfoldable|pub|data|record|ruleset)\s+)*)(' + WORD + r')((?:\s+[({][^=]*?[)}])*)\s*:(?=\s|$)')
# words of the library that a lemma's name may join
LIBRARY = set('length append take drop get_or map set sum filter reverse replicate cond eqb ltb leb and or not min max'.split())
PARTS = {'getD': 'get_or'}
# names that would otherwise fall together with another, and operators
# widthV and widthU: a Rust parameter of the new name would hide them
BY_HAND = {'◌orElse◌': '◌or_else◌', 'orElse': 'or_else', 'widthV': 'v_width', 'widthU': 'u_width'}


def files(root, ends):
    for folder, dirs, names in os.walk(os.path.join(root, 'crates')):
        dirs[:] = sorted(d for d in dirs if d != 'out')
        for n in sorted(names):
            if n.endswith(ends):
                yield os.path.join(folder, n)


def read(path):
    with open(path, encoding='utf-8', newline='') as f:
        return f.read()


def declared(text):
    """Each declared name with its kind: field, definition or lemma."""
    block = None
    for line in text.split('\n'):
        if not line.strip() or line.lstrip().startswith('--'):
            continue
        indent = len(line) - len(line.lstrip())
        if block is not None and indent <= block:
            block = None
        m = DECLARED.match(line)
        if m:
            how = m.group(2)
            if block is not None:
                yield m.group(3), 'field'
            elif 'abbrev' in how or 'unfoldable' in how or 'record' in how or 'data' in how:
                yield m.group(3), 'definition'
            else:
                yield m.group(3), 'lemma'
        if re.match(r'\s*(?:pub )?(?:record|data) ', line):
            block = indent


def snake(word):
    word = PARTS.get(word, word)
    word = re.sub(r'([a-z0-9])([A-Z])', r'\1_\2', word)
    return word.lower() if word[:1].islower() else word


def respelled(name, definitions):
    parts = [snake(p) for p in name.split('-')]
    if any(p == '' for p in parts):
        return name
    out = parts[0]
    for i in range(1, len(parts)):
        left = parts[i - 1] in definitions or '_'.join(parts[:i]) in definitions
        right = parts[i] in definitions or '_'.join(parts[i:]) in definitions
        out += ('-' if left and right else '_') + parts[i]
    return out


def by_hand(path):
    return os.path.basename(path) == 'Proof.antt'


def table(root):
    """The rows, and for each name where it is declared and as what."""
    names, definitions = {}, set(LIBRARY)
    for p in files(root, '.antt'):
        if by_hand(p):
            continue
        for n, kind in declared(read(p)):
            if kind == 'lemma' and '/specs/' in p:
                kind = 'definition'
            if n not in names or kind == 'definition':
                names[n] = (p, kind)
            if kind == 'definition' and n[:1].islower() and '-' not in n:
                definitions.add(snake(n))
    rows = dict(BY_HAND)
    for n in names:
        if n in rows or not n[:1].islower():
            continue
        new = respelled(n, definitions)
        if new != n:
            rows[n] = new
    # a lemma that would have a definition's name gets _lem
    taken = {}
    for n in names:
        taken.setdefault(rows.get(n, n), []).append(n)
    for new, olds in taken.items():
        if len(olds) > 1 and any(names[o][1] == 'definition' for o in olds):
            for o in olds:
                if names[o][1] == 'lemma':
                    rows[o] = new + '_lem'
    return rows, names


def clashes(root, rows, names):
    said = []
    taken = {}
    for n in names:
        taken.setdefault(rows.get(n, n), set()).add(n)
    for new, olds in sorted(taken.items()):
        if len([o for o in olds if names[o][1] != 'field']) > 1:
            said.append(f'{new}: ' + ', '.join(f'{o} ({names[o][0].split("crates/")[1]})' for o in sorted(olds)))
    for p in files(root, '.antt'):
        if by_hand(p):
            continue
        words = set(TOKEN.findall(read(p)))
        for old, new in rows.items():
            if old in words and new in words and new not in names and old not in BY_HAND:
                said.append(f'{p.split("crates/")[1]}: {old} would be {new}, which stands there')
    return said


def turn_antt(text, rows):
    return TOKEN.sub(lambda m: rows.get(m.group(), m.group()), text)


STRING = re.compile(r'b?"(?:\\.|[^"\\])*"|[\w◌]+')


def turn_rust(text, rows):
    return STRING.sub(lambda m: m.group() if m.group().lstrip('b').startswith('"') else rows.get(m.group(), m.group()), text)


def main(argv):
    show = argv[:1] == ['--table']
    root = argv[-1]
    rows, names = table(root)
    if show:
        for o, n in sorted(rows.items()):
            print(f'{o}\t{n}')
        return 0
    said = clashes(root, rows, names)
    if said:
        print('\n'.join(said))
        print(f'respell: {len(said)} names would fall together; nothing was written')
        return 1
    camel = {o: n for o, n in rows.items() if '-' not in o}
    for p in files(root, ('.antt', '.rt', '.edit')):
        old = read(p)
        new = turn_antt(old, rows) if p.endswith('.antt') else turn_rust(old, camel)
        if new != old:
            with open(p, 'w', encoding='utf-8', newline='') as f:
                f.write(new)
    print(f'respell: {len(rows)} names')
    return 0


if __name__ == '__main__':
    sys.exit(main(sys.argv[1:]))
