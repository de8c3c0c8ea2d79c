#!/usr/bin/env python3
"""Brings files that were prepared under the crates' old names to the new ones.

  tools/dev/rename.py FOLDER

FOLDER is a copy of prepared files, with folders crates/OLD in it or patches of them. Folders are moved, and in every text file each old name
is replaced where it stands for a crate: in a module's path (Rattle.OLD, in files of the older spelling Rattle·OLD), in a path of code (OLD::), in a path of files (crates/OLD), in crates.txt, and
in the pages where it stands alone in backticks or in bold or before a slash; and a few names within crates. The folder is changed in place, so give a copy. It says how many files it changed, and stops at a crate
that stands under both names.
"""

import os
import re
import sys

# by family, in the order of docs/ARCHITECTURE.md
NEW = {'words': 'graph_words', 'envelope': 'graph_envelope',
       'search': 'levels_search', 'scan': 'levels_rooted', 'sorting': 'levels_sort', 'ends': 'levels_ends', 'placing': 'levels_place', 'dealing': 'levels_pieces',
       'combine': 'levels_combine', 'combining': 'levels_laws', 'piecing': 'levels_laws',
       'parts': 'numbering_parts', 'ranking': 'numbering_stacks', 'order': 'numbering_order', 'turning': 'numbering_reverse', 'sequence': 'numbering_sequence',
       'renumbering': 'numbering_part', 'report': 'numbering_report', 'measures': 'numbering_measures',
       'marks': 'store_marks', 'eliminate': 'store_eliminate',
       'elements': 'mesh_elements', 'rowset': 'mesh_rowset', 'incidence': 'mesh_incidence', 'gathering': 'mesh_gather', 'rows': 'mesh_rows',
       'reading': 'file_reading', 'writing': 'file_writing', 'listing': 'file_listing',
       'vectors': 'test_vectors', 'graph_test': 'test_graph', 'reading_test': 'test_reading', 'calls_test': 'test_calls'}
# the two crates that became one
MERGED = ('combining', 'piecing')
# names within crates that changed besides
NAMES = {'turn_round': 'reverse', 'turnedAt': 'mirroredAt', 'turned_at': 'mirrored_at', 'Turnable': 'Mirrorable'}
OLD = '|'.join(sorted(NEW, key=len, reverse=True))
TEXT = ('.antt', '.rt', '.edit', '.patch', '.md', '.txt', '.py')


def new(match):
    return match.group(0).replace(match.group('old'), NEW[match.group('old')], 1)


def code(text):
    """Names in modules, code, paths of files."""
    text = re.sub(r'\b(%s)\b' % '|'.join(NAMES), lambda match: NAMES[match.group(1)], text)
    text = re.sub(r'Rattle[·.](?P<old>%s)(?=[·.])' % OLD, new, text)
    text = re.sub(r'(?<![\w:.])(?P<old>%s)(?=::)' % OLD, new, text)
    return re.sub(r'crates/(?P<old>%s)\b' % OLD, new, text)


def inside(text):
    """Within the merged crate, a module of its other half is one of its own, which the older spelling tells apart."""
    text = re.sub(r'Rattle·levels_laws\.specs\.', 'Rattle·levels_laws·specs.specs.', text)
    return re.sub(r'Rattle·levels_laws\.proofs\.', 'Rattle·levels_laws·proofs.proofs.', text)


def page(text):
    """Names that stand alone in backticks or in bold, or before a name of the crate."""
    text = re.sub(r'`(?P<old>%s)`' % OLD, new, text)
    text = re.sub(r'\*\*(?P<old>%s)\*\*' % OLD, new, text)
    return re.sub(r'`(?P<old>%s)(?=/[A-Za-z0-9_/]+[.`])' % OLD, new, text)


def crate_lines(text):
    """crates.txt: each name once, and a merged crate on one line."""
    lines, seen = [], {}
    for line in text.split('\n'):
        if ':' not in line or line.startswith('#'):
            lines.append(line)
            continue
        name, below = line.split(':')
        name = NEW.get(name, name)
        names = [NEW.get(word, word) for word in below.split()]
        if name in seen:
            seen[name] += [word for word in names if word not in seen[name] and word != name]
            continue
        seen[name] = list(dict.fromkeys(word for word in names if word != name))
        lines.append((name,))
    return '\n'.join(line if isinstance(line, str) else ('%s: %s' % (line[0], ' '.join(seen[line[0]]))).rstrip() for line in lines)


def move(top):
    """Moves the crates' folders; files of a merged crate that stand in both halves are joined line by line."""
    for old, name in NEW.items():
        source, target = (os.path.join(top, 'crates', x) for x in (old, name))
        if not os.path.isdir(source):
            continue
        if os.path.isdir(target) and old not in MERGED:
            sys.exit('%s stands under both names' % old)
        for folder, _, files in os.walk(source):
            for file in files:
                to = os.path.join(target, os.path.relpath(os.path.join(folder, file), source))
                os.makedirs(os.path.dirname(to), exist_ok=True)
                if os.path.exists(to):
                    if file != 'Lib.antt' and file != 'lib.rt':
                        sys.exit('%s stands in both halves' % to)
                    if file == 'Lib.antt':
                        with open(os.path.join(folder, file), encoding='utf-8') as f, open(to, 'a', encoding='utf-8') as g:
                            g.write(f.read())
                    os.remove(os.path.join(folder, file))
                else:
                    os.rename(os.path.join(folder, file), to)
        for folder, _, _ in os.walk(source, topdown=False):
            os.rmdir(folder)


def rewrite(top):
    changed = 0
    for folder, folders, files in os.walk(top):
        folders[:] = [x for x in folders if x not in ('.git', 'target')]
        for file in files:
            path = os.path.join(folder, file)
            if not file.endswith(TEXT) or os.path.abspath(path) == os.path.abspath(__file__):
                continue
            with open(path, encoding='utf-8') as f:
                before = f.read()
            after = crate_lines(before) if file == 'crates.txt' else code(before)
            if '/levels_laws/' in path.replace(os.sep, '/'):
                after = inside(after)
            if file.endswith('.md'):
                after = page(after)
            if after != before:
                with open(path, 'w', encoding='utf-8') as f:
                    f.write(after)
                changed += 1
    return changed


def main():
    if len(sys.argv) != 2 or not os.path.isdir(sys.argv[1]):
        sys.exit(__doc__.strip())
    move(sys.argv[1])
    print('%d files changed' % rewrite(sys.argv[1]))


if __name__ == '__main__':
    main()
