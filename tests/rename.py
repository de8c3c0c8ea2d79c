#!/usr/bin/env python3
"""tools/dev/rename.py on a folder of prepared files: crates moved and joined, names replaced where they stand for a crate and nowhere else."""

import os
import subprocess
import sys
import tempfile

TOP = os.path.dirname(os.path.dirname(os.path.abspath(__file__)))
sys.path.insert(0, os.path.join(TOP, 'tests', 'tools'))

from harness import Cases

BEFORE = {
    'crates.txt': '# two chapters\nwords: basis\ncombining: basis\npiecing: basis combining\nrows: basis words piecing combining\n',
    'crates/words/src/lib.rt': 'fn clear(words: &mut [u16]) {}\n',
    'crates/rows/src/legal.rt': 'ghost use Rattle.words.specs.Clear.{clear};\nuse words::wide;\nlet a = incidence::legal::listing::row_of(rows[0], words);\nturn_round(a);\n',
    'crates/rows/must-fail/one.edit': 'old:     words::legal::clear(lists, n);\nnew:     words::legal::clear(lists, 0);\n',
    'crates/combining/specs/Lib.antt': 'pub mod Areas\n',
    'crates/piecing/specs/Lib.antt': 'pub mod Sizes\n',
    'crates/piecing/proofs/Start.antt': 'use Rattle·combining.specs.Areas.{swapped}\nuse Rattle·piecing·specs.specs.Sizes.{sizes}\n',
    'crates/piecing/proofs/Today.antt': 'use Rattle.combining.specs.Areas.{swapped}\nuse Rattle.piecing.specs.Sizes.{turned_at}\n',
    'a.patch': '--- a/crates/words/src/lib.rt\n+use Rattle·words.specs.Clear.{clear}\n',
    'page.md': 'Crate `words`, **rows**, `rows/Rows.Goes`, `words::wide`; the words of `crates/words`, and `rows of bricks`.\n'}
AFTER = {
    'crates.txt': '# two chapters\ngraph_words: basis\nlevels_laws: basis\nmesh_rows: basis graph_words levels_laws\n',
    'crates/graph_words/src/lib.rt': BEFORE['crates/words/src/lib.rt'],
    'crates/mesh_rows/src/legal.rt':
        'ghost use Rattle.graph_words.specs.Clear.{clear};\nuse graph_words::wide;\nlet a = mesh_incidence::legal::listing::row_of(rows[0], words);\nreverse(a);\n',
    'crates/mesh_rows/must-fail/one.edit': 'old:     graph_words::legal::clear(lists, n);\nnew:     graph_words::legal::clear(lists, 0);\n',
    'crates/levels_laws/specs/Lib.antt': 'pub mod Areas\npub mod Sizes\n',
    'crates/levels_laws/proofs/Start.antt': 'use Rattle·levels_laws·specs.specs.Areas.{swapped}\nuse Rattle·levels_laws·specs.specs.Sizes.{sizes}\n',
    'crates/levels_laws/proofs/Today.antt': 'use Rattle.levels_laws.specs.Areas.{swapped}\nuse Rattle.levels_laws.specs.Sizes.{mirrored_at}\n',
    'a.patch': '--- a/crates/graph_words/src/lib.rt\n+use Rattle·graph_words.specs.Clear.{clear}\n',
    'page.md': 'Crate `graph_words`, **mesh_rows**, `mesh_rows/Rows.Goes`, `graph_words::wide`; the words of `crates/graph_words`, and `rows of bricks`.\n'}


def put(top, files):
    for name, text in files.items():
        path = os.path.join(top, name)
        os.makedirs(os.path.dirname(path), exist_ok=True)
        with open(path, 'w', encoding='utf-8') as f:
            f.write(text)


def files_in(top):
    found = {}
    for folder, _, names in os.walk(top):
        for name in names:
            path = os.path.join(folder, name)
            with open(path, encoding='utf-8') as f:
                found[os.path.relpath(path, top)] = f.read()
    return found


def rename(top):
    done = subprocess.run([sys.executable, os.path.join(TOP, 'tools', 'dev', 'rename.py'), top], capture_output=True, text=True)
    return done.returncode, done.stdout + done.stderr


def main():
    c = Cases()
    with tempfile.TemporaryDirectory() as top:
        put(top, BEFORE)
        c.equal('rename: says how many', rename(top), (0, '7 files changed\n'))
        found = files_in(top)
        for name in sorted(set(AFTER) | set(found)):
            c.equal('rename: ' + name, found.get(name), AFTER.get(name))
        c.equal('rename: once is enough', rename(top), (0, '0 files changed\n'))
        put(top, {'crates/words/src/lib.rt': ''})
        c.equal('rename: under both names', rename(top), (1, 'words stands under both names\n'))
    c.equal('rename: no folder', rename('nowhere')[0], 1)
    return c.report()


if __name__ == '__main__':
    sys.exit(main())
