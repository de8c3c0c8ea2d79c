#!/usr/bin/env python3
"""Every name in docs/SPEC.md and docs/PROOFS.md exists.

`crate/File.name` is a definition, field or theorem of that crate's file, or a function of its code; after the word
must-fail, `crate/label` is an edit.
"""

import os
import re
import sys

TOP = os.path.dirname(os.path.dirname(os.path.abspath(__file__)))
NAME = re.compile(r'`([a-z0-9_]+)/((?:[a-z_]+/)*[A-Za-z0-9_]+)\.([^\s`]+)`')
EDIT = re.compile(r'`([a-z0-9_]+)/([a-z0-9_]+)`', re.I)
PAGES = ('docs/SPEC.md', 'docs/PROOFS.md')
# what a path to a file ends with
ENDINGS = ('md', 'rt', 'antt')


def text_of(path):
    if not os.path.exists(path):
        return ''
    with open(path, encoding='utf-8') as f:
        return f.read()


def exists(crate, file, name):
    """Whether one of the places where such a name can stand has it."""
    folder = os.path.join(TOP, 'crates', crate)
    word = re.escape(name)
    theory = r'(?m)^\s*(?:(?:abbrev|unfoldable|pub|record|data) )*%s(?:\s+\{ℓ\})? [:({]|^\s*(?:pub )?(?:record|data) %s ' % (word, word)
    code = r'\b(?:fn|enum|struct) %s\b' % word
    return (any(re.search(theory, text_of(os.path.join(folder, part, file + '.antt'))) for part in ('specs', 'proofs'))
            or re.search(code, text_of(os.path.join(folder, 'src', file + '.rt'))))


def edit_exists(crate, label):
    return os.path.exists(os.path.join(TOP, 'crates', crate, 'must-fail', label + '.edit'))


def missing_in(page):
    """Print the names of a page that do not exist; whether there are such, or it has no name at all."""
    text = text_of(os.path.join(TOP, page))
    names = {name for name in NAME.findall(text) if name[2] not in ENDINGS}
    edits = set(EDIT.findall(text))
    missing = sorted(['%s/%s.%s' % name for name in names if not exists(*name)]
                     + ['must-fail %s/%s' % edit for edit in edits if not edit_exists(*edit)])
    for name in missing:
        print('no such name: ' + name)
    print('%s: %d names, %d edits, %d missing' % (page, len(names), len(edits), len(missing)))
    return bool(missing) or not names


def main():
    return any([missing_in(page) for page in PAGES])


if __name__ == '__main__':
    sys.exit(main())
