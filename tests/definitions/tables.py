"""What the scripts of tables share: a table of the definitions is printed, or held to the file that stands, layout aside."""

import os
import sys

TOP = os.path.dirname(os.path.dirname(os.path.dirname(os.path.abspath(__file__))))


def tokens(text):
    """The text without its layout: line breaks, and the semicolon behind the last field of a record that takes several lines."""
    return ' '.join(text.split()).replace('; }', ' }').split()


def kept(name, text, crate='spec'):
    """What a script does with the text of the table of that name; the exit status."""
    if sys.argv[1:] != ['--check']:
        print(text, end='')
        return 0
    with open(os.path.join(TOP, 'crates', crate, 'proofs', name), encoding='utf-8') as f:
        same = tokens(f.read()) == tokens(text)
    print('%s: %s' % (name, 'as tests/reference has it' if same else 'NOT as tests/reference has it'))
    return 0 if same else 1
