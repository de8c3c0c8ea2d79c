#!/usr/bin/env python3
"""The program's listing to NASTRAN's SEQGP cards (source document 004): pairs of a grid point's number and its new number, four to a card.

  to_seqgp.py LISTING -o OUT                 small field, 8 columns
  to_seqgp.py --free LISTING -o OUT          free field
  to_seqgp.py --nodes MAP LISTING -o OUT     with the numbers from before to_grd.py --compact
"""

import argparse
import re
import sys

import grd
import result
from files import CARDS, Output, add_output_options, command, read_lines, write_own
from model import Fault

PAIRS = 4
MOST_NUMBER = 99999999
LINE = re.compile('([0-9]{1,9}) ([0-9]{1,18})')


def read_map(path, n):
    """The input's numbers by GRD number; place 0 is unused."""
    numbers = [0]
    for line, text in enumerate(read_lines(path), 1):
        match = LINE.fullmatch(text)
        if not match or int(match.group(1)) != line:
            raise Fault(line, 'a line has a GRD number, rising from 1, and the number in the input', path)
        numbers.append(int(match.group(2)))
    if len(numbers) != n + 1:
        raise Fault(0, '%d nodes, and the listing has %d' % (len(numbers) - 1, n), path)
    if len(set(numbers)) != len(numbers):
        raise Fault(0, 'a number stands twice', path)
    return numbers


def small_field(words):
    """Eight columns to a field, numbers to the right."""
    if any(word > MOST_NUMBER for word in words):
        raise Fault(0, 'a number has more than 8 digits: use --free')
    return 'SEQGP   ' + ''.join('%8d' % word for word in words)


def free_field(words):
    return ','.join(['SEQGP'] + [str(word) for word in words])


def cards(pairs, card):
    for at in range(0, len(pairs), PAIRS):
        yield card([word for pair in pairs[at:at + PAIRS] for word in pair])


def convert(arguments):
    listed = result.read(read_lines(arguments.listing))
    n = listed.figures.nodes
    names = read_map(arguments.nodes, n) if arguments.nodes else list(range(n + 1))
    pairs = [(names[p], listed.numbers[p]) for p in range(1, n + 1)]
    lines = list(cards(pairs, free_field if arguments.free else small_field))
    data = ''.join(line + '\n' for line in lines).encode('ascii')
    write_own([Output(arguments.output, data, CARDS)], [arguments.listing] + [arguments.nodes] * bool(arguments.nodes), arguments.force)
    print('%s: %s, %s' % (arguments.output, grd.counted(len(lines), 'card'), grd.counted(n, 'grid point')))


def main(words):
    parser = argparse.ArgumentParser(prog='to_seqgp.py', description="the program's listing to NASTRAN's SEQGP cards")
    parser.add_argument('--free', action='store_true', help='free field; otherwise small field')
    parser.add_argument('--nodes', metavar='MAP', help='the map that to_grd.py --compact wrote')
    parser.add_argument('listing', metavar='LISTING')
    add_output_options(parser, 'OUT')
    arguments = parser.parse_args(words)
    return command(lambda: convert(arguments), arguments.listing)


if __name__ == '__main__':
    sys.exit(main(sys.argv[1:]))
