#!/usr/bin/env python3
"""What the script `renumber` asks of the tools: a mesh brought to GRD, the files beside a listing, and the answer in words.

  step.py convert --from FORMAT [OPTION ..] MESH OUT.grd
  step.py write [--from FORMAT] [--picture FILE] [--seqgp FILE] [--nodes FILE] MESH < LISTING
  step.py explain [--from FORMAT] MESH < LISTING

--name is what messages call the mesh.
"""

import argparse
import os
import sys

import explain
import faults
import grd
import page
import parts
import picture
import result
import source
import to_grd
import to_seqgp
from files import CARDS, NODES, Output, write_own
from model import Fault, Stop, test_gaps


# Converting.

def convert(arguments):
    """The mesh in GRD. What was left out, and into what parts it falls, is told on standard error."""
    if arguments.explain:
        test_all(arguments)
    found = source.read(arguments.mesh, arguments)
    if not arguments.compact:
        test_gaps(found.model, found.numbers)
    with open(arguments.output, 'wb') as file:
        file.write(grd.write(found.mesh))
    tell(arguments, to_grd.changed(arguments.ignore, found.model))
    if found.numbers != list(range(1, found.mesh.n + 1)) and not arguments.nodes:
        tell(arguments, ['old number 1 of the listing is node %d, and so on by rising number; --nodes FILE writes them all' % found.numbers[0]])
    if not arguments.explain:
        tell(arguments, parts.warnings(found.mesh, found.numbers))


def test_all(arguments):
    """Every fault in one list; the first is the one that the conversion would end by."""
    found = faults.of_source(arguments.mesh, arguments)
    if found:
        words = [said(arguments, fault) for fault in found]
        print('\n  '.join(explain.listed(words[0], words[1:])), file=sys.stderr)
        raise SystemExit(2)


def said(arguments, fault):
    """The message, with the name that the user knows the mesh by."""
    if fault.path == arguments.mesh:
        fault.path = None
    return fault.message(arguments.name)


def tell(arguments, lines):
    for line in lines:
        print(line if line.startswith(' ') else '%s: %s' % (arguments.name, line), file=sys.stderr)


# Files beside the listing.

def drawn(arguments, found, listed):
    """The picture or the page, by its ending."""
    ending = os.path.splitext(arguments.picture)[1].lower()
    name = os.path.splitext(os.path.basename(arguments.name))[0]
    if ending in ('.html', '.htm'):
        return Output(arguments.picture, page.page(name, arguments.name, found, listed).encode('utf-8', 'replace'), page.PAGE)
    if ending != '.svg':
        raise Stop(0, 'a picture ends with .svg, a page with .html', arguments.picture)
    return Output(arguments.picture, picture.any_svg(name, found, listed).encode('utf-8', 'replace'), picture.SVG)


def card_bytes(numbers, listed):
    """SEQGP cards with the source's numbers: in small field, or in free field where a number is too long for it."""
    pairs = [(number, listed.numbers[p]) for p, number in enumerate(numbers, 1)]
    card = to_seqgp.small_field if max(numbers) <= to_seqgp.MOST_NUMBER else to_seqgp.free_field
    return ''.join(line + '\n' for line in to_seqgp.cards(pairs, card)).encode('ascii')


def write(arguments):
    listed = result.read(sys.stdin.read().splitlines())
    found = source.read(arguments.mesh, arguments)
    picture.test_match(found.mesh, listed)
    outputs = []
    if arguments.picture:
        outputs.append(drawn(arguments, found, listed))
    if arguments.seqgp:
        outputs.append(Output(arguments.seqgp, card_bytes(found.numbers, listed), CARDS))
    if arguments.nodes:
        outputs.append(Output(arguments.nodes, to_grd.map_bytes(found.numbers), NODES))
    write_own(outputs, found.paths, arguments.force)
    for output in outputs:
        print('%s: %d bytes' % (output.path, len(output.data)), file=sys.stderr)


# Words.

def in_words(arguments):
    lines = sys.stdin.read().splitlines()
    if arguments.format is None:
        told = explain.explained(arguments.mesh, lines)
    else:
        told = explain.accepted(source.read(arguments.mesh, arguments), lines)
    print(explain.told(told))


def main(words):
    parser = argparse.ArgumentParser(prog='step.py', description='what the script renumber asks of the tools')
    parser.add_argument('task', choices=('convert', 'write', 'explain'))
    source.add_reading_options(parser)
    parser.add_argument('--name', default='the mesh')
    parser.add_argument('--compact', action='store_true')
    parser.add_argument('--explain', action='store_true')
    for name in ('--picture', '--seqgp', '--nodes'):
        parser.add_argument(name, metavar='FILE')
    parser.add_argument('--force', action='store_true')
    parser.add_argument('mesh', metavar='MESH')
    parser.add_argument('output', metavar='OUT.grd', nargs='?')
    arguments = parser.parse_args(words)
    try:
        {'convert': convert, 'write': write, 'explain': in_words}[arguments.task](arguments)
        return 0
    except Fault as fault:
        print(said(arguments, fault), file=sys.stderr)
        more = len(faults.of_source(arguments.mesh, arguments)) - 1 if arguments.task == 'convert' else 0
        if more > 0:
            print('%s: %s; --explain lists all' % (arguments.name, 'another fault' if more == 1 else '%d faults more' % more), file=sys.stderr)
        return 2


if __name__ == '__main__':
    sys.exit(main(sys.argv[1:]))
