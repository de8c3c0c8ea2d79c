#!/usr/bin/env python3
"""The program's answer in words: all that is wrong with a mesh that is refused, or what the renumbering gained, where the mesh is thickest and
how it falls into parts.

  explain.py MESH.grd < LISTING
"""

import sys

import faults
import figures
import parts
import result
import source
import thickness
from files import command, read_bytes
from model import Fault

NAMES = ('bandwidth', 'profile', 'front')
# So many faults are told besides the one that the program refuses by.
MOST_FAULTS = 50
FIRST = 'In words (the answer is proved, this help is not):'


def gained(mesh, after):
    """Bandwidth, profile and front under the old numbers, and as the program reports them, in unknowns where the mesh counts them."""
    before = figures.figures(figures.graph(mesh))
    unit = '' if mesh.counts is None else ', in unknowns'
    return ['%s %d before, %d after%s' % (name, old, getattr(after, name), unit) for name, old in zip(NAMES, before)]


def units(mesh):
    """What the program's figures count, where that is not nodes alone."""
    if mesh.counts is not None:
        yield 'nodes, parts, levels, passes and the rows of the listing count nodes; bandwidth, profile, front and width count unknowns'


def listed(first, others):
    """The fault that counts, then the others."""
    lines = [first] + ['also: ' + words for words in others[:MOST_FAULTS]]
    if len(others) > MOST_FAULTS:
        lines.append('and %d faults more' % (len(others) - MOST_FAULTS))
    return lines


def accepted(found, lines):
    """What is in the mesh, what was gained, where each part is thickest, and what may be wrong with it, in the source's own numbers."""
    listed = result.read(lines)
    return ([source.summary(found), *units(found.mesh)] + gained(found.mesh, listed.figures)
            + thickness.words(found.mesh, listed, found.numbers) + parts.warnings(found.mesh, found.numbers))


def explained(path, lines):
    found = faults.of_grd(read_bytes(path))
    if not found:
        return accepted(source.of_grd(path), lines)
    if lines != ['refused %d' % found[0].number]:
        raise Fault(0, 'this help would refuse the mesh by %d; the answer of the program stands' % found[0].number)
    return listed(str(found[0]), ['%s (%d)' % (refusal.where, refusal.number) for refusal in found[1:]])


def told(lines):
    return '\n  '.join([FIRST] + lines)


def main(words):
    if len(words) != 1:
        print(__doc__.strip(), file=sys.stderr)
        return 2
    return command(lambda: print(told(explained(words[0], sys.stdin.read().splitlines()))), words[0])


if __name__ == '__main__':
    sys.exit(main(sys.argv[1:]))
