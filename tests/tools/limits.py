#!/usr/bin/env python3
"""The greatest regular mesh of each element: so many cells along a square or cube, and in a row. The table of docs/LIMITS.md.

  limits.py    print the table; each mesh in it is given to the program, which must list it and refuse the next larger one
"""

import os
import subprocess
import sys
from collections import namedtuple
from itertools import permutations, product

import harness

import cover
import grd

PROGRAM = os.path.join(harness.TOP, 'target', 'bin', 'renumber')

# kind: GRD's, or None; cell: the elements of one cell, each a list of points by half steps from the cell's corner; flat: the cell is a square
Kind = namedtuple('Kind', 'name kind flat cell')

HALF = (0, 1, 2)
CUBE = list(product((0, 2), repeat=3))
SQUARE = list(product((0, 2), repeat=2))


def middle(p, q):
    return tuple((a + b) // 2 for a, b in zip(p, q))


def with_edges(points):
    """The points and the middle of each pair of them."""
    return sorted(set(points) | {middle(p, q) for p in points for q in points})


def simplices(dimension):
    """A square as two triangles, a cube as six tetrahedra: from corner to opposite corner, one axis after another."""
    for order in permutations(range(dimension)):
        at, corners = [0] * dimension, [(0,) * dimension]
        for axis in order:
            at[axis] = 2
            corners.append(tuple(at))
        yield corners


def pyramids():
    """A cube as six pyramids with their tops in the middle."""
    for axis, side in product(range(3), (0, 2)):
        yield [p for p in CUBE if p[axis] == side] + [(1, 1, 1)]


def wedges():
    """A cube as two wedges."""
    for corners in simplices(2):
        yield [p + (z,) for p in corners for z in (0, 2)]


def wedge_15(corners):
    """The corners and the middles of the edges: those of a pair that is level or upright."""
    return sorted(set(corners) | {middle(p, q) for p in corners for q in corners if p[2] == q[2] or p[:2] == q[:2]})


def odd(point):
    return sum(x % 2 for x in point)


KINDS = [
    Kind('bar', 1, True, [[(0, 0), (2, 0)], [(0, 0), (0, 2)]]),
    Kind('triangle', 2, True, list(simplices(2))),
    Kind('quadrilateral', 3, True, [SQUARE]),
    Kind('6-node triangle', 8, True, [with_edges(corners) for corners in simplices(2)]),
    Kind('8-node quadrilateral', 9, True, [[p for p in product(HALF, repeat=2) if odd(p) < 2]]),
    Kind('quadrilateral of 9', None, True, [list(product(HALF, repeat=2))]),
    Kind('tetrahedron', 4, False, list(simplices(3))),
    Kind('pyramid', 5, False, list(pyramids())),
    Kind('wedge', 6, False, list(wedges())),
    Kind('brick', 7, False, [CUBE]),
    Kind('10-node tetrahedron', 10, False, [with_edges(corners) for corners in simplices(3)]),
    Kind('wedge of 15', None, False, [wedge_15(corners) for corners in wedges()]),
    Kind('brick of 20', None, False, [[p for p in product(HALF, repeat=3) if odd(p) < 2]]),
    Kind('brick of 27', None, False, [list(product(HALF, repeat=3))]),
]


def mesh(kind, cells):
    """The mesh of so many cells along each axis, its nodes numbered along the last axis first."""
    elements = []
    for at in product(*(range(0, 2 * count, 2) for count in cells)):
        elements += [[tuple(a + b for a, b in zip(at, point)) for point in points] for points in kind.cell]
    if kind.kind == 1:
        # the far sides of the frame
        elements += [[(2 * i, 2 * cells[1]), (2 * i + 2, 2 * cells[1])] for i in range(cells[0])]
        elements += [[(2 * cells[0], 2 * i), (2 * cells[0], 2 * i + 2)] for i in range(cells[1])]
    number = {point: i for i, point in enumerate(sorted({p for points in elements for p in points}), 1)}
    numbered = [[number[p] for p in points] for points in elements]
    records = [record for nodes in numbered for record in ([(kind.kind, nodes)] if kind.kind else cover.records(nodes))]
    return grd.Mesh(len(number), records), len(elements)


def refusal(found):
    """Why GRD has no room for a mesh, or None: the number, and a word for the limit. The tests come in the program's order."""
    if grd.HEADER_BYTES + sum(grd.element_bytes(kind) for kind, _ in found.elements) > grd.MOST_BYTES:
        return 12, 'bytes'
    if found.n > grd.MOST_NODES:
        return 1, 'nodes'
    if entries(found) > grd.MOST_ENTRIES:
        return 11, 'entries'
    return None


def entries(found):
    return sum(len(row) for row in grd.neighbours(found))


def shape(kind, count, row):
    return (count,) + ((1,) if row else (count,)) * (1 if kind.flat else 2)


def greatest(kind, row):
    """The greatest count of cells along the side or the row, by halving."""
    low, high = 1, 2
    while not refusal(mesh(kind, shape(kind, high, row))[0]):
        low, high = high, 2 * high
    while high - low > 1:
        half = (low + high) // 2
        if refusal(mesh(kind, shape(kind, half, row))[0]):
            high = half
        else:
            low = half
    return low


def answer(found):
    """What the program says of the mesh: None where it is listed, or the number of the refusal."""
    # a count beyond a word would not be written at all
    data = grd.write(found._replace(elements=found.elements[:65535]))
    text = subprocess.run([PROGRAM], input=data, stdout=subprocess.PIPE, check=False).stdout.decode('ascii').split()
    return int(text[1]) if text[0] == 'refused' else None


def line(kind, row):
    """A line of the table, held against the program."""
    count = greatest(kind, row)
    found, elements = mesh(kind, shape(kind, count, row))
    number, limit = refusal(mesh(kind, shape(kind, count + 1, row))[0])
    if answer(found) is not None or answer(mesh(kind, shape(kind, count + 1, row))[0]) != number:
        raise SystemExit('the program does not agree about %s, %d cells' % (kind.name, count))
    cells = ' x '.join(str(side) for side in shape(kind, count, row))
    return '%-20s  %-12s  %5d  %8d  %7d  %5d  %s (%d)' % (kind.name, cells, found.n, elements, entries(found), len(grd.write(found)), limit, number)


def main():
    if not os.path.exists(PROGRAM):
        raise SystemExit('no program yet: ./renumber builds it')
    for row, title in ((False, 'squares and cubes'), (True, 'a row')):
        print('%-20s  %-12s  nodes  elements  entries  bytes  the next one has too many' % (title, 'cells'))
        for kind in KINDS:
            print(line(kind, row))
    return 0


if __name__ == '__main__':
    sys.exit(main())
