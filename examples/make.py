#!/usr/bin/env python3
"""The example meshes: NAME.grd, the listing NAME.txt, the picture NAME.svg, and the table in README.md; and docs/MEMORY.md with docs/store.svg.

  make.py            write them
  make.py --check    say whether the committed files are those that this script makes

A mesh is drawn as elements on points of a lattice. As a mesh tool does, it numbers corners first, then edges, then the inside, and middle
nodes last: by kind of node, then by how many elements meet in it, then by place. So the old numbers have a wide band. The listings are those
of tests/reference.
"""

import os
import sys

HERE = os.path.dirname(os.path.abspath(__file__))
TOP = os.path.dirname(HERE)
sys.path[:0] = [os.path.join(TOP, 'tools'), os.path.join(TOP, 'tests', 'reference')]

import figures
import grd
import memory
import picture
import program
import result

BAR, TRIANGLE, QUADRILATERAL, TETRAHEDRON, PYRAMID, WEDGE, BRICK, TRIANGLE_6, QUADRILATERAL_8, TETRAHEDRON_10 = range(1, 11)
CORNERS = {TRIANGLE_6: 3, QUADRILATERAL_8: 4, TETRAHEDRON_10: 4}


# From a drawing to a mesh. A drawing is a list of (kind, points); points are tuples of whole numbers.

def numbered(drawing, unknowns=None):
    """The mesh with nodes numbered as a mesh tool does; unknowns gives the count of a point, where nodes have other counts than one."""
    corners, meets = set(), {}
    for kind, points in drawing:
        corners.update(points[:CORNERS.get(kind, len(points))])
        for point in set(points):
            meets[point] = meets.get(point, 0) + 1
    order = sorted(meets, key=lambda point: (point not in corners, meets[point], point))
    number = {point: i for i, point in enumerate(order, 1)}
    return grd.Mesh(len(order), [(kind, [number[point] for point in points]) for kind, points in drawing],
                    [unknowns(point) for point in order] if unknowns else None)


def doubled(point):
    return tuple(2 * x for x in point)


def middle(p, q):
    """The point halfway between two doubled points."""
    return tuple((x + y) // 2 for x, y in zip(p, q))


def with_middles(kind, points, edges):
    """An element on doubled points: its corners, then the middle of each edge."""
    corners = [doubled(point) for point in points]
    return kind, corners + [middle(corners[i], corners[j]) for i, j in edges]


def box(x, y, z):
    """The eight corners of a unit cube: bottom, then top, each around."""
    return [(x + i, y + j, z + k) for k in (0, 1) for i, j in ((0, 0), (1, 0), (1, 1), (0, 1))]


def square(x, y):
    return [(x, y), (x + 1, y), (x + 1, y + 1), (x, y + 1)]


def collapsed(points, gone):
    """A quadrilateral made a triangle as the drawing office does it: the corner that is gone stands at the one before, which is given twice."""
    return QUADRILATERAL, [points[gone - 1] if i == gone else point for i, point in enumerate(points)]


def around(drawing, axis, count):
    """The drawing closed to a ring: places along one axis counted modulo this many."""
    def turned(point):
        return point[:axis] + (point[axis] % count,) + point[axis + 1:]
    return [(kind, [turned(point) for point in points]) for kind, points in drawing]


# The seven meshes.

def bracket():
    """An angle bracket: foot with two bolt holes, upright, and a rib whose slope is made of wedges."""
    foot = [(x, y, 0) for x in range(12) for y in range(5) if (x, y) not in ((8, 1), (8, 3))]
    upright = [(0, y, z) for y in range(5) for z in range(1, 9)]
    rib = [(x, 2, z) for x in range(1, 6) for z in range(1, 6 - x)]
    drawing = [(BRICK, box(*cell)) for cell in foot + upright + rib]
    for x in range(1, 6):
        z = 6 - x
        ends = [[(x, y, z), (x + 1, y, z), (x, y, z + 1)] for y in (2, 3)]
        drawing.append((WEDGE, ends[0] + ends[1]))
    return drawing


def encoder_plate():
    """A round plate with a ring of windows; towards the bore triangles halve the count of sectors."""
    sectors = 64
    cells = [(r, a) for r in range(1, 8) for a in range(sectors) if r not in (4, 5) or a % 4 < 2]
    drawing = [(QUADRILATERAL, square(*cell)) for cell in cells]
    for a in range(0, sectors, 2):
        inner, outer = [(0, a), (0, a + 2)], [(1, a), (1, a + 1), (1, a + 2)]
        drawing += [(TRIANGLE, [inner[0], outer[0], outer[1]]), (TRIANGLE, [inner[0], outer[1], inner[1]]),
                    (TRIANGLE, [inner[1], outer[1], outer[2]])]
    return around(drawing, 1, sectors)


def hub_sector():
    """A sector of a hub casting, barrel and flange, of 10-node tetrahedra: six to a cube, about its long diagonal."""
    barrel = [(r, a, z) for r in range(2) for a in range(6) for z in range(4)]
    flange = [(r, a, 0) for r in range(2, 4) for a in range(6)]
    edges = ((0, 1), (1, 2), (0, 2), (0, 3), (1, 3), (2, 3))
    drawing = []
    for r, a, z in barrel + flange:
        for i, j in ((0, 1), (0, 2), (1, 0), (1, 2), (2, 0), (2, 1)):
            steps = [(r, a, z)]
            for axis in (i, j, 3 - i - j):
                last = steps[-1]
                steps.append(last[:axis] + (last[axis] + 1,) + last[axis + 1:])
            drawing.append(with_middles(TETRAHEDRON_10, steps, edges))
    return drawing


def switch_arm():
    """The arm of a limit switch of 6-node triangles, wide at the pivot, with a return spring of bars."""
    edges = ((0, 1), (1, 2), (2, 0))
    cells = [(x, y) for x in range(26) for y in range(4) if 1 <= y <= 2 or x < 6 or x > 22]
    drawing = []
    for x, y in cells:
        a, b, c, d = square(x, y)
        drawing += [with_middles(TRIANGLE_6, points, edges) for points in ([a, b, c], [a, c, d])]
    spring = [(12, 2)] + [(12 + i % 2, -i) for i in range(1, 9)]
    return drawing + [(BAR, pair) for pair in zip(spring, spring[1:])]


def lug_plate():
    """A lug with a round bolt hole and a tapered end, of quadrilaterals alone: the slants at hole, corners and taper are collapsed ones."""
    above = [4] * 9 + [3] * 3 + [2] * 3 + [1] * 3
    # the cells on slants, and the corner that each has lost: 0 lower left, 1 lower right, 2 upper right, 3 upper left
    hole = {(2, -2): 2, (5, -2): 3, (5, 1): 0, (2, 1): 1}
    slants = {(0, -4): 0, (0, 3): 3, **hole}
    for x in range(1, len(above)):
        if above[x] < above[x - 1]:
            slants.update({(x - 1, above[x]): 2, (x - 1, -above[x - 1]): 1})
    drawing = []
    for x, half in enumerate(above):
        for y in range(-half, half):
            if (x, y) in slants:
                drawing.append(collapsed(square(x, y), slants[x, y]))
            elif not (2 <= x < 6 and -2 <= y < 2):
                drawing.append((QUADRILATERAL, square(x, y)))
    return drawing


def ring():
    """A closed ring of 8-node quadrilaterals, two across."""
    edges = ((0, 1), (1, 2), (2, 3), (3, 0))
    drawing = [with_middles(QUADRILATERAL_8, square(r, a), edges) for r in range(2) for a in range(36)]
    return around(drawing, 1, 72)


def two_parts():
    """A cover plate with a stiffened rim, and a pin that doesn't touch it: six pyramids to a cube, tetrahedra at its tip."""
    plate = [(QUADRILATERAL, [(0, x, y, 0) for x, y in square(*cell)]) for cell in ((x, y) for x in range(10) for y in range(6))]
    rim = [(BAR, [(0, x, y, 0), (0, x + 1, y, 0)]) for y in (0, 6) for x in range(10)]
    pin = []
    for z in range(5):
        for x in range(2):
            for y in range(2):
                corners = [(1,) + doubled(point) for point in box(x, y, z)]
                centre = middle(corners[0], corners[6])
                faces = ((0, 1, 2, 3), (4, 5, 6, 7), (0, 1, 5, 4), (1, 2, 6, 5), (2, 3, 7, 6), (3, 0, 4, 7))
                pin += [(PYRAMID, [corners[i] for i in face] + [centre]) for face in faces]
    tip = (1, 2, 2, 12)
    for x in range(2):
        for y in range(2):
            a, b, c, d = [(1,) + doubled(point) + (10,) for point in square(x, y)]
            pin += [(TETRAHEDRON, face + [tip]) for face in ([a, b, c], [a, c, d])]
    return plate + rim + pin


HINGE = 6


def hinged_plates():
    """Two plates, each with a notch, that a row of hinges joins: the lattice of examples/c/hinge.c."""
    return [(QUADRILATERAL, square(x, y)) for x in range(12) for y in range(4) if (x, y) not in ((2, 0), (9, 3))]


def hinged_unknowns(point):
    """A hinge has its three displacements, a plate's node three rotations too."""
    return 3 if point[0] == HINGE else 6


def hanger():
    """A small one, for the picture of a store: a flange, a plate around a hole, and a tab."""
    plate = [(x, y) for x in (1, 2) for y in (1, 2, 3) if (x, y) != (1, 2)]
    return [(QUADRILATERAL, square(*cell)) for cell in [(0, y) for y in range(5)] + plate + [(3, 2)]]


# file name, drawing, what it is
MESHES = [
    ('bracket', bracket, 'angle bracket with a rib and two bolt holes; bricks and wedges'),
    ('encoder_plate', encoder_plate, 'round plate with a ring of windows; quadrilaterals, triangles at the bore'),
    ('hub_sector', hub_sector, 'sixth of a hub casting, barrel and flange; 10-node tetrahedra'),
    ('switch_arm', switch_arm, 'arm of a limit switch with its return spring; 6-node triangles and bars'),
    ('lug_plate', lug_plate, 'lug with a round hole and a tapered end; quadrilaterals, twelve of them collapsed to triangles'),
    ('ring', ring, 'closed ring, two elements across; 8-node quadrilaterals'),
    ('two_parts', two_parts, 'cover plate and a pin that do not touch; quadrilaterals, bars, pyramids, tetrahedra'),
]

PAGE = '''# Examples

Seven small meshes with one unknown a node, one with more, their listings and their pictures. `make.py` makes them all, this page too; `make.py --check`
says whether they are what it makes. Old numbers are given as a mesh tool gives them: corners first, then edges, then the inside, middle nodes last.

| Mesh | What it is | Nodes | Elements | Bandwidth | Profile | Front | Parts | Levels | Width |
|---|---|---|---|---|---|---|---|---|---|
%(table)s

Bandwidth, profile and front are before → after the renumbering. `NAME.grd` is the mesh, `NAME.txt` the listing that the program must print
for it, and `NAME.svg` the matrix before and after. The listings come from `tests/reference`, the independent program.

    $ ./renumber examples/two_parts.grd
    nodes 152 parts 2 bandwidth 17 profile 1447 front 17 levels 18 width 13 passes 2
    1 1 1
    ..

`lug_plate` is made as the drawing office makes its plates: a triangle is a quadrilateral with one corner given twice. A node that repeats within
an element counts once, so the graph and the listing are those of the same plate with triangles.

    $ tools/grd.py examples/lug_plate.grd
    examples/lug_plate.grd: 118 nodes, 96 elements (quadrilateral 96; collapsed 12)

`tools/README.md` says how a picture is made, and how meshes come from other formats. [`docs/MEMORY.md`](../docs/MEMORY.md) says how full the stores of
these meshes get by each order; `memory.py` makes it.

## Unknowns per node

`hinged_plates` is a file of version 2: two plates that a row of hinges joins. A plate's node has six unknowns, three displacements and three
rotations; a hinge passes no moment on and has its three displacements alone. Nodes are numbered as ever, by the rows of the listing; bandwidth,
profile, front and width count unknowns.

| Mesh | What it is | Nodes | Unknowns | Elements | Bandwidth | Profile | Front | Parts | Levels | Width |
|---|---|---|---|---|---|---|---|---|---|---|
%(counted)s

    $ tools/grd.py examples/hinged_plates.grd
    examples/hinged_plates.grd: %(summary)s

`c/hinge.c` builds the stiffness of such plates out of beams, factors it in the store of the unknowns, whose rows stand where the store map says, and
solves it, and a dense solve must give the same. It also sees that no place is filled that the elimination call left unmarked.

## Callers

`c`, `fortran` and `rust` have callers of the library: `bracket` renumbers a mesh file, says how many passes the search for the ends of each part took
and in which level, counted from the node with number 1, it is thickest, eliminates by the new numbers and opens the store, which has a row for each
unknown: the store map says where it begins and with which column. It also says what reverse Cuthill-McKee would give. In `c`, `grd.c` reads such a
file, of either version, and makes its graph, refused as the program refuses it, `renumber.c` prints its listing, and `orders.c` prints both orders
side by side: old number, number by the run, number by reverse Cuthill-McKee. For `bracket` and `encoder_plate` the two are the same; for `hub_sector`
the second has bandwidth 148 and profile 39329. `import.c` takes a numbering of another tool, a text of three figures and pairs, and eliminates by it.
'''


def table_row(name, what, mesh, listed):
    before = figures.figures(figures.graph(mesh))
    after = listed.figures
    changes = ['%d → %d' % pair for pair in zip(before, (after.bandwidth, after.profile, after.front))]
    sizes = [mesh.n] + ([] if mesh.counts is None else [sum(mesh.counts)]) + [len(mesh.elements)]
    cells = ['[`%s`](%s.svg)' % (name, name), what] + sizes + changes + [after.parts, after.levels, after.width]
    return '| %s |' % ' | '.join(str(cell) for cell in cells)


def example(name, what, mesh):
    """The files of one mesh, pairs of a name and bytes, and its row of the table."""
    data = grd.write(mesh)
    text = program.text_for(data)
    listed = result.read(text.decode('ascii').splitlines())
    picture.test_match(mesh, listed)
    files = [(name + '.grd', data), (name + '.txt', text), (name + '.svg', picture.svg(name, mesh, listed).encode('utf-8'))]
    return files, table_row(name, what, mesh, listed)


def all_files():
    """Pairs of a file name and its bytes."""
    files, rows, meshes = [], [], []
    for name, drawing, what in MESHES:
        meshes.append((name, numbered(drawing())))
        made, row = example(name, what, meshes[-1][1])
        files += made
        rows.append(row)
    plates = numbered(hinged_plates(), hinged_unknowns)
    made, row = example('hinged_plates', 'two plates that a row of hinges joins; quadrilaterals', plates)
    page = PAGE % {'table': '\n'.join(rows), 'counted': row, 'summary': grd.summary(plates)}
    return files + made + [('README.md', page.encode('utf-8'))] + memory.files(meshes, numbered(hanger()))


def stands(name, data):
    path = os.path.join(HERE, name)
    if not os.path.exists(path):
        return False
    with open(path, 'rb') as file:
        return file.read() == data


def main(words):
    files = all_files()
    if words != ['--check']:
        for name, data in files:
            with open(os.path.join(HERE, name), 'wb') as file:
                file.write(data)
        print('%d files written' % len(files))
        return 0
    wrong = [name for name, data in files if not stands(name, data)]
    for name in wrong:
        print('%s is not what examples/make.py makes' % os.path.normpath(os.path.join('examples', name)))
    print('%d files, %d wrong' % (len(files), len(wrong)))
    return 1 if wrong else 0


if __name__ == '__main__':
    sys.exit(main(sys.argv[1:]))
