"""The meshes of the benchmark: the same bytes on every machine, by random numbers of a fixed seed.

A mesh is its number of nodes and its elements, each a list of a kind and its nodes. All keep the limits of a file: 4,096 nodes, 32,768
neighbour entries, 65,535 bytes.
"""

import itertools
import random
import struct

SEED = 1976
NODES = 4096
NODE_COUNT = [0, 2, 3, 4, 4, 5, 6, 8, 6, 8, 10]

# The corners of a cell of a grid, counted round the bottom, then round the top.
CORNERS = ((0, 0, 0), (1, 0, 0), (1, 1, 0), (0, 1, 0), (0, 0, 1), (1, 0, 1), (1, 1, 1), (0, 1, 1))

BAR, TRIANGLE, QUADRILATERAL, TETRAHEDRON, BRICK, QUADRILATERAL_8 = 1, 2, 3, 4, 7, 9


def bars(pairs):
    return [[BAR, p, q] for p, q in pairs]


def path(first, length):
    """The bars of a path of so many nodes, counted from first."""
    return bars((p, p + 1) for p in range(first, first + length - 1))


def lone():
    return NODES, []


def pairs():
    return NODES, bars((p, p + 1) for p in range(1, NODES, 2))


def rings():
    """1,000 rings of four."""
    return 4000, [bar for p in range(1, 4000, 4) for bar in bars([(p, p + 1), (p + 1, p + 2), (p + 2, p + 3), (p + 3, p)])]


def line():
    return NODES, path(1, NODES)


def star():
    return NODES, bars((1, p) for p in range(2, NODES + 1))


def wheel():
    n, spokes = star()
    return n, spokes + path(2, n - 1) + bars([(n, 2)])


def comb():
    """64 paths of 64, their first nodes joined in a row."""
    spine = bars((64 * t + 1, 64 * t + 65) for t in range(63))
    return NODES, spine + [bar for t in range(64) for bar in path(64 * t + 1, 64)]


def caterpillar():
    """A spine of 1,024, on each of its nodes a leaf and a leg of two. The leaves have the lower numbers, the legs go first by size."""
    spine = 1024
    leaf = lambda p: spine + p
    leg = lambda p: 2 * spine + 2 * p - 1
    return NODES, path(1, spine) + [bar for p in range(1, spine + 1)
                                    for bar in bars([(p, leaf(p)), (p, leg(p)), (leg(p), leg(p) + 1)])]


def beads():
    """Rings in a row, each sharing a node with the next. Two ways of unequal length lead through each, so each leaves a piece to be placed."""
    n, elements, last = 1, [], 1
    size = 0
    while n + 8 <= NODES:
        side = 1 + size % 3
        size += 1
        ways = [list(range(n + 1, n + 1 + side)), list(range(n + 1 + side, n + 2 + 2 * side))]
        end = n + 2 + 2 * side
        for way in ways:
            stops = [last] + way + [end]
            elements += bars(zip(stops, stops[1:]))
        last = n = end
    return n, elements


def grid(w, h):
    """Bars along the lines of a grid: without diagonals."""
    at = lambda x, y: y * w + x + 1
    across = bars((at(x, y), at(x + 1, y)) for y in range(h) for x in range(w - 1))
    return w * h, across + bars((at(x, y), at(x, y + 1)) for y in range(h - 1) for x in range(w))


def triangles(w, h):
    """A grid with one diagonal in each cell."""
    at = lambda x, y: y * w + x + 1
    elements = []
    for y in range(h - 1):
        for x in range(w - 1):
            a, b, c, d = at(x, y), at(x + 1, y), at(x + 1, y + 1), at(x, y + 1)
            elements += [[TRIANGLE, a, b, c], [TRIANGLE, a, c, d]]
    return w * h, elements


def quadrilaterals(w, h, closed=False):
    """A grid with both diagonals in each cell; closed to a tube or not."""
    at = lambda x, y: (x % w) * h + y + 1
    return w * h, [[QUADRILATERAL, at(x, y), at(x + 1, y), at(x + 1, y + 1), at(x, y + 1)]
                   for x in range(w if closed else w - 1) for y in range(h - 1)]


def bricks(a):
    at = lambda x, y, z: (z * a + y) * a + x + 1
    cells = itertools.product(range(a - 1), repeat=3)
    return a ** 3, [[BRICK] + [at(x + i, y + j, z + k) for i, j, k in CORNERS] for z, y, x in cells]


def tetrahedra(a):
    """Six tetrahedra to a cell, each a way from the lowest corner to the highest."""
    at = lambda x, y, z: (z * a + y) * a + x + 1
    elements = []
    for z, y, x in itertools.product(range(a - 1), repeat=3):
        for way in itertools.permutations(range(3)):
            corner = [x, y, z]
            nodes = [at(*corner)]
            for axis in way:
                corner[axis] += 1
                nodes.append(at(*corner))
            elements.append([TETRAHEDRON] + nodes)
    return a ** 3, elements


def plate(w, h, holes):
    """Quadrilaterals of eight nodes, with round holes."""
    numbers = {}
    at = lambda x, y: numbers.setdefault((x, y), len(numbers) + 1)
    around = ((0, 0), (2, 0), (2, 2), (0, 2), (1, 0), (2, 1), (1, 2), (0, 1))
    elements = [[QUADRILATERAL_8] + [at(2 * x + i, 2 * y + j) for i, j in around] for y in range(h) for x in range(w)
                if all((x + 0.5 - a) ** 2 + (y + 0.5 - b) ** 2 >= r * r for a, b, r in holes)]
    return len(numbers), elements


def mixed(draw):
    """Single elements of every kind, a bar hung on some: many small parts."""
    n, elements = 0, []
    while n + 11 <= NODES:
        kind = draw.randrange(1, 11)
        elements.append([kind] + list(range(n + 1, n + 1 + NODE_COUNT[kind])))
        n += NODE_COUNT[kind]
        if draw.random() < 0.3:
            elements.append([BAR, n, n + 1])
            n += 1
    return n, elements


def chain(draw):
    """Elements of every kind, each sharing a node or two with the one before: one long part."""
    n, elements = 1, []
    while n + 10 <= NODES and len(elements) < 760:
        kind = draw.randrange(1, 11)
        shared = min(NODE_COUNT[kind] - 1, draw.randrange(1, 3), n)
        new = NODE_COUNT[kind] - shared
        elements.append([kind] + list(range(n - shared + 1, n + new + 1)))
        n += new
    return n, elements


def scattered(draw, n, degree):
    """Random edges, so many that the mean degree is `degree`: parts of all sizes."""
    edges = set()
    while len(edges) < n * degree // 2:
        p, q = draw.randrange(1, n + 1), draw.randrange(1, n + 1)
        if p != q:
            edges.add((min(p, q), max(p, q)))
    return n, bars(sorted(edges))


def shuffled(mesh, draw):
    n, elements = mesh
    new = list(range(1, n + 1))
    draw.shuffle(new)
    elements = [[e[0]] + [new[p - 1] for p in e[1:]] for e in elements]
    draw.shuffle(elements)
    return n, elements


def meshes():
    """Name and mesh; whether it is renumbered at random stands beside it."""
    draw = random.Random(SEED)
    for name, mesh, renumbered in (
            ('4,096 isolated nodes', lone(), False),
            ('2,048 pairs', pairs(), True),
            ('1,000 rings of four', rings(), True),
            ('path of 4,096', line(), False),
            ('path of 4,096, renumbered', line(), True),
            ('star of 4,096', star(), True),
            ('wheel of 4,096', wheel(), True),
            ('comb of 64 x 64', comb(), True),
            ('caterpillar', caterpillar(), False),
            ('chain of rings', beads(), True),
            ('grid 64 x 64', grid(64, 64), False),
            ('grid 64 x 64, renumbered', grid(64, 64), True),
            ('grid 64 x 64, one diagonal', triangles(64, 64), True),
            ('grid 64 x 64, both diagonals', quadrilaterals(64, 64), False),
            ('grid 64 x 64, both diagonals, renumbered', quadrilaterals(64, 64), True),
            ('strip 1,024 x 4', quadrilaterals(1024, 4), True),
            ('tube 400 x 8', quadrilaterals(400, 8, True), True),
            ('bricks 11 x 11 x 11', bricks(11), True),
            ('tetrahedra 11 x 11 x 11', tetrahedra(11), True),
            ('plate with holes', plate(32, 26, [(8, 8, 3.2), (24, 9, 4.1), (14, 19, 3.6), (26, 21, 2.2)]), True),
            ('mixed elements, many parts', mixed(draw), True),
            ('mixed elements, one part', chain(draw), True),
            ('random, mean degree 2', scattered(draw, NODES, 2), False),
            ('random, mean degree 5', scattered(draw, NODES, 5), False)):
        yield name, shuffled(mesh, draw) if renumbered else mesh


def grd(mesh):
    """The mesh as a file."""
    n, elements = mesh
    words = [1, n, len(elements)] + [word for element in elements for word in element]
    return b'GRD' + struct.pack('<%dH' % len(words), *words)
