"""Collapsed elements: a node that repeats counts once. Each is held against the element of its distinct nodes, in every format and drawing."""

import os
import re

from converting import adjoins, converts
from drawing_cases import CUBE, area, drawn, polygons, visible
from gmsh_cases import mesh
from harness import TOP, edited, grd_file, run
from nastran_cases import free

import cover
import grd
import program
import to_grd
from mesh import mesh_rows

CARD = {1: 'CROD', 2: 'CTRIA3', 3: 'CQUAD4', 4: 'CTETRA', 5: 'CPYRAM', 6: 'CPENTA', 7: 'CHEXA', 8: 'CTRIA6', 9: 'CQUAD8', 10: 'CTETRA'}
TYPE = {1: 'T3D2', 2: 'S3', 3: 'S4', 4: 'C3D4', 5: 'C3D5', 6: 'C3D6', 7: 'C3D8', 8: 'S6', 9: 'S8', 10: 'C3D10'}
GMSH = {1: 1, 2: 2, 3: 3, 4: 4, 5: 7, 6: 6, 7: 5, 8: 9, 9: 16, 10: 11}

# A collapsed element, and one without a repeated node that joins the same, or None where GRD has none.
PAIRS = [
    ((3, 1, 2, 3, 3), (2, 1, 2, 3)), ((3, 1, 1, 2, 3), (2, 1, 2, 3)), ((3, 1, 2, 2, 3), (2, 1, 2, 3)), ((3, 1, 2, 3, 1), (2, 1, 2, 3)),
    ((3, 1, 2, 1, 3), (2, 1, 2, 3)), ((3, 4, 9, 9, 4), (1, 4, 9)), ((3, 5, 5, 5, 5), None),
    ((1, 2, 2), None), ((2, 7, 7, 7), None), ((2, 7, 8, 7), (1, 7, 8)),
    ((4, 1, 2, 3, 3), (2, 1, 2, 3)), ((5, 1, 2, 3, 3, 5), (4, 1, 2, 3, 5)), ((6, 1, 2, 3, 4, 4, 4), (4, 1, 2, 3, 4)),
    ((7, 1, 2, 3, 3, 5, 6, 7, 7), (6, 1, 2, 3, 5, 6, 7)), ((7, 1, 2, 3, 4, 5, 5, 5, 5), (5, 1, 2, 3, 4, 5)),
    ((7, 1, 2, 3, 4, 1, 2, 3, 4), (3, 1, 2, 3, 4)), ((7, 4, 3, 2, 1, 4, 3, 2, 1), (3, 4, 3, 2, 1)),
    ((7, 1, 1, 1, 1, 6, 6, 6, 6), (1, 1, 6)), ((7, 8, 8, 8, 8, 8, 8, 8, 8), None),
    ((8, 1, 2, 2, 4, 2, 4), (2, 1, 2, 4)), ((9, 1, 2, 3, 3, 5, 6, 3, 7), (8, 1, 2, 3, 5, 6, 7)), ((10, 1, 2, 3, 3, 5, 6, 7, 8, 9, 3), None),
]


def cases(c):
    formats(c)
    other_types(c)
    inner(c)
    seen(c)
    pictures(c)
    example(c)


# Files.

def texts(n, *elements):
    """The elements in each format, on nodes 1 to n."""
    grid = ''.join('GRID,%d\n' % p for p in range(1, n + 1))
    yield 'a.bdf', grid + ''.join(free(CARD[kind], i, 1, *nodes) for i, (kind, *nodes) in enumerate(elements, 1))
    rows = ''.join('*ELEMENT, TYPE=%s\n%d, %s\n' % (TYPE[kind], i, ', '.join(map(str, nodes))) for i, (kind, *nodes) in enumerate(elements, 1))
    yield 'a.inp', '*NODE\n' + ''.join('%d, 0.\n' % p for p in range(1, n + 1)) + rows
    yield 'a.msh', mesh(range(1, n + 1), [[GMSH[kind]] + nodes for kind, *nodes in elements])


def formats(c):
    """Written as it is, from every format; and numbered by tests/reference as the element of its distinct nodes."""
    chain = [(1, p, p + 1) for p in range(1, 9)]
    for collapsed, plain in PAIRS:
        data = grd_file(9, *chain, collapsed)
        for file, text in texts(9, *chain, collapsed):
            converts(c, 'collapsed: %s in %s' % (collapsed, file), file, text, data)
        read = grd.read(data)
        rows = mesh_rows(9, [nodes for _, nodes in read.elements])
        c.equal('collapsed: neighbours of %s' % (collapsed,), grd.neighbours(read)[1:], [rows[p] for p in range(1, 10)])
        distinct = set(collapsed[1:])
        c.equal('collapsed: all distinct nodes of %s adjoin, and no others' % (collapsed,), grd.neighbours(grd.read(grd_file(9, collapsed)))[1:],
                [distinct - {p} if p in distinct else set() for p in range(1, 10)])
        if plain or len(distinct) == 1:
            c.equal('collapsed: %s is numbered as %s' % (collapsed, plain), program.text_for(data),
                    program.text_for(grd_file(9, *chain, *[plain] * bool(plain))))
    fields = 'CQUAD4* %16d%16d%16d%16d\n*       %16d%16d\n' % (1, 1, 1, 2, 3, 3)
    for name, text in (('small field', 'CQUAD4  ' + '%8d' * 6 % (1, 1, 1, 2, 3, 3)), ('large field', fields)):
        converts(c, 'collapsed: CQUAD4 in ' + name, 'a.bdf', text, grd_file(3, (3, 1, 2, 3, 3)))


def other_types(c):
    """Elements that GRD has no kind for: their distinct nodes adjoin."""
    def abaqus(name, n, *nodes):
        return '*NODE\n%s*ELEMENT, TYPE=%s\n1, %s\n' % (''.join('%d, 0.\n' % p for p in range(1, n + 1)), name, ', '.join(map(str, nodes)))
    adjoins(c, 'collapsed: a line of 3, its ends in one', 'a.inp', abaqus('B32', 3, 1, 2, 1), 3, (1, 2))
    adjoins(c, 'collapsed: a line of 3 on one node', 'a.inp', abaqus('B32', 2, 2, 2, 2), 2)
    wedge = (1, 2, 3, 3, 4, 5, 6, 6, 7, 8, 3, 9, 10, 11, 6, 12, 13, 14, 15, 15)
    deck = ''.join('GRID,%d\n' % p for p in range(1, 17)) + free('CHEXA', 1, 1, *wedge)
    for name, text in (('a.bdf', deck), ('a.inp', abaqus('C3D20', 16, *wedge)), ('a.msh', mesh(range(1, 17), [(17,) + wedge]))):
        adjoins(c, 'collapsed: a brick of 20 made a wedge of 15 in ' + name, name, text, 16, range(1, 16))
    c.equal('cover: a node that repeats', cover.records([4, 2, 4, 7, 2]), [(2, [4, 2, 7])])
    c.equal('cover: one node', cover.records([5, 5, 5]), [(1, [5, 5])])


def inner(c):
    """What lies in another is told by the distinct nodes, not by the length of the list; a node of no joining element is counted as alone."""
    deck = ('CQUAD4,1,1,1,2,2,1\nCTRIA3,2,1,1,2,3\nCQUAD4,3,1,3,2,1,1\nCROD,4,1,3,3\nCQUAD4,5,1,3,4,4,5\nCTRIA3,6,1,5,4,3\nCROD,7,1,6,6\n')
    got = run(to_grd.main, ['--drop-inner', 'a.bdf', '-o', 'out.grd'], {'a.bdf': deck})
    c.equal('collapsed: elements in others', got,
            (0, 'out.grd: 6 nodes, 3 elements (bar 1, triangle 1, quadrilateral 1; collapsed 2)\n'
             'elements left out, as their nodes all lie in another: 4\nnodes joined to no other, each a part of its own: 1\n', '',
             {'out.grd': grd_file(6, (2, 1, 2, 3), (3, 3, 4, 4, 5), (1, 6, 6))}))


# Drawings.

SHAPES = dict(enumerate('bar triangle quadrilateral tetrahedron pyramid wedge brick'.split(), 1))


def looks(*elements):
    """What is seen of the elements on a cube: nodes of each face, whether it is a line, and its shade."""
    points = CUBE + [(2, 0, 0)]
    return sorted((sorted(face.nodes), face.bar, face.shade) for face in visible([(SHAPES[kind], nodes) for kind, *nodes in elements], points))


def seen(c):
    """A collapsed element looks as the one of its distinct nodes, alone and against a neighbour."""
    for collapsed, plain in PAIRS:
        if collapsed[0] in SHAPES:
            c.equal('collapsed: %s looks as %s' % (collapsed, plain), looks(collapsed), looks(plain) if plain else [])
    brick, pyramid = (7, 1, 2, 3, 4, 5, 6, 7, 8), (7, 2, 9, 9, 3, 6, 9, 9, 7)
    c.equal('collapsed: no face between a brick and one made a pyramid', looks(brick, pyramid), looks(brick, (5, 2, 3, 7, 6, 9)))
    c.equal('collapsed: a triangle and its quadrilateral are one face', looks((2, 1, 2, 6), (3, 6, 1, 2, 2)), looks((2, 1, 2, 6)))
    middles = visible([('quadrilateral', [1, 2, 3, 3, 4, 5, 3, 6])], [(0, 0, 0), (2, 0, 0), (2, 2, 0), (1, 0, 0), (2, 1, 0), (1, 1, 0)])
    c.equal('collapsed: middles between their corners', [face.nodes for face in middles], [[1, 4, 2, 5, 3, 6]])
    for nodes in ([1, 1, 2], [1, 2, 1]):
        line = visible([('bar', nodes)], [(0, 0, 0), (1, 0, 0)])
        c.equal('collapsed: a line of 3 on two nodes', [(face.nodes, face.bar) for face in line], [([1, 2], True)])


def edges(text):
    """How many edges are drawn in each panel of a flat mesh."""
    return [path.count('M') for path in re.findall('<path class="o" d="([^"]*)"/>', text)]


def pictures(c):
    """Two by two squares, the fourth a triangle by its repeated corner: eleven edges, as with a true triangle. A node by itself is a dot."""
    fourth = 'CQUAD4,4,1,5,6,6,8'
    plain = drawn(edited('collapsed.bdf', (fourth, 'CTRIA3,4,1,5,6,8')), '--mesh')
    for nodes in ('5,6,6,8', '5,6,8,8', '8,5,6,8', '5,5,6,8'):
        made = drawn(edited('collapsed.bdf', (fourth, 'CQUAD4,4,1,' + nodes)), '--mesh')
        c.equal('collapsed: %s is drawn' % nodes, (made[:2], edges(made[2]), made[2].count('class="b"'), made[2].count('<circle color=')),
                ((0, ''), [11] * 4, 0, 4))
        c.equal('collapsed: %s is listed as a triangle' % nodes, made[3], plain[3])
        total = sum(area(polygon) for path in re.findall(r'<path color="#\w+" d="([^"]*)"/>', made[2]) for polygon in polygons(path))
        # three squares and a half in four panels, 125.3 pixels wide, in tenths
        c.holds('collapsed: %s covers three squares and a half: %s' % (nodes, total), abs(total - 4 * 3.5 * 1253.3 ** 2) < 4 * 4 * 1253 * 4)
    c.equal('collapsed: the same picture with a triangle', drawn(edited('collapsed.bdf', (fourth, 'CQUAD4,4,1,5,6,8,8')), '--mesh')[2], plain[2])
    text = drawn(edited('collapsed.bdf', (fourth, 'CQUAD4,4,1,6,8,8,6'), ('CROD,5,1,9,9', 'CROD,5,1,6,9')), '--mesh')[2]
    halves = sum(path.count('M') for path in re.findall('<path class="b" color="#[0-9a-f]+" d="([^"]*)"/>', text))
    c.equal('collapsed: a quadrilateral made a line is a bar: two bars, by halves', (edges(text), halves, text.count('<circle color=')),
            ([10] * 4, 16, 0))


def example(c):
    """The drawing office's plate, and the same one with triangles."""
    with open(os.path.join(TOP, 'examples', 'lug_plate.grd'), 'rb') as file:
        data = file.read()
    elements = [(2 if len(set(nodes)) == 3 else kind, list(dict.fromkeys(nodes))) for kind, nodes in grd.read(data).elements]
    c.equal('collapsed: the example has twelve', sum(kind == 2 for kind, _ in elements), 12)
    c.equal('collapsed: the example is listed as with triangles', program.text_for(data),
            program.text_for(grd_file(grd.read(data).n, *[[kind] + nodes for kind, nodes in elements])))
