"""The drawing of a mesh: what is seen of it, that the shares of its nodes cover it, and the four colourings."""

import os
import re
import xml.etree.ElementTree as tree

from harness import DATA, grd_file, run

import drawing
import faces
import figures
import picture
import places
import program
import to_grd
from files import Source

SVG = '{http://www.w3.org/2000/svg}'
CUBE = [(x, y, z) for z in (0, 1) for x, y in ((0, 0), (1, 0), (1, 1), (0, 1))]


def cases(c):
    numbers(c)
    systems(c)
    seen(c)
    middles(c)
    shares(c)
    pictures(c)
    exports(c)
    largest(c)
    undrawn(c)


def numbers(c):
    """Coordinates as the formats write them."""
    words = ['1.5', '-2', '.5', '1.', '1.5-3', '2+2', '1.0E+01', '3.d0', '1d-1', '7.E5', '', ' ', 'x', '1.5.', '--1', '1e', 'nan', 'inf']
    wanted = [1.5, -2.0, 0.5, 1.0, 0.0015, 200.0, 10.0, 3.0, 0.1, 7e5, 0.0, 0.0, None, None, None, None, None, None]
    c.equal('places: numbers', [places.real(word) for word in words], wanted)
    c.equal('places: three, two, one that is none', [places.point(w) for w in (['1', '2', '3', '4'], ['1', '2'], ['1', 'a', '2'])],
            [(1.0, 2.0, 3.0), (1.0, 2.0, 0.0), None])
    turned = [tuple(round(x, 9) for x in places.turned(system, (2.0, 90.0, 30.0))) for system in ('C', 'S', '', 'R')]
    c.equal('places: cylindrical and spherical', turned, [(0.0, 2.0, 30.0), (0.0, 1.732050808, 1.0), (2.0, 90.0, 30.0), (2.0, 90.0, 30.0)])


def systems(c):
    """NASTRAN's systems: a point of each, one within another, and those that are not known."""
    deck = ('CORD2R,1,0,1.,0.,0.,1.,0.,5.\n,1.,9.,0.\nCORD2C,2,,1.,0.,0.,1.,0.,5.\n,2.,0.,7.\nCORD2S,3,,0.,0.,0.,0.,0.,1.\n,1.,0.,0.\n'
            'CORD2R,4,1,1.,0.,0.,1.,0.,1.\n,2.,0.,0.\nCORD2R,5,6,0.,0.,0.,0.,0.,1.\n,1.,0.,0.\nCORD2R,6,5,0.,0.,0.,0.,0.,1.\n,1.,0.,0.\n'
            'CORD2R,7,,0.,0.,0.,0.,0.,0.\n,1.,0.,0.\nCORD1R,8,1,2,3\n')
    points = [(1, '2.,3.,4.'), (2, '2.,90.,3.'), (3, '2.,90.,0.'), (3, '2.,30.,90.'), (4, '1.,1.,1.'), (0, '1.,2.,3.'), (5, '1.,1.,1.'),
              (7, '1.,1.,1.'), (8, '1.,1.,1.'), (9, '1.,1.,1.')]
    grid = ''.join('GRID,%d,%d,%s\n' % (i, system, place) for i, (system, place) in enumerate(points, 1))
    wanted = [(-2, 2, 4), (1, 2, 3), (2, 0, 0), (0, 1, 1.732051), (0, 2, 1), (1, 2, 3)] + [None] * 4
    got = read_places(deck + grid)
    c.equal('systems: NASTRAN', [place and tuple(round(x, 6) + 0.0 for x in place) for place in got], wanted)
    c.equal('systems: GRDSET', read_places('GRDSET,,2\nGRID,1,,2.,90.,3.\nGRID,2,0,2.,90.,3.\n' + deck)[1], (2.0, 90.0, 3.0))
    c.equal('systems: GRDSET for a point that names none', [round(x, 6) for x in read_places(deck + 'GRID,1,,2.,90.,3.\nGRDSET,,2\n')[0]], [1, 2, 3])


def read_places(deck):
    """The coordinates of a deck's grid points, by rising number."""
    found = []

    def work(_):
        model = to_grd.model_of(Source('a.bdf'))
        found.extend(model.places[number] for number in sorted(model.nodes))
    run(work, [], {'a.bdf': deck})
    return found


# What is seen.

def visible(elements, points):
    return faces.visible(elements, dict(enumerate(points, 1)))[0]


def seen(c):
    """Of a brick three faces, of two in a row five; of one that stands behind, what is farther comes first; a shell from both sides."""
    brick = [('brick', list(range(1, 9)))]
    c.equal('faces: one brick', sorted(sorted(face.nodes) for face in visible(brick, CUBE)), [[1, 2, 5, 6], [2, 3, 6, 7], [5, 6, 7, 8]])
    two = brick + [('brick', [2, 9, 10, 3, 6, 11, 12, 7])]
    row = CUBE + [(2, 0, 0), (2, 1, 0), (2, 0, 1), (2, 1, 1)]
    c.equal('faces: two bricks', len(visible(two, row)), 5)
    c.equal('faces: a shell between two solids', len(visible(two + [('quadrilateral', [2, 3, 7, 6])], row)), 5)
    c.equal('faces: a shell on a solid, once', len(visible(brick + [('quadrilateral', [5, 6, 7, 8])], CUBE)), 3)
    for nodes in ([1, 2, 6, 5], [5, 6, 2, 1], [3, 4, 8, 7]):
        c.equal('faces: a shell alone', len(visible([('quadrilateral', nodes)], CUBE)), 1)
    far = [(x, y + 5, z) for x, y, z in CUBE]
    depths = [face.nodes[0] > 8 for face in visible(brick + [('brick', list(range(9, 17)))], CUBE + far)]
    c.equal('faces: the far brick first', depths, [True] * 3 + [False] * 3)
    for axis, name in ((0, 'yz'), (1, 'xz'), (2, 'xy')):
        flat = [p[:axis] + (7,) + p[axis:] for p in ((0, 0), (3, 0), (3, 2), (0, 2))]
        view = faces.visible([('quadrilateral', [1, 2, 3, 4])], dict(enumerate(flat, 1)))[1]
        c.equal('faces: flat in ' + name, (view.flat, [axis for axis, _ in view.axes()]), (True, list(name)))
    solids = {'tetrahedron': [1, 2, 4, 5], 'pyramid': [1, 2, 3, 4, 5], 'wedge': [1, 2, 4, 5, 6, 8]}
    for shape, nodes in solids.items():
        outer = list(faces.outer_faces([(shape, nodes)], dict(enumerate(CUBE, 1))))
        c.equal('faces: outside of a ' + shape, (len(outer), all(inside for _, _, inside in outer)), (len(faces.FACES[shape]), True))


def middles(c):
    """The middle of each edge, whatever the order of a format."""
    corners = [(0, 0, 0), (2, 0, 0), (0, 2, 0), (0, 0, 2)]
    edges = {(0, 1): (1, 0, 0), (1, 2): (1, 1, 0), (0, 2): (0, 1, 0), (0, 3): (0, 0, 1), (1, 3): (1, 0, 1), (2, 3): (0, 1, 1)}
    nastran = [(0, 1), (1, 2), (0, 2), (0, 3), (1, 3), (2, 3)]
    gmsh = nastran[:4] + [(2, 3), (1, 3)]
    found = []
    for order in (nastran, gmsh):
        points = dict(enumerate(corners + [edges[edge] for edge in order], 1))
        found.append([[points[p] for p in faces.around('tetrahedron', face, list(range(1, 11)), points)] for face in faces.FACES['tetrahedron']])
    c.equal('faces: middles of NASTRAN and Gmsh', found[0], found[1])
    c.equal('faces: a middle between its corners', found[0][0], [(0, 0, 0), (1, 0, 0), (2, 0, 0), (1, 1, 0), (0, 2, 0), (0, 1, 0)])
    bar = dict(enumerate([(0, 0, 0), (2, 0, 0), (1, 0, 0)], 1))
    c.equal('faces: the middle of a bar', faces.around('bar', (0, 1), [1, 2, 3], bar), [1, 3, 2])


# Shares.

def area(points):
    return abs(sum(p[0] * q[1] - q[0] * p[1] for p, q in zip(points, points[1:] + points[:1]))) / 2


def shares(c):
    """The nodes' shares of a face cover it once."""
    square = [(0, 0), (600, 0), (600, 400), (0, 400)]
    face = faces.Face([1, 2, 3, 4], square, 0, 0, False)
    for name, colours in (('one colour', 'aaaa'), ('two', 'aabb'), ('two across', 'abab'), ('three', 'aabc'), ('four', 'abcd'),
                          ('the first and last', 'abba')):
        found = drawing.cells(face, dict(zip(face.nodes, colours)))
        c.equal('cells: %s: area' % name, sum(area(polygon) for _, polygon in found), area(square))
        own = sorted(colour for colour, polygon in found for point in polygon if point in square)
        c.equal('cells: %s: each node in its own' % name, own, sorted(colours))
    bar = faces.Face([1, 2], [(0, 0), (100, 0)], 0, 0, True)
    c.equal('cells: a bar', list(drawing.pieces(bar, {1: 'a', 2: 'b'})), [('a', [(0, 0), (50, 0)]), ('b', [(50, 0), (100, 0)])])
    c.equal('cells: outline', drawing.outline([(10, 20), (30, 5), (25, 40)]), 'M10 20l20-15-5 35z')


# Pictures.

PLATE = ('GRID,10,,0.,0.,0.\nGRID,20,,1.,0.,0.\nGRID,30,,2.,0.,0.\nGRID,40,,0.,1.,0.\nGRID,50,,1.,1.,0.\nGRID,60,,2.,1.,0.\nGRID,70,,4.,0.,0.\n'
         'GRID,80,,4.,1.,0.\nGRID,90,,3.,.5,0.\nCQUAD4,1,1,10,20,50,40\nCQUAD4,2,1,20,30,60,50\nCROD,3,1,70,80\n')


def listing_of(deck):
    made = run(to_grd.main, ['--compact', 'a.bdf', '-o', 'a.grd'], {'a.bdf': deck})[3]
    return program.text_for(made['a.grd'])


def drawn(deck, *options):
    """The picture of a deck, and its listing."""
    listing = listing_of(deck)
    status, _, err, made = run(picture.main, list(options) + ['a.bdf', 'a.txt', '-o', 'a.svg'], {'a.bdf': deck, 'a.txt': listing})
    return status, err, made.get('a.svg', b'').decode('utf-8'), listing.decode('ascii')


def pictures(c):
    """Labels in the source's numbers, new numbers, levels and parts; areas; loose nodes and bars; axes."""
    status, err, text, listing = drawn(PLATE, '--mesh')
    c.equal('drawing: made', (status, err), (0, ''))
    rows = [[int(word) for word in line.split()] for line in listing.splitlines()[1:]]
    labels = [node.text for node in tree.fromstring(text).iter(SVG + 'text') if node.get('paint-order')]
    wanted = [10 * old for old, _, _ in rows] + [new for _, new, _ in rows] + [level for _, _, level in rows] + [1] * 6 + [2, 2, 3]
    c.equal('drawing: labels', labels, [str(word) for word in wanted])
    paths = re.findall(r'<path color="(#\w+)" d="([^"]*)"/>', text)
    total = sum(area(polygon) for _, path in paths for polygon in polygons(path))
    # both squares in four panels, 94 pixels wide, in tenths
    c.holds('drawing: the panels are covered once: %s' % total, abs(total - 4 * 2 * 940 ** 2) < 4 * 2 * 940 * 4)
    c.equal('drawing: one loose node in four panels', text.count('<circle color='), 4)
    c.holds('drawing: bars', len(re.findall('<path class="b"', text)) >= 4)
    c.equal('drawing: titles', re.findall('font-weight="bold">([^<]*)</text>', text),
            ['a', 'before: old numbers', 'after: new numbers', 'levels', 'parts'])
    for words in ('1: 6 nodes', '2: 2 nodes', '3: 1 node<', '9 nodes, 3 elements, 3 parts'):
        c.holds('drawing: ' + words, words in text)
    both = drawn(PLATE, '--both')[2]
    c.equal('drawing: both', len(re.findall('font-weight="bold">(before: old numbers|after: new numbers)<', both)), 4)
    tree.fromstring(both)
    depth = max(level for _, _, level in rows)
    colours = {drawing.by_level(level, depth) for level in range(1, depth + 1)}
    c.equal('drawing: a colour for each level', len(colours), depth)
    c.equal('drawing: old numbers on the scale', [drawing.by_rank(1, 9), drawing.by_rank(9, 9)], [drawing.SCALE[0], drawing.on_scale(28 / 31)])


def polygons(path):
    """The polygons of a path of M x y l dx dy .. z."""
    for part in re.findall(r'M([-\d ]+)l([-\d ]+)z', path):
        (x, y), steps = [[int(word) for word in re.findall(r'-?\d+', words)] for words in part]
        points = [(x, y)]
        for dx, dy in zip(steps[::2], steps[1::2]):
            points.append((points[-1][0] + dx, points[-1][1] + dy))
        yield points


def exports(c):
    """What Gmsh wrote is drawn, and the same from each of its formats but for the lines that only some have."""
    for names in (('plate3_22.msh', 'plate3_41.msh', 'plate3.inp', 'plate3.bdf'), ('block8_22.msh', 'block8_41.msh'),
                  ('block27_22.msh', 'block27_41.msh'),
                  ('wedge15_22.msh', 'wedge15_41.msh'), ('cube10_22.msh', 'cube10_41.msh')):
        pictures_of = []
        for name in names:
            path = os.path.join(DATA, 'gmsh', name)
            made = run(to_grd.main, [path, '-o', 'a.grd'], {})[3]['a.grd']
            status, _, err, made = run(picture.main, ['--mesh', path, 'a.txt', '-o', 'a.svg'], {'a.txt': program.text_for(made)})
            c.equal('drawing: %s' % name, (status, err), (0, ''))
            text = made['a.svg'].decode('utf-8')
            tree.fromstring(text)
            pictures_of.append(re.sub('>%s<|>%s ' % ((os.path.splitext(name)[0],) * 2), '><', text))
        c.equal('drawing: the same from %s' % ', '.join(names), [text == pictures_of[0] for text in pictures_of], [True] * len(names))


def largest(c):
    """4,096 nodes, flat and bent: not too long a file."""
    side = 64
    for name, height in (('flat', 0), ('bent', 1)):
        grid = ['GRID,%d,,%d.,%d.,%d.' % (r * side + q + 1, q, r, height * abs(32 - r)) for r in range(side) for q in range(side)]
        quads = ['CQUAD4,%d,1,%d,%d,%d,%d' % (r * side + q + 1, r * side + q + 1, r * side + q + 2, (r + 1) * side + q + 2, (r + 1) * side + q + 1)
                 for r in range(side - 1) for q in range(side - 1)]
        rows = [set()] + [{q for q in near(p, side)} for p in range(1, side * side + 1)]
        head = 'nodes 4096 parts 1 bandwidth %d profile %d front %d levels 64 width 64 passes 1\n' % figures.figures(
            figures.Graph(rows, [0] + [1] * side * side))
        listing = head + ''.join('%d %d %d\n' % (p, p, (p + 63) // 64) for p in range(1, 4097))
        status, _, err, made = run(picture.main, ['--both', 'a.bdf', 'a.txt', '-o', 'a.svg'],
                                   {'a.bdf': '\n'.join(grid + quads) + '\n', 'a.txt': listing})
        c.equal('drawing: 4,096 nodes, ' + name, (status, err), (0, ''))
        c.holds('drawing: 4,096 nodes, %s, under 2,500,000 bytes: %d' % (name, len(made.get('a.svg', b''))),
                0 < len(made.get('a.svg', b'')) < 2500000)


def near(p, side):
    """The nodes around one of a square of quadrilaterals."""
    r, q = divmod(p - 1, side)
    return [(r + i) * side + q + j + 1 for i in (-1, 0, 1) for j in (-1, 0, 1) if (i or j) and 0 <= r + i < side and 0 <= q + j < side]


def undrawn(c):
    """Meshes without places say so."""
    none = ' has no coordinates that are read here, so the mesh is not drawn'

    def fails(name, deck, message):
        c.equal('drawing: ' + name, drawn(deck + 'CROD,1,1,1,2\n', '--mesh')[:3], (1, message + '\n', ''))
    fails('no GRID card', '', 'a.bdf:1: node 1' + none)
    fails('another system', 'GRID,1,,0.,0.,0.\nGRID,2,7,1.,0.,0.\n', 'a.bdf:2: node 2' + none)
    fails('a system for all', 'GRDSET,,7\nGRID,1,,0.,0.,0.\nGRID,2,,1.,0.,0.\n', 'a.bdf:2: node 1' + none)
    fails('no numbers', 'GRID,1,,0.,0.,0.\nGRID,2,,a,0.,0.\n', 'a.bdf:2: node 2' + none)
    fails('one place', 'GRID,1\nGRID,2\n', 'a.bdf: all nodes lie in one place, so the mesh is not drawn')
    deck = '*SYSTEM\n1,0,0\n*NODE\n1,0,0\n2,1,0\n*ELEMENT, TYPE=T3D2\n1,1,2\n'
    listing = program.text_for(grd_file(2, (1, 1, 2)))
    c.equal('drawing: *SYSTEM', run(picture.main, ['--mesh', 'a.inp', 'a.txt', '-o', 'a.svg'], {'a.inp': deck, 'a.txt': listing}),
            (1, '', 'a.inp:4: node 1%s\n' % none, {}))
