"""The picture: its figures against tests/reference, its drawing against a count of cells, and what it refuses."""

import random
import re
import xml.etree.ElementTree as tree

from harness import grd_file, run
from grd_cases import HINGE, ONES, SAMPLE
from seqgp_cases import SAMPLE as LISTING

import calls
import figures
import fill
import grd
import matrix
import picture
import program

SVG = '{http://www.w3.org/2000/svg}'


def random_mesh(source, n, counts=None):
    return grd.Mesh(n, [(1, source.sample(range(1, n + 1), 2)) for _ in range(source.randrange(2 * n))], counts)


def random_counts(source, n):
    """None, ones, or any."""
    return source.choice((None, [1] * n, [source.randint(1, 6) for _ in range(n)]))


def reference_figures(mesh, numbers):
    """Bandwidth, profile and front as tests/reference has them."""
    return calls.measures(*reference_lists(mesh), numbers, [0] * mesh.n)[1]


def reference_lists(mesh):
    """The two lists of the mesh's graph, and the counts."""
    rows = grd.neighbours(mesh)
    return (*calls.from_edges(mesh.n, [(p, q) for p in range(1, mesh.n + 1) for q in rows[p]]), mesh.counts or calls.ones(mesh.n))


def cases(c):
    measured(c)
    for name, mesh in (('sample', SAMPLE), ('one node', grd_file(1)), ('quads', quads(9)), ('several rows to a cell', quads(25)),
                       ('a hinge', HINGE), ('one unknown each, counted', ONES), ('one node of six unknowns', grd_file(1, counts=[6])),
                       ('quads in unknowns', quads(6, [1 + p % 6 for p in range(36)])),
                       ('several unknowns to a cell', quads(9, [1 + p * p % 6 for p in range(81)]))):
        drawn(c, name, mesh)
    largest(c)
    filled(c)
    refused(c)
    overwritten(c)


def reference_marks(mesh, numbers):
    """Marks and new pairs as tests/reference has them."""
    n = sum(mesh.counts or calls.ones(mesh.n))
    return calls.elimination(*reference_lists(mesh), numbers, [0] * mesh.n, [0] * n ** 2)[1]


def filled(c):
    """What elimination joins: the counts against tests/reference, and as many cells drawn."""
    source = random.Random(8)
    got, wanted = [], []
    for _ in range(60):
        n = source.randrange(2, 12)
        mesh = random_mesh(source, n, random_counts(source, n))
        numbers = source.sample(range(1, mesh.n + 1), mesh.n)
        got.append(fill.counts(figures.renumbered(figures.graph(mesh), [0] + numbers)))
        wanted.append(tuple(reference_marks(mesh, numbers)))
    c.equal('fill: as tests/reference has it', got, wanted)
    data = quads(9)
    mesh, listing = grd.read(data), program.text_for(data)
    text = run(picture.main, ['--fill', 'a.grd', 'a.txt', '-o', 'a.svg'], {'a.grd': data, 'a.txt': listing})[3]['a.svg'].decode('utf-8')
    sides = re.findall('<path d="([^"]*)" fill="%s"' % matrix.JOINED, text)
    after = [int(line.split()[1]) for line in listing.decode('ascii').splitlines()[1:]]
    marks = [reference_marks(mesh, numbers) for numbers in (list(range(1, mesh.n + 1)), after)]
    c.equal('fill: cells joined, both sides', [cells(path) for path in sides], [total for total, _ in marks])
    c.equal('fill: what is written', ['joins %s more' % grd.counted(new, 'pair') in text for _, new in marks], [True, True])
    shared(c, source)


def shared(c, source):
    """Several rows to a cell: the cells of the entries and of the pairs that tests/reference joins, in nodes and in unknowns."""
    got, wanted = [], []
    for step in (1, 2, 3, 4, 7, 20):
        for counts in (None, [source.randint(1, 6) for _ in range(9)]):
            mesh = random_mesh(source, 9, counts)
            lists, numbers = reference_lists(mesh), list(range(1, 10))
            adjoins = calls.adjoining_of(*lists, numbers)
            joined = calls.joined_after(*lists, numbers, len(adjoins))
            graph = figures.graph(mesh)
            got += [places(fill.dark_cells(graph, step)), places(matrix.dark_cells(graph, step))]
            wanted += [{((q - 1) // step, (p - 1) // step) for p, q in joined},
                       {((q - 1) // step, (p - 1) // step) for q in adjoins for p in adjoins[q] | {q}}]
    c.equal('fill: several rows to a cell', got, wanted)


def places(cells):
    return {(row, column) for row, columns in enumerate(cells) for column in columns}


def cells(path):
    return sum(int(count) for count in re.findall(r'M\d+ \d+h(\d+)v1', path))


def overwritten(c):
    """The listing, the mesh and another's drawing stay; an older picture goes."""
    files = {'a.grd': SAMPLE, 'a.txt': LISTING, 'b.svg': b'<svg xmlns="http://www.w3.org/2000/svg"></svg>\n'}
    for output, status, message in (('a.txt', 2, 'a.txt: is an input (a.txt), and stays as it is\n'),
                                    ('a.grd', 2, 'a.grd: is an input (a.grd), and stays as it is\n'),
                                    ('b.svg', 2, 'b.svg: stands there already and is not a picture of picture.py; --force writes over it\n')):
        c.equal('picture: over ' + output, run(picture.main, ['a.grd', 'a.txt', '-o', output], files), (status, '', message, {}))

    def twice(words):
        return picture.main(words) + picture.main(words)
    status, _, err, made = run(twice, ['a.grd', 'a.txt', '-o', 'c.svg'], files)
    c.equal('picture: over an older one', (status, err, list(made)), (0, '', ['c.svg']))


def measured(c):
    source = random.Random(7)
    got, wanted = [], []
    for n in list(range(1, 20)) * 5:
        mesh = random_mesh(source, n, random_counts(source, n)) if n > 1 else grd.Mesh(1, [], [source.randint(1, 6)])
        numbers = source.sample(range(1, n + 1), n)
        got.append(figures.figures(figures.renumbered(figures.graph(mesh), [0] + numbers)))
        wanted.append(tuple(reference_figures(mesh, numbers)))
    c.equal('figures: as tests/reference has them', got, wanted)


def quads(side, counts=None):
    """A square of quadrilaterals, its nodes numbered in leaps; with these counts of unknowns."""
    def number(r, column):
        return (r * side + column) * 1237 % (side * side) + 1
    return grd_file(side * side, *[(3, number(r, q), number(r, q + 1), number(r + 1, q + 1), number(r + 1, q))
                                   for r in range(side - 1) for q in range(side - 1)], counts=counts)


def drawn(c, name, data):
    """Well-formed, of a sane size, with the six figures, and as many dark cells and envelope cells as there are."""
    mesh = grd.read(data)
    listing = program.text_for(data)
    status, out, err, made = run(picture.main, ['a.grd', 'a.txt', '-o', 'a.svg'], {'a.grd': data, 'a.txt': listing})
    text = made.get('a.svg', b'').decode('utf-8')
    c.equal('picture: %s: printed' % name, (status, out, err), (0, 'a.svg: %d bytes\n' % len(text), ''))
    c.holds('picture: %s: under 200,000 bytes' % name, len(text) < 200000)
    bold = [span.text.replace(',', '') for span in tree.fromstring(text).iter(SVG + 'tspan')]
    head = listing.decode('ascii').split()
    before = reference_figures(mesh, list(range(1, mesh.n + 1)))
    c.equal('picture: %s: figures' % name, bold, [str(value) for value in before] + [head[5], head[7], head[9]])
    adjoins = calls.adjoining_of(*reference_lists(mesh), list(range(1, mesh.n + 1)))
    n = len(adjoins)
    c.equal('picture: %s: unknowns told' % name, re.findall('>([^<]*), [^<]* elements?, [^<]* parts?<', text),
            [grd.counted(mesh.n, 'node') + (', ' + grd.counted(n, 'unknown') if mesh.counts else '')])
    if n <= matrix.MOST_CELLS:
        dark = cells(text)
        entries = sum(len(row) for row in adjoins.values())
        c.equal('picture: %s: dark cells, both sides' % name, dark, 2 * (entries + n))
        areas = [area(path) for path in re.findall(r'd="(M0 0[^"]*)" fill="' + matrix.ENVELOPE, text)]
        c.equal('picture: %s: envelope cells' % name, areas, [before[1] + n, int(head[7]) + n])


def largest(c):
    """4,096 nodes, of one unknown and of six; the listing keeps the old numbers."""
    for name, counts in (('4,096 nodes', None), ('24,576 unknowns', [6] * 4096)):
        data = quads(64, counts)
        head = 'nodes 4096 parts 1 bandwidth %d profile %d front %d levels 1 width 1 passes 1\n'
        listing = head % figures.figures(figures.graph(grd.read(data))) + ''.join('%d %d 1\n' % (p, p) for p in range(1, 4097))
        status, _, err, made = run(picture.main, ['--fill', 'a.grd', 'a.txt', '-o', 'a.svg'], {'a.grd': data, 'a.txt': listing})
        text = made.get('a.svg', b'')
        c.equal('picture: ' + name, (status, err, tree.fromstring(text).tag), (0, '', SVG + 'svg'))
        c.holds('picture: %s: under 200,000 bytes' % name, len(text) < 200000)


def area(path):
    """Area inside a path of level and upright lines."""
    x = y = total = 0
    for letter, value in re.findall(r'([HV])(\d+)', path):
        if letter == 'H':
            total += (int(value) - x) * y
            x = int(value)
        else:
            y = int(value)
    return abs(total)


def refused(c):
    def fails(name, files, message, *options):
        got = run(picture.main, list(options) + ['a.grd', 'a.txt', '-o', 'a.svg'], files)
        c.equal('picture: ' + name, got, (1, '', message + '\n', {}))
    for option in ('--mesh', '--both'):
        fails('no coordinates', {'a.grd': SAMPLE, 'a.txt': LISTING},
              'a.grd: a GRD file has no coordinates: give the mesh file that it was made from', option)
    fails('broken mesh', {'a.grd': SAMPLE[:-1], 'a.txt': LISTING},
          'a.grd: refused 12: %s; the file ends within element 4 (byte 27), a bar' % grd.MEANING[12])
    fails('broken listing', {'a.grd': SAMPLE, 'a.txt': LISTING.replace('4 1 1', '4 2 1')}, 'a.txt:5: new number 2 is given twice, first on line 2')
    fails('no listing', {'a.grd': SAMPLE}, 'a.txt: No such file or directory')
    fails('another mesh, by its nodes', {'a.grd': grd_file(4), 'a.txt': LISTING},
          'a.grd: the listing has 5 nodes, the mesh 4: they do not belong together')
    more = grd_file(5, (1, 1, 2), (1, 1, 4), (1, 2, 3), (1, 3, 5), counts=[1, 1, 2, 1, 1])
    fails('the same mesh with other counts', {'a.grd': more, 'a.txt': LISTING},
          "a.grd: the listing's figures are not those of its numbers on this mesh: they do not belong together")
    fails('another mesh, by its figures', {'a.grd': grd_file(5), 'a.txt': LISTING},
          "a.grd: the listing's figures are not those of its numbers on this mesh: they do not belong together")
