"""Meshes that Gmsh and CalculiX wrote: who adjoins whom, by where the nodes lie or by the lines of Gmsh's oldest format, is the same from each."""

import os

from harness import DATA, data, run

import grd
import program
import to_grd
from files import Source

FORMATS = ('_22.msh', '_41.msh', '.inp', '.bdf')


def section(text, name):
    lines = text.split('\n')
    return [line.split() for line in lines[lines.index('$' + name) + 2:lines.index('$End' + name)]]


def elements(text):
    """The node lists of a Gmsh file of version 2.2."""
    return [[int(word) for word in words[3 + int(words[2]):]] for words in section(text, 'Elements')]


def places(text):
    """The coordinates by node number of a Gmsh file of version 2.2."""
    return {int(words[0]): [float(word) for word in words[1:]] for words in section(text, 'Nodes')}


def adjacency(n, groups):
    rows = [set() for _ in range(n + 1)]
    for group in groups:
        for p in group:
            rows[p] |= set(group) - {p}
    return rows


def converted(name, *options):
    """Status, messages, and the mesh of an export."""
    status, out, err, made = run(to_grd.main, list(options) + [os.path.join(DATA, name), '-o', 'a.grd'], {})
    return status, out, err.replace(DATA + os.sep, ''), made.get('a.grd')


def same(c, name, rows, *options):
    status, _, err, made = converted(name, *options)
    c.equal('export: ' + name + ''.join(options), (status, err, grd.neighbours(grd.read(made)) if made else None), (0, '', rows))
    return made


def cases(c):
    gmsh_exports(c)
    bricks(c)
    corners(c)
    calculix(c)
    refused(c)
    numbered(c)


def gmsh_exports(c):
    """Each mesh from all its formats, as its 2.2 file has it; and without faces and edges."""
    for mesh, ends in (('plate3', FORMATS), ('plate6', FORMATS[:2]), ('block8', FORMATS[:2] + ('_free.bdf', '_large.bdf')), ('block20', FORMATS),
                       ('block27', FORMATS), ('block64', FORMATS[:2]), ('wedge15', FORMATS), ('wedge18', FORMATS[:2] + FORMATS[3:]),
                       ('cube10', FORMATS), ('pyramid13', FORMATS[:2] + FORMATS[3:]), ('pyramid14', FORMATS[:2] + FORMATS[3:])):
        text = data('gmsh/%s_22.msh' % mesh)
        rows = adjacency(len(places(text)), elements(text))
        for end in ends:
            whole = same(c, 'gmsh/' + mesh + end, rows)
            short = same(c, 'gmsh/' + mesh + end, rows, '--drop-inner')
            # the pyramid stands alone
            c.equal('export: gmsh/%s%s is shorter without faces and edges' % (mesh, end), len(short) < len(whole), mesh[:7] != 'pyramid')


def bricks(c):
    """Two bricks side by side at x = 1: nodes adjoin where one brick has both."""
    for mesh in ('block8', 'block20', 'block27', 'block64'):
        where = places(data('gmsh/%s_22.msh' % mesh))
        # Gmsh puts the nodes at 1 a little beside it
        sides = [[p for p in where if where[p][0] < 1.01], [p for p in where if where[p][0] > 0.99]]
        same(c, 'gmsh/%s_41.msh' % mesh, adjacency(len(where), sides))
    where = places(data('gmsh/wedge18_22.msh'))
    same(c, 'gmsh/wedge18.bdf', adjacency(len(where), [list(where)]))


def corners(c):
    """The corners, which lie at whole numbers in these blocks, are the first nodes of each element: drawings rely on it."""
    counts = {1: 2, 2: 3, 3: 4, 4: 4, 5: 5, 6: 6, 7: 8, 8: 3, 9: 4, 10: 4}
    for name in [mesh + end for mesh in ('gmsh/block20', 'gmsh/block27', 'gmsh/wedge15') for end in FORMATS]:
        model = to_grd.model_of(Source(os.path.join(DATA, name)))
        wrong = [element.name for element in model.elements
                 if any(abs(x - round(x)) > 0.01 for p in element.nodes[:counts[element.shape]] for x in model.places[p])]
        c.equal('export: %s: corners first' % name, wrong, [])


def calculix(c):
    """Two bricks side by side at x = 2, and the deck that takes them in."""
    for mesh in ('bar8', 'bar20'):
        lines = data('calculix/%s.msh' % mesh).split('*')[1].split('\n')[1:-1]
        where = {int(line.split(',')[0]): float(line.split(',')[1]) for line in lines}
        sides = [[p for p in where if where[p] <= 2], [p for p in where if where[p] >= 2]]
        same(c, 'calculix/%s.msh' % mesh, adjacency(len(where), sides))
    same(c, 'calculix/beam.inp', adjacency(len(where), sides))


def refused(c):
    c.equal('export: sides that are one', converted('gmsh/periodic_41.msh'),
            (2, '', 'gmsh/periodic_41.msh:90: $Periodic makes nodes of two sides one, and GRD has no place for that; '
             '--ignore Periodic leaves it out\n', None))
    c.equal('export: a wedge of 18 nodes called C3D6', converted('gmsh/wedge18.inp'),
            (1, '', 'gmsh/wedge18.inp:52: element 21 (C3D6): 15 nodes, and it needs 6\n', None))
    c.equal('export: a pyramid that Gmsh leaves out', converted('gmsh/pyramid14.inp'),
            (2, '', 'gmsh/pyramid14.inp:20: the set names element 1, which is not in the file; --ignore ELSET leaves it out\n', None))


def numbered(c):
    """The independent program numbers each: nodes and parts are as many as there are."""
    for name, nodes in (('gmsh/cube10.inp', 63), ('gmsh/block27.bdf', 45), ('calculix/beam.inp', 32)):
        head = program.text_for(converted(name)[3]).decode('ascii').split('\n')[0]
        c.holds('export: %s is numbered' % name, head.startswith('nodes %d parts 1 ' % nodes))
