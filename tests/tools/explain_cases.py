"""All faults in one list, the one that counts first; parts and loose nodes in the source's own numbers."""

import random
from argparse import Namespace

from harness import grd_file, run

import explain
import faults
import grd
import parts
import program
import to_grd


def cases(c):
    in_grd(c)
    in_words(c)
    in_sources(c)
    in_parts(c)


def in_grd(c):
    """The first fault is the refusal of tests/reference, on every damaged file; and all of them are told."""
    draw = random.Random(5)
    elements = (7, 1, 2, 3, 4, 5, 6, 7, 8), (2, 1, 2, 9), (3, 4, 5, 6, 9), (1, 3, 9)
    got, wanted = [], []
    for i in range(600):
        whole = grd_file(9, *elements, counts=[1, 2, 3, 4, 5, 6, 6, 3, 1] if i % 2 else None)
        data = bytearray(whole[:draw.randint(0, len(whole))] if draw.random() < 0.2 else whole + b'\1' * (draw.random() < 0.1))
        for _ in range(draw.randint(0, 3)):
            if data:
                data[draw.randrange(len(data))] = draw.choice((0, 1, 2, 9, 10, 255))
        found = faults.of_grd(bytes(data))
        got.append(b'refused %d\n' % found[0].number if found else b'nodes')
        wanted.append(program.text_for(bytes(data))[:len(got[-1])])
    c.equal('faults: the first is the refusal of tests/reference', got, wanted)
    c.holds('faults: of every kind', {b'nodes', b'refused 1\n', b'refused 9\n', b'refused 10\n', b'refused 12\n', b'refused 15\n'} <= set(got))
    many = grd_file(4, (2, 1, 0, 7), (1, 3, 3), (3, 1, 2, 3, 4), (1, 5, 5)) + b'\0'
    c.equal('faults: all of them', [(refusal.number, refusal.where) for refusal in faults.of_grd(many)],
            [(10, 'element 1 (byte 9), a triangle, has node 0, and the nodes are 1 to 4'),
             (10, 'element 1 (byte 9), a triangle, has node 7, and the nodes are 1 to 4'),
             (10, 'element 4 (byte 33), a bar, has node 5, and the nodes are 1 to 4'),
             (12, 'bytes left over after the last element: 1')])
    counts = grd_file(4, (2, 1, 2, 5), (1, 3, 3), counts=[6, 0, 7, 1]) + b'\0'
    c.equal('faults: all of them, counts too', [(refusal.number, refusal.where) for refusal in faults.of_grd(counts)],
            [(15, 'node 2 has 0 unknowns'), (15, 'node 3 has 7 unknowns'),
             (10, 'element 1 (byte 17), a triangle, has node 5, and the nodes are 1 to 4'), (12, 'bytes left over after the last element: 1')])
    cut = grd_file(5000, (1, 1, 2), counts=[9, 9])
    c.equal('faults: too many nodes, and cut within the counts', [(refusal.number, refusal.where) for refusal in faults.of_grd(cut)],
            [(1, 'the file says 5000 nodes'), (12, 'the file ends within the counts of unknowns, before that of node 6 is whole')])
    c.equal('faults: too many nodes, and an unknown kind',
            [refusal.number for refusal in faults.of_grd(grd_file(5000, (1, 1, 5000), (11, 1), (1, 2, 2)))], [1, 9])


def in_words(c):
    def told(data):
        answer = program.text_for(data)
        return run(lambda words: print('\n'.join(explain.explained('a.grd', answer.decode('ascii').splitlines()))), [],
                   {'a.grd': data})[1].splitlines()
    lines = told(grd_file(3, (2, 1, 2, 4), (1, 0, 2)))
    c.equal('explain: the refusal first', lines,
            ['refused 10: %s; element 1 (byte 9), a triangle, has node 4, and the nodes are 1 to 3' % grd.MEANING[10],
             'also: element 2 (byte 17), a bar, has node 0, and the nodes are 1 to 3 (10)'])
    c.equal('explain: a wrong count', told(grd_file(2, (1, 1, 3), counts=[6, 9])),
            ['refused 15: %s; node 2 has 9 unknowns' % grd.MEANING[15],
             'also: element 1 (byte 13), a bar, has node 3, and the nodes are 1 to 2 (10)'])
    # a hinge between two shells; unknowns 1 to 6, 7 to 9 and 10 to 15, with f 1, 1 and 7
    c.equal('explain: in unknowns', told(grd_file(3, (1, 1, 2), (1, 2, 3), counts=[6, 3, 6])),
            ['3 nodes, 15 unknowns (1 node with 3, 2 nodes with 6), 2 elements (bar 2)',
             'nodes, parts, levels, passes and the rows of the listing count nodes; bandwidth, profile, front and width count unknowns',
             'bandwidth 8 before, 8 after, in unknowns', 'profile 69 before, 69 after, in unknowns', 'front 9 before, 9 after, in unknowns',
             'thickest at combined level 1 of 3, 6 unknowns at 1 node, the first of 2 such: 1', '  unknowns in each level: [6] 3 6'])
    lines = told(grd_file(3, *[(1, 2, 4)] * 60))
    c.equal('explain: no more than fifty besides', (len(lines), lines[-1]), (52, 'and 9 faults more'))
    c.equal('explain: a mesh in parts', told(grd_file(6, (1, 1, 3), (1, 2, 5)))[-4:],
            ['warning: the mesh falls into 2 parts that no element joins', '  part 1, 2 nodes: 1, 3', '  part 2, 2 nodes: 2, 5',
             'warning: joined to no other, each a part of its own, 2 nodes: 4, 6'])
    c.equal('explain: collapsed elements', told(grd_file(5, (3, 1, 2, 3, 3), (1, 3, 4), (1, 5, 5))),
            ['5 nodes, 3 elements (bar 2, quadrilateral 1; collapsed 2)', 'bandwidth 2 before, 2 after', 'profile 4 before, 4 after',
             'front 3 before, 3 after', 'thickest at combined level 3 of 3, 2 nodes: 1, 2', '  nodes in each level: 1 1 [2]',
             'warning: joined to no other, each a part of its own, 1 node: 5'])


def in_sources(c):
    """The first is the fault that the conversion ends by; then the others."""
    def found(name, text, wanted, compact=False, ignore=(), unknowns=()):
        options = Namespace(format=None, ignore=list(ignore), drop_inner=False, compact=compact, unknowns=list(unknowns), unknowns_set=[])
        got = []

        def work(words):
            got.extend(fault.message(name) for fault in faults.of_source(name, options))
            given = [word for i in ignore for word in ('--ignore', i)] + [word for i in unknowns for word in ('--unknowns', i)]
            return to_grd.main(['--compact'] * compact + given + [name, '-o', 'a.grd'])
        status, _, err, _ = run(work, [], {name: text})
        c.equal('faults: ' + text[:30], got, [name + words for words in wanted])
        c.equal('faults: the conversion ends by the first: ' + text[:30], (bool(status), err),
                (bool(wanted), name + wanted[0] + '\n' if wanted else ''))
    deck = 'GRID,1\nGRID,2\nGRID,2\nGRID,4\nCROD,1,1,1,2\nCROD,1,1,2,4\nCTRIA3,2,1,1,2,2\nCNOTHING,3,1\n'
    lines = [':3: node 2 is given twice, first on line 2', ':6: element 1 (CROD) is given twice, first on line 5',
             ':8: card CNOTHING is not known, and might join nodes; --ignore CNOTHING leaves it out',
             ':4: node 4 comes after a gap: no node has number 3; --compact closes gaps']
    found('a.bdf', deck, lines)
    found('a.bdf', deck, lines[:2], True, ['CNOTHING'])
    found('a.bdf', 'GRID,1\nGRID,2\nCROD,1,1,1,2\nCROD,2,1,2,3\nCROD,3,1,3,4\n',
          [':4: element 2 (CROD): there is no node 3', ':5: element 3 (CROD): there is no node 3'])
    found('a.bdf', 'GRID,1\nGRID,2\nCROD,1,1,1,2\n', [])
    found('a.bdf', 'GRID,1\nGRID,2\nCROD,1,1,1,2\n', [], unknowns=['CROD=3'])
    found('a.bdf', 'GRID,1\nGRID,2\nCROD,1,1,1,2\n', [': no element is of kind S4; there are: CROD, bar'], unknowns=['S4=3'])
    found('a.inp', '*NODE\n1,0,0\n2,1,0\nx,1,1\n*ELEMNT, TYPE=T3D2\n1,1,2\n*ELEMENT, TYPE=T3D2\n2,1\n3,1,2\n*TIE\nA,B\n',
          [":4: node number: 'x' is no whole number", ':5: *ELEMNT is not known, and might join nodes; --ignore ELEMNT leaves it out',
           ':8: element 2 (T3D2): 1 nodes, and it needs 2; a line that goes on ends with a comma',
           ':10: *TIE joins nodes, and GRD has no place for that; --ignore TIE leaves it out'])
    found('a.msh', '$MeshFormat\n2.2 0 8\n$EndMeshFormat\n$Nodes\n3\n1 0 0 0\n2 1 0 0\n2 1 1 0\n$EndNodes\n'
          '$Elements\n3\n1 1 0 1 2\n2 2 0 1 2\n3 999 0 1 2\n$EndElements\n$Strange\n$EndStrange\n',
          [':8: node 2 is given twice, first on line 7', ':13: element 2 (3-node triangle): 2 nodes, and it needs 3',
           ":14: element 3 has type 999, which is not known; --ignore 'type 999' leaves it out",
           ':16: $Strange is not known, and might join nodes; --ignore Strange leaves it out'])


def in_parts(c):
    c.equal('parts: runs', [parts.runs(numbers) for numbers in ([3], [3, 4], [3, 4, 5], [1, 3, 4, 5, 9, 10], list(range(1, 40, 2)))],
            ['3', '3, 4', '3 to 5', '1, 3 to 5, 9, 10', '1, 3, 5, 7, 9, 11, 13, 15, 17, 19, 21, 23 and 8 more'])
    mesh = grd.Mesh(30, [(1, [p, p + 1]) for p in range(1, 29, 3)])
    lines = parts.warnings(mesh, [10 * p for p in range(1, 31)])
    c.equal('parts: no more than eight', (len(lines), lines[0], lines[8], lines[9]),
            (11, 'warning: the mesh falls into 10 parts that no element joins', '  part 8, 2 nodes: 220, 230', '  and 2 parts more'))
    c.equal('parts: loose nodes', lines[10],
            'warning: joined to no other, each a part of its own, 10 nodes: 30, 60, 90, 120, 150, 180, 210, 240, 270, 300')
    c.equal('parts: one part', parts.warnings(grd.Mesh(2, [(1, [1, 2])]), [1, 2]), [])
