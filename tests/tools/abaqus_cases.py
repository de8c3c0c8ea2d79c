"""CalculiX and Abaqus files."""

import os

from converting import KINDS, adjoins, all_kinds, converts, fails, left_out, stops
from harness import data, edited, grd_file, run

import known
import to_grd

NODES = '*NODE\n1, 0.\n2, 0.\n3, 0.\n4, 0.\n'
QUAD = '*ELEMENT, TYPE=S4\n1, 1, 2, 3, 4\n'
MESH = grd_file(4, (3, 1, 2, 3, 4))

# By hand, after the form that Abaqus/CAE writes.
CAE = '''*Heading
** Job name: plate Model name: Model-1
*Preprint, echo=NO, model=NO, history=NO, contact=NO
**
** PARTS
**
*Part, name=Plate
*Node
      1,           0.,           0.
      2,           1.,           0.
      3,           1.,           1.
      4,           0.,           1.
*Element, type=CPS4R
1, 1, 2, 3, 4
*Nset, nset=Set-1, generate
 1,  4,  1
*Elset, elset=Set-1
 1,
** Section: Section-1
*Solid Section, elset=Set-1, material=Steel
,
*End Part
**
** ASSEMBLY
**
*Assembly, name=Assembly
*Instance, name=Plate-1, part=Plate
*End Instance
*Nset, nset=Set-1, instance=Plate-1
 1, 4
*Elset, elset=_Surf-1_S2, internal, instance=Plate-1
 1,
*Surface, type=ELEMENT, name=Surf-1
_Surf-1_S2, S2
*End Assembly
*Material, name=Steel
*Elastic
210000., 0.3
** ----------------------------------------------------------------
*Step, name=Step-1, nlgeom=NO
*Static
1., 1., 1e-05, 1.
*Boundary
Set-1, ENCASTRE
*Dsload
Surf-1, P, -1.
*Restart, write, frequency=0
*Output, field, variable=PRESELECT
*Output, history, variable=PRESELECT
*End Step
'''


def cases(c):
    all_kinds(c, 'kinds.inp')
    converts(c, 'inp: another ending', 'a.txt', data('kinds.inp'), KINDS, '--from', 'abaqus')
    converts(c, 'inp: one *PART', 'a.inp', '*PART, NAME=A\n' + NODES + '*ELEMENT, TYPE=S4\n7, 4, 3, 2, 1\n*END PART\n',
             grd_file(4, (3, 4, 3, 2, 1)))
    converts(c, 'inp: a comma behind each element', 'a.inp', NODES + '*ELEMENT, TYPE=S3\n1, 1, 2, 3,\n2, 2, 3, 4,\n',
             grd_file(4, (2, 1, 2, 3), (2, 2, 3, 4)))
    for name, kind, count in (('B31', 1, 2), ('SPRINGA', 1, 2), ('S3R', 2, 3), ('CAX4RH', 3, 4), ('S4R5', 3, 4), ('SC8R', 7, 8),
                              ('CPS6M', 8, 6), ('C3D10MH', 10, 10)):
        nodes = list(range(1, count + 1))
        text = '*NODE\n%s*ELEMENT, TYPE=%s\n1, %s\n' % (''.join('%d, 0.\n' % p for p in nodes), name, ', '.join(str(p) for p in nodes))
        converts(c, 'inp: type ' + name, 'a.inp', text, grd_file(count, [kind] + nodes))
    other_types(c)
    keywords(c)
    included(c)
    edits(c)
    texts(c)


def element(name, count):
    """A file with one element of this type, 16 numbers to a line."""
    numbers = ['1'] + [str(p) for p in range(1, count + 1)]
    lines = [', '.join(numbers[at:at + 16]) for at in range(0, len(numbers), 16)]
    return '*NODE\n%s*ELEMENT, TYPE=%s\n%s\n' % (''.join('%d, 0.\n' % p for p in range(1, count + 1)), name, ',\n'.join(lines))


def other_types(c):
    """Types that GRD has no kind for: all nodes adjoin."""
    for name, count in (('B32', 3), ('T3D3', 3), ('S9R5', 9), ('CPE9', 9), ('C3D15', 15), ('C3D15V', 18), ('C3D20R', 20), ('C3D27', 21),
                        ('C3D27RH', 27)):
        adjoins(c, 'inp: type %s of %d' % (name, count), 'a.inp', element(name, count), count, range(1, count + 1))
    fails(c, 'inp: a node of 20 missing', 'a.inp', element('C3D20', 19),
          ':22: element 1 (C3D20): 19 nodes, and it needs 20; a line that goes on ends with a comma')
    fails(c, 'inp: too few of 27', 'a.inp', element('C3D27', 20),
          ':23: element 1 (C3D27): 20 nodes, and it needs 21 to 27; a line that goes on ends with a comma')
    for name in ('U1', 'SPRINGB', 'CPEG4', 'R'):
        stops(c, 'inp: type ' + name, 'a.inp', NODES + '*ELEMENT, TYPE=%s\n1, 1, 2\n' % name,
              ':6: element type %s is not known; --ignore %s leaves it out' % (name, name))
    left_out(c, 'inp: type left out', 'a.inp', NODES + QUAD + '*ELEMENT, TYPE=U1\n2, 1, 2\n', MESH, 'u1', 1)


def keywords(c):
    """Keywords that are not read: known to join nothing, known to join, or not known."""
    def stop(name, message):
        shown = "'%s'" % name if ' ' in name else name
        stops(c, 'inp: *' + name, 'a.inp', NODES + QUAD + '*%s\n1, 2\n' % name, ':8: *%s %s; --ignore %s leaves it out' % (name, message, shown))
    for name in ('ELEMNT, TYPE=CPS4', 'ELEMENTS', 'NODES', 'NODAL CONTACT', 'XYZ'):
        stop(name.split(',')[0], 'is not known, and might join nodes')
    for name in ('MPC', 'EQUATION', 'TIE', 'COUPLING', 'RIGID BODY', 'CONTACT', 'CONTACT PAIR', 'FASTENER', 'NETWORK MPC', 'PRE-TENSION SECTION',
                 'CYCLIC SYMMETRY MODEL', 'EMBEDDED ELEMENT', 'MATRIX ASSEMBLE'):
        stop(name, 'joins nodes, and GRD has no place for that')
    stop('NGEN', 'makes nodes, and GRD has no place for that')
    stop('RADIATE', 'may join faces that see one another, and GRD has no place for that')
    stops(c, 'inp: misspelt, in its own words', 'a.inp', NODES + QUAD + '*elemnt , type=CPS4\n2, 1, 2, 3, 4\n',
          ':8: *ELEMNT is not known, and might join nodes; --ignore ELEMNT leaves it out')
    rigid = NODES + QUAD + '*Rigid  Body, NSET=A\n*RIGIDBODY, NSET=B\n'
    for word in ('RIGID BODY', '*rigid body', 'RigidBody'):
        left_out(c, 'inp: left out as %s' % word, 'a.inp', rigid, MESH, word, 2)
    left_out(c, 'inp: nothing to leave out', 'a.inp', NODES + QUAD, MESH, 'TIE', 0)
    left_out(c, 'inp: what is read is not left out', 'a.inp', NODES + QUAD, MESH, 'ELEMENT', 0)
    converts(c, 'inp: every keyword known to join nothing', 'a.inp',
             NODES + QUAD + ''.join('*%s, A=B\n1, 1\n' % name for name in sorted(known.ABAQUS)), MESH)
    for name, mark, encoding in (('UTF-8', b'\xef\xbb\xbf', 'utf-8'), ('UTF-16', b'\xfe\xff', 'utf-16-be'), ('UTF-32', b'\xff\xfe\0\0', 'utf-32-le')):
        converts(c, 'inp: byte order mark of ' + name, 'a.inp', mark + (NODES + QUAD).encode(encoding), MESH)
    fails(c, 'inp: UTF-16 without its mark', 'a.inp', (NODES + QUAD).encode('utf-16-le'), ': this is no text file: zeros among its first bytes')
    fails(c, 'inp: a mark and other bytes', 'a.inp', b'\xff\xfe\x2a\x00\x00', ': the byte order mark says UTF-16-LE, and the text is not in it')


def included(c):
    """Files taken in by *INCLUDE, and by INPUT= of *NODE and *ELEMENT."""
    rows = '1, 0.\n2, 0.\n3, 0.\n4, 0.\n'
    converts(c, 'inp: include', 'a.inp', '*Include,\n Input="More Nodes.inp"\n' + QUAD, MESH, files={'More Nodes.inp': NODES})
    converts(c, 'inp: include of data lines', 'a.inp', '*NODE\n*INCLUDE, INPUT=n.txt\n' + QUAD, MESH,
             files={'n.txt': b'\xef\xbb\xbf' + rows.encode('ascii')})
    converts(c, 'inp: include in an include', 'a.inp', '*INCLUDE, INPUT=b.inp\n', MESH,
             files={'b.inp': '*INCLUDE, INPUT=c.inp\n' + QUAD, 'c.inp': NODES})
    converts(c, 'inp: data of other files', 'a.inp', '*NODE, INPUT=n.txt\n*ELEMENT, TYPE=S4, INPUT=e.txt\n', MESH,
             files={'n.txt': '** numbers\n' + rows, 'e.txt': '1, 1, 2,\n3, 4\n'})
    fails(c, 'inp: no such file to include', 'a.inp', NODES + '*INCLUDE, INPUT=more.inp\n', ':6: takes in more.inp: No such file or directory')
    fails(c, 'inp: include of a name with a zero', 'a.inp', NODES + '*INCLUDE, INPUT=a\0b\n', ':6: takes in a file with a zero in its name')
    fails(c, 'inp: include of nothing', 'a.inp', NODES + '*INCLUDE\n', ':6: *INCLUDE without INPUT=')
    loop = {'b.inp': NODES + '*INCLUDE, INPUT=./a.inp\n'}
    got = run(to_grd.main, ['a.inp', '-o', 'out.grd'], dict(loop, **{'a.inp': '*INCLUDE, INPUT=b.inp\n' + QUAD}))
    c.equal('inp: a loop', got, (2, '', 'b.inp:6: takes in ./a.inp, which stands around it already\n', {}))
    got = run(to_grd.main, ['a.inp', '-o', 'out.grd'], {'a.inp': NODES + '*INCLUDE, INPUT=b.inp\n', 'b.inp': '** again\n*NODE\n3, 0.\n'})
    c.equal('inp: a node in both', got, (1, '', 'b.inp:3: node 3 is given twice, first on line 4 of a.inp\n', {}))
    got = run(to_grd.main, ['a.inp', '-o', 'out.grd'], {'a.inp': NODES + '*INCLUDE, INPUT=b.inp\n', 'b.inp': '*TIE\n'})
    c.equal('inp: a tie in an included file', got,
            (2, '', 'b.inp:1: *TIE joins nodes, and GRD has no place for that; --ignore TIE leaves it out\n', {}))
    got = run(to_grd.main, ['--force', 'a.inp', '-o', 'b.inp'], {'a.inp': '*INCLUDE, INPUT=b.inp\n' + QUAD, 'b.inp': NODES})
    c.equal('inp: an included file is an input', got, (2, '', 'b.inp: is an input (b.inp), and stays as it is\n', {}))
    got = run(to_grd.main, ['a.inp', '-o', 'out.grd'], {'a.inp': '*NODE, INPUT=n.txt\n' + QUAD, 'n.txt': rows + '*TIE\n'})
    c.equal('inp: a keyword among data', got, (1, '', 'n.txt:5: a keyword in a file of data lines\n', {}))
    folder(c)


def folder(c):
    """A name goes from the folder of the file that has it."""
    def main(words):
        os.mkdir('deep')
        for name, text in (('deep/b.inp', '*INCLUDE, INPUT=c.inp\n'), ('deep/c.inp', NODES)):
            with open(name, 'w', encoding='ascii') as file:
                file.write(text)
        return to_grd.main(words)
    got = run(main, ['a.inp', '-o', 'out.grd'], {'a.inp': '*INCLUDE, INPUT=deep/b.inp\n' + QUAD})
    c.equal('inp: include from another folder', (got[0], got[3]), (0, {'out.grd': MESH}))


def edits(c):
    """Mistakes put into the file with every kind."""
    def edit(name, old, new, message):
        fails(c, 'inp: ' + name, 'a.inp', edited('kinds.inp', (old, new)), message)
    edit('kind', 'TYPE=C3D6,', 'TYPE=C3D20R,', ':28: element 6 (C3D20R): 6 nodes, and it needs 20; a line that goes on ends with a comma')
    edit('no type', '*ELEMENT, TYPE=C3D6, ELSET=E6', '*ELEMENT, ELSET=E6', ':27: *ELEMENT without TYPE=')
    edit('short', '6, 6, 1, 5, 2, 4, 3\n', '6, 6, 1, 5, 2, 4\n',
         ':28: element 6 (C3D6): 5 nodes, and it needs 6; a line that goes on ends with a comma')
    edit('short with a comma', '6, 6, 1, 5, 2, 4, 3\n', '6, 6, 1, 5, 2, 4,\n',
         ':28: element 6 (C3D6): 5 nodes, and it needs 6; a line that goes on ends with a comma')
    edit('long', '6, 6, 1, 5, 2, 4, 3\n', '6, 6, 1, 5, 2, 4, 3, 7\n', ':28: element 6 (C3D6): 7 nodes, and it needs 6')
    edit('long on the next line', '5, 6\n*ELEMENT', '5, 6, 7\n*ELEMENT', ':38: element 10 (C3D10): 11 nodes, and it needs 10')
    edit('no number', '6, 6, 1, 5, 2, 4, 3\n', '6, 6, 1, 5.0, 2, 4, 3\n', ":28: element or node number: '5.0' is no whole number")
    edit('no such node', '6, 6, 1, 5, 2, 4, 3\n', '6, 6, 1, 5, 2, 4, 30\n', ':28: element 6 (C3D6): there is no node 30')
    edit('element twice', '6, 6, 1, 5, 2, 4, 3\n', '3, 6, 1, 5, 2, 4, 3\n', ':28: element 3 (C3D6) is given twice, first on line 22')
    edit('node twice', '\n12, 0, 3, 0.', '\n11, 0, 3, 0.', ':16: node 11 is given twice, first on line 15')


def texts(c):
    """Files made for one mistake."""
    fails(c, 'inp: gap', 'a.inp', '*NODE\n1\n2\n4\n9\n*ELEMENT, TYPE=S4\n1, 1, 2, 4, 9\n',
          ':4: node 4 comes after a gap: no node has number 3; --compact closes gaps')
    converts(c, 'inp: a deck as Abaqus/CAE writes it', 'a.inp', CAE, MESH)
    stops(c, 'inp: a set with an element that is not there', 'a.inp', NODES + QUAD + '*ELSET, ELSET=A\n1, 7,\n8\n',
          ':9: the set names element 7, which is not in the file; --ignore ELSET leaves it out')
    left_out(c, 'inp: such a set left out', 'a.inp', NODES + QUAD + '*ELSET, ELSET=A\n1, 7,\n8\n', MESH, 'ELSET', 2)
    converts(c, 'inp: sets of elements', 'a.inp', '*ELSET, ELSET=A\n1, 9\n*ELSET, ELSET=B, GENERATE\n2, 8, 2\n*ELSET, ELSET=C\nA, B\n' + NODES + QUAD
             + '*ELEMENT, TYPE=MASS\n9, 2\n', MESH)
    stops(c, 'inp: two parts', 'a.inp', '*PART, NAME=A\n' + NODES + QUAD + '*END PART\n*PART, NAME=B\n' + NODES,
          ':10: a second *PART: node numbers start again in each; write the model without parts')
    part = '*PART, NAME=A\n' + NODES + QUAD + '*END PART\n*ASSEMBLY, NAME=B\n*INSTANCE, NAME=A-1, PART=A\n1., 0., 0.\n*END INSTANCE\n'
    converts(c, 'inp: one part in its place', 'a.inp', part + '*END ASSEMBLY\n', MESH)
    stops(c, 'inp: one part in two places', 'a.inp', part + '*INSTANCE, NAME=A-2, PART=A\n*END INSTANCE\n*END ASSEMBLY\n',
          ':14: a second *INSTANCE: node numbers start again in each; write the model without parts')
    stops(c, 'inp: a part from elsewhere', 'a.inp', NODES + QUAD + '*INSTANCE, LIBRARY=old, INSTANCE=A-1\n*END INSTANCE\n',
          ':8: *INSTANCE takes another model, and GRD has no place for that')
    fails(c, 'inp: data first', 'a.inp', '1, 0.\n' + NODES, ':1: data before the first keyword')
    fails(c, 'inp: keyword cut', 'a.inp', NODES + '*ELEMENT,\n', ':6: the file ends within a keyword')
    fails(c, 'inp: no elements', 'a.inp', NODES, ': no elements found')
    converts(c, 'inp: blanks of other kinds', 'a.inp', NODES + '*ELEMENT, TYPE=S4\n1,\t1,\x1f2,\xa03, 4\n', MESH)
    fails(c, 'inp: blank node number', 'a.inp', '*NODE\n, 1.\n' + QUAD, ":2: node number: '' is no whole number")
