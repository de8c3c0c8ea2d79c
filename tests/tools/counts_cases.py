"""Unknowns per node in the converters: for all nodes, by kinds of elements, by node sets of each format, and what is refused. Counts by hand."""

import io
import sys

from abaqus_cases import CAE
from collapsed_cases import texts
from command_cases import bars
from converting import KINDS, converts, fails, stops
from harness import data, grd_file, run

import page
import picture
import program
import step
import to_grd

# A shell of nodes 1 to 4 and two bars from its node 4 on.
ELEMENTS = ((3, 1, 2, 3, 4), (1, 4, 5), (1, 5, 6))
DECK = dict(texts(6, *ELEMENTS))['a.bdf']
INP = dict(texts(6, *ELEMENTS))['a.inp']


def counted(*counts):
    """The GRD file with these counts."""
    return grd_file(6, *ELEMENTS, counts=list(counts))


def options(*words, name='--unknowns'):
    return [part for word in words for part in (name, word)]


def sets(*words):
    """6 for all, but for these sets."""
    return options('6') + options(*words, name='--unknowns-set')


def cases(c):
    every(c)
    kinds(c)
    inner(c)
    limits(c)
    wrong(c)
    of_abaqus(c)
    of_nastran(c)
    of_gmsh(c)
    other_commands(c)


# All nodes, and kinds.

def every(c):
    """One count for all, from each format; without a count version 1, to the byte."""
    for file, text in texts(6, *ELEMENTS):
        converts(c, 'counts: none, ' + file, file, text, grd_file(6, *ELEMENTS))
        for count in range(1, 7):
            converts(c, 'counts: %d for all, %s' % (count, file), file, text, counted(*[count] * 6), *options(str(count)))
    pyramid = grd_file(12, *[(kind, *nodes) for kind, nodes in read(KINDS)], counts=[2] * 12)
    converts(c, 'counts: every kind, a pyramid too', 'a.bdf', data('small.bdf'), pyramid, *options('2'))
    printed = run(to_grd.main, options('bar=3', 'quadrilateral=6') + ['a.bdf', '-o', 'a.grd'], {'a.bdf': DECK})[1]
    c.equal('counts: what is said', printed, 'a.grd: 6 nodes, 30 unknowns (2 nodes with 3, 4 nodes with 6), 3 elements (bar 2, quadrilateral 1)\n')
    gaps = DECK.replace(',6\n', ',60\n')
    status, _, err, made = run(to_grd.main, options('bar=3', 'CQUAD4=6') + ['--compact', 'a.bdf', '-o', 'a.grd'], {'a.bdf': gaps})
    c.equal('counts: gaps closed', (status, err, made['a.grd']), (0, '', counted(6, 6, 6, 6, 3, 3)))


def read(file):
    """Kind and nodes of each element of a version 1 file."""
    sizes = {1: 2, 2: 3, 3: 4, 4: 4, 5: 5, 6: 6, 7: 8, 8: 6, 9: 8, 10: 10}
    words = [file[at] + 256 * file[at + 1] for at in range(9, len(file), 2)]
    while words:
        yield words[0], words[1:1 + sizes[words[0]]]
        words = words[1 + sizes[words[0]]:]


def kinds(c):
    """A node has the greatest count of its elements: node 4 is in the shell and in a bar."""
    for words, counts in ((('quadrilateral=6', 'bar=3'), (6, 6, 6, 6, 3, 3)), (('bar=6', 'quadrilateral=3'), (3, 3, 3, 6, 6, 6)),
                          (('3', 'quadrilateral=6'), (6, 6, 6, 6, 3, 3)), (('quadrilateral=6', '3'), (6, 6, 6, 6, 3, 3)),
                          (('6', 'bar=3'), (6, 6, 6, 6, 3, 3)), (('bar=1', 'quadrilateral=1'), (1, 1, 1, 1, 1, 1)),
                          (('2', 'Quadri lateral=5', ' BAR = 4 '), (5, 5, 5, 5, 4, 4)), (('4', 'bar=5', 'bar=3'), (4, 4, 4, 4, 3, 3))):
        for file, text in texts(6, *ELEMENTS):
            converts(c, 'counts: %s, %s' % (' '.join(words), file), file, text, counted(*counts), *options(*words))
    for file, text, shell, bar in (('a.bdf', DECK, 'cquad4', 'CROD'), ('a.inp', INP, 'S4', 'T3D2'),
                                   ('a.msh', dict(texts(6, *ELEMENTS))['a.msh'], '4-node quadrangle', '2-node line')):
        converts(c, 'counts: by the names of %s' % file, file, text, counted(6, 6, 6, 6, 3, 3), *options(shell + '=6', bar + '=3'))
        converts(c, 'counts: the later name of a kind, %s' % file, file, text, counted(5, 5, 5, 5, 3, 3),
                 *options('3', 'quadrilateral=6', shell + '=5'))
        converts(c, 'counts: the later name of a kind the other way round, %s' % file, file, text, counted(6, 6, 6, 6, 3, 3),
                 *options('3', shell + '=5', 'quadrilateral=6'))
    nodes = ', '.join(str(p) for p in range(1, 16)) + ',\n' + ', '.join(str(p) for p in range(16, 21))
    brick = '*NODE\n' + ''.join('%d, 0.\n' % p for p in range(1, 22)) + '*ELEMENT, TYPE=C3D20R\n1, %s\n*ELEMENT, TYPE=T3D2\n2, 20, 21\n' % nodes
    for name in ('20-node brick', 'C3D20R'):
        made = run(to_grd.main, options(name + '=3', 'bar=2') + ['a.inp', '-o', 'a.grd'], {'a.inp': brick})[3]['a.grd']
        c.equal('counts: %s, which GRD has no kind for' % name, [made[at] for at in range(9, 51, 2)], [3] * 20 + [2])


def inner(c):
    """An element that is left out within another gives its nodes their count all the same."""
    text = DECK + 'CROD,9,1,2,3\n'
    converts(c, 'counts: a bar within a shell', 'a.bdf', text, counted(3, 6, 6, 6, 6, 6), '--drop-inner', *options('CQUAD4=3', 'CROD=6'))


def limits(c):
    """The counts take their bytes from the elements: 9 + 8,192 + 6 x 9,555 = 65,531."""
    chain = ([(p, p + 1) for p in range(1, 4096)] + [(p, p + 2) for p in range(1, 4095)] + [(p, p + 3) for p in range(1, 4094)])[:9555]
    converts(c, 'counts: 65,531 bytes', 'a.bdf', bars(chain), grd_file(4096, *[(1, p, q) for p, q in chain], counts=[6] * 4096), *options('6'))
    fails(c, 'counts: a file too long', 'a.bdf', bars(chain + [(1, 9)]),
          ':9556: element 9556 (CROD) is the first that does not fit: a GRD file has at most 65535 bytes', *options('6'))
    converts(c, 'counts: the same without counts', 'a.bdf', bars(chain + [(1, 9)]), grd_file(4096, *[(1, p, q) for p, q in chain + [(1, 9)]]))
    twice = bars(chain + chain[:9])
    converts(c, 'counts: elements within others left out where the file is too long', 'a.bdf', twice,
             grd_file(4096, *[(1, p, q) for p, q in chain], counts=[6] * 4096), *options('6'))


def wrong(c):
    """Words that are none, kinds and sets that are not there, and nodes without a count."""
    for word, message in (('0', 'a node has 1 to 6 unknowns'), ('7', 'a node has 1 to 6 unknowns'), ('bar=0', 'a node has 1 to 6 unknowns'),
                          ('bar=7', 'a node has 1 to 6 unknowns'), ('65537', 'a node has 1 to 6 unknowns'), ('', "'' is no count of unknowns"),
                          ('bar', "'bar' is no count of unknowns"), ('bar=', "'' is no count of unknowns"), ('-3', "'-3' is no count of unknowns"),
                          ('3.0', "'3.0' is no count of unknowns"), ('1_0', "'1_0' is no count of unknowns"), ('=3', 'there is no name before the =')):
        for option in ('--unknowns', '--unknowns-set'):
            got = run(to_grd.main, ['%s=%s' % (option, word), 'a.bdf', '-o', 'a.grd'], {'a.bdf': DECK})
            c.equal('counts: %s %s' % (option, word), got, (2, '', '%s %s: %s\n' % (option, word, message), {}))
    got = run(to_grd.main, ['--unknowns-set', '3', 'a.bdf', '-o', 'a.grd'], {'a.bdf': DECK})
    c.equal('counts: a set without a name', got, (2, '', '--unknowns-set: needs a name and a count, as NAME=3\n', {}))
    got = run(to_grd.main, options('3', '3') + ['a.bdf', '-o', 'a.grd'], {'a.bdf': DECK})
    c.equal('counts: two for all', got, (2, '', '--unknowns: a count for all nodes is given twice\n', {}))
    fails(c, 'counts: a kind that is not there', 'a.bdf', DECK,
          ': no element is of kind CQUAD8; there are: CQUAD4, CROD, bar, quadrilateral', *options('3', 'CQUAD8=6'))
    fails(c, 'counts: a misspelt kind', 'a.bdf', DECK,
          ': no element is of kind quadrilatral; there are: CQUAD4, CROD, bar, quadrilateral', *options('quadrilatral=6', 'bar=3'))
    lost = ' has no count of unknowns by its elements or sets; --unknowns N gives one to all others'
    fails(c, 'counts: a node of bars alone', 'a.bdf', DECK, ':5: node 5' + lost, *options('quadrilateral=6'))
    fails(c, 'counts: a node of no element', 'a.bdf', DECK + 'GRID,7\n', ':10: node 7' + lost, *options('quadrilateral=6', 'bar=3'))
    converts(c, 'counts: a node of no element, and a count for all', 'a.bdf', DECK + 'GRID,7\n',
             grd_file(7, *ELEMENTS, counts=[6, 6, 6, 6, 3, 3, 2]), *options('quadrilateral=6', 'bar=3', '2'))
    fails(c, 'counts: no such set', 'a.bdf', DECK, ': there is no node set 7; there are: none', *sets('7=3'))


# Node sets.

def of_abaqus(c):
    """*NSET with numbers, names and ranges, NSET= of *NODE; names without regard to case."""
    text = INP.replace('*NODE\n', '*NODE, NSET=All\n') + (
        '*NSET, NSET=Hinge\n5,\n6\n*NSET, NSET=Odd, GENERATE\n1, 9, 2\n*NSET, NSET=Pair, GENERATE\n2, 3\n'
        '*NSET, NSET=Both\nHINGE, Pair\n*NSET, NSET="left end"\n1\n*NSET, NSET=Hinge\n1\n')

    def takes(name, words, *counts):
        converts(c, 'counts, inp: ' + name, 'a.inp', text, counted(*counts), *words)
    takes('numbers, and more of the same name', sets('HINGE=3'), 3, 6, 6, 6, 3, 3)
    takes('a range with a step and past the end', sets('odd=2'), 2, 6, 2, 6, 2, 6)
    takes('a range without a step', sets('Pair=1'), 6, 1, 1, 6, 6, 6)
    takes('sets of sets', sets('both=3'), 3, 3, 3, 6, 3, 3)
    takes('a name with a blank', sets('LEFT  End=4'), 4, 6, 6, 6, 6, 6)
    takes('the set of *NODE', options('all=5', name='--unknowns-set'), 5, 5, 5, 5, 5, 5)
    takes('the later set rules', sets('all=5', 'hinge=3', 'odd=2'), 2, 5, 2, 5, 2, 3)
    takes('the later set rules, the other way round', sets('odd=2', 'hinge=3', 'all=5'), 5, 5, 5, 5, 5, 5)
    takes('a set rules over the elements', options('quadrilateral=6', 'bar=6') + options('both=1', name='--unknowns-set'), 1, 1, 1, 6, 1, 1)
    takes('a set for what no kind gives', options('quadrilateral=6') + options('hinge=3', name='--unknowns-set'), 3, 6, 6, 6, 3, 3)

    def refused(name, more, word, message, status=1):
        fails(c, 'counts, inp: ' + name, 'a.inp', INP + more, message, *sets(word), status=status)
    refused('no such set', '*NSET, NSET=A\n1\n*NSET, NSET=b\n1\n', 'c=3', ': there is no node set c; there are: A, b')
    refused('a name without its blank', '*NSET, NSET=left end\n1\n', 'leftend=3', ': there is no node set leftend; there are: left end')
    refused('no such node', '*NSET, NSET=A\n1, 7\n', 'A=3', ':15: set A names node 7, which is not in the file')
    refused('no such set within', '*NSET, NSET=A\nB\n', 'A=3', ': there is no node set B; there are: A')
    refused('within itself', '*NSET, NSET=A\nB\n*NSET, NSET=B\nA\n', 'A=3', ':14: set A is a part of itself')
    refused('no node', '*NSET, NSET=A, GENERATE\n7, 9\n', 'A=3', ':14: set A has no node of the file')
    refused('a range of one number', '*NSET, NSET=A, GENERATE\n7\n', 'A=3', ':15: set A: a range has first, last and step')
    refused('a step of 0', '*NSET, NSET=A, GENERATE\n1, 3, 0\n', 'A=3', ':15: set A: a range has first, last and step')
    refused('elements', '*NSET, NSET=A, ELSET=E\n', 'A=3', ':14: set A is made of a set of elements, and that is not read', 2)
    stops(c, 'counts, inp: a set of the part and one of the assembly', 'a.inp', CAE,
          ':29: set Set-1 has another meaning here than on line 15: give one of the two another name', *options('3'),
          *options('Set-1=6', name='--unknowns-set'))
    converts(c, 'counts, inp: a set that no one asks for', 'a.inp', INP + '*NSET, NSET=A, ELSET=E\n*NSET, NSET=B\nC, 99\n', counted(*[6] * 6),
             *options('6'))


def of_nastran(c):
    """SET of the case control, SET1 and SET3."""
    control = ('SOL 101\nCEND\nSET 1 = 5, 6\n set 2=1 THRU 9 EXCEPT 2,\n  3, 5\nSET 3 = ALL\nSET 8 = 1 THRU 2, 6 $ ends\n'
               'SET 9 = 1\nSUBCASE 1\nSET 9 = 2\nBEGIN BULK\n')
    cards = 'SET1,4,5,6\nSET1,5,1,THRU,3,6\nSET1    6       2       THRU    4\nSET3,7,GRID,1,2\nSET3,10,ELEM,1,2\nSET1,1,2\nENDDATA\n'
    text = control + DECK + cards

    def takes(name, words, *counts):
        converts(c, 'counts, nastran: ' + name, 'a.bdf', text, counted(*counts), *words)
    takes('numbers of the case control', sets('8=3'), 3, 3, 6, 6, 6, 3)
    takes('a range without some', sets('2=3'), 3, 6, 6, 3, 6, 3)
    takes('all', sets('3=3'), 3, 3, 3, 3, 3, 3)
    takes('SET1', sets('4=3'), 6, 6, 6, 6, 3, 3)
    takes('SET1 with a range', sets('5=3'), 3, 3, 3, 6, 6, 3)
    takes('SET1 in small field', sets('6=3'), 6, 3, 3, 3, 6, 6)
    takes('SET3', sets('7=3'), 3, 3, 6, 6, 6, 6)
    takes('the later set rules', sets('3=1', '4=3', '7=2'), 2, 2, 1, 1, 3, 3)
    # behind EXCEPT a number outside the range is one of the set again
    outside = control.replace('EXCEPT 2,\n  3, 5', 'EXCEPT 2').replace('1 THRU 9', '1 THRU 3').replace('EXCEPT 2', 'EXCEPT 2, 5, 3')
    got = run(to_grd.main, sets('2=3') + ['a.bdf', '-o', 'a.grd'], {'a.bdf': outside + DECK})[3]['a.grd']
    c.equal('counts, nastran: EXCEPT ends with its range', got, counted(3, 6, 3, 6, 3, 6))

    def refused(name, deck, word, message, status=1):
        fails(c, 'counts, nastran: ' + name, 'a.bdf', deck, message, *sets(word), status=status)
    refused('a set of two subcases', text, '9=3', ':10: set 9 has another meaning here than on line 8: give one of the two another name', 2)
    refused('a set of the case control and a card', text, '1=3',
            ':26: set 1 has another meaning here than on line 3: give one of the two another name', 2)
    refused('a set of elements', text, '10=3', ': there is no node set 10; there are: 1, 2, 3, 4, 5, 6, 7, 8, 9')
    refused('no such node', DECK + 'SET1,1,5,9\n', '1=3', ':10: set 1 names node 9, which is not in the file')
    refused('a word', DECK + 'SET1,1,SKIN\n', '1=3', ":10: set 1: 'SKIN' is no whole number")
    refused('no end of a range', DECK + 'SET1,1,5,THRU\n', '1=3', ":10: set 1, behind THRU: '' is no whole number")
    refused('EXCEPT without a range', DECK + 'SET1,1,5,EXCEPT,6\n', '1=3', ":10: set 1: 'EXCEPT' is no whole number")


def of_gmsh(c):
    """Physical groups of both versions, by name and by number; a point's too."""
    old = gmsh_22([(1, 3, 7, 1, 2, 3, 4), (2, 1, 8, 4, 5), (3, 1, 0, 5, 6), (4, 15, 9, 6)],
                  '2 7 "shell"', '1 8 "the hinge"', '0 9 "end"', '1 4 "none"')
    new = gmsh_41()
    for version, text in (('2.2', old), ('4.1', new)):
        def takes(name, words, *counts):
            converts(c, 'counts, gmsh %s: %s' % (version, name), 'a.msh', text, counted(*counts), *words)
        takes('a face', options('3') + options('shell=6', name='--unknowns-set'), 6, 6, 6, 6, 3, 3)
        takes('a line, by a name with a blank', sets('the hinge=3'), 6, 6, 6, 3, 3, 6)
        takes('a point', sets('END=1'), 6, 6, 6, 6, 6, 1)
        takes('by number', sets('8=3', '9=1'), 6, 6, 6, 3, 3, 1)
        takes('the later rules', sets('shell=4', '8=3'), 4, 4, 4, 3, 3, 6)
        takes('the later rules, the other way round', sets('8=3', 'shell=4'), 4, 4, 4, 4, 3, 6)
        fails(c, 'counts, gmsh %s: a group without elements' % version, 'a.msh', text, ':9: set none has no node of the file', *sets('none=3'))
        fails(c, 'counts, gmsh %s: no such group' % version, 'a.msh', text,
              ': there is no node set 5; there are: 4, 7, 8, 9, end, none, shell, the hinge', *sets('5=3'))
    two = gmsh_22([(1, 3, 7, 1, 2, 3, 4), (2, 1, 7, 4, 5), (3, 1, 8, 5, 6)], '2 7 "a"', '1 8 "a"')
    stops(c, 'counts, gmsh: one name twice', 'a.msh', two, ':6: set a has another meaning here than on line 7: give one of the two another name',
          *sets('a=3'))
    stops(c, 'counts, gmsh: one number twice', 'a.msh', two, ':20: set 7 has another meaning here than on line 21: give one of the two another name',
          *sets('7=3'))
    fails(c, 'counts, gmsh: a name without quotes', 'a.msh', gmsh_22([(1, 1, 7, 1, 2)], '1 7 a'),
          ':6: dimension, number and name of a physical group expected', *sets('a=3'))
    parts = new.replace('$Nodes', '$PartitionedEntities\n1\n0\n0 0 0 0\n$EndPartitionedEntities\n$Nodes')
    stops(c, 'counts, gmsh: a mesh in partitions', 'a.msh', parts, ':18: the physical groups of a mesh in partitions are not read', *sets('7=3'))
    plates(c)


def gmsh_22(elements, *names):
    """A version 2.2 file of 6 nodes; an element is its number, type, group and nodes."""
    lines = ['%d %d 2 %d 1 %s' % (i, kind, group, ' '.join(map(str, nodes))) for i, kind, group, *nodes in elements]
    return '\n'.join(['$MeshFormat', '2.2 0 8', '$EndMeshFormat', '$PhysicalNames', str(len(names)), *names, '$EndPhysicalNames', '$Nodes', '6']
                     + ['%d 0 0 0' % p for p in range(1, 7)] + ['$EndNodes', '$Elements', str(len(lines)), *lines, '$EndElements', ''])


def gmsh_41():
    """The same in version 4.1: the face is entity 11, the lines are 21 and 22, the point is 31."""
    return '\n'.join(['$MeshFormat', '4.1 0 8', '$EndMeshFormat', '$PhysicalNames', '4', '0 9 "end"', '2 7 "shell"', '1 8 "the hinge"', '1 4 "none"',
                      '$EndPhysicalNames', '$Entities', '1 2 1 0', '31 0 0 0 1 9', '21 0 0 0 1 0 0 1 8 0', '22 0 0 0 1 0 0 0 0',
                      '11 0 0 0 1 1 0 1 7 1 21', '$EndEntities', '$Nodes', '1 6 1 6', '2 11 0 6', *'123456', *['0 0 0'] * 6, '$EndNodes',
                      '$Elements', '4 4 1 4', '2 11 3 1', '1 1 2 3 4', '1 21 1 1', '2 4 5', '1 22 1 1', '3 5 6', '0 31 15 1', '4 6', '$EndElements', ''])


def plates(c):
    """A plate as Gmsh wrote it in both versions: the group 'edge' has the nodes of the line elements, and all others 6."""
    lines = data('gmsh/plate3_22.msh').split('\n')
    elements = [[int(word) for word in line.split()] for line in lines[lines.index('$Elements') + 2:lines.index('$EndElements')]]
    edge = {p for element in elements if element[1] == 1 for p in element[3 + element[2]:]}
    wanted = [3 if p in edge else 6 for p in range(1, 41)]
    for file in ('gmsh/plate3_22.msh', 'gmsh/plate3_41.msh'):
        made = run(to_grd.main, sets('edge=3') + ['a.msh', '-o', 'a.grd'], {'a.msh': data(file)})[3]['a.grd']
        c.equal('counts, gmsh: %s' % file, [made[at] for at in range(9, 89, 2)], wanted)


# The other commands that read a mesh.

def other_commands(c):
    """Pictures, pages and the steps of `renumber` take the same words; a GRD file has its own counts."""
    words = options('CQUAD4=6', 'CROD=3')
    mesh = counted(6, 6, 6, 6, 3, 3)
    listing = program.text_for(mesh)
    files = {'a.bdf': DECK, 'a.grd': mesh, 'a.txt': listing}
    for main, name in ((picture.main, 'a.svg'), (page.main, 'a.html')):
        status, _, err, made = run(main, words + ['a.bdf', 'a.txt', '-o', name], files)
        c.equal('counts: a deck with its listing, ' + name, (status, err, b'30 unknowns' in made[name]), (0, '', True))
        got = run(main, ['a.bdf', 'a.txt', '-o', name], files)
        c.equal('counts: a deck without its counts, ' + name, got,
                (1, '', "a.bdf: the listing's figures are not those of its numbers on this mesh: they do not belong together\n", {}))
        status, _, err, made = run(main, ['a.grd', 'a.txt', '-o', name], files)
        c.equal('counts: a GRD file with its listing, ' + name, (status, err, b'30 unknowns' in made[name]), (0, '', True))
        got = run(main, words + ['a.grd', 'a.txt', '-o', name], files)
        c.equal('counts: given for a GRD file, ' + name, got, (2, '', 'a.grd: ' + OWN, {}))
    steps(c, words, mesh, listing)


OWN = 'a GRD file has its own counts of unknowns; --unknowns and --unknowns-set are for the other formats\n'


def steps(c, words, mesh, listing):
    def stepped(task, *more):
        given, sys.stdin = sys.stdin, io.StringIO(listing.decode('ascii'))
        try:
            return run(step.main, [task, '--from', 'nastran', '--name', 'a.bdf', *more], {'a.bdf': DECK})
        finally:
            sys.stdin = given
    c.equal('counts: converted for the script', stepped('convert', *words, 'a.bdf', 'out.grd'), (0, '', '', {'out.grd': mesh}))
    c.equal('counts: a wrong one for the script', stepped('convert', '--unknowns', 'CROD=9', 'a.bdf', 'out.grd'),
            (2, '', '--unknowns CROD=9: a node has 1 to 6 unknowns\n', {}))
    status, out, err, _ = stepped('explain', *words, 'a.bdf')
    c.equal('counts: explained for the script', (status, err, out.splitlines()[1]),
            (0, '', '  6 nodes, 30 unknowns (2 nodes with 3, 4 nodes with 6), 3 elements (bar 2, quadrilateral 1)'))
    status, out, err, made = stepped('write', *words, '--picture', 'b.svg', 'a.bdf')
    c.equal('counts: drawn for the script', (status, out, err), (0, '', 'b.svg: %d bytes\n' % len(made['b.svg'])))
