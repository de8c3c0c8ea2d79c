"""NASTRAN bulk data in its three fields."""

from converting import KINDS, adjoins, all_kinds, converts, fails, left_out, stops
from harness import data, edited, grd_file, run

import known
import to_grd

QUAD = 'CQUAD4,1,1,1,2,3,4\n'

# By hand, after the form that preprocessors write.
FEMAP = '''INIT MASTER(S)
NASTRAN SYSTEM(442)=-1,SYSTEM(319)=1
ID plate,Femap
SOL SESTATIC
CEND
  TITLE = Simcenter Nastran Static Analysis Set
  ECHO = NONE
  SPC = 1
  LOAD = 1
BEGIN BULK
$ ***************************************************************************
PARAM,PRGPAR,YES
PARAM,POST,-1
CORD2C         1       0      0.      0.      0.      0.      0.      1.+FEMAPC1
+FEMAPC1      1.      0.      1.
$ Femap Constraint Set 1 : fixed
SPC1           1  123456       1       4
$ Femap Load Set 1 : pull
FORCE          1       2       0      1.   1000.      0.      0.
PSHELL         1       1      1.       1               1              0.
MAT1           1 210000.             0.3      0.      0.      0.
GRID           1       0      0.      0.      0.       0
GRID           2       0      1.      0.      0.       0
GRID           3       0      1.      1.      0.       0
GRID           4       0      0.      1.      0.       0
CQUAD4         1       1       1       2       3       4
ENDDATA 6b1d24f3
'''


def cases(c):
    all_kinds(c, 'small.bdf')
    all_kinds(c, 'large.nas')
    all_kinds(c, 'free.dat')
    converts(c, 'nastran: another ending', 'deck', data('small.bdf'), KINDS, '--from', 'nastran')
    cards(c)
    other_counts(c)
    springs(c)
    not_read(c)
    included(c)
    edits(c)
    texts(c)


def cards(c):
    """Cards that the three files don't have, and how fields are found."""
    for card in ('CBAR', 'CBEAM', 'CROD', 'CTUBE'):
        converts(c, 'nastran: ' + card, 'a.bdf', '%-8s%8d%8d%8d%8d' % (card, 5, 1, 2, 1), grd_file(2, (1, 2, 1)))
    converts(c, 'nastran: CONROD', 'a.bdf', 'CONROD,5,2,1,3,1.0\n', grd_file(2, (1, 2, 1)))
    converts(c, 'nastran: bar with an orientation point', 'a.bdf', 'GRID,1\nGRID,2\nGRID,3\nCBAR,1,1,1,2,3\n', grd_file(3, (1, 1, 2)))
    converts(c, 'nastran: angle behind the nodes', 'a.bdf', 'CQUAD4,1,1,1,2,3,4,30.0\n', grd_file(4, (3, 1, 2, 3, 4)))
    converts(c, 'nastran: two rods on a card', 'a.bdf',
             '%-8s' % 'CROD' + '%8d' * 8 % (1, 1, 1, 2, 2, 1, 2, 3) + '\n', grd_file(3, (1, 1, 2), (1, 2, 3)))
    fails(c, 'nastran: half a second rod', 'a.bdf', 'CROD,1,1,1,2,2,1,2\n', ':1: element 2 (CROD) has no node in field 5')
    for card, kind, count in (('CTRIA1', 2, 3), ('CTRMEM', 2, 3), ('CQUAD2', 3, 4), ('CQDMEM', 3, 4), ('CTWIST', 3, 4), ('CWEDGE', 6, 6),
                              ('CHEXA1', 7, 8)):
        nodes = list(range(1, count + 1))
        converts(c, 'nastran: ' + card, 'a.bdf', free(card, 1, 1, *nodes), grd_file(count, [kind] + nodes))
    converts(c, 'nastran: CPYRA', 'a.bdf', 'CPYRA,1,1,1,2,3,4,5\n', grd_file(5, (5, 1, 2, 3, 4, 5)))
    converts(c, 'nastran: thickness behind the nodes', 'a.bdf', 'CTRIA6,1,1,6,5,4,3,2,1\n,30.,,1.,1.,1.\n', grd_file(6, (8, 6, 5, 4, 3, 2, 1)))
    converts(c, 'nastran: a system that is no number', 'a.bdf', 'GRID,1,\xb3,0.,0.,0.\nGRID,2,x\nCROD,1,1,1,2\n', grd_file(2, (1, 1, 2)))
    converts(c, 'nastran: tabs', 'a.bdf', 'CROD\t5\t1\t2\t1\n', grd_file(2, (1, 2, 1)))
    converts(c, 'nastran: comments', 'a.bdf', '$ first\n\nCROD    5       1       2       1       $ last\n', grd_file(2, (1, 2, 1)))
    converts(c, 'nastran: sixteen columns, then eight', 'a.bdf',
             'CHEXA*  %16d%16d%16d%16d\n*       %16d%16d%16d%16d\n+       %8d%8d\n' % (9, 1, 1, 2, 3, 4, 5, 6, 7, 8),
             grd_file(8, (7, 1, 2, 3, 4, 5, 6, 7, 8)))


def free(card, *fields):
    """A card in free field, on as many lines as it takes."""
    words = [str(word) for word in fields]
    return '\n'.join(','.join([card if at == 0 else ''] + words[at:at + 8]) for at in range(0, len(words), 8)) + '\n'


def other_counts(c):
    """Counts of nodes that GRD has no kind for: all nodes adjoin."""
    for card, count in (('CHEXA', 20), ('CHEXA', 13), ('CHEXA', 27), ('CPENTA', 15), ('CPENTA', 18), ('CPYRAM', 13), ('CPYRAM', 14), ('CTETRA', 5),
                        ('CTETRA', 9), ('CTRIA6', 4), ('CQUAD', 9), ('CQUAD9', 9), ('CQUADX', 9), ('CBEAM3', 3)):
        adjoins(c, 'nastran: %s of %d nodes' % (card, count), 'a.bdf', free(card, 1, 1, *range(1, count + 1)), count, range(1, count + 1))
    adjoins(c, 'nastran: a node in the middle missing', 'a.bdf', free('CTETRA', 1, 1, 1, 2, 3, 4, 5, '', 6, 0, 7), 7, range(1, 8))
    fails(c, 'nastran: a corner missing', 'a.bdf', free('CTETRA', 1, 1, 1, 2, '', 4, 5), ':1: element 1 (CTETRA) has no node in field 6')
    for card, most in (('CHEXA', 27), ('CPENTA', 18), ('CPYRAM', 14), ('CTETRA', 10)):
        fails(c, 'nastran: %s with a node too many' % card, 'a.bdf', free(card, 1, 1, *range(1, most + 2)),
              ':1: element 1 (%s) has more than %d nodes' % (card, most))
    converts(c, 'nastran: an offset and a system behind the nodes', 'a.bdf',
             free('CTRIA3', 1, 1, 1, 2, 3, 7, 0.5) + free('CQUAD4', 2, 1, 1, 2, 3, 4, 7, 0),
             grd_file(4, (2, 1, 2, 3), (3, 1, 2, 3, 4)))
    converts(c, 'nastran: CTRIAX6', 'a.bdf', free('CTRIAX6', 1, 1, 1, 2, 3, 4, 5, 6), grd_file(6, (8, 1, 3, 5, 2, 4, 6)))


def springs(c):
    """Springs, dampers and masses between two points, or one and the ground."""
    for card, fields in (('CBUSH', (9, 1, 2, 4)), ('CELAS1', (9, 1, 2, 1, 4, 1)), ('CELAS2', (9, 10.5, 2, 1, 4, 1)), ('CDAMP2', (9, 1.0, 2, 1, 4, 1)),
                         ('CMASS1', (9, 1, 2, 1, 4, 1)), ('CGAP', (9, 1, 2, 4)), ('CVISC', (9, 1, 2, 4))):
        converts(c, 'nastran: ' + card, 'a.bdf', QUAD + free(card, *fields), grd_file(4, (3, 1, 2, 3, 4), (1, 2, 4)))
    for card, fields in (('CBUSH', (9, 1, 2)), ('CELAS2', (9, 10.5, 2, 1)), ('CELAS1', (9, 1, '', '', 2, 1)), ('CELAS2', (9, 1.0, 2, 1, 2, 2)),
                         ('CMASS2', (9, 1.0, 2, 1, 0, 0))):
        converts(c, 'nastran: %s on one node' % card, 'a.bdf', QUAD + free(card, *fields), grd_file(4, (3, 1, 2, 3, 4)))
    fails(c, 'nastran: a gap needs two nodes', 'a.bdf', QUAD + free('CGAP', 9, 1, 2), ':2: element 9 (CGAP) has no node in field 5')


def not_read(c):
    """Cards that are not read: known to join nothing, known to join, or not known."""
    mesh = grd_file(4, (3, 1, 2, 3, 4))
    for card in ('RBE2', 'RBE3', 'MPC', 'SPOINT', 'DMIG', 'BCTABLE', 'CELAS3', 'CWELD', 'CONV'):
        stops(c, 'nastran: ' + card, 'a.bdf', QUAD + free(card, 9, 1, 2),
              ':2: card %s: GRD has no kind for it; --ignore %s leaves it out' % (card, card))
        left_out(c, 'nastran: %s left out' % card, 'a.bdf', QUAD + free(card, 9, 1, 2, 3, 4, 5, 6, 7, 8, 9), mesh, card.lower(), 1)
    for card in ('CQAUD4', 'GIRD', 'CHBDYX', 'XYZ'):
        stops(c, 'nastran: ' + card, 'a.bdf', QUAD + '%-8s%8d%8d\n' % (card, 9, 1),
              ':2: card %s is not known, and might join nodes; --ignore %s leaves it out' % (card, card))
    converts(c, 'nastran: a deck as Femap writes it', 'a.dat', FEMAP, mesh)
    stops(c, 'nastran: a part of its own', 'a.bdf', QUAD + 'BEGIN SUPER=2\n' + QUAD,
          ':2: card BEGIN is not known, and might join nodes; --ignore BEGIN leaves it out')
    names = sorted(known.NASTRAN)
    converts(c, 'nastran: every card known to join nothing', 'a.bdf', QUAD + ''.join('%s,1,2\n' % name for name in names), mesh)
    converts(c, 'nastran: an equation', 'a.bdf', QUAD + 'DEQATN,1,F(A,B,C,D,E,G,H,I,J)=\n+,MAX(A,B,C,D,E,G,H,I,J)\n', mesh)
    for name, mark, encoding in (('UTF-8', b'\xef\xbb\xbf', 'utf-8'), ('UTF-16', b'\xff\xfe', 'utf-16-le')):
        converts(c, 'nastran: byte order mark of %s before a quad' % name, 'a.bdf', mark + QUAD.encode(encoding), mesh)


def included(c):
    """Files taken in by INCLUDE."""
    mesh, points = grd_file(4, (3, 1, 2, 3, 4)), ''.join('GRID,%d\n' % p for p in range(1, 5))
    for name in ("'more.bdf'", '"more.bdf"', 'more.bdf'):
        converts(c, 'nastran: include of ' + name, 'a.bdf', 'include %s\n' % name + QUAD, mesh, files={'more.bdf': points})
    converts(c, 'nastran: include before the bulk data', 'a.bdf',
             "SOL 101\nINCLUDE 'case.inc'\nBEGIN BULK\nINCLUDE 'Nodes.inc'\n" + QUAD + 'ENDDATA\n', mesh,
             files={'case.inc': 'CEND\nSPC = 1\n', 'Nodes.inc': points})
    fails(c, 'nastran: no such file to include', 'a.bdf', QUAD + "INCLUDE 'more.bdf'\n", ':2: takes in more.bdf: No such file or directory')
    stops(c, 'nastran: a loop', 'a.bdf', QUAD + "INCLUDE 'a.bdf'\n", ':2: takes in a.bdf, which stands around it already')
    for text in ("'dir/", "''", ''):
        fails(c, 'nastran: include of %r' % text, 'a.bdf', QUAD + 'INCLUDE %s\nmore.bdf\n' % text,
              ':2: INCLUDE needs a file name, whole and on its line')
    got = run(to_grd.main, ['a.bdf', '-o', 'out.grd'], {'a.bdf': QUAD + "INCLUDE 'b.bdf'\n", 'b.bdf': '\nCROD,1,1,1,2\n'})
    c.equal('nastran: an element in both', got, (1, '', 'b.bdf:2: element 1 (CROD) is given twice, first on line 1 of a.bdf\n', {}))


def edits(c):
    """Mistakes put into the files with every kind."""
    def small(name, old, new, message):
        fails(c, 'nastran: ' + name, 'a.bdf', edited('small.bdf', (old, new)), message)
    small('no such node', 'CROD    1       1       2       1', 'CROD    1       1       2       13',
          ':20: element 1 (CROD): there is no node 13')
    small('another card\'s continuation', '+C7     2       1', '+C8     2       1',
          ':27: continuation +C8 does not follow its card, which ends with +C7')
    small('continuation missing', '+C7     2       1\n', '', ':26: card CHEXA ends with +C7, and its continuation does not follow')
    small('continuation and mark missing', '3       +C7\n+C7     2       1\n', '3\n', ':26: element 7 (CHEXA) has no node in field 10')
    small('no number', 'CROD    1       1       2       1', 'CROD    1       1       2       1.5',
          ":20: CROD, field 5: '1.5' is no whole number")
    small('element twice', 'CROD    1       1', 'CROD    3       1',
          ':22: element 3 (CQUAD4) is given twice, first on line 20')
    small('node twice', 'GRID          12', 'GRID          11', ':18: node 11 is given twice, first on line 17')
    fails(c, 'nastran: gap, large field', 'a.nas', data('large.nas').replace('12', '13'),
          ':18: node 13 comes after a gap: no node has number 12; --compact closes gaps')


def texts(c):
    """Files made for one mistake."""
    for name, text in (('CTRIA3', 'CTRIA3,1,1,1,2,3,4,5,6\n'), ('CQUAD8', 'CQUAD8,1,1,1,2,3,4,5,6\n,7,8,9\n')):
        fails(c, 'nastran: %s with a node too many' % name, 'a.bdf', text,
              ':1: element 1 (%s) has a whole number in field %d, where no node can be' % (name, 8 if name == 'CTRIA3' else 12))
    stops(c, 'nastran: warping points', 'a.bdf', 'CBEAM,1,1,1,2,0.,0.,1.\n,,\n,3,4\n',
          ':1: element 1 (CBEAM) has warping points, and GRD has no kind for that')
    fails(c, 'nastran: last continuation missing', 'a.bdf', '%-72s+A\n' % 'CPENTA  1       1       1       2       3       4       5       6',
          ':1: card CPENTA ends with +A, and its continuation does not follow')
    fails(c, 'nastran: half of a pair in large field, then small field', 'a.bdf', 'CTRIA3*,1,1,1,2\n+,3\n',
          ':1: element 1 (CTRIA3) has no node in field 6')
    fails(c, 'nastran: no card before', 'a.bdf', '+,1,2\n', ':1: a continuation without a card before it')
    fails(c, 'nastran: too many fields', 'a.bdf', 'CHEXA,1,1,1,2,3,4,5,6,7,8\n', ':1: 11 fields in a line, and it has room for 10')
    stops(c, 'nastran: replication', 'a.bdf', QUAD + '=,*1,=,*1,*1,*1,*1\n', ':2: replicated cards (=) are not read')
    fails(c, 'nastran: blank element number', 'a.bdf', 'CROD,,1,1,2\n', ":1: CROD, field 2: '' is no whole number")
    fails(c, 'nastran: no elements', 'a.bdf', 'GRID,1\n', ': no elements found')
