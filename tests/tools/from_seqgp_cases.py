"""Numberings from SEQGP cards: free, small and large field, continuations; what is refused, told by card and number; cards of our own."""

import os
import random

from grd_cases import HINGE, SAMPLE
from harness import grd_file, run

import engine
import from_seqgp
import program
import to_grd
import to_seqgp
from model import Line

# The mesh of document 01's sample: bars 1-2, 1-4, 2-3, 3-5; and with numbers that have gaps.
MESH = 'GRID,1\nGRID,2\nGRID,3\nGRID,4\nGRID,5\nCROD,1,1,1,2\nCROD,2,1,1,4\nCROD,3,1,2,3\nCROD,4,1,3,5\n'
GAPS = 'GRID,10\nGRID,20\nGRID,30\nGRID,40\nGRID,50\nCROD,1,1,10,20\nCROD,2,1,10,40\nCROD,3,1,20,30\nCROD,4,1,30,50\n'
FIGURES = ('1', '4', '2')
ROWS = '1 2\n2 3\n3 4\n4 1\n5 5\n'

SMALL = 'SEQGP          1       2       2       3       3       4       4       1\n'
LARGE = ('SEQGP*                 1               2               2               3*A\n'
         '*A                     3               4               4               1\n')


def imports(mesh, cards, *options, figures=FIGURES, files=()):
    """The tool, by the independent program, with the mesh a.bdf and the cards b.bdf."""
    words = ['--independent', *options, 'a.bdf', 'b.bdf', '--figures', *figures, '-o', 'out.txt']
    return run(from_seqgp.main, words, dict(files, **{'a.bdf': mesh, 'b.bdf': cards}))


def accepts(c, name, cards, *options, mesh=MESH, rows=ROWS, figures=FIGURES):
    status, _, err, made = imports(mesh, cards, *options, figures=figures)
    head = 'nodes %d bandwidth %s profile %s front %s\n' % (rows.count('\n'), *figures)
    c.equal('from_seqgp: ' + name, (status, err, made.get('out.txt', b'').decode('ascii')), (0, '', head + rows))


def fails(c, name, cards, message, *options, mesh=MESH, figures=FIGURES, status=1):
    c.equal('from_seqgp: ' + name, imports(mesh, cards, *options, figures=figures), (status, '', message + '\n', {}))


def cases(c):
    fields(c)
    words(c)
    refusals(c)
    gaps(c)
    unknowns(c)
    own_cards(c)
    same_as_the_call(c)
    outputs(c)
    no_library(c)


def fields(c):
    """The layouts of a card, all with the same pairs."""
    accepts(c, 'small field', SMALL)
    accepts(c, 'large field', LARGE)
    accepts(c, 'large field, marks left out', LARGE.replace('*A', '*', 2).replace('3*\n', '3\n'))
    accepts(c, 'free field', 'SEQGP,1,2,2,3,3,4,4,1\n')
    accepts(c, 'free field, large', 'SEQGP*,1,2,2,3,*A\n*A,3,4,4,1\n')
    accepts(c, 'free field, blanks and lower case', ' seqgp , 1 , 2, 2,3 , 3,4,4,1\n')
    accepts(c, 'free field, continued', 'SEQGP,1,2,2,3,,,,,+A\n+A,3,4,4,1\n')
    accepts(c, 'small field, continued', SMALL[:40].ljust(72) + '+A\n+A' + ' ' * 6 + SMALL[40:])
    accepts(c, 'several cards', 'SEQGP,1,2\nSEQGP,2,3,3,4\n$ a comment\nSEQGP   ' + SMALL[56:])
    accepts(c, 'in another order', 'SEQGP,4,1,3,4\nSEQGP,2,3,1,2\n')
    accepts(c, 'with the node that keeps its number', 'SEQGP,5,5,4,1,3,4\nSEQGP,2,3,1,2\n')
    accepts(c, 'tabs', 'SEQGP\t1\t2\t2\t3\t3\t4\t4\t1\n')
    accepts(c, 'a blank pair', 'SEQGP,1,2,,,2,3,3,4\nSEQGP,4,1\n')
    accepts(c, 'a whole deck', 'SOL 1\nCEND\nBEGIN BULK\n' + MESH + SMALL + 'ENDDATA\nSEQGP,1,1\n')
    whole = run(from_seqgp.main, ['--independent', 'a.bdf', 'a.bdf', '--figures', *FIGURES, '-o', 'out.txt'], {'a.bdf': MESH + SMALL})
    c.equal("from_seqgp: the mesh's own file", (whole[0], whole[2]), (0, ''))
    accepts(c, 'the old order', 'SEQGP,3,3\n', rows='1 1\n2 2\n3 3\n4 4\n5 5\n', figures=('3', '7', '3'))
    status, out, _, _ = imports(MESH, SMALL)
    c.equal('from_seqgp: printed', (status, out), (0, 'out.txt: 5 nodes, 1 card, 4 pairs; nodes that no card names: 1\n'
                                                  'bandwidth 1, profile 4 and front 2 are those of the numbering\n'))


def words(c):
    """What is not read."""
    fails(c, 'a place between two', 'SEQGP,4,1\nSEQGP,3,1.5\n',
          'b.bdf:2: grid point 3 has 1.5, a place between two points; a numbering has whole numbers, so this is not read', status=2)
    fails(c, 'a place between places', 'SEQGP,3,1.5.2\n',
          'b.bdf:1: grid point 3 has 1.5.2, a place between two points; a numbering has whole numbers, so this is not read', status=2)
    fails(c, 'a whole number with a point', 'SEQGP,3,2.0\n',
          'b.bdf:1: grid point 3 has 2.0, a place between two points; a numbering has whole numbers, so this is not read', status=2)
    fails(c, 'no card', MESH, 'b.bdf: there is no SEQGP card')
    fails(c, 'no number', 'SEQGP,1,x\n', "b.bdf:1: SEQGP, field 3: 'x' is no whole number")
    fails(c, 'no grid point', 'SEQGP,x,1\n', "b.bdf:1: SEQGP, field 2: 'x' is no whole number")
    fails(c, 'a field too many', 'SEQGP,1,2,2,3,3,4,4,1,5,5\n', 'b.bdf:1: 11 fields in a line, and it has room for 10')
    fails(c, 'another continuation', 'SEQGP,1,2,2,3,,,,,+A\n+B,3,4,4,1\n', 'b.bdf:2: continuation +B does not follow its card, which ends with +A')
    fails(c, 'no continuation', 'SEQGP,1,2,2,3,,,,,+A\nSEQGP,3,4,4,1\n', 'b.bdf:1: card SEQGP ends with +A, and its continuation does not follow')
    fails(c, 'replicated', 'SEQGP,1,2\n=,2,3\n', 'b.bdf:2: replicated cards (=) are not read', status=2)
    fails(c, 'no figure', SMALL, "--figures: '1.5' is no figure", figures=('1.5', '4', '2'), status=2)
    fails(c, 'a figure of 65 bits', SMALL, "--figures: '18446744073709551616' is no figure", figures=('1', '18446744073709551616', '2'), status=2)
    c.equal('from_seqgp: no cards file', run(from_seqgp.main, ['--independent', 'a.bdf', 'b.bdf', '--figures', *FIGURES, '-o', 'out.txt'],
                                             {'a.bdf': MESH}), (1, '', 'b.bdf: No such file or directory\n', {}))


def refusals(c):
    """13, 7 and 14, told by line and number; of several all."""
    fails(c, 'odd', 'SEQGP,1,2,2,3,3\n', 'b.bdf:1: refused 13: grid point 3 has no new number in field 7')
    fails(c, 'no old number', 'SEQGP,1,2,,3\n', 'b.bdf:1: refused 13: field 4 has no grid point for the number behind it')
    fails(c, 'old twice', 'SEQGP,1,2,2,3\nSEQGP,3,4,1,2\n', 'b.bdf:2: refused 13: grid point 1 is given twice, first on line 1')
    fails(c, 'old twice on a card', 'SEQGP,5,5,5,5\n', 'b.bdf:1: refused 13: grid point 5 is given twice, first on line 1')
    fails(c, 'no such points', 'SEQGP,0,1,6,2\nSEQGP,-1,3,70000,4\n', '\n'.join(
        'b.bdf:%d: refused 13: the mesh has no grid point %d' % row for row in ((1, 0), (1, 6), (2, -1), (2, 70000))))
    fails(c, '13 before 7', 'SEQGP,1,9,2,9\nSEQGP,6,1\n', 'b.bdf:2: refused 13: the mesh has no grid point 6')
    fails(c, 'new number above n, and 0', 'SEQGP,1,6,2,0\nSEQGP,3,70000,4,-3\n', '\n'.join(
        'b.bdf:%d: refused 7: grid point %d has new number %d, and the new numbers are 1 to 5' % row
        for row in ((1, 1, 6), (1, 2, 0), (2, 3, 70000), (2, 4, -3))))
    fails(c, 'new twice', 'SEQGP,1,2,2,3\nSEQGP,3,2,4,1\n', 'b.bdf:2: refused 7: new number 2 is given twice, to grid point 3 and, on line 1, to 1')
    fails(c, 'new number of a point that keeps it', 'SEQGP,1,5\n',
          'b.bdf:1: refused 7: new number 5 of grid point 1 is that of a grid point that no card names, and keeps it')
    fails(c, '7 before 14', 'SEQGP,1,5\n',
          'b.bdf:1: refused 7: new number 5 of grid point 1 is that of a grid point that no card names, and keeps it',
          figures=('9', '9', '9'))
    fails(c, 'a wrong front', SMALL, 'b.bdf: refused 14: front 3 was sent, and the numbering has 2', figures=('1', '4', '3'))
    fails(c, 'all figures wrong', SMALL, 'b.bdf: refused 14: bandwidth 4294967297 was sent, and the numbering has 1\n'
          'b.bdf: refused 14: profile 0 was sent, and the numbering has 4\n'
          'b.bdf: refused 14: front 18446744073709551615 was sent, and the numbering has 2',
          figures=('4294967297', '0', '18446744073709551615'))


def gaps(c):
    """A mesh whose numbers have gaps: old numbers are the mesh's own, and every point must be named."""
    accepts(c, 'gaps', 'SEQGP,10,2,20,3,30,4,40,1\nSEQGP,50,5\n', mesh=GAPS, rows='10 2\n20 3\n30 4\n40 1\n50 5\n')
    fails(c, 'gaps, a point not named', 'SEQGP,10,2,20,3,30,4,40,1\n', 'a.bdf: no card names grid point 50, and it has no number of 1 to 5 to keep, '
          'as the numbers of the mesh have gaps', mesh=GAPS, status=2)
    fails(c, 'gaps, numbers of the mesh as new ones', 'SEQGP,10,20,20,30,30,40,40,10\nSEQGP,50,50\n', '\n'.join(
        'b.bdf:%d: refused 7: grid point %d has new number %d, and the new numbers are 1 to 5' % row
        for row in ((1, 10, 20), (1, 20, 30), (1, 30, 40), (1, 40, 10), (2, 50, 50))), mesh=GAPS)


def unknowns(c):
    """The figures count unknowns: two of each node, by an option and by a file of version 2."""
    accepts(c, 'two unknowns each', SMALL, '--unknowns', '2', figures=('3', '21', '4'))
    fails(c, 'two unknowns each, figures in nodes', SMALL, 'b.bdf: refused 14: bandwidth 1 was sent, and the numbering has 3\n'
          'b.bdf: refused 14: profile 4 was sent, and the numbering has 21\nb.bdf: refused 14: front 2 was sent, and the numbering has 4',
          '--unknowns', '2')
    bars = ((1, 1, 2), (1, 1, 4), (1, 2, 3), (1, 3, 5))
    for name, mesh, figures in (('one each', SAMPLE, FIGURES), ('two each', grd_file(5, *bars, counts=[2] * 5), ('3', '21', '4'))):
        got = run(from_seqgp.main, ['--independent', 'a.grd', 'b.bdf', '--figures', *figures, '-o', 'out.txt'], {'a.grd': mesh, 'b.bdf': SMALL})
        c.equal('from_seqgp: a GRD file, ' + name, (got[0], got[2], got[3]['out.txt'].decode('ascii').split('\n', 1)[1]), (0, '', ROWS))
    got = run(from_seqgp.main, ['--independent', '--unknowns', '2', 'a.grd', 'b.bdf', '--figures', *FIGURES, '-o', 'out.txt'],
              {'a.grd': SAMPLE, 'b.bdf': SMALL})
    c.equal('from_seqgp: counts for a GRD file', (got[0], got[3]), (2, {}))


def own_cards(c):
    """What the program numbered, to cards by to_seqgp.py and back: A.5, "A numbering that our engine made is accepted with the engine's figures"."""
    meshes = {'sample': MESH, 'gaps': GAPS, 'grd': SAMPLE, 'counts': HINGE}
    for name, mesh in meshes.items():
        if isinstance(mesh, bytes):
            data, files, nodes = mesh, {'a.grd': mesh}, []
        else:
            made = run(to_grd.main, ['--compact', 'a.bdf', '-o', 'b.grd'], {'a.bdf': mesh})[3]
            data, files, nodes = made['b.grd'], {'a.bdf': mesh, 'm': made['b.nodes']}, ['--nodes', 'm']
        listing = program.text_for(data)
        head, *rows = listing.decode('ascii').splitlines()
        figures = [head.split()[at] for at in (5, 7, 9)]
        for way in ([], ['--free']):
            cards = run(to_seqgp.main, way + nodes + ['a.txt', '-o', 'c.bdf'], dict(files, **{'a.txt': listing}))[3]['c.bdf']
            words = ['--independent', next(iter(files)), 'c.bdf', '--figures', *figures, '-o', 'out.txt']
            status, _, err, made = run(from_seqgp.main, words, dict(files, **{'c.bdf': cards}))
            c.equal('from_seqgp: own cards, %s %s' % (name, way), (status, err), (0, ''))
            c.equal('from_seqgp: own numbers, %s %s' % (name, way), [line.split()[1] for line in made['out.txt'].decode('ascii').splitlines()[1:]],
                    [row.split()[1] for row in rows])


def same_as_the_call(c):
    """The words are of the kind that the call refuses, on lists at random; there are none where it accepts or has figures to refuse."""
    rng, by = random.Random(5), engine.Independent()
    mesh = from_seqgp.grd.Mesh(4, [(1, [1, 2]), (1, [2, 3]), (1, [3, 4])])
    places, seen = {p: p for p in range(1, 5)}, set()
    for _ in range(400):
        olds = rng.sample(range(1, 5), rng.randint(0, 4)) + [rng.randint(0, 5)] * (rng.random() < 0.2)
        news = [rng.choice([old, rng.randint(0 if rng.random() < 0.1 else 1, 4)]) for old in olds]
        pairs = [from_seqgp.Pair(Line(i, ('b',)), *pair) for i, pair in enumerate(zip(olds, news))]
        refusal, _, graph = from_seqgp.imported(by, mesh, pairs, places, [1, 3, 2])
        seen.add(refusal)
        wrong, none = list(from_seqgp.wrong_pairs(pairs, places)), list(from_seqgp.no_numbering(pairs, places))
        c.equal('from_seqgp: words and call', refusal, 13 if wrong else 7 if none else refusal if refusal in (0, 14) else None)
        c.equal('from_seqgp: words of a refusal', bool(from_seqgp.faults(by, refusal, graph, pairs, places, [1, 3, 2])), refusal != 0)
    c.equal('from_seqgp: every answer is met', seen, {0, 7, 13, 14})


def outputs(c):
    """Never over a file of another kind, nor over an input."""
    older = 'nodes 1 bandwidth 0 profile 0 front 1\n1 1\n'
    words = ['--independent', 'a.bdf', 'b.bdf', '--figures', *FIGURES, '-o']
    files = {'a.bdf': MESH, 'b.bdf': SMALL, 'old.txt': older, 'other.txt': 'notes\n'}
    c.equal('from_seqgp: over an older one', run(from_seqgp.main, words + ['old.txt'], files)[0], 0)
    c.equal('from_seqgp: over another file', run(from_seqgp.main, words + ['other.txt'], files)[::2],
            (2, 'other.txt: stands there already and is not a numbering of from_seqgp.py; --force writes over it\n'))
    c.equal('from_seqgp: over the cards', run(from_seqgp.main, words + ['b.bdf', '--force'], files)[::2],
            (2, 'b.bdf: is an input (b.bdf), and stays as it is\n'))


def no_library(c):
    """Where the library can't be built it is said so, and nothing is written."""
    path, static = os.environ['PATH'], engine.STATIC
    try:
        os.environ['PATH'], engine.STATIC = '', os.path.join(engine.FOLDER, 'none.a')
        got = run(from_seqgp.main, ['a.bdf', 'b.bdf', '--figures', *FIGURES, '-o', 'out.txt'], {'a.bdf': MESH, 'b.bdf': SMALL})
    finally:
        os.environ['PATH'], engine.STATIC = path, static
    c.equal('from_seqgp: no library', got, (2, '', 'proving and building the library; what was proved before is not proved again\n'
            'the library: it is not built, or older than its sources, and rt is not on the path; --independent takes tests/reference\n', {}))
