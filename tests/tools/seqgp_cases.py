"""SEQGP cards: pairs of a grid point's number and its new number, as source document 004 has them, four to a card."""

from harness import grd_file, run

import program
import to_grd
import to_seqgp

SAMPLE = ('nodes 5 parts 1 bandwidth 1 profile 4 front 2 levels 5 width 1 passes 1\n'
          '1 2 2\n2 3 3\n3 4 4\n4 1 1\n5 5 5\n')
SMALL = ('SEQGP          1       2       2       3       3       4       4       1\n'
         'SEQGP          5       5\n')
FREE = 'SEQGP,1,2,2,3,3,4,4,1\nSEQGP,5,5\n'
MAP = '1 10\n2 20\n3 35\n4 40\n5 12345678\n'


def from_columns(card):
    """The numbers of a small-field card, by its columns."""
    fields = [card[at:at + 8] for at in range(8, len(card), 8)]
    if card[:8] != 'SEQGP   ' or len(card) > 72 or any(len(f) != 8 or f != '%8d' % int(f) for f in fields):
        raise ValueError('no card in small field: ' + card)
    return [int(f) for f in fields]


def cards(text):
    """All pairs of the cards; each card but the last has four."""
    rows = [from_columns(line) for line in text.splitlines()]
    if any(len(row) != 8 for row in rows[:-1]) or len(rows[-1]) not in (2, 4, 6, 8):
        raise ValueError('not four pairs to a card')
    return [(row[i], row[i + 1]) for row in rows for i in range(0, len(row), 2)]


def writes(c, name, listing, wanted, *options, files=()):
    status, _, err, made = run(to_seqgp.main, list(options) + ['a.txt', '-o', 'out.bdf'], dict(files, **{'a.txt': listing}))
    c.equal('seqgp: ' + name, (status, err, made.get('out.bdf', b'').decode('ascii')), (0, '', wanted))


def fails(c, name, listing, message, *options, files=()):
    got = run(to_seqgp.main, list(options) + ['a.txt', '-o', 'out.bdf'], dict(files, **{'a.txt': listing}))
    c.equal('seqgp: ' + name, got, (1, '', message + '\n', {}))


def cases(c):
    writes(c, 'small field', SAMPLE, SMALL)
    writes(c, 'free field', SAMPLE, FREE, '--free')
    writes(c, 'with a map', SAMPLE, 'SEQGP         10       2      20       3      35       4      40       1\nSEQGP   12345678       5\n',
           '--nodes', 'm', files={'m': MAP})
    writes(c, 'a listing in UTF-16', b'\xff\xfe' + SAMPLE.replace('\n', '\r\n').encode('utf-16-le'), SMALL)
    writes(c, 'one node', 'nodes 1 parts 1 bandwidth 0 profile 0 front 1 levels 1 width 1 passes 1\n1 1 1\n', 'SEQGP          1       1\n')
    c.equal('seqgp: printed', run(to_seqgp.main, ['a.txt', '-o', 'out.bdf'], {'a.txt': SAMPLE})[1], 'out.bdf: 2 cards, 5 grid points\n')
    whole_way(c)
    listings(c)
    maps(c)


def whole_way(c):
    """A deck with gaps, converted, numbered, and back: every grid point has one pair, and the pairs are the listing's."""
    points = [3 * p + 1 for p in range(1, 31)]
    deck = ''.join('CQUAD4,%d,1,%d,%d,%d,%d\n' % (i, points[i], points[i + 1], points[i + 11], points[i + 10]) for i in range(19) if i % 10 != 9)
    made = run(to_grd.main, ['--compact', 'a.bdf', '-o', 'a.grd'], {'a.bdf': deck})[3]
    listing = program.text_for(made['a.grd'])
    out = run(to_seqgp.main, ['--nodes', 'a.nodes', 'a.txt', '-o', 'b.bdf'], {'a.nodes': made['a.nodes'], 'a.txt': listing})[3]['b.bdf']
    rows = [line.split() for line in listing.decode('ascii').splitlines()[1:]]
    c.equal('seqgp: whole way', cards(out.decode('ascii')), [(points[int(old) - 1], int(new)) for old, new, _ in rows])
    free = run(to_seqgp.main, ['--free', '--nodes', 'a.nodes', 'a.txt', '-o', 'b.bdf'], {'a.nodes': made['a.nodes'], 'a.txt': listing})[3]['b.bdf']
    numbers = [int(word) for line in free.decode('ascii').splitlines() for word in line.split(',')[1:]]
    c.equal('seqgp: free and small field agree', numbers, [number for pair in cards(out.decode('ascii')) for number in pair])


def listings(c):
    """Listings that are none."""
    head = SAMPLE.splitlines()[0]
    refused = program.text_for(grd_file(3, (2, 1, 2, 4))).decode('ascii')
    fails(c, 'refused mesh', refused, 'a.txt:1: the program refused the mesh (10): an element has a node that is 0 or above n')
    fails(c, 'empty', '', "a.txt:1: no listing of the program: its first line begins with 'nodes'")
    fails(c, 'cut', SAMPLE[:-6], 'a.txt:5: 5 nodes announced, 4 rows found')
    fails(c, 'long', SAMPLE + '6 6 6\n', 'a.txt:7: 5 nodes announced, 6 rows found')
    fails(c, 'twice', SAMPLE.replace('4 1 1', '4 2 1'), 'a.txt:5: new number 2 is given twice, first on line 2')
    fails(c, 'above n', SAMPLE.replace('4 1 1', '4 6 1'), 'a.txt:5: new number 6, level 1: the new numbers are 1 to 5, levels start at 1')
    fails(c, 'order', head + '\n2 3 3\n1 2 2\n3 4 4\n4 1 1\n5 5 5\n', 'a.txt:2: old number 1 expected, 2 found')
    fails(c, 'row', SAMPLE.replace('4 1 1', '4 1'), 'a.txt:5: a row has old number, new number and level')
    c.equal('seqgp: no listing', run(to_seqgp.main, ['b.txt', '-o', 'out.bdf'], {}), (1, '', 'b.txt: No such file or directory\n', {}))


def maps(c):
    """Maps that are none."""
    fails(c, 'map too short', SAMPLE, 'm: 4 nodes, and the listing has 5', '--nodes', 'm', files={'m': MAP[:20]})
    fails(c, 'map out of order', SAMPLE, 'm:1: a line has a GRD number, rising from 1, and the number in the input', '--nodes', 'm',
          files={'m': '2 10\n'})
    fails(c, 'map with a number twice', SAMPLE, 'm: a number stands twice', '--nodes', 'm', files={'m': MAP.replace('20', '10')})
    wide = {'m': MAP.replace('12345678', '123456789')}
    fails(c, 'nine digits', SAMPLE, 'a.txt: a number has more than 8 digits: use --free', '--nodes', 'm', files=wide)
    writes(c, 'nine digits in free field', SAMPLE, 'SEQGP,10,2,20,3,35,4,40,1\nSEQGP,123456789,5\n', '--free', '--nodes', 'm', files=wide)
