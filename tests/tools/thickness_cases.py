"""Where a part is thickest: the sizes of its levels by hand, in words, in the drawing, beside the matrix and on the page."""

import random
import re

from drawing_cases import drawn
from harness import grd_file, run
from page_cases import Reader, made
from picture_cases import random_mesh

import explain
import grd
import picture
import program
import result
import thickness

# Two ends, and three nodes side by side between them: level 3 has 3, 4 and 5.
BULGE = [(1, 2), (2, 3), (2, 4), (2, 5), (3, 6), (4, 6), (5, 6), (6, 7)]
DECK = (''.join('GRID,%d,,%d.,%d.,0.\n' % (10 * p, x, y) for p, (x, y) in enumerate([(0, 0), (1, 0), (2, 1), (2, 0), (2, -1), (3, 0), (4, 0)], 1))
        + ''.join('CROD,%d,1,%d,%d\n' % (i, 10 * p, 10 * q) for i, (p, q) in enumerate(BULGE, 1)))
BRICK = (''.join('GRID,%d,,%d.,%d.,%d.\n' % (p, x, y, z) for p, (x, y, z) in enumerate(
    [(x, y, z) for z in (0, 1) for x, y in ((0, 0), (1, 0), (1, 1), (0, 1))], 1)) + 'CHEXA,1,1,1,2,3,4,5,6,\n,7,8\n')


def cases(c):
    counted(c)
    unknowns(c)
    in_words(c)
    long_parts(c)
    many_parts(c)
    rings(c)
    bars(c)
    pages(c)


def bars_of(*pairs):
    """A mesh of bars, with as many nodes as the highest number says."""
    return grd.Mesh(max(max(pair) for pair in pairs), [(1, list(pair)) for pair in pairs])


def listed(*levels):
    """A listing that keeps the old numbers, with these levels."""
    return result.Result(None, list(range(len(levels) + 1)), [0] + list(levels))


def counted(c):
    """Sizes in order; the first of those that are as thick; a level without a node has size 0."""
    level_of = [0, 2, 1, 2, 3, 3, 5]
    c.equal('thickness: one part', thickness.of_part([1, 2, 3, 4, 5, 6], level_of, [1] * 7), ([1, 2, 2, 0, 1], 2, [1, 3]))
    c.equal('thickness: some nodes', thickness.of_part([2, 4, 5], level_of, [1] * 7), ([1, 0, 2], 3, [4, 5]))
    mesh = bars_of((1, 2), (5, 6))
    c.equal('thickness: two parts, and nodes alone left out', thickness.of_parts(mesh, listed(2, 1, 1, 1, 1, 2)),
            [([1, 1], 1, [2]), ([1, 1], 1, [5])])


def unknowns(c):
    """Sizes in unknowns: a level of few nodes may be the thickest."""
    level_of = [0, 2, 1, 2, 3, 3, 5]
    c.equal('thickness: in unknowns', thickness.of_part([1, 2, 3, 4, 5, 6], level_of, [0, 1, 6, 2, 3, 4, 5]), ([6, 3, 7, 0, 5], 3, [4, 5]))
    c.equal('thickness: one node of many unknowns', thickness.of_part([1, 2, 3, 4, 5, 6], level_of, [0, 1, 6, 1, 1, 1, 1]), ([6, 2, 2, 0, 1], 1, [2]))
    mesh, levels, tens = bars_of(*BULGE), listed(1, 2, 3, 3, 3, 4, 5), [10 * p for p in range(1, 8)]
    c.equal('thickness: a bulge of hinges', thickness.words(mesh._replace(counts=[6, 6, 3, 3, 3, 6, 6]), levels, tens),
            ['thickest at combined level 3 of 5, 9 unknowns at 3 nodes: 30, 40, 50', '  unknowns in each level: 6 6 [9] 6 6'])
    c.equal('thickness: a bulge that is none', thickness.words(mesh._replace(counts=[6, 6, 1, 1, 1, 5, 6]), levels, tens),
            ['thickest at combined level 1 of 5, 6 unknowns at 1 node, the first of 3 such: 10', '  unknowns in each level: [6] 6 3 5 6'])
    two = bars_of((1, 2), (1, 3), (4, 5))._replace(counts=[6, 1, 2, 3, 3])
    c.equal('thickness: two parts in unknowns', thickness.words(two, listed(1, 2, 2, 1, 2), tens),
            ['part 1, 3 nodes with 9 unknowns, thickest at combined level 1 of 2, 6 unknowns at 1 node: 10', '  unknowns in each level: [6] 3',
             'part 2, 2 nodes with 6 unknowns, thickest at combined level 1 of 2, 3 unknowns at 1 node, the first of 2 such: 40',
             '  unknowns in each level: [3] 3'])
    source, got, wanted = random.Random(6), [], []
    for n in range(2, 30):
        mesh = random_mesh(source, n, [source.randint(1, 6) for _ in range(n)])
        answer = result.read(program.text_for(grd.write(mesh)).decode('ascii').splitlines())
        # a part of one node has its own unknowns
        got.append(max([max(one.sizes) for one in thickness.of_parts(mesh, answer)] + mesh.counts))
        wanted.append(max(answer.figures.width, max(mesh.counts)))
    c.equal('thickness: the greatest is the width of tests/reference', got, wanted)


def in_words(c):
    tens = [10 * p for p in range(1, 41)]
    bulge = thickness.words(bars_of(*BULGE), listed(1, 2, 3, 3, 3, 4, 5), tens)
    c.equal("thickness: a bulge, in the source's numbers", bulge,
            ['thickest at combined level 3 of 5, 3 nodes: 30, 40, 50', '  nodes in each level: 1 1 [3] 1 1'])
    two = thickness.words(bars_of((1, 2), (1, 3), (4, 5)), listed(1, 2, 2, 1, 2), tens)
    c.equal('thickness: two parts', two, ['part 1, 3 nodes, thickest at combined level 2 of 2, 2 nodes: 20, 30', '  nodes in each level: 1 [2]',
                                          'part 2, 2 nodes, thickest at combined level 1 of 2, 1 node, the first of 2 such: 40',
                                          '  nodes in each level: [1] 1'])
    c.equal('thickness: no nodes joined', thickness.words(grd.Mesh(2, []), listed(1, 1), tens), [])
    data = grd_file(7, *[(1, p, q) for p, q in BULGE])
    lines = program.text_for(data).decode('ascii').splitlines()
    told = run(lambda _: print('\n'.join(explain.explained('a.grd', lines))), [], {'a.grd': data})[1].splitlines()
    c.equal('explain: the thickest level', told[4:], ['thickest at combined level 3 of 5, 3 nodes: 3 to 5', '  nodes in each level: 1 1 [3] 1 1'])


def long_parts(c):
    """Forty levels are all told; of more the ten thickest, and how many are left out."""
    chain = bars_of(*[(p, p + 1) for p in range(1, 60)])
    forty = thickness.words(chain, listed(*list(range(1, 41)) + [40] * 20), range(1, 61))
    c.equal('thickness: forty levels', forty[1], '  nodes in each level: %s [21]' % ' '.join(['1'] * 39))
    # 45 levels of one node, and more in 7 (4 in all), 30 (3), 31 to 40 (2 each)
    many = thickness.words(chain, listed(*list(range(1, 46)) + [7] * 3 + [30] * 2 + list(range(31, 41))), range(1, 61))
    twos = ', '.join('2 in level %d' % level for level in range(31, 39))
    c.equal('thickness: forty-five levels', many,
            ['thickest at combined level 7 of 45, 4 nodes: 7, 46 to 48',
             '  nodes in the thickest levels: 4 in level 7, 3 in level 30, %s; at most 2 in the other 35' % twos])


def many_parts(c):
    """Eight are told; of the others how many, and the thickest."""
    pairs = [(2 * i - 1, 2 * i) for i in range(1, 10)]
    lines = thickness.words(bars_of(*pairs, (18, 19)), listed(*[1, 2] * 9, 2), range(1, 20))
    c.equal('thickness: nine parts', (len(lines), lines[14], lines[16]),
            (17, 'part 8, 2 nodes, thickest at combined level 1 of 2, 1 node, the first of 2 such: 15',
             'and 1 part more, at most 2 nodes in a level'))


# Drawings.

def ringed(text):
    """Places and radius of the rings."""
    return [tuple(int(word) for word in words) for words in re.findall(r'<circle class="t" cx="(\d+)" cy="(\d+)" r="(\d+)"/>', text)]


def rings(c):
    """Three rings among the levels alone, and their meaning; of a brick those on the faces that are seen; none where no nodes are joined."""
    text = drawn(DECK, '--mesh')[2]
    # 94 pixels to a unit, the middle of 400 by 200
    c.equal('rings: a bulge', ringed(text), [(2000, 60, 80), (2000, 1000, 80), (2000, 1940, 80)])
    title = '>%s</text>'
    c.holds('rings: among the levels',
            text.index(title % 'levels') < text.index('class="t"') < text.rindex('class="t"') < text.index(title % 'parts'))
    c.equal('rings: their meaning', text.count(title % 'thickest level: 3 of 5, 3 nodes'), 1)
    # levels {1} and {2 .. 8}: node 4 is hidden; 2 5 6, 2 3 6 7 and 5 6 7 8 lie on the three faces
    text = drawn(BRICK, '--mesh')[2]
    c.equal('rings: a brick', (len(ringed(text)), len(set(ringed(text))), title % 'thickest level: 2 of 2, 7 nodes' in text), (11, 6, True))
    text = drawn(DECK + 'GRID,80,,0.,1.,0.\nGRID,90,,1.,1.,0.\nGRID,95,,4.,1.,0.\nCROD,20,1,80,90\n', '--mesh')[2]
    c.equal('rings: two parts, and a node alone', (len(ringed(text)), title % 'thickest level of each part: at most 3 nodes' in text), (4, True))
    text = drawn('GRID,1,,0.,0.,0.\nGRID,2,,1.,0.,0.\nCROD,1,1,1,1\n', '--mesh')[2]
    c.equal('rings: no nodes joined', (ringed(text), 'thickest' in text), ([], False))


def bars(c):
    """Beside the new numbers 3 to 5 of 7, and of two parts; the meaning below, once."""
    def bar(*elements):
        data = grd_file(*elements)
        files = {'a.grd': data, 'a.txt': program.text_for(data)}
        text = run(picture.main, ['a.grd', 'a.txt', '-o', 'a.svg'], files)[3]['a.svg'].decode('utf-8')
        return re.findall('<path d="([^"]*)" fill="none" stroke="#1d2b3a" stroke-width="4"/>', text) + re.findall('>(thickest[^<]*)<', text)
    pairs = [(1, p, q) for p, q in BULGE]
    c.equal('bars: a bulge', bar(7, *pairs), ['M473 198.29v171.43M482 540v12', 'thickest level: 3 of 5, 3 nodes'])
    # 50 pixels to a number: a star with levels 1, 2, 3 4, which is turned, so that 3 and 4 have numbers 2 and 1; a chain, thickest at its first node
    c.equal('bars: two parts', bar(8, (1, 1, 2), (1, 2, 3), (1, 2, 4), (1, 5, 6), (1, 6, 7), (1, 7, 8)),
            ['M473 84v100M473 284v50M482 540v12', 'thickest level of each part: at most 2 nodes'])
    c.equal('bars: no nodes joined', bar(2), [])
    # 40 unknowns, 10 pixels each: two nodes of 6 before the three of 4, two of 6 after them, whichever end comes first; then a node alone
    data = grd_file(8, (1, 1, 2), (1, 2, 3), (1, 2, 4), (1, 2, 5), (1, 3, 6), (1, 4, 6), (1, 5, 6), (1, 6, 7), counts=[6, 6, 4, 4, 4, 6, 6, 4])
    text = run(picture.main, ['a.grd', 'a.txt', '-o', 'a.svg'], {'a.grd': data, 'a.txt': program.text_for(data)})[3]['a.svg'].decode('utf-8')
    c.equal('bars: in unknowns', re.findall('<path d="([^"]*)" fill="none" stroke="#1d2b3a" stroke-width="4"/>', text)
            + re.findall('>(thickest[^<]*)<', text), ['M473 204v120M482 540v12', 'thickest level: 3 of 5, 12 unknowns at 3 nodes'])


def pages(c):
    """The same words, the level in the table, the ring and the bar."""
    data = grd_file(8, *[(1, p, q) for p, q in BULGE])
    text = made('a.grd', data, program.text_for(data))[3].decode('utf-8')
    c.equal('page: the thickest level of each part', Reader(text).cells[-21:],
            ['part', 'nodes', 'lowest node', 'new numbers', 'levels', 'width', 'thickest level', '1', '7', '1', '1 to 7', '5', '3', '3',
             '2', '1', '8', '8 to 8', '1', '1', '1'])
    c.holds('page: the thickest level in words', '<p class="told">thickest at combined level 3 of 5, 3 nodes: 3 to 5\n'
            '  nodes in each level: 1 1 [3] 1 1</p>' in text)
    c.holds('page: the bar', 'thickest level: 3 of 5, 3 nodes<' in text)
    data = grd_file(8, *[(1, p, q) for p, q in BULGE], counts=[6, 6, 3, 3, 3, 6, 6, 2])
    text = made('a.grd', data, program.text_for(data))[3].decode('utf-8')
    c.equal('page: the parts in unknowns', Reader(text).cells[-24:],
            ['part', 'nodes', 'unknowns', 'lowest node', 'new numbers', 'levels', 'width in unknowns', 'thickest level',
             '1', '7', '33', '1', '1 to 7', '5', '9', '3', '2', '1', '2', '8', '8 to 8', '1', '2', '1'])
    for words in ('8 nodes, 35 unknowns (1 node with 2, 3 nodes with 3, 4 nodes with 6), 8 elements (bar 8), 2 parts; from a.grd',
                  'bandwidth, profile, front and width count unknowns.', 'thickest at combined level 3 of 5, 9 unknowns at 3 nodes: 3 to 5',
                  'thickest level: 3 of 5, 9 unknowns at 3 nodes<', 'after: new numbers, a row for each unknown<'):
        c.holds('page: ' + words, words in text)
