"""The worked example in section 5 of the 1976 paper (source document 002), and what its section 4 says of trees.

The matrix and the drawings of the graph are lost from the copy. All figures that the text has left are those of one mesh, which stands here: 15
quadrilaterals, with 24 vertices in 6 columns of 4. They are
- the median degree 5, and half the sum of the greatest and the least degree, 5.5;
- the vertices of low degree, numbered 9, 17, 23 and 24, whose level structures 'have a similar form': the corners;
- k = 6, three components, and n, h and l of the first, with h_0 = 7 and l_0 = 4, so that it goes by second numbers;
- a bandwidth less than the width of any rooted level structure.
The numbers of the other vertices are lost, so each check is made under many numberings that give the corners theirs. The last level structure, the
new numbers and the measures stood in drawings only; here they are worked by hand from document 01's steps.
"""

import random
import sys

import calls
from bracket import rooted, sizes_claims
from checking import Checks
from combined import combined_levels, goes_by_first, number_pairs, pieces_in_turn
from ends import ends_of_part
from graph import degree, part_of, rows_of
from levels import depth, level_counts, rooted_levels, width

LONG, WIDE = 6, 4
CORNERS = (9, 17, 23, 24)


def names(rng):
    """Old number of each place (column, row): the corners have theirs, the others any."""
    places = [(x, y) for x in range(LONG) for y in range(WIDE)]
    corners = [(0, 0), (0, WIDE - 1), (LONG - 1, 0), (LONG - 1, WIDE - 1)]
    others = [p for p in range(1, LONG * WIDE + 1) if p not in CORNERS]
    rng.shuffle(others)
    rng.shuffle(corners)
    name = dict(zip(corners, CORNERS))
    name.update(zip([place for place in places if place not in corners], others))
    return name


def example(rng):
    """The two lists, and the column of each vertex counted from that of vertex 9."""
    name = names(rng)
    edges = [(name[a], name[b]) for a in name for b in name if a < b and max(abs(a[0] - b[0]), abs(a[1] - b[1])) == 1]
    column = {name[x, y]: x + 1 for x, y in name}
    if column[9] > 1:
        column = {p: LONG + 1 - column[p] for p in column}
    return calls.from_edges(LONG * WIDE, edges), column


def counts_of(level_of, k=LONG):
    counts = level_counts(level_of, k)
    return [counts[i] for i in range(1, k + 1)]


def degrees(checks, rows):
    sizes = sorted(degree(rows, p) for p in rows)
    least, greatest, median = sizes[0], sizes[-1], sizes[len(sizes) // 2]
    checks.equal('paper: median degree', (sizes[len(sizes) // 2 - 1], median), (5, 5))
    checks.equal('paper: half the sum of the greatest and least degree', (least + greatest) / 2, 5.5)
    low = max(min((least + greatest) / 2, median - 1), least)
    checks.equal('paper: vertices of low degree', [p for p in rows if degree(rows, p) <= low], list(CORNERS))


def corners(checks, lists, bandwidth):
    rows = rows_of(*lists)
    for p in CORNERS:
        checks.equal('paper: levels rooted at %d' % p, counts_of(rooted_levels(rows, p)), [1, 3, 5, 7, 4, 4])
        checks.equal('paper: sizes of the levels rooted at %d' % p, rooted(*lists, p)[2], [1, 3, 5, 7, 4, 4] + [0] * 18)
    checks.holds('paper: bandwidth less than the width of any rooted level structure',
                 all(bandwidth < width(rooted_levels(rows, p)) for p in rows))


def components(checks, rows):
    part = part_of(rows, 1)
    found = ends_of_part(rows, part)
    checks.equal('paper: v, k and passes', (found.v, found.k, found.passes), (9, 6, 1))
    pairs = number_pairs(rows, part, found)
    settled = {z: pairs[z][0] for z in part if pairs[z][0] == pairs[z][1]}
    pieces = pieces_in_turn(rows, [z for z in part if z not in settled])
    checks.equal('paper: components', [len(piece) for piece in pieces], [6, 3, 1])
    first, second = [{**settled, **{z: pairs[z][i] for z in pieces[0]}} for i in (0, 1)]
    checks.equal('paper: n of C_1', counts_of(settled), [1, 2, 3, 4, 3, 1])
    checks.equal('paper: h of C_1', counts_of(first), [1, 3, 5, 7, 3, 1])
    checks.equal('paper: l of C_1', counts_of(second), [4, 4, 4, 4, 3, 1])
    checks.equal('paper: C_1 goes by first numbers', goes_by_first(level_counts(settled, 6), pieces[0], pairs, found), False)
    level_of = combined_levels(rows, part, found)
    checks.equal('paper: C_1 is so placed', {z: level_of[z] for z in pieces[0]}, {z: pairs[z][1] for z in pieces[0]})


def cuthill_mckee(checks, lists, bandwidth):
    """'The bandwidth obtained by a Cuthill-McKee numbering can never be less than the width of the rooted level structure used.'"""
    numbers, levels, passes = [0] * 24, [0] * 24, [0] * 24
    figures = calls.reverse_cuthill_mckee(*lists, calls.ones(24), numbers, levels, passes, [0] * (6 * 24))[1]
    checks.equal('paper: reverse Cuthill-McKee, depth and width', figures[5:], (6, 7))
    checks.holds('paper: its bandwidth is at least the width, and more than ours', bandwidth < 7 <= figures[2] <= 13)
    checks.equal('paper: its levels, those rooted at 9, and its last number', (levels, numbers[8]), (rooted(*lists, 9)[1], 24))


def whole(checks, lists, column):
    """By hand: the columns are the levels. They are numbered one after the other from 9, so neighbours are at most 5 apart, and
    q - f_q is 4 at the head of a column and 5 below, in the first column 0 and 1."""
    numbers, levels, passes = [0] * 24, [0] * 24, [0] * 24
    figures = calls.whole_run(*lists, calls.ones(24), numbers, levels, passes, [0] * (6 * 24))[1]
    checks.equal('paper: figures', figures, (24, 1, 5, 98, 6, 6, 4))
    checks.equal('paper: passes', passes, [1] + [0] * 23)
    checks.equal('paper: levels', levels, [column[p] for p in range(1, 25)])
    checks.equal('paper: the numbers rise with the columns', [column[numbers.index(q) + 1] for q in range(1, 25)], sorted(column.values()))
    return figures[2]


def trees(checks):
    """'For a large class of graphs, including all trees, .. the pseudo-diameter produced is actually a real diameter.'"""
    rng = random.Random(1976)
    for _ in range(300):
        n = rng.randint(1, 30)
        rows = rows_of(*calls.from_edges(n, [(rng.randint(max(1, q - 5), q - 1), q) for q in range(2, n + 1)]))
        checks.equal('a tree: depth', ends_of_part(rows, part_of(rows, 1)).k, max(depth(rooted_levels(rows, p)) for p in rows))


def main():
    checks = Checks('the paper\'s example')
    rng = random.Random(1976)
    for _ in range(100):
        lists, column = example(rng)
        rows = rows_of(*lists)
        degrees(checks, rows)
        components(checks, rows)
        bandwidth = whole(checks, lists, column)
        corners(checks, lists, bandwidth)
        cuthill_mckee(checks, lists, bandwidth)
    sizes_claims(checks, *lists)
    trees(checks)
    return checks.report()


if __name__ == '__main__':
    sys.exit(main())
