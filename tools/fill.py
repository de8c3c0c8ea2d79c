"""Elimination, by document 01: which pairs of unknowns are joined after the last one.

Any two unknowns of a node adjoin the same others, and are joined. So eliminating unknowns joins all those of two nodes or none, and joins just the
nodes that eliminating nodes would join: that is done here, and the unknowns are counted in the end.
"""

from bisect import bisect_right
from itertools import combinations

import figures


def joined(rows):
    """For each number the numbers above it that it is joined to at the end, as bits; rows are neighbours by new number.

    Eliminating i joins all that are above i and joined to it. Instead of each pair, the least of them alone takes on the others: what is
    joined to i passes to the least, and from there, when its turn comes, to the next.
    """
    ends = [0] * len(rows)
    for i in range(1, len(rows)):
        for q in rows[i]:
            if q > i:
                ends[i] |= 1 << q
    for i in range(1, len(rows)):
        if ends[i]:
            least = (ends[i] & -ends[i]).bit_length() - 1
            ends[least] |= ends[i] & ~(1 << least)
    return ends


def bits(word):
    return bin(word).count('1')


def by_count(counts):
    """For each count of unknowns the nodes that have it, as bits."""
    masks = {count: 0 for count in set(counts[1:])}
    for p, count in list(enumerate(counts))[1:]:
        masks[count] |= 1 << p
    return masks


def counts(graph):
    """Pairs of unknowns joined at the end, and those of them that were not joined at first."""
    rows, count = graph
    masks = by_count(count)
    last = sum(count[p] * c * bits(word & mask) for p, word in enumerate(joined(rows)) for c, mask in masks.items())
    first = sum(count[p] * count[q] for p in range(1, len(rows)) for q in rows[p] if p < q)
    return last + sum(c * (c - 1) // 2 for c in count), last - first


def dark_cells(graph, step):
    """Cells below the diagonal, by row of cells, with a pair joined at the end; a cell is `step` rows and columns of unknowns."""
    last = figures.lasts(graph)
    cells = [set() for _ in range(-(-last[-1] // step))]
    # the last node that ends in each cell or before it
    ended = [bisect_right(last, (cell + 1) * step) - 1 for cell in range(len(cells))]
    for p, word in list(enumerate(joined(graph.rows)))[1:]:
        columns = range(last[p - 1] // step, (last[p] - 1) // step + 1)
        for left, right in combinations(range(last[p - 1], last[p]), 2):
            cells[right // step].add(left // step)
        while word:
            q = (word & -word).bit_length() - 1
            final = (last[q] - 1) // step
            for row in range(last[q - 1] // step, final + 1):
                cells[row].update(columns)
            # the others that end in these cells are drawn with it
            word = word >> ended[final] + 1 << ended[final] + 1
    return cells
