"""Cases of the store map: each of its three lists exact, long and short, every numbering of small graphs, wrong ones, and the greatest stores."""

from itertools import permutations

import map_cases
import shapes
from cases import SEVERAL, map_lengths, random_graph, store_map, wrong_numbering
from count_lists import all_wrong_counts, counted, counts_of
from graph import from_edges, small_graphs
from unknowns import MOST, ones


def worked(draw):
    """Those worked with pencil, in lists exact and long."""
    for _, counts, edges, numbering, *_ in map_cases.WORKED:
        graph = (*from_edges(len(counts), edges), counts)
        due = map_lengths(len(counts))
        yield store_map('worked map', graph, numbering, due)
        yield store_map('worked map', graph, numbering, [size + 1 + draw.below(9) for size in due])


def every_numbering(draw, most):
    """All graphs of up to so many nodes under every numbering."""
    for n in range(1, most + 1):
        for lists in small_graphs(n):
            for numbering in permutations(range(1, n + 1)):
                yield store_map('every map', counted(draw, lists), list(numbering), map_lengths(n))


def lists_of_each_length(draw):
    """Each of the three lists a word short, empty, exact and longer; as many as these counts need are short. 5 comes before 15 and 7."""
    for lists in (from_edges(*shapes.path(1)), from_edges(*shapes.path(3)), from_edges(*SEVERAL)):
        n = len(lists[0]) - 1
        due, same, sum_of = map_lengths(n), list(range(1, n + 1)), counts_of(draw, n)
        for counts, numbering in ((sum_of, same), (ones(n), same), ([MOST] * n, draw.some(same, n)), ([0] * n, same), (ones(n), [0] * n), ([], [])):
            graph = (*lists, counts)
            for at in range(3):
                for length in (due[at] - 1, 0, due[at], due[at] + 1):
                    yield store_map('lists of a map', graph, numbering, due[:at] + [length] + due[at + 1:])
            used = sum(counts)
            yield store_map('lists of a map', graph, numbering, [n, used, used + 1])


def refused(draw):
    """Every wrong list of counts, then wrong numberings: 15, then 7, which clears the scratch."""
    for lists in (from_edges(*shapes.path(1)), from_edges(*shapes.path(4))):
        n = len(lists[0]) - 1
        same = list(range(1, n + 1))
        for counts in all_wrong_counts(n):
            for numbering in (same, wrong_numbering(draw, same)):
                yield store_map('refused map', (*lists, counts), numbering, map_lengths(n))
        for _ in range(20):
            yield store_map('refused map', counted(draw, lists), wrong_numbering(draw, draw.some(same, n)), [size + 2 for size in map_lengths(n)])


def at_random(draw, count):
    """Random graphs of up to 60 nodes under random numbers."""
    for _ in range(count):
        n = 1 + draw.below(60)
        graph = counted(draw, random_graph(draw, n))
        yield store_map('random map', graph, draw.some(range(1, n + 1), n), [size + draw.below(3) for size in map_lengths(n)])


def greatest(draw):
    """4,096 nodes, six unknowns of each: alone, on a path, and about a centre with number 1 or 4,096; mixed counts; one list short."""
    due, same, six = map_lengths(4096), list(range(1, 4097)), [MOST] * 4096
    star = from_edges(*shapes.star(4096))
    for lists in (from_edges(4096, []), from_edges(*shapes.path(4096)), star):
        yield store_map('greatest map', (*lists, six), same, due)
    yield store_map('greatest map', (*star, six), same[::-1], [size + 1 for size in due])
    yield store_map('greatest map', (*star, [1 + draw.below(MOST) for _ in same]), draw.some(same, 4096), due)
    for at in range(3):
        yield store_map('greatest map', (*star, ones(4096)), same, due[:at] + [due[at] - 1] + due[at + 1:])


def maps(draw, count):
    """All of these, with so many random ones."""
    for made in (worked(draw), every_numbering(draw, 3), lists_of_each_length(draw), refused(draw), at_random(draw, count), greatest(draw)):
        yield from made
