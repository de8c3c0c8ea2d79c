"""Cases of request A.6, unknowns per node: lists of counts that are refused, as many unknowns of every node, and parts that their counts turn."""

import calls
import shapes
from calls import scratch_words
from cases import RUNS, SEVERAL, Case, byte_count, map_lengths, random_graph, run_byte_count, run_lengths, store_map, wrong_numbering
from count_lists import all_wrong_counts
from graph import from_edges
from unknowns import MOST, ones
from vectors import pattern


def takes_counts(graph, node, numbering, less=0):
    """The calls that take counts, with just enough words lent, or with so many less, and a byte more than the given numbering needs."""
    n = len(graph[0]) - 1
    words, scratch = n - less, scratch_words(n) - less
    kind, need = 'counts', 1 + byte_count(graph, numbering)
    yield Case(kind, 'part report', *graph, [], node, scratch)
    yield Case(kind, 'measures', *graph, numbering, 0, words)
    yield Case(kind, 'elimination', *graph, numbering, 0, words, bytes=need)
    yield store_map(kind, graph, numbering, [size - less for size in map_lengths(n)])
    for call in RUNS + ['reverse Cuthill-McKee and eliminate']:
        yield Case(kind, call, *graph, [], 0, words, words, words, scratch, need)


def wrong_lists(draw):
    """Every wrong list of counts, with enough lent and with too little, and with a node and a numbering that are none: 5, then 15, then 6 and 7."""
    for lists in (from_edges(*shapes.path(1)), from_edges(*shapes.path(3))):
        n = len(lists[0]) - 1
        same = list(range(1, n + 1))
        for counts in all_wrong_counts(n):
            graph = (*lists, counts)
            yield from takes_counts(graph, 1, same)
            yield draw.one(list(takes_counts(graph, 1, same, 1)))
            yield from list(takes_counts(graph, draw.one([0, n + 1, 65535]), wrong_numbering(draw, same)))[:4]


def as_many_each(draw):
    """One to six unknowns of every node: lone nodes, a pair, several parts, a strip and a star, under their numbers and others."""
    for lists in [from_edges(*graph) for graph in (shapes.path(1), shapes.path(2), SEVERAL, shapes.grid(4, 3, True), shapes.star(6))]:
        n = len(lists[0]) - 1
        for count in range(1, MOST + 1):
            yield from takes_counts((*lists, [count] * n), 1 + draw.below(n), draw.some(range(1, n + 1), n))


def turned_otherwise(lists, counts):
    """Whether some part is turned with these counts and not with one unknown each, or the other way."""
    n = len(counts)
    run = [pattern(n) for _ in range(2)]
    for given, numbers in zip((ones(n), counts), run):
        calls.whole_run(*lists, given, numbers, pattern(n), pattern(n), pattern(scratch_words(n)))
    return run[0] != run[1]


def turned_by_counts(draw, count):
    """Random graphs of 5 to 16 nodes whose counts turn a part or keep it."""
    while count > 0:
        n = 5 + draw.below(12)
        lists, counts = random_graph(draw, n), [1 + draw.below(MOST) for _ in range(n)]
        if turned_otherwise(lists, counts):
            count -= 1
            graph = (*lists, counts)
            yield Case('turned by counts', 'part report', *graph, [], 1 + draw.below(n), scratch_words(n))
            yield Case('turned by counts', 'run and eliminate', *graph, [], 0, *run_lengths(graph), run_byte_count(graph))


def unknowns(draw, count):
    """A.6: wrong counts, as many of every node, and so many graphs that the counts turn."""
    yield from wrong_lists(draw)
    yield from as_many_each(draw)
    yield from turned_by_counts(draw, count)
