"""Cases of request A.5, numberings from other tools: lists of pairs that give a numbering and such as do not, figures, lent lists, full size."""

import calls
import shapes
from calls import scratch_words
from cases import Case, damaged, enough, lent, now_and_then, random_graph
from count_lists import counted
from graph import from_edges, small_graphs
from unknowns import MOST, ones
from vectors import pattern

CALL = 'import'


def of_pairs(kind, graph, pairs, figures, numbers, scratch, third=0):
    """A case over the two lists and the counts, with so many words lent for the numbers and for the scratch."""
    return Case(kind, CALL, *graph, pairs, 0, numbers, scratch, third, bandwidth=figures[0], profile=figures[1], front=figures[2])


# Pairs and figures.

def pairs_for(draw, numbers, kept=0.5):
    """The pairs of a numbering in any order; of the nodes that keep their number so many are listed."""
    pairs = [pair for pair in enumerate(numbers, 1) if pair[0] != pair[1] or draw.chance(kept)]
    return [word for pair in draw.some(pairs, len(pairs)) for word in pair]


def figures_for(graph, numbers):
    """Those of the measures, or zeros where they refuse."""
    state, value = calls.measures(*graph, numbers, pattern(len(graph[0])))
    return value if state == 'accepted' else (0, 0, 0)


def spoilt(draw, n, pairs):
    """One word changed, added or taken away, a pair again, the two numbers of a pair exchanged, or a pair left out; it may still be good."""
    at, word = draw.below(max(1, len(pairs))), draw.one([0, 1, n, n + 1, 1 + draw.below(max(1, n)), 65535])
    even = at - at % 2
    return draw.one([pairs[:at] + [word] + pairs[at + 1:], pairs[:at] + [word] + pairs[at + 1:], pairs + [word], pairs[1:], pairs[:-1],
                     pairs + pairs[even:even + 2], pairs[even:even + 2] + pairs, pairs[:even] + pairs[even:even + 2][::-1] + pairs[even + 2:],
                     pairs[:even] + pairs[even + 2:]])


def wrong_figures(figures):
    """Each figure one more and one less, and larger by what 16, 32 and 63 bits hold."""
    for at in range(3):
        for change in (1, -1, 2 ** 16, 2 ** 32, 2 ** 63):
            # one less than 0 is all ones
            yield [(figure + change) % 2 ** 64 if i == at else figure for i, figure in enumerate(figures)]
    yield [2 ** 64 - 1] * 3
    yield [0, 0, 0]


def engine_numbers(graph, call):
    """The numbers that the run or reverse Cuthill-McKee makes, and its three measures."""
    n = len(graph[0]) - 1
    numbers = pattern(n)
    _, figures = call(*graph, numbers, pattern(n), pattern(n), pattern(scratch_words(n)))
    return numbers, figures[2:5]


# Cases.

def engine_made(draw, kind, graph):
    """A.5: "A numbering that our engine made is accepted with the engine's figures", handed in any order, with and without the kept nodes."""
    n = len(graph[0]) - 1
    for call in (calls.whole_run, calls.reverse_cuthill_mckee):
        numbers, figures = engine_numbers(graph, call)
        yield of_pairs(kind, graph, pairs_for(draw, numbers, draw.one([0, 0.5, 1])), figures, enough(draw, n), enough(draw, n), 3)


def on_graph(draw, kind, graph):
    """A numbering of any kind, with all that it needs; then with one thing or another wrong."""
    n = len(graph[0]) - 1
    same = list(range(1, n + 1))
    numbers = draw.one([same, same[::-1], draw.some(same, n)])
    pairs, figures = pairs_for(draw, numbers), figures_for(graph, numbers)
    yield of_pairs(kind, graph, pairs, figures, enough(draw, n), enough(draw, n), 3)
    yield of_pairs(kind, graph, spoilt(draw, n, pairs), figures, enough(draw, n), enough(draw, n))
    yield of_pairs(kind, graph, pairs, draw.one(list(wrong_figures(figures))), enough(draw, n), enough(draw, n))
    if draw.chance(0.3):
        yield of_pairs(kind, now_and_then(draw, graph), spoilt(draw, n, pairs), figures, lent(draw, n), lent(draw, n))


def small(draw, most):
    """All graphs of up to so many nodes."""
    for n in range(1, most + 1):
        for lists in small_graphs(n):
            graph = counted(draw, lists)
            yield from engine_made(draw, '%d nodes' % n, graph)
            yield from on_graph(draw, '%d nodes' % n, graph)


def at_random(draw, count):
    """Random graphs of up to 40 nodes, and such as are damaged."""
    for _ in range(count):
        lists = random_graph(draw, 1 + draw.below(40))
        graph, n = counted(draw, lists), len(lists[0]) - 1
        yield from engine_made(draw, 'random graph', graph)
        yield from on_graph(draw, 'random graph', graph)
        broken = counted(draw, damaged(draw, *lists))
        yield of_pairs('illegal adjacency', broken, pairs_for(draw, list(range(1, n + 1))), (0, 0, 1), lent(draw, n), lent(draw, n))


# For three nodes: 13, then 7, then such as are good.
LISTS = [[1], [0], [1, 1, 2], [0, 1], [4, 4], [65535, 1], [2, 2, 2, 2], [1, 2, 2, 1, 1, 2], [1, 2, 1, 3], [1, 0, 1, 0], [3, 1, 1, 2, 2, 3, 3, 1],
         [1, 1] * 100, [257, 1],
         [1, 0], [3, 4], [3, 65535], [1, 257], [1, 2, 2, 2], [1, 2, 2, 1, 3, 1], [1, 3], [1, 3, 2, 2], [1, 2, 2, 3], [2, 3, 3, 1],
         [], [2, 2], [1, 3, 3, 1], [2, 3, 3, 2], [1, 2, 2, 3, 3, 1], [3, 1, 2, 3, 1, 2], [3, 3, 1, 1, 2, 2]]


def every_list(draw):
    """Each of these lists of the path 1-2-3, with figures that are right and wrong; then with each refusal that comes before."""
    lists = from_edges(*shapes.path(3))
    for pairs in LISTS:
        numbers = [1, 2, 3]
        for old, new in zip(pairs[::2], pairs[1::2]):
            numbers = [new if p == old else number for p, number in enumerate(numbers, 1)]
        for counts in (ones(3), [2, 6, 3]):
            graph = (*lists, counts)
            right = figures_for(graph, numbers)
            for figures in (right, [9, 9, 9]):
                yield of_pairs('pairs', graph, pairs, figures, 3, 3)
                yield of_pairs('pairs', graph, pairs, figures, 5, 4, 3)
        yield of_pairs('pairs', (*lists, draw.one([[1, 0, 1], [7, 1, 1], [1, 1], [1] * 4, [], [257] * 3])), pairs, [9, 9, 9], 3, 3)
        yield of_pairs('pairs', (*lists, draw.one([[], ones(3)])), pairs, [9, 9, 9], *draw.one([(2, 3), (3, 2), (0, 9), (9, 0)]))


def every_figure(draw):
    """Graphs of one node and of more, one unknown each and more: each figure wrong in each way."""
    for lists in (from_edges(*shapes.path(1)), from_edges(*shapes.path(2)), from_edges(*shapes.star(6)), from_edges(*shapes.grid(4, 3, True))):
        n = len(lists[0]) - 1
        for counts in (ones(n), [MOST] * n, [1 + p % MOST for p in range(n)]):
            graph, numbers = (*lists, counts), draw.some(range(1, n + 1), n)
            pairs, figures = pairs_for(draw, numbers), figures_for(graph, numbers)
            for wrong in [figures] + list(wrong_figures(figures)):
                yield of_pairs('figures', graph, pairs, wrong, n, n)


def at_each_place(draw):
    """A path of 12 nodes turned end for end: one old number is another's, at each place, and one new number; the list one word longer and shorter."""
    n = 12
    graph, figures = (*from_edges(*shapes.path(n)), ones(n)), (1, n - 1, 2)
    turned = [word for p in range(1, n + 1) for word in (p, n + 1 - p)]
    for at in range(2 * n):
        yield of_pairs('places', graph, turned[:at] + [draw.one([0, n + 1, turned[(at + 2) % (2 * n)]])] + turned[at + 1:], figures, n, n)
    for pairs in (turned, turned + turned[:2], turned[-2:] + turned, turned[:-2] + turned[:2], turned[:-1], turned[1:], turned + [1]):
        yield of_pairs('places', graph, pairs, figures, n, n)


def limits(draw):
    """4,096 nodes: no pair, all of them, one more; the greatest figures that there are; and n that is none."""
    n, kind = 4096, 'limits'
    same = list(range(1, n + 1))
    path, star = from_edges(*shapes.path(n)), from_edges(*shapes.star(n))
    turned = [word for p in draw.some(same, n) for word in (p, n + 1 - p)]
    six = (11, 36 * (n - 1) + 15 * n, 12)
    yield of_pairs(kind, (*path, [MOST] * n), turned, six, n, n + 1)
    yield of_pairs(kind, (*path, [MOST] * n), turned, (11, six[1] + 2 ** 32, 12), n, n)
    yield of_pairs(kind, (*path, ones(n)), turned + turned[:2], (1, n - 1, 2), n, n)
    yield of_pairs(kind, (*path, ones(n)), turned[:-1] + [n + 1], (1, n - 1, 2), n, n)
    yield of_pairs(kind, (*star, [MOST] * n), [n, n], (24575, 24576 * 24575 // 2, 24576), n, n)
    yield of_pairs(kind, (*path, ones(n)), [], (1, n - 1, 2), n - 1, n)
    for starts in ([], [0], [0] * 4098):
        n = max(0, len(starts) - 1)
        yield of_pairs(kind, (starts, [], ones(n)), [], (0, 0, 1), n, n)


def full_size(draw):
    """Meshes and trees of about 4,096 nodes: what the engine makes, and a numbering at random."""
    for n, edges in (shapes.renamed(draw, *shapes.grid(512, 8, True)), shapes.random_tree(draw, 4096), shapes.rings_of_four(1024)):
        graph = counted(draw, from_edges(n, edges), 2)
        yield from engine_made(draw, 'full size', graph)
        yield from on_graph(draw, 'full size', (*graph[:2], ones(n)))


def imports(draw, count):
    """A.5: what the gate runs."""
    yield from small(draw, 3)
    yield from at_random(draw, count)
    yield from every_list(draw)
    yield from every_figure(draw)
    yield from at_each_place(draw)
    yield from limits(draw)
