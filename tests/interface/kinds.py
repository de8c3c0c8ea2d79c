"""Trials of each kind: the cases of tests/vectors with lists of figures short, exact and long, numbers that sixteen bits can't hold, full size."""

import cases
import counted_cases
import idle_cases
import mapped_cases
import pair_cases
import paper
import shapes
from calls import reverse_cuthill_mckee, scratch_words, whole_run
from cases import CALLS, Case, fields
from count_lists import counted, counts_of
from graph import from_edges, small_graphs
from library import FIGURES
from trials import ALIKE, FILLS, FUNCTIONS, IMPORTED, MAPPED, ONES, PAIRS, STAR, TURNED_BACK, ZEROS, Trial
from unknowns import MOST, ones


def length_of_figures(draw, need):
    """Short, exact or long."""
    way = draw.below(10)
    return draw.below(need + 1) if way == 0 else need if way < 7 else need + 1 + draw.below(5)


def trial(draw, kind, call, given, lent):
    """With lists of figures of this length or that, and lent lists that hold this or that."""
    figures = [length_of_figures(draw, FIGURES[function]) for function in FUNCTIONS[call] if FIGURES[function]]
    return Trial(kind, call, given, lent, figures, draw.below(len(FILLS)))


def of_case(draw, c):
    """The trials of a case. Run and eliminate is here the two calls, then reverse Cuthill-McKee and the elimination, with one scratch or with two;
    reverse Cuthill-McKee and eliminate the second alone."""
    given, lent = fields(c, CALLS[c.call].given), fields(c, CALLS[c.call].lent)
    if c.call in FUNCTIONS:
        yield trial(draw, c.kind, c.call, given, lent)
        return
    n = max(0, len(c.starts) - 1)
    for pair in PAIRS if c.call == 'run and eliminate' else PAIRS[1:]:
        other = None if draw.chance(0.5) else cases.lent(draw, n)
        yield trial(draw, c.kind, pair, given, lent[:4] + [other] + lent[4:])


def every_call(kind, graph, node, numbering, n):
    """All calls on an adjacency, with enough of everything lent. The graph is its two lists and the counts."""
    lists = graph[:2]
    yield Case(kind, 'adjacency test', *lists, [], [], 0)
    yield Case(kind, 'rooted levels', *lists, [], [], node, n, n)
    yield Case(kind, 'ends', *lists, [], [], node, scratch_words(n))
    yield Case(kind, 'combined levels', *lists, [], [], node, n, scratch_words(n))
    yield Case(kind, 'part report', *graph, [], node, scratch_words(n))
    yield Case(kind, 'whole run', *graph, [], 0, n, n, n, scratch_words(n))
    yield Case(kind, 'reverse Cuthill-McKee', *graph, [], 0, n, n, n, scratch_words(n))
    yield Case(kind, 'measures', *graph, numbering, 0, n)
    pairs = [word for pair in enumerate(numbering[:n], 1) for word in pair]
    yield pair_cases.of_pairs(kind, graph, pairs, pair_cases.figures_for(graph, numbering), n, n)
    need = cases.byte_count(graph, numbering) if len(lists[0]) == n + 1 else 2
    yield Case(kind, 'elimination', *graph, numbering, 0, n, bytes=need)
    yield cases.store_map(kind, graph, numbering, cases.map_lengths(n))
    yield Case(kind, 'run and eliminate', *graph, [], 0, n, n, n, scratch_words(n), 40000)


def of_paper(draw, count):
    """The worked example of the 1976 paper, under so many old numbers."""
    for _ in range(count):
        lists, _ = paper.example(draw.source)
        yield from every_call('paper', counted(draw, lists), 1 + draw.below(24), list(range(1, 25)), 24)


def wide():
    """Lengths and words at the limits, and such as sixteen bits would take for small ones."""
    kind = 'wide'
    same, each = list(range(1, 4097)), ones(4096)
    for lists in (([], []), ([0], []), ([65535], [1]), ([0] * 4098, []), ([0] * 65537, []), ([0] * 65539, []), ([0, 0, 0], [1] * 65536),
                  ([0, 1, 2], [2, 1] + [7] * 65536), ([0] * 4097, [1] * 65536), ([65535] * 4097, []), ([0, 65535], [1] * 65535),
                  ([0] + [32768] * 4096, same * 8), ([0, 32769], same * 8 + [1]), ([0, 1, 2], [65535, 1]), ([0, 1, 2], [2, 65535]),
                  ([0] + list(range(1, 4097)), [4096] * 4096)):
        yield from every_call(kind, (*lists, each), 1, same, 4096)
    isolated = ([0] * 4097, [], each)
    yield from every_call(kind, isolated, 4096, same, 4096)
    for node in (0, 4097, 65535):
        yield from every_call(kind, isolated, node, same + [1] * 65536, 4096)
    # the counts of three nodes: as many words as sixteen bits would take for 3, and such as eight bits would take for 1 and 6
    for counts in ([1] * 65539, [1, 1, 1] + [0] * 65536, [257] * 3, [262] * 3, [65535] * 3, [32769] * 3):
        yield from every_call(kind, (*from_edges(*shapes.path(3)), counts), 1, [1, 2, 3], 3)
    # pairs of three nodes: as many words as sixteen bits would take for none, two, six and an even number, all else right
    path = (*from_edges(*shapes.path(3)), ones(3))
    for pairs in ([1, 1] * 32768, [2, 2] + [1, 1] * 32768, [1, 1, 2, 2, 3, 3] + [0] * 65536, [1] * 65537, [3, 3] * 100000):
        yield pair_cases.of_pairs(kind, path, pairs, (1, 2, 2), 3, 3)
    for n in (65536, 65539, 2 ** 32 + 3, 2 ** 63, 2 ** 64 - 1):
        yield Case(kind, 'mesh', [], [], [], [1, 1, 2], n, 4, 32768, 4)
    for words in ([65535], [10, 65535], [1, 65535, 1], [1, 4096, 1] + [65535] * 65535):
        yield Case(kind, 'mesh', [], [], [], words, 4096, 4097, 32768, 4096)


def full_size(draw):
    """Shapes of full size that the reference runs in some seconds: no elimination under old numbers that need a large store. One unknown or two of
    each node."""
    for n, edges in (shapes.grid(64, 64, False), shapes.renamed(draw, *shapes.grid(512, 8, True)), shapes.renamed(draw, *shapes.band(4096, 4)),
                     shapes.random_tree(draw, 4096), shapes.rings_of_four(1024)):
        graph = counted(draw, from_edges(n, edges), 2)
        for c in every_call('full size', graph, 1 + draw.below(n), list(range(1, n + 1)), n):
            if c.bytes <= cases.MOST_BYTES:
                yield c


def pairs(draw, count):
    """Random graphs of up to 40 nodes: the run or reverse Cuthill-McKee, then the elimination, with mark bytes short, exact and long, and now and
    then with wrong counts."""
    for _ in range(count):
        n = 1 + draw.below(40)
        graph = counted(draw, cases.random_graph(draw, n))
        sizes = [cases.enough(draw, size) for size in cases.run_lengths(graph)]
        need = cases.run_byte_count(graph, draw.one([whole_run, reverse_cuthill_mckee]))
        yield Case('random graph', 'run and eliminate', *cases.now_and_then(draw, graph), [], 0, *sizes, cases.lent(draw, need))


def mapped(draw, count):
    """Random graphs of up to 40 nodes: the run, then the store map by its numbers, with one scratch or two; its lists short, exact and long."""
    for _ in range(count):
        n = 1 + draw.below(40)
        graph = counted(draw, cases.random_graph(draw, n))
        sizes = [cases.enough(draw, size) for size in cases.run_lengths(graph)]
        scratch, *lists = [cases.lent(draw, size) for size in cases.map_lengths(n)]
        yield trial(draw, 'random graph', MAPPED, list(cases.now_and_then(draw, graph)), sizes + [None if draw.chance(0.5) else scratch] + lists)


def to_turn_back(draw, count):
    """A.12: all graphs of up to 4 nodes, worked ones, random ones that are connected and such as may have several parts, one of full size."""
    yield from (('%d nodes' % n, lists) for n in range(1, 5) for lists in small_graphs(n))
    yield from (('worked store', from_edges(*graph)) for _, graph, *_ in idle_cases.WORKED_STORES)
    yield from (('connected graph', lists) for lists in cases.connected_graphs(draw, count))
    yield from (('random graph', cases.random_graph(draw, 1 + draw.below(40))) for _ in range(count // 2))
    yield 'full size', from_edges(*shapes.renamed(draw, *shapes.grid(512, 8, True)))


def turned_back(draw, count):
    """Reverse Cuthill-McKee, its numbers turned back, then measures and elimination; mark bytes short, exact and long, one scratch or two. With one
    unknown a node, as A.12 has it, and half of those of up to 40 nodes with any counts."""
    for kind, lists in to_turn_back(draw, count):
        n = len(lists[0]) - 1
        graph = (*lists, counts_of(draw, n) if n <= 40 and draw.chance(0.5) else ones(n))
        need = cases.byte_count(graph, idle_cases.numbers_before_turning(lists))
        sizes = [cases.enough(draw, size) for size in cases.run_lengths(graph)]
        other = None if draw.chance(0.5) else cases.lent(draw, n)
        yield trial(draw, kind, TURNED_BACK, list(graph), sizes + [other, cases.lent(draw, need)])


def imported(draw, count):
    """A.5: the run or reverse Cuthill-McKee, then the import of its numbers with its figures, which is accepted, then the elimination by what that
    gave; one scratch or two, now and then a short list for the import, and mark bytes short, exact and long. One graph of full size."""
    graphs = [counted(draw, lists) for n in range(1, 4) for lists in small_graphs(n)]
    graphs += [counted(draw, cases.random_graph(draw, 1 + draw.below(40))) for _ in range(count)]
    for graph in graphs + [(*from_edges(*shapes.renamed(draw, *shapes.grid(512, 8, True))), ones(4096))]:
        n = len(graph[0]) - 1
        for call, chain in zip((whole_run, reverse_cuthill_mckee), IMPORTED):
            sizes = [cases.enough(draw, size) for size in cases.run_lengths(graph)]
            other = None if draw.chance(0.5) else cases.lent(draw, n)
            lengths = sizes + [other, cases.lent(draw, cases.run_byte_count(graph, call)), 2 * n, cases.lent(draw, n)]
            yield trial(draw, 'full size' if n == 4096 else 'engine made', chain, list(graph), lengths)


def alike_each(draw, lists, c):
    """The numbering calls and the measures with c unknowns of every node; of full size without reverse Cuthill-McKee, under old numbers."""
    n = len(lists[0]) - 1
    graph, sizes, full = [*lists, [c] * n], cases.run_lengths(lists), n == 4096
    yield trial(draw, ALIKE, 'whole run', graph, sizes)._replace(figures=[7])
    if not full:
        yield trial(draw, ALIKE, 'reverse Cuthill-McKee', graph, sizes)._replace(figures=[7])
    numbering = list(range(1, n + 1)) if full else draw.some(range(1, n + 1), n)
    yield trial(draw, ALIKE, 'measures', graph + [numbering], [n])._replace(figures=[3])


def alike(draw, count):
    """A.6: c unknowns of every node, c from 1 to 6: worked and random graphs of up to 30 nodes; six of each of 4,096 isolated nodes and of a path."""
    graphs = [from_edges(*graph) for graph in (shapes.path(1), shapes.path(2), shapes.blocks(3, 1), cases.SEVERAL, shapes.star(6))]
    for lists in graphs + [cases.random_graph(draw, 1 + draw.below(30)) for _ in range(count)]:
        for c in range(1, MOST + 1):
            yield from alike_each(draw, lists, c)
    for lists in (from_edges(*shapes.path(4096)), from_edges(4096, [])):
        yield from alike_each(draw, lists, MOST)


def among_ones(draw, count):
    """Stores of a few bytes where all that is lent holds ones: the bytes behind the store stay so and are not counted."""
    for c in cases.store_sizes(draw, count):
        for made in of_case(draw, c):
            yield made._replace(fill=ONES)


def stars():
    """The largest store of one unknown a node, of 1,048,320 bytes: 4,096 nodes about a centre with number 1; in all the bytes that it needs, in
    more, and in one less. With six unknowns each it needs 36 times as many, and some: too few are lent."""
    lists, numbering = from_edges(*shapes.star(4096)), list(range(1, 4097))
    graph = (*lists, ones(4096))
    need = cases.byte_count(graph, numbering)
    for more, fill in ((0, ZEROS), (1, ONES), (17, ONES)):
        yield Trial(STAR, 'elimination', [*graph, numbering], [4096, need + more], [2], fill)
    yield Trial('star, bytes short', 'elimination', [*graph, numbering], [4096, need - 1], [2], ONES)
    yield Trial('star, bytes short', 'elimination', [*lists, [MOST] * 4096, numbering], [4096, need], [2], ONES)


# All kinds.

def at_random(draw, count):
    """So many of each random kind."""
    yield from cases.telling(draw, count)
    yield from cases.at_random(draw, count // 2, 3)
    yield from cases.runs_at_random(draw, count // 2)
    yield from pairs(draw, 2 * count)
    yield from cases.large(draw, count // 20)
    yield from cases.illegal(draw, 4 * count)
    yield from cases.meshes(draw, 2 * count)
    yield from cases.pass_counts(draw, count // 5)
    yield from cases.cuthill_orders(draw, count // 5)
    yield from counted_cases.turned_by_counts(draw, count // 5)
    yield from mapped_cases.at_random(draw, count // 2)
    yield from pair_cases.at_random(draw, count // 5)


def some(draw, count):
    """What is run in some minutes."""
    for made in (cases.small(draw, 1, 5), cases.of_table(draw), of_paper(draw, 20), at_random(draw, count), cases.limits(draw), wide(),
                 cases.of_many_parts(draw), cases.collapsed_meshes(), cases.full_meshes(), cases.long_meshes(), cases.scratch_sizes(draw),
                 cases.level_sizes(draw), counted_cases.wrong_lists(draw), counted_cases.as_many_each(draw), mapped_cases.maps(draw, count // 5),
                 full_size(draw), pair_cases.small(draw, 4), pair_cases.every_list(draw), pair_cases.every_figure(draw),
                 pair_cases.at_each_place(draw), pair_cases.limits(draw)):
        for c in made:
            yield from of_case(draw, c)
    yield from among_ones(draw, 12)
    yield from stars()
    yield from mapped(draw, count // 2)
    yield from turned_back(draw, count // 2)
    yield from imported(draw, count // 10)
    yield from alike(draw, count // 50)


def more(draw, count):
    """What every further round of a long run adds: random kinds, and full size with the nodes named anew."""
    for made in (cases.some_of_five(draw, count), at_random(draw, count), cases.of_full_size(draw), pair_cases.full_size(draw)):
        for c in made:
            yield from of_case(draw, c)
    yield from among_ones(draw, 12)
    yield from mapped(draw, count // 2)
    yield from turned_back(draw, count // 2)
    yield from imported(draw, count // 10)
    yield from alike(draw, count // 50)
