"""Cases for the program `test_calls`: a call, what it is given and how much it is lent, and what it must answer and leave.

To add a call: a function in crates/test_calls/src/calls.rt, an arm in `run` there in main.rt, a row in CALLS, and its cases in at_node, numbered
or whole.
"""

from collections import namedtuple
from itertools import permutations

import calls
import cuthill_cases
import elements
import idle_cases
import shapes
import store
import worked
from calls import scratch_words
from combined import number_pairs
from count_lists import counted, counts_of, miscounted
from ends import ends_of_part
from examples import GRAPHS
from graph import degree, from_edges, lists_of, part_of, parts_of, pieces_of, rows_of, small_graphs
from measures import profile
from unknowns import MOST, ones, wrong_counts
from vectors import PLACE_PATTERN, answer_text, byte_pattern, changed, number, of_words, pattern, place_pattern, shown, wide_number

# Given lists, a given node (n for the mesh), lengths of what is lent and given figures, 0 where nothing is said. `kind` says what the case is for.
Case = namedtuple('Case', 'kind call starts neighbours counts given node first second third fourth bytes places bandwidth profile front',
                  defaults=(0,) * 9)

# A call: its number in the program, the reference's call, and which of a case's fields it is given and lent, in its order.
Call = namedtuple('Call', 'number reference given lent')

CALLS = {
    'adjacency test': Call(1, calls.adjacency_test, 'starts neighbours', ''),
    'rooted levels': Call(2, calls.rooted_levels, 'starts neighbours node', 'first second'),
    'ends': Call(3, calls.ends, 'starts neighbours node', 'first'),
    'measures': Call(4, calls.measures, 'starts neighbours counts given', 'first'),
    'elimination': Call(5, calls.elimination, 'starts neighbours counts given', 'first bytes'),
    'mesh': Call(6, calls.mesh, 'node given', 'first second third'),
    'combined levels': Call(7, calls.combined_levels, 'starts neighbours node', 'first second'),
    'whole run': Call(8, calls.whole_run, 'starts neighbours counts', 'first second third fourth'),
    'run and eliminate': Call(9, calls.run_and_eliminate, 'starts neighbours counts', 'first second third fourth bytes'),
    'part report': Call(10, calls.part_report, 'starts neighbours counts node', 'first'),
    'reverse Cuthill-McKee': Call(11, calls.reverse_cuthill_mckee, 'starts neighbours counts', 'first second third fourth'),
    'reverse Cuthill-McKee and eliminate': Call(12, calls.cuthill_and_eliminate, 'starts neighbours counts', 'first second third fourth bytes'),
    'store map': Call(13, calls.store_map, 'starts neighbours counts given', 'first second places'),
    'import': Call(14, calls.import_numbering, 'starts neighbours counts given bandwidth profile front', 'first second'),
}

# The calls with the run's buffers.
RUNS = ['whole run', 'reverse Cuthill-McKee', 'run and eliminate']


def fields(c, names):
    return [getattr(c, name) for name in names.split()]


# What the program has room for.
MOST_WORDS = 33000
MOST_GIVEN = 70000
MOST_BYTES = 40000


def encoded(c):
    """The case as the program reads it."""
    assert max(len(c.starts), len(c.neighbours), len(c.counts), c.first, c.second, c.third, c.fourth, c.places) <= MOST_WORDS
    assert len(c.given) <= MOST_GIVEN and c.bytes <= MOST_BYTES
    lists = b''.join(number(len(words)) + of_words(words) for words in (c.starts, c.neighbours, c.counts, c.given))
    lengths = b''.join(number(size) for size in (c.node, c.first, c.second, c.third, c.fourth, c.bytes))
    places = number(c.places) if has_places(c) else b''
    figures = b''.join(wide_number(figure) for figure in (c.bandwidth, c.profile, c.front)) if 'front' in CALLS[c.call].given else b''
    return number(CALLS[c.call].number) + lists + lengths + places + figures


def has_places(c):
    """Whether the call is lent a list of 32 bits: the case then has its length too, and the line its entries behind the answer."""
    return 'places' in CALLS[c.call].lent


def expected(c):
    """The line that the program must write."""
    call, words = CALLS[c.call], ('first', 'second', 'third', 'fourth')
    lent = {name: pattern(getattr(c, name)) for name in words}
    lent['bytes'], lent['places'] = byte_pattern(c.bytes), place_pattern(c.places)
    answer = call.reference(*fields(c, call.given), *[lent[name] for name in call.lent.split()])
    places = shown(changed(lent['places'], PLACE_PATTERN)) if has_places(c) else ''
    return answer_text(answer) + places + ''.join(shown(changed(lent[name])) for name in words) + shown(lent['bytes'])


# Graphs.

def random_graph(draw, n):
    """Of several shapes: trees of neighbouring numbers, strips, blocks, and edges at random; the nodes are named anew."""
    shape = draw.below(4)
    edges = set()
    if shape == 0:
        edges |= {(q - 1 - draw.below(min(3, q - 1)), q) for q in range(2, n + 1) if draw.chance(0.93)}
    elif shape == 1:
        wide = 1 + draw.below(5)
        edges |= {(p, q) for p in range(1, n + 1) for q in (p + 1, p + wide, p + wide + 1) if q <= n and draw.chance(0.9)}
    elif shape == 2:
        size = 2 + draw.below(5)
        edges |= {(p, q) for q in range(2, n + 1) for p in range(max(1, q - size), q) if (p - 1) // size == (q - 1) // size}
        edges |= {(q - size, q) for q in range(size + 1, n + 1) if draw.chance(0.3)}
    for _ in range(draw.below(n + 1)):
        p, q = 1 + draw.below(n), 1 + draw.below(n)
        edges |= {(min(p, q), max(p, q))} if p != q else set()
    name = draw.some(range(1, n + 1), n)
    return from_edges(n, {tuple(sorted((name[p - 1], name[q - 1]))) for p, q in edges})


def lopsided(draw, starts, neighbours):
    """One row holds a node more or less than it should."""
    rows = {p: set(row) for p, row in rows_of(starts, neighbours).items()}
    p, q = 1 + draw.below(len(rows)), 1 + draw.below(len(rows))
    rows[p] ^= {q}
    return lists_of(rows)


def damaged(draw, starts, neighbours):
    """One word of either list is changed, added, removed or exchanged with another."""
    lists = [list(starts), list(neighbours)]
    chosen = draw.one(lists)
    way, at = draw.below(5), draw.below(max(1, len(chosen)))
    if way == 0 and chosen:
        chosen[at] = min(65535, max(0, chosen[at] + draw.one([-1, 1, 3])))
    elif way == 1 and chosen:
        chosen[at] = draw.one([0, 1, len(starts), 32769, 65535])
    elif way == 2 and chosen:
        del chosen[at]
    elif way == 3 and chosen:
        other = draw.below(len(chosen))
        chosen[at], chosen[other] = chosen[other], chosen[at]
    else:
        chosen.insert(at, draw.below(4))
    return tuple(lists)


# Cases on an adjacency. A graph is its two lists and the counts.

def lent(draw, need):
    """A length: short, exact or longer."""
    way = draw.below(10)
    return max(0, need - 1 - draw.below(2)) if way == 0 else need if way < 6 else need + 1 + draw.below(9)


def enough(draw, need):
    """A length: exact or longer."""
    return need + draw.one([0, 0, 1, 1 + draw.below(9)])


def now_and_then(draw, graph):
    """The graph, one time in ten with wrong counts."""
    return miscounted(draw, graph) if draw.chance(0.1) else graph


def at_node(draw, kind, graph, node):
    """The calls that are given a node."""
    n = max(0, len(graph[0]) - 1)
    yield Case(kind, 'rooted levels', *graph, [], node, lent(draw, n), lent(draw, n), 3)
    yield Case(kind, 'ends', *graph, [], node, lent(draw, scratch_words(n)), 3)
    yield Case(kind, 'combined levels', *graph, [], node, lent(draw, n), lent(draw, scratch_words(n)), 3)
    yield Case(kind, 'part report', *now_and_then(draw, graph), [], node, lent(draw, scratch_words(n)), 3)


def wrong_numbering(draw, numbering):
    n = len(numbering)
    at = draw.below(n)
    return draw.one([numbering + [n], numbering[1:], numbering[:at] + [0] + numbering[at + 1:], numbering[:at] + [n + 1] + numbering[at + 1:],
                     numbering[:at] + [numbering[at - 1]] + numbering[at + 1:] if n > 1 else [2], [], numbering[:at] + [65535] + numbering[at + 1:]])


def byte_count(graph, numbering):
    """Mark bytes that a numbering needs, as the reference counts them; 2 where it is none, or the counts are wrong."""
    n = len(graph[0]) - 1
    if sorted(numbering) != list(range(1, n + 1)) or wrong_counts(n, graph[2]):
        return 2
    return store.byte_count(profile(calls.adjoining_of(*graph, numbering)))


def map_lengths(n):
    """What the store map asks for: scratch, first columns and places."""
    return [n, MOST * n, MOST * n + 1]


def store_map(kind, graph, numbering, lengths):
    """The store map with these lengths."""
    scratch, first, places = lengths
    return Case(kind, 'store map', *graph, numbering, 0, scratch, first, 3, places=places)


def numbered(draw, kind, graph, numbering):
    """The calls that are given a numbering."""
    n = len(graph[0]) - 1
    yield Case(kind, 'measures', *now_and_then(draw, graph), numbering, 0, lent(draw, n), 3)
    yield Case(kind, 'elimination', *now_and_then(draw, graph), numbering, 0, lent(draw, n), 3, bytes=lent(draw, byte_count(graph, numbering)))
    yield store_map(kind, now_and_then(draw, graph), numbering, [lent(draw, size) for size in map_lengths(n)])


def run_lengths(graph):
    """What the run asks for: numbers, levels, passes, scratch."""
    n = max(0, len(graph[0]) - 1)
    return [n, n, n, scratch_words(n)]


def run_byte_count(graph, call=calls.whole_run):
    """Mark bytes that the numbers of the run, or of another call with its buffers, need, as the reference counts them."""
    n = len(graph[0]) - 1
    _, figures = call(*graph, pattern(n), pattern(n), pattern(n), pattern(scratch_words(n)))
    return store.byte_count(figures[3])


def one_short(draw, lengths, due):
    """The lengths with one of them a word less than is due."""
    at = draw.below(len(due))
    return lengths[:at] + [due[at] - 1] + lengths[at + 1:]


def runs(draw, kind, graph):
    """The calls with the run's buffers on a legal adjacency, with all that they need; now and then also with one thing short or with wrong counts."""
    need, due = run_byte_count(graph), run_lengths(graph)
    most = [enough(draw, size) for size in due]
    yield Case(kind, 'whole run', *graph, [], 0, *most, 2)
    yield Case(kind, 'reverse Cuthill-McKee', *graph, [], 0, *most, 2)
    yield Case(kind, 'run and eliminate', *graph, [], 0, *most, enough(draw, need))
    if draw.chance(0.3):
        yield Case(kind, 'run and eliminate', *graph, [], 0, *most, max(0, need - 1))
    if draw.chance(0.3):
        yield Case(kind, draw.one(RUNS), *graph, [], 0, *one_short(draw, most, due), enough(draw, need))
    if draw.chance(0.3):
        lengths = one_short(draw, most, due) if draw.chance(0.3) else most
        yield Case(kind, draw.one(RUNS), *miscounted(draw, graph), [], 0, *lengths, enough(draw, need))


def whole(draw, kind, graph):
    """The calls on a legal adjacency alone."""
    yield Case(kind, 'adjacency test', *graph, [], 0, 3, bytes=2)
    yield from runs(draw, kind, graph)


def on_graph(draw, kind, graph, nodes, numberings):
    """All calls on a legal adjacency: at these nodes and at one that is none, with so many numberings and with one that is none."""
    n = len(graph[0]) - 1
    yield from whole(draw, kind, graph)
    for node in list(nodes) + [draw.one([0, n + 1, 65535])]:
        yield from at_node(draw, kind, graph, node)
    same = list(range(1, n + 1))
    for numbering in [same] + [draw.some(same, n) for _ in range(numberings)] + [wrong_numbering(draw, draw.some(same, n))]:
        yield from numbered(draw, kind, graph, numbering)


def on_illegal(draw, graph):
    """Calls on an adjacency that may be illegal, with counts that may be wrong."""
    n = max(0, len(graph[0]) - 1)
    made = [Case('illegal adjacency', 'adjacency test', *graph, [], 0, 3, bytes=2)]
    made += list(at_node(draw, 'illegal adjacency', graph, draw.below(n + 2)))
    made += [Case('illegal adjacency', call, *now_and_then(draw, graph), list(range(1, n + 1)), 0, lent(draw, n), 3, bytes=lent(draw, n))
             for call in ('measures', 'elimination')]
    made.append(store_map('illegal adjacency', now_and_then(draw, graph), list(range(1, n + 1)), [lent(draw, size) for size in map_lengths(n)]))
    made += [Case('illegal adjacency', call, *now_and_then(draw, graph), [], 0, *[lent(draw, size) for size in run_lengths(graph)], lent(draw, n))
             for call in RUNS]
    return [made[0], draw.one(made[1:])]


def small(draw, least, most):
    """All graphs of so many nodes, at every node."""
    for n in range(least, most + 1):
        for lists in small_graphs(n):
            yield from on_graph(draw, '%d nodes' % n, counted(draw, lists), range(1, n + 1), 2)


def some_of_five(draw, count):
    for lists in draw.some(small_graphs(5), count):
        yield from on_graph(draw, '5 nodes', counted(draw, lists), draw.some(range(1, 6), 2), 1)


def every_numbering(draw, least, most):
    """All graphs of so many nodes, eliminated under every numbering, with one unknown or two of each node."""
    for n in range(least, most + 1):
        for lists in small_graphs(n):
            for numbering in permutations(range(1, n + 1)):
                graph = counted(draw, lists, 2)
                yield Case('every numbering', 'elimination', *graph, list(numbering), 0, n, bytes=byte_count(graph, numbering))


# Bytes of a store, about the ends of the eight-byte words that marks are counted by.
STORE_BYTES = (0, 1, 7, 8, 9, 15, 16)


def paths_of(size):
    """Paths whose stores have this many bytes, the last with one place and with eight; one unknown each, and each place is marked."""
    for places in (max(0, 8 * size - 7), 8 * size):
        lists, n = from_edges(*shapes.path(places + 1)), places + 1
        yield (*lists, ones(n)), list(range(1, n + 1))


def of_some_bytes(draw):
    """A random graph: of up to 40 nodes with one unknown each, or of up to 9 with any counts."""
    if draw.chance(0.5):
        n = 1 + draw.below(40)
        return (*random_graph(draw, n), ones(n))
    n = 1 + draw.below(9)
    return (*random_graph(draw, n), counts_of(draw, n))


def stores_of(draw, size, count):
    """Random graphs and numberings whose stores have this many bytes."""
    while count > 0:
        graph = of_some_bytes(draw)
        n = len(graph[2])
        numbering = draw.some(range(1, n + 1), n)
        if byte_count(graph, numbering) == size:
            count -= 1
            yield graph, numbering


def run_of(draw, size):
    """A random graph whose run has a store of this many bytes."""
    while True:
        graph = of_some_bytes(draw)
        if run_byte_count(graph) == size:
            return graph


def store_sizes(draw, count):
    """Stores of each of these sizes; bytes are lent as many as they need, and more, which stay and are not counted."""
    for size in STORE_BYTES:
        kind = 'store of %d bytes' % size
        for made, more in ((paths_of(size), (0, 8)), (stores_of(draw, size, count), (0, 1, 8, 17))):
            for graph, numbering in made:
                for excess in more:
                    yield Case(kind, 'elimination', *graph, numbering, 0, len(numbering), bytes=size + excess)
        graph = run_of(draw, size)
        for excess in (0, 9):
            yield Case(kind, 'run and eliminate', *graph, [], 0, *run_lengths(graph), size + excess)


def at_random(draw, count, nodes):
    """Random graphs of up to 40 nodes, at so many of their nodes."""
    for _ in range(count):
        n = 1 + draw.below(40)
        yield from on_graph(draw, 'random graph', counted(draw, random_graph(draw, n)), draw.some(range(1, n + 1), min(n, nodes)), 2)


def runs_at_random(draw, count):
    """Random graphs of up to 60 nodes: the calls that are given no node."""
    for _ in range(count):
        n = 1 + draw.below(60)
        yield from on_graph(draw, 'random graph', counted(draw, random_graph(draw, n)), [], 1)


def tells(rows, node):
    """Whether the part of a node has two passes, or two pieces to place: where slips and ties show."""
    part = part_of(rows, node)
    found = ends_of_part(rows, part)
    pairs = number_pairs(rows, part, found)
    return found.passes > 1 or len(pieces_of(rows, [z for z in part if pairs[z][0] != pairs[z][1]])) > 1


def telling(draw, count):
    """Random graphs of 6 to 16 nodes that tell."""
    while count > 0:
        n = 6 + draw.below(11)
        lists, node = random_graph(draw, n), 1 + draw.below(n)
        if tells(rows_of(*lists), node):
            count -= 1
            graph = counted(draw, lists)
            yield from at_node(draw, 'telling graph', graph, node)
            yield from draw.some(runs(draw, 'telling graph', graph), 2)


def of_table(draw):
    """The graphs of the table of examples, one for each slip and tie, at every node."""
    for _, _, n, edges in GRAPHS:
        yield from on_graph(draw, 'example', counted(draw, from_edges(n, edges)), range(1, n + 1), 2)


def large(draw, count):
    """Random graphs of 100 to 1,000 nodes at one node; the elimination of the smaller ones, with one unknown each, as the reference is slow."""
    for _ in range(count):
        n = 100 + draw.below(901)
        graph = counted(draw, random_graph(draw, n))
        yield from at_node(draw, 'large graph', graph, 1 + draw.below(n))
        for case in numbered(draw, 'large graph', graph if n > 200 else (*graph[:2], ones(n)), draw.some(range(1, n + 1), n)):
            if case.call != 'elimination' or n <= 200:
                yield case


def of_many_parts(draw):
    """As many parts as there can be, and nearly so: isolated nodes of six unknowns, pairs of any counts, rings of four with one each."""
    isolated, pairs, rings = shapes.many_parts()
    for graph in ((*isolated, [MOST] * 4096), (*pairs, [1 + draw.below(MOST) for _ in range(4096)]), (*rings, ones(4000))):
        yield Case('many parts', 'run and eliminate', *graph, [], 0, *run_lengths(graph), run_byte_count(graph))
        yield Case('many parts', 'reverse Cuthill-McKee', *graph, [], 0, *run_lengths(graph))


def of_full_size(draw):
    """Meshes, trees and paths of about 4,096 nodes; run and eliminate where the program has room for the bytes."""
    kind = 'full size'
    for lists in shapes.full_size(draw):
        n, graph = len(lists[0]) - 1, counted(draw, lists, 2)
        yield from (case for case in whole(draw, kind, graph) if case.bytes <= MOST_BYTES)
        yield from at_node(draw, kind, graph, 1 + draw.below(n))
        yield Case(kind, 'measures', *counted(draw, lists), list(range(1, n + 1)), 0, n)
        yield store_map(kind, counted(draw, lists), list(range(1, n + 1)), map_lengths(n))


# Path 1-3-5, star about 2, node 8, triangle 9-11-12, pair 10-13, path from 14 to 17 and node 18.
SEVERAL = (18, [(1, 3), (3, 5), (2, 4), (2, 6), (2, 7), (9, 11), (9, 12), (11, 12), (10, 13), (14, 15), (15, 16), (16, 17)])


def every_root(draw):
    """A.2: each root of graphs of several parts, isolated nodes among them, and of other graphs, with just enough lent."""
    graphs = [SEVERAL, shapes.path(1), shapes.blocks(4, 1), shapes.blocks(6, 2), shapes.rings_of_four(2), shapes.star(9), shapes.tree(13, 3),
              shapes.renamed(draw, *SEVERAL), shapes.renamed(draw, *shapes.grid(5, 3, False)), shapes.renamed(draw, *shapes.random_tree(draw, 20))]
    for lists in [from_edges(*graph) for graph in graphs] + [random_graph(draw, 1 + draw.below(16)) for _ in range(10)]:
        n = len(lists[0]) - 1
        for root in range(1, n + 1):
            yield Case('every root', 'rooted levels', *lists, [], [], root, n, n)


def level_sizes(draw):
    """A.2: the two lists exact, long and short, with roots and with numbers that are none: 5 comes before 6. Stars from the centre and a leaf."""
    yield from every_root(draw)
    for lists in (from_edges(*SEVERAL), from_edges(*shapes.path(1)), from_edges(*shapes.star(5)), from_edges(*shapes.path(6))):
        n = len(lists[0]) - 1
        lengths = sorted({0, n - 1, n, n + 1, n + 9})
        for root in sorted({0, 1, n, n + 1, 65535}):
            for levels in lengths:
                for sizes in lengths:
                    yield Case('two lists', 'rooted levels', *lists, [], [], root, levels, sizes, 3)
    star = from_edges(*shapes.star(4096))
    for root in (1, 77):
        yield Case('full size', 'rooted levels', *star, [], [], root, 4096, 4096)


def with_scratch(kind, graph, node, length, need):
    """The run, the calls on one part, and run and eliminate, with so many words of scratch and mark bytes and just enough of the rest."""
    n = len(graph[0]) - 1
    yield Case(kind, 'ends', *graph, [], node, length)
    yield Case(kind, 'combined levels', *graph, [], node, n, length)
    yield Case(kind, 'part report', *graph, [], node, length)
    for call in RUNS:
        yield Case(kind, call, *graph, [], 0, n, n, n, length, need)


def scratch_sizes(draw):
    """A.7: 6n words, one less, one more, and the 8n of document 01, of which the last 2n stay; graphs of 1 to 4,096 nodes."""
    graphs = [from_edges(n, edges) for _, _, n, edges in GRAPHS] + [from_edges(*graph) for graph in (
        shapes.path(1), shapes.blocks(5, 1), shapes.path(7), shapes.star(9), shapes.rings_of_four(3), shapes.grid(9, 4, True), shapes.path(4096))]
    for graph in [counted(draw, lists) for lists in graphs]:
        n = len(graph[0]) - 1
        node, need = 1 + draw.below(n), run_byte_count(graph)
        lengths = (('short', 6 * n - 1), ('exact', 6 * n), ('long', 6 * n + 1), ('long', 8 * n))
        for kind, length in lengths if n < 4096 else lengths[::3]:
            yield from with_scratch('%s scratch' % kind, graph, node, length, need)
    # 5 comes before 6 and 15, and other lists that are long don't help
    lists = from_edges(*shapes.path(7))
    for length in (6 * 7 - 1, 5 * 7, 0):
        graph = (*lists, draw.one([ones(7), [0] * 7]))
        for call, first, second in (('ends', length, 0), ('combined levels', 99, length), ('part report', length, 0)):
            yield Case('short scratch', call, *graph, [], draw.one([0, 8, 65535]), first, second)
        for call in RUNS:
            yield Case('short scratch', call, *graph, [], 0, 99, 99, 99, length, 9)


# Connected graphs of one, two and three passes, and which a part of a larger graph may be.
PARTS = [worked.TWO, worked.THREE, shapes.path(1), shapes.path(5), shapes.star(4)]
PARTS += [(len(numbers), edges) for _, edges, *_, numbers in worked.WORKED]


def mixed(draw, parts):
    """A graph of these parts, their nodes anywhere among the old numbers; each keeps the order of its own, and so its passes."""
    owners = [t for t, (size, _) in enumerate(parts) for _ in range(size)]
    owners = draw.some(owners, len(owners))
    nodes = [[p for p, owner in enumerate(owners, 1) if owner == t] for t in range(len(parts))]
    return from_edges(*worked.of_parts(list(zip(parts, nodes))))


def pass_counts(draw, count):
    """A.9: parts of one, two and three passes in one graph, in every order; the list of passes exact, long and short."""
    fixed = [from_edges(*worked.of_parts(parts)) for _, parts, *_ in worked.PASSES]
    for lists in fixed + [mixed(draw, [draw.one(PARTS) for _ in range(2 + draw.below(4))]) for _ in range(count)]:
        graph = counted(draw, lists)
        n, need = len(lists[0]) - 1, run_byte_count(graph)
        for call in ('whole run', 'reverse Cuthill-McKee'):
            yield Case('passes', call, *graph, [], 0, n, n, n, scratch_words(n), 2)
            yield Case('passes', call, *graph, [], 0, n + 1, n, n + 2, scratch_words(n), 2)
            yield Case('short passes', call, *graph, [], 0, n, n, n - 1, scratch_words(n), 2)
        yield Case('passes', 'run and eliminate', *graph, [], 0, n, n, n + 1, scratch_words(n), need)
        yield Case('short passes', 'run and eliminate', *graph, [], 0, n + 3, n, draw.below(n), scratch_words(n), need)


def changes_names(lists):
    """Whether the run changes the names of v and u in some part, so that it starts at another node than reverse Cuthill-McKee."""
    rows = rows_of(*lists)
    ends = [ends_of_part(rows, part) for part in parts_of(rows)]
    return any(degree(rows, found.u) < degree(rows, found.v) for found in ends)


def with_names_changed(draw, count):
    """Random graphs of 7 to 20 nodes."""
    while count > 0:
        lists = random_graph(draw, 7 + draw.below(14))
        if changes_names(lists):
            count -= 1
            yield lists


def with_orders(draw, count):
    """Graphs worked with pencil for A.3, a strip, and such as change names in the run."""
    yield from (from_edges(n, edges) for _, n, edges, *_ in cuthill_cases.WORKED_ORDERS)
    yield from_edges(*shapes.grid(7, 4, True))
    yield from with_names_changed(draw, count)


def cuthill_orders(draw, count):
    """A.3: each of the four lists exact, long and short."""
    for graph in [counted(draw, lists) for lists in with_orders(draw, count)]:
        due = run_lengths(graph)
        yield Case('order', 'reverse Cuthill-McKee', *graph, [], 0, *due)
        yield Case('order', 'reverse Cuthill-McKee', *graph, [], 0, *[size + 1 + draw.below(9) for size in due], 2)
        for at in range(4):
            yield Case('order', 'reverse Cuthill-McKee', *graph, [], 0, *due[:at], due[at] - 1, *due[at + 1:])


def cuthill_stores(draw, count):
    """A.3 and then the elimination: just enough bytes, more, and one less; each of the four lists short; an adjacency that is none; wrong counts."""
    call = 'reverse Cuthill-McKee and eliminate'
    for graph in [counted(draw, lists) for lists in with_orders(draw, count)]:
        due, need = run_lengths(graph), run_byte_count(graph, calls.reverse_cuthill_mckee)
        yield Case('store of an order', call, *graph, [], 0, *due, need)
        yield Case('store of an order', call, *graph, [], 0, *[size + 1 + draw.below(9) for size in due], need + 2)
        yield Case('store of an order', call, *graph, [], 0, *due, max(0, need - 1))
        yield Case('store of an order', call, *graph, [], 0, *one_short(draw, due, due), need)
        yield Case('store of an order', call, *damaged(draw, *graph[:2]), graph[2], [], 0, *due, need)
        yield Case('store of an order', call, *miscounted(draw, graph), [], 0, *due, need)


def connected_graphs(draw, count):
    """Random graphs of 2 to 30 nodes."""
    while count > 0:
        lists = random_graph(draw, 2 + draw.below(29))
        if idle_cases.is_connected(lists):
            count -= 1
            yield lists


def full_stores(draw, count):
    """A.12: the elimination by numbers worked with pencil, with one unknown a node, and by A.3's turned back, on connected graphs, with any counts,
    as the store is full by unknowns too; bytes exact, long and one short."""
    made = [('worked store', (*from_edges(*graph), ones(graph[0])), numbers) for _, graph, numbers, *_ in idle_cases.WORKED_STORES]
    made += [('full store', counted(draw, lists), idle_cases.numbers_before_turning(lists)) for lists in connected_graphs(draw, count)]
    for kind, graph, numbering in made:
        n, need = len(numbering), byte_count(graph, numbering)
        yield Case(kind, 'elimination', *graph, numbering, 0, n, bytes=need)
        yield Case(kind, 'elimination', *graph, numbering, 0, n + 1 + draw.below(9), 3, bytes=need + 1 + draw.below(9))
        if need > 0:
            yield Case(kind, 'elimination', *graph, numbering, 0, n, bytes=need - 1)


def illegal(draw, count):
    for _ in range(count):
        lists = random_graph(draw, 1 + draw.below(9))
        if draw.chance(0.4):
            yield from on_illegal(draw, counted(draw, lopsided(draw, *lists)))
        else:
            lists = damaged(draw, *lists)
            yield from on_illegal(draw, counted(draw, damaged(draw, *lists) if draw.chance(0.3) else lists))


def limits(draw):
    """n and the entries at their limits: lists that are empty, 4,096 and 4,097 nodes, 32,768 and more entries; six unknowns of each of 4,096."""
    kind = 'limits'
    for starts in ([], [0], [5], [0] * 4097, [0] * 4098):
        n = max(0, len(starts) - 1)
        graph, given = (starts, [], ones(n)), list(range(1, n + 1)) if n <= 4096 else []
        yield Case(kind, 'adjacency test', *graph, [], 0)
        yield Case(kind, 'rooted levels', *graph, [], 1, n, n)
        yield Case(kind, 'ends', *graph, [], 1, scratch_words(n))
        yield Case(kind, 'part report', *graph, [], 1, scratch_words(n))
        yield Case(kind, 'measures', *graph, given, 0, n)
        yield Case(kind, 'elimination', *graph, given, 0, n, bytes=byte_count(graph, given))
        yield store_map(kind, graph, given, map_lengths(n))
        for call in RUNS:
            yield Case(kind, call, *graph, [], 0, n, n, n, scratch_words(n))
    six = [MOST] * 4096
    path = from_edges(*shapes.path(4096))
    for root in (1, 2048, 4096):
        yield Case(kind, 'rooted levels', *path, [], [], root, 4096, 4096)
    yield Case(kind, 'ends', *path, [], [], 77, scratch_words(4096) + 2)
    yield Case(kind, 'combined levels', *path, [], [], 77, 4096, scratch_words(4096))
    yield Case(kind, 'part report', *path, six, [], 77, scratch_words(4096))
    yield Case(kind, 'run and eliminate', *path, ones(4096), [], 0, *run_lengths(path), 512)
    yield Case(kind, 'reverse Cuthill-McKee', *path, six, [], 0, *run_lengths(path))
    # the greatest figures: every unknown reaches back to 1
    yield Case(kind, 'measures', *from_edges(*shapes.star(4096)), six, list(range(1, 4097)), 0, 4096)
    ring = from_edges(*shapes.band(4096, 4))
    yield Case(kind, 'adjacency test', *ring, [], [], 0)
    for call in ('whole run', 'reverse Cuthill-McKee'):
        yield Case(kind, call, *ring, ones(4096), [], 0, 4096, 4099, 4096, scratch_words(4096))
    yield Case(kind, 'adjacency test', [0, 32769], [1] * 32769, [], [], 0)


# Cases of the mesh.

def element(draw, n):
    """A kind and its nodes, which may repeat; now and then a wrong kind, or a number that is no node, at one place or at two."""
    kind, *nodes = elements.element(draw, n)
    if draw.chance(0.05):
        kind = draw.one([0, 11, 12, 65535])
    if draw.chance(0.05):
        wrong = draw.one([0, n + 1, 65535])
        for at in draw.some(range(len(nodes)), 1 + draw.below(2)):
            nodes[at] = wrong
    return [kind] + nodes


def meshes(draw, count):
    for _ in range(count):
        n = draw.one([0, 1, 4097, 1 + draw.below(40), 1 + draw.below(40), 1 + draw.below(12), 1 + draw.below(12)])
        words = [word for _ in range(draw.below(8)) for word in element(draw, max(1, n))]
        if words and draw.chance(0.1):
            words = words[:-1 - draw.below(2)]
        yield Case('mesh', 'mesh', [], [], [], words, n, lent(draw, n + 1), lent(draw, 32768), lent(draw, n))


def collapsed_meshes():
    """Elements that have a node more than once, or a number that is no node."""
    for n, made in list(elements.collapsed()) + list(elements.no_node_twice()):
        yield Case('collapsed mesh', 'mesh', [], [], [], sum(made, []), n, n + 1, 32768, n)


def full_meshes():
    """Entry counts about 32,768: 90 to a block of ten, 2 to a pair."""
    for blocks, pairs in ((364, 3), (364, 4), (364, 5), (365, 0)):
        words = [word for b in range(blocks) for word in [10] + list(range(10 * b + 1, 10 * b + 11))]
        words += [word for p in range(pairs) for word in (1, 4000 + 2 * p, 4001 + 2 * p)]
        yield Case('mesh', 'mesh', [], [], [], words, 4096, 4097, 32768, 4096)


def long_meshes():
    """Lists of elements longer than 65,535 words: accepted, and with a fault in the last element; quadrilaterals with one corner twice."""
    bars = [word for i in range(23000) for word in (1, 1 + i % 4095, 2 + i % 4095)]
    quadrilaterals = [word + i % 4094 if at else word for i in range(13500) for at, word in enumerate((3, 1, 2, 3, 1 + i % 3))]
    yield Case('mesh', 'mesh', [], [], [], quadrilaterals, 4096, 4097, 32768, 4096)
    for last in ([1, 1, 3], [1, 3, 3], [1, 3, 4097], [0, 1, 3], [1, 1]):
        yield Case('mesh', 'mesh', [], [], [], bars + last, 4096, 4097, 32768, 4096)
