"""Store with no idle place (A.12): worked with pencil, under A.3's numbers before turning, and under any that give each but 1 a lower neighbour."""

import random
import sys
from itertools import permutations, product

import calls
from bracket import random_edges, report, run
from checking import Checks
from cuthill_cases import WORKED_ORDERS, by_a_queue, cuthill
from ends import ends_of_part
from graph import parts_of, rows_of
from measures import profile
from store import byte_count
from worked import PASSES, WORKED, of_parts, path

# The smallest connected graph on which the run's own order leaves an idle place, by nodes, then edges, then code (pairs as in A.11); and the
# smallest for reverse Cuthill-McKee as the call hands it. A triangle 1, 2, 3 with 4 on 3, 5 on 2 and 6 on 1. v is 4, u is 5, levels {4}, {3},
# {1, 2}, {5, 6}; in the run {1, 6} goes by first numbers (h = l = 2, equal widths), so it has the same levels. Order 4, 3, 1, 2, 6, 5 has
# profile 8, turned 7.
NET = (6, [(1, 2), (1, 3), (2, 3), (3, 4), (2, 5), (1, 6)])
NET_NUMBERS = [4, 3, 5, 6, 1, 2]

# The smallest where the run leaves idle places without turning, as the profile is 10 both ways. v is 3, u is 5; {2, 6} goes by second numbers
# (h = 3, l = 2), {4} by first (h = l = 3): levels {3, 6}, {1, 2, 4}, {5}. 6 is left in level 1 after 3, and gets 2 with no lower neighbour.
NOT_TURNED = (6, [(1, 2), (1, 3), (1, 4), (3, 4), (1, 5), (2, 5), (1, 6), (2, 6)])
NOT_TURNED_NUMBERS = [4, 5, 1, 3, 6, 2]

# name, (n, edges), numbers, numbers above 1 with no lower neighbour, profile, new, idle pairs, mark bytes
WORKED_STORES = [
    # f is 1, 2, 2, 1: places 2-3; 1-4, 2-4, 3-4. No number has two higher neighbours, so nothing is newly joined: 3 marks of 4.
    ('path 1-4-3-2 by its numbers', (4, [(1, 4), (3, 4), (2, 3)]), [1, 2, 3, 4], [2], 4, 0, [(2, 4)], [0b1011]),
    # By new numbers 1-3, 2-4, 3-4, 3-5, 4-5, 5-6; f is 1, 2, 1, 2, 3, 5. Only 3 has two higher neighbours, 4 and 5, an edge: 6 marks of 7.
    ('the run, and reverse Cuthill-McKee as it is handed', NET, NET_NUMBERS, [2], 7, 0, [(2, 3)], [0b1111101]),
    # By new numbers 1-2, 2-3, 2-4, 3-4, 3-5, 4-6; f is 1, 1, 2, 2, 3, 4. Eliminating 3 joins 4-5, and then 4 joins 5-6: 8 marks of 8.
    ('the same before its turning', NET, [3, 4, 2, 1, 6, 5], [], 8, 2, [], [0b11111111]),
    # By new numbers 1-3, 1-4, 2-4, 2-5, 3-4, 4-5, 4-6, 5-6; f is 1, 2, 1, 1, 2, 4. The two higher neighbours of 1, 2 and 4 adjoin: 8 marks of 10.
    ('the run, not turned', NOT_TURNED, NOT_TURNED_NUMBERS, [2], 10, 0, [(2, 3), (3, 5)], [0b10111101, 0b11]),
    # The premise is not necessary for a full store. Here f is 1, 2, 1, and the two places are edges.
    ('path 1-3-2 by its numbers', (3, [(1, 3), (2, 3)]), [1, 2, 3], [2], 2, 0, [], [0b11]),
    # Nor is a connected graph.
    ('two pairs', (4, [(1, 2), (3, 4)]), [1, 2, 3, 4], [3], 2, 0, [], [0b11]),
    ('two isolated nodes', (2, []), [1, 2], [2], 0, 0, [], []),
    # The ring of the bracket table; A.3's order before turning is 1, 2, 4, 3, and eliminating 1 joins 2-3.
    ('ring before turning', (4, [(1, 2), (2, 3), (3, 4), (4, 1)]), [1, 2, 4, 3], [], 5, 1, [], [0b11111]),
]


# Numbers and their store.

def turned_back(graph, numbers):
    """Numbers before turning: each part has consecutive numbers and is turned end for end within them. Words after the n stay."""
    back = list(numbers)
    for part in parts_of(rows_of(*graph)):
        own = [numbers[p - 1] for p in part]
        ends = min(own) + max(own)
        for p in part:
            back[p - 1] = ends - numbers[p - 1]
    return back


def numbers_before_turning(graph):
    """A.12: "the order of A.3 before its turning"."""
    return turned_back(graph, cuthill(*graph)['numbers'])


def without_lower(graph, numbers):
    """The numbers above 1 that have no neighbour with a lower number."""
    adjoins = calls.adjoining_of(*graph, calls.ones(len(numbers)), numbers)
    return [q for q in range(2, len(numbers) + 1) if all(p > q for p in adjoins[q])]


def is_connected(graph):
    return len(parts_of(rows_of(*graph))) == 1


def store_of(graph, numbers):
    """Profile, marks, new pairs, and the bits of the mark bytes; these are lent in use, and just enough."""
    ones = calls.ones(len(numbers))
    places = profile(calls.adjoining_of(*graph, ones, numbers))
    mark_bytes = [165] * byte_count(places)
    state, value = calls.elimination(*graph, ones, numbers, [7] * len(numbers), mark_bytes)
    if state == 'refused':
        raise AssertionError('the elimination refused %d' % value)
    return (places, *value, [byte >> t & 1 for byte in mark_bytes for t in range(8)])


def idle_pairs(graph, numbers):
    """The pairs whose places are not marked."""
    bits = store_of(graph, numbers)[3]
    return sorted(pair for pair, place in calls.places_of(*graph, calls.ones(len(numbers)), numbers).items() if not bits[place])


# Worked with pencil.

def worked_store(checks, name, graph, numbers, lacking, places, new, idle, mark_bytes):
    graph, ones, scratch, got = calls.from_edges(*graph), calls.ones(len(numbers)), [0] * len(numbers), [165] * len(mark_bytes)
    checks.equal(name + ': numbers without a lower neighbour', without_lower(graph, numbers), lacking)
    checks.equal(name + ': profile', calls.measures(*graph, ones, numbers, scratch)[1][1], places)
    checks.equal(name + ': marks, new', calls.elimination(*graph, ones, numbers, scratch, got), ('accepted', (places - len(idle), new)))
    checks.equal(name + ': mark bytes', got, mark_bytes)
    checks.equal(name + ': idle pairs', idle_pairs(graph, numbers), idle)


def first_idle(call):
    """The first connected graph, by nodes, edges and code, on which the numbers of the call leave an idle place."""
    for n in range(1, 7):
        for graph in sorted(calls.small_graphs(n), key=lambda lists: len(lists[1])):
            if is_connected(graph) and idle_pairs(graph, call(*graph)['numbers']):
                return graph


def worked_numbers(checks):
    """The worked numbers are those of the calls, and no smaller graph will do."""
    net, graph = calls.from_edges(*NET), calls.from_edges(*NOT_TURNED)
    for name, call in (('the run', run), ('reverse Cuthill-McKee', cuthill)):
        checks.equal(name + ': numbers', call(*net)['numbers'], NET_NUMBERS)
        checks.equal(name + ': the first with an idle place', first_idle(call), net)
    checks.equal('before turning: numbers', numbers_before_turning(net), [3, 4, 2, 1, 6, 5])
    checks.equal('the run, not turned: numbers', (run(*graph)['numbers'], report(*graph, 1)[5]), (NOT_TURNED_NUMBERS, 'Forward'))


# What is claimed.

def full(checks, graph, numbers):
    """Every place of the store is marked, and the pairs newly joined are all that have a place and are no edge."""
    places, marks, new, bits = store_of(graph, numbers)
    edges = len(graph[1]) // 2
    checks.equal('marks and new pairs', (marks, new), (places, places - edges))
    checks.equal('every bit of the store is 1, spare bits are 0', bits, [1] * places + [0] * (-places % 8))


def sentence(checks, graph, numbers):
    """A.12: "if .. every number but 1 has a neighbour with a lower number, then .. every place of the store is marked". Whether the premise holds."""
    premise = not without_lower(graph, numbers)
    if premise:
        full(checks, graph, numbers)
    return premise


def alone(graph, numbers, part):
    """A part as a graph of its own, and its numbers from 1 on."""
    rows, name = rows_of(*graph), {p: t for t, p in enumerate(part, 1)}
    own = [numbers[p - 1] for p in part]
    edges = [(name[p], name[q]) for p in part for q in rows[p]]
    return calls.from_edges(len(part), edges), [number - min(own) + 1 for number in own]


def before_turning(checks, graph):
    """A.12: "It applies to the order of A.3 before its turning." Of several parts to each, and then the store of all is full too."""
    rows, numbers, back = rows_of(*graph), cuthill(*graph)['numbers'], numbers_before_turning(graph)
    parts = parts_of(rows)
    for part in parts:
        checks.equal('the order before turning is that of a queue from v', sorted(part, key=lambda p: back[p - 1]),
                     by_a_queue(rows, ends_of_part(rows, part).v))
        checks.holds('a part by itself has the premise', sentence(checks, *alone(graph, back, part)))
    if len(parts) == 1:
        checks.equal('turned back: n + 1 less the number', back, [len(rows) + 1 - number for number in numbers])
    checks.equal('only the lowest number of a part has no lower neighbour', [1] + without_lower(graph, back),
                 sorted(min(back[p - 1] for p in part) for part in parts))
    full(checks, graph, back)


def small_graphs(checks):
    for n in range(1, 6):
        for graph in calls.small_graphs(n):
            before_turning(checks, graph)


def known_graphs(checks):
    """The worked graphs of the run and of reverse Cuthill-McKee, and those of several parts."""
    for n, edges in ([(len(numbers), edges) for _, edges, *_, numbers in WORKED] + [(n, edges) for _, n, edges, *_ in WORKED_ORDERS]
                     + [of_parts(parts) for _, parts, *_ in PASSES]):
        before_turning(checks, calls.from_edges(n, edges))


def hung_together(rng, n, edges):
    """The graph with one more edge from each part to the next."""
    parts = parts_of(rows_of(*calls.from_edges(n, edges)))
    return calls.from_edges(n, edges + [(rng.choice(p), rng.choice(q)) for p, q in zip(parts, parts[1:])])


def random_graphs(checks):
    """As they are drawn, mostly of several parts, and with these hung together."""
    rng = random.Random(12)
    several = 0
    for _ in range(150):
        n = rng.randint(1, 60)
        edges = random_edges(rng, n)
        several += not is_connected(calls.from_edges(n, edges))
        before_turning(checks, calls.from_edges(n, edges))
        before_turning(checks, hung_together(rng, n, edges))
    checks.holds('some have several parts, some are connected', 0 < several < 150)


# Any numbering.

def every_numbering(checks):
    """All numberings of all graphs of up to 4 nodes, and one in seven of those of 5."""
    for n, step, wanted in ((1, 1, 1), (2, 1, 2), (3, 1, 18), (4, 1, 504), (5, 7, None)):
        found = 0
        for code, graph in enumerate(calls.small_graphs(n)):
            chosen = list(permutations(range(1, n + 1)))[code % step::step]
            held = sum(sentence(checks, graph, list(numbers)) for numbers in chosen)
            checks.holds('the premise holds of connected graphs alone', held == 0 or is_connected(graph))
            found += held
        # By new numbers, q has one or more of the q - 1 lower ones as neighbours: 1 * 3 * 7 graphs at 4, each under 4! old numbers.
        if wanted:
            checks.equal('numberings with the premise, of %d nodes' % n, found, wanted)


def every_lower_row(checks):
    """All graphs of 6 nodes with the premise, by new numbers: 1 * 3 * 7 * 15 * 31 of them."""
    n, found = 6, 0
    for masks in product(*[range(1, 2 ** (q - 1)) for q in range(2, n + 1)]):
        edges = [(p, q) for q, mask in enumerate(masks, 2) for p in range(1, q) if mask >> p - 1 & 1]
        found += sentence(checks, calls.from_edges(n, edges), list(range(1, n + 1)))
    checks.equal('graphs of 6 nodes with the premise', found, 9765)


def grown(rng, graph):
    """Numbers by growing a connected set from any node: the next adjoins the oldest that has any left, the newest, or one by chance."""
    rows, way = rows_of(*graph), rng.choice(['oldest', 'newest', 'by chance'])
    order = [rng.randint(1, len(rows))]
    while len(order) < len(rows):
        rim = [q for p in order for q in rows[p] if q not in order]
        order.append(rim[0] if way == 'oldest' else rim[-1] if way == 'newest' else rng.choice(rim))
    return [order.index(p) + 1 for p in rows]


def grown_numberings(checks):
    rng = random.Random(1976)
    for _ in range(200):
        n = rng.randint(1, 60)
        graph = hung_together(rng, n, random_edges(rng, n))
        checks.holds('a grown numbering has the premise', sentence(checks, graph, grown(rng, graph)))


def limits(checks):
    """4,096 nodes with stores that are narrow: a path, a strip with 32,748 entries, no edge at all."""
    n = 4096
    strip = [(p, q) for q in range(2, n + 1) for p in range(max(1, q - 4), q)]
    for edges, lacking in ((path(n)[1], []), (strip, []), ([], list(range(2, n + 1)))):
        graph = calls.from_edges(n, edges)
        back = numbers_before_turning(graph)
        checks.equal('4,096 nodes: numbers without a lower neighbour', without_lower(graph, back), lacking)
        full(checks, graph, back)


def main():
    checks = Checks('store with no idle place')
    for case in WORKED_STORES:
        worked_store(checks, *case)
    for subject in (worked_numbers, small_graphs, known_graphs, random_graphs, every_numbering, every_lower_row, grown_numberings, limits):
        subject(checks)
    return checks.report()


if __name__ == '__main__':
    sys.exit(main())
