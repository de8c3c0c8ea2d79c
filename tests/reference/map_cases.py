"""The store map: worked with pencil; the place of every pair by its two lists; the same in other ways; refusals, what is left, limits."""

import random
import sys

import calls
from bracket import SAMPLE_EDGES, random_edges, run
from checking import Checks
from count_cases import WRONG_COUNTS
from cuthill_cases import cuthill
from graph import rows_of
from refusals import BROKEN_LISTS, OLD, PATH, answer_and_buffers, any_words, untouched, words
from unknown_cases import RING, as_nodes, measures_by_nodes
from worked import star_edges

# 32 bits, which no word holds.
OLD_PLACE = 4000000000

# name, counts, edges, numbering, f of each row, s of each row and the profile
WORKED = [
    ('one node of one', [1], [], [1], [1], [0, 0]),
    # Six unknowns that adjoin: rows of 0, 1, .. 5 places.
    ('one node of six', [6], [], [1], [1] * 6, [0, 0, 1, 3, 6, 10, 15]),
    ('two isolated nodes', [2, 3], [], [1, 2], [1, 1, 3, 3, 3], [0, 0, 1, 1, 2, 4]),
    # The three come first.
    ('two isolated nodes, numbered otherwise', [2, 3], [], [2, 1], [1, 1, 1, 4, 4], [0, 0, 1, 3, 3, 4]),
    ('a pair', [3, 6], [(1, 2)], [1, 2], [1] * 9, [0, 0, 1, 3, 6, 10, 15, 21, 28, 36]),
    # Node 2 has 1, 2, 3, node 3 has 4, 5, node 1 has 6: counts go by old number, rows by new.
    ('a pair and a node', [1, 3, 2], [(1, 2)], [3, 1, 2], [1, 1, 1, 4, 4, 1], [0, 0, 1, 3, 3, 4, 9]),
    ('path, six in the middle', [1, 6, 1], [(1, 2), (2, 3)], [1, 2, 3], [1] * 7 + [2], [0, 0, 1, 3, 6, 10, 15, 21, 27]),
    # By nodes 1, 2, 4, 3: 1; 2, 3; 4; 5, 6, 7. Node 4 reaches back to 1, node 3 to 2.
    ('ring', [1, 2, 3, 1], RING, [1, 2, 4, 3], [1, 1, 1, 1, 2, 2, 2], [0, 0, 1, 3, 6, 9, 13, 18]),
    # Node 4 has 1, node 3 has 2, the centre 3 to 8, node 2 has 9. Row 2 has no place, so rows 2 and 3 begin at the same.
    ('star, six in the centre', [6, 1, 1, 1], star_edges(4), [3, 4, 2, 1], [1, 2, 1, 1, 1, 1, 1, 1, 3], [0, 0, 0, 2, 5, 9, 14, 20, 27, 33]),
    # Document 01: "Edges 1-2, 1-4, 2-3, 3-5 under numbers 1 to 5: .. profile 7", one each; rows 0, 1, 1, 3, 2.
    ('the graph of the sample, one each', [1] * 5, SAMPLE_EDGES, [1, 2, 3, 4, 5], [1, 1, 2, 1, 3], [0, 0, 1, 2, 5, 7]),
    ('the graph of the sample', [2, 1, 1, 3, 1], SAMPLE_EDGES, [1, 2, 3, 4, 5], [1, 1, 1, 3, 1, 1, 1, 4], [0, 0, 1, 3, 4, 8, 13, 19, 23]),
]


def lent(n, more=0):
    """Scratch, first and place, each longer than it must be by so many."""
    return [words(n + more), words(6 * n + more), [OLD_PLACE] * (6 * n + 1 + more)]


def left(n, first, place, more=0):
    """What an accepted call leaves in these."""
    scratch, firsts, places = lent(n, more)
    return [[0] * n + scratch[n:], first + firsts[len(first):], place + places[len(place):]]


def mapped(graph, counts, numbering):
    """f and s of an accepted call, without what it leaves behind them."""
    scratch, first, place = lent(len(counts))
    state, value = calls.store_map(*graph, counts, numbering, scratch, first, place)
    if state == 'refused':
        raise AssertionError('the map refused %d' % value)
    return first[:sum(counts)], place[:sum(counts) + 1]


# Worked with pencil.

def worked(checks):
    for name, counts, edges, numbering, first, place in WORKED:
        n = len(counts)
        for more in (0, 1, 7 * n):
            answer_and_buffers(checks, '%s, %d more lent' % (name, more), calls.store_map, [*calls.from_edges(n, edges), counts, numbering],
                               lent(n, more), ('accepted', (place[-1], len(first))), left(n, first, place, more))


# What the two lists are for.

def pairs_claims(checks, graph, counts, numbering):
    """Each pair p < q with p >= f_q has place s_q + p - f_q, no other has one, the places are 0 up to the profile, and by them the marks stand."""
    first, place = mapped(graph, counts, numbering)
    unknowns, profile = len(first), place[-1]
    pairs = {(p, q): place[q - 1] + p - first[q - 1] for q in range(1, unknowns + 1) for p in range(first[q - 1], q)}
    checks.equal('unknowns', unknowns, sum(counts))
    checks.equal('place of each pair', pairs, calls.places_of(*graph, counts, numbering))
    checks.equal('each place once', sorted(pairs.values()), list(range(profile)))
    mark_bytes = [0] * ((profile + 7) // 8)
    checks.equal('elimination', calls.elimination(*graph, counts, numbering, [0] * len(counts), mark_bytes)[0], 'accepted')
    joined = calls.joined_after(*graph, counts, numbering, unknowns)
    checks.holds('every joined pair has a place', joined <= set(pairs))
    checks.equal('marks by the map', {pair for pair, t in pairs.items() if mark_bytes[t // 8] >> t % 8 & 1}, joined)


def by_nodes(graph, counts, numbering):
    """f and s by sums over nodes."""
    rows, number = rows_of(*graph), dict(enumerate(numbering, 1))
    ahead = {p: sum(counts[q - 1] for q in rows if number[q] < number[p]) for p in rows}
    first, place = [], [0]
    for p in sorted(rows, key=number.get):
        least = 1 + min(ahead[q] for q in [p, *rows[p]])
        for q in range(ahead[p] + 1, ahead[p] + counts[p - 1] + 1):
            first.append(least)
            place.append(place[-1] + q - least)
    return first, place


def same_in_other_ways(checks, graph, counts, numbering):
    first, place = got = mapped(graph, counts, numbering)
    numbers = range(1, len(first) + 1)
    checks.equal('by nodes', got, by_nodes(graph, counts, numbering))
    of_unknowns, numbers_of = as_nodes(graph, counts, numbering)
    checks.equal('unknowns as nodes', got, mapped(of_unknowns, calls.ones(len(first)), numbers_of))
    front = max(sum(1 for j in numbers if j >= i >= first[j - 1]) for i in numbers)
    measures = max(q - f for q, f in zip(numbers, first)), place[-1], front
    checks.equal('bandwidth, profile and front by the map', measures, measures_by_nodes(graph, counts, numbering))
    checks.equal('measures', measures, calls.measures(*graph, counts, numbering, [0] * len(counts))[1])


def equal_counts(checks, graph, numbering, c):
    """All counts c: of each node's row c rows, with the same first, c times as far back."""
    n = len(numbering)
    first, _ = mapped(graph, calls.ones(n), numbering)
    wide = [c * (f - 1) + 1 for f in first for _ in range(c)]
    place = [sum(r - f for r, f in enumerate(wide[:q], 1)) for q in range(c * n + 1)]
    checks.equal('all %d' % c, mapped(graph, [c] * n, numbering), (wide, place))


def all_claims(checks, rng, graph, counts):
    n = len(counts)
    for numbering in (list(range(1, n + 1)), rng.sample(range(1, n + 1), n), run(*graph, counts)['numbers'], cuthill(*graph, counts)['numbers']):
        pairs_claims(checks, graph, counts, numbering)
        same_in_other_ways(checks, graph, counts, numbering)
        equal_counts(checks, graph, numbering, rng.randint(1, 6))


def small_graphs(checks):
    """All graphs of up to 4 nodes."""
    rng = random.Random(25)
    for n in range(1, 5):
        for graph in calls.small_graphs(n):
            all_claims(checks, rng, graph, [rng.randint(1, 6) for _ in range(n)])


def random_graphs(checks):
    rng = random.Random(1976)
    for t in range(60):
        n = rng.randint(1, 20)
        all_claims(checks, rng, calls.from_edges(n, random_edges(rng, n)), [rng.choice([[1], [1, 2], [3, 6], range(1, 7)][t % 4]) for _ in range(n)])


# Refusals: 1 to 4, then 5, 15 and 7; nothing is written but the n scratch words, which are 0 after 7.

RIGHT, WRONG = [1, 2, 3], [[], [1, 2], [1, 2, 3, 4], [1, 2, 2], [0, 1, 2], [1, 2, 4], [65535] * 3, [257, 2, 3], [1] * 70000]


def broken_lists(checks):
    """1 to 4 come first, whatever else is handed in."""
    for fault, starts, neighbours, number in BROKEN_LISTS:
        n = max(0, len(starts) - 1)
        for counts, numbering, given in (([], [], [[], [], []]), ([0] * n, [0] * n, lent(40)), (calls.ones(n), list(range(1, n + 1)), lent(min(n, 5000)))):
            untouched(checks, fault, calls.store_map, [list(starts), list(neighbours), counts, numbering], given, number)


def short_lists(checks):
    """5 comes before 15 and 7, whatever the counts are: the lists have room for six unknowns of every node."""
    for graph in (calls.from_edges(1, []), PATH, calls.from_edges(9, star_edges(9))):
        n = len(graph[0]) - 1
        same = list(range(1, n + 1))
        for counts in (calls.ones(n), [6] * n, [], [0] * n):
            for numbering in (same, [], [0] * n):
                for t in range(3):
                    for length in (len(lent(n)[t]) - 1, 0):
                        short = lent(n, 1)
                        short[t] = short[t][:length]
                        untouched(checks, 'list %d of %d, %d nodes' % (t, length, n), calls.store_map, [*graph, counts, numbering], short, 5)
        # As many as a node of one unknown needs are too few.
        untouched(checks, 'n and n + 1', calls.store_map, [*graph, calls.ones(n), same], [words(n), words(n), [OLD_PLACE] * (n + 1)], 5)
        checks.equal('just enough', calls.store_map(*graph, calls.ones(n), same, *lent(n))[0], 'accepted')


def wrong_counts(checks):
    for counts in WRONG_COUNTS:
        for numbering in [RIGHT] + WRONG:
            untouched(checks, '%d counts from %r' % (len(counts), counts[:1]), calls.store_map, [*PATH, counts, numbering], lent(3, 2), 15)
    for n in (1, 4096):
        graph, same = calls.from_edges(n, []), list(range(1, n + 1))
        for counts in ([6] * (n - 1), [6] * (n + 1), [6] * (n - 1) + [0], [7] + [6] * (n - 1), [6] * (n - 1) + [7]):
            untouched(checks, '%d counts of %d nodes' % (len(counts), n), calls.store_map, [*graph, counts, same], lent(n), 15)


def wrong_numberings(checks):
    for counts in ([1, 1, 1], [2, 6, 1], [6, 6, 6]):
        for numbering in WRONG:
            for more in (0, 2):
                answer_and_buffers(checks, 'numbering of %d words' % len(numbering), calls.store_map, [*PATH, counts, numbering], lent(3, more),
                                   ('refused', 7), left(3, [], [], more))


def random_input(checks):
    """No fault; 1 to 5 and 15 leave all that is lent, whatever is handed in."""
    rng = random.Random(25)
    for _ in range(3000):
        starts = rng.choice([any_words(rng), [0] + sorted(any_words(rng)), [0] * rng.randint(1, 5)])
        n = max(0, len(starts) - 1)
        counts = rng.choice([any_words(rng), [rng.randint(1, 6) for _ in range(n)]])
        numbering = rng.choice([any_words(rng), rng.sample(range(1, n + 1), n)])
        buffers = rng.choice([lent(n, rng.randint(0, 2)), [words(rng.randint(0, 40)) for _ in range(3)]])
        before = [list(buffer) for buffer in buffers]
        state, value = calls.store_map(starts, rng.choice([[], any_words(rng)]), counts, numbering, *buffers)
        if state == 'refused' and value != 7:
            checks.equal('any words', (value in (1, 2, 3, 4, 5, 15), buffers), (True, before))
        else:
            used = [sum(counts), sum(counts) + 1] if state == 'accepted' else [0, 0]
            checks.equal('any words: scratch', buffers[0], [0] * n + before[0][n:])
            for size, buffer, was in zip(used, buffers[1:], before[1:]):
                checks.equal('any words: excess', buffer[size:], was[size:])


# Limits.

def limits(checks):
    """4,096 nodes, six unknowns of each: alone, on a path, and about a centre with number 1, the largest store."""
    n, six = 4096, [6] * 4096
    same, rows = list(range(1, n + 1)), range(1, 6 * n + 1)
    own = [q - (q - 1) % 6 for q in rows]
    for name, graph, first in (('alone', calls.from_edges(n, []), own),
                               ('path', calls.from_edges(n, [(p, p + 1) for p in range(1, n)]), [max(1, f - 6) for f in own]),
                               ('star', calls.from_edges(n, star_edges(n)), [1] * (6 * n))):
        place = [0]
        for q in rows:
            place.append(place[-1] + q - first[q - 1])
        answer_and_buffers(checks, 'six each, ' + name, calls.store_map, [*graph, six, same], lent(n, 1), ('accepted', (place[-1], 6 * n)),
                           left(n, first, place, 1))
    checks.equal('the largest store', place[-1], 24576 * 24575 // 2)
    checks.holds('f is a word and s has 32 bits', max(rows) < 2 ** 16 and place[-1] < 2 ** 32)
    answer_and_buffers(checks, 'star, one each', calls.store_map, [*graph, calls.ones(n), same], lent(n), ('accepted', (4096 * 4095 // 2, n)),
                       left(n, [1] * n, [(q - 1) * (q - 2) // 2 for q in range(1, n + 2)]))


def main():
    checks = Checks('store map')
    for subject in (worked, small_graphs, random_graphs, broken_lists, short_lists, wrong_counts, wrong_numberings, random_input, limits):
        subject(checks)
    return checks.report()


if __name__ == '__main__':
    sys.exit(main())
