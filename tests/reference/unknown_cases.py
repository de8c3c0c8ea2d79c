"""Unknowns per node (A.6): graphs worked with pencil; one unknown each, equal counts and any counts; demand 3; limits; and what count_cases has."""

import random
import sys

import calls
from bracket import (FIGURES, SAMPLE_EDGES, figures_claims, grd_file, levels_claims, path_edges, random_edges, report, run,
                     store_claims)
from checking import Checks
from count_cases import count_cases
from cuthill_cases import all_claims, cuthill
from graph import parts_of, rows_of
from idle_cases import turned_back
from listing import most_output_bytes, output_text
from program import text_for
from worked import star_edges

RING = [(1, 2), (2, 3), (3, 4), (4, 1)]

# The run, and its elimination: name, counts, edges, numbers, levels, direction of the part of 1, (bandwidth, profile, front, levels, width),
# (marks, new). Every place is marked here, but in the last.
WORKED = [
    ('one node of one', [1], [], [1], [1], 'Forward', (0, 0, 1, 1, 1), (0, 0)),
    # Six unknowns that adjoin: 5 + 4 + .. + 1 pairs, all joined from the start.
    ('one node of six', [6], [], [1], [1], 'Forward', (5, 15, 6, 1, 6), (15, 0)),
    # Unknowns 1, 2 and 3, 4, 5: one pair and three.
    ('two isolated nodes', [2, 3], [], [1, 2], [1, 1], 'Forward', (2, 4, 3, 2, 3), (4, 0)),
    # A hinge node and a shell node: nine unknowns that adjoin, 36 pairs. Here 2w - 1 is 11.
    ('a pair', [3, 6], [(1, 2)], [1, 2], [1, 2], 'Forward', (8, 36, 9, 2, 6), (36, 0)),
    # Unknowns 1; 2 to 7; 8. f is 1 up to 7, and 2 at 8: 1 + .. + 6, and 6. The front at 1 is 1 to 7, at 2 it is 2 to 8.
    ('path, six in the middle', [1, 6, 1], [(1, 2), (2, 3)], [1, 2, 3], [1, 2, 3], 'Forward', (6, 27, 7, 3, 6), (27, 0)),
    # Unknowns by new number: node 1 has 1, node 2 has 2, 3, node 4 has 4, node 3 has 5, 6, 7. f is 1, 1, 1, 1, 2, 2, 2, so the profile
    # is 1 + 2 + 3 + 3 + 4 + 5; 2 and 7 are 5 apart, which is 2w - 1; the front at 2 is 2 to 7. Eliminating 1 joins 2-4 and 3-4.
    ('ring', [1, 2, 3, 1], RING, [1, 2, 4, 3], [1, 2, 3, 2], 'Forward', (5, 18, 6, 3, 3), (18, 2)),
    # Order 4, 3, 1, 2: node 4 has 1, node 3 has 2, node 1 has 3 to 8, node 2 has 9. f is 1, 2, six times 1, then 3: 2 + .. + 7, and 6.
    # Levels are {2}, {1}, {3, 4}: the one with most unknowns is not the one with most nodes.
    ('star, six in the centre', [6, 1, 1, 1], star_edges(4), [3, 4, 2, 1], [2, 1, 3, 3], 'Reversed', (7, 33, 7, 3, 6), (33, 0)),
    # A star of five has v = 2, u = 3, levels {2, 5}, {1}, {3, 4} and order 2, 5, 1, 3, 4. The two directions have the same pairs in store, but
    # forward it has 3-4 (as 4 reaches back to 1, past 3), turned it has 2-5. So it is turned exactly if c_2 c_5 < c_3 c_4.
    ('star of five, one each', [1, 1, 1, 1, 1], star_edges(5), [3, 1, 4, 5, 2], [2, 1, 3, 3, 1], 'Forward', (2, 5, 3, 3, 2), (5, 1)),
    # 1 < 2. Order 4, 3, 1, 5, 2: node 3 has 2 and 3. f is 1, 2, 2, 1, 4, 4, profile 1 + 3 + 1 + 2; 8 if it were not turned. The front at 2 is
    # 2, 3, 4. Eliminating 4, the centre, joins 5-6.
    ('star of five, turned by the counts', [1, 1, 2, 1, 1], star_edges(5), [3, 5, 2, 1, 4], [2, 1, 3, 3, 1], 'Reversed', (3, 7, 3, 3, 3), (7, 1)),
    # 2 > 1. Node 2 has 1 and 2. f is 1, 1, 3, 1, 4, 4, profile 1 + 3 + 1 + 2; 8 if it were turned.
    ('star of five, not turned', [1, 2, 1, 1, 1], star_edges(5), [3, 1, 4, 5, 2], [2, 1, 3, 3, 1], 'Forward', (3, 7, 3, 3, 3), (7, 1)),
    # A star of six has levels {2, 5}, {1}, {3, 4, 6} and order 2, 5, 1, 3, 4, 6: forward it has 3-4, 3-6 and 4-6, turned 2-5. It is turned
    # exactly if c_2 c_5 < c_3 c_4 + c_3 c_6 + c_4 c_6: here 2 < 3. Order 6, 4, 3, 1, 5, 2: node 1 has 4, node 2 has 6 and 7. f is 1, 2, 3, 1,
    # 4, 4, 4, profile 3 + 1 + 2 + 3. Eliminating 4 joins 5-6 and 5-7, and 6-7 was joined.
    ('star of six, turned', [1, 2, 1, 1, 1, 1], star_edges(6), [4, 6, 3, 2, 5, 1], [2, 1, 3, 3, 1, 3], 'Reversed', (3, 9, 4, 3, 3), (9, 2)),
    # 3 = 3, though by nodes it would be turned. Node 2 has 1, 2, 3, node 5 has 4, the centre 5. f is 1, 1, 1, 4, 1, 5, 5, 5, profile
    # 1 + 2 + 4 + 1 + 2 + 3 = 13. The front at 1 is 1, 2, 3, 5. Eliminating 5 joins 6-7, 6-8, 7-8.
    ('star of six, equal profiles', [1, 3, 1, 1, 1, 1], star_edges(6), [3, 1, 4, 5, 2, 6], [2, 1, 3, 3, 1, 3], 'Forward', (4, 13, 4, 3, 4), (13, 3)),
    # Path 1-3-5 with 1, 2, 1, star of centre 2 and leaves 4, 6, 7, node 8. Node 1 has 1, node 3 has 2, 3, node 5 has 4: f is 1, 1, 1, 2, profile
    # 1 + 2 + 2. The star is turned, order 7, 6, 2, 4: 5; 6, 7, 8; 9; 10. f is 5, 6, 6, 6, 5, 9, profile 1 + 2 + 4 + 1. Node 8 of four has 6.
    # Widths 2; 4 of the level {6, 7}; 4. Bandwidth 4 of 5-9. The front at 6 is 6 to 9; at 11 it is 11 to 14.
    ('three parts', [1, 1, 2, 1, 1, 3, 1, 4], [(1, 3), (3, 5), (2, 4), (2, 6), (2, 7)], [1, 6, 2, 7, 3, 5, 4, 8], [1, 2, 2, 1, 3, 3, 3, 1], 'Forward',
     (4, 19, 4, 7, 4), (19, 0)),
    # A.12's triangle with a leaf on each corner: one place is idle in nodes, that of the nodes 2 and 3 by new numbers. Order 5, 6, 2, 1, 3, 4, so
    # node 6 has 2 and 3, node 2 has 4, 5, 6: six places are idle. f is 1; 2, 2; 1, 1, 1; 2; 4; 8. Profile 1 + 3 + 4 + 5 + 5 + 4 + 1. New: none.
    # Forward it has the pair of nodes 5 and 6 besides, and no other, so it is turned whatever the counts are.
    ('idle places', [1, 3, 1, 1, 1, 2], [(1, 2), (1, 3), (2, 3), (3, 4), (2, 5), (1, 6)], [4, 3, 5, 6, 1, 2], [3, 3, 2, 1, 4, 4], 'Reversed',
     (5, 23, 6, 4, 4), (17, 0)),
]

# Reverse Cuthill-McKee: name, counts, edges, numbers, (bandwidth, profile, front, levels, width)
WORKED_ORDERS = [
    ('one node of six', [6], [], [1], (5, 15, 6, 1, 6)),
    ('a pair', [3, 6], [(1, 2)], [2, 1], (8, 36, 9, 2, 6)),
    # Levels {2}, {1}, {3, 4, 5, 6}. Order 6, 5, 4, 3, 1, 2: the centre has 5, node 2 has 6 and 7. f is 1, 2, 3, 4, 1, 5, 5. The front at 5 is three.
    ('star of six', [1, 2, 1, 1, 1, 1], star_edges(6), [5, 6, 4, 3, 2, 1], (4, 7, 3, 3, 4)),
    # Order 3, 4, 2, 1: node 3 has 1, 2, 3, node 4 has 4, node 2 has 5, 6, node 1 has 7. f is 1, 1, 1, 1, 1, 1, 4: 1 + 2 + 3 + 4 + 5 + 3.
    ('ring', [1, 2, 3, 1], RING, [4, 3, 1, 2], (5, 18, 6, 3, 3)),
]

# Given numberings: name, counts, edges, numbering, fronts, (bandwidth, profile), (marks, new), mark bytes
WORKED_MEASURES = [
    # Node 1 has 1, 2; 2 has 3; 3 has 4; 4 has 5, 6, 7; 5 has 8. f is 1, 1, 1, 3, 1, 1, 1, 4, profile 1 + 2 + 1 + 4 + 5 + 6 + 4. The nodes' fill
    # is 2-4, then 3-4 and 4-5: 3-5, 3-6, 3-7; 4-5, 4-6, 4-7; 5-8, 6-8, 7-8. So every place is marked.
    ('the graph of the sample', [2, 1, 1, 3, 1], SAMPLE_EDGES, [1, 2, 3, 4, 5], [6, 5, 5, 5, 4, 3, 2, 1], (6, 23), (23, 9), [255, 255, 127]),
    # Node 1 has 1, 2; 2 has 3; 3 has 4, 5, 6; 4 has 7. f is 1, 1, 3, 3, 3, 3, 1, profile 1 + 1 + 2 + 3 + 6. Nothing is newly joined, so 3-7 is
    # idle. Its place is behind 7 others and those of 1-7 and 2-7.
    ('path 1-4-3-2 by its numbers', [2, 1, 3, 1], [(1, 4), (3, 4), (2, 3)], [1, 2, 3, 4], [3, 2, 5, 4, 3, 2, 1], (6, 13), (12, 0), [255, 0b11101]),
    # Node 2 has 1, 2, 3, node 3 has 4, 5, node 1 has 6: counts go by old number, unknowns by new. f is 1, 1, 1, 4, 4, 1. Idle are 4-6 and 5-6.
    ('a pair and a node, numbered otherwise', [1, 3, 2], [(1, 2)], [3, 1, 2], [4, 3, 2, 3, 2, 1], (5, 9), (7, 0), [127, 0]),
]


# Worked with pencil.

def figures_of(got):
    return tuple(got[figure] for figure in FIGURES)


def store_of(graph, counts, numbers):
    """(marks, new) and the mark bytes, lent in use and just enough."""
    places = calls.measures(*graph, counts, numbers, [7] * len(numbers))[1][1]
    mark_bytes = [165] * ((places + 7) // 8)
    return calls.elimination(*graph, counts, numbers, [7] * len(numbers), mark_bytes)[1], mark_bytes


def worked_run(checks, name, counts, edges, numbers, levels, direction, figures, store):
    n = len(counts)
    graph = calls.from_edges(n, edges)
    got = run(*graph, counts)
    checks.equal(name + ': numbers and levels', (got['numbers'], got['by_node']), (numbers, levels))
    checks.equal(name + ': figures', figures_of(got), (n, len(parts_of(rows_of(*graph)))) + figures)
    checks.equal(name + ': direction', report(*graph, 1, counts)[5], direction)
    (marks, new), mark_bytes = store_of(graph, counts, numbers)
    checks.equal(name + ': marks, new', (marks, new), store)
    checks.equal(name + ': marks as bits', sum(bin(byte).count('1') for byte in mark_bytes), marks)


def worked_order(checks, name, counts, edges, numbers, figures):
    got = cuthill(*calls.from_edges(len(counts), edges), counts)
    checks.equal(name + ', reverse Cuthill-McKee', (got['numbers'], figures_of(got)), (numbers, (len(counts), 1) + figures))


def worked_measures(checks, name, counts, edges, numbering, fronts, figures, store, mark_bytes):
    graph = calls.from_edges(len(counts), edges)
    checks.equal(name + ': measures', calls.measures(*graph, counts, numbering, [7] * len(counts))[1], (*figures, max(fronts)))
    checks.equal(name + ': fronts', calls.fronts_of(*graph, counts, numbering), fronts)
    checks.equal(name + ': store', store_of(graph, counts, numbering), (store, mark_bytes))


def widths(checks):
    """The star with six in the centre: the part report's width is in unknowns; ends, combined and rooted levels have nodes."""
    graph, scratch = calls.from_edges(4, star_edges(4)), [0] * 24
    checks.equal('widths: part report', calls.part_report(*graph, [6, 1, 1, 1], 3, scratch)[1], (2, 3, 3, 6, 1, 'Reversed'))
    checks.equal('widths: ends', calls.ends(*graph, 3, scratch)[1], (2, 3, 3, 2, 2, 1))
    checks.equal('widths: combined levels', calls.combined_levels(*graph, 3, [0] * 4, scratch)[1], (3, 2))
    checks.equal('widths: rooted levels', calls.rooted_levels(*graph, 1, [0] * 4, [0] * 4)[1], (2, 3, 4))


# The same in other ways.

def as_nodes(graph, counts, numbers):
    """The graph whose nodes are the unknowns, one after the other by old number, and the numbers of these."""
    rows, own, last = rows_of(*graph), {}, 0
    for p in rows:
        own[p] = range(last + 1, last + counts[p - 1] + 1)
        last += counts[p - 1]
    edges = [(i, j) for p in rows for q in [p, *rows[p]] for i in own[p] for j in own[q] if i < j]
    order = [i for p in sorted(rows, key=lambda p: numbers[p - 1]) for i in own[p]]
    return calls.from_edges(last, edges), [order.index(i) + 1 for i in range(1, last + 1)]


def measures_by_nodes(graph, counts, numbers):
    """Bandwidth, profile and front by sums over nodes."""
    rows, number, count = rows_of(*graph), dict(enumerate(numbers, 1)), dict(enumerate(counts, 1))
    ahead = {p: sum(count[q] for q in rows if number[q] < number[p]) for p in rows}
    first = {p: min([p, *rows[p]], key=number.get) for p in rows}
    bandwidth = max(ahead[p] + count[p] - 1 - ahead[first[p]] for p in rows)
    profile = sum(count[p] * (ahead[p] - ahead[first[p]]) + count[p] * (count[p] - 1) // 2 for p in rows)
    front = max(sum(count[q] for q in rows if number[q] >= number[p] >= number[first[q]]) for p in rows)
    return bandwidth, profile, front


def elimination_by_nodes(graph, counts, numbers):
    """Marks and new pairs by the joined pairs of nodes, each as many as the product of its counts."""
    n, weight = len(counts), dict(zip(numbers, counts))
    at_end, at_first = [calls.joined_after(*graph, calls.ones(n), numbers, i) for i in (n, 0)]
    within = sum(c * (c - 1) // 2 for c in counts)
    return within + sum(weight[p] * weight[q] for p, q in at_end), sum(weight[p] * weight[q] for p, q in at_end - at_first)


def same_in_other_ways(checks, graph, counts, got):
    """The measures and the store of a run or of reverse Cuthill-McKee."""
    n, numbers = len(counts), got['numbers']
    figures, store = (got['bandwidth'], got['profile'], got['front']), store_of(graph, counts, numbers)
    checks.equal('measures by nodes', figures, measures_by_nodes(graph, counts, numbers))
    checks.equal('elimination by nodes', store[0], elimination_by_nodes(graph, counts, numbers))
    of_unknowns, numbers = as_nodes(graph, counts, numbers)
    checks.equal('unknowns as nodes: measures', figures, calls.measures(*of_unknowns, calls.ones(sum(counts)), numbers, [0] * sum(counts))[1])
    checks.equal('unknowns as nodes: store', store, store_of(of_unknowns, calls.ones(sum(counts)), numbers))


# What is claimed.

def forward_numbers(graph, counts):
    """The run's numbers before turning: a part that is reported as reversed is turned back."""
    forward = run(*graph, counts)['numbers']
    back = turned_back(graph, forward)
    for part in parts_of(rows_of(*graph)):
        if report(*graph, part[0], counts)[5] == 'Reversed':
            for p in part:
                forward[p - 1] = back[p - 1]
    return forward


def turning_claims(checks, graph, counts):
    """A.6: "Levels and the numbering before turning don't change; turning is decided by the profile in unknowns". Gives how many parts are turned by
    the counts, how many are not for the counts, and in how many the level with most unknowns isn't one with most nodes."""
    rows, ones, got = rows_of(*graph), run(*graph), run(*graph, counts)
    for name in ('nodes', 'parts', 'levels', 'by_node', 'passes'):
        checks.equal('unchanged: ' + name, got[name], ones[name])
    forward = forward_numbers(graph, counts)
    checks.equal('unchanged: numbers before turning', forward, forward_numbers(graph, None))
    back, turned_by, left_by, other_level = turned_back(graph, forward), 0, 0, 0
    for part in parts_of(rows):
        before, after = report(*graph, part[0]), report(*graph, part[-1], counts)
        checks.equal('unchanged: v, u, k and passes', (after[:3], after[4]), (before[:3], before[4]))
        levels = [[p for p in part if got['by_node'][p - 1] == i] for i in range(1, after[2] + 1)]
        unknowns = [sum(counts[p - 1] for p in level) for level in levels]
        checks.equal('w of a part', after[3], max(unknowns))
        turned = [back[p - 1] if p in part else forward[p - 1] for p in rows]
        less = measures_by_nodes(graph, counts, turned)[1] < measures_by_nodes(graph, counts, forward)[1]
        checks.equal('turned exactly if that makes its profile less', after[5], 'Reversed' if less else 'Forward')
        turned_by += (before[5], after[5]) == ('Forward', 'Reversed')
        left_by += (before[5], after[5]) == ('Reversed', 'Forward')
        other_level += all(sum(counts[p - 1] for p in level) < after[3] for level in levels if len(level) == before[3])
    return turned_by, left_by, other_level


def order_claims(checks, graph, counts):
    """A.3's order has nothing to do with the counts."""
    ones, got = cuthill(*graph), cuthill(*graph, counts)
    for name in ('nodes', 'parts', 'levels', 'numbers', 'by_node', 'passes'):
        checks.equal('reverse Cuthill-McKee, unchanged: ' + name, got[name], ones[name])
    same_in_other_ways(checks, graph, counts, got)


def demand_3(checks, graph, counts):
    """All that demand 3 says, of the run, and of A.3's call with its two bounds."""
    got = run(*graph, counts)
    reports = levels_claims(checks, graph, got, counts)
    figures_claims(checks, graph, got, reports, counts)
    store_claims(checks, graph, got['numbers'], got['profile'], counts)
    all_claims(checks, graph, counts)


def one_each(checks, graph):
    """All counts 1: the unknowns are the nodes, and all is as document 01 has it of nodes."""
    rows, got = rows_of(*graph), run(*graph)
    n, number = len(rows), dict(enumerate(got['numbers'], 1))
    checks.equal('one each: what adjoins', calls.adjoining_of(*graph, calls.ones(n), got['numbers']),
                 {number[p]: {number[q] for q in rows[p]} for p in rows})
    least = {number[p]: min(number[q] for q in [p, *rows[p]]) for p in rows}
    checks.equal('one each: bandwidth', got['bandwidth'], max([0] + [abs(number[p] - number[q]) for p in rows for q in rows[p]]))
    checks.equal('one each: profile', got['profile'], sum(q - least[q] for q in least))
    checks.equal('one each: front', got['front'], max(sum(1 for j in least if j >= i >= least[j]) for i in least))
    for part in parts_of(rows):
        checks.equal('one each: the part report has the width of the combined levels', report(*graph, part[0])[3],
                     calls.combined_levels(*graph, part[0], [0] * n, [0] * (6 * n))[1][1])


def equal_counts(checks, graph, c):
    """All counts c: the same numbers, levels and passes, and the figures of one each in another measure."""
    n = len(graph[0]) - 1
    for call in (run, cuthill):
        ones, got = call(*graph), call(*graph, [c] * n)
        for name in ('numbers', 'by_node', 'passes', 'nodes', 'parts', 'levels'):
            checks.equal('all %d: %s' % (c, name), got[name], ones[name])
        within = n * c * (c - 1) // 2
        checks.equal('all %d: bandwidth, profile, front, width' % c, tuple(got[name] for name in ('bandwidth', 'profile', 'front', 'width')),
                     (c * (ones['bandwidth'] + 1) - 1, c * c * ones['profile'] + within, c * ones['front'], c * ones['width']))
        marks, new = store_of(graph, calls.ones(n), ones['numbers'])[0]
        checks.equal('all %d: marks, new' % c, store_of(graph, [c] * n, got['numbers'])[0], (c * c * marks + within, c * c * new))
    for node in range(1, n + 1):
        checks.equal('all %d: direction' % c, report(*graph, node, [c] * n)[5], report(*graph, node)[5])


def small_graphs(checks):
    """All graphs of up to 4 nodes, some of 5, with counts by chance and with equal ones."""
    rng = random.Random(6)
    for n in range(1, 6):
        for t, graph in enumerate(calls.small_graphs(n)):
            one_each(checks, graph)
            if n < 5 or t % 16 == 0:
                counts = [rng.randint(1, 6) for _ in range(n)]
                equal_counts(checks, graph, 1 + t % 6)
                turning_claims(checks, graph, counts)
                order_claims(checks, graph, counts)
                same_in_other_ways(checks, graph, counts, run(*graph, counts))
                demand_3(checks, graph, counts)


def random_graphs(checks):
    rng = random.Random(1976)
    seen = [0, 0, 0]
    for t in range(150):
        n = rng.randint(1, 30)
        graph = calls.from_edges(n, random_edges(rng, n))
        counts = [rng.choice([[1, 2], [1, 6], [3, 6], range(1, 7)][t % 4]) for _ in range(n)]
        seen = [a + b for a, b in zip(seen, turning_claims(checks, graph, counts))]
        if t % 2 == 0:
            one_each(checks, graph)
            order_claims(checks, graph, counts)
            same_in_other_ways(checks, graph, counts, run(*graph, counts))
            demand_3(checks, graph, counts)
        if t % 10 == 1:
            equal_counts(checks, graph, rng.randint(2, 6))
    for name, count in zip(('is turned by its counts', 'is not turned for its counts', 'has most unknowns in another level'), seen):
        checks.holds('some part ' + name, count)


# Limits.

def limits(checks):
    """Six unknowns of each of 4,096 nodes, by the sums for equal counts."""
    n, six = 4096, [6] * 4096
    got = run(*calls.from_edges(n, path_edges(n)), six)
    checks.equal('path of 4,096, six each', figures_of(got), (n, 1, 11, 36 * 4095 + 15 * 4096, 12, n, 6))
    checks.equal('4,096 nodes, six each', figures_of(run(*calls.from_edges(n, []), six)), (n, n, 5, 15 * 4096, 6, n, 6))
    # Under the old numbers every unknown reaches back to 1.
    checks.equal('star of 4,096 by its numbers, six each', calls.measures(*calls.from_edges(n, star_edges(n)), six, list(range(1, n + 1)), [0] * n),
                 ('accepted', (24575, 24576 * 24575 // 2, 24576)))
    # 1, then 2, then 4,092 nodes side by side, then 4,095, then 4,096, numbered so. f is 1, 1, then 4,092 times 2, then 3 and 4,095; the same if
    # it is turned. One each has bandwidth 4,092 and front 4,093.
    wide = calls.from_edges(n, [(1, 2), (n - 1, n)] + [(hub, p) for hub in (2, n - 1) for p in range(3, n - 1)])
    profile = 1 + 4092 * 4093 // 2 + 4092 + 1
    for call, numbers in ((run, list(range(1, n + 1))), (cuthill, list(range(n, 0, -1)))):
        got = call(*wide, six)
        checks.equal('4,092 side by side, six each: numbers', got['numbers'], numbers)
        checks.equal('4,092 side by side, six each', figures_of(got), (n, 1, 6 * 4093 - 1, 36 * profile + 15 * 4096, 6 * 4093, 5, 6 * 4092))
    checks.equal('program: 4,096 nodes, six each', text_for(grd_file(n, 0, [], six))[:81],
                 b'nodes 4096 parts 4096 bandwidth 5 profile 61440 front 6 levels 4096 width 6 passe')
    # No figure is greater than these, and no number in a row than 4,096.
    text = output_text((n, n, 24575, 24576 * 24575 // 2, 24576, n, 24576), [n] * n, [n] * n, [1] * n)
    fewer_digits = sum(4 - len(str(p)) for p in range(1, n + 1))
    checks.equal('room of the output', (text.index(b'\n') + 1, most_output_bytes(n)), (104, len(text) + fewer_digits))


def main():
    checks = Checks('unknowns per node')
    for case in WORKED:
        worked_run(checks, *case)
    for case in WORKED_ORDERS:
        worked_order(checks, *case)
    for case in WORKED_MEASURES:
        worked_measures(checks, *case)
    for subject in (widths, small_graphs, random_graphs, limits, count_cases):
        subject(checks)
    return checks.report()


if __name__ == '__main__':
    sys.exit(main())
