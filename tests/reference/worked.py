"""Graphs worked with pencil from document 01's steps: slips, ties, names, passes, of each part too; levels and sizes; each kind; stars by sums."""

import sys

import calls
from bracket import passes_claims, rooted, run, sizes_claims
from checking import Checks

# name, edges, ends (v, u, k, width_v, width_u, passes), combined levels,
# part report, levels of the run, numbers
WORKED = [
    # Pieces {4} and {5}: 4 goes to level 3 by the tie, then h = 3, l = 2 for 5.
    ('pieces placed against the counts before the first one',
     [(1, 2), (2, 3), (2, 4), (2, 5)],
     (1, 3, 3, 3, 3, 1), [1, 2, 3, 3, 1], (1, 3, 3, 2, 1, 'Forward'),
     [1, 2, 3, 3, 1], [1, 3, 4, 5, 2]),
    # Piece {4, 5} first (h = 3, l = 2), then {3} (h = 2, l = 3).
    ('pieces by size falling',
     [(1, 6), (2, 5), (2, 6), (3, 6), (4, 5), (4, 6), (5, 6)],
     (1, 2, 3, 4, 3, 1), [1, 3, 3, 1, 2, 2], (1, 2, 3, 2, 1, 'Forward'),
     [1, 3, 3, 1, 2, 2], [1, 6, 5, 2, 4, 3]),
    # h = l = 2 for {3} and for {4}; u's width 2 is less than v's 3.
    ('equal h and l by second numbers',
     [(1, 4), (1, 5), (2, 5), (3, 5), (4, 5)],
     (2, 1, 3, 3, 2, 1), [3, 1, 1, 2, 2], (2, 1, 3, 2, 1, 'Forward'),
     [3, 1, 1, 2, 2], [5, 1, 2, 4, 3]),
    # Level 1 holds 3 when {3} comes: h = 2 and l = 3 count touched levels only.
    ('h over levels the piece does not touch',
     [(1, 5), (1, 6), (2, 5), (3, 5), (3, 6), (4, 5), (4, 7), (5, 6), (5, 7)],
     (2, 6, 3, 5, 3, 1), [2, 1, 3, 1, 2, 3, 1], (2, 6, 3, 3, 1, 'Forward'),
     [2, 1, 3, 1, 2, 3, 1], [5, 1, 6, 2, 4, 7, 3]),
    # 6 and 1 follow 2: degrees 1 and 2, though both have none unnumbered left.
    ('degree in what is left of the graph',
     [(1, 2), (1, 4), (2, 3), (2, 4), (2, 5), (2, 6)],
     (3, 1, 3, 4, 3, 1), [3, 2, 1, 2, 1, 3], (3, 1, 3, 2, 1, 'Forward'),
     [3, 2, 1, 2, 1, 3], [6, 3, 1, 4, 2, 5]),
    # u = 3 has degree 2, v = 1 has 3: the combined levels turn over with the names.
    ('change of names',
     [(1, 4), (1, 5), (1, 6), (2, 3), (2, 4), (3, 7), (4, 5), (4, 6), (4, 7), (5, 6)],
     (1, 3, 4, 3, 3, 2), [1, 3, 4, 2, 2, 2, 3], (3, 1, 4, 3, 2, 'Forward'),
     [4, 2, 1, 3, 3, 3, 2], [7, 2, 1, 4, 5, 6, 3]),
    # Names change and the profile falls from 11 to 10; the levels do not turn.
    ('change of names and turning',
     [(1, 2), (1, 7), (2, 3), (2, 7), (3, 6), (4, 6), (4, 8), (4, 9), (5, 6), (6, 8)],
     (1, 9, 6, 3, 2, 2), [1, 2, 3, 5, 3, 4, 1, 4, 6], (9, 1, 6, 2, 2, 'Reversed'),
     [6, 5, 4, 2, 4, 3, 6, 3, 1], [2, 3, 4, 8, 5, 6, 1, 7, 9]),
    # v is 4, then 5, then 6, with depths 4, 5, 6.
    ('three passes',
     [(1, 2), (1, 6), (1, 8), (2, 4), (2, 9), (2, 10), (3, 4), (3, 7), (3, 9), (5, 7),
      (5, 10), (6, 8)],
     (6, 7, 6, 3, 3, 3), [2, 3, 5, 4, 5, 1, 6, 2, 4, 4], (6, 7, 6, 3, 3, 'Forward'),
     [2, 3, 5, 4, 5, 1, 6, 2, 4, 4], [3, 4, 8, 5, 9, 1, 10, 2, 6, 7]),
    # From v = 1, S is 2 and 4 with depths 5 and 6: 2 is taken, so 3 passes.
    ('the first deeper s, not the deepest',
     [(1, 5), (1, 6), (2, 3), (2, 7), (3, 6), (4, 8), (4, 9), (5, 7), (6, 8), (6, 9)],
     (4, 7, 6, 2, 2, 3), [4, 5, 4, 1, 5, 3, 6, 2, 2], (4, 7, 6, 2, 3, 'Forward'),
     [4, 5, 4, 1, 5, 3, 6, 2, 2], [5, 8, 6, 1, 7, 4, 9, 2, 3]),
    # After 6, level 1 has 3 and 5 left: 5 has the lower degree, and brings 3.
    ('nodes left in a level, the first in E',
     [(1, 2), (1, 3), (1, 4), (1, 5), (1, 6), (2, 4), (3, 4), (3, 5)],
     (6, 2, 3, 4, 3, 1), [2, 3, 1, 2, 1, 1], (6, 2, 3, 3, 1, 'Forward'),
     [2, 3, 1, 2, 1, 1], [4, 6, 3, 5, 2, 1]),
    # Level 2 begins with 8 and 6: 8 has the lower new number, so 7 comes before 9.
    ('lowest-numbered by new numbers',
     [(1, 3), (1, 4), (1, 8), (2, 4), (2, 6), (2, 7), (2, 9), (3, 4), (3, 6), (5, 6),
      (5, 8), (6, 9), (7, 8)],
     (5, 4, 4, 5, 4, 1), [3, 3, 3, 4, 1, 2, 2, 2, 2], (5, 4, 4, 4, 1, 'Forward'),
     [3, 3, 3, 4, 1, 2, 2, 2, 2], [6, 8, 7, 9, 1, 3, 4, 2, 5]),
]


# A.2: name, n, edges, root, (depth, width, reached), levels, sizes
ROOTED = [
    ('one node', 1, [], 1, (1, 1, 1), [1], [1]),
    ('isolated root', 4, [(1, 3), (3, 4)], 2, (1, 1, 1), [0, 1, 0, 0], [1, 0, 0, 0]),
    ('beside an isolated node', 4, [(1, 3), (3, 4)], 3, (2, 2, 3), [2, 0, 1, 2], [1, 2, 0, 0]),
    ('path from an end', 4, [(1, 2), (2, 3), (3, 4)], 4, (4, 1, 4), [4, 3, 2, 1], [1, 1, 1, 1]),
    ('path from within', 5, [(1, 2), (2, 3), (3, 4), (4, 5)], 2, (4, 2, 5), [2, 1, 2, 3, 4], [1, 2, 1, 1, 0]),
    ('star from its centre', 6, [(3, 1), (3, 2), (3, 4), (3, 5), (3, 6)], 3, (2, 5, 6), [2, 2, 1, 2, 2, 2], [1, 5, 0, 0, 0, 0]),
    ('star from a leaf', 6, [(3, 1), (3, 2), (3, 4), (3, 5), (3, 6)], 5, (3, 4, 6), [3, 3, 2, 3, 1, 3], [1, 1, 4, 0, 0, 0]),
    ('ring', 6, [(1, 2), (2, 3), (3, 4), (4, 5), (5, 6), (6, 1)], 2, (4, 2, 6), [2, 1, 2, 3, 4, 3], [1, 2, 2, 1, 0, 0]),
    # the thickest level is neither the first nor the last
    ('thickest in the middle', 7, [(1, 2), (2, 3), (2, 4), (2, 5), (3, 6), (4, 6), (5, 6), (6, 7)], 1, (5, 3, 7),
     [1, 2, 3, 3, 3, 4, 5], [1, 1, 3, 1, 1, 0, 0]),
    ('second part of two', 5, [(1, 2), (2, 4), (3, 5)], 5, (2, 1, 2), [0, 0, 2, 0, 1], [1, 1, 0, 0, 0]),
]


# Parts as edges on nodes 1 to their size; a part gets its nodes by rising old number.
# From v = 1, S is 3 and 6, and 3 has depth 5 where 1 has 4: two passes. From v = 3, S is 6 with depth 5.
TWO = (6, [(1, 5), (2, 3), (2, 5), (4, 5), (4, 6)])
# v is 1, then 5, then 6, with depths 4, 5, 6: from 1, S is 5, 6, 7 with depths 5, 6, 6; from 5, S is 6 and 7; from 6 it is 3.
THREE = (9, [(1, 4), (1, 9), (2, 5), (2, 9), (3, 4), (3, 5), (6, 7), (6, 8), (7, 8), (8, 9)])


def path(n):
    return n, [(p, p + 1) for p in range(1, n)]


def star_edges(n):
    """Centre 1, leaves 2 to n."""
    return [(1, q) for q in range(2, n + 1)]


# A.9: name, parts with their nodes, passes and depth of each
PASSES = [
    ('two isolated nodes', [(path(1), [1]), (path(1), [2])], [1, 1], [1, 1]),
    ('one pass, then two', [(path(1), [1]), (TWO, range(2, 8))], [1, 2], [1, 5]),
    ('two passes, then one', [(TWO, range(1, 7)), (path(1), [7])], [2, 1], [5, 1]),
    ('the part of node 1 is not the first by degree', [(TWO, [1, 3, 4, 6, 7, 8]), (path(2), [2, 5])], [2, 1], [5, 2]),
    ('neither by size nor by passes, nodes mixed',
     [(TWO, [1, 4, 6, 9, 12, 14]), (THREE, [2, 5, 7, 8, 10, 11, 13, 15, 16]), (path(1), [3])], [2, 3, 1], [5, 6, 1]),
    ('the largest part has one pass', [(THREE, range(1, 10)), (path(12), range(10, 22)), (TWO, range(22, 28))], [3, 1, 2], [6, 12, 5]),
    ('equal parts between others', [(TWO, range(1, 7)), (THREE, range(7, 16)), (TWO, range(16, 22)), (path(1), [22]), (THREE, range(23, 32))],
     [2, 3, 2, 1, 3], [5, 6, 5, 1, 6]),
]


def of_parts(parts):
    """The count of nodes and the edges of all parts together."""
    edges = [(nodes[p - 1], nodes[q - 1]) for (_, within), nodes in parts for p, q in within]
    return sum(size for (size, _), _ in parts), edges


def worked_graph(checks, name, edges, ends, combined, report, levels, numbers):
    n = len(numbers)
    graph = calls.from_edges(n, edges)
    scratch = [0] * (6 * n)
    got_combined, got_numbers, got_levels = [0] * n, [0] * n, [0] * n
    checks.equal(name + ': ends', calls.ends(*graph, n, scratch)[1], ends)
    checks.equal(name + ': combined', calls.combined_levels(*graph, 1, got_combined, scratch)[1],
                 (report[2], report[3]))
    checks.equal(name + ': combined levels', got_combined, combined)
    checks.equal(name + ': report', calls.part_report(*graph, calls.ones(n), n, scratch)[1], report)
    got_passes = [0] * n
    calls.whole_run(*graph, calls.ones(n), got_numbers, got_levels, got_passes, scratch)
    checks.equal(name + ': levels', got_levels, levels)
    checks.equal(name + ': numbers', got_numbers, numbers)
    checks.equal(name + ': passes', got_passes, [ends[5]] + [0] * (n - 1))
    sizes_claims(checks, *graph)


def worked_levels(checks, name, n, edges, root, figures, levels, sizes):
    graph = calls.from_edges(n, edges)
    checks.equal(name + ': levels and sizes', rooted(*graph, root), (figures, levels, sizes))
    sizes_claims(checks, *graph)


def worked_passes(checks, name, parts, passes, depths):
    n, edges = of_parts(parts)
    graph = calls.from_edges(n, edges)
    got = run(*graph)
    checks.equal(name + ': passes of each part', got['passes'], passes + [0] * (n - len(passes)))
    checks.equal(name + ': parts, and their levels', (got['parts'], got['levels']), (len(parts), sum(depths)))
    for (_, nodes), depth in zip(parts, depths):
        checks.equal(name + ': depth of a part', max(got['by_node'][p - 1] for p in nodes), depth)
    passes_claims(checks, graph, got)


def long_paths(checks):
    """4,096 nodes in a row, from an end and from within: a level in every word, and half as many of two nodes."""
    n = 4096
    graph = calls.from_edges(n, [(p, p + 1) for p in range(1, n)])
    checks.equal('path of 4,096 from an end', rooted(*graph, 1), ((n, 1, n), list(range(1, n + 1)), [1] * n))
    levels = [abs(p - 2048) + 1 for p in range(1, n + 1)]
    checks.equal('path of 4,096 from within', rooted(*graph, 2048), ((2049, 2, n), levels, [1] + [2] * 2047 + [1] + [0] * 2047))


def both_directions(checks):
    """Path 1-3-5, star of centre 2 and leaves 4, 6, 7, node 8: only the star turns."""
    graph = calls.from_edges(8, [(1, 3), (3, 5), (2, 4), (2, 6), (2, 7)])
    numbers, levels, passes = [0] * 8, [0] * 8, [0] * 8
    checks.equal('both directions: figures', calls.whole_run(*graph, calls.ones(8), numbers, levels, passes, [0] * 48)[1],
                 (8, 3, 2, 5, 2, 7, 2))
    checks.equal('both directions: numbers', numbers, [1, 6, 2, 7, 3, 5, 4, 8])
    checks.equal('both directions: levels', levels, [1, 2, 2, 1, 3, 3, 3, 1])
    checks.equal('both directions: passes', passes, [1, 1, 1, 0, 0, 0, 0, 0])


def kinds(checks):
    """All nodes of one element adjoin one another."""
    for kind, count in ((1, 2), (2, 3), (3, 4), (4, 4), (5, 5), (6, 6), (7, 8), (8, 6), (9, 8), (10, 10)):
        nodes = list(range(1, count + 1))
        answer = calls.mesh(count, [kind] + nodes[::-1], [0] * (count + 1), [0] * 32768, [0] * count)
        checks.equal('kind %d' % kind, answer, ('accepted', (count * (count - 1),)))


def star_store(n):
    """Mark bytes, marks and new pairs of a star whose centre has number 1."""
    # f_q is 1 for every q, so all pairs have places, 1 + 2 + .. + (n - 1) of them. Eliminating 1 joins
    # all others two by two: every place is marked, and new are all pairs but the n - 1 edges.
    places = n * (n - 1) // 2
    last = [2 ** (places % 8) - 1] if places % 8 else []
    return [255] * (places // 8) + last, places, places - (n - 1)


def stars(checks):
    """By the sums above; at 4,096 nodes the reference's set of pairs would be too large."""
    for n in range(1, 41):
        mark_bytes, marks, new = star_store(n)
        # Ones behind the store stay and are not counted.
        got = [255] * (len(mark_bytes) + 9)
        answer = calls.elimination(*calls.from_edges(n, star_edges(n)), calls.ones(n), list(range(1, n + 1)), [0] * n, got)
        checks.equal('star of %d: figures' % n, answer, ('accepted', (marks, new)))
        checks.equal('star of %d: bytes' % n, got, mark_bytes + [255] * 9)
    mark_bytes, marks, new = star_store(4096)
    checks.equal('star of 4,096: bytes', (len(mark_bytes), set(mark_bytes)), (1048320, {255}))
    checks.equal('star of 4,096: marks, new pairs', (marks, new), (8386560, 8382465))


def main():
    checks = Checks('worked graphs')
    for case in WORKED:
        worked_graph(checks, *case)
    for case in ROOTED:
        worked_levels(checks, *case)
    for case in PASSES:
        worked_passes(checks, *case)
    long_paths(checks)
    both_directions(checks)
    kinds(checks)
    stars(checks)
    return checks.report()


if __name__ == '__main__':
    sys.exit(main())
