"""Reverse Cuthill-McKee (A.3): graphs worked with pencil, and its claims on all small graphs, on random ones and at the limits."""

import random
import sys

import calls
from bracket import FIGURES, random_edges, report, run, store_claims
from checking import Checks
from graph import order_e, parts_of, rows_of
from numbering import part_profile
from worked import PASSES, WORKED, of_parts, path

# u has a lower degree than v: the run changes their names, and this call doesn't.
NAMES = [(1, 4), (1, 5), (1, 6), (2, 3), (2, 4), (3, 7), (4, 5), (4, 6), (4, 7), (5, 6)]

# name, n, edges, numbers, levels, passes, figures (bandwidth, profile, front, levels, width)
WORKED_ORDERS = [
    ('one node', 1, [], [1], [1], [1], (0, 0, 1, 1, 1)),
    ('two isolated nodes, each turned within itself', 2, [], [1, 2], [1, 1], [1, 1], (0, 0, 1, 2, 1)),
    ('a pair', 2, [(1, 2)], [2, 1], [1, 2], [1], (1, 1, 2, 2, 1)),
    # Order 1, 2, 3; the profile is 3 either way, and the part is turned.
    ('triangle', 3, [(1, 2), (2, 3), (1, 3)], [3, 2, 1], [1, 2, 2], [1], (2, 3, 3, 2, 2)),
    # Order 2, 1, 3, 4: the profile falls from 4 to 3.
    ('star', 4, [(1, 2), (1, 3), (1, 4)], [3, 4, 2, 1], [2, 1, 3, 3], [1], (2, 3, 2, 3, 2)),
    # Order 1, 2, 4, 3: 5 either way.
    ('ring', 4, [(1, 2), (2, 3), (3, 4), (4, 1)], [4, 3, 1, 2], [1, 2, 3, 2], [1], (2, 5, 3, 3, 2)),
    # Order 4, 1, 2, 3, 5, a path.
    ('the graph of the sample', 5, [(1, 2), (1, 4), (2, 3), (3, 5)], [4, 3, 2, 5, 1], [2, 3, 4, 1, 5], [1], (1, 4, 2, 5, 1)),
    # Order 1, 5, 6, 4, 2, 7, 3 from v = 1, where the run starts at 3.
    ('no change of names', 7, NAMES, [7, 3, 1, 4, 6, 5, 2], [1, 3, 4, 2, 2, 2, 3], [2], (3, 11, 4, 4, 3)),
    # Level 2 is 8 then 6, by degree: 8 has the lower new number, so its 7 and 1 come before 9, 3 and 2 of 6.
    ('lowest-numbered by new numbers', 9, [(1, 3), (1, 4), (1, 8), (2, 4), (2, 6), (2, 7), (2, 9), (3, 4), (3, 6), (5, 6), (5, 8), (6, 9), (7, 8)],
     [5, 2, 3, 1, 9, 7, 6, 8, 4], [3, 3, 3, 4, 1, 2, 3, 2, 3], [1], (5, 23, 6, 4, 5)),
    # Path 1-3-5, star of centre 2 and leaves 4, 6, 7, node 8: all are turned, each within its own numbers.
    ('three parts', 8, [(1, 3), (3, 5), (2, 4), (2, 6), (2, 7)], [3, 6, 2, 7, 1, 5, 4, 8], [1, 2, 2, 1, 3, 3, 3, 1], [1, 1, 1], (2, 5, 2, 7, 2)),
]


def cuthill(starts, neighbours, counts=None):
    """The call as a dictionary, as bracket.run has the run; one unknown each unless there are counts, here and below."""
    n = len(starts) - 1
    numbers, levels, passes, scratch = [7] * n, [7] * n, [7] * n, [7] * (6 * n)
    state, value = calls.reverse_cuthill_mckee(starts, neighbours, counts or calls.ones(n), numbers, levels, passes, scratch)
    if state == 'refused' or len(value) != len(FIGURES) or any(scratch):
        raise AssertionError('reverse Cuthill-McKee: %s %r' % (state, value))
    return dict(zip(FIGURES, value), numbers=numbers, by_node=levels, passes=passes)


def worked_order(checks, name, n, edges, numbers, levels, passes, figures):
    got = cuthill(*calls.from_edges(n, edges))
    checks.equal(name + ': numbers', got['numbers'], numbers)
    checks.equal(name + ': levels', got['by_node'], levels)
    checks.equal(name + ': passes', got['passes'], passes + [0] * (n - len(passes)))
    checks.equal(name + ': figures', tuple(got[figure] for figure in FIGURES), (n, len(passes)) + figures)


# Claims.

def by_a_queue(rows, v):
    """The order before turning, said in another way: a queue, to whose end each node brings its new neighbours in E."""
    queue = [v]
    for p in queue:
        queue += sorted((q for q in rows[p] if q not in queue), key=lambda q: order_e(rows, q))
    return queue


def band_of_part(checks, rows, count, number, level, part):
    """A.3: "For a part of two or more nodes its bandwidth is at least the width w of those levels and at most 2w less 1", in unknowns. Gives w."""
    width = max(sum(count[p] for p in part if level[p] == i) for i in {level[p] for p in part})
    # The last unknown of a node is so far from the first of another: the unknowns of the nodes between, and all of theirs but one.
    order = sorted(part, key=number.get)
    ahead = {p: sum(count[q] for q in order[:t]) for t, p in enumerate(order)}
    own = max(ahead[q] + count[q] - ahead[p] - 1 for p in part for q in [p, *rows[p]] if number[p] <= number[q])
    checks.holds('its bandwidth is at least w and at most 2w - 1',
                 width <= own <= 2 * width - 1 if len(part) > 1 else own == width - 1)
    return width


def part_claims(checks, graph, got, part, first, counts):
    """Of a part whose lowest new number is `first`."""
    rows = rows_of(*graph)
    n, number, level, count = len(rows), dict(enumerate(got['numbers'], 1)), dict(enumerate(got['by_node'], 1)), dict(enumerate(counts, 1))
    v, _, k, _, _, passes = calls.ends(*graph, part[-1], [0] * (6 * n))[1]
    order = sorted(part, key=number.get)
    checks.equal('a part takes the next numbers', [number[p] for p in order], list(range(first, first + len(part))))
    checks.equal('v has the highest number of its part and level 1', (order[-1], level[v]), (v, 1))
    rooted = [0] * n
    calls.rooted_levels(*graph, v, rooted, [0] * n)
    checks.equal('levels are those rooted at v', [level[p] for p in part], [rooted[p - 1] for p in part])
    checks.equal('every level holds a node', {level[p] for p in part}, set(range(1, k + 1)))
    checks.holds('levels fall as the numbers rise', all(level[p] >= level[q] for p, q in zip(order, order[1:])))
    checks.holds('every number but the last of the part has a higher neighbour',
                 all(any(number[q] > number[p] for q in rows[p]) for p in order[:-1]))
    before = order[::-1]
    checks.equal('the order before turning is that of a queue', before, by_a_queue(rows, v))
    width = band_of_part(checks, rows, count, number, level, part)
    profiles = part_profile(rows, count, before), part_profile(rows, count, order)
    checks.holds('turning never makes the profile more (002, [24])', profiles[1] <= profiles[0])
    return k, width, passes, profiles[0] == profiles[1] and len(part) > 1


def claims(checks, graph, counts=None):
    """All claims of A.3 but the store's; how many parts of two or more nodes keep their profile, and are turned all the same."""
    counts = counts or calls.ones(len(graph[0]) - 1)
    rows, got = rows_of(*graph), cuthill(*graph, counts)
    n, done, first = len(rows), [], 1
    for part in parts_of(rows):
        done.append(part_claims(checks, graph, got, part, first, counts))
        first += len(part)
    checks.equal('numbers are 1 to n', sorted(got['numbers']), list(range(1, n + 1)))
    checks.holds('edges join equal or neighbouring levels',
                 all(abs(got['by_node'][p - 1] - got['by_node'][q - 1]) <= 1 for p in rows for q in rows[p]))
    checks.equal('nodes, parts, levels, width', (got['nodes'], got['parts'], got['levels'], got['width']),
                 (n, len(done), sum(k for k, *_ in done), max(width for _, width, *_ in done)))
    checks.equal('measures of the numbers', calls.measures(*graph, counts, got['numbers'], [0] * n)[1],
                 (got['bandwidth'], got['profile'], got['front']))
    checks.holds('bandwidth at most 2w - 1, front at most bandwidth + 1',
                 got['bandwidth'] <= 2 * got['width'] - 1 and got['front'] <= got['bandwidth'] + 1)
    checks.equal('passes are those of the search, and of the run', (got['passes'], got['passes']),
                 ([passes for _, _, passes, _ in done] + [0] * (n - len(done)), run(*graph)['passes']))
    return sum(equal for *_, equal in done)


def all_claims(checks, graph, counts=None):
    store = cuthill(*graph, counts)
    store_claims(checks, graph, store['numbers'], store['profile'], counts)
    return claims(checks, graph, counts)


def small_graphs(checks):
    for n in range(1, 6):
        for t, graph in enumerate(calls.small_graphs(n)):
            (all_claims if n < 5 or t % 16 == 0 else claims)(checks, graph)


def known_graphs(checks):
    """The worked graphs of the run, and those of several parts with other passes."""
    for _, edges, *_, numbers in WORKED:
        all_claims(checks, calls.from_edges(len(numbers), edges))
    for _, parts, passes, depths in PASSES:
        n, edges = of_parts(parts)
        graph = calls.from_edges(n, edges)
        all_claims(checks, graph)
        got = cuthill(*graph)
        checks.equal('passes of each part', (got['passes'], got['levels']), (passes + [0] * (n - len(passes)), sum(depths)))


def random_graphs(checks):
    rng = random.Random(1976)
    names_changed = equal_profiles = several = 0
    for t in range(220):
        n = rng.randint(1, 60)
        graph = calls.from_edges(n, random_edges(rng, n))
        equal_profiles += (all_claims if t % 4 == 0 else claims)(checks, graph)
        several += cuthill(*graph)['parts'] > 1
        for part in parts_of(rows_of(*graph)):
            v = calls.ends(*graph, part[0], [0] * (6 * n))[1][0]
            names_changed += report(*graph, part[0])[0] != v
    checks.holds('some part changes names in the run and not here', names_changed)
    checks.holds('some part keeps its profile and is turned', equal_profiles)
    checks.holds('some graph has several parts', several)


def limits(checks):
    n = 4096
    got = cuthill(*calls.from_edges(*path(n)))
    checks.equal('path of 4,096', (got['numbers'], got['by_node']), (list(range(n, 0, -1)), list(range(1, n + 1))))
    checks.equal('path of 4,096: figures', tuple(got[figure] for figure in FIGURES), (n, 1, 1, n - 1, 2, n, 1))
    got = cuthill(*calls.from_edges(n, []))
    checks.equal('4,096 isolated nodes', (got['numbers'], got['by_node'], got['passes']), (list(range(1, n + 1)), [1] * n, [1] * n))
    # v is 2, so the centre 1 comes next: numbers 4,096 and 4,095; the leaves come after them, from 3 on.
    got = cuthill(*calls.from_edges(n, [(1, q) for q in range(2, n + 1)]))
    checks.equal('star of 4,096', got['numbers'], [n - 1, n] + list(range(n - 2, 0, -1)))
    checks.equal('star of 4,096: figures', tuple(got[figure] for figure in FIGURES), (n, 1, n - 2, n - 1, 2, 3, n - 2))
    lent = [0] * n
    checks.equal('4,097 nodes', calls.reverse_cuthill_mckee(*calls.from_edges(n + 1, []), calls.ones(n + 1), lent, lent, lent, lent), ('refused', 1))


def main():
    checks = Checks('reverse Cuthill-McKee')
    for case in WORKED_ORDERS:
        worked_order(checks, *case)
    for subject in (small_graphs, known_graphs, random_graphs, limits):
        subject(checks)
    return checks.report()


if __name__ == '__main__':
    sys.exit(main())
