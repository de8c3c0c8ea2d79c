"""Document 01's bracket table, every row, its sample output; demand 3, sizes of levels (A.2) and passes of each part (A.9) on generated graphs."""

import os
import random
import subprocess
import sys

import calls
from checking import Checks
from graph import parts_of, rows_of
from numbering import forward_order, part_profile
from program import text_for
from store import eliminate

FIGURES = ('nodes', 'parts', 'bandwidth', 'profile', 'front', 'levels', 'width')
SAMPLE_EDGES = [(1, 2), (1, 4), (2, 3), (3, 5)]
SAMPLE_OUTPUT = (b'nodes 5 parts 1 bandwidth 1 profile 4 front 2 levels 5 width 1 passes 1\n'
                 b'1 2 2\n2 3 3\n3 4 4\n4 1 1\n5 5 5\n')


def run(starts, neighbours, counts=None):
    """The whole run as a dictionary: its figures by name, its numbers, its level list and its list of passes, each lent in use. One unknown each
    unless there are counts, here and below."""
    n = len(starts) - 1
    numbers, levels, passes = [7] * n, [7] * n, [7] * n
    state, value = calls.whole_run(starts, neighbours, counts or calls.ones(n), numbers, levels, passes, [7] * (6 * n))
    if state == 'refused':
        raise AssertionError('the run refused %d' % value)
    if len(value) != len(FIGURES):
        raise AssertionError('the run has %d figures' % len(value))
    return dict(zip(FIGURES, value), numbers=numbers, by_node=levels, passes=passes)


def report(starts, neighbours, node, counts=None):
    n = len(starts) - 1
    return calls.part_report(starts, neighbours, counts or calls.ones(n), node, [0] * (6 * n))[1]


# The starred rows.

def one_node(checks):
    got = run(*calls.from_edges(1, []))
    checks.equal('one node: numbers', got['numbers'], [1])
    checks.equal('one node: bandwidth', got['bandwidth'], 0)
    checks.equal('one node: profile', got['profile'], 0)
    checks.equal('one node: front', got['front'], 1)
    checks.equal('one node: passes', got['passes'], [1])


def two_isolated_nodes(checks):
    got = run(*calls.from_edges(2, []))
    checks.equal('two isolated: numbers', got['numbers'], [1, 2])
    checks.equal('two isolated: parts', got['parts'], 2)
    # A.9: "the two isolated nodes give counts 1, 1"; the program still prints 2.
    checks.equal('two isolated: passes', got['passes'], [1, 1])
    checks.equal('two isolated: program', text_for(grd_file(2, 0, [])),
                 b'nodes 2 parts 2 bandwidth 0 profile 0 front 1 levels 2 width 1 passes 2\n1 1 1\n2 2 1\n')


def triangle(checks):
    got = run(*calls.from_edges(3, [(1, 2), (2, 3), (1, 3)]))
    checks.equal('triangle: levels', got['by_node'], [1, 2, 2])
    checks.equal('triangle: numbers', got['numbers'], [1, 2, 3])
    checks.equal('triangle: bandwidth', got['bandwidth'], 2)
    checks.equal('triangle: profile', got['profile'], 3)
    checks.equal('triangle: front', got['front'], 3)


def star(checks):
    graph = calls.from_edges(4, [(1, 2), (1, 3), (1, 4)])
    got = run(*graph)
    v, u, k, width, passes, direction = report(*graph, 1)
    checks.equal('star: levels', got['by_node'], [2, 1, 3, 3])
    checks.equal('star: numbers', got['numbers'], [3, 4, 2, 1])
    checks.equal('star: direction', direction, 'Reversed')
    rows = rows_of(*graph)
    level_of = {p: got['by_node'][p - 1] for p in rows}
    one_each = {p: 1 for p in rows}
    checks.equal('star: profile forward', part_profile(rows, one_each, forward_order(rows, v, k, level_of)), 4)
    checks.equal('star: profile', got['profile'], 3)
    checks.equal('star: bandwidth', got['bandwidth'], 2)
    checks.equal('star: front', got['front'], 2)


def ring(checks):
    graph = calls.from_edges(4, [(1, 2), (2, 3), (3, 4), (4, 1)])
    got = run(*graph)
    checks.equal('ring: levels', got['by_node'], [1, 2, 3, 2])
    checks.equal('ring: numbers', got['numbers'], [1, 2, 4, 3])
    checks.equal('ring: bandwidth', got['bandwidth'], 2)
    checks.equal('ring: profile', got['profile'], 5)
    checks.equal('ring: marks and new',
                 calls.elimination(*graph, calls.ones(4), got['numbers'], [0] * 4, [0]), ('accepted', (5, 1)))


def sample_measures(checks):
    graph = calls.from_edges(5, SAMPLE_EDGES)
    numbering = [1, 2, 3, 4, 5]
    checks.equal('sample graph: measures',
                 calls.measures(*graph, calls.ones(5), numbering, [0] * 5), ('accepted', (3, 7, 3)))
    checks.equal('sample graph: fronts', calls.fronts_of(*graph, calls.ones(5), numbering), [3, 3, 3, 2, 1])


def refused_rows(checks):
    two = calls.from_edges(2, [])
    checks.equal('numbering 1, 1: measures', calls.measures(*two, calls.ones(2), [1, 1], [0, 0]), ('refused', 7))
    checks.equal('numbering 1, 1: elimination',
                 calls.elimination(*two, calls.ones(2), [1, 1], [0, 0], []), ('refused', 7))
    checks.equal('rows {2}, {}', calls.adjacency_test([0, 1, 1], [2]), ('refused', 4))
    checks.equal('rows {2}, {}: whole run',
                 calls.whole_run([0, 1, 1], [2], calls.ones(2), [0] * 2, [0] * 2, [0] * 2, [0] * 12), ('refused', 4))
    checks.equal('root 0', calls.rooted_levels(*two, 0, [0, 0], [0, 0]), ('refused', 6))


# The row without a star.

def path_edges(n):
    return [(p, p + 1) for p in range(1, n)]


def nodes_at_the_limit(checks):
    got = run(*calls.from_edges(4096, path_edges(4096)))
    checks.equal('4,096 nodes: path', (got['bandwidth'], got['profile'], got['front']), (1, 4095, 2))
    checks.equal('4,096 nodes: passes of a path', got['passes'], [1] + [0] * 4095)
    got = run(*calls.from_edges(4096, []))
    checks.equal('4,096 nodes: isolated', (got['parts'], got['passes']), (4096, [1] * 4096))
    lent = [0] * 4096
    checks.equal('4,097 nodes: whole run',
                 calls.whole_run(*calls.from_edges(4097, []), calls.ones(4097), lent, lent, lent, lent), ('refused', 1))
    checks.equal('4,096 nodes: mesh',
                 calls.mesh(4096, [], [0] * 4097, [0] * 32768, [0] * 4096), ('accepted', (0,)))
    checks.equal('4,097 nodes: mesh',
                 calls.mesh(4097, [], [0] * 4098, [0] * 32768, [0] * 4097), ('refused', 1))


def element_words(count_of_bars):
    """364 tetrahedra of 10 nodes make 32,760 entries; each bar adds 2 on nodes of its own."""
    words = []
    for t in range(364):
        words += [10] + list(range(10 * t + 1, 10 * t + 11))
    for t in range(count_of_bars):
        words += [1, 3641 + 2 * t, 3642 + 2 * t]
    return words


def entries_at_the_limit(checks):
    starts, neighbours, scratch = [0] * 3651, [0] * 32768, [0] * 3650
    checks.equal('32,768 entries: mesh',
                 calls.mesh(3650, element_words(4), starts, neighbours, scratch), ('accepted', (32768,)))
    checks.equal('32,768 entries: whole run', run(starts, neighbours)['parts'], 370)
    checks.equal('32,770 entries: mesh',
                 calls.mesh(3650, element_words(5), starts, neighbours, scratch), ('refused', 11))
    checks.equal('32,770 entries: program', text_for(grd_file(3650, 369, element_words(5))),
                 b'refused 11\n')


# The program.

def grd_file(n, count, words, counts=None):
    """Version 1, or version 2 if there are counts."""
    file = b'GRD'
    for word in [1, n, count] + words if counts is None else [2, n, count] + counts + words:
        file += bytes([word % 256, word // 256])
    return file


def program_output(file):
    """What the program really writes to standard output."""
    program = os.path.join(os.path.dirname(os.path.abspath(__file__)), 'program.py')
    done = subprocess.run([sys.executable, '-B', program], input=file, stdout=subprocess.PIPE)
    return done.stdout


def sample_output(checks):
    words = []
    for p, q in SAMPLE_EDGES:
        words += [1, p, q]
    checks.equal('program: sample', program_output(grd_file(5, 4, words)), SAMPLE_OUTPUT)
    checks.equal('program: unknown kind', program_output(grd_file(5, 1, [11])), b'refused 9\n')


# The sizes of levels.

def rooted(starts, neighbours, root):
    """The call at a root, with lists that are lent in use: (depth, width, reached), levels, sizes."""
    n = len(starts) - 1
    levels, sizes = [7] * n, [7] * n
    state, value = calls.rooted_levels(starts, neighbours, root, levels, sizes)
    if state == 'refused':
        raise AssertionError('root %d refused by %d' % (root, value))
    return value, levels, sizes


def sizes_claims(checks, starts, neighbours):
    """A.2: "The sizes add up to the count reached, for every root." The greatest is the width, and the widths at the ends come of such lists."""
    n = len(starts) - 1
    part_at = {p: part for part in parts_of(rows_of(starts, neighbours)) for p in part}
    greatest = {}
    for root in range(1, n + 1):
        (depth, width, reached), levels, sizes = rooted(starts, neighbours, root)
        greatest[root] = max(sizes)
        checks.equal('the sizes add up to the count reached, the part of the root', (sum(sizes), len(part_at[root])), (reached, reached))
        checks.equal('the greatest size is the width', max(sizes), width)
        checks.equal('each word is the count of its level', sizes, [levels.count(i) for i in range(1, n + 1)])
        checks.equal('zeros stand after the depth, and only there', [size > 0 for size in sizes], [i <= depth for i in range(1, n + 1)])
    for node in range(1, n + 1):
        v, u, _, width_v, width_u, _ = calls.ends(starts, neighbours, node, [0] * (6 * n))[1]
        checks.equal('the widths at v and u are the greatest sizes there', (width_v, width_u), (greatest[v], greatest[u]))


def sizes_of_small_graphs(checks):
    for n in range(1, 5):
        for graph in calls.small_graphs(n):
            sizes_claims(checks, *graph)


# The passes of each part.

def passes_claims(checks, graph, got):
    """A.9: "For every graph each count is at least 1 and at most its own part's depth." The search in each part says the same counts."""
    rows = rows_of(*graph)
    n, parts = len(rows), parts_of(rows)
    ends = [calls.ends(*graph, part[0], [0] * (6 * n))[1] for part in parts]
    checks.equal('a word for each node', len(got['passes']), n)
    checks.equal('a count for every part, as the parts are ordered, then zeros', got['passes'],
                 [found[5] for found in ends] + [0] * (n - len(parts)))
    for found, count in zip(ends, got['passes']):
        checks.holds('each count is at least 1 and at most the depth of its part', 1 <= count <= found[2])
    checks.equal('the counts add up to the single counter of document 01', sum(got['passes']),
                 sum(report(*graph, part[0])[4] for part in parts))


def passes_of_small_graphs(checks):
    for n in range(1, 6):
        for graph in calls.small_graphs(n):
            passes_claims(checks, graph, run(*graph))


# Demand 3 on random graphs.

def random_tree(rng, n):
    return [(rng.randint(max(1, p - 6), p - 1), p) for p in range(2, n + 1)]


def random_edges(rng, n):
    """A tree with some nodes cut off and some short edges, under mixed old numbers."""
    edges = [edge for edge in random_tree(rng, n) if rng.random() < rng.choice([0.8, 0.97, 1])]
    for _ in range(rng.choice([0, n // 6, n // 2, n])):
        p = rng.randint(1, n)
        q = min(n, p + rng.randint(1, 8))
        if p != q:
            edges.append((p, q))
    names = list(range(1, n + 1))
    rng.shuffle(names)
    return [(names[p - 1], names[q - 1]) for p, q in edges]


def levels_claims(checks, graph, got, counts=None):
    """Occupied levels, edges between neighbouring levels, passes; gives the part reports."""
    rows = rows_of(*graph)
    reports = []
    for part in parts_of(rows):
        done = report(*graph, part[0], counts)
        k, passes = done[2], done[4]
        checks.equal('every level holds a node, every node stands in a level',
                     {got['by_node'][p - 1] for p in part}, set(range(1, k + 1)))
        checks.holds('passes of a part are at most k', 1 <= passes <= k)
        reports.append(done)
    checks.holds('edges join equal or neighbouring levels',
                 all(abs(got['by_node'][p - 1] - got['by_node'][q - 1]) <= 1
                     for p in rows for q in rows[p]))
    return reports


def figures_claims(checks, graph, got, reports, counts=None):
    n = len(graph[0]) - 1
    checks.equal('numbers are 1 to n', sorted(got['numbers']), list(range(1, n + 1)))
    checks.holds('bandwidth at most 2w - 1', got['bandwidth'] <= 2 * got['width'] - 1)
    checks.holds('front at most bandwidth + 1', got['front'] <= got['bandwidth'] + 1)
    checks.equal('measures of the numbers', calls.measures(*graph, counts or calls.ones(n), got['numbers'], [0] * n)[1],
                 (got['bandwidth'], got['profile'], got['front']))
    checks.equal('levels and width of the parts', (got['levels'], got['width']),
                 (sum(r[2] for r in reports), max(r[3] for r in reports)))


def joined_at_first(graph, counts):
    """How many pairs of unknowns adjoin: those of one node, and those of each edge."""
    rows = rows_of(*graph)
    return sum(c * (c - 1) // 2 for c in counts) + sum(counts[p - 1] * counts[q - 1] for p in rows for q in rows[p] if p < q)


def store_claims(checks, graph, numbers, profile, counts=None):
    """Every pair joined at any time has a place; places are distinct and below the profile."""
    counts = counts or calls.ones(len(numbers))
    place_of = calls.places_of(*graph, counts, numbers)
    checks.equal('places are 0 to profile - 1', sorted(place_of.values()), list(range(profile)))
    joined = calls.joined_after(*graph, counts, numbers, 0)
    for i in range(sum(counts) + 1):
        if i > 0:
            eliminate(joined, i, sum(counts))
        checks.holds('every pair joined after %d eliminations has a place' % i,
                     all(pair in place_of for pair in joined))
    checks.equal('the pairs joined after the last', joined, calls.joined_after(*graph, counts, numbers, sum(counts)))
    mark_bytes = [0] * ((profile + 7) // 8)
    state, value = calls.elimination(*graph, counts, numbers, [0] * len(numbers), mark_bytes)
    checks.equal('elimination accepts', state, 'accepted')
    ones = {t for t in range(8 * len(mark_bytes)) if mark_bytes[t // 8] >> t % 8 & 1}
    checks.equal('marks stand at the pairs joined at the end', ones, {place_of[pair] for pair in joined})
    checks.equal('counts of marks and new pairs', value, (len(joined), len(joined) - joined_at_first(graph, counts)))


def demand_3(checks):
    rng = random.Random(1976)
    names_changed = three_passes = both_directions = other_counts = 0
    for t in range(220):
        n = rng.randint(1, 60)
        graph = calls.from_edges(n, random_edges(rng, n))
        got = run(*graph)
        reports = levels_claims(checks, graph, got)
        figures_claims(checks, graph, got, reports)
        sizes_claims(checks, *graph)
        passes_claims(checks, graph, got)
        if t % 4 == 0:
            store_claims(checks, graph, got['numbers'], got['profile'])
        names_changed += sum(calls.ends(*graph, r[0], [0] * (6 * n))[1][0] != r[0] for r in reports)
        three_passes += sum(r[4] >= 3 for r in reports)
        both_directions += {r[5] for r in reports} == {'Forward', 'Reversed'}
        other_counts += len({r[4] for r in reports}) > 1
    # Small graphs never show these, so see that the random ones do.
    checks.holds('some part changes names', names_changed)
    checks.holds('some part takes three passes', three_passes)
    checks.holds('some run has both directions', both_directions)
    checks.holds('some run has parts of one pass and of more', other_counts)


def main():
    checks = Checks('bracket table')
    for row in (one_node, two_isolated_nodes, triangle, star, ring, sample_measures, refused_rows,
                nodes_at_the_limit, entries_at_the_limit, sample_output, sizes_of_small_graphs, passes_of_small_graphs, demand_3):
        row(checks)
    return checks.report()


if __name__ == '__main__':
    sys.exit(main())
