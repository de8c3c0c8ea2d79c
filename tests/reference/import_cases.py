"""Numberings from other mesh tools (A.5): worked with pencil; refusals 13, 7 and 14 among the others, and what they leave; exactly which lists are
accepted; and the claim that what our engine made is accepted with its figures."""

import random
import sys
from itertools import combinations, permutations, product

import calls
from bracket import SAMPLE_EDGES, path_edges, random_edges, run
from checking import Checks
from cuthill_cases import cuthill
from refusals import BROKEN_LISTS, OLD, ONES, PATH, answer_and_buffers, untouched, words
from unknown_cases import measures_by_nodes
from worked import star_edges

RING = [(1, 2), (2, 3), (3, 4), (4, 1)]

# name, counts, edges, pairs, numbers, (bandwidth, profile, front)
WORKED = [
    ('one node, no pair', [1], [], [], [1], (0, 0, 1)),
    ('one node by its own number', [1], [], [1, 1], [1], (0, 0, 1)),
    # c unknowns that adjoin: c - 1, 1 + .. + (c - 1), c.
    ('one node of four', [4], [], [], [1], (3, 6, 4)),
    ('one node of six', [6], [], [1, 1], [1], (5, 15, 6)),
    # Document 01's table has these three of the old order.
    ('the sample, no pair', [1] * 5, SAMPLE_EDGES, [], [1, 2, 3, 4, 5], (3, 7, 3)),
    # The order of document 01's output; node 5 keeps its number.
    ('the sample, as the program numbers it', [1] * 5, SAMPLE_EDGES, [4, 1, 1, 2, 2, 3, 3, 4], [2, 3, 4, 1, 5], (1, 4, 2)),
    ('the same with node 5', [1] * 5, SAMPLE_EDGES, [5, 5, 3, 4, 2, 3, 1, 2, 4, 1], [2, 3, 4, 1, 5], (1, 4, 2)),
    # Numbers 1, 3, 2: f is 1, 2, 1. The front at 1 is 1 and 3, at 2 it is 2 and 3.
    ('a swap of two', [1] * 3, path_edges(3), [2, 3, 3, 2], [1, 3, 2], (2, 2, 2)),
    # Old then new: edges 2-3 and 3-1, so f is 1, 2, 1. Read the other way the numbers would be 3, 1, 2, the edges 3-1 and 1-2, the profile 3.
    ('a turn of three', [1] * 3, path_edges(3), [1, 2, 2, 3, 3, 1], [2, 3, 1], (2, 2, 2)),
    # Old then new: edges 1-3 and 1-2, so f is 1, 1, 1, 4. The other way they would be 1-4 and 1-3, the profile 5.
    ('a turn of three beside its centre', [1] * 4, [(1, 2), (1, 4)], [2, 3, 3, 4, 4, 2], [1, 3, 4, 2], (2, 3, 3)),
    # Nine unknowns that adjoin, whichever comes first.
    ('a pair, turned', [3, 6], [(1, 2)], [1, 2, 2, 1], [2, 1], (8, 36, 9)),
    # Node 2 has the unknowns 1, 2, 3, node 3 has 4, 5, node 1 has 6. f is 1, 1, 1, 4, 4, 1. The front at 1 is 1, 2, 3, 6.
    ('counts go by old number', [1, 3, 2], [(1, 2)], [1, 3, 2, 1, 3, 2], [3, 1, 2], (5, 9, 4)),
    # The ring of unknown_cases: node 1 has 1, node 2 has 2, 3, node 4 has 4, node 3 has 5, 6, 7.
    ('ring', [1, 2, 3, 1], RING, [3, 4, 4, 3], [1, 2, 4, 3], (5, 18, 6)),
    # The star's centre last but one: f is 1, 2, 1, 3.
    ('star', [1] * 4, star_edges(4), [1, 3, 2, 4, 3, 2, 4, 1], [3, 4, 2, 1], (2, 3, 2)),
]

# For three nodes: each is 13, whatever the new numbers and the figures are.
WRONG_PAIRS = [
    ('a single word', [1]), ('a single word 0', [0]), ('three words', [1, 1, 2]), ('seven words', [1, 2, 2, 3, 3, 1, 1]),
    ('old number 0', [0, 1]), ('old number 0 with new number 0', [0, 0]), ('old number 4', [4, 4]), ('old number 4 for 1', [1, 4, 4, 1]),
    ('old number 65,535', [65535, 1]), ('old number 0 last', [1, 1, 2, 2, 0, 3]),
    ('a pair twice', [1, 2, 2, 1, 1, 2]), ('a node by its own number twice', [2, 2, 2, 2]), ('an old number twice', [1, 2, 1, 3]),
    ('an old number twice, other pairs between', [3, 1, 1, 2, 2, 3, 3, 1]), ('all pairs twice', [1, 2, 2, 3, 3, 1] * 2),
    ('eight words', [1, 1, 2, 2, 3, 3, 1, 1]), ('70,000 words', [1, 1] * 35000), ('70,001 words', [1, 1] * 35000 + [2]),
    ('65,536 words behind six', [1, 1, 2, 2, 3, 3] + [0] * 65536),
    ('an old number twice, new number 0', [1, 0, 1, 0]), ('old number 4, new number 65,535', [4, 65535]),
    ('an odd word behind a wrong number', [1, 9, 2]),
]

# For three nodes: each is 7, whatever the figures are.
NO_NUMBERINGS = [
    ('new number 0', [1, 0]), ('new number 0 in all', [1, 0, 2, 0, 3, 0]), ('new number 4', [3, 4]), ('new number 65,535', [3, 65535]),
    ('number 257 for 1', [1, 257]), ('a new number twice', [1, 2, 2, 2]), ('a new number twice, all listed', [1, 2, 2, 1, 3, 1]),
    ('the number of a node that keeps it', [1, 3]), ('the same, another pair behind', [1, 3, 2, 2]), ('the numbers of two that keep them', [3, 1]),
    ('two for two, one of a third that keeps it', [1, 2, 2, 3]), ('one of a turn of three left out', [2, 3, 3, 1]),
]


def given(graph, counts, pairs, figures):
    return [*graph, list(counts), list(pairs), *figures]


def accepted(checks, name, graph, counts, pairs, numbers, figures):
    """The numbers are handed back, and the scratch is 0; two words more than are asked for stay."""
    n = len(counts)
    for more in (0, 2):
        answer_and_buffers(checks, name, calls.import_numbering, given(graph, counts, pairs, figures), [words(n + more), words(n + more)],
                           ('accepted', ()), [list(numbers) + words(more), [0] * n + words(more)])


def scratch_cleared(checks, name, graph, counts, pairs, figures, number):
    """Refused by 7 or 14: the n scratch words are 0, the lent numbering stays."""
    n = len(counts)
    for more in (0, 2):
        answer_and_buffers(checks, name, calls.import_numbering, given(graph, counts, pairs, figures), [words(n + more), words(n + more)],
                           ('refused', number), [words(n + more), [0] * n + words(more)])


def all_stays(checks, name, graph, counts, pairs, figures, number, sizes=(5, 5)):
    untouched(checks, name, calls.import_numbering, given(graph, counts, pairs, figures), [words(size) for size in sizes], number)


# Worked with pencil, and figures that are wrong.

def wrong_figures(figures):
    """Each figure one less and one more, with more bits, of 0, and in another's place."""
    made = []
    for t in range(3):
        for other in (figures[t] - 1, figures[t] + 1, figures[t] + 2 ** 16, figures[t] + 2 ** 32, figures[t] + 2 ** 63, 0, 2 ** 64 - 1):
            made.append(tuple(other if i == t else figures[i] for i in range(3)))
    made += list(permutations(figures)) + [(0, 0, 0), tuple(f + 2 ** 32 for f in figures)]
    return [other for other in dict.fromkeys(made) if other != tuple(figures) and min(other) >= 0]


def worked(checks, name, counts, edges, pairs, numbers, figures):
    graph = calls.from_edges(len(counts), edges)
    accepted(checks, name, graph, counts, pairs, numbers, figures)
    for other in wrong_figures(figures):
        scratch_cleared(checks, '%s, figures %d %d %d' % (name, *other), graph, counts, pairs, other, 14)


# Refusals in their order.

RIGHT = (1, 2, 2)


def wrong_pairs(checks):
    """13, with figures that are right and wrong."""
    for name, pairs in WRONG_PAIRS:
        for figures in (RIGHT, (0, 0, 0), (2 ** 64 - 1,) * 3):
            all_stays(checks, '13, ' + name, PATH, ONES, pairs, figures, 13)


def no_numberings(checks):
    """7, with figures that are right of the old order, and wrong."""
    for name, pairs in NO_NUMBERINGS:
        for figures in (RIGHT, (2, 2, 2), (0, 0, 0), (2 ** 64 - 1,) * 3):
            scratch_cleared(checks, '7, ' + name, PATH, ONES, pairs, figures, 7)


def refusals_in_order(checks):
    """1 to 4, 5, 15, 13, 7, 14: each with all those that come after it."""
    worst = [([1], (9, 9, 9)), ([1, 2, 1, 2], (9, 9, 9)), ([1, 0], (9, 9, 9)), ([], (9, 9, 9)), ([], RIGHT)]
    for pairs, figures in worst:
        for fault, starts, neighbours, number in BROKEN_LISTS:
            for counts in ([], [1] * max(0, len(starts) - 1)):
                for length in (0, 40):
                    all_stays(checks, 'order, ' + fault, (list(starts), list(neighbours)), counts, pairs, figures, number, (length, length))
        for counts in (ONES, [], [0, 7, 0], [1] * 4):
            for sizes in ((2, 3), (3, 2), (0, 9), (9, 0), (2, 2), (0, 0)):
                all_stays(checks, 'order, lent %d and %d' % sizes, PATH, counts, pairs, figures, 5, sizes)
        for counts in ([], [1, 1], [1] * 4, [0, 1, 1], [1, 1, 7], [65535] * 3, [257] * 3):
            for sizes in ((3, 3), (5, 5)):
                all_stays(checks, 'order, counts %r' % counts, PATH, counts, pairs, figures, 15, sizes)


def one_number_wrong(checks):
    """Pairs of 40 nodes along a path, turned end for end: one old number is another's, at each place; and one new number."""
    n = 40
    graph, figures = calls.from_edges(n, path_edges(n)), (1, n - 1, 2)
    turned = [word for p in range(1, n + 1) for word in (p, n + 1 - p)]
    accepted(checks, 'turned', graph, [1] * n, turned, list(range(n, 0, -1)), figures)
    for place in range(2 * n):
        for other in (0, n + 1, 65535, turned[(place + 2) % (2 * n)]):
            pairs = turned[:place] + [other] + turned[place + 1:]
            name = 'turned, %d at place %d' % (other, place)
            if place % 2 == 0:
                all_stays(checks, name, graph, [1] * n, pairs, figures, 13, (n, n))
            else:
                scratch_cleared(checks, name, graph, [1] * n, pairs, figures, 7)
    # The first old number again, last; the last one, first.
    for pairs in (turned + turned[:2], turned[-2:] + turned, turned[:-2] + turned[:2], turned[:-1], turned[1:], turned + [1]):
        all_stays(checks, 'turned, %d words' % len(pairs), graph, [1] * n, pairs, figures, 13, (n, n))


# Exactly which lists.

def good_lists(n):
    """The lists that give a numbering, and that numbering: for each numbering any nodes in any order, those that it moves among them."""
    found = {}
    for numbers in permutations(range(1, n + 1)):
        moved = {p for p in range(1, n + 1) if numbers[p - 1] != p}
        for size in range(n + 1):
            for listed in combinations(range(1, n + 1), size):
                if moved <= set(listed):
                    for order in permutations(listed):
                        found[tuple(word for p in order for word in (p, numbers[p - 1]))] = list(numbers)
    return found


def exactly(checks, n, graph, counts, most):
    """Every list of up to so many words of 0 to n + 1: accepted exactly if it is a good one, with the figures of its numbering and no others."""
    good, right = good_lists(n), {}
    for numbers in permutations(range(1, n + 1)):
        right[numbers] = measures_by_nodes(graph, counts, list(numbers))
    every = sorted(set(right.values()))
    for length in range(most + 1):
        for pairs in product(range(n + 2), repeat=length):
            for figures in every:
                numbers, scratch = words(n), words(n)
                answer = calls.import_numbering(*given(graph, counts, pairs, figures), numbers, scratch)
                if pairs not in good:
                    checks.holds('no good list', answer in (('refused', 13), ('refused', 7)) and numbers == words(n))
                elif right[tuple(good[pairs])] != figures:
                    checks.equal('figures of another', (answer, numbers, scratch), (('refused', 14), words(n), [0] * n))
                else:
                    checks.equal('a good list', (answer, numbers, scratch), (('accepted', ()), good[pairs], [0] * n))


def small_lists(checks):
    exactly(checks, 1, calls.from_edges(1, []), [3], 4)
    exactly(checks, 2, calls.from_edges(2, [(1, 2)]), [1, 2], 5)
    exactly(checks, 2, calls.from_edges(2, []), [1, 1], 4)
    exactly(checks, 3, calls.from_edges(3, [(1, 2)]), [1, 1, 2], 4)
    # All good lists of a path of four, of unequal counts, those of eight words among them.
    graph, counts = calls.from_edges(4, path_edges(4)), [2, 1, 3, 1]
    for pairs, numbers in good_lists(4).items():
        accepted(checks, 'a good list of four', graph, counts, pairs, numbers, measures_by_nodes(graph, counts, numbers))


# The claim.

def lists_for(rng, numbers):
    """The pairs of a numbering: all in order, all in any order, without the nodes that keep their number, and without some of these."""
    everyone = list(enumerate(numbers, 1))
    moved = [pair for pair in everyone if pair[0] != pair[1]]
    some = [pair for pair in everyone if pair[0] != pair[1] or rng.random() < 0.5]
    for chosen in (everyone, rng.sample(everyone, len(everyone)), rng.sample(moved, len(moved)), rng.sample(some, len(some))):
        yield [word for pair in chosen for word in pair]


def claim(checks, rng, name, graph, counts, numbers, figures):
    """Handed in any order, with or without the nodes that keep their number: accepted, whole, and eliminated as it stands."""
    n = len(counts)
    for pairs in lists_for(rng, numbers):
        accepted(checks, name, graph, counts, pairs, numbers, figures)
        for t in range(3):
            wrong = [f + (rng.choice([-1, 1]) if f else 1) * (i == t) for i, f in enumerate(figures)]
            scratch_cleared(checks, name + ', a figure wrong', graph, counts, pairs, wrong, 14)
    back = words(n)
    calls.import_numbering(*given(graph, counts, pairs, figures), back, words(n))
    mark_bytes = [0] * ((figures[1] + 7) // 8)
    checks.equal(name + ', then eliminated', calls.elimination(*graph, counts, back, words(n), mark_bytes)[0], 'accepted')


def claims(checks, rng, graph, counts):
    """A.5: "A numbering that our engine made is accepted with the engine's figures." A.6: it hands "both their calls the same" counts."""
    n = len(counts)
    for name, call in (('run', run), ('reverse Cuthill-McKee', cuthill)):
        got = call(*graph, counts)
        claim(checks, rng, name, graph, counts, got['numbers'], (got['bandwidth'], got['profile'], got['front']))
    numbers = rng.sample(range(1, n + 1), n)
    claim(checks, rng, 'any numbering', graph, counts, numbers, calls.measures(*graph, counts, numbers, [0] * n)[1])


def claimed(checks):
    rng = random.Random(5)
    for n in range(1, 5):
        for graph in calls.small_graphs(n):
            claims(checks, rng, graph, [rng.randint(1, 6) for _ in range(n)])
    for t in range(60):
        n = rng.randint(1, 24)
        counts = [1] * n if t % 3 == 0 else [rng.randint(1, 6) for _ in range(n)]
        claims(checks, rng, calls.from_edges(n, random_edges(rng, n)), counts)


def other_counts(checks):
    """With other counts than the engine had, its figures are wrong."""
    graph = calls.from_edges(5, SAMPLE_EDGES)
    got = run(*graph)
    pairs, figures = list(next(lists_for(random.Random(5), got['numbers']))), (got['bandwidth'], got['profile'], got['front'])
    scratch_cleared(checks, 'other counts', graph, [1, 1, 1, 1, 2], pairs, figures, 14)
    accepted(checks, 'the same counts', graph, [1] * 5, pairs, got['numbers'], figures)


# Limits.

def limits(checks):
    """4,096 nodes along a path, of one unknown and of six; 2n words and two more; a star, whose figures are the greatest that there are."""
    n = 4096
    graph, same = calls.from_edges(n, path_edges(n)), list(range(1, n + 1))
    for count, figures in ((1, (1, n - 1, 2)), (6, (11, 36 * (n - 1) + 15 * n, 12))):
        counts = [count] * n
        turned = [word for p in same for word in (p, n + 1 - p)]
        for pairs, numbers in (([], same), (turned, same[::-1]), (turned[-2:] + turned[:-2], same[::-1]), ([n, n], same)):
            accepted(checks, '4,096 of %d, %d words' % (count, len(pairs)), graph, counts, pairs, numbers, figures)
        for pairs in (turned + [n, 1], turned + [1, n], turned[:-1], [n + 1, 1], turned[:-2] + [1, 1]):
            all_stays(checks, '4,096 of %d, %d words' % (count, len(pairs)), graph, counts, pairs, figures, 13, (n, n))
        scratch_cleared(checks, '4,096 of %d, number 4,097' % count, graph, counts, turned[:-1] + [n + 1], figures, 7)
        scratch_cleared(checks, '4,096 of %d, front wrong' % count, graph, counts, turned, figures[:2] + (figures[2] + 1,), 14)
    star = calls.from_edges(n, star_edges(n))
    figures = (24575, 24576 * 24575 // 2, 24576)
    accepted(checks, 'star of 4,096', star, [6] * n, [1, 1], same, figures)
    for wrong in ((figures[0], figures[1] - 2 ** 16, figures[2]), (figures[0], figures[1] + 2 ** 32, figures[2]), (24575 - 2 ** 14,) + figures[1:]):
        scratch_cleared(checks, 'star of 4,096, a figure wrong', star, [6] * n, [], wrong, 14)


def any_words(checks):
    """Small words at random: refusals by 1 to 5, 15 and 13 leave all; no other number than these, 7 and 14 is answered."""
    rng = random.Random(1976)
    for _ in range(4000):
        n = rng.randint(1, 4)
        graph = rng.choice(list(calls.small_graphs(n)))
        counts = [rng.choice([1, 1, 2, 6] + [0] * (rng.random() < 0.1)) for _ in range(n + (rng.random() < 0.05))]
        pairs = [rng.randint(0 if rng.random() < 0.1 else 1, n + (rng.random() < 0.1)) for _ in range(rng.randint(0, 2 * n + 1))]
        figures = [rng.choice([0, 1, 2, 3, 5, 2 ** 32]) for _ in range(3)]
        lent = [words(n + rng.choice([0, 0, 0, 1, -1])) for _ in range(2)]
        before = [list(buffer) for buffer in lent]
        state, value = calls.import_numbering(*given(graph, counts, pairs, figures), *lent)
        if state == 'refused' and value in (5, 15, 13):
            checks.equal('any words', lent, before)
        else:
            checks.holds('any words', state == 'accepted' or value in (7, 14))
            checks.equal('any words: scratch', lent[1], [0] * n + before[1][n:])
            checks.holds('any words: numbers', state == 'accepted' or lent[0] == before[0])


def main():
    checks = Checks('numberings from other tools')
    for case in WORKED:
        worked(checks, *case)
    for subject in (wrong_pairs, no_numberings, refusals_in_order, one_number_wrong, small_lists, claimed, other_counts, limits, any_words):
        subject(checks)
    return checks.report()


if __name__ == '__main__':
    sys.exit(main())
