"""Inputs of the call that takes a numbering from another tool (A.5): lists of pairs that give one and such as do not, figures, buffers."""

from collections import namedtuple

import calls
from graph import from_edges, small_graphs
from graphs import bad_counts, damaged, good_counts, lent, random_edges
from unknowns import ones

# figures: bandwidth, profile and front as the supplier sent them; lent buffers hold 9s.
Import = namedtuple('Import', 'starts neighbours counts pairs figures numbers scratch')


def pairs_for(rng, numbers):
    """The pairs of a numbering in any order, some of those that keep their number left out."""
    pairs = [pair for pair in enumerate(numbers, 1) if pair[0] != pair[1] or rng.random() < 0.5]
    return [word for pair in rng.sample(pairs, len(pairs)) for word in pair]


def spoilt(rng, n, pairs):
    """One word changed, added or taken away, a pair again or another one behind; the list may still be good."""
    at, word = rng.randrange(max(1, len(pairs))), rng.choice([0, n + 1, rng.randint(1, max(1, n)), 65535])
    return rng.choice([pairs[:at] + [word] + pairs[at + 1:], pairs[:at] + [word] + pairs[at + 1:], pairs + [word], pairs[1:], pairs[2:],
                       pairs + pairs[:2], pairs + [rng.randint(1, max(1, n)), word], pairs[-2:] + pairs])


def figures_of(starts, neighbours, counts, numbers):
    """Those of the measures, or the least that there are where they refuse."""
    state, value = calls.measures(starts, neighbours, counts, numbers, [9] * len(starts))
    return value if state == 'accepted' else (0, 0, 1)


def wrong_figures(rng, figures):
    """One figure one more, one less, larger by as much as 16 or 32 bits hold, or anything."""
    at = rng.randrange(3)
    other = rng.choice([figures[at] + 1, max(0, figures[at] - 1), figures[at] + 2 ** 16, figures[at] + 2 ** 32, rng.randint(0, 9), 2 ** 64 - 1])
    return figures[:at] + (other,) + figures[at + 1:]


def given(rng, starts, neighbours):
    """An input over the two lists: mostly one that is accepted."""
    n = max(0, len(starts) - 1)
    counts = (bad_counts if rng.random() < 0.1 else good_counts)(rng, n)
    numbers = rng.choice([list(range(1, n + 1)), rng.sample(range(1, n + 1), n)])
    pairs, figures = pairs_for(rng, numbers), figures_of(starts, neighbours, counts, numbers)
    if rng.random() < 0.3:
        pairs = spoilt(rng, n, pairs)
    if rng.random() < 0.25:
        figures = wrong_figures(rng, figures)
    return Import(starts, neighbours, counts, pairs, figures, *rng.sample([lent(rng, n), [9] * (n + rng.randint(0, 1))], 2))


def all_small(rng, most):
    return [given(rng, *lists) for n in range(1, most + 1) for lists in small_graphs(n)]


def at_random(rng, count, least, most, harm=0.1):
    """Random graphs, some of them damaged."""
    inputs = []
    for _ in range(count):
        n = rng.randint(least, most)
        lists = from_edges(n, random_edges(rng, n))
        inputs.append(given(rng, *(damaged(rng, *lists) if rng.random() < harm else lists)))
    return inputs


def engine_made(rng, count):
    """Numberings of the run and of reverse Cuthill-McKee with their figures and the same counts: each is accepted."""
    inputs = []
    for _ in range(count):
        n = rng.randint(1, 9)
        lists, counts = from_edges(n, random_edges(rng, n)), good_counts(rng, n)
        numbers = [9] * n
        call = rng.choice([calls.whole_run, calls.reverse_cuthill_mckee])
        _, figures = call(*lists, counts, numbers, [9] * n, [9] * n, [9] * calls.scratch_words(n))
        inputs.append(Import(*lists, counts, pairs_for(rng, numbers), figures[2:5], [9] * n, [9] * (n + rng.randint(0, 1))))
    return inputs


def lists_of_pairs(n):
    """For n nodes: such as 13 refuses, then such as 7 refuses, of one node all but the last, then good ones."""
    return [[1], [0, 1], [n + 1, 1], [1, 1, 1, 1], [1, 0, 1, 0], [1, 1, n], [1, 0], [n, n + 1], [1, 65535], [1, n], [], [1, 1]]


def in_order():
    """Each refusal with those that come after it: 4, then 5, then 15, then 13, 7 and 14."""
    inputs = []
    for lists in (from_edges(1, []), from_edges(3, [(1, 2), (2, 3)]), ([0, 1, 1, 1], [2])):
        n = len(lists[0]) - 1
        right, counts = figures_of(*lists, ones(n), list(range(1, n + 1))), ones(n)
        wrong = (right[0], right[1], right[2] + 1)
        for pairs in lists_of_pairs(n):
            inputs += [Import(*lists, counts, pairs, figures, [9] * (n + 1), [9] * n) for figures in (right, wrong)]
            inputs += [Import(*lists, bad, pairs, wrong, [9] * n, [9] * (n + 1)) for bad in ([0] * n, counts + [1])]
            inputs += [Import(*lists, [7] * n, pairs, wrong, [9] * (n - less), [9] * (n - 1 + less)) for less in (0, 1)]
    return inputs
