"""Inputs of the calls on an adjacency: graphs, damaged lists, counts of unknowns, buffers of every length."""

import random
from collections import namedtuple

import calls
from calls import scratch_words
from graph import from_edges, small_graphs
from store import byte_count
from unknowns import MOST, ones

# Everything that the calls on an adjacency are handed; lent buffers hold 9s.
Input = namedtuple('Input', 'starts neighbours counts node numbering numbers levels sizes passes scratch words bytes first place')


def random_edges(rng, n):
    pairs = [(p, q) for q in range(2, n + 1) for p in range(1, q)]
    tree = [(rng.randint(max(1, q - 3), q - 1), q) for q in range(2, n + 1)]
    more = rng.sample(pairs, min(len(pairs), rng.randint(0, n)))
    name = rng.sample(range(1, n + 1), n)
    kept = [pair for pair in tree if rng.random() < 0.9] + more
    return {tuple(sorted((name[p - 1], name[q - 1]))) for p, q in kept}


def damaged(rng, starts, neighbours):
    """One word of either list is changed, added or removed."""
    lists = [list(starts), list(neighbours)]
    chosen = rng.choice(lists)
    way = rng.randint(0, 2)
    at = rng.randrange(len(chosen)) if chosen else 0
    if way == 0 and chosen:
        chosen[at] = max(0, chosen[at] + rng.choice([-1, 1, 3]))
    elif way == 1 and chosen:
        del chosen[at]
    else:
        chosen.insert(at, rng.randint(0, 3))
    return tuple(lists)


# So many unknowns, or two more than there are nodes: with more the checker takes long.
MOST_UNKNOWNS = 16


def good_counts(rng, n):
    """One unknown each, as many for every node, or any numbers from 1 to 6."""
    room, way = max(n + 2, MOST_UNKNOWNS), rng.random()
    if way < 0.25:
        return ones(n)
    if way < 0.4:
        return [rng.randint(1, min(MOST, room // max(1, n)))] * n
    counts = ones(n)
    for p in rng.sample(range(n), n):
        counts[p] += rng.randint(0, min(MOST - 1, room - sum(counts)))
    return counts


def bad_counts(rng, n):
    """A count of 0, of 7 or of 65,535 at one place or at all, a word too few or too many, or none."""
    counts, wrong, at = good_counts(rng, n), rng.choice([0, 7, 65535]), rng.randrange(max(1, n))
    return rng.choice([counts[:at] + [wrong] + counts[at + 1:], counts[:at] + [wrong] + counts[at + 1:], [wrong] * max(1, n),
                       counts[1:] if n else [1], counts + [rng.randint(1, MOST)], counts + [wrong], [] if n else [0]])


def lent(rng, need):
    """A lent buffer of 9s: mostly exact or longer, now and then short."""
    return [9] * max(0, need + rng.choice([0, 0, 0, 0, 1, 2, -1]))


def mark_bytes(starts, neighbours, counts, numbering):
    """How many bytes the elimination needs; 2 where it is refused."""
    state, value = calls.measures(starts, neighbours, counts, numbering, [9] * len(starts))
    return byte_count(value[1]) if state == 'accepted' else 2


def given(rng, starts, neighbours):
    """An input over the two lists."""
    n = max(0, len(starts) - 1)
    numbering = rng.sample(range(1, n + 1), n)
    if rng.random() < 0.1:
        numbering = (numbering + [n])[rng.randint(0, 1):]
    counts = (bad_counts if rng.random() < 0.15 else good_counts)(rng, n)
    node = rng.randint(0, n + 1) if rng.random() < 0.2 else rng.randint(min(1, n), n)
    # the 8n words of document 01 are now longer than need be
    scratch = [9] * (8 * n) if rng.random() < 0.1 else lent(rng, scratch_words(n))
    numbers, levels, sizes, passes, words = [lent(rng, n) for _ in range(5)]
    return Input(starts, neighbours, counts, node, numbering, numbers, levels, sizes, passes, scratch, words,
                 lent(rng, mark_bytes(starts, neighbours, counts, numbering)), lent(rng, MOST * n), lent(rng, MOST * n + 1))


def in_order(rng):
    """Bad counts with enough lent and with too little, a node and a numbering that are none or not, over legal lists and over a row that lacks
    its partner: 4, then 5, then 15, then 6 and 7."""
    inputs = []
    for lists in (from_edges(1, []), from_edges(2, [(1, 2)]), from_edges(3, [(1, 2), (2, 3)]), ([0, 1, 1, 1], [2])):
        n = len(lists[0]) - 1
        counts = ones(n)
        for bad in ([0] + counts[1:], counts[1:] + [7], [65535] * n, counts[1:], counts + [1], counts + [0], []):
            for node, numbering in ((1, list(range(1, n + 1))), (0, list(range(n))), (n + 1, [1] * (n + 1))):
                for less in (0, 1):
                    few, most = [9] * (n - less), [9] * (scratch_words(n) - less)
                    inputs.append(Input(*lists, bad, node, numbering, few, few, few, few, most, few, [9] * rng.randint(0, 2),
                                        [9] * (MOST * n), [9] * (MOST * n + 1)))
    return inputs


def all_small(rng, most):
    """All graphs of 1 to most nodes."""
    return [given(rng, *lists) for n in range(1, most + 1) for lists in small_graphs(n)]


def at_random(rng, count, least, most, harm=0.2):
    """Random graphs, some of them damaged."""
    inputs = []
    for _ in range(count):
        n = rng.randint(least, most)
        lists = from_edges(n, random_edges(rng, n))
        if rng.random() < harm:
            lists = damaged(rng, *lists)
        inputs.append(given(rng, *lists))
    return inputs


def seeded(seed):
    return random.Random(seed)
