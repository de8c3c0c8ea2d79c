"""Test of a numbering, bandwidth, profile and fronts, from the section 'Measures' of document 01.

A.6: "Bandwidth, profile, front .. are then measured in unknowns", so p, q, i and j are numbers of unknowns.
"""

from unknowns import unknowns_of_nodes


def is_numbering(n, numbering):
    # 7: "a given numbering isn't n words, each of 1..n once"
    return len(numbering) == n and sorted(numbering) == list(range(1, n + 1))


def number_of_nodes(numbering):
    """New number of each node; "Numbers and levels run by old number, a given numbering too"."""
    return {p: numbering[p - 1] for p in range(1, len(numbering) + 1)}


def adjoining(rows, count_of, number_of):
    """For each unknown the set of unknowns it adjoins."""
    # A.6: "Any two of one node, or of two nodes that adjoin, adjoin"
    unknowns_of = unknowns_of_nodes(count_of, number_of)
    adjoins = {}
    for p in number_of:
        near = {j for q in [p, *rows[p]] for j in unknowns_of[q]}
        for i in unknowns_of[p]:
            adjoins[i] = near - {i}
    return adjoins


def first(adjoins, q):
    # "f_q is the least of q and its neighbours."
    return min({q} | adjoins[q])


def bandwidth(adjoins):
    # "Bandwidth is the greatest difference over an edge, 0 with no edge."
    return max([0] + [abs(q - p) for q in adjoins for p in adjoins[q]])


def profile(adjoins):
    # "Profile is the sum of q - f_q."
    return sum(q - first(adjoins, q) for q in adjoins)


def fronts(adjoins):
    """Fronts at each number, from 1 on."""
    # "The front at i counts the j >= i such that j = i or j adjoins some
    # number <= i". Those above i that adjoin such a number are kept from one i to the next.
    found = []
    kept = set()
    for i in range(1, len(adjoins) + 1):
        kept.discard(i)
        kept.update(j for j in adjoins[i] if j > i)
        found.append(1 + len(kept))
    return found


def front(adjoins):
    # "the reported front is the greatest of these"
    return max(fronts(adjoins))
