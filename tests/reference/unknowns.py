"""Unknowns of the nodes: counts, numbers, how many a level has. From A.6 of document 02."""

FEWEST = 1
MOST = 6


def wrong_counts(n, counts):
    # 15: "for a count outside 1 to 6, or a library count list that hasn't n words"
    return len(counts) != n or any(count < FEWEST or count > MOST for count in counts)


def ones(n):
    # "Version 1 means one unknown each."
    return [1] * n


def count_of_nodes(counts):
    # "Each node gets a count from 1 to 6, listed by old number"
    return {p: counts[p - 1] for p in range(1, len(counts) + 1)}


def unknowns_of_nodes(count_of, number_of):
    """The numbers of each node's unknowns, under new numbers of the nodes."""
    # "Unknowns take consecutive numbers in the order of their nodes."
    unknowns_of = {}
    last = 0
    for p in sorted(number_of, key=lambda p: number_of[p]):
        unknowns_of[p] = range(last + 1, last + count_of[p] + 1)
        last += count_of[p]
    return unknowns_of


def width_in_unknowns(level_of, count_of):
    # "the w of the run, of A.3's call and of the part report is the greatest
    # number of unknowns in a level"
    unknowns_in = {}
    for z in level_of:
        unknowns_in[level_of[z]] = unknowns_in.get(level_of[z], 0) + count_of[z]
    return max(unknowns_in.values())
