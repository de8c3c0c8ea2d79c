"""Counts of unknowns (request A.6): one for each node, from 1 to 6, by old number; and lists that refusal 15 is for."""

from unknowns import MOST, ones


def counts_of(draw, n, most=MOST):
    """One unknown each, as many for every node, or any from 1 to `most`."""
    way = draw.below(10)
    if way < 3:
        return ones(n)
    if way < 5:
        return [1 + draw.below(most)] * n
    return [1 + draw.below(most) for _ in range(n)]


def counted(draw, lists, most=MOST):
    """The two lists, and counts for their nodes."""
    starts, neighbours = lists
    return starts, neighbours, counts_of(draw, max(0, len(starts) - 1), most)


def wrong_counts(draw, counts):
    """A count that is none at one place or at all, or a list that is too short or too long."""
    n, wrong = len(counts), draw.one([0, 7, 255, 256, 257, 65535])
    if n == 0:
        return [draw.one([1, wrong])]
    at = draw.below(n)
    spoilt = counts[:at] + [wrong] + counts[at + 1:]
    return draw.one([spoilt, spoilt, spoilt, [wrong] * n, counts[1:], counts + [1 + draw.below(MOST)], counts + [wrong], []])


def miscounted(draw, graph):
    """The same with wrong counts."""
    starts, neighbours, counts = graph
    return starts, neighbours, wrong_counts(draw, counts)


def all_wrong_counts(n):
    """For n nodes: 0, 7 and 65,535 at either end and throughout; a word too few, a word too many, none, many; such as a byte would take for 1."""
    good, made = [1 + p % MOST for p in range(n)], []
    for wrong in (0, 7, 65535):
        made += [[wrong] + good[1:], good[:-1] + [wrong], [wrong] * n]
    made += [good[1:], good + [1], good + [0], [], [1] * (2 * n), [257] * n]
    return [list(counts) for counts in dict.fromkeys(map(tuple, made))]
