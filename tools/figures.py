"""Bandwidth, profile and front of a numbering, by the documents' definitions: in unknowns, of which each node has one where nothing else is said.

Unknowns take consecutive numbers in the order of their nodes, and any two of one node, or of two nodes that adjoin, adjoin. So all unknowns of a
node have the same f: the first unknown of the lowest node among the node and its neighbours.
"""

from collections import namedtuple
from itertools import accumulate

import grd

# rows: neighbours by node number; counts: unknowns by node number. Place 0 is empty in both.
Graph = namedtuple('Graph', 'rows counts')


def graph(mesh):
    """Of a mesh, by its own numbers."""
    return Graph(grd.neighbours(mesh), grd.unknowns(mesh))


def renumbered(old, numbers):
    """The graph by new numbers, from the graph by old numbers."""
    new = Graph([set() for _ in old.rows], [0] * len(old.counts))
    for p in range(1, len(old.rows)):
        new.rows[numbers[p]] = {numbers[q] for q in old.rows[p]}
        new.counts[numbers[p]] = old.counts[p]
    return new


def size(graph):
    """How many unknowns there are: the rows of the matrix."""
    return sum(graph.counts)


def lasts(graph):
    """The last unknown of each node; 0 at place 0."""
    return list(accumulate(graph.counts))


def firsts(graph):
    """f_q for each unknown q: the least of q and the unknowns that it adjoins; place 0 is unused."""
    last, found = lasts(graph), [0]
    for p in range(1, len(graph.rows)):
        found += [last[min(graph.rows[p] | {p}) - 1] + 1] * graph.counts[p]
    return found


def bandwidth(graph):
    return max(q - f for q, f in enumerate(firsts(graph)))


def profile(graph):
    return sum(q - f for q, f in enumerate(firsts(graph)))


def front(graph):
    """The greatest count of unknowns in the front: j is in it from step f_j to step j."""
    first = firsts(graph)
    change = [0] * (len(first) + 1)
    for j, f in list(enumerate(first))[1:]:
        change[f] += 1
        change[j + 1] -= 1
    most = count = 0
    for step in change:
        count += step
        most = max(most, count)
    return most


def figures(graph):
    return bandwidth(graph), profile(graph), front(graph)
