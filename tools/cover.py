"""Records of GRD's kinds for any set of nodes that all adjoin one another.

GRD has kinds of 2, 3, 4, 5, 6, 8 and 10 nodes. Another set is split into groups, and records are made of groups such that every two groups
meet in one: then any two nodes of the set stand in some record, and no record has a node from outside.
"""

from itertools import combinations

import grd

# The first kind of each count of nodes; a second kind of the same count makes the same nodes adjoin.
KIND = {count: kind for kind, (_, count) in sorted(grd.KINDS.items(), reverse=True)}

# Two groups of five fill the largest record.
GROUP = 5
# The twelve lines of the affine plane of nine points: every two points lie on one. With three nodes to a point it serves 27, the brick's count,
# by 12 records; by pairs of groups these would be 15.
PLANE = [tuple(int(point) for point in line) for line in '012 345 678 036 147 258 048 156 237 057 138 246'.split()]
PLANE_POINTS = 9
PLANE_NODES = (26, 27)


def design(count):
    """The number of groups for so many nodes, and the groups of each record."""
    if count in PLANE_NODES:
        return PLANE_POINTS, PLANE
    groups = max(3, -(-count // GROUP))
    return groups, list(combinations(range(groups), 2))


def filled(block, nodes):
    """A record of these nodes, with others of the set where no kind has so few."""
    others = [p for p in nodes if p not in block]
    while len(block) not in KIND:
        block = block + [others.pop(0)]
    return KIND[len(block)], block


def records(nodes):
    """Pairs of a kind and its nodes, each node once; a bar on one node, which joins nothing, where there is no second."""
    nodes = list(dict.fromkeys(nodes))
    if len(nodes) == 1:
        return [(KIND[2], nodes * 2)]
    if len(nodes) in KIND:
        return [(KIND[len(nodes)], nodes)]
    groups, blocks = design(len(nodes))
    return [filled([p for group in block for p in nodes[group::groups]], nodes) for block in blocks]
