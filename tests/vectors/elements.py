"""Elements, each a list of its kind and its nodes: random ones, and meshes of collapsed ones, which have a node more than once (request A.1)."""

from mesh import NODE_COUNT


def element(draw, n):
    """One in eight is collapsed and may have any kind: its nodes are fewer than its places. With one node all are so."""
    if n == 1 or draw.chance(0.125):
        kind = draw.one(list(NODE_COUNT))
        few = draw.some(range(1, n + 1), 1 + draw.below(min(n, NODE_COUNT[kind] - 1)))
        nodes = few + [draw.one(few) for _ in range(NODE_COUNT[kind] - len(few))]
        return [kind] + draw.some(nodes, len(nodes))
    kind = draw.one([k for k in NODE_COUNT if NODE_COUNT[k] <= n])
    return [kind] + draw.some(range(1, n + 1), NODE_COUNT[kind])


# Meshes: n and the elements.

def one_node_twice():
    """Each kind with one node at two places, at each pair of them."""
    for kind, size in NODE_COUNT.items():
        nodes = list(range(1, size + 1))
        for i in range(size):
            for p in nodes[:i]:
                yield size, [[kind] + nodes[:i] + [p] + nodes[i + 1:]]


def quadrilaterals():
    """A triangle beside another, and in its place a quadrilateral with one corner twice, at each pair of places."""
    corners, other = [1, 2, 3], [2, 2, 3, 4]
    yield 4, [[2] + corners, other]
    for i in range(1, 4):
        for j in range(i):
            yield 4, [[3] + corners[:i] + [corners[j]] + corners[i:], other]


def on_few_nodes():
    """Each kind on one node and on two."""
    for kind, size in NODE_COUNT.items():
        yield 2, [[kind] + [2] * size]
        yield 3, [[kind] + [1] * (size - 1) + [3], [1, 2, 2]]
        yield 4096, [[kind] + [(1, 4096)[t % 2] for t in range(size)]]


# A whole element stands before those that collapse to it.
AS_ANOTHER = [
    (1, [[1, 1, 1]]), (4096, [[1, 4096, 4096]]), (3, [[1, 1, 2], [1, 2, 2], [1, 3, 3]]),
    (6, [[6, 1, 2, 3, 4, 5, 6]]), (6, [[7, 1, 2, 3, 3, 4, 5, 6, 6]]), (6, [[7, 1, 1, 2, 3, 4, 4, 5, 6]]),
    (5, [[5, 1, 2, 3, 4, 5]]), (5, [[7, 1, 2, 3, 4, 5, 5, 5, 5]]),
    (4, [[4, 1, 2, 3, 4]]), (4, [[7, 1, 2, 3, 3, 4, 4, 4, 4]]), (4, [[5, 1, 2, 2, 3, 4]]), (4, [[5, 1, 2, 3, 4, 1]]), (4, [[6, 1, 2, 3, 4, 4, 4]]),
    (3, [[2, 3, 1, 2]]), (3, [[5, 1, 2, 2, 1, 3]]), (3, [[9, 1, 1, 2, 2, 3, 3, 1, 1]]), (3, [[8, 1, 2, 3, 1, 2, 3]]),
    # a plate about node 7, as the drawing office makes it
    (7, [[3, 7, 7, p, p % 6 + 1] for p in range(1, 7)]),
]


def collapsed():
    """All that is legal."""
    yield from one_node_twice()
    yield from quadrilaterals()
    yield from on_few_nodes()
    yield from AS_ANOTHER


def no_node_twice():
    """Each kind with 0 or a number above n at two places, or at all."""
    for kind, size in NODE_COUNT.items():
        for value in (0, size + 1, 65535):
            yield size, [[kind, value] + list(range(2, size)) + [value]]
            yield size, [[1, 1, 1], [kind] + [value] * size]
