"""Large graphs as meshes have them: grids, a sector about a hub, trees and paths, of up to 4,096 nodes and 32,768 entries; and many parts."""

from graph import from_edges


def grid(long, wide, quadrilaterals):
    """Edges of a grid: all pairs of each quadrilateral, or both triangles of each."""
    def node(x, y):
        return x * wide + y + 1
    across = [(node(x, y), node(x + 1, y)) for x in range(long - 1) for y in range(wide)]
    along = [(node(x, y), node(x, y + 1)) for x in range(long) for y in range(wide - 1)]
    rising = [(node(x, y), node(x + 1, y + 1)) for x in range(long - 1) for y in range(wide - 1)]
    falling = [(node(x + 1, y), node(x, y + 1)) for x in range(long - 1) for y in range(wide - 1)]
    return long * wide, across + along + rising + (falling if quadrilaterals else [])


def hub_sector(rings, spokes):
    """A sector of quadrilaterals about a hub, the last node, that adjoins the whole innermost ring."""
    n, edges = grid(rings, spokes, True)
    return n + 1, edges + [(spoke, n + 1) for spoke in range(1, spokes + 1)]


def path(n):
    return n, [(p, p + 1) for p in range(1, n)]


def band(n, reach):
    """A ring whose nodes adjoin so many before and after them."""
    return n, {tuple(sorted((p, (p - 1 + d) % n + 1))) for p in range(1, n + 1) for d in range(1, reach + 1)}


def tree(n, branches):
    """Each node has so many below it."""
    return n, [((q - 2) // branches + 1, q) for q in range(2, n + 1)]


def random_tree(draw, n):
    """Each node hangs on one of the twenty before it."""
    return n, [(q - 1 - draw.below(min(20, q - 1)), q) for q in range(2, n + 1)]


def star(n):
    return n, [(1, q) for q in range(2, n + 1)]


def blocks(n, size):
    """Whole blocks of so many nodes, each node joined to all others of its block."""
    return n, [(p, q) for q in range(1, n + 1) for p in range((q - 1) // size * size + 1, q)]


def rings_of_four(count):
    return 4 * count, [(4 * r + a, 4 * r + b) for r in range(count) for a, b in ((1, 2), (2, 3), (3, 4), (1, 4))]


def renamed(draw, n, edges):
    """The nodes named anew at random."""
    name = draw.some(range(1, n + 1), n)
    return n, [(name[p - 1], name[q - 1]) for p, q in edges]


def full_size(draw):
    """The lists of each shape, as it is drawn and with its nodes named anew."""
    shapes = [grid(64, 64, True), grid(64, 64, False), grid(512, 8, True), grid(256, 16, False), grid(60, 50, True), hub_sector(63, 65),
              path(4096), band(4096, 4), tree(4095, 2), tree(4096, 7), random_tree(draw, 4096), star(4096), blocks(4096, 8), rings_of_four(1024)]
    for n, edges in shapes:
        yield from_edges(n, edges)
        yield from_edges(*renamed(draw, n, edges))


def many_parts():
    """4,096 isolated nodes, 2,048 pairs, 1,000 rings of four."""
    yield from_edges(4096, [])
    yield from_edges(*blocks(4096, 2))
    yield from_edges(*rings_of_four(1000))
