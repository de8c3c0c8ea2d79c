"""How many nodes each level of a part has, or how many unknowns where the mesh counts them, and where the part is thickest. The levels are those
of the listing: the combined ones."""

from collections import namedtuple

import grd
import parts
from ink import grouped

# Up to so many levels have all their sizes told; of a longer part only so many of the thickest.
MOST_SIZES = 40
MOST_THICK = 10

# sizes: of level 1, 2 and so on, in the mesh's units; level: the first with the greatest size; nodes: those in it, rising
Thickness = namedtuple('Thickness', 'sizes level nodes')


def of_part(part, level_of, count_of):
    """Of the part with these nodes; level_of and count_of have each node's level and its unknowns."""
    sizes = [0] * max(level_of[p] for p in part)
    for p in part:
        sizes[level_of[p] - 1] += count_of[p]
    level = sizes.index(max(sizes)) + 1
    return Thickness(sizes, level, [p for p in part if level_of[p] == level])


def of_parts(mesh, listed):
    """Of each part with two or more nodes: one node by itself has no thickest place."""
    return [of_part(part, listed.levels, grd.unknowns(mesh)) for part in parts.joined(grd.neighbours(mesh))]


# Words.

def unit(mesh):
    """What the sizes count."""
    return 'node' if mesh.counts is None else 'unknown'


def thickest(mesh, one):
    """Such as '3 nodes', or '18 unknowns at 3 nodes'."""
    nodes = grd.counted(len(one.nodes), 'node')
    return nodes if mesh.counts is None else '%s at %s' % (grd.counted(max(one.sizes), 'unknown'), nodes)


def part_size(mesh, part):
    """Such as '7 nodes', or '7 nodes with 30 unknowns'."""
    nodes = grd.counted(len(part), 'node')
    return nodes if mesh.counts is None else '%s with %s' % (nodes, grd.counted(sum(mesh.counts[p - 1] for p in part), 'unknown'))


def in_short(mesh, found):
    """For a legend: one part's thickest level, or the greatest count of several; nothing where no nodes are joined."""
    if not found:
        return ''
    if len(found) > 1:
        return 'thickest level of each part: at most %s' % grd.counted(max(max(one.sizes) for one in found), unit(mesh))
    one, = found
    return 'thickest level: %d of %d, %s' % (one.level, len(one.sizes), thickest(mesh, one))


def place(mesh, one, numbers):
    """The thickest level, how many are as thick, and which nodes it has."""
    level = 'combined level %d of %d, %s' % (one.level, len(one.sizes), thickest(mesh, one))
    same = one.sizes.count(max(one.sizes))
    return '%s%s: %s' % (level, ', the first of %d such' % same if same > 1 else '', parts.runs([numbers[p - 1] for p in one.nodes]))


def row(mesh, one):
    """All sizes in order, the thickest level's in brackets; of many levels the thickest ones with their sizes."""
    count = len(one.sizes)
    if count <= MOST_SIZES:
        return '%ss in each level: ' % unit(mesh) + ' '.join(('[%d]' if i == one.level else '%d') % size for i, size in enumerate(one.sizes, 1))
    order = sorted(range(1, count + 1), key=lambda i: -one.sizes[i - 1])
    first, others = order[:MOST_THICK], order[MOST_THICK:]
    words = ', '.join('%d in level %d' % (one.sizes[i - 1], i) for i in first)
    return '%ss in the thickest levels: %s; at most %d in the other %s' % (unit(mesh), words, one.sizes[others[0] - 1], grouped(len(others)))


def words(mesh, listed, numbers):
    """Two lines for each of the first parts; numbers are the source's, in the order of the mesh's 1 to n."""
    found, joined = of_parts(mesh, listed), parts.joined(grd.neighbours(mesh))
    lines = []
    for i, one in enumerate(found[:parts.MOST_PARTS], 1):
        part = 'part %d, %s, ' % (i, part_size(mesh, joined[i - 1])) if len(found) > 1 else ''
        lines += ['%sthickest at %s' % (part, place(mesh, one, numbers)), '  ' + row(mesh, one)]
    rest = found[parts.MOST_PARTS:]
    if rest:
        most = max(max(one.sizes) for one in rest)
        lines.append('and %s more, at most %s in a level' % (grd.counted(len(rest), 'part'), grd.counted(most, unit(mesh))))
    return lines
