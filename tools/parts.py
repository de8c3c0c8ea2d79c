"""The parts that a mesh falls into, and the nodes that no element joins to another, in the source's own numbers."""

import grd

# So many runs of numbers, and so many parts, are named; the others are counted.
MOST_RUNS = 12
MOST_PARTS = 8


def parts_of(rows):
    """The nodes of each part, by lowest number; rows are neighbours by number, place 0 unused."""
    seen, parts = [False] * len(rows), []
    for root in range(1, len(rows)):
        if seen[root]:
            continue
        seen[root], part, waiting = True, [], [root]
        while waiting:
            p = waiting.pop()
            part.append(p)
            for q in rows[p]:
                if not seen[q]:
                    seen[q] = True
                    waiting.append(q)
        parts.append(sorted(part))
    return parts


def joined(rows):
    """The parts with two or more nodes."""
    return [part for part in parts_of(rows) if len(part) > 1]


def loose(rows):
    """Nodes without a neighbour: in no element, or in elements without a second distinct node."""
    return [p for p in range(1, len(rows)) if not rows[p]]


def runs(numbers):
    """Such as '3, 7 to 9, 12': rising numbers, runs of three and more joined; past twelve runs the rest is counted."""
    found = []
    for number in numbers:
        if found and found[-1][1] == number - 1:
            found[-1][1] = number
        else:
            found.append([number, number])
    words, named = [], 0
    for first, last in found[:MOST_RUNS]:
        named += last - first + 1
        words += ['%d to %d' % (first, last)] if last > first + 1 else [str(number) for number in range(first, last + 1)]
    more = len(numbers) - named
    return ', '.join(words) + (' and %s more' % format(more, ',') if more else '')


def warnings(mesh, numbers):
    """Lines for a mesh in several parts or with loose nodes; numbers are the source's, in the order of the mesh's 1 to n."""
    rows = grd.neighbours(mesh)
    alone = loose(rows)
    parts = joined(rows)
    lines = []
    if len(parts) > 1:
        lines.append('warning: the mesh falls into %d parts that no element joins' % len(parts))
        for i, part in enumerate(parts[:MOST_PARTS], 1):
            lines.append('  part %d, %s: %s' % (i, grd.counted(len(part), 'node'), runs([numbers[p - 1] for p in part])))
        if len(parts) > MOST_PARTS:
            lines.append('  and %d parts more' % (len(parts) - MOST_PARTS))
    if alone:
        lines.append('warning: joined to no other, each a part of its own, %s: %s' % (grd.counted(len(alone), 'node'),
                                                                                      runs([numbers[p - 1] for p in alone])))
    return lines
