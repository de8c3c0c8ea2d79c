#!/usr/bin/env python3
"""The mesh call on long word lists: it answers and leaves what the independent program says, and its time goes with their length.

The lists go over the length up to which the elements are listed by row, 65,536 words, and on to a million: few edges again and again, so that 11
does not refuse, hubs, few nodes, and lists that are refused. Each is compared word by word. Time is that of the processor, the best of some
calls: a word of the longest list takes at most FACTOR times what a word of one just below 65,536 takes, and so does a word just above it.
"""

import os
import random
import sys
import time

TOP = os.path.dirname(os.path.dirname(os.path.abspath(__file__)))
sys.dont_write_bytecode = True
sys.path[:0] = [os.path.join(TOP, 'tests', part) for part in ('reference', 'definitions', 'vectors', 'interface', '')]

from library import Library
from mesh import NODE_COUNT
from trials import Trial, before, difference, got, in_memory, steps, told, wanted

SEED = 1976
NODES, ENTRIES = 4096, 32768
BAR, QUADRILATERAL = 1, 3
LISTED = 65536
LONGEST = 1000000
FACTOR = 4


def grid():
    """Quadrilaterals of a grid: each edge in four of them at most."""
    side = 64
    at = lambda x, y: y * side + x + 1
    return NODES, [[QUADRILATERAL, at(x, y), at(x + 1, y), at(x + 1, y + 1), at(x, y + 1)] for y in range(side - 1) for x in range(side - 1)]


def hub(node):
    """Bars from one node to all others."""
    return NODES, [[BAR, node, p] for p in range(1, NODES + 1) if p != node]


def every_kind(n, draw):
    """Elements of all kinds, on any nodes."""
    return n, [[kind] + draw.sample(range(1, n + 1), NODE_COUNT[kind]) for kind in NODE_COUNT for _ in range(200)]


def apart(draw):
    """Elements of all kinds that share no node."""
    elements, n = [], 0
    while n + 10 <= NODES:
        kind = draw.choice(list(NODE_COUNT))
        elements.append([kind] + list(range(n + 1, n + 1 + NODE_COUNT[kind])))
        n += NODE_COUNT[kind]
    return n, elements


def words_of(elements, length):
    """The elements again and again, then quadrilaterals and bars of four of their nodes, to just so many words."""
    words, i = [], 0
    while length - len(words) >= 20:
        words += elements[i % len(elements)]
        i += 1
    left = length - len(words)
    quadrilaterals = next(k for k in range(3) if (left - 5 * k) % 3 == 0)
    nodes = list(dict.fromkeys(p for element in elements[:4] for p in element[1:]))[:4]
    return words + ([QUADRILATERAL] + nodes) * quadrilaterals + ([BAR] + nodes[:2]) * ((left - 5 * quadrilaterals) // 3)


def trial(kind, mesh, length, fill=0, damage=None):
    n, elements = mesh
    words = words_of(elements, length)
    if damage:
        words[-len(damage):] = damage
    return Trial(kind, 'mesh', [n, words], [n + 3, ENTRIES + 2, n + 2], [1], fill)


def trials():
    draw = random.Random(SEED)
    for length in (LISTED - 1, LISTED, LISTED + 1, LISTED + 2, 200001, LONGEST):
        yield trial('grid', grid(), length)
    for length in (LISTED, LISTED + 1):
        yield trial('hub', hub(1), length, 1)
        yield trial('hub', hub(2049), length, 2)
        yield trial('few nodes', every_kind(60, draw), length, 3)
        yield trial('one group', every_kind(64, draw), length)
        yield trial('elements apart', apart(draw), length)
        yield trial('too many entries', every_kind(NODES, draw), length, 1)
        yield trial('wrong at the end', grid(), length, 2, [BAR, 1, NODES + 1])
        yield trial('unknown at the end', grid(), length, 3, [11, 1, 2])
    yield trial('hub', hub(4096), 300000)
    yield trial('few nodes', every_kind(100, draw), 300001)
    yield trial('too many entries', every_kind(NODES, draw), 300002)


def seconds(library, mesh, length):
    """Processor time of one call on a list of so many words, the best of some."""
    one = trial('time', mesh, length)
    values = before(one)
    (function, arguments), = steps(one, values)
    given, times = told(values, in_memory(values), arguments), []
    for _ in range(3 if length > 10 * LISTED else 9):
        begin = time.thread_time()
        library.call(function, given)
        times.append(time.thread_time() - begin)
    return min(times)


def main():
    os.chdir(TOP)
    library = Library()
    bad = []
    count = 0
    for one in trials():
        count += 1
        text = difference(one, got(library, one), wanted(one))
        if text:
            bad.append('%s of %d words: %s' % (one.kind, len(one.given[1]), text))
    ratios = []
    for name, mesh in (('grid', grid()), ('hub', hub(1))):
        per_word = {length: seconds(library, mesh, length) / length for length in (LISTED - 1, LISTED + 2, LONGEST)}
        for length in (LISTED + 2, LONGEST):
            ratios.append(per_word[length] / per_word[LISTED - 1])
            if ratios[-1] > FACTOR:
                bad.append('%s: a word of %d takes %.1f times what one of %d takes' % (name, length, ratios[-1], LISTED - 1))
    print('\n'.join(bad + ['%d long lists, %d of the answers, buffers or times are wrong; a word takes %s times that below 65,536'
                           % (count, len(bad), ', '.join('%.2f' % r for r in ratios))]))
    return bool(bad)


if __name__ == '__main__':
    sys.exit(main())
