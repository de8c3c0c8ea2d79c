#!/usr/bin/env python3
"""The largest store: 301,977,600 places, 37,747,200 mark bytes, of 4,096 nodes of six unknowns each, through the C interface.

What each store must hold follows without a program. Number 1 adjoins all others, so every row begins at the first unknown and every pair has a
place. Eliminated first, it joins all of them: every place is marked. With the last number in the middle of a star nothing is joined anew, and
the places are just the pairs that are joined at first.
"""

import os
import sys
from array import array

TOP = os.path.dirname(os.path.dirname(os.path.abspath(__file__)))
sys.dont_write_bytecode = True
sys.path[:0] = [os.path.join(TOP, 'tests', part) for part in ('reference', 'definitions', 'vectors', 'interface', '')]

from library import Library, Span, guarded

NODES, EACH = 4096, 6
UNKNOWNS = NODES * EACH
OWN = EACH * (EACH - 1) // 2
ACCEPTED, BYTES_SHORT = 0, 8


def lists(edges):
    """Starts and neighbours."""
    rows = [[] for _ in range(NODES)]
    for p, q in edges:
        rows[p - 1].append(q)
        rows[q - 1].append(p)
    starts = [0]
    for row in rows:
        starts.append(starts[-1] + len(row))
    return starts, [q for row in rows for q in sorted(row)]


def star():
    return [(1, p) for p in range(2, NODES + 1)]


def wheel():
    return star() + [(p, p + 1) for p in range(2, NODES)] + [(2, NODES)]


def joined(edges):
    """Pairs of unknowns that are joined at first."""
    return NODES * OWN + len(edges) * EACH * EACH


def eliminate(library, edges, numbering, room):
    """The answer, the two counts, the bytes with those behind them, and the scratch."""
    starts, neighbours = lists(edges)
    bytes_lent = array('B', bytes([90])) * room + array('B', [91] * 8)
    scratch, figures = guarded('H', [7] * NODES), guarded('Q', [7, 7])
    answer = library.call('eliminate', [
        Span(guarded('H', starts), len(starts)), Span(guarded('H', neighbours), len(neighbours)), Span(guarded('H', [EACH] * NODES), NODES),
        Span(guarded('H', numbering), NODES), Span(scratch, NODES), Span(bytes_lent, room), Span(figures, 2)])
    return answer, list(figures[:2]), bytes_lent, scratch == guarded('H', [0] * NODES)


def full(library, edges):
    """All places of the largest store are marked, in bytes of just its size and in more; one byte less is refused and writes none."""
    places = UNKNOWNS * (UNKNOWNS - 1) // 2
    room, numbering = (places + 7) // 8, list(range(1, NODES + 1))
    whole = bytes([255]) * (places // 8) + (bytes([2 ** (places % 8) - 1]) if places % 8 else b'')
    for more in (0, 5):
        answer, counts, left, cleared = eliminate(library, edges, numbering, room + more)
        yield 'answer', answer == ACCEPTED
        yield 'counts', counts == [places, places - joined(edges)]
        yield 'marks', left[:room].tobytes() == whole
        yield 'bytes behind', left[room:].tobytes() == bytes([90]) * more + bytes([91]) * 8
        yield 'scratch', cleared
    answer, counts, left, cleared = eliminate(library, edges, numbering, room - 1)
    yield 'refusal', answer == BYTES_SHORT
    yield 'counts untouched', counts == [7, 7]
    yield 'bytes untouched', left.tobytes() == bytes([90]) * (room - 1) + bytes([91]) * 8
    yield 'scratch cleared', cleared


def middle_last(library):
    """Where the middle of the star comes last nothing is joined anew: every node has the places of its own pairs, the last one those of all."""
    places = joined(star())
    room = (places + 7) // 8
    answer, counts, left, cleared = eliminate(library, star(), [NODES] + list(range(1, NODES)), room)
    yield 'answer', answer == ACCEPTED
    yield 'counts', counts == [places, 0]
    yield 'marks', int.from_bytes(left[:room].tobytes(), 'little') == 2 ** places - 1
    yield 'scratch', cleared


def main():
    os.chdir(TOP)
    library = Library()
    checks = [('star: ' + said, true) for said, true in full(library, star())]
    checks += [('wheel: ' + said, true) for said, true in full(library, wheel())]
    checks += [('middle last: ' + said, true) for said, true in middle_last(library)]
    wrong = ['wrong: ' + said for said, true in checks if not true]
    print('\n'.join(wrong + ['the largest store: %d checks, %d failed' % (len(checks), len(wrong))]))
    return bool(wrong)


if __name__ == '__main__':
    sys.exit(main())
