#!/usr/bin/env python3
"""Files for the program `test_reading`, valid and damaged, and what the reading of each must answer and leave.

  files.py            write crates/test_reading/stdin and crates/test_reading/stdout
  files.py --check    say whether the two stand as this script makes them
  files.py --show K   print file K (line K of stdout), its kind and its line
  files.py --run N --seed S    run crates/test_reading/out/test_reading on N random files and N damaged ones, and compare

The input has for each file its length, four bytes low byte first, and its bytes. A line has 'accepted' and the entry count or 'refused' and the
number, then for each of the five lent lists (words, starts, neighbours, scratch, counts) its words up to the last that isn't as it was lent. All
expected lines come from tests/reference.
"""

import os
import sys

TOP = os.path.dirname(os.path.dirname(os.path.dirname(os.path.abspath(__file__))))
sys.path[:0] = [os.path.join(TOP, 'tests', part) for part in ('reference', 'vectors')]

import calls
from count_lists import all_wrong_counts, counts_of, wrong_counts
from elements import collapsed, element, no_node_twice
from listing import count_refusal, counts_of_file, element_refusal, header_refusal, nodes_of_file, words_of_elements
from mesh import NODE_COUNT
from unknowns import MOST, ones
from vectors import Draw, answer_text, changed, differences, keep, number, of_words, options, pattern, shown, tally

CRATE = os.path.join(TOP, 'crates', 'test_reading')
# rt run makes it, in the crate's folder.
PROGRAM = os.path.join(CRATE, 'out', 'test_reading')

# How many words the program lends: some more than any file needs.
LENT = (35000, 4100, 32780, 4100, 4100)


# What is expected.

def read(file, words, starts, neighbours, scratch, counts):
    """The program's steps up to the two lists and the counts; 5 can't be, as enough is lent."""
    refusal = header_refusal(file) or count_refusal(file)
    if refusal:
        return calls.refused(refusal)
    calls.put(counts, counts_of_file(file))
    calls.put(words, words_of_elements(file))
    refusal = element_refusal(file)
    if refusal:
        return calls.refused(refusal)
    return calls.mesh(nodes_of_file(file), words_of_elements(file), starts, neighbours, scratch)


def expected(file):
    """The answer, as 'refused 9' or 'accepted 8', and the whole line."""
    lent = [pattern(size) for size in LENT]
    answer = answer_text(read(file, *lent))
    return answer, answer + ''.join(shown(changed(buffer)) for buffer in lent)


# Files.

def header(n, count, mark=b'GRD', version=1):
    return mark + of_words([version, n, count])


def file_of(n, elements, counts=None, **words):
    """A file of the elements, each a kind and its nodes; with counts, of version 2."""
    if counts is not None:
        words = dict({'version': 2}, **words)
    return header(n, len(elements), **words) + of_words(counts or []) + b''.join(of_words(element) for element in elements)


def bars(edges):
    return [[1, p, q] for p, q in edges]


SAMPLE = file_of(5, bars([(1, 2), (1, 4), (2, 3), (3, 5)]))
MIXED = file_of(10, [[10, 3, 1, 4, 10, 5, 9, 2, 6, 8, 7], [2, 10, 1, 9], [9, 1, 2, 3, 4, 5, 6, 7, 8]])
ALONE = file_of(3, [])
# In version 2, the last with a pyramid.
COUNTED = file_of(5, bars([(1, 2), (1, 4), (2, 3), (3, 5)]), [3, 1, 6, 1, 2])
PYRAMID = file_of(6, [[5, 6, 1, 4, 2, 3], [1, 5, 5]], [6, 5, 4, 3, 2, 1])


def changed_bytes():
    """Each byte; of the file of version 2 those of its header and its counts."""
    for file, size in ((SAMPLE, len(SAMPLE)), (MIXED, len(MIXED)), (COUNTED, 9 + 2 * 5)):
        for at in range(size):
            old = file[at]
            values = {0, 1, 4, 6, 9, 11, 255, (old + 1) % 256, (old - 1) % 256, old ^ 128}
            for value in sorted(values - {old}):
                yield file[:at] + bytes([value]) + file[at + 1:]


def truncations():
    for file in (SAMPLE, MIXED, ALONE, COUNTED, PYRAMID):
        for size in range(len(file)):
            yield file[:size]


def extensions():
    for file in (SAMPLE, ALONE, PYRAMID):
        yield file
        for value in (0, 1, 255):
            for size in range(1, 9):
                yield file + bytes([value]) * size
        yield file + of_words([1, 1, 3])
        yield file + of_words([1, 1, 3, 0])


def element_counts():
    """Wrong and right element counts."""
    for file in (SAMPLE, MIXED, ALONE, COUNTED):
        for count in list(range(10)) + [255, 256, 1025, 65535]:
            yield file[:7] + of_words([count]) + file[9:]


def kinds():
    """Each kind as the only element: whole, short, long, at the file's end; nodes at the limit and beyond."""
    for kind in list(range(13)) + [255, 256, 257, 266, 65535]:
        size = NODE_COUNT.get(kind, 4)
        nodes = list(range(1, size + 1))
        yield file_of(size, [[kind] + nodes])
        yield file_of(size + 2, [[kind] + nodes[::-1]])
        yield file_of(4096, [[kind] + [4097 - p for p in nodes]])
        yield file_of(size - 1, [[kind] + nodes])
        yield file_of(size, [[kind] + nodes[:-1]])
        yield file_of(size, [[kind] + nodes])[:-1]
        yield file_of(size, [[kind] + nodes + [1]])
        yield file_of(size, [[kind]])
        yield file_of(size, [[kind]])[:-1]
        yield file_of(size, [[kind] + nodes, [kind] + nodes])


def wrong_nodes():
    """Each kind with one node 0 or above n, at each place."""
    for kind, size in NODE_COUNT.items():
        nodes = list(range(1, size + 1))
        for i in range(size):
            for value in (0, size + 1, 256 + nodes[i], 65535):
                yield file_of(size, [[kind] + nodes[:i] + [value] + nodes[i + 1:]])


def repeated_nodes():
    """Elements that have a node more than once, or a number that is no node."""
    for n, elements in list(collapsed()) + list(no_node_twice()):
        yield file_of(n, elements)


def sizes():
    """n at the limits, with and without elements that reach to it."""
    for n in (0, 1, 2, 255, 256, 257, 4095, 4096, 4097, 4352, 32768, 65535):
        yield file_of(n, [])
        yield file_of(n, [], ones(min(n, 4097)))
        yield file_of(n, bars([(1, 2)]))
        yield file_of(n, bars([(1, n)]))
        yield file_of(n, bars([(n, 1), (max(n, 1) - 1, n)]))
        yield file_of(n, bars([(1, 2), (n, min(n + 1, 65535))]))


# The last three have words or bytes behind their elements; their counts say how many elements there are.
BODIES = [
    ([[1, 1, 2], [2, 3, 4, 5]], b''),
    ([], b''),
    ([[0, 1, 2]], b''),
    ([[1, 0, 2]], b''),
    ([[1, 1, 2], [1, 2]], b''),
    ([[1, 1]], b'\x02'),
    ([[11, 0, 0]], b''),
    ([[1, 3, 9], [12, 1, 2]], b''),
    ([[1, 3, 3], [12, 1, 2]], b''),
    ([[12, 1, 2], [1, 9, 9]], b''),
    ([[3, 1, 1, 0]], b''),
    ([[1, 1, 2], [10, 0]], b''),
    ([[1, 1, 2]], of_words([1, 9, 9])),
    ([[1, 2, 2]], b'\0'),
    ([[1, 9, 9]], b'\0'),
]


def orders():
    """Two or more faults at once: which is found first."""
    for mark in (b'GRD', b'GRX'):
        for version in (1, 0, 257):
            for n in (5, 0, 4097):
                for elements, more in BODIES:
                    yield file_of(n, elements, mark=mark, version=version) + more
    for version in (2, 3):
        for counts in (ones(5), [1, 1, 7, 1, 1], ones(4)):
            for elements, more in BODIES:
                yield file_of(5, elements, counts, version=version) + more


def unknowns():
    """A.6, version 2: each count at each node, wrong lists before elements that are right and wrong, cut at each byte of the counts."""
    for node in range(3):
        for count in (0, 1, 2, 6, 7, 8, 255, 256, 257, 262, 65535):
            yield file_of(3, bars([(1, 2)]), [count if p == node else 1 for p in range(3)])
    for counts in all_wrong_counts(4):
        for elements in ([], bars([(1, 4)]), [[11]], [[1, 0, 5]], [[5, 1, 2, 3, 4, 4]]):
            yield file_of(4, elements, counts)
    for counts in ([2, 3, 6], [7, 3, 6], [2, 0, 6], [0, 0, 0]):
        for count in (0, 1, 65535):
            whole = header(3, count, version=2) + of_words(counts)
            for size in range(9, len(whole) + 1):
                yield whole[:size]
    # n at its limits; in the last three the counts end the file, one of them is wrong, and they are one too few
    for n in (1, 255, 256, 4095, 4096):
        six = [MOST] * n
        yield file_of(n, bars([(1, n)]), six)
        yield file_of(n, [], six[:-1] + [1])
        yield file_of(n, [], six[:-1] + [7])
        yield file_of(n, bars([(1, n)]), six[:-1])


def grid_blocks():
    """Node lists of ten that share at most one node two by two: 64 by 64 nodes, along rows, then along columns."""
    for across in (0, 1):
        for line in range(64):
            for at in range(0, 60, 10):
                places = [(line, at + t) if across == 0 else (at + t, line) for t in range(10)]
                yield [64 * r + c + 1 for r, c in places]


def loose_pairs():
    """Pairs of nodes that no block has."""
    for line in range(64):
        for c in (60, 62):
            yield (64 * line + c + 1, 64 * line + c + 2)


def with_entries(count):
    """Elements with exactly this many neighbour entries in 4,096 nodes: 90 to a block, 2 to a pair."""
    blocks = min(count // 90, 768)
    ten = [[10] + nodes for nodes in list(grid_blocks())[:blocks]]
    return ten + bars(list(loose_pairs())[:(count - 90 * blocks) // 2])


def full():
    """Entry counts about 32,768, and such as a 16-bit counter would take for fewer."""
    for count in (32766, 32768, 32770, 65534, 65536, 65538, 65628):
        yield file_of(4096, with_entries(count))
    most = with_entries(32768)
    # met again, they count once
    yield file_of(4096, most + most[:100] + [[1, 2, 1], [1, 1, 2]])
    yield file_of(4096, most + [[1, 1, 2]])
    yield file_of(4096, most + [[1, 1, 4096]])
    # a collapsed element adds what its distinct nodes join: nothing, or too much
    yield file_of(4096, most + [[1, 64, 64], [3, 1, 2, 2, 1], [7] + [4096] * 8])
    yield file_of(4096, most + [[3, 1, 2, 4096, 4096]])
    # 9, 10 and 12 come before 11; the last is 11, as its bar is legal
    over = with_entries(32770)
    yield file_of(4096, over) + b'\0'
    yield file_of(4096, over)[:-1]
    yield file_of(4096, over + [[1, 7, 0]])
    yield file_of(4096, over + [[0, 7, 7]])
    yield file_of(4096, over + [[1, 7, 7]])
    # in version 2; 15 comes before 11
    counts = [1 + p % MOST for p in range(4096)]
    yield file_of(4096, most, counts)
    yield file_of(4096, over, counts)
    yield file_of(4096, over, counts[1:] + [0])


def long():
    """At the limit of 65,535 bytes and beyond it."""
    edges = [(p, p + d) for d in (1, 64, 65) for p in range(1, 4097 - d)][:10921]
    most = file_of(4096, bars(edges))
    yield most
    yield most[:-1]
    yield most + b'\0'
    yield file_of(4096, bars(edges[:-1]) + [[1, 5, 4097]])
    # 8,192 bytes of counts leave room for 9,555 bars and two words
    counted = file_of(4096, bars(edges[:9555]), [6] * 4096)
    yield counted
    yield counted + bytes(65535 - len(counted))
    yield header(4096, 0) + bytes(65536 - 9)
    yield header(4096, 0)[:8] + bytes(70000 - 8)


def mesh_file(draw):
    """Of version 1 or 2; now and then with wrong counts."""
    n = 1 + draw.below(40)
    counts = None if draw.chance(0.5) else counts_of(draw, n)
    if counts is not None and draw.chance(0.1):
        counts = wrong_counts(draw, counts)
    return file_of(n, [element(draw, n) for _ in range(draw.below(9))], counts)


def random_valid(draw, count):
    for _ in range(count):
        yield mesh_file(draw)


def large_valid(draw):
    for n, count in ((200, 300), (1000, 700), (4096, 500), (100, 1500)):
        yield file_of(n, [element(draw, n) for _ in range(count)], None if n == 200 else counts_of(draw, n))


def damaged(draw, file):
    """One damage at a random place."""
    at, way = draw.below(len(file)), draw.below(6)
    if way == 0:
        return file[:at] + bytes([draw.below(256)]) + file[at + 1:]
    if way == 1:
        return file[:at] + bytes([draw.below(13)]) + file[at + 1:]
    if way == 2:
        return file[:at] + file[at + 1:]
    if way == 3:
        return file[:at] + bytes([draw.below(4)]) + file[at:]
    if way == 4:
        return file[:at]
    # two words exchanged
    words = max(1, (len(file) - 9) // 2)
    i, j = 9 + 2 * draw.below(words), 9 + 2 * draw.below(words)
    i, j = min(i, j), max(i, j)
    return file if i == j else file[:i] + file[j:j + 2] + file[i + 2:j] + file[i:i + 2] + file[j + 2:]


def random_damaged(draw, count):
    for _ in range(count):
        file = damaged(draw, mesh_file(draw))
        yield damaged(draw, file) if file and draw.chance(0.3) else file


def all_files():
    """Pairs of a kind of vector and a file."""
    draw = Draw(1976)
    made = [('byte changed', changed_bytes()), ('truncated', truncations()), ('extended', extensions()), ('element count', element_counts()),
            ('kind', kinds()), ('node', wrong_nodes()), ('repeated node', repeated_nodes()), ('n', sizes()), ('two faults', orders()),
            ('counts', unknowns()),
            ('entries', full()), ('length', long()), ('random valid', random_valid(draw, 400)), ('large valid', large_valid(draw)),
            ('random damaged', random_damaged(draw, 500))]
    return [(kind, file) for kind, files in made for file in files]


def encoded(file):
    return number(len(file)) + file


def line(file):
    return expected(file)[1]


def main():
    asked = options(__doc__)
    if asked.run is not None:
        draw = Draw(asked.seed)
        made = list(random_valid(draw, asked.run)) + list(random_damaged(draw, asked.run))
        return 1 if differences(PROGRAM, made, encoded, line) else 0
    vectors = all_files()
    if asked.show is not None:
        kind, file = vectors[asked.show - 1]
        print('%s, %d bytes: %s\n%s' % (kind, len(file), file[:200].hex(' '), line(file)))
        return 0
    lines = [expected(file) for _, file in vectors]
    status = keep([(os.path.join(CRATE, 'stdin'), b''.join(encoded(file) for _, file in vectors)),
                   (os.path.join(CRATE, 'stdout'), ''.join(text + '\n' for _, text in lines).encode('ascii'))], asked.check)
    tally('kinds', [kind for kind, _ in vectors])
    tally('%d files' % len(vectors), sorted(answer if answer.startswith('refused') else 'accepted' for answer, _ in lines))
    return status


if __name__ == '__main__':
    sys.exit(main())
