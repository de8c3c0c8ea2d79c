#!/usr/bin/env python3
"""GRD files of both versions: reading with the documents' tests, writing, and each refusal in words.

  grd.py FILE.grd    say what is in the file, or why the program refuses it
"""

import sys
from collections import namedtuple

MARK = b'GRD'
# Version 2 has a count of unknowns for each node between the header and the elements; in version 1 each node has one.
PLAIN, COUNTED = 1, 2
HEADER_BYTES = 9
MOST_BYTES = 65535
MOST_NODES = 4096
MOST_ENTRIES = 32768
MOST_UNKNOWNS = 6

# kind: its name and node count
KINDS = {1: ('bar', 2), 2: ('triangle', 3), 3: ('quadrilateral', 4), 4: ('tetrahedron', 4), 5: ('pyramid', 5),
         6: ('wedge', 6), 7: ('brick', 8), 8: ('6-node triangle', 6), 9: ('8-node quadrilateral', 8), 10: ('10-node tetrahedron', 10)}

# Document 01's table of refusals in plain words, but for a node that repeats within an element, which is legal and counts once. The program
# answers 1, 9, 10, 11, 12 and 15; the others are the libraries'.
MEANING = {
    1: 'there are no nodes, or more than 4,096',
    2: 'the start list is broken: it must begin with 0, never fall, and end with the length of the neighbour list, at most 32,768',
    3: 'a row of neighbours names a node outside 1 to n or its own node, or does not rise',
    4: 'one node has another as its neighbour, but not the other way round',
    5: 'a lent buffer is too short',
    6: 'the given node is 0 or above n',
    7: 'the given numbering does not have n words with each of 1 to n once',
    8: 'the buffer for the marks is too short',
    9: 'an element has an unknown kind, or runs past the end of the element list',
    10: 'an element has a node that is 0 or above n',
    11: 'the elements give more than 32,768 neighbour entries',
    12: 'this is no GRD file of version 1 or 2: wrong first letters or version, more than 65,535 bytes or fewer than 9, or bytes missing or left over',
    13: 'the given pairs are an odd number of words, or an old number is 0, above n or given twice',
    14: 'the bandwidth, profile or front given is not that of the numbering',
    15: "a node's count of unknowns is not 1 to 6",
}

# elements: a list of (kind, nodes); counts: the unknowns of each node, or None in version 1, where each has one
Mesh = namedtuple('Mesh', 'n elements counts', defaults=(None,))


class Refusal(Exception):
    """A refusal of document 01: its number, and what was met where."""

    def __init__(self, number, where):
        super().__init__('refused %d: %s; %s' % (number, MEANING[number], where))
        self.number = number
        self.where = where


# Reading.

def read(data):
    """The mesh of a file's bytes; the tests come in the program's order."""
    test_header(data)
    n, count = word_at(data, 5), word_at(data, 7)
    if n == 0 or n > MOST_NODES:
        raise Refusal(1, 'the file says %d nodes' % n)
    counts = counts_in(data, n)
    for refusal in count_refusals(counts):
        raise refusal
    elements, at = [], elements_at(n, counts)
    for position in range(1, count + 1):
        element, at = element_at(data, n, at, 'element %d (byte %d)' % (position, at))
        elements.append(element)
    if at < len(data):
        raise Refusal(12, 'bytes left over after the last element: %d' % (len(data) - at))
    mesh = Mesh(n, elements, counts)
    test_entries(mesh)
    return mesh


def word_at(data, at):
    return data[at] + 256 * data[at + 1]


def test_header(data):
    if len(data) > MOST_BYTES:
        raise Refusal(12, 'the file is too long')
    if len(data) < HEADER_BYTES:
        raise Refusal(12, 'the file has only %d bytes' % len(data))
    if data[:3] != MARK:
        raise Refusal(12, 'the file does not begin with the letters GRD')
    if word_at(data, 3) not in (PLAIN, COUNTED):
        raise Refusal(12, 'the file has version %d' % word_at(data, 3))


# Counts of unknowns.

def counts_in(data, n):
    """Those that the file has, or None in version 1."""
    if word_at(data, 3) == PLAIN:
        return None
    there = (len(data) - HEADER_BYTES) // 2
    if there < n:
        raise Refusal(12, 'the file ends within the counts of unknowns, before that of node %d is whole' % (there + 1))
    return [word_at(data, HEADER_BYTES + 2 * p) for p in range(n)]


def count_refusals(counts):
    """One for each node whose count is wrong."""
    for p, count in enumerate(counts or (), 1):
        if not 1 <= count <= MOST_UNKNOWNS:
            yield Refusal(15, 'node %d has %s' % (p, counted(count, 'unknown')))


def elements_at(n, counts):
    """The byte at which the elements begin."""
    return HEADER_BYTES + (0 if counts is None else 2 * n)


def unknowns(mesh):
    """How many unknowns each node has, by number; place 0 has none."""
    return [0] + (mesh.counts or [1] * mesh.n)


# Elements.

def element_at(data, n, at, name):
    """The element that begins at this byte, and the byte after it."""
    if at + 2 > len(data):
        raise Refusal(12, 'the file ends before ' + name)
    kind = word_at(data, at)
    if kind not in KINDS:
        raise Refusal(9, '%s has kind %d' % (name, kind))
    end = at + 2 + 2 * KINDS[kind][1]
    if end > len(data):
        raise Refusal(12, 'the file ends within %s, a %s' % (name, KINDS[kind][0]))
    nodes = [word_at(data, t) for t in range(at + 2, end, 2)]
    test_nodes(n, nodes, '%s, a %s,' % (name, KINDS[kind][0]))
    return (kind, nodes), end


def test_nodes(n, nodes, name):
    for p in nodes:
        if p == 0 or p > n:
            raise Refusal(10, '%s has node %d, and the nodes are 1 to %d' % (name, p, n))


def test_entries(mesh):
    entries = sum(len(row) for row in neighbours(mesh))
    if entries > MOST_ENTRIES:
        raise Refusal(11, 'they give %d' % entries)


def neighbours(mesh):
    """The neighbours of each node by number; place 0 is empty. All nodes of an element adjoin one another; one that repeats counts once."""
    rows = [set() for _ in range(mesh.n + 1)]
    for _, nodes in mesh.elements:
        for p in nodes:
            rows[p].update(nodes)
    for p, row in enumerate(rows):
        row.discard(p)
    return rows


# Writing.

def element_bytes(kind):
    return 2 + 2 * KINDS[kind][1]


def write(mesh):
    """The file's bytes, in version 2 where the mesh has counts. Nothing is tested here: read does that."""
    words = [PLAIN if mesh.counts is None else COUNTED, mesh.n, len(mesh.elements)] + (mesh.counts or [])
    for kind, nodes in mesh.elements:
        words.append(kind)
        words.extend(nodes)
    return MARK + b''.join(word.to_bytes(2, 'little') for word in words)


# Words for people.

def counted(value, name):
    """Such as '1 node' or '4,096 nodes'."""
    return '%s %s' % (format(value, ','), name if value == 1 else name + 's')


def node_words(mesh):
    """Such as '5 nodes', or '5 nodes, 21 unknowns (3 nodes with 3, 2 nodes with 6)' where the file has counts."""
    if mesh.counts is None:
        return counted(mesh.n, 'node')
    by_count = ['%s with %d' % (counted(mesh.counts.count(count), 'node'), count) for count in sorted(set(mesh.counts))]
    return '%s, %s (%s)' % (counted(mesh.n, 'node'), counted(sum(mesh.counts), 'unknown'), ', '.join(by_count))


def summary(mesh):
    """One line: nodes, their unknowns, elements, how many of each kind, and how many are collapsed."""
    counts = {}
    for kind, _ in mesh.elements:
        counts[kind] = counts.get(kind, 0) + 1
    kinds = ', '.join('%s %d' % (KINDS[kind][0], counts[kind]) for kind in sorted(counts)) + collapsed(nodes for _, nodes in mesh.elements)
    return '%s, %s%s' % (node_words(mesh), counted(len(mesh.elements), 'element'), ' (%s)' % kinds if kinds else '')


def collapsed(lists):
    """Such as '; collapsed 2': so many of the elements, given by their nodes, have one more than once."""
    count = sum(len(set(nodes)) < len(nodes) for nodes in lists)
    return '; collapsed %d' % count if count else ''


def explain(data):
    """What is in the file, or why the program refuses it: a text, and whether it is legal."""
    try:
        return summary(read(data)), True
    except Refusal as refusal:
        return str(refusal), False


def main(words):
    if len(words) != 1:
        print(__doc__.strip(), file=sys.stderr)
        return 2
    try:
        with open(words[0], 'rb') as file:
            # one byte more than is legal shows that a file is too long
            text, legal = explain(file.read(MOST_BYTES + 1))
    except OSError as error:
        text, legal = error.strerror, False
    print('%s: %s' % (words[0], text), file=sys.stdout if legal else sys.stderr)
    return 0 if legal else 1


if __name__ == '__main__':
    sys.exit(main(sys.argv[1:]))
