"""Inputs of the mesh call and of the program: elements and files, valid and damaged."""

from collections import namedtuple

from graphs import good_counts, lent
from graph import MOST_ENTRIES
from mesh import NODE_COUNT
from unknowns import MOST

MeshInput = namedtuple('MeshInput', 'n elements starts neighbours scratch')


def element(rng, n):
    """A kind and its nodes. One in eight is collapsed and may have any kind: its nodes are fewer than its places. With one node all are so."""
    if n == 1 or rng.random() < 0.125:
        kind = rng.choice(list(NODE_COUNT))
        few = rng.sample(range(1, n + 1), rng.randint(1, min(n, NODE_COUNT[kind] - 1)))
        nodes = few + rng.choices(few, k=NODE_COUNT[kind] - len(few))
        return kind, rng.sample(nodes, len(nodes))
    kind = rng.choice([k for k in NODE_COUNT if NODE_COUNT[k] <= n])
    return kind, rng.sample(range(1, n + 1), NODE_COUNT[kind])


def elements(rng, n, count):
    """Words of some elements; now and then a wrong kind, or a wrong node, once or at two places."""
    out = []
    for _ in range(count):
        kind, nodes = element(rng, n)
        if rng.random() < 0.05:
            kind = rng.choice([0, 11, 65535])
        if rng.random() < 0.1:
            wrong = rng.choice([0, n + 1])
            nodes = [wrong] + nodes[1:] if rng.random() < 0.7 else [wrong] + nodes[1:-1] + [wrong]
        out += [kind] + nodes
    return out if rng.random() < 0.9 else out[:-1]


def of_bytes(values):
    """Words, low byte first."""
    return [byte for value in values for byte in (value % 256, value // 256)]


def mesh_inputs(rng, count):
    inputs = []
    for _ in range(count):
        n = rng.choice([0, 4097] + [rng.randint(1, 9)] * 8)
        if n in (0, 4097):
            inputs.append(MeshInput(n, [1, 1, 2], [9] * 3, [9] * 3, [9] * 3))
        else:
            inputs.append(MeshInput(n, elements(rng, n, rng.randint(0, 4)), lent(rng, n + 1),
                                    lent(rng, MOST_ENTRIES), lent(rng, n)))
    return inputs


def file_of(version, n, count, counts, words):
    return list(b'GRD') + of_bytes([version, n, count] + counts + words)


def file_bytes(rng, n):
    """A file of n nodes, of version 1 or of version 2 with its counts; now and then damaged in one place."""
    count, version = rng.randint(0, 4), rng.randint(1, 2)
    counts = good_counts(rng, min(n, 9)) if version == 2 else []
    if counts and rng.random() < 0.1:
        counts[rng.randrange(len(counts))] = rng.choice([0, 7, 256, 65535])
    file = file_of(version, n, count, counts, elements(rng, max(1, n), count))
    way = rng.random()
    if way < 0.1:
        # any byte but the two of n: for hundreds of nodes the output is more than the checker computes
        file[rng.choice([i for i in range(len(file)) if i not in (5, 6)])] = rng.randint(0, 255)
    elif way < 0.2:
        file = file[:rng.randrange(len(file))]
    elif way < 0.25:
        file = file + [0] * rng.randint(1, 2)
    return file


def file_inputs(rng, count):
    return [file_bytes(rng, rng.choice([0, 4097] + [rng.randint(1, 7)] * 8)) for _ in range(count)]


# Two nodes and a bar; five nodes and a pyramid, with a bar behind it: n, the element count, the words of the elements.
BAR, PYRAMID = (2, 1, [1, 1, 2]), (5, 2, [5, 1, 2, 3, 4, 5, 1, 3, 3])


def counted_inputs(rng):
    """Files of version 2: whole, cut at every byte from the header on, with a bad count whole and cut so; with 0, 1 and 3 for the version; with
    elements that are refused behind counts that are not, and are."""
    inputs = []
    for n, count, words in (BAR, PYRAMID):
        for counts in ([1] * n, [6] * n, [rng.randint(1, MOST) for _ in range(n)]):
            inputs += [file_of(version, n, count, counts, words) for version in range(4)]
        for bad in (0, 7, 257, 65535):
            inputs += [file_of(2, n, count, [1] * at + [bad] + [1] * (n - at - 1), words) for at in range(n)]
    n, count, words = BAR
    for counts in ([2, 3], [0, 3], [2, 7]):
        whole = file_of(2, n, count, counts, words)
        inputs += [whole[:size] for size in range(9, len(whole))] + [whole + [0]]
        inputs += [file_of(2, n, count, counts, others) for others in ([], [11], [1], [1, 0, 1], [1, 3, 9], [1, 2, 2, 0])]
    inputs += [file_of(2, n, count, counts, []) for n in (0, 4097) for count in (0, 1) for counts in ([], [0])]
    return inputs
