"""Elements and the adjacency of a mesh, from the section 'Mesh and file' of document 01 and request A.1 of document 02."""

from itertools import combinations

from graph import MOST_ENTRIES

# "Kinds and node counts: 1 bar 2, 2 triangle 3, 3 quadrilateral 4,
# 4 tetrahedron 4, 5 pyramid 5, 6 wedge 6, 7 brick 8, 8 triangle 6,
# 9 quadrilateral 8, 10 tetrahedron 10."
NODE_COUNT = {1: 2, 2: 3, 3: 4, 4: 4, 5: 5, 6: 6, 7: 8, 8: 6, 9: 8, 10: 10}


def wrong_nodes(n, nodes):
    # 10 in A.1, in place of "element node 0, above n or repeated":
    # "Refusal 10 stays for numbers 0 and above n."
    return any(p == 0 or p > n for p in nodes)


def distinct(nodes):
    # A.1, in place of "A node may not repeat within an element":
    # "A node that repeats within an element counts once"
    return sorted(set(nodes))


def read_elements(n, words):
    """(refusal or 0, node lists of the elements), records read to the end of the words."""
    # "Elements are tested one by one, 9 before 10 in each."
    elements = []
    at = 0
    while at < len(words):
        # "An element is a kind word, then its nodes"
        kind = words[at]
        # 9: "unknown kind, or a record runs past the end"
        if kind not in NODE_COUNT or at + 1 + NODE_COUNT[kind] > len(words):
            return 9, []
        nodes = words[at + 1:at + 1 + NODE_COUNT[kind]]
        if wrong_nodes(n, nodes):
            return 10, []
        elements.append(nodes)
        at += 1 + NODE_COUNT[kind]
    return 0, elements


def mesh_rows(n, elements):
    # "all its nodes adjoin one another"; an edge met again counts once.
    # A.1: "The adjacency compared with is from then on that of the distinct
    # nodes", "and an element with one distinct node joins nothing": it has no pair.
    rows = {p: set() for p in range(1, n + 1)}
    for nodes in elements:
        for p, q in combinations(distinct(nodes), 2):
            rows[p].add(q)
            rows[q].add(p)
    return rows


def too_many_entries(rows):
    # 11: "over 32,768 neighbour entries result"
    return sum(len(rows[p]) for p in rows) > MOST_ENTRIES
