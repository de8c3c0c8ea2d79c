"""Graph: rows of the two lists, degree, order E, refusals 1 to 4, parts.

Written from the section 'Graph' of document 01 and its table of refusals.
"""

MOST_NODES = 4096
MOST_ENTRIES = 32768


def rows_of(starts, neighbours):
    """Row of each node, for two lists that passed refusals 1 and 2."""
    # "Row p is the neighbours from start p - 1 up to, not including,
    # start p (starts counted from 0)."
    n = len(starts) - 1
    return {p: neighbours[starts[p - 1]:starts[p]] for p in range(1, n + 1)}


def degree(rows, p):
    # "Degree is the length of a row." Always the row in the whole graph.
    return len(rows[p])


def order_e(rows, p):
    """Sorting key of order E."""
    # "Order E: lower degree first, then lower old number."
    return (degree(rows, p), p)


def in_order_e(rows, nodes):
    return sorted(nodes, key=lambda p: order_e(rows, p))


def first_in_e(rows, nodes):
    return min(nodes, key=lambda p: order_e(rows, p))


# Refusals 1 to 4. Each test supposes that those before it have passed.

def wrong_node_count(n):
    # 1: "n is 0 or over 4,096"
    return n == 0 or n > MOST_NODES


def wrong_start_list(starts):
    # 1: "or a given start list is empty"; n + 1 words give n.
    return len(starts) == 0 or wrong_node_count(len(starts) - 1)


def wrong_starts(starts, neighbours):
    # 2: "first start not 0, starts fall, last start not the neighbour
    # list's length, or over 32,768"
    if starts[0] != 0:
        return True
    for p in range(1, len(starts)):
        if starts[p] < starts[p - 1]:
            return True
    return starts[-1] != len(neighbours) or starts[-1] > MOST_ENTRIES


def wrong_row(n, p, row):
    # 3: "a row leaves 1..n, holds itself or doesn't rise"
    for q in row:
        if q < 1 or q > n or q == p:
            return True
    for t in range(1, len(row)):
        if row[t] <= row[t - 1]:
            return True
    return False


def lacks_partner(rows):
    # 4: "a row's entry lacks its partner"
    held = {p: set(rows[p]) for p in rows}
    for p in rows:
        for q in rows[p]:
            if p not in held[q]:
                return True
    return False


def adjacency_refusal(starts, neighbours):
    """First refusal of 1 to 4 that is due, or 0."""
    # "Tests run in that order."
    if wrong_start_list(starts):
        return 1
    if wrong_starts(starts, neighbours):
        return 2
    rows = rows_of(starts, neighbours)
    for p in rows:
        if wrong_row(len(rows), p, rows[p]):
            return 3
    if lacks_partner(rows):
        return 4
    return 0


# Parts.

def connected(rows, node, allowed):
    """Nodes that can be reached from node through nodes of allowed."""
    reached = {node}
    waiting = [node]
    while waiting:
        p = waiting.pop()
        for q in rows[p]:
            if q in allowed and q not in reached:
                reached.add(q)
                waiting.append(q)
    return sorted(reached)


def pieces_of(rows, nodes):
    """Connected pieces of the given nodes, by lowest old number."""
    left = set(nodes)
    pieces = []
    for node in sorted(nodes):
        if node in left:
            piece = connected(rows, node, left)
            pieces.append(piece)
            left -= set(piece)
    return pieces


def part_of(rows, node):
    # "A part is a connected component; an isolated node is a part."
    return connected(rows, node, rows)


def parts_of(rows):
    # "Parts come in order of lowest old number"
    return pieces_of(rows, rows)


# Making graphs, for comparisons.

def lists_of(rows):
    """Start list and neighbour list of rows 1 to n, each row any collection."""
    starts = [0]
    neighbours = []
    for p in range(1, len(rows) + 1):
        neighbours += sorted(rows[p])
        starts.append(len(neighbours))
    return starts, neighbours


def from_edges(n, edges):
    """Start list and neighbour list of the graph with these edges."""
    rows = {p: set() for p in range(1, n + 1)}
    for p, q in edges:
        rows[p].add(q)
        rows[q].add(p)
    return lists_of(rows)


def small_graphs(n):
    """All graphs of n nodes, as (starts, neighbours)."""
    pairs = [(p, q) for q in range(1, n + 1) for p in range(1, q)]
    for mask in range(2 ** len(pairs)):
        yield from_edges(n, [pairs[t] for t in range(len(pairs)) if mask >> t & 1])
