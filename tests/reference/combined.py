"""Combined levels of a part, from the section 'Combined levels' of document 01."""

from graph import pieces_of
from levels import level_counts, rooted_levels


def number_pairs(rows, part, ends):
    # "Node z has the pair (a, k + 1 - b), a its level rooted at v and b
    # its level rooted at u."
    from_v = rooted_levels(rows, ends.v)
    from_u = rooted_levels(rows, ends.u)
    return {z: (from_v[z], ends.k + 1 - from_u[z]) for z in part}


def pieces_in_turn(rows, nodes):
    # "the other nodes fall into connected pieces, taken by size falling,
    # then by lowest old number"
    return sorted(pieces_of(rows, nodes), key=lambda piece: (-len(piece), min(piece)))


def greatest_touched(counts, numbers):
    """h for a piece's first numbers, l for its second numbers."""
    # "h_i is c_i plus the piece's nodes whose first number is i"
    sums = {i: counts[i] + numbers.count(i) for i in counts}
    # "h is the greatest h_i among levels where h_i > c_i"
    return max(sums[i] for i in sums if sums[i] > counts[i])


def goes_by_first(counts, piece, pairs, ends):
    h = greatest_touched(counts, [pairs[z][0] for z in piece])
    l = greatest_touched(counts, [pairs[z][1] for z in piece])
    # "The piece goes by first numbers if h < l, by second if l < h."
    if h < l:
        return True
    if l < h:
        return False
    # "If equal, by first unless u's width is less than v's."
    return not ends.width_u < ends.width_v


def combined_levels(rows, part, ends):
    """Level of each node of the part, before any change of names."""
    pairs = number_pairs(rows, part, ends)
    # "Equal pairs go to that level."
    level_of = {z: pairs[z][0] for z in part if pairs[z][0] == pairs[z][1]}
    # "With those taken out, the other nodes fall into connected pieces"
    others = [z for z in part if z not in level_of]
    for piece in pieces_in_turn(rows, others):
        # "c_i is the present count of level i, over everything placed so
        # far in this part": counted afresh for each piece.
        counts = level_counts(level_of, ends.k)
        by_first = goes_by_first(counts, piece, pairs, ends)
        for z in piece:
            level_of[z] = pairs[z][0] if by_first else pairs[z][1]
    return level_of
