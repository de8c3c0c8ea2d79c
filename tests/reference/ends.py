"""Ends of a part, from the section 'Ends of a part' of document 01."""

from collections import namedtuple

from graph import first_in_e, in_order_e, order_e
from levels import depth, last_level, rooted_levels, width

# As the search names them, before any change of names.
Ends = namedtuple('Ends', 'v u k width_v width_u passes')


def try_last_level(rows, v):
    """Steps 2 and 3 for one v: (first s deeper than v or None, width of each s tried)."""
    # "S is the last level rooted at v."
    from_v = rooted_levels(rows, v)
    widths = {}
    # "Take S in E. At the first s deeper than v, put v = s and go to 2."
    for s in in_order_e(rows, last_level(from_v)):
        from_s = rooted_levels(rows, s)
        if depth(from_s) > depth(from_v):
            return s, widths
        widths[s] = width(from_s)
    return None, widths


def ends_of_part(rows, part):
    # "v is the part's first node in E."
    v = first_in_e(rows, part)
    # "Each value that v takes is one pass." The first one counts too.
    passes = 1
    deeper, widths = try_last_level(rows, v)
    while deeper is not None:
        v = deeper
        passes += 1
        deeper, widths = try_last_level(rows, v)
    # "u is the s of least width, ties by E." All of the last S were tried.
    u = min(widths, key=lambda s: (widths[s], order_e(rows, s)))
    # "k is v's depth."
    from_v = rooted_levels(rows, v)
    return Ends(v, u, depth(from_v), width(from_v), widths[u], passes)
