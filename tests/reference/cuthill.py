"""Reverse Cuthill-McKee, from A.3 and A.6 of document 02 and steps B and D in section 3 of the 1976 paper (source document 002)."""

from collections import namedtuple

from ends import ends_of_part
from graph import in_order_e
from levels import depth, rooted_levels
from numbering import number_parts
from unknowns import width_in_unknowns

# level_of has the levels rooted at v; order holds the part's nodes by new number, after turning.
CuthillPart = namedtuple('CuthillPart', 'v k width passes level_of order')


def step_b(rows, v, level_of):
    """The part's nodes in the order in which they take numbers, before turning."""
    # "The root vertex is assigned the number 1."
    order = [v]
    before = [v]
    # "For each successive level, beginning with level 2"
    for i in range(2, depth(level_of) + 1):
        level = []
        numbered = set()
        # "first number the vertices adjacent to the lowest numbered vertex of the
        # preceding level, in order of increasing degree .. The remaining vertices
        # adjacent to the next lowest numbered vertex of the preceding level are
        # numbered next, again in order of increasing degree." A.3: "Ties go by order E"
        for p in before:
            chosen = in_order_e(rows, [q for q in rows[p] if level_of[q] == i and q not in numbered])
            level += chosen
            numbered |= set(chosen)
        order += level
        before = level
    return order


def step_d(order):
    # "The numbering is reversed by setting i to n - i + 1"; A.3: "turning is done
    # part by part", "Every part is turned."
    return order[::-1]


def cuthill_part(rows, count_of, part):
    # A.3: "each part starts from the v of our end search": before any change of names
    ends = ends_of_part(rows, part)
    # A.3: "Levels are those rooted at v."
    level_of = rooted_levels(rows, ends.v)
    order = step_d(step_b(rows, ends.v, level_of))
    # A.6: the width is "the greatest number of unknowns in a level"; every part is turned,
    # so the order has nothing to do with the counts.
    return CuthillPart(ends.v, depth(level_of), width_in_unknowns(level_of, count_of), ends.passes, level_of, order)


def reverse_cuthill_mckee(rows, count_of):
    # A.3: "parts by lowest old number", "with the run's buffers and figures"
    return number_parts(rows, count_of, cuthill_part)
