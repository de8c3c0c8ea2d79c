"""Numbering: change of names, order of a part, turning, part report, whole run.

Written from the section 'Numbering' of document 01, A.6 and A.9 of document 02.
"""

from collections import namedtuple

from combined import combined_levels
from ends import ends_of_part
from graph import degree, first_in_e, in_order_e, parts_of
from measures import adjoining, bandwidth, front, profile
from unknowns import width_in_unknowns

# v and u as now named; order holds the part's nodes by new number, after turning.
NumberedPart = namedtuple('NumberedPart', 'v u k width passes direction level_of order')
# passes holds a count for each part.
WholeRun = namedtuple('WholeRun', 'number_of level_of passes figures')


def change_names(rows, ends, level_of):
    """v, u and the levels after any change of names."""
    # "If u has lower degree than v, v and u change names and level i
    # becomes k + 1 - i."
    if degree(rows, ends.u) < degree(rows, ends.v):
        return ends.u, ends.v, {z: ends.k + 1 - level_of[z] for z in level_of}
    return ends.v, ends.u, level_of


def from_level_before(rows, before, level):
    """Nodes of the level that the level before gives, in the order of their numbers."""
    # "for the nodes of the level before, by number, their unnumbered
    # neighbours in this level, in E"
    given = []
    left = set(level)
    for p in before:
        chosen = in_order_e(rows, [q for q in rows[p] if q in left])
        given += chosen
        left -= set(chosen)
    return given


def lowest_with_unnumbered(rows, given, left):
    """Lowest-numbered node of the level with unnumbered neighbours in it, or None."""
    for p in given:
        for q in rows[p]:
            if q in left:
                return p
    return None


def finish_level(rows, given, level):
    """Order of the whole level, where given holds its nodes numbered so far, by number."""
    given = list(given)
    left = set(level) - set(given)
    while left:
        # "Then the lowest-numbered node of the level with unnumbered
        # neighbours in it: those neighbours in E, and again until none."
        p = lowest_with_unnumbered(rows, given, left)
        if p is not None:
            chosen = in_order_e(rows, [q for q in rows[p] if q in left])
        else:
            # "If nodes are left, number the first in E and go on."
            chosen = [first_in_e(rows, left)]
        given += chosen
        left -= set(chosen)
    return given


def levels_as_lists(level_of, k):
    nodes = {i: [] for i in range(1, k + 1)}
    for z in level_of:
        nodes[level_of[z]].append(z)
    return nodes


def forward_order(rows, v, k, level_of):
    """The part's nodes in the order in which they take numbers, before turning."""
    nodes = levels_as_lists(level_of, k)
    # "Level 1: v first."
    before = finish_level(rows, [v], nodes[1])
    order = list(before)
    for i in range(2, k + 1):
        # "Each later level: ... Then as in level 1, within this level."
        given = from_level_before(rows, before, nodes[i])
        before = finish_level(rows, given, nodes[i])
        order += before
    return order


def numbers_from(first_number, order):
    return {order[t]: first_number + t for t in range(len(order))}


def part_profile(rows, count_of, order):
    """Profile of a part alone, in unknowns; the numbers of parts before it shift nothing."""
    numbers = numbers_from(1, order)
    return profile(adjoining(rows, count_of, numbers))


def turn(rows, count_of, order):
    """Order of the part and its direction."""
    # "A part's numbers are turned end for end exactly if that makes its
    # profile less." A.6: "Levels and the numbering before turning don't change;
    # turning is decided by the profile in unknowns."
    turned = order[::-1]
    if part_profile(rows, count_of, turned) < part_profile(rows, count_of, order):
        return turned, 'Reversed'
    return order, 'Forward'


def number_part(rows, count_of, part):
    ends = ends_of_part(rows, part)
    combined = combined_levels(rows, part, ends)
    v, u, level_of = change_names(rows, ends, combined)
    order, direction = turn(rows, count_of, forward_order(rows, v, ends.k, level_of))
    # "Levels don't turn."
    return NumberedPart(v, u, ends.k, width_in_unknowns(level_of, count_of), ends.passes, direction,
                        level_of, order)


def whole_run(rows, count_of):
    return number_parts(rows, count_of, number_part)


def number_parts(rows, count_of, numbering_of_part):
    """Numbers, levels, passes and figures of the graph, each part numbered by the function."""
    number_of = {}
    level_of = {}
    numbered = []
    # "Parts come in order of lowest old number and take the next free numbers."
    for part in parts_of(rows):
        done = numbering_of_part(rows, count_of, part)
        number_of.update(numbers_from(len(number_of) + 1, done.order))
        level_of.update(done.level_of)
        numbered.append(done)
    # A.9: "Keep a count for every part, in a list .. ordered as the parts are"
    passes = [done.passes for done in numbered]
    return WholeRun(number_of, level_of, passes, run_figures(rows, count_of, number_of, numbered))


def run_figures(rows, count_of, number_of, numbered):
    """The seven figures: those of the program's first line but the passes."""
    # Reading 10: nodes, parts and levels stay as they are, the other four are in unknowns.
    adjoins = adjoining(rows, count_of, number_of)
    # "Levels and passes are summed over parts; width is the greatest."
    # A.9: "drop the single counter: both return seven figures"
    return (len(rows), len(numbered),
            bandwidth(adjoins), profile(adjoins), front(adjoins),
            sum(done.k for done in numbered),
            max(done.width for done in numbered))
