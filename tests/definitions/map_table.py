#!/usr/bin/env python3
"""The table of crate `spec` of the store map: its two lists on small graphs, what is left behind them, and the order of its refusals.

  map_table.py            print crates/spec/proofs/MapTable.antt; `rt fmt` lays it out
  map_table.py --check    say whether the file stands as this script prints it, layout aside

Every expected value is what tests/reference answers or leaves; nothing is taken from the definitions.
"""

import os
import sys

HERE = os.path.dirname(os.path.abspath(__file__))
TOP = os.path.dirname(os.path.dirname(HERE))
sys.path[:0] = [os.path.join(TOP, 'tests', 'reference'), HERE]

import calls
from antt import bare, words
from graph import from_edges
from tables import kept

# name, what it is, the two lists
GRAPHS = [
    ('none', 'no node: 1', ([0], [])),
    ('one', 'one node', from_edges(1, [])),
    ('two', 'two nodes that do not adjoin', from_edges(2, [])),
    ('pair', 'nodes 1 and 2, joined', from_edges(2, [(1, 2)])),
    ('falling', 'starts that fall: 2', ([0, 1, 0], [])),
    ('itself', 'a row that holds its own node: 3', ([0, 1, 2], [1, 1])),
    ('unpaired', 'rows {2}, {}: 4', ([0, 1, 1], [2])),
    ('path', 'the path 1-4-3-2 by just these numbers: 2 adjoins 3 alone', from_edges(4, [(1, 4), (4, 3), (3, 2)])),
    ('ring', '1-2-3-4-1', from_edges(4, [(1, 2), (2, 3), (3, 4), (4, 1)])),
    ('star', 'centre 1, leaves 2, 3 and 4', from_edges(4, [(1, 2), (1, 3), (1, 4)])),
    ('sample', 'edges 1-2, 1-4, 2-3 and 3-5, of document 01', from_edges(5, [(1, 2), (1, 4), (2, 3), (3, 5)])),
    ('parts', 'three parts: a triangle 3-5-7 with node 1 at it, the path 2-8-6, and node 4 alone',
     from_edges(8, [(1, 3), (3, 5), (3, 7), (5, 7), (2, 8), (8, 6)])),
]
LISTS = {name: lists for name, _, lists in GRAPHS}

HEAD = '''-- The store map on small graphs: a table by computation. Every value is the independent program's, by the unknowns one by one; most can be
-- worked by hand. Every list is lent full of 9s, so that a word that the call writes shows.
-- Made by tests/definitions/map_table.py from tests/reference. Assumes nothing.
use Prim.Native.Nat.{ℕ}
use mathlib.Core.Path.{◌≡◌, refl}
use mathlib.Core.List.{List, [], ◌∷◌, ◌++◌}
use lib.ListN.{replicate}
use Rattle.spec.specs.Lent.{Outcome, accepted, refused}
use Rattle.spec.specs.CallsMap.{MapFigures, store_map_answer, store_map_scratch, store_map_first, store_map_place}
use Rattle.spec.proofs.Compute.{computes}
use Rattle.spec.proofs.Called.{Lists}

-- ---- what the call answers and leaves, with so much lent

record Mapped : Type 0 where
  answer : Outcome MapFigures
  scratch : List ℕ
  first : List ℕ
  place : List ℕ

lent : ℕ → List ℕ
lent k = replicate k 9

-- a graph, counts, a numbering; the lengths of scratch, first and place
mapped : Lists → List ℕ → List ℕ → ℕ → ℕ → ℕ → Mapped
mapped l c x w f p = record {
  answer = store_map_answer l.starts l.neighbours c x (lent w) (lent f) (lent p);
  scratch = store_map_scratch l.starts l.neighbours c x (lent w) (lent f) (lent p);
  first = store_map_first l.starts l.neighbours c x (lent w) (lent f) (lent p);
  place = store_map_place l.starts l.neighbours c x (lent w) (lent f) (lent p);
}

left : Outcome MapFigures → List ℕ → List ℕ → List ℕ → Mapped
left a w f p = record { answer = a; scratch = w; first = f; place = p }

-- profile and number of unknowns, and what the lists begin with: the scratch is cleared, and as many 9s as said are left in each list
fills : ℕ → ℕ → ℕ → ℕ → List ℕ → ℕ → List ℕ → ℕ → Mapped
fills p u n w f i s j = left (accepted (record { profile = p; unknowns = u })) (replicate n 0 ++ lent w) (f ++ lent i) (s ++ lent j)

-- refused by a number; the first so many scratch words are 0, and all else stays
stays : ℕ → ℕ → ℕ → ℕ → ℕ → Mapped
stays e n w f p = left (refused e) (replicate n 0 ++ lent w) (lent f) (lent p)

-- ---- the graphs
'''


# What the reference says, in the terms of the definitions above.

def lent(count):
    return [9] * count


def split(buffer, front):
    """How many 9s stand behind the front, which is checked to be all of it."""
    assert buffer == front + lent(len(buffer) - len(front)), (buffer, front)
    return len(buffer) - len(front)


def mapped(graph, counts, numbering, *lengths):
    scratch, first, place = after = [lent(length) for length in lengths]
    state, value = calls.store_map(*LISTS[graph], counts, numbering, *after)
    zeros = [word for word in scratch if word == 0]
    if state == 'refused':
        assert first == lent(len(first)) and place == lent(len(place))
        return 'stays %d %d %d %d %d' % (value, len(zeros), split(scratch, zeros), len(first), len(place))
    profile, unknowns = value
    firsts, places = first[:unknowns], place[:unknowns + 1]
    return 'fills %d %d %d %d %s %d %s %d' % (profile, unknowns, len(zeros), split(scratch, zeros), words(firsts), split(first, firsts),
                                              words(places), split(place, places))


def room(graph, counts, numbering, more=0):
    """The row's arguments, with just what the call asks for lent, or so much more."""
    n = len(LISTS[graph][0]) - 1
    return graph, counts, numbering, n + more, 6 * n + more, 6 * n + 1 + more


# Rows: name, what it shows ('' where the row before says it), the graph, the counts, the numbering, what is lent.
ROWS = [
    ('lone', 'a lone node of one has a row without places; of six, rows of 0, 1, .. 5: "Any two of one node .. adjoin"', *room('one', [1], [1])),
    ('six', '', *room('one', [6], [1])),
    ('six_more', 'longer lists keep their excess', *room('one', [6], [1], 2)),
    ('apart', 'the rows of the second node begin at its own first unknown', *room('two', [2, 3], [1, 2])),
    ('other_way', 'rows go by new number, counts by old: the three come first', *room('two', [2, 3], [2, 1])),
    ('pair-map', 'the rows of the later node reach back to the first unknown of the other', *room('pair', [2, 3], [1, 2])),
    ('pair_turned', '', *room('pair', [2, 3], [2, 1], 1)),
    ('ones', '"f_q is the least of q and its neighbours", one unknown each', *room('sample', [1] * 5, [1, 2, 3, 4, 5])),
    ('sample_map', '', *room('sample', [2, 1, 1, 3, 1], [1, 2, 3, 4, 5])),
    ('path-map', 'row 2 begins at its own node though a later node reaches past it', *room('path', [2, 1, 3, 1], [1, 2, 3, 4])),
    ('ring_map', '', *room('ring', [1, 2, 3, 1], [1, 2, 4, 3])),
    ('star_map', 'rows 2 and 3 begin at the same place: row 2 has none', *room('star', [6, 1, 1, 1], [3, 4, 2, 1])),
    ('parts-map', 'several parts', *room('parts', [2, 1, 1, 3, 1, 2, 1, 1], [1, 5, 2, 8, 3, 7, 4, 6])),
    ('one_due', '1 to 4 come first, whatever else is handed in', 'none', [], [], 0, 0, 0),
    ('two_due', '', 'falling', [], [], 0, 0, 0),
    ('three_due', '', 'itself', [], [], 0, 0, 0),
    ('four_due', '', 'unpaired', [], [], 0, 0, 0),
    ('four_lent', '', 'unpaired', [1, 1], [1, 2], 2, 12, 13),
    ('short_scratch', '5, "whatever the counts": a word of scratch, of first or of place too few; before 15 and 7', 'pair', [1, 1], [1, 2], 1, 12, 13),
    ('short-first', '', 'pair', [1, 1], [1, 2], 2, 11, 13),
    ('short-place', '', 'pair', [1, 1], [1, 2], 2, 12, 12),
    ('enough_for_these', '', 'pair', [1, 1], [1, 2], 2, 2, 3),
    ('five_first', '', 'pair', [0, 7], [1, 1], 2, 12, 12),
    ('count_zero', '15: a count of 0, a count of 7, a word too few, a word too many; before 7, and nothing is written', *room('pair', [0, 1], [1, 2])),
    ('count_seven', '', *room('pair', [1, 7], [1, 2])),
    ('count_few', '', *room('pair', [1], [1, 2])),
    ('count_many', '', *room('pair', [1, 1, 1], [1, 2])),
    ('count_first', '', *room('pair', [0, 1], [1, 1])),
    ('twice', '7: a number twice, 0, above n, a word too few, a word too many; the n scratch words are 0', *room('pair', [2, 3], [1, 1], 1)),
    ('number_zero', '', *room('pair', [2, 3], [0, 1])),
    ('number-above', '', *room('pair', [2, 3], [1, 3])),
    ('number_few', '', *room('pair', [2, 3], [1])),
    ('number_many', '', *room('pair', [2, 3], [1, 2, 1], 1)),
]


# The text.

def term(value):
    return value if isinstance(value, str) else str(value) if isinstance(value, int) else words(value)


def row(name, why, *given):
    return ('  -- %s\n' % why if why else '') + '  %s : mapped %s ≡ %s' % (name, ' '.join(map(term, given)), mapped(*given))


def graph(name, why, lists):
    return '-- %s\n%s : Lists\n%s = record { starts = %s; neighbours = %s }\n' % (why, name, name, bare(words(lists[0])), bare(words(lists[1])))


def text():
    return '\n'.join([
        HEAD, *[graph(*one) for one in GRAPHS], '-- ---- the table\n', 'record MapTable : Type 0 where', *[row(*one) for one in ROWS], '',
        'map_table : MapTable', ' '.join(['unfolding computes lent mapped left fills stays'] + [name for name, *_ in GRAPHS]),
        'map_table = record {', *['  %s = refl;' % name for name, *_ in ROWS], '}', ''])


if __name__ == '__main__':
    sys.exit(kept('MapTable.antt', text()))
