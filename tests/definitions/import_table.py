#!/usr/bin/env python3
"""The table of crate `spec` of numberings from other mesh tools (document 02, A.5): lists of pairs, figures, and the order of the refusals.

  import_table.py            print crates/spec_import/proofs/ImportTable.antt; `rt fmt` lays it out
  import_table.py --check    say whether the file stands as this script prints it, layout aside

Every expected value is what tests/reference answers or leaves; nothing is taken from the definitions.
"""

import os
import sys

HERE = os.path.dirname(os.path.abspath(__file__))
TOP = os.path.dirname(os.path.dirname(HERE))
sys.path[:0] = [os.path.join(TOP, 'tests', 'reference'), HERE]

import calls
from antt import bare, words
from graph import from_edges
from tables import kept

# name, what it is, the two lists
GRAPHS = [
    ('one', 'one node', from_edges(1, [])),
    ('unpaired', 'rows {2}, {}, {}: 4', ([0, 1, 1, 1], [2])),
    ('path', 'the path 1-2-3', from_edges(3, [(1, 2), (2, 3)])),
    ('ring', '1-2-3-4-1', from_edges(4, [(1, 2), (2, 3), (3, 4), (4, 1)])),
    ('sample', 'document 01\'s edges 1-2, 1-4, 2-3, 3-5', from_edges(5, [(1, 2), (1, 4), (2, 3), (3, 5)])),
]
LISTS = {name: lists for name, _, lists in GRAPHS}

HEAD = '''-- Numberings from other mesh tools (document 02, A.5) on small graphs: a table by computation. Every value is the independent program's.
-- Every buffer is lent full of 9s, so that a word that the call writes shows.
-- Made by tests/definitions/import_table.py from tests/reference. Assumes nothing.
use Prim.Native.Nat.{ℕ}
use mathlib.Core.Path.{◌≡◌, refl}
use mathlib.Core.List.{List, [], ◌∷◌}
use lib.ListN.{replicate}
use Rattle.spec.specs.CallsNumbering.{MeasureFigures}
use Rattle.spec_import.specs.CallsImport.{import_answer, import_numbers, import_scratch}
use Rattle.spec_import.proofs.Compute.{computes_import}
use Rattle.spec.proofs.Called.{Lists, number_of}

-- what the call refuses by, 0 where it accepts, and what it leaves of the two lent lists
record Imported : Type 0 where
  by : ℕ
  numbers : List ℕ
  scratch : List ℕ

lent : ℕ → List ℕ
lent k = replicate k 9

-- bandwidth, profile and front as the supplier sent them
sent : ℕ → ℕ → ℕ → MeasureFigures
sent b p f = record { bandwidth = b; profile = p; front = f }

-- counts, pairs, figures, and so many words lent for the numbers and for the scratch
imported : Lists → List ℕ → List ℕ → MeasureFigures → ℕ → ℕ → Imported
imported l c p f i k = record {
  by = number_of (import_answer l.starts l.neighbours c p f (lent i) (lent k));
  numbers = import_numbers l.starts l.neighbours c p f (lent i) (lent k);
  scratch = import_scratch l.starts l.neighbours c p f (lent i) (lent k);
}

-- ---- the graphs
'''

ONES = [1, 1, 1]
ENGINE = [4, 1, 1, 2, 2, 3, 3, 4]

# Rows: name, what it shows ('' where the row before says it), the graph, the counts, the pairs, the figures, words lent.
ROWS = [
    ('whole', 'a numbering, all nodes listed in order; a longer list keeps its excess',
     'sample', [1] * 5, [1, 2, 2, 3, 3, 4, 4, 1, 5, 5], (1, 4, 2), 6, 7),
    ('kept_left_out', '"Nodes not in the list keep their own number": the same without node 5, in another order',
     'sample', [1] * 5, ENGINE, (1, 4, 2), 5, 5),
    ('empty', 'no pair: the old order, with document 01\'s figures of it', 'sample', [1] * 5, [], (3, 7, 3), 5, 5),
    ('own-number', 'a node by its own number', 'sample', [1] * 5, [3, 3], (3, 7, 3), 5, 5),
    ('old_then_new', '"old number then new": read the other way the numbers would be 3, 1, 2, 4, 5, with the figures of the second row',
     'sample', [1] * 5, [1, 2, 2, 3, 3, 1], (4, 8, 4), 5, 5),
    ('new_then_old', '', 'sample', [1] * 5, [1, 2, 2, 3, 3, 1], (3, 7, 3), 5, 5),
    ('lone', 'one node of six, with and without its pair', 'one', [6], [], (5, 15, 6), 1, 1),
    ('lone_listed', '', 'one', [6], [1, 1], (5, 15, 6), 1, 1),
    ('counted', 'the figures are in unknowns', 'ring', [1, 2, 3, 1], [4, 3, 3, 4], (5, 18, 6), 4, 4),
    ('counted-nodes', '', 'ring', [1, 2, 3, 1], [4, 3, 3, 4], (2, 5, 3), 4, 4),
    ('odd', '13: an odd number of words; an old number twice, by the same pair, by another, by its own number; 0 and n + 1; more pairs than nodes',
     'path', ONES, [1], (1, 2, 2), 4, 4),
    ('odd_behind', '', 'path', ONES, [2, 3, 3, 2, 1], (2, 2, 2), 4, 4),
    ('same_pair_twice', '', 'path', ONES, [2, 3, 3, 2, 2, 3], (2, 2, 2), 4, 4),
    ('old_twice', '', 'path', ONES, [2, 3, 2, 2, 3, 2], (2, 2, 2), 4, 4),
    ('own_twice', '', 'path', ONES, [1, 1, 1, 1], (1, 2, 2), 4, 4),
    ('old_none', '', 'path', ONES, [0, 1], (1, 2, 2), 4, 4),
    ('old-above', '', 'path', ONES, [4, 4], (1, 2, 2), 4, 4),
    ('too_many', '', 'path', ONES, [1, 1, 2, 2, 3, 3, 1, 1], (1, 2, 2), 4, 4),
    ('new_none', '7: a new number 0, above n, twice, or of a node that keeps it; the n scratch words are 0', 'path', ONES, [1, 0], (1, 2, 2), 4, 4),
    ('new-above', '', 'path', ONES, [3, 4], (1, 2, 2), 4, 4),
    ('new_far', '', 'path', ONES, [3, 65535], (1, 2, 2), 4, 4),
    ('new_twice', '', 'path', ONES, [1, 2, 2, 1, 3, 1], (1, 2, 2), 4, 4),
    ('new_of_kept', '', 'path', ONES, [1, 3], (1, 2, 2), 4, 4),
    ('new_of_kept_turn', '', 'path', ONES, [1, 2, 2, 3], (1, 2, 2), 4, 4),
    ('bandwidth_off', '14: each figure one off, and larger by what 32 bits hold; the n scratch words are 0',
     'path', ONES, [2, 3, 3, 2], (1, 2, 2), 4, 4),
    ('bandwidth_over', '', 'path', ONES, [2, 3, 3, 2], (3, 2, 2), 4, 4),
    ('profile_off', '', 'path', ONES, [2, 3, 3, 2], (2, 1, 2), 4, 4),
    ('profile_over', '', 'path', ONES, [2, 3, 3, 2], (2, 3, 2), 4, 4),
    ('front_off', '', 'path', ONES, [2, 3, 3, 2], (2, 2, 1), 4, 4),
    ('front_over', '', 'path', ONES, [2, 3, 3, 2], (2, 2, 3), 4, 4),
    ('bandwidth-wide', '', 'path', ONES, [2, 3, 3, 2], (2 + 2 ** 32, 2, 2), 4, 4),
    ('profile-wide', '', 'path', ONES, [2, 3, 3, 2], (2, 2 + 2 ** 32, 2), 4, 4),
    ('front-wide', '', 'path', ONES, [2, 3, 3, 2], (2, 2, 2 + 2 ** 32), 4, 4),
    ('none_wrong', '', 'path', ONES, [2, 3, 3, 2], (2, 2, 2), 4, 4),
    ('thirteen_seven', 'in order: 13 before 7 and 14, 7 before 14', 'path', ONES, [1, 0, 1, 0], (9, 9, 9), 4, 4),
    ('seven_fourteen', '', 'path', ONES, [1, 0], (9, 9, 9), 4, 4),
    ('fifteen_thirteen', '15 before 13: a count of 0, of 7, a word too few, a word too many', 'path', [1, 0, 1], [1], (9, 9, 9), 4, 4),
    ('fifteen_seven', '', 'path', [1, 1, 7], [1, 0], (9, 9, 9), 4, 4),
    ('fifteen_few', '', 'path', [1, 1], [1, 2, 1, 2], (9, 9, 9), 4, 4),
    ('fifteen_many', '', 'path', [1] * 4, [], (1, 2, 2), 4, 4),
    ('five_numbers', '5 before 15: either list a word short', 'path', [], [1], (9, 9, 9), 2, 3),
    ('five_scratch', '', 'path', [], [1], (9, 9, 9), 3, 2),
    ('five_alone', '', 'path', ONES, [], (1, 2, 2), 3, 2),
    ('just_enough', '', 'path', ONES, [], (1, 2, 2), 3, 3),
    ('four_first', '4 before 5', 'unpaired', [], [1], (9, 9, 9), 2, 2),
]


def fields(values):
    return 'record { %s }' % '; '.join('%s = %s' % pair for pair in values)


def shown(buffer):
    return 'lent %d' % len(buffer) if buffer == [9] * len(buffer) else bare(words(buffer))


def row(name, why, graph, counts, pairs, figures, i, k):
    """A field: what the definitions say, and what the reference answers and leaves."""
    numbers, scratch = [9] * i, [9] * k
    state, value = calls.import_numbering(*LISTS[graph], counts, pairs, *figures, numbers, scratch)
    due = fields([('by', value if state == 'refused' else 0), ('numbers', shown(numbers)), ('scratch', shown(scratch))])
    asked = 'imported %s %s %s (sent %d %d %d) %d %d' % (graph, words(counts), words(pairs), *figures, i, k)
    return ('  -- %s\n' % why if why else '') + '  %s : %s ≡ %s' % (name, asked, due)


def graph(name, why, lists):
    return '-- %s\n%s : Lists\n%s = %s\n' % (
        why, name, name, fields([('starts', bare(words(lists[0]))), ('neighbours', bare(words(lists[1])))]))


def text():
    return '\n'.join([
        HEAD, *[graph(*one) for one in GRAPHS], '-- ---- the table\n', 'record ImportTable : Type 0 where', *[row(*one) for one in ROWS], '',
        'import_table : ImportTable', ' '.join(['unfolding computes_import number_of lent sent imported'] + [name for name, *_ in GRAPHS]),
        'import_table = record {', *['  %s = refl;' % name for name, *_ in ROWS], '}', ''])


if __name__ == '__main__':
    sys.exit(kept('ImportTable.antt', text(), 'spec_import'))
