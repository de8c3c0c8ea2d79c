#!/usr/bin/env python3
"""The table of crate `spec` of unknowns per node (document 02, A.6): small graphs with counts, refusal 15 among the others, files of version 2.

  unknown_table.py            print crates/spec/proofs/UnknownTable.antt; `rt fmt` lays it out
  unknown_table.py --check    say whether the file stands as this script prints it, layout aside

Every expected value is what tests/reference answers or leaves; nothing is taken from the definitions.
"""

import os
import sys

HERE = os.path.dirname(os.path.abspath(__file__))
TOP = os.path.dirname(os.path.dirname(HERE))
sys.path[:0] = [os.path.join(TOP, 'tests', 'reference'), HERE]

import calls
from antt import bare, words
from graph import from_edges
from program import text_for
from tables import kept

# name, what it is, the two lists
GRAPHS = [
    ('one', 'one node', from_edges(1, [])),
    ('pair', 'nodes 1 and 2, joined', from_edges(2, [(1, 2)])),
    ('unpaired', 'rows {2}, {}: 4', ([0, 1, 1], [2])),
    ('path', 'the path 1-4-3-2 by just these numbers: 2 adjoins 3 alone', from_edges(4, [(1, 4), (4, 3), (3, 2)])),
    ('ring', '1-2-3-4-1', from_edges(4, [(1, 2), (2, 3), (3, 4), (4, 1)])),
    ('star', 'centre 2, leaves 1, 3, 4 and 5', from_edges(5, [(2, 1), (2, 3), (2, 4), (2, 5)])),
    ('tree', 'edges 1-2, 1-3, 1-4, 3-5', from_edges(5, [(1, 2), (1, 3), (1, 4), (3, 5)])),
    ('names', 'a change of names: u has lower degree than v',
     from_edges(7, [(1, 4), (1, 5), (1, 6), (2, 5), (2, 7), (3, 4), (3, 6), (3, 7), (4, 5), (4, 6), (5, 6)])),
    ('parts', 'three parts: a triangle 3-5-7 with node 1 at it, the path 2-8-6, and node 4 alone',
     from_edges(8, [(1, 3), (3, 5), (3, 7), (5, 7), (2, 8), (8, 6)])),
]
LISTS = {name: lists for name, _, lists in GRAPHS}

HEAD = '''-- Unknowns per node (document 02, A.6) on small graphs and files: a table by computation. Every value is the independent program's, by the
-- unknowns one by one; a few can be worked by hand. Every buffer is lent full of 9s, so that a word that a call writes shows.
-- Made by tests/definitions/unknown_table.py from tests/reference. Assumes nothing.
use Prim.Native.Nat.{ℕ}
use mathlib.Core.Path.{◌≡◌, refl}
use mathlib.Core.List.{List, [], ◌∷◌}
use lib.ListN.{replicate}
use Rattle.spec.specs.Numbering.{Forward, Reversed, Direction, PartReport, Figures}
use Rattle.spec.specs.Text.{ascii}
use Rattle.spec.specs.File.{file_refusal, program_output}
use Rattle.spec.specs.Lent.{Outcome, accepted}
use Rattle.spec.specs.CallsNumbering.{MeasureFigures, measures_answer, measures_scratch, report_answer, report_scratch, run_answer, run_numbers, run_levels, run_passes, run_scratch}
use Rattle.spec.specs.CallsCuthill.{cuthill_answer, cuthill_numbers, cuthill_levels, cuthill_passes, cuthill_scratch}
use Rattle.spec.specs.CallsStore.{EliminationFigures, elimination_answer, elimination_scratch, elimination_bytes}
use Rattle.spec.proofs.Compute.{computes}
use Rattle.spec.proofs.Called.{Lists, number_of, words, seven}

-- ---- what is found of a graph with these counts

-- by the run, and the report of the part of node 1
record Found : Type 0 where
  report : Outcome PartReport
  levels : List ℕ
  numbers : List ℕ
  figures : Outcome Figures

found : Lists → List ℕ → Found
found l c = record {
  report = report_answer l.starts l.neighbours c 1 (words l 6);
  levels = run_levels l.starts l.neighbours c (words l 1) (words l 1) (words l 1) (words l 6);
  numbers = run_numbers l.starts l.neighbours c (words l 1) (words l 1) (words l 1) (words l 6);
  figures = run_answer l.starts l.neighbours c (words l 1) (words l 1) (words l 1) (words l 6);
}

-- by A.3's call
record Ordered : Type 0 where
  levels : List ℕ
  numbers : List ℕ
  figures : Outcome Figures

ordered : Lists → List ℕ → Ordered
ordered l c = record {
  levels = cuthill_levels l.starts l.neighbours c (words l 1) (words l 1) (words l 1) (words l 6);
  numbers = cuthill_numbers l.starts l.neighbours c (words l 1) (words l 1) (words l 1) (words l 6);
  figures = cuthill_answer l.starts l.neighbours c (words l 1) (words l 1) (words l 1) (words l 6);
}

-- by the measures and the elimination under a numbering, with five bytes lent
record Stored : Type 0 where
  measures : Outcome MeasureFigures
  counts : Outcome EliminationFigures
  bytes : List ℕ

stored : Lists → List ℕ → List ℕ → Stored
stored l c x = record {
  measures = measures_answer l.starts l.neighbours c x (words l 1);
  counts = elimination_answer l.starts l.neighbours c x (words l 1) (replicate 5 9);
  bytes = elimination_bytes l.starts l.neighbours c x (words l 1) (replicate 5 9);
}

-- bandwidth, profile and front, the marks that are 1 and the newly joined pairs, and the bytes
with_store : ℕ → ℕ → ℕ → ℕ → ℕ → List ℕ → Stored
with_store b p f m k bs = record {
  measures = accepted (record { bandwidth = b; profile = p; front = f });
  counts = accepted (record { marked = m; new = k });
  bytes = bs;
}

-- v, u, k, width, passes and direction
reported : ℕ → ℕ → ℕ → ℕ → ℕ → Direction → Outcome PartReport
reported v u k w p d = accepted (record { v = v; u = u; k = k; width = w; passes = p; direction = d })

-- ---- refusals: what each call refuses by, 0 where it accepts, and what it leaves in each buffer

record Left : Type 0 where
  by : List ℕ
  buffers : List (List ℕ)

leaves : List ℕ → List (List ℕ) → Left
leaves cs bs = record { by = cs; buffers = bs }

lent : ℕ → List ℕ
lent k = replicate k 9

-- the run and A.3's call, with so many words lent
numbering : Lists → List ℕ → ℕ → ℕ → Left
numbering l c i k =
    leaves
    (number_of (run_answer l.starts l.neighbours c (lent i) (lent i) (lent i) (lent k))
    ∷ number_of (cuthill_answer l.starts l.neighbours c (lent i) (lent i) (lent i) (lent k))
    ∷ [])
    (run_numbers l.starts l.neighbours c (lent i) (lent i) (lent i) (lent k)
    ∷ run_levels l.starts l.neighbours c (lent i) (lent i) (lent i) (lent k)
    ∷ run_passes l.starts l.neighbours c (lent i) (lent i) (lent i) (lent k)
    ∷ run_scratch l.starts l.neighbours c (lent i) (lent i) (lent i) (lent k)
    ∷ cuthill_numbers l.starts l.neighbours c (lent i) (lent i) (lent i) (lent k)
    ∷ cuthill_levels l.starts l.neighbours c (lent i) (lent i) (lent i) (lent k)
    ∷ cuthill_passes l.starts l.neighbours c (lent i) (lent i) (lent i) (lent k)
    ∷ cuthill_scratch l.starts l.neighbours c (lent i) (lent i) (lent i) (lent k)
    ∷ [])

-- the report of node z's part
reporting : Lists → List ℕ → ℕ → ℕ → Left
reporting l c z k =
    leaves (number_of (report_answer l.starts l.neighbours c z (lent k)) ∷ [])
    (report_scratch l.starts l.neighbours c z (lent k) ∷ [])

-- the measures and the elimination under a numbering, with k words and b bytes lent
storing : Lists → List ℕ → List ℕ → ℕ → ℕ → Left
storing l c x k b =
    leaves
    (number_of (measures_answer l.starts l.neighbours c x (lent k))
    ∷ number_of (elimination_answer l.starts l.neighbours c x (lent k) (lent b))
    ∷ [])
    (measures_scratch l.starts l.neighbours c x (lent k)
    ∷ elimination_scratch l.starts l.neighbours c x (lent k) (lent b)
    ∷ elimination_bytes l.starts l.neighbours c x (lent k) (lent b)
    ∷ [])

-- ---- the graphs
'''


# What the reference says, in the terms of the definitions above.

def lent(count):
    return [9] * count


def numbers_of(answer):
    """An accepted answer's value."""
    state, value = answer
    assert state == 'accepted', answer
    return value


def said(name, values):
    return '%s %s' % (name, ' '.join(map(str, values)))


def fields(values):
    return 'record { %s }' % '; '.join('%s = %s' % pair for pair in values)


def numbered(call, graph, counts):
    """Levels, numbers and figures of the run or of A.3's call."""
    n = len(LISTS[graph][0]) - 1
    numbers, levels = lent(n), lent(n)
    figures = numbers_of(call(*LISTS[graph], counts, numbers, levels, lent(n), lent(calls.scratch_words(n))))
    return [('levels', bare(words(levels))), ('numbers', bare(words(numbers))), ('figures', said('seven', figures))]


def found(graph, counts):
    n = len(LISTS[graph][0]) - 1
    report = numbers_of(calls.part_report(*LISTS[graph], counts, 1, lent(calls.scratch_words(n))))
    return fields([('report', said('reported', report))] + numbered(calls.whole_run, graph, counts))


def ordered(graph, counts):
    return fields(numbered(calls.reverse_cuthill_mckee, graph, counts))


def stored(graph, counts, numbering):
    n, mark_bytes = len(LISTS[graph][0]) - 1, lent(5)
    figures = numbers_of(calls.measures(*LISTS[graph], counts, numbering, lent(n)))
    figures += numbers_of(calls.elimination(*LISTS[graph], counts, numbering, lent(n), mark_bytes))
    return '%s %s' % (said('with_store', figures), words(mark_bytes))


def left(*called):
    """Of each call, a call and its arguments, of which the last so many are lent: what it refuses by, and what it leaves."""
    by, buffers = [], []
    for call, given, sizes in called:
        after = [lent(size) for size in sizes]
        state, value = call(*given, *after)
        by.append(value if state == 'refused' else 0)
        buffers += after
    shown = ['lent %d' % len(buffer) if buffer == lent(len(buffer)) else words(buffer) for buffer in buffers]
    return 'leaves %s (%s ∷ [])' % (words(by), ' ∷ '.join(shown))


def numbering(graph, counts, i, k):
    given = [*LISTS[graph], counts]
    return left((calls.whole_run, given, [i, i, i, k]), (calls.reverse_cuthill_mckee, given, [i, i, i, k]))


def reporting(graph, counts, node, k):
    return left((calls.part_report, [*LISTS[graph], counts, node], [k]))


def storing(graph, counts, numbers, k, b):
    given = [*LISTS[graph], counts, numbers]
    return left((calls.measures, given, [k]), (calls.elimination, given, [k, b]))


# Rows: name, what it shows ('' where the row before says it), what is asked, the graph, the counts, what else is given.
ROWS = [
    ('six_run', 'a lone node of six: "Any two of one node .. adjoin and are joined from the start", so 5, 6 · 5 / 2 and 6; none of the 15 pairs '
     'is new',
     found, 'one', [6]),
    ('six_store', '', stored, 'one', [6], [1]),
    ('pair_store', 'a pair of two and three: by numbers 2, 1 the three come first, whatever is their old number', stored, 'pair', [2, 3], [2, 1]),
    ('ring_run', 'two each on the ring: bandwidth 2 (2 + 1) − 1, front 2 · 3, and the one new pair of nodes is four of unknowns',
     found, 'ring', [2] * 4),
    ('ring_store', '', stored, 'ring', [2] * 4, [1, 2, 4, 3]),
    ('path_store', 'a store with idle places: of the path\'s four, that of 2-4 is idle, and node 2 has two unknowns',
     stored, 'path', [1, 2, 1, 1], [1, 2, 3, 4]),
    ('star_one', '"turning is decided by the profile in unknowns": this star is not turned with one unknown each, and is turned with these',
     found, 'star', [1] * 5),
    ('star_run', '', found, 'star', [2, 2, 2, 2, 1]),
    ('star_store', '', stored, 'star', [2, 2, 2, 2, 1], [5, 3, 2, 1, 4]),
    ('star_ordered', 'A.3\'s order does not depend on the counts; its width does', ordered, 'star', [2, 2, 2, 2, 1]),
    ('tree_run', 'counts that differ from node to node; the widest level is not the one with most nodes', found, 'tree', [1, 1, 2, 1, 3]),
    ('tree_store', '', stored, 'tree', [1, 1, 2, 1, 3], [4, 5, 2, 3, 1]),
    ('tree_ordered', '', ordered, 'tree', [1, 1, 2, 1, 3]),
    ('names_run', '', found, 'names', [1, 3, 1, 2, 1, 1, 2]),
    ('names_store', '', stored, 'names', [1, 3, 1, 2, 1, 1, 2], [7, 2, 3, 5, 4, 6, 1]),
    ('names_ordered', '', ordered, 'names', [1, 3, 1, 2, 1, 1, 2]),
    ('parts-run', 'several parts: the width is that of node 4, which is alone with three', found, 'parts', [2, 1, 1, 3, 1, 2, 1, 1]),
    ('parts_store', '', stored, 'parts', [2, 1, 1, 3, 1, 2, 1, 1], [1, 5, 2, 8, 3, 7, 4, 6]),
    ('parts-ordered', '', ordered, 'parts', [2, 1, 1, 3, 1, 2, 1, 1]),
    ('zero_numbering', '15, "nothing is written": a count of 0, a count of 7, a word too few, a word too many', numbering, 'pair', [0, 1], 3, 13),
    ('seven_numbering', '', numbering, 'pair', [1, 7], 3, 13),
    ('few_numbering', '', numbering, 'pair', [1], 3, 13),
    ('many_numbering', '', numbering, 'pair', [1, 1, 1], 3, 13),
    ('six_storing', '', storing, 'pair', [6, 6], [1, 1], 3, 1),
    ('seven_storing', '', storing, 'pair', [7, 6], [1, 2], 3, 1),
    ('zero_storing', '', storing, 'pair', [1, 0], [1, 2], 3, 1),
    ('few_storing', '', storing, 'pair', [1], [1, 2], 3, 1),
    ('many_storing', '', storing, 'pair', [1, 1, 1], [1, 2], 3, 1),
    ('zero_reporting', '', reporting, 'pair', [0, 1], 1, 13),
    ('five_numbering', '"after 5": no count, and a short buffer; and after 4', numbering, 'pair', [], 1, 13),
    ('five_scratch', '', numbering, 'pair', [], 3, 11),
    ('five_storing', '', storing, 'pair', [], [1, 2], 1, 1),
    ('five_reporting', '', reporting, 'pair', [], 1, 11),
    ('four_numbering', '', numbering, 'unpaired', [], 3, 13),
    ('four_storing', '', storing, 'unpaired', [], [1, 2], 3, 1),
    ('four_reporting', '', reporting, 'unpaired', [], 1, 13),
    ('six_after', '"ahead of 6, 7": node 0; a number twice, which by 7 would clear the scratch; and 8, by the profile in unknowns',
     reporting, 'pair', [0, 1], 0, 13),
    ('six_due', '', reporting, 'pair', [1, 1], 0, 13),
    ('seven-after', '', storing, 'pair', [0, 1], [1, 1], 3, 1),
    ('eight_due', '', storing, 'pair', [2, 3], [1, 2], 3, 1),
]


# Files.

def printed(file):
    return 'program_output %s' % words(file), 'ascii "%s"' % text_for(file).decode('ascii').replace('\n', '\\n')


def refusal(file):
    answer = text_for(file).split()
    assert answer[0] == b'refused', answer
    return 'file_refusal %s' % words(file), answer[1].decode('ascii')


# name, what it shows, what is asked, the words behind the mark, bytes behind them
FILES = [
    ('bar_file', '"file version 2 carries that list as n words after the element count": a bar with counts 2 and 3; '
     'rows, nodes and levels stay in nodes', printed, [2, 2, 1, 2, 3, 1, 1, 2], b''),
    ('six_file', '', printed, [2, 1, 0, 6], b''),
    ('one_file', '"Version 1 means one unknown each"', printed, [1, 2, 1, 1, 1, 2], b''),
    ('seven_file', 'a count of 7, and of 0, before an unknown kind is seen', refusal, [2, 2, 1, 7, 3, 11], b''),
    ('zero_file', '', refusal, [2, 2, 1, 1, 0, 11], b''),
    ('cut_file', '"a file ending within the counts is 12 first", even after a bad one; within a word of them too; and 1 comes before both',
     refusal, [2, 2, 0, 7], b''),
    ('half_file', '', refusal, [2, 2, 0, 1], b'\1'),
    ('none_file', '', refusal, [2, 2, 0], b''),
    ('many_file', '', refusal, [2, 4097, 0], b''),
    ('left_file', 'bytes left over; the elements stand behind the counts; there is no version 3', refusal, [2, 1, 0, 6], b'\0'),
    ('kind_file', '', refusal, [2, 2, 1, 1, 1, 11], b''),
    ('third_file', '', refusal, [3, 1, 0, 6], b''),
]


# The text.

def term(value):
    return value if isinstance(value, str) else str(value) if isinstance(value, int) else words(value)


def row(name, why, left_side, right_side):
    return ('  -- %s\n' % why if why else '') + '  %s : %s ≡ %s' % (name, left_side, right_side)


def rows():
    for name, why, asked, *given in ROWS:
        yield row(name, why, '%s %s' % (asked.__name__, ' '.join(map(term, given))), asked(*given))
    for name, why, asked, values, more in FILES:
        yield row(name, why, *asked(b'GRD' + b''.join(value.to_bytes(2, 'little') for value in values) + more))


def graph(name, why, lists):
    return '-- %s\n%s : Lists\n%s = %s\n' % (
        why, name, name, fields([('starts', bare(words(lists[0]))), ('neighbours', bare(words(lists[1])))]))


def text():
    names = [name for name, *_ in ROWS + FILES]
    unfolded = 'computes number_of found ordered stored with_store reported leaves lent numbering reporting storing'.split()
    return '\n'.join([
        HEAD, *[graph(*one) for one in GRAPHS], '-- ---- the table\n', 'record UnknownTable : Type 0 where', *rows(), '',
        'unknown_table : UnknownTable', ' '.join(['unfolding'] + unfolded + [name for name, *_ in GRAPHS]),
        'unknown_table = record {', *['  %s = refl;' % name for name in names], '}', ''])


if __name__ == '__main__':
    sys.exit(kept('UnknownTable.antt', text()))
