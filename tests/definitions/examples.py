#!/usr/bin/env python3
"""The second table of crate `spec`: a dozen graphs, one for each slip and each tie rule of document 01, the passes of each part, reverse
Cuthill-McKee, the order of the refusals, the sizes of levels, and elements that have a node more than once.

  examples.py            print crates/spec/proofs/Examples.antt; `rt fmt` lays it out
  examples.py --check    say whether the file stands as this script prints it, layout aside

Every expected value is what tests/reference answers or leaves; nothing is taken from the definitions.
"""

import os
import sys

HERE = os.path.dirname(os.path.abspath(__file__))
TOP = os.path.dirname(os.path.dirname(HERE))
sys.path[:0] = [os.path.join(TOP, 'tests', 'reference'), HERE]

import calls
import listing
import program
from antt import COMBINED_FIGURES, ELIMINATION_FIGURES, ENDS, FIGURES, PART_REPORT, bare, figures, outcome, words
from graph import MOST_ENTRIES, from_edges
from tables import kept
from unknowns import ones

# name, what it is for, nodes, edges
GRAPHS = [
    ('names', 'a change of names: u has lower degree than v', 7,
     [(1, 4), (1, 5), (1, 6), (2, 5), (2, 7), (3, 4), (3, 6), (3, 7), (4, 5), (4, 6), (5, 6)]),
    ('deeper', 'a change of names after two passes: the first s deeper than v, not the last', 8,
     [(1, 3), (1, 4), (1, 7), (2, 4), (2, 5), (2, 6), (5, 6), (7, 8)]),
    ('passes', 'three passes', 9,
     [(1, 4), (1, 9), (2, 5), (2, 9), (3, 4), (3, 5), (6, 7), (6, 8), (7, 8), (8, 9)]),
    ('in_e', 'S is taken in E, not by number', 7, [(1, 6), (1, 7), (2, 3), (2, 4), (3, 4), (3, 6), (5, 6)]),
    ('equal', 'several pieces of equal size: the lowest number first, each against the counts as they then are', 6,
     [(1, 2), (1, 4), (1, 5), (1, 6), (2, 3)]),
    ('larger', 'larger pieces first; a second part', 8,
     [(1, 2), (1, 6), (2, 3), (2, 5), (2, 6), (2, 7), (2, 8), (5, 6), (5, 8)]),
    ('untouched', 'h over the levels that the piece touches', 7,
     [(1, 2), (1, 3), (1, 4), (1, 5), (1, 6), (1, 7), (2, 4), (4, 7), (5, 6), (5, 7)]),
    ('narrower', 'h and l equal, and u narrower than v: by second numbers', 6,
     [(1, 3), (1, 6), (2, 4), (3, 4), (3, 5), (3, 6)]),
    ('degrees', 'degree in the whole graph, not in what is left of it', 6,
     [(1, 3), (2, 3), (2, 5), (3, 4), (3, 5), (3, 6)]),
    ('leftover', 'nodes left in a level: the first in E', 6,
     [(1, 2), (1, 3), (1, 4), (1, 5), (1, 6), (2, 3), (3, 4), (4, 5)]),
    ('lowest', 'within a level the lowest-numbered node first', 9,
     [(1, 3), (1, 6), (1, 9), (2, 4), (2, 7), (3, 4), (3, 8), (4, 5), (4, 6), (5, 6), (5, 7), (5, 9), (7, 8), (7, 9)]),
    ('directions', 'three parts, Forward beside Reversed', 7, [(1, 2), (1, 3), (2, 3), (2, 5), (2, 7), (6, 7)]),
    ('profiles', 'equal profiles stay Forward; equal widths of u and v go by first numbers', 4, [(1, 2), (1, 4), (2, 4)]),
    ('each_part', 'parts of two, three and one passes: in the order of the parts, neither by size nor by passes', 16,
     [(1, 12), (2, 8), (2, 16), (4, 6), (4, 12), (5, 10), (5, 16), (7, 8), (7, 10), (9, 12), (9, 14), (11, 13), (11, 15), (13, 15), (15, 16)]),
    ('isolated', 'two isolated nodes: a pass each', 2, []),
]

# what it shows, starts, neighbours, given node, given numbering, words lent for each node
REFUSALS = [
    ('an empty start list', [], [], 1, [], 6),
    ('one start word', [5], [], 1, [], 6),
    ('starts that fall, and a row that leaves 1..n', [0, 2, 1, 3], [9, 9, 9], 1, [], 6),
    ('3 before 4: row 1 lacks its partner, and row 3 falls', [0, 1, 1, 3], [2, 2, 1], 1, [], 6),
    ('equal neighbours side by side', [0, 2, 4], [2, 2, 1, 1], 1, [], 6),
    ('4 before 5: no partner, and nothing lent', [0, 1, 1], [2], 1, [1, 2], 0),
    ('5 before 6 and 7: nothing lent, node 0, and a numbering that is none', [0, 1, 2], [2, 1], 0, [1, 1], 0),
    ('6, and a numbering that is too long', [0, 1, 2], [2, 1], 3, [1, 2, 1], 6),
    ('7 before 8: a numbering that is none, and no mark byte', [0, 1, 2], [2, 1], 1, [0, 1], 6),
    ('8: no mark byte; 6n words are enough for the rest', [0, 1, 2], [2, 1], 1, [2, 1], 6),
    ('5 where 6n words are asked for, and one less is lent', [0, 0], [], 1, [1], 5),
]

# what it shows, nodes, edges, root, words lent for the levels and for the sizes
SIZES = [
    ('one node', 1, [], 1, 1, 1),
    ('an isolated root: zeros after the depth', 4, [(1, 3), (3, 4)], 2, 4, 4),
    ('the part of the root alone; longer lists keep their excess', 5, [(1, 2), (2, 4), (3, 5)], 5, 6, 7),
    ('a path from an end: a level in each word', 4, [(1, 2), (2, 3), (3, 4)], 4, 4, 4),
    ('a star from its centre', 5, [(1, 2), (1, 3), (1, 4), (1, 5)], 1, 5, 5),
    ('a star from a leaf', 5, [(1, 2), (1, 3), (1, 4), (1, 5)], 3, 5, 5),
    ('thickest in the middle', 7, [(1, 2), (2, 3), (2, 4), (2, 5), (3, 6), (4, 6), (5, 6), (6, 7)], 1, 7, 7),
    ('a short list of levels: the sizes stay', 3, [(1, 2)], 1, 2, 3),
    ('a short list of sizes: it stays', 3, [(1, 2)], 1, 3, 2),
    ('a root that is none: the sizes stay', 3, [(1, 2)], 4, 3, 3),
]

# what it shows, nodes, edges, words lent for the numbers, the levels, the passes and the scratch
PASSES = [
    ('two isolated nodes', 2, [], 2, 2, 2, 12),
    ('zeros after the last part; a longer list keeps its excess', 4, [(1, 3), (3, 4)], 4, 4, 6, 24),
    ('a short list of passes: 5, and it stays', 4, [(1, 3), (3, 4)], 4, 4, 3, 24),
    ('no list of passes: 5', 1, [], 1, 1, 0, 6),
    ('a short list of levels: the passes stay', 4, [(1, 3), (3, 4)], 4, 3, 4, 24),
    ('a word of scratch too few: the passes stay', 4, [(1, 3), (3, 4)], 4, 4, 4, 23),
]

# what it shows, mark, the words after it, bytes after these
FILES = [
    ('a wrong mark, and no node: 12 before 1', b'GRX', [1, 0, 0], b''),
    ('a wrong version, and a node too many', b'GRD', [3, 4097, 0], b''),
    ('no node, and an unknown kind: 1 before 9', b'GRD', [1, 0, 1, 0], b''),
    ('an unknown kind as the last word', b'GRD', [1, 2, 1, 11], b''),
    ('a record past the end, seen before its node 0', b'GRD', [1, 2, 1, 1, 0], b''),
    ('nodes that are none, then an unknown kind', b'GRD', [1, 2, 2, 1, 0, 1, 11], b''),
    ('a node above n, and a byte left over: 10 before 12', b'GRD', [1, 2, 1, 1, 2, 3], b'\0'),
    ('a node above n twice, and a byte left over: 10 before 12', b'GRD', [1, 2, 1, 1, 3, 3], b'\0'),
    ('node 0 twice', b'GRD', [1, 2, 1, 1, 0, 0], b''),
    ('a repeated node, which is legal, and a byte left over: 12', b'GRD', [1, 2, 1, 1, 2, 2], b'\0'),
    ('a repeated node, then an unknown kind', b'GRD', [1, 2, 2, 1, 2, 2, 11], b''),
    ('a byte left over', b'GRD', [1, 2, 1, 1, 1, 2], b'\0'),
    ('half a kind word', b'GRD', [1, 2, 1], b'\1'),
    ('none of these', b'GRD', [1, 2, 1, 1, 1, 2], b''),
    ('a bar on one node joins nothing', b'GRD', [1, 2, 1, 1, 2, 2], b''),
    ('a triangle', b'GRD', [1, 3, 1, 2, 1, 2, 3], b''),
    ('a quadrilateral with one corner twice: the lists of the triangle', b'GRD', [1, 3, 1, 3, 1, 2, 3, 3], b''),
    ('a quadrilateral with two opposite corners the same: the lists of the triangle', b'GRD', [1, 3, 1, 3, 2, 1, 2, 3], b''),
    ('a pyramid on two nodes', b'GRD', [1, 3, 1, 5, 3, 1, 1, 3, 3], b''),
    ('a brick on one node', b'GRD', [1, 2, 1, 7, 2, 2, 2, 2, 2, 2, 2, 2], b''),
]

HEAD = '''-- A second table by computation: graphs chosen so that each slip of document 01 and each tie rule shows, the passes of each part, reverse
-- Cuthill-McKee, the order of the refusals, the sizes of levels, and elements that have a node more than once.
-- Made by tests/definitions/examples.py: every expected value is the independent program's, tests/reference. Assumes nothing.
use Prim.Native.Nat.{ℕ, ◌*◌}
use mathlib.Core.Path.{◌≡◌, refl}
use mathlib.Core.List.{List, [], ◌∷◌, ◌++◌}
use lib.ListN.{replicate}
use Rattle.spec.specs.Graph.{size_of}
use Rattle.spec.specs.Ends.{Ends}
use Rattle.spec.specs.Numbering.{Forward, Reversed, PartReport, Figures}
use Rattle.spec.specs.Lent.{Outcome, accepted}
use Rattle.spec.specs.Unknowns.{ones}
use Rattle.spec.specs.Mesh.{start_list, neighbour_list}
use Rattle.spec.specs.File.{file_graph, file_refusal}
use Rattle.spec.specs.CallsLevels.{CombinedFigures, adjacency_answer, rooted_answer, rooted_sizes, ends_answer}
use Rattle.spec.specs.CallsNumbering.{run_answer, run_passes, measures_answer}
use Rattle.spec.specs.CallsCuthill.{cuthill_answer, cuthill_numbers, cuthill_levels, cuthill_passes}
use Rattle.spec.specs.CallsStore.{EliminationFigures, elimination_answer}
use Rattle.spec.proofs.Compute.{computes}
use Rattle.spec.proofs.Called.{Lists, number_of, numbers_for, levels_for, passes_for, figures_for}
use Rattle.spec.proofs.Called.{ends_for, combined_for, thickness_for, report_for, elimination_for, bytes_for}

-- what the calls say of a graph and of the part of node 1; the elimination is handed the run's numbers and four bytes
record Found : Type 0 where
  ends : Outcome Ends
  combined : List ℕ
  thickness : Outcome CombinedFigures
  report : Outcome PartReport
  levels : List ℕ
  numbers : List ℕ
  passes : List ℕ
  figures : Outcome Figures
  marks : Outcome EliminationFigures
  bytes : List ℕ

found : Lists → Found
found l = record {
  ends = ends_for l 1;
  combined = combined_for l 1;
  thickness = thickness_for l 1;
  report = report_for l 1;
  levels = levels_for l;
  numbers = numbers_for l;
  passes = passes_for l;
  figures = figures_for l;
  marks = elimination_for l (numbers_for l) 4;
  bytes = bytes_for l (numbers_for l) 4;
}

-- what reverse Cuthill-McKee says of a graph, with just enough lent
record Ordered : Type 0 where
  levels : List ℕ
  numbers : List ℕ
  passes : List ℕ
  figures : Outcome Figures

ordered : List ℕ → List ℕ → Ordered
ordered S N =
    let c : List ℕ = ones (size_of S) in
    let w : List ℕ = replicate (size_of S) 9 in
    let x : List ℕ = replicate (6 * size_of S) 9 in
    record {
      levels = cuthill_levels S N c w w w x;
      numbers = cuthill_numbers S N c w w w x;
      passes = cuthill_passes S N c w w w x;
      figures = cuthill_answer S N c w w w x;
    }
'''


def buffer(count):
    return [9] * count


def found(n, edges):
    """The fields of Found, as the reference has them."""
    (starts, neighbours), counts = from_edges(n, edges), ones(n)
    combined, numbers, levels, passes, marks = buffer(n), buffer(n), buffer(n), buffer(n), buffer(4)
    ends = calls.ends(starts, neighbours, 1, buffer(calls.scratch_words(n)))
    thickness = calls.combined_levels(starts, neighbours, 1, combined, buffer(calls.scratch_words(n)))
    report = calls.part_report(starts, neighbours, counts, 1, buffer(calls.scratch_words(n)))
    run = calls.whole_run(starts, neighbours, counts, numbers, levels, passes, buffer(calls.scratch_words(n)))
    elimination = calls.elimination(starts, neighbours, counts, numbers, buffer(n), marks)
    return [('ends', outcome(ends, figures(ENDS))), ('combined', words(combined)),
            ('thickness', outcome(thickness, figures(COMBINED_FIGURES))), ('report', outcome(report, figures(PART_REPORT))), ('levels', words(levels)),
            ('numbers', words(numbers)), ('passes', words(passes)), ('figures', outcome(run, figures(FIGURES))),
            ('marks', outcome(elimination, figures(ELIMINATION_FIGURES))), ('bytes', words(marks))]


def ordered(n, edges):
    """The fields of Ordered, as the reference has them."""
    numbers, levels, passes = buffer(n), buffer(n), buffer(n)
    answer = calls.reverse_cuthill_mckee(*from_edges(n, edges), ones(n), numbers, levels, passes, buffer(calls.scratch_words(n)))
    return [('levels', words(levels)), ('numbers', words(numbers)), ('passes', words(passes)), ('figures', outcome(answer, figures(FIGURES)))]


def refusal_of(answer):
    state, value = answer
    return value if state == 'refused' else 0


def refusals(starts, neighbours, node, numbering, per_node):
    """What the calls refuse these by, or a 0 for each that accepts."""
    n = max(0, len(starts) - 1)
    lent = lambda: buffer(per_node * n)
    answers = [calls.adjacency_test(starts, neighbours),
               calls.rooted_levels(starts, neighbours, node, lent(), lent()),
               calls.ends(starts, neighbours, node, lent()),
               calls.whole_run(starts, neighbours, ones(n), lent(), lent(), lent(), lent()),
               calls.reverse_cuthill_mckee(starts, neighbours, ones(n), lent(), lent(), lent(), lent()),
               calls.measures(starts, neighbours, ones(n), numbering, lent()),
               calls.elimination(starts, neighbours, ones(n), numbering, lent(), [])]
    return [refusal_of(answer) for answer in answers]


def listed(name, kind, fields):
    """A definition of a record, a field to a line."""
    return '%s : %s\n%s = record {\n%s\n}\n' % (
        name, kind, name, '\n'.join('  %s = %s;' % (field, bare(term)) for field, term in fields))


# Graphs that are called as a definition is: a dash joins such a name with another.
DEFINED = ('deeper', 'larger', 'narrower')


def joined(*names):
    return ('-' if set(names) & set(DEFINED) else '_').join(names)


def graph_rows():
    """The lists of each graph and what is found of it, its fields of the table, and their proofs."""
    lists, fields, proofs = [], [], []
    for name, why, n, edges in GRAPHS:
        starts, neighbours = from_edges(n, edges)
        lists.append('-- %s\n' % why
                     + listed(name, 'Lists', [('starts', words(starts)), ('neighbours', words(neighbours))]))
        lists.append(listed(joined(name, 'found'), 'Found', found(n, edges)))
        lists.append(listed(joined(name, 'ordered'), 'Ordered', ordered(n, edges)))
        fields.append('  is_%s : found %s ≡ %s' % (name, name, joined(name, 'found')))
        fields.append('  %s : ordered %s %s ≡ %s' % (joined('order_of', name), words(starts), words(neighbours), joined(name, 'ordered')))
        proofs += ['  is_%s = refl;' % name, '  %s = refl;' % joined('order_of', name)]
    return lists, fields, proofs


def refusal_rows():
    """A field for each refused input, and its proof."""
    fields, proofs = [], []
    for number, (why, *given) in enumerate(REFUSALS):
        starts, neighbours, node, numbering, per_node = given
        fields.append('  -- %s\n  refusals_%d : refusals %s %s %d %s %d ≡ %s' % (
            why, number + 1, words(starts), words(neighbours), node, words(numbering),
            per_node, words(refusals(*given))))
        proofs.append('  refusals_%d = refl;' % (number + 1))
    return fields, proofs


def size_rows():
    """A field for the list of sizes of each, and its proof."""
    fields, proofs = [], []
    for number, (why, n, edges, root, *lengths) in enumerate(SIZES, 1):
        given, (levels, sizes) = (*from_edges(n, edges), root), map(buffer, lengths)
        left = 'rooted_sizes %s %s %d %s %s' % (*map(words, given[:2]), root, words(levels), words(sizes))
        calls.rooted_levels(*given, levels, sizes)
        fields.append('  -- %s\n  sizes_%d : %s ≡ %s' % (why, number, left, words(sizes)))
        proofs.append('  sizes_%d = refl;' % number)
    return fields, proofs


def pass_rows():
    """Fields for what the run and reverse Cuthill-McKee refuse each by, and for their lists of passes, and their proofs."""
    fields, proofs = [], []
    for number, (why, n, edges, *lengths) in enumerate(PASSES, 1):
        given, lent = (*from_edges(n, edges), ones(n)), [buffer(length) for length in lengths]
        arguments = ' '.join(map(words, [*given, *lent]))
        fields.append('  -- %s' % why)
        for name, call in ('run', calls.whole_run), ('cuthill', calls.reverse_cuthill_mckee):
            after = [list(one) for one in lent]
            refusal = refusal_of(call(*given, *after))
            fields.append('  %s_%d_refusal : number_of (%s_answer %s) ≡ %d' % (name, number, name, arguments, refusal))
            fields.append('  %s_%d_passes : %s_passes %s ≡ %s' % (name, number, name, arguments, words(after[2])))
            proofs += ['  %s_%d_refusal = refl;' % (name, number), '  %s_%d_passes = refl;' % (name, number)]
    return fields, proofs


def file_refusal(file):
    """What the program refuses a file by, or 0."""
    answer = program.text_for(file).split()
    return int(answer[1]) if answer[0] == b'refused' else 0


def file_lists(file):
    """The start list and the neighbour list of a file that is not refused."""
    n = listing.nodes_of_file(file)
    starts, neighbours = buffer(n + 1), buffer(MOST_ENTRIES)
    _, (entries,) = calls.mesh(n, listing.words_of_elements(file), starts, neighbours, buffer(n))
    return [('starts', 'start_list', starts), ('neighbours', 'neighbour_list', neighbours[:entries])]


def file_rows():
    """A field for each file, and one for each of its lists where it is not refused, and their proofs."""
    fields, proofs = [], []
    for number, (why, mark, values, more) in enumerate(FILES, 1):
        file = mark + b''.join(value.to_bytes(2, 'little') for value in values) + more
        refusal = file_refusal(file)
        fields.append('  -- %s\n  file_%d : file_refusal %s ≡ %d' % (why, number, words(file), refusal))
        proofs.append('  file_%d = refl;' % number)
        for name, of_graph, due in [] if refusal else file_lists(file):
            fields.append('  file_%d_%s : %s (file_graph %s) ≡ %s' % (number, name, of_graph, words(file), words(due)))
            proofs.append('  file_%d_%s = refl;' % (number, name))
    return fields, proofs


REFUSED = '''-- what the adjacency test, rooted levels, ends, run, reverse Cuthill-McKee, measures and elimination refuse by, with so many words lent for each
-- node and no mark byte
refusals : List ℕ → List ℕ → ℕ → List ℕ → ℕ → List ℕ
refusals S N node x k =
    let c : List ℕ = ones (size_of S) in
    let w : List ℕ = replicate (k * size_of S) 9 in
    number_of (adjacency_answer S N)
    ∷ number_of (rooted_answer S N node w w)
    ∷ number_of (ends_answer S N node w)
    ∷ number_of (run_answer S N c w w w w)
    ∷ number_of (cuthill_answer S N c w w w w)
    ∷ number_of (measures_answer S N c x w)
    ∷ number_of (elimination_answer S N c x w [])
    ∷ []
'''


def text():
    lists, fields, proofs = graph_rows()
    more, refused = refusal_rows()
    sizes, sized = size_rows()
    passes, passed = pass_rows()
    files, read = file_rows()
    names = ' '.join(' '.join((name, joined(name, 'found'), joined(name, 'ordered'))) for name, *_ in GRAPHS)
    return '\n'.join([
        HEAD,
        REFUSED, *lists, 'record ExampleTable : Type 0 where', *fields, *more, *sizes, *passes, *files,
        '\n-- the whole table\nexample_table : ExampleTable',
        'unfolding computes found ordered number_of refusals ' + names,
        'example_table = record {', *proofs, *refused, *sized, *passed, *read, '}', ''])


if __name__ == '__main__':
    sys.exit(kept('Examples.antt', text()))
