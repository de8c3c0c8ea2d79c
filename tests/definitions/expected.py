"""What the definitions must say of an input: each call of crate `spec`, and what the reference answers and leaves."""

import calls
from antt import (COMBINED_FIGURES, ELIMINATION_FIGURES, ENDS, FIGURES, LEVEL_FIGURES, MAP_FIGURES, MEASURE_FIGURES,
                  PART_REPORT, figures, nothing, one_number, outcome, record, truth, words)
from graph import MOST_ENTRIES
from idle_cases import is_connected, numbers_before_turning, store_of, without_lower
from listing import counts_of_file, nodes_of_file, words_of_elements
from program import text_for
from unknowns import ones


def called(call, given, lent):
    """The answer of a call of the reference, and its lent buffers afterwards."""
    lent = [list(buffer) for buffer in lent]
    return call(*given, *lent), lent


def terms(*values):
    return ' '.join(str(v) if isinstance(v, int) else words(v) for v in values)


def of_call(call, given, lent, answer_name, value, after_names):
    """Equations for one call: its answer, then each lent buffer that has a name."""
    arguments = terms(*given, *lent)
    answer, after = called(call, given, lent)
    rows = [('%s %s' % (answer_name, arguments), outcome(answer, value))]
    rows += [('%s %s' % (name, arguments), words(buffer))
             for name, buffer in zip(after_names, after) if name]
    return rows


def run_elimination(values):
    """The run's figures, and what the elimination answers."""
    run, elimination = values
    return record(('figures', 'elimination'),
                  (record(FIGURES, run), '(%s)' % outcome(elimination, figures(ELIMINATION_FIGURES))))


def of_graph(i):
    """Equations for every call on an adjacency; those that number, measure, eliminate or report a part are handed the counts."""
    lists = (i.starts, i.neighbours)
    counted = lists + (i.counts,)
    run = (i.numbers, i.levels, i.passes, i.scratch)
    return (
        of_call(calls.adjacency_test, lists, (), 'adjacency_answer', nothing, ())
        + of_call(calls.rooted_levels, lists + (i.node,), (i.levels, i.sizes),
                  'rooted_answer', figures(LEVEL_FIGURES), ('rooted_levels', 'rooted_sizes'))
        + of_call(calls.ends, lists + (i.node,), (i.scratch,), 'ends_answer', figures(ENDS), ('ends_scratch',))
        + of_call(calls.combined_levels, lists + (i.node,), (i.levels, i.scratch),
                  'combined_answer', figures(COMBINED_FIGURES), ('combined_levels', 'combined_scratch'))
        + of_call(calls.part_report, counted + (i.node,), (i.scratch,),
                  'report_answer', figures(PART_REPORT), ('report_scratch',))
        + of_call(calls.whole_run, counted, run,
                  'run_answer', figures(FIGURES), ('run_numbers', 'run_levels', 'run_passes', 'run_scratch'))
        + of_call(calls.reverse_cuthill_mckee, counted, run,
                  'cuthill_answer', figures(FIGURES), ('cuthill_numbers', 'cuthill_levels', 'cuthill_passes', 'cuthill_scratch'))
        + of_call(calls.measures, counted + (i.numbering,), (i.words,),
                  'measures_answer', figures(MEASURE_FIGURES), ('measures_scratch',))
        + of_call(calls.elimination, counted + (i.numbering,), (i.words, i.bytes),
                  'elimination_answer', figures(ELIMINATION_FIGURES), ('elimination_scratch', 'elimination_bytes'))
        + of_call(calls.store_map, counted + (i.numbering,), (i.words, i.first, i.place),
                  'store_map_answer', figures(MAP_FIGURES), ('store_map_scratch', 'store_map_first', 'store_map_place'))
        + of_call(calls.run_and_eliminate, counted, run + (i.bytes,),
                  'run_eliminate_answer', run_elimination, (None, None, None, None, 'run_eliminate_bytes'))
        + of_call(calls.cuthill_and_eliminate, counted, run + (i.bytes,),
                  'cuthill_eliminate_answer', run_elimination, (None, None, None, None, 'cuthill_eliminate_bytes')))


def of_store(i):
    """Equations for a legal adjacency, with one unknown a node: whether it is connected, A.3's numbers before turning, and of these and the given
    numbers the premise of A.12; the bytes of the store that the first fill."""
    graph = (i.starts, i.neighbours)
    if calls.adjacency_test(*graph)[0] == 'refused':
        return []
    n, lists = len(i.starts) - 1, 'graph_of %s' % terms(*graph)
    back = numbers_before_turning(graph)
    places, _, _, bits = store_of(graph, back)
    rows = [('connected (%s)' % lists, truth(is_connected(graph))), ('before_turning (%s)' % lists, words(back)),
            ('full_bytes %d' % places, words(sum(bit << t for t, bit in enumerate(bits[at:at + 8])) for at in range(0, len(bits), 8)))]
    for numbers in (back, i.numbering):
        if sorted(numbers) == list(range(1, n + 1)):
            rows.append(('lower_neighbours (renumbered (%s) %s)' % (lists, words(numbers)), truth(not without_lower(graph, numbers))))
    if is_connected(graph):
        turned = called(calls.reverse_cuthill_mckee, graph + (ones(n),), [[9] * n, [9] * n, [9] * n, [9] * calls.scratch_words(n)])[1][0]
        rows.append(('turned_back %s' % terms(n, turned), words(back)))
    return rows


def of_import(i):
    """Equations for the call that takes a numbering from another tool; the supplier's figures are a record, behind the pairs."""
    lists, lent = (i.starts, i.neighbours, i.counts, i.pairs), (i.numbers, i.scratch)
    arguments = '%s %s %s' % (terms(*lists), record(MEASURE_FIGURES, i.figures), terms(*lent))
    answer, after = called(calls.import_numbering, lists + tuple(i.figures), lent)
    rows = [('import_answer', outcome(answer, nothing))] + [(name, words(buffer)) for name, buffer in zip(('import_numbers', 'import_scratch'), after)]
    return [('%s %s' % (name, arguments), due) for name, due in rows]


def of_mesh(i):
    """Equations for the mesh call."""
    return of_call(calls.mesh, (i.n, i.elements), (i.starts, i.neighbours, i.scratch),
                   'mesh_answer', one_number, ('mesh_starts', 'mesh_neighbours', 'mesh_scratch'))


def of_file(file):
    """Equations for the program on a file: its refusal, what it prints, and the graph and the counts of a file that it accepts."""
    text, given = text_for(file), words(file)
    refused = text.startswith(b'refused ')
    rows = [('file_refusal %s' % given, text.split()[1].decode('ascii') if refused else '0'), ('program_output %s' % given, words(text))]
    if refused:
        return rows
    n = nodes_of_file(file)
    (_, (entries,)), (starts, neighbours, _) = called(calls.mesh, (n, words_of_elements(file)), ([0] * (n + 1), [0] * MOST_ENTRIES, [0] * n))
    return rows + [('start_list (file_graph %s)' % given, words(starts)), ('neighbour_list (file_graph %s)' % given, words(neighbours[:entries])),
                   ('file_counts %s' % given, words(counts_of_file(file)))]
