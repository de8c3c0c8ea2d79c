"""The entry points with their lent buffers and refusals; document 01's 'Lent buffers' and table, with A.2, A.3, A.5, A.6, A.7 and A.9 of document 02.

Every call answers ('accepted', tuple) or ('refused', number).
A.6: "Calls that number, measure, eliminate or report a part take the counts", behind the neighbours.
"""

# from_edges, small_graphs, ones and rows_of stand here for the scripts that import calls.
import store
from combined import combined_levels as combined_of_part
from cuthill import reverse_cuthill_mckee as cuthill_of_graph
from ends import ends_of_part
from graph import (MOST_ENTRIES, adjacency_refusal, from_edges, lists_of, part_of,
                   rows_of, small_graphs, wrong_node_count)
from imported import full_numbering, wrong_pairs
from levels import by_old_number, depth, size_list, width
from levels import rooted_levels as levels_from
from listing import (MOST_FILE_WORDS, count_refusal, counts_of_file, element_refusal, header_refusal,
                     most_output_bytes, nodes_of_file, output_text, refusal_line, words_of_elements)
from measures import adjoining, bandwidth, front, fronts, is_numbering, number_of_nodes, profile
from mesh import mesh_rows, read_elements, too_many_entries
from numbering import number_part
from numbering import whole_run as run_of_graph
from unknowns import MOST, count_of_nodes, ones, wrong_counts


# Answers and buffers.

def refused(number):
    return ('refused', number)


def accepted(*value):
    return ('accepted', value)


def put(buffer, values):
    """Write at the front of a lent buffer."""
    # "Longer buffers keep their excess untouched."
    for t in range(len(values)):
        buffer[t] = values[t]


def zero(scratch, count):
    # "Scratch ends as zeros when accepted."
    put(scratch, [0] * count)


def scratch_words(n):
    """The scratch of the run, of the calls on one part and of run and eliminate."""
    # A.7: "with 6n words of scratch where it had 8n. The calls on one part ..
    # follow. Refusal 5 is measured against 6n."
    return 6 * n


def pass_list(passes, n):
    """n words: the passes of each part."""
    # A.9: "the list, which has n words, zeros after the last part"
    return passes + [0] * (n - len(passes))


def is_short(*lent):
    # 5: "a lent buffer, mark bytes excepted, is short"
    return any(len(buffer) < need for buffer, need in lent)


def is_wrong_node(node, n):
    # 6: "a given node is 0 or above n"
    return node == 0 or node > n


# Levels.

def adjacency_test(starts, neighbours):
    number = adjacency_refusal(starts, neighbours)
    return refused(number) if number else accepted()


def rooted_levels(starts, neighbours, root, levels, sizes):
    """(depth, width, reached)"""
    number = adjacency_refusal(starts, neighbours)
    if number:
        return refused(number)
    n = len(starts) - 1
    # A.2: "Refusal 5 now covers the list too."
    if is_short((levels, n), (sizes, n)):
        return refused(5)
    if is_wrong_node(root, n):
        return refused(6)
    level_of = levels_from(rows_of(starts, neighbours), root)
    put(levels, by_old_number(level_of, n))
    put(sizes, size_list(level_of, n))
    # "Depth, width and the count reached are returned."
    return accepted(depth(level_of), width(level_of), len(level_of))


def ends(starts, neighbours, node, scratch):
    """(v, u, k, width_v, width_u, passes)"""
    number = adjacency_refusal(starts, neighbours)
    if number:
        return refused(number)
    n = len(starts) - 1
    if is_short((scratch, scratch_words(n))):
        return refused(5)
    if is_wrong_node(node, n):
        return refused(6)
    rows = rows_of(starts, neighbours)
    found = ends_of_part(rows, part_of(rows, node))
    zero(scratch, scratch_words(n))
    # "The call returns v, u, k, both widths and the passes."
    return accepted(*found)


def combined_levels(starts, neighbours, node, levels, scratch):
    """(k, width); levels as they stand before any change of names."""
    number = adjacency_refusal(starts, neighbours)
    if number:
        return refused(number)
    n = len(starts) - 1
    if is_short((levels, n), (scratch, scratch_words(n))):
        return refused(5)
    if is_wrong_node(node, n):
        return refused(6)
    rows = rows_of(starts, neighbours)
    part = part_of(rows, node)
    found = ends_of_part(rows, part)
    level_of = combined_of_part(rows, part, found)
    # "levels n for the second, where other parts get 0"
    put(levels, by_old_number(level_of, n))
    zero(scratch, scratch_words(n))
    # "The call returns k and the greatest level count."
    return accepted(found.k, width(level_of))


# Numbering.

def part_report(starts, neighbours, counts, node, scratch):
    """(v, u, k, width, passes, direction); the width in unknowns."""
    number = adjacency_refusal(starts, neighbours)
    if number:
        return refused(number)
    n = len(starts) - 1
    if is_short((scratch, scratch_words(n))):
        return refused(5)
    # 15: "tested .. in the library after 5, ahead of 6, 7 and 13; nothing is written"
    if wrong_counts(n, counts):
        return refused(15)
    if is_wrong_node(node, n):
        return refused(6)
    rows = rows_of(starts, neighbours)
    done = number_part(rows, count_of_nodes(counts), part_of(rows, node))
    zero(scratch, scratch_words(n))
    # "The part report gives v and u as now named, k, the combined levels'
    # width, passes and a direction, which is Forward or Reversed."
    return accepted(done.v, done.u, done.k, done.width, done.passes, done.direction)


def numbered(run_of_rows, starts, neighbours, counts, numbers, levels, passes, scratch):
    """(nodes, parts, bandwidth, profile, front, levels, width); bandwidth, profile, front and width in unknowns."""
    number = adjacency_refusal(starts, neighbours)
    if number:
        return refused(number)
    n = len(starts) - 1
    # A.9: "Refusal 5 covers the list"
    if is_short((numbers, n), (levels, n), (passes, n), (scratch, scratch_words(n))):
        return refused(5)
    if wrong_counts(n, counts):
        return refused(15)
    run = run_of_rows(rows_of(starts, neighbours), count_of_nodes(counts))
    # "Numbers and levels run by old number"
    put(numbers, [run.number_of[p] for p in range(1, n + 1)])
    put(levels, by_old_number(run.level_of, n))
    put(passes, pass_list(run.passes, n))
    zero(scratch, scratch_words(n))
    return accepted(*run.figures)


def whole_run(starts, neighbours, counts, numbers, levels, passes, scratch):
    return numbered(run_of_graph, starts, neighbours, counts, numbers, levels, passes, scratch)


def reverse_cuthill_mckee(starts, neighbours, counts, numbers, levels, passes, scratch):
    # A.3: "a further call with the run's buffers and figures"
    return numbered(cuthill_of_graph, starts, neighbours, counts, numbers, levels, passes, scratch)


# Measures, store.

def measures(starts, neighbours, counts, numbering, scratch):
    """(bandwidth, profile, front), in unknowns"""
    number = adjacency_refusal(starts, neighbours)
    if number:
        return refused(number)
    n = len(starts) - 1
    if is_short((scratch, n)):
        return refused(5)
    if wrong_counts(n, counts):
        return refused(15)
    # The n scratch words are 0 for refusal 7 as well as when accepted.
    zero(scratch, n)
    if not is_numbering(n, numbering):
        return refused(7)
    adjoins = adjoining_of(starts, neighbours, counts, numbering)
    return accepted(bandwidth(adjoins), profile(adjoins), front(adjoins))


def import_numbering(starts, neighbours, counts, pairs, bandwidth, profile, front, numbers, scratch):
    """(); the three figures are in unknowns"""
    number = adjacency_refusal(starts, neighbours)
    if number:
        return refused(number)
    n = len(starts) - 1
    # "a lent numbering of n words and scratch n"
    if is_short((numbers, n), (scratch, n)):
        return refused(5)
    # A.6: 15 comes "after 5, ahead of 6, 7 and 13"
    if wrong_counts(n, counts):
        return refused(15)
    # "13 .. tested after 5; then 7; then 14"; it leaves the scratch words "untouched"
    if wrong_pairs(n, pairs):
        return refused(13)
    numbering = full_numbering(n, pairs)
    # The n scratch words are 0 for refusals 7 and 14 as well as when accepted: the measures leave them so.
    state, value = measures(starts, neighbours, counts, numbering, scratch)
    if state == 'refused':
        return refused(value)
    # "the three figures are those of our measures"
    if value != (bandwidth, profile, front):
        return refused(14)
    # "It hands the full numbering back in the lent one."
    put(numbers, numbering)
    return accepted()


def elimination(starts, neighbours, counts, numbering, scratch, mark_bytes):
    """(marks, new), in unknowns"""
    number = adjacency_refusal(starts, neighbours)
    if number:
        return refused(number)
    n = len(starts) - 1
    if is_short((scratch, n)):
        return refused(5)
    if wrong_counts(n, counts):
        return refused(15)
    # The n scratch words are 0 for refusals 7 and 8 as well as when accepted.
    zero(scratch, n)
    if not is_numbering(n, numbering):
        return refused(7)
    adjoins = adjoining_of(starts, neighbours, counts, numbering)
    # 8: "mark bytes are short"
    if len(mark_bytes) < store.byte_count(profile(adjoins)):
        return refused(8)
    marked, marks, new = store.elimination(adjoins)
    put(mark_bytes, marked)
    return accepted(marks, new)


def store_map(starts, neighbours, counts, numbering, scratch, first, place):
    """(profile, number of unknowns); first has f and place has s of each row, an unknown, and behind the last s the profile."""
    number = adjacency_refusal(starts, neighbours)
    if number:
        return refused(number)
    n = len(starts) - 1
    # The lists have room for six unknowns of every node, whatever the counts are.
    if is_short((scratch, n), (first, MOST * n), (place, MOST * n + 1)):
        return refused(5)
    if wrong_counts(n, counts):
        return refused(15)
    # The n scratch words are 0 for refusal 7 as well as when accepted.
    zero(scratch, n)
    if not is_numbering(n, numbering):
        return refused(7)
    firsts, begins = store.store_map(adjoining_of(starts, neighbours, counts, numbering))
    put(first, firsts)
    put(place, begins)
    return accepted(begins[-1], len(firsts))


def and_eliminate(call, starts, neighbours, counts, numbers, levels, passes, scratch, mark_bytes):
    """(the call's figures, elimination's answer); refused as the call is refused."""
    answer = call(starts, neighbours, counts, numbers, levels, passes, scratch)
    if answer[0] == 'refused':
        return answer
    n = len(starts) - 1
    # "The numbers handed on are the run's n, without the excess of a
    # longer buffer". The call left all 6n scratch words 0. A.6: demand 3 hands
    # "both their calls the same ones".
    return accepted(answer[1], elimination(starts, neighbours, counts, numbers[:n], scratch, mark_bytes))


def run_and_eliminate(*lists):
    return and_eliminate(whole_run, *lists)


def cuthill_and_eliminate(*lists):
    # A.3: "The store guarantee has to hold for this order as well"
    return and_eliminate(reverse_cuthill_mckee, *lists)


# Mesh.

def mesh(n, element_words, starts, neighbours, scratch):
    """(entries,)"""
    if wrong_node_count(n):
        return refused(1)
    if is_short((starts, n + 1), (neighbours, MOST_ENTRIES), (scratch, n)):
        return refused(5)
    number, elements = read_elements(n, element_words)
    if number:
        return refused(number)
    # The n scratch words are 0 for refusal 11 as well as when accepted.
    zero(scratch, n)
    rows = mesh_rows(n, elements)
    if too_many_entries(rows):
        return refused(11)
    new_starts, new_neighbours = lists_of(rows)
    put(starts, new_starts)
    # "Neighbour words past the last used are untouched."
    put(neighbours, new_neighbours)
    return accepted(len(new_neighbours))


# The listing, a call of our own: what the program prints for a file.

def listing(file, words, starts, neighbours, scratch, numbers, levels, passes, counts, output):
    """(count,) of the output bytes written."""
    number = header_refusal(file)
    if number:
        return refused_with_line(number, output)
    n = nodes_of_file(file)
    if is_short((words, MOST_FILE_WORDS), (starts, n + 1), (neighbours, MOST_ENTRIES), (scratch, scratch_words(n)),
                (numbers, n), (levels, n), (passes, n), (counts, n), (output, most_output_bytes(n))):
        return refused_with_line(5, output)
    number = count_refusal(file)
    if number:
        return refused_with_line(number, output)
    # From here on the words of the elements and the counts stand in the lent lists, whatever follows.
    put(words, words_of_elements(file))
    put(counts, counts_of_file(file))
    number = element_refusal(file)
    if number:
        return refused_with_line(number, output)
    # All else has been tested: the mesh can only refuse with 11.
    state, value = mesh(n, words_of_elements(file), starts, neighbours, scratch)
    if state == 'refused':
        return refused_with_line(value, output)
    (entries,) = value
    _, figures = whole_run(starts[:n + 1], neighbours[:entries], counts[:n], numbers, levels, passes, scratch)
    text = output_text(figures, numbers[:n], levels[:n], passes[:n])
    put(output, text)
    return accepted(len(text))


def refused_with_line(number, output):
    """Refuse, with the line at the front of output where it fits."""
    line = refusal_line(number)
    if len(line) <= len(output):
        put(output, line)
    return refused(number)


# For comparisons, on legal input. Pairs are (p, q) with p < q, numbers of unknowns.

def adjoining_of(starts, neighbours, counts, numbering):
    """For each unknown the set of unknowns it adjoins."""
    return adjoining(rows_of(starts, neighbours), count_of_nodes(counts), number_of_nodes(numbering))


def fronts_of(starts, neighbours, counts, numbering):
    """Fronts at each unknown, from 1 on."""
    return fronts(adjoining_of(starts, neighbours, counts, numbering))


def joined_after(starts, neighbours, counts, numbering, i):
    """Set of the pairs joined after i eliminations, each of one unknown."""
    return store.joined_after(adjoining_of(starts, neighbours, counts, numbering), i)


def places_of(starts, neighbours, counts, numbering):
    """Place of each pair that has one."""
    return store.places(adjoining_of(starts, neighbours, counts, numbering))


def marks_of(starts, neighbours, counts, numbering):
    """Mark of each place after the last elimination, as a list by place."""
    adjoins = adjoining_of(starts, neighbours, counts, numbering)
    return store.marks(adjoins, store.joined_after(adjoins, len(adjoins)))
