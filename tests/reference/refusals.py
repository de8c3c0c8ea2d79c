"""The table of refusals: broken lists, short buffers, what each answer leaves in which buffer; the listing; collapsed elements, 6n, passes."""

import random
import sys

import calls
from bracket import element_words, grd_file
from checking import Checks
from mesh import NODE_COUNT
from program import text_for
from worked import PASSES, of_parts

# Fills lent buffers, so that untouched words show.
OLD = 777
OLD_BYTE = 77

BROKEN_LISTS = [
    ('empty start list', [], [], 1),
    ('empty start list, neighbours given', [], [1, 2], 1),
    ('one start word', [0], [], 1),
    ('one start word, not 0', [65535], [1], 1),
    ('4,098 start words', [0] * 4098, [], 1),
    ('70,000 start words', [0] * 70000, [], 1),
    ('70,000 start words of 65,535', [65535] * 70000, [65535] * 70000, 1),
    ('first start not 0', [1, 1], [2], 2),
    ('falling starts', [0, 2, 1, 2], [2, 3], 2),
    ('falling starts, last one fits', [0, 65535, 2], [2, 1], 2),
    ('all words 65,535', [65535] * 4, [65535] * 4, 2),
    ('last start above the length', [0, 1, 2], [2], 2),
    ('last start below the length', [0, 1, 2], [2, 1, 1], 2),
    ('32,769 neighbours', [0, 32769], [2] * 32769, 2),
    ('40,000 neighbours, last start 32,768', [0, 32768], [2] * 40000, 2),
    ('70,000 neighbours', [0, 65535], [2] * 70000, 2),
    ('32,768 neighbours that do not rise', [0, 32768], [2] * 32768, 3),
    ('neighbour 0', [0, 1, 1], [0], 3),
    ('neighbour above n', [0, 1, 1], [3], 3),
    ('neighbours all 65,535', [0, 1, 2], [65535, 65535], 3),
    ('row holds itself', [0, 1, 1], [1], 3),
    ('equal neighbours', [0, 2, 4], [2, 2, 1, 1], 3),
    ('row falls', [0, 2, 3, 4], [3, 2, 1, 1], 3),
    # 3 is tested over all rows before 4 over any.
    ('no partner in row 1, row 3 falls', [0, 1, 1, 3], [2, 2, 1], 3),
    ('no partner', [0, 1, 1], [2], 4),
    ('no partner in the last row', [0, 1, 2, 3], [2, 1, 1], 4),
]

PATH = ([0, 1, 3, 4], [2, 1, 3, 2])


def words(count):
    return [OLD] * count


def answer_and_buffers(checks, name, call, given, lent, wanted, after):
    """Call it with copies and compare the answer, the given lists and the lent buffers."""
    before = [list(x) if isinstance(x, list) else x for x in given]
    checks.equal(name + ': answer', call(*given, *lent), wanted)
    checks.equal(name + ': given lists', given, before)
    checks.equal(name + ': buffers', list(lent), list(after))


def untouched(checks, name, call, given, lent, number):
    after = [list(buffer) for buffer in lent]
    answer_and_buffers(checks, name, call, given, lent, ('refused', number), after)


# Calls that take an adjacency: name, call, given besides it for PATH, sizes of the lent words in n.

ONES = [1, 1, 1]
ADJACENCY_CALLS = [
    ('adjacency test', calls.adjacency_test, [], []),
    ('rooted levels', calls.rooted_levels, [1], [1, 1]),
    ('ends', calls.ends, [1], [6]),
    ('combined levels', calls.combined_levels, [1], [1, 6]),
    ('part report', calls.part_report, [ONES, 1], [6]),
    ('whole run', calls.whole_run, [ONES], [1, 1, 1, 6]),
    ('reverse Cuthill-McKee', calls.reverse_cuthill_mckee, [ONES], [1, 1, 1, 6]),
    ('measures', calls.measures, [ONES, [1, 2, 3]], [1]),
    ('elimination', calls.elimination, [ONES, [1, 2, 3]], [1]),
    ('run and eliminate', calls.run_and_eliminate, [ONES], [1, 1, 1, 6]),
    # A.5: numbers 1, 3, 2 of PATH, and their figures.
    ('import', calls.import_numbering, [ONES, [2, 3, 3, 2], 2, 2, 2], [1, 1]),
]


def mark_bytes_of(name, count):
    return [[OLD_BYTE] * count] if 'eliminat' in name else []


def broken_lists(checks):
    for name, call, more, sizes in ADJACENCY_CALLS:
        for fault, starts, neighbours, number in BROKEN_LISTS:
            # Empty buffers, no counts and a wrong node must not hide the lists' own refusal.
            for length in (0, 40):
                lent = [words(length * size) for size in sizes] + mark_bytes_of(name, length)
                given = [0 if x == 1 else [] if x == ONES else x for x in more]
                untouched(checks, name + ', ' + fault, call,
                          [list(starts), list(neighbours)] + given, lent, number)


def short_buffers(checks):
    for name, call, more, sizes in ADJACENCY_CALLS:
        for t in range(len(sizes)):
            lent = [words(3 * size) for size in sizes]
            lent[t].pop()
            # 5 comes before 15, 6 and 7.
            given = [0 if x == 1 else [] if isinstance(x, list) else x for x in more]
            untouched(checks, '%s, buffer %d short' % (name, t), call,
                      [*PATH] + given, lent + mark_bytes_of(name, 0), 5)


def wrong_nodes(checks):
    for name, call, more, sizes in ADJACENCY_CALLS:
        if 1 in more:
            for node in (0, 4, 65535):
                lent = [words(3 * size + 2) for size in sizes]
                untouched(checks, '%s, node %d' % (name, node), call, [*PATH] + [node if x == 1 else x for x in more], lent, 6)


def wrong_numberings(checks):
    scratch = words(5)
    zeroed = [0, 0, 0, OLD, OLD]
    for numbering in ([], [1, 2], [1, 2, 3, 4], [1, 2, 2], [0, 1, 2], [1, 2, 4],
                      [65535] * 3, [65535] * 70000):
        name = 'numbering of %d words' % len(numbering)
        answer_and_buffers(checks, 'measures, ' + name, calls.measures, [*PATH, ONES, numbering],
                           [list(scratch)], ('refused', 7), [zeroed])
        # 7 comes before 8.
        answer_and_buffers(checks, 'elimination, ' + name, calls.elimination, [*PATH, ONES, numbering],
                           [list(scratch), []], ('refused', 7), [zeroed, []])


def short_mark_bytes(checks):
    # Profile 2 needs one byte.
    zeroed = [0, 0, 0, OLD]
    answer_and_buffers(checks, 'elimination, no mark bytes', calls.elimination, [*PATH, ONES, [1, 2, 3]],
                       [words(4), []], ('refused', 8), [zeroed, []])
    # A star whose centre is number 1 fills up: every row reaches back to 1, profile 45.
    star = calls.from_edges(10, [(1, p) for p in range(2, 11)])
    numbering = list(range(1, 11))
    answer_and_buffers(checks, 'elimination, 5 bytes for profile 45', calls.elimination,
                       [*star, calls.ones(10), numbering], [words(10), [OLD_BYTE] * 5], ('refused', 8),
                       [[0] * 10, [OLD_BYTE] * 5])
    answer_and_buffers(checks, 'elimination, 6 bytes for profile 45', calls.elimination,
                       [*star, calls.ones(10), numbering], [words(10), [OLD_BYTE] * 7], ('accepted', (45, 36)),
                       [[0] * 10, [255] * 5 + [31, OLD_BYTE]])
    figures = (3, 1, 1, 2, 2, 3, 1)
    answer_and_buffers(checks, 'run and eliminate, no mark bytes', calls.run_and_eliminate, [*PATH, ONES],
                       [words(4), words(4), words(4), words(19), []], ('accepted', (figures, ('refused', 8))),
                       [[1, 2, 3, OLD], [1, 2, 3, OLD], [1, 0, 0, OLD], [0] * 18 + [OLD], []])


def accepted_buffers(checks):
    """Two parts: path 1-2-3 and node 4; excess stays, the scratch asked for is 0."""
    graph = [[0, 1, 3, 4, 4], [2, 1, 3, 2]]
    zeroed, ones = [0] * 24 + [OLD], calls.ones(4)
    for name, call, given, lent, value, after in [
            ('rooted levels', calls.rooted_levels, [2], [words(5), words(6)], (2, 2, 3), [[2, 1, 2, 0, OLD], [1, 2, 0, 0, OLD, OLD]]),
            ('rooted levels of an isolated node', calls.rooted_levels, [4], [words(4), words(5)], (1, 1, 1), [[0, 0, 0, 1], [1, 0, 0, 0, OLD]]),
            ('ends', calls.ends, [2], [words(25)], (1, 3, 3, 1, 1, 1), [zeroed]),
            ('ends of an isolated node', calls.ends, [4], [words(25)], (4, 4, 1, 1, 1, 1), [zeroed]),
            ('combined levels', calls.combined_levels, [2], [words(5), words(25)], (3, 1),
             [[1, 2, 3, 0, OLD], zeroed]),
            ('part report', calls.part_report, [ones, 3], [words(25)], (1, 3, 3, 1, 1, 'Forward'), [zeroed]),
            ('whole run', calls.whole_run, [ones], [words(5), words(5), words(6), words(25)],
             (4, 2, 1, 2, 2, 4, 1), [[1, 2, 3, 4, OLD], [1, 2, 3, 1, OLD], [1, 1, 0, 0, OLD, OLD], zeroed]),
            ('reverse Cuthill-McKee', calls.reverse_cuthill_mckee, [ones], [words(5), words(5), words(6), words(25)],
             (4, 2, 1, 2, 2, 4, 1), [[3, 2, 1, 4, OLD], [1, 2, 3, 1, OLD], [1, 1, 0, 0, OLD, OLD], zeroed]),
            ('measures', calls.measures, [ones, [4, 1, 2, 3]], [words(5)], (3, 4, 3), [[0] * 4 + [OLD]]),
            ('elimination', calls.elimination, [ones, [4, 1, 2, 3]], [words(5), [OLD_BYTE] * 2], (3, 1),
             [[0] * 4 + [OLD], [0b111, OLD_BYTE]]),
            ('import', calls.import_numbering, [ones, [2, 1, 3, 2, 4, 3, 1, 4], 3, 4, 3], [words(5), words(6)], (),
             [[4, 1, 2, 3, OLD], [0] * 4 + [OLD, OLD]]),
            ('run and eliminate', calls.run_and_eliminate, [ones],
             [words(5), words(5), words(5), words(25), [OLD_BYTE] * 2],
             ((4, 2, 1, 2, 2, 4, 1), ('accepted', (2, 0))),
             [[1, 2, 3, 4, OLD], [1, 2, 3, 1, OLD], [1, 1, 0, 0, OLD], zeroed, [3, OLD_BYTE]])]:
        answer_and_buffers(checks, name, call, graph + given, lent, ('accepted', value), after)


def six_for_each_node(checks):
    """A.7: 6n words are enough and 6n - 1 are short; of the 8n that were asked for before, the last 2n stay."""
    graphs = [calls.from_edges(1, []), calls.from_edges(4, []), (list(PATH[0]), list(PATH[1])),
              calls.from_edges(6, [(1, 2), (2, 3), (1, 3), (4, 6)]), calls.from_edges(9, [(1, p) for p in range(2, 10)])]
    for name, call, more, sizes in ADJACENCY_CALLS:
        for graph in graphs if 6 in sizes else []:
            n, answers = len(graph[0]) - 1, []
            given = [calls.ones(n) if x == ONES else x for x in more]
            for length in (6 * n, 6 * n + 1, 7 * n, 8 * n):
                lent = [words(n) for _ in sizes[1:]] + [words(length)] + mark_bytes_of(name, 9)
                answers.append((call(*graph, *given, *lent), lent[:len(sizes) - 1]))
                checks.equal('%s, %d words for %d nodes' % (name, length, n), lent[len(sizes) - 1], [0] * (6 * n) + words(length - 6 * n))
            checks.equal('%s, %d nodes: accepted' % (name, n), answers[0][0][0], 'accepted')
            checks.equal('%s, %d nodes: the same whatever is lent' % (name, n), answers, answers[:1] * 4)
            lent = [words(n) for _ in sizes[1:]] + [words(6 * n - 1)] + mark_bytes_of(name, 9)
            untouched(checks, '%s, a word short of 6 for each of %d nodes' % (name, n), call, [*graph] + given, lent, 5)


def list_of_passes(checks):
    """A.9: a list of n words; longer ones keep their excess, and of a shorter one, or of none, everything that is lent stays."""
    for name, parts, passes, _ in PASSES:
        n, edges = of_parts(parts)
        graph = [*calls.from_edges(n, edges), calls.ones(n)]
        due = passes + [0] * (n - len(passes))
        for call in (calls.whole_run, calls.reverse_cuthill_mckee, calls.run_and_eliminate):
            for length in (n, n + 2, 2 * n):
                lent = [words(n + 3), words(n + 1), words(length), words(6 * n)] + mark_bytes_of(call.__name__, n * n)
                checks.equal('%s, %d words of passes: accepted' % (name, length), call(*graph, *lent)[0], 'accepted')
                checks.equal('%s, %d words of passes' % (name, length), lent[2], due + words(length - n))
            for length in (n - 1, 0):
                lent = [words(n + 3), words(n + 1), words(length), words(6 * n)] + mark_bytes_of(call.__name__, n * n)
                untouched(checks, '%s, %d words of passes' % (name, length), call, [*graph], lent, 5)
        # mark bytes that are short come after the run, which leaves its list
        lent = [words(n), words(n), words(n + 2), words(6 * n), []]
        if len(parts) < n:
            checks.equal(name + ', no mark byte', calls.run_and_eliminate(*graph, *lent)[1][1], ('refused', 8))
            checks.equal(name + ', no mark byte: passes', lent[2], due + words(2))


# Mesh.

BROKEN_ELEMENTS = [
    ([0], 9), ([11], 9), ([65535], 9), ([1], 9), ([1, 2], 9), ([1, 0], 9), ([7] * 8, 9),
    ([1, 0, 1], 10), ([1, 1, 4], 10), ([65535] * 70000, 9),
    # A number that is no node stays so where it repeats.
    ([1, 0, 0], 10), ([1, 4, 4], 10), ([1, 65535, 65535], 10), ([2, 0, 2, 0], 10), ([3, 1, 2, 4, 4], 10),
    ([3, 1, 1, 4, 1], 10), ([5, 3, 3, 3, 3, 0], 10), ([7] + [4] * 8, 10), ([7] + [0] * 8, 10),
    # One by one: the first element at fault gives the number, and a repeated node is no fault.
    ([1, 1, 0, 11], 10), ([11, 1, 1, 1], 9), ([1, 1, 2, 1, 1], 9), ([1, 1, 2, 1, 3, 4], 10),
    ([1, 1, 1, 11], 9), ([1, 1, 1, 1, 4, 4], 10), ([3, 2, 2, 2, 2, 1, 2], 9), ([1, 3], 9),
]

# Elements of four nodes that have a node more than once, and the lists that are due.
NOTHING = ([0, 0, 0, 0, 0], [])
BAR_23 = ([0, 0, 1, 2, 2], [3, 2])
TRIANGLE_124 = ([0, 2, 4, 4, 6], [2, 4, 1, 4, 1, 2])
ALL_FOUR = ([0, 3, 6, 9, 12], [2, 3, 4, 1, 3, 4, 1, 2, 4, 1, 2, 3])
COLLAPSED = [
    ('bar on one node', [1, 2, 2], NOTHING),
    ('triangle on one node', [2, 4, 4, 4], NOTHING), ('triangle as a bar', [2, 2, 3, 2], BAR_23),
    ('the triangle itself', [2, 1, 2, 4], TRIANGLE_124),
    ('quadrilateral, corners 1 and 2 the same', [3, 1, 1, 2, 4], TRIANGLE_124),
    ('quadrilateral, corners 1 and 3 the same', [3, 1, 2, 1, 4], TRIANGLE_124),
    ('quadrilateral, corners 1 and 4 the same', [3, 1, 2, 4, 1], TRIANGLE_124),
    ('quadrilateral, corners 2 and 3 the same', [3, 1, 2, 2, 4], TRIANGLE_124),
    ('quadrilateral, corners 2 and 4 the same', [3, 4, 1, 2, 1], TRIANGLE_124),
    ('quadrilateral, corners 3 and 4 the same', [3, 1, 2, 4, 4], TRIANGLE_124),
    ('quadrilateral as a bar', [3, 2, 3, 3, 2], BAR_23), ('quadrilateral as a bar, three corners the same', [3, 3, 3, 2, 3], BAR_23),
    ('quadrilateral on one node', [3, 1, 1, 1, 1], NOTHING),
    ('pyramid, apex on a corner', [5, 1, 2, 3, 4, 2], ALL_FOUR), ('pyramid on a triangle', [5, 1, 2, 2, 3, 4], ALL_FOUR),
    ('pyramid as a triangle', [5, 1, 2, 2, 1, 4], TRIANGLE_124), ('pyramid as a bar', [5, 2, 2, 2, 2, 3], BAR_23),
    ('pyramid on one node', [5, 3, 3, 3, 3, 3], NOTHING),
    ('brick as a tetrahedron', [7, 1, 2, 3, 3, 4, 4, 4, 4], ALL_FOUR), ('brick as a triangle', [7, 1, 1, 2, 2, 1, 1, 4, 4], TRIANGLE_124),
    ('brick as a bar', [7, 2, 2, 2, 2, 3, 3, 3, 3], BAR_23), ('brick on one node', [7] + [4] * 8, NOTHING),
    ('bar on a node of a bar', [1, 2, 3, 1, 3, 3], BAR_23), ('bar on a node beside a triangle', [1, 3, 3, 2, 1, 2, 4], TRIANGLE_124),
    ('two collapsed quadrilaterals and a bar', [3, 1, 2, 3, 3, 3, 1, 1, 3, 4, 1, 2, 4], ALL_FOUR),
]


def mesh_refusals(checks):
    for element, number in BROKEN_ELEMENTS:
        untouched(checks, 'mesh, elements %r' % element[:6], calls.mesh, [3, element],
                  [words(4), words(32768), words(3)], number)
    for n in (0, 4097, 65535):
        untouched(checks, 'mesh, %d nodes' % n, calls.mesh, [n, [0]], [[], [], []], 1)
    # A short start list, an empty one too, is 5, before the elements.
    for lent in ([], words(32768), words(3)), (words(3), words(32768), words(3)), \
            (words(4), words(32767), words(3)), (words(4), words(32768), words(2)):
        untouched(checks, 'mesh, short buffer', calls.mesh, [3, [0]], list(lent), 5)
    answer_and_buffers(checks, 'mesh, 32,770 entries', calls.mesh, [3650, element_words(5)],
                       [words(3651), words(32768), words(3651)], ('refused', 11),
                       [words(3651), words(32768), [0] * 3650 + [OLD]])
    answer_and_buffers(checks, 'mesh, bar twice and a triangle', calls.mesh,
                       [4, [1, 2, 1, 1, 1, 2, 2, 3, 1, 2]], [words(6), words(32768), words(5)],
                       ('accepted', (6,)),
                       [[0, 2, 4, 6, 6, OLD], [2, 3, 1, 3, 1, 2] + words(32762), [0] * 4 + [OLD]])


def mesh_leaves(checks, name, n, element, starts, neighbours):
    answer_and_buffers(checks, name, calls.mesh, [n, element], [words(n + 2), words(32769), words(n + 1)],
                       ('accepted', (len(neighbours),)),
                       [starts + [OLD], neighbours + words(32769 - len(neighbours)), [0] * n + [OLD]])


def collapsed_elements(checks):
    """A.1: the lists of the distinct nodes."""
    for name, element, (starts, neighbours) in COLLAPSED:
        mesh_leaves(checks, 'mesh, ' + name, 4, element, starts, neighbours)
    # A brick with two corners of its base the same, and the two above them: a wedge.
    everyone = [[q for q in range(1, 7) if q != p] for p in range(1, 7)]
    wedge = ([0, 5, 10, 15, 20, 25, 30], [q for row in everyone for q in row])
    for name, element in ('wedge', [6, 1, 2, 3, 4, 5, 6]), ('brick as a wedge', [7, 1, 2, 3, 3, 4, 5, 6, 6]):
        mesh_leaves(checks, 'mesh, ' + name, 6, element, *wedge)
    # Collapsed elements are no further entries: 32,768 stay so.
    lent = [words(3651), words(32768), words(3650)]
    more = [1, 3650, 3650] + [7, 1, 2, 3, 4, 5, 5, 5, 5] + [3, 9, 10, 9, 10]
    checks.equal('mesh, 32,768 entries and collapsed elements', calls.mesh(3650, element_words(4) + more, *lent), ('accepted', (32768,)))


def one_node_twice(checks):
    """Each kind with one node also at another place, at each pair of places: all but the node left out adjoin one another."""
    for kind, size in NODE_COUNT.items():
        for i in range(1, size + 1):
            for j in range(1, size + 1):
                if i != j:
                    nodes = [j if p == i else p for p in range(1, size + 1)]
                    rows = [[] if p == i else [q for q in range(1, size + 1) if q not in (p, i)] for p in range(1, size + 1)]
                    starts = [sum(len(row) for row in rows[:p]) for p in range(size + 1)]
                    mesh_leaves(checks, 'mesh, kind %d, place %d as %d' % (kind, i, j), size, [kind] + nodes, starts, sum(rows, []))


# Listing and program.

def lent_to_listing(n):
    """words, starts, neighbours, scratch, numbers, levels, passes, counts, output"""
    return [words(32763), words(n + 1), words(32768), words(6 * n), words(n), words(n), words(n), words(n), [OLD_BYTE] * (104 + 15 * n)]


def with_line(output, number):
    line = list(b'refused %d\n' % number)
    return line + output[len(line):] if len(line) <= len(output) else output


def listing_refused(checks, name, file, lent, number, element=(), counts=(), zeroed=0):
    """What a refusal leaves: the line, and of a file whose header and counts pass the words of its elements and the counts."""
    after = [list(buffer) for buffer in lent]
    after[0][:len(element)] = element
    after[3][:zeroed] = [0] * zeroed
    after[7][:len(counts)] = counts
    after[8] = with_line(after[8], number)
    answer_and_buffers(checks, 'listing, ' + name, calls.listing, [list(file)], lent, ('refused', number), after)
    if number != 5:
        checks.equal('program, ' + name, text_for(file), b'refused %d\n' % number)


WRONG_HEADERS = [
    ('no byte', b'', 12), ('8 bytes', b'GRD\x01\x00\x03\x00\x00', 12),
    ('wrong mark', b'GRE\x01\x00\x03\x00\x00\x00', 12),
    ('version 0', b'GRD\x00\x00\x03\x00\x00\x00', 12), ('version 3', b'GRD\x03\x00\x03\x00\x00\x00', 12),
    ('version high byte', b'GRD\x01\x01\x03\x00\x00\x00', 12),
    ('wrong mark and no node', b'grd\x01\x00\x00\x00\x00\x00', 12),
    ('65,536 bytes', grd_file(3, 0, [0] * 32763) + b'\x00', 12),
    ('65,536 bytes, no node', grd_file(0, 0, [0] * 32763) + b'\x00', 12),
    ('70,000 bytes of 255', b'\xff' * 70000, 12),
    ('no node', grd_file(0, 0, []), 1), ('4,097 nodes', grd_file(4097, 0, []), 1),
    ('65,535 nodes and bytes left over', grd_file(65535, 0, [1]), 1),
]

WRONG_ELEMENTS = [
    ('element missing', 1, [], b'', 12), ('half a kind word', 1, [], b'\x01', 12),
    ('record past the end', 1, [1, 2], b'', 12), ('half a node', 1, [1, 2], b'\x03', 12),
    ('record past the end before its nodes', 1, [1, 0], b'', 12),
    ('unknown kind', 1, [11, 1, 2], b'', 9), ('unknown kind as last word', 1, [0], b'', 9),
    ('node 0', 1, [1, 0, 1], b'', 10), ('node 0 twice', 1, [1, 0, 0], b'', 10), ('node above n twice', 1, [1, 4, 4], b'', 10),
    ('node twice, bytes left over', 1, [1, 3, 3], b'\x00', 12), ('node twice, then an unknown kind', 2, [1, 3, 3, 99], b'', 9),
    ('node above n, bytes left over', 1, [1, 3, 4, 9], b'', 10),
    ('unknown kind in the second', 2, [1, 1, 2, 99], b'\x01', 9),
    ('word left over', 1, [1, 1, 2, 1], b'', 12), ('byte left over', 1, [1, 1, 2], b'\x00', 12),
    ('65,535 bytes', 0, [1] * 32763, b'', 12), ('65,535 elements', 65535, [1, 1, 2], b'', 12),
]


def listing_refusals(checks):
    for name, file, number in WRONG_HEADERS:
        listing_refused(checks, name, file, lent_to_listing(3), number)
        for room in (0, 9, 10, 11):
            listing_refused(checks, '%s, output of %d' % (name, room), file, [[] for _ in range(8)] + [[OLD_BYTE] * room], number)
    for name, count, element, last, number in WRONG_ELEMENTS:
        listing_refused(checks, name, grd_file(3, count, element) + last, lent_to_listing(3), number, element, ONES)
        # The same behind counts, where there is room for them.
        if len(element) < 32760:
            file = grd_file(3, count, element, [2, 6, 1]) + last
            listing_refused(checks, name + ', version 2', file, lent_to_listing(3), number, element, [2, 6, 1])
    over, ones = element_words(5), calls.ones(3650)
    listing_refused(checks, '32,770 entries', grd_file(3650, 369, over), lent_to_listing(3650), 11, over, ones, 3650)
    # Bytes left over come before 11.
    listing_refused(checks, '32,770 entries and a byte', grd_file(3650, 369, over) + b'\x00', lent_to_listing(3650), 12, over, ones)
    for t in range(9):
        for counts in (None, [0, 7, 0]):
            lent = lent_to_listing(3)
            lent[t].pop()
            listing_refused(checks, 'buffer %d short' % t, grd_file(3, 1, [0], counts), lent, 5)


def listing_leaves(checks, name, file, after):
    """What an accepted listing leaves in all that is lent, each longer by one."""
    lent = [buffer + [OLD_BYTE] for buffer in lent_to_listing(3)]
    text = after[-1]
    after = [have + old[len(have):] for have, old in zip([*after[:-1], list(text)], lent)]
    answer_and_buffers(checks, 'listing, ' + name, calls.listing, [list(file)], lent, ('accepted', (len(text),)), after)
    checks.equal('program, ' + name, text_for(file), text)


def listing_accepted(checks):
    text = b'nodes 3 parts 2 bandwidth 1 profile 1 front 2 levels 3 width 1 passes 2\n1 1 1\n2 3 1\n3 2 2\n'
    after = [[1, 3, 1], [0, 1, 1, 2], [3, 1], [0] * 18, [1, 3, 2], [1, 1, 2], [1, 1, 0], ONES, text]
    listing_leaves(checks, 'a bar', grd_file(3, 1, [1, 3, 1]), after)
    listing_leaves(checks, 'a bar, version 2', grd_file(3, 1, [1, 3, 1], ONES), after)
    # Nodes 1 and 3 take the unknowns 1 to 5, node 2 takes 6 to 11. Profiles 10 and 15.
    after[7:] = [2, 6, 3], b'nodes 3 parts 2 bandwidth 5 profile 25 front 6 levels 3 width 6 passes 2\n1 1 1\n2 3 1\n3 2 2\n'
    listing_leaves(checks, 'a bar, more unknowns', grd_file(3, 1, [1, 3, 1], [2, 6, 3]), after)


def program_accepted(checks):
    checks.equal('program, a bar', text_for(grd_file(3, 1, [1, 3, 1])),
                 b'nodes 3 parts 2 bandwidth 1 profile 1 front 2 levels 3 width 1 passes 2\n1 1 1\n2 3 1\n3 2 2\n')
    checks.equal('program, a bar on one node', text_for(grd_file(3, 1, [1, 3, 3])),
                 b'nodes 3 parts 3 bandwidth 0 profile 0 front 1 levels 3 width 1 passes 3\n1 1 1\n2 2 1\n3 3 1\n')
    checks.equal('program, a quadrilateral with one corner twice', text_for(grd_file(3, 1, [3, 1, 2, 3, 3])),
                 b'nodes 3 parts 1 bandwidth 2 profile 3 front 3 levels 2 width 2 passes 1\n1 1 1\n2 2 2\n3 3 2\n')


# Any words at all.

def any_words(rng):
    """Small lists of small words, now and then a word of 65,535."""
    return [rng.choice([0, 1, 1, 2, 2, 3, 4, 65535]) for _ in range(rng.randint(0, 6))]


def random_input(checks):
    """No call may fault; refusals 1 to 6, 13 and 15 leave all lent words, whatever is handed in."""
    rng = random.Random(1976)
    for _ in range(3000):
        starts = rng.choice([any_words(rng), [0] + sorted(any_words(rng))])
        neighbours = any_words(rng)
        for name, call, more, sizes in ADJACENCY_CALLS:
            given = [rng.choice([0, 1, 2, 65535]) if isinstance(x, int) else any_words(rng) if x != ONES or rng.random() < 0.2
                     else [rng.randint(1, 6) for _ in starts[1:]] for x in more]
            lent = [words(rng.randint(0, 40)) for _ in sizes] + mark_bytes_of(name, rng.randint(0, 2))
            before = [list(buffer) for buffer in lent]
            state, value = call(starts, neighbours, *given, *lent)
            if state == 'refused' and value in (1, 2, 3, 4, 5, 6, 13, 15):
                checks.equal(name + ', any words', lent, before)
            else:
                checks.holds(name + ', any words', state == 'accepted' or value in (7, 8, 14))


def random_files(checks):
    """The program answers every file with rows or with one of its refusals."""
    rng = random.Random(1976)
    for _ in range(300):
        element = [rng.randint(0, 4) for _ in range(rng.randint(0, 12))]
        counts = rng.choice([None, [rng.randint(1, 6) for _ in range(4)], [rng.randint(0, 7) for _ in range(rng.randint(0, 5))]])
        file = grd_file(rng.choice([0, 4, 4, 4, 4]), rng.randint(0, 3), element, counts) + b'\x00' * rng.randint(0, 1)
        text = text_for(file)
        refusals = [b'refused %d\n' % number for number in (1, 9, 10, 12, 15)]
        checks.holds('program, any file', text in refusals or text.startswith(b'nodes 4 parts '))


def main():
    checks = Checks('table of refusals')
    for subject in (broken_lists, short_buffers, wrong_nodes, wrong_numberings, short_mark_bytes,
                    accepted_buffers, six_for_each_node, list_of_passes, mesh_refusals, collapsed_elements, one_node_twice,
                    listing_refusals, listing_accepted, program_accepted, random_input, random_files):
        subject(checks)
    return checks.report()


if __name__ == '__main__':
    sys.exit(main())
