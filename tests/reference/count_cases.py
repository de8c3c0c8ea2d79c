"""Counts of unknowns that are handed in (A.6): refusal 15 of the calls, among the others, and files of version 2. Made by unknown_cases."""

import calls
from bracket import SAMPLE_EDGES, SAMPLE_OUTPUT, element_words, grd_file
from program import text_for
from refusals import (ADJACENCY_CALLS, BROKEN_LISTS, OLD, OLD_BYTE, ONES, PATH, answer_and_buffers, lent_to_listing, listing_refused,
                      mark_bytes_of, untouched, words)
from worked import star_edges

# Refusal 15 of the calls.

# For three nodes; the low byte of 257 is 1.
WRONG_COUNTS = [[0, 1, 1], [1, 0, 1], [1, 1, 0], [7, 1, 1], [1, 7, 1], [1, 1, 7], [0, 7, 0], [257] * 3, [1, 1, 65535], [65535] * 3,
                [], [1], [1, 1], [1, 1, 1, 1], [6, 6], [6] * 4, [0] * 2, [1, 1, 1, 0], [1] * 70000, [65535] * 70000]


def calls_with_counts():
    """name, call, what is given besides the adjacency with the counts first, sizes"""
    return [(name, call, more[1:], sizes) for name, call, more, sizes in ADJACENCY_CALLS if ONES in more]


def counts_refused(checks):
    """15 comes after 5 and ahead of 6, 7, 8 and 13, and nothing is written."""
    for name, call, more, sizes in calls_with_counts():
        for counts in WRONG_COUNTS:
            case = '%s, %d counts from %r' % (name, len(counts), counts[:1])
            lent = [words(3 * size + 1) for size in sizes]
            untouched(checks, case, call, [*PATH, counts] + more, lent + mark_bytes_of(name, 9), 15)
            # A wrong node, numbering or list of pairs, and no mark bytes.
            for wrong in [0, 4, 65535] if more == [1] else [[], [1, 1, 2], [1, 2, 3, 4]] if more else []:
                untouched(checks, case + ', given %r' % wrong, call, [*PATH, counts, wrong] + more[1:], lent + mark_bytes_of(name, 0), 15)
            for t in range(len(sizes)):
                short = [words(3 * size - (i == t)) for i, size in enumerate(sizes)]
                untouched(checks, case + ', buffer %d short' % t, call, [*PATH, counts] + more, short + mark_bytes_of(name, 0), 5)


def counts_after_lists(checks):
    """1 to 4 come first, whatever the counts are."""
    for name, call, more, sizes in calls_with_counts():
        for fault, starts, neighbours, number in BROKEN_LISTS:
            for counts in ([0] * 3, [7] * 40, [1] * max(0, len(starts) - 1)):
                untouched(checks, '%s, %s, %d counts' % (name, fault, len(counts)), call, [list(starts), list(neighbours), counts] + more,
                          [words(40 * size) for size in sizes] + mark_bytes_of(name, 9), number)


def after_the_counts(checks):
    """Counts that pass: 6 leaves all, 7 and 8 the n scratch words 0, n in nodes; mark bytes are those of the profile in unknowns."""
    counts, zeroed = [2, 6, 1], [0, 0, 0, OLD]
    for node in (0, 4, 65535):
        untouched(checks, 'part report with counts, node %d' % node, calls.part_report, [*PATH, counts, node], [words(19)], 6)
    for numbering in ([], [1, 1, 2], [1, 2, 4], list(range(1, 10))):
        given = [*PATH, counts, numbering]
        answer_and_buffers(checks, 'measures with counts, wrong numbering', calls.measures, given, [words(4)], ('refused', 7), [zeroed])
        answer_and_buffers(checks, 'elimination with counts, wrong numbering', calls.elimination, given, [words(4), []], ('refused', 7), [zeroed, []])
    # Unknowns 1, 2; 3 to 8; 9. Profile 1 + (2 + .. + 7) + 6 = 34, all marked.
    old, marked = [OLD_BYTE] * 4, [255] * 4 + [0b11]
    given = [*PATH, counts, [1, 2, 3]]
    answer_and_buffers(checks, 'measures with counts', calls.measures, given, [words(4)], ('accepted', (7, 34, 8)), [zeroed])
    answer_and_buffers(checks, 'elimination, 4 bytes for profile 34', calls.elimination, given, [words(4), list(old)], ('refused', 8), [zeroed, old])
    answer_and_buffers(checks, 'elimination, 5 bytes for profile 34', calls.elimination, given, [words(4), old + [OLD_BYTE] * 2],
                       ('accepted', (34, 0)), [zeroed, marked + [OLD_BYTE]])
    figures, lent = (3, 1, 7, 34, 8, 3, 6), [words(4), words(4), words(4), words(19)]
    after = [[1, 2, 3, OLD], [1, 2, 3, OLD], [1, 0, 0, OLD], [0] * 18 + [OLD]]
    answer_and_buffers(checks, 'run and eliminate with counts', calls.run_and_eliminate, [*PATH, counts], lent + [[OLD_BYTE] * 5],
                       ('accepted', (figures, ('accepted', (34, 0)))), after + [marked])
    lent = [words(4), words(4), words(4), words(19)]
    answer_and_buffers(checks, 'run and eliminate with counts, 4 bytes', calls.run_and_eliminate, [*PATH, counts], lent + [list(old)],
                       ('accepted', (figures, ('refused', 8))), after + [old])


def every_count(checks):
    """Each count at each node: 1 to 6 are accepted, all else is 15."""
    for node in range(3):
        for count in [*range(10), 255, 256, 258, 262, 4096, 32769, 65535]:
            counts = [count if p == node else 1 for p in range(3)]
            state, value = calls.measures(*PATH, counts, [1, 2, 3], [0] * 3)
            checks.equal('count %d' % count, (state, value == 15), ('accepted', False) if 1 <= count <= 6 else ('refused', True))


# Files.

def file_of(version, n, count, more):
    return b'GRD' + b''.join(bytes([word % 256, word // 256]) for word in [version, n, count] + more)


BAR = [1, 1, 2]
# Nothing but the line is written for these.
WRONG_FILES = [
    ('version 0', file_of(0, 3, 1, ONES + BAR), 12),
    ('version 3', file_of(3, 3, 1, ONES + BAR), 12),
    ('version 3, no node', file_of(3, 0, 0, []), 12),
    ('version 3, wrong counts', file_of(3, 3, 1, [0, 0, 0] + BAR), 12),
    ('version 258', file_of(258, 3, 1, ONES + BAR), 12),
    ('version 513', file_of(513, 3, 1, ONES + BAR), 12),
    ('version 65,535', file_of(65535, 3, 1, ONES + BAR), 12),
    ('version 2, 8 bytes', file_of(2, 3, 0, [])[:8], 12),
    ('version 2, wrong mark', b'grd' + file_of(2, 3, 0, ONES)[3:], 12),
    ('version 2, 65,536 bytes', file_of(2, 3, 0, [0] * 32763) + b'\x00', 12),
    ('version 2, no node', file_of(2, 0, 0, []), 1),
    ('version 2, no node, a word', file_of(2, 0, 0, [0]), 1),
    ('version 2, 4,097 nodes, no count', file_of(2, 4097, 0, []), 1),
    ('version 2, 4,097 nodes, counts of 0', file_of(2, 4097, 0, [0] * 4097), 1),
    ('version 2, 4,096 nodes, no count', file_of(2, 4096, 0, []), 12),
    ('version 2, 4,096 nodes, 4,095 counts', file_of(2, 4096, 0, [1] * 4095), 12),
    ('version 2, the last of 4,096 is 0', file_of(2, 4096, 0, [6] * 4095 + [0]), 15),
]

# Count and words of elements that are missing, cut, of an unknown kind, with a node 0, with bytes left over, and right.
ANY_ELEMENTS = [(0, [], b''), (1, [], b''), (1, [], b'\x01'), (1, [1, 2], b''), (1, [11], b''), (1, [1, 0, 1], b''), (1, BAR, b'\x00'), (0, BAR, b''),
                (1, BAR, b'')]


def files_refused(checks):
    """12 for length, mark and version; 1; 12 for a file that ends within the counts; 15; then the elements."""
    for name, file, number in WRONG_FILES:
        listing_refused(checks, name, file, lent_to_listing(4096), number)
    # Cut at every byte, also behind counts that are wrong; 65,535 elements are as good as none there.
    for counts in (ONES, [0, 1, 1], [1, 7, 1], [0, 0, 0], [7, 65535, 0]):
        for count in (0, 1, 65535):
            for cut in range(9, 15):
                listing_refused(checks, 'version 2, %d bytes, counts %r' % (cut, counts), file_of(2, 3, count, counts)[:cut], lent_to_listing(3), 12)
    # Complete, and no element is looked at.
    for counts in ([0, 1, 1], [1, 7, 1], [1, 1, 0], [7] * 3, [257] * 3, [65535] * 3):
        for count, element, last in ANY_ELEMENTS:
            listing_refused(checks, 'version 2, counts %r' % counts, file_of(2, 3, count, counts + element) + last, lent_to_listing(3), 15)
    over = element_words(5)
    counts = [1 + p % 6 for p in range(3650)]
    listing_refused(checks, 'version 2, 32,770 entries', grd_file(3650, 369, over, counts), lent_to_listing(3650), 11, over, counts, 3650)
    listing_refused(checks, 'version 2, 32,770 entries, a wrong count', grd_file(3650, 369, over, counts[1:] + [7]), lent_to_listing(3650), 15)


def bars(edges):
    return [word for p, q in edges for word in (1, p, q)]


def files_accepted(checks):
    rows = b'1 2 2\n2 3 3\n3 4 4\n4 1 1\n5 5 5\n'
    # Order 4, 1, 2, 3, 5, a path: 1; 2, 3, 4; 5; 6 to 11; 12, 13. 6 and 13 are 7 apart; profile 6 + 3 + 21 + 13; the front at 6 is 6 to 13.
    checks.equal('program: the sample with counts', text_for(grd_file(5, 4, bars(SAMPLE_EDGES), [3, 1, 6, 1, 2])),
                 b'nodes 5 parts 1 bandwidth 7 profile 43 front 8 levels 5 width 6 passes 1\n' + rows)
    checks.equal('program: version 1 is one unknown each', text_for(grd_file(5, 4, bars(SAMPLE_EDGES), calls.ones(5))), SAMPLE_OUTPUT)
    checks.equal('program: turned by the counts', text_for(grd_file(5, 4, bars(star_edges(5)), [1, 1, 2, 1, 1])),
                 b'nodes 5 parts 1 bandwidth 3 profile 7 front 3 levels 3 width 3 passes 1\n1 3 2\n2 5 1\n3 2 3\n4 1 3\n5 4 1\n')
    checks.equal('program: one node of six', text_for(grd_file(1, 0, [], [6])),
                 b'nodes 1 parts 1 bandwidth 5 profile 15 front 6 levels 1 width 6 passes 1\n1 1 1\n')
    # In version 1 the same words are an element: a bar on node 1.
    checks.equal('program: counts in version 1', text_for(file_of(1, 3, 1, ONES)), text_for(grd_file(3, 0, [])))
    # Between A.6 and A.13 a version 2 file may have a pyramid.
    checks.equal('program: a pyramid in version 2', text_for(grd_file(5, 1, [5, 1, 2, 3, 4, 5], [2] * 5))[:60],
                 b'nodes 5 parts 1 bandwidth 9 profile 45 front 10 levels 2 width 8 '[:60])


def count_cases(checks):
    for subject in (counts_refused, counts_after_lists, after_the_counts, every_count, files_refused, files_accepted):
        subject(checks)
