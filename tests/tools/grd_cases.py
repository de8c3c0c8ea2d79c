"""GRD files: what is written and read, and the refusals held against tests/reference."""

from harness import grd_file, run, words

import grd
from listing import count_refusal, element_refusal, header_refusal, nodes_of_file, words_of_elements
from mesh import mesh_rows, read_elements, too_many_entries

SAMPLE = grd_file(5, (1, 1, 2), (1, 1, 4), (1, 2, 3), (1, 3, 5))
BRICK = grd_file(8, (7, 1, 2, 3, 4, 5, 6, 7, 8), (2, 3, 1, 2))
# a hinge between two shells: 3 unknowns at node 2, 6 at the others
HINGE = grd_file(5, (2, 4, 5, 1), (1, 1, 2), (1, 2, 3), counts=[6, 3, 6, 6, 6])
ONES = grd_file(3, (2, 1, 2, 3), counts=[1, 1, 1])


def refusal(data):
    """The number by which grd.read refuses, or 0."""
    try:
        grd.read(data)
        return 0
    except grd.Refusal as refused:
        return refused.number


def reference_refusal(data):
    """The same by the steps of tests/reference, without its run."""
    number = header_refusal(data) or count_refusal(data) or element_refusal(data)
    if number:
        return number
    n = nodes_of_file(data)
    return 11 if too_many_entries(mesh_rows(n, read_elements(n, words_of_elements(data))[1])) else 0


def damaged():
    """Files with one byte changed, cut short or gone on."""
    for file in (SAMPLE, BRICK, HINGE, ONES):
        for at in range(len(file)):
            for value in sorted({0, 1, 2, 3, 6, 7, 11, 16, 255} - {file[at]}):
                yield file[:at] + bytes([value]) + file[at + 1:]
        for size in range(len(file)):
            yield file[:size]
        for more in (b'\0', b'\1\0', words(1, 1, 3)):
            yield file + more


def limits():
    """Each limit, and one beyond it."""
    for n in (0, 1, 4096, 4097, 65535):
        yield grd_file(n)
    for count in (0, 1, 6, 7, 65535):
        yield grd_file(4096, counts=[6] * 4095 + [count])
        # a file that ends within the counts is 12, whatever they are
        yield grd_file(4096, counts=[count] * 4095)
        yield grd_file(4096, counts=[count] * 4096)[:-1]
    # too many nodes before counts that are wrong or cut
    yield grd_file(4097, counts=[0] * 4097)
    yield grd_file(4097, counts=[1] * 10)
    yield grd_file(0, counts=[])
    bars = [(1, p, p + 1) for p in range(1, 4096)]
    for count in (10921, 10922):
        yield grd_file(4096, *(bars * 3)[:count])
    # 8,192 bytes less for elements
    for count in (9555, 9556):
        yield grd_file(4096, *(bars * 3)[:count], counts=[6] * 4096)
    # 90 entries to a group of ten, 2 to a pair; no two of them share a pair
    tens = [(10,) + tuple(range(64 * r + at + 1, 64 * r + at + 11)) for r in range(64) for at in range(0, 60, 10)]
    pairs = [(1, 64 * r + 61, 64 * r + 62) for r in range(64)]
    for count in (3, 4, 5):
        yield grd_file(4096, *(tens[:364] + pairs[:count]))


def cases(c):
    c.equal('grd: sample read', grd.read(SAMPLE), (5, [(1, [1, 2]), (1, [1, 4]), (1, [2, 3]), (1, [3, 5])], None))
    c.equal('grd: written as read', grd.write(grd.read(SAMPLE)), SAMPLE)
    c.equal('grd: written as read, two kinds', grd.write(grd.read(BRICK)), BRICK)
    c.equal('grd: counts read', grd.read(HINGE), (5, [(2, [4, 5, 1]), (1, [1, 2]), (1, [2, 3])], [6, 3, 6, 6, 6]))
    c.equal('grd: counts written as read', [grd.write(grd.read(file)) for file in (HINGE, ONES)], [HINGE, ONES])
    c.equal('grd: a pyramid in version 2', grd.read(grd_file(5, (5, 1, 2, 3, 4, 5), counts=[3] * 5)).elements, [(5, [1, 2, 3, 4, 5])])
    files = list(damaged()) + list(limits())
    c.equal('grd: refusals as tests/reference has them', [refusal(file) for file in files], [reference_refusal(file) for file in files])
    c.equal('grd: every refusal of the program was met', sorted({refusal(file) for file in files}), [0, 1, 9, 10, 11, 12, 15])
    c.equal('grd: every refusal has words', sorted(grd.MEANING), list(range(1, 16)))
    told = [
        ('legal', SAMPLE, 0, '5 nodes, 4 elements (bar 4)'),
        ('no node', grd_file(0), 1, '1: %s; the file says 0 nodes' % grd.MEANING[1]),
        ('kind', grd_file(3, (2, 1, 2, 3), (11, 1, 2)), 1, '9: %s; element 2 (byte 17) has kind 11' % grd.MEANING[9]),
        ('above n', grd_file(3, (2, 1, 2, 4)), 1, '10: %s; element 1 (byte 9), a triangle, has node 4, and the nodes are 1 to 3' % grd.MEANING[10]),
        ('collapsed', grd_file(3, (2, 1, 2, 1), (3, 1, 2, 3, 3), (1, 2, 3), (1, 3, 3)), 0,
         '3 nodes, 4 elements (bar 2, triangle 1, quadrilateral 1; collapsed 3)'),
        ('above n, twice', grd_file(3, (2, 4, 2, 4)), 1,
         '10: %s; element 1 (byte 9), a triangle, has node 4, and the nodes are 1 to 3' % grd.MEANING[10]),
        ('cut', SAMPLE[:-1], 1, '12: %s; the file ends within element 4 (byte 27), a bar' % grd.MEANING[12]),
        ('missing', SAMPLE[:-6], 1, '12: %s; the file ends before element 4 (byte 27)' % grd.MEANING[12]),
        ('left over', SAMPLE + b'\0', 1, '12: %s; bytes left over after the last element: 1' % grd.MEANING[12]),
        ('mark', b'X' + SAMPLE[1:], 1, '12: %s; the file does not begin with the letters GRD' % grd.MEANING[12]),
        ('version', SAMPLE[:3] + b'\3' + SAMPLE[4:], 1, '12: %s; the file has version 3' % grd.MEANING[12]),
        ('counts', HINGE, 0, '5 nodes, 27 unknowns (1 node with 3, 4 nodes with 6), 3 elements (bar 2, triangle 1)'),
        ('one unknown each, counted', ONES, 0, '3 nodes, 3 unknowns (3 nodes with 1), 1 element (triangle 1)'),
        ('count 0', grd_file(3, counts=[1, 0, 9]), 1, '15: %s; node 2 has 0 unknowns' % grd.MEANING[15]),
        ('count 7', grd_file(3, counts=[1, 6, 7]), 1, '15: %s; node 3 has 7 unknowns' % grd.MEANING[15]),
        ('no counts', HINGE[:9], 1, '12: %s; the file ends within the counts of unknowns, before that of node 1 is whole' % grd.MEANING[12]),
        ('cut within the counts', HINGE[:14], 1,
         '12: %s; the file ends within the counts of unknowns, before that of node 3 is whole' % grd.MEANING[12]),
        ('cut behind the counts', HINGE[:19], 1, '12: %s; the file ends before element 1 (byte 19)' % grd.MEANING[12]),
        ('a bad count before the cut', grd_file(3, counts=[9, 1]), 1,
         '12: %s; the file ends within the counts of unknowns, before that of node 3 is whole' % grd.MEANING[12]),
        ('a bad count before a bad element', grd_file(2, (11, 1, 2), counts=[6, 0]), 1, '15: %s; node 2 has 0 unknowns' % grd.MEANING[15]),
        ('above n behind counts', grd_file(2, (1, 1, 3), counts=[6, 6]), 1,
         '10: %s; element 1 (byte 13), a bar, has node 3, and the nodes are 1 to 2' % grd.MEANING[10]),
        ('short', b'GRD', 1, '12: %s; the file has only 3 bytes' % grd.MEANING[12]),
        ('long', SAMPLE + bytes(70000), 1, '12: %s; the file is too long' % grd.MEANING[12]),
    ]
    for name, file, status, text in told:
        line = 'a.grd: %s%s\n' % ('refused ' if status else '', text)
        wanted = (status, '' if status else line, line if status else '', {})
        c.equal('grd.py: ' + name, run(grd.main, ['a.grd'], {'a.grd': file}), wanted)
    c.equal('grd.py: no file', run(grd.main, ['b.grd'], {}), (1, '', 'b.grd: No such file or directory\n', {}))
