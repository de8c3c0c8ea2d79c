"""Gmsh .msh files, versions 2.2 and 4.1 as text. Physical groups are sets of nodes, and looked at where one is asked for."""

import re

import grd
import known
from model import Fault, Model, Stop, integer, squeezed
from places import point
from sets import Sets

# Gmsh's element type: GRD kind and name. Node order within an element does not matter: all its nodes adjoin.
TYPES = {1: (1, '2-node line'), 2: (2, '3-node triangle'), 3: (3, '4-node quadrangle'), 4: (4, '4-node tetrahedron'), 5: (7, '8-node hexahedron'),
         6: (6, '6-node prism'), 7: (5, '5-node pyramid'), 9: (8, '6-node triangle'), 16: (9, '8-node quadrangle'), 11: (10, '10-node tetrahedron')}

# Types that GRD has no kind for: the kind with the same corners, and the counts of nodes by type.
OTHER_TYPES = {
    (1, 'line'): {8: 3, 26: 4, 27: 5, 28: 6},
    (2, 'triangle'): {20: 9, 21: 10, 22: 12, 23: 15, 25: 21},
    (3, 'quadrangle'): {10: 9, 36: 16, 37: 25, 38: 36, 39: 12, 40: 16},
    (4, 'tetrahedron'): {29: 20, 30: 35, 31: 56, 32: 22, 137: 16},
    (5, 'pyramid'): {14: 14, 19: 13, 118: 30, 119: 55},
    (6, 'prism'): {13: 18, 18: 15, 90: 40, 91: 75, 106: 126, 111: 24, 112: 33},
    (7, 'hexahedron'): {12: 27, 17: 20, 92: 64, 93: 125, 99: 32, 100: 44},
}

# Type: GRD kind or None, kind with the same corners, node count, name.
TYPE = {number: (kind, kind, grd.KINDS[kind][1], name) for number, (kind, name) in TYPES.items()}
TYPE.update((number, (None, shape, count, '%d-node %s' % (count, name)))
            for (shape, name), counts in OTHER_TYPES.items() for number, count in counts.items())

# A point joins nothing.
POINT = 15

# The dimension of a kind with the same corners; all others are solids.
DIMENSION = {1: 1, 2: 2, 3: 2, 8: 2, 9: 2}

PHYSICAL_NAME = re.compile(r'([0-3])\s+(-?[0-9]+)\s+"(.*)"')


class Lines:
    """The lines of the file, taken one by one."""

    def __init__(self, source):
        self.lines = [text for _, text in source.lines()]
        self.number = 0
        self.each = source.each

    def ended(self):
        return self.number == len(self.lines)

    def take(self):
        if self.ended():
            raise Fault(self.number, 'the file ends too early')
        self.number += 1
        return self.lines[self.number - 1].strip()

    def words(self, what, least, most=None):
        """The words of the next line, which has at least and at most this many."""
        words = self.take().split()
        if len(words) < least or most and len(words) > most or words[0].startswith('$'):
            raise Fault(self.number, '%s expected' % what)
        return words

    def integers(self, what, least, most=None):
        return [integer(word, self.number, what) for word in self.words(what, least, most)]

    def end(self, section):
        if self.take() != '$End' + section:
            raise Fault(self.number, '$End%s expected: the section is longer than it says' % section)

    def skip(self, section):
        start = self.number
        while not self.ended():
            if self.take() == '$End' + section:
                return
        raise Fault(start, '$%s has no $End%s' % (section, section))


def read(source, ignore=()):
    """The model of the file."""
    lines, model, readers, kept = Lines(source), Model(ignore), {}, {}
    model.sets, model.tagged = Sets(), {}
    model.sets.add_late(lambda: add_groups(model, readers, kept))
    while not lines.ended():
        line = lines.take()
        if line == '$MeshFormat':
            readers = READERS[version(lines)]
        elif line.startswith('$') and not line.startswith('$End'):
            section = line[1:]
            if not readers and not section.startswith('Comment'):
                raise Fault(lines.number, '$%s comes before $MeshFormat: this is no Gmsh file of version 2.2 or 4.1' % section)
            if section in readers:
                readers[section](lines, model)
                lines.end(section)
            else:
                with lines.each():
                    test_section(lines, model, section)
                start = lines.number
                lines.skip(section)
                # from its first line on
                kept[section] = [(i, lines.lines[i - 1].strip()) for i in range(start, lines.number)]
        elif line:
            raise Fault(lines.number, 'a section was expected, such as $Nodes')
    if not readers:
        raise Fault(0, 'no $MeshFormat: this is no Gmsh file of version 2.2 or 4.1')
    return model


def test_section(lines, model, section):
    """A section that is not read must be known to join nothing."""
    if section == 'Periodic':
        model.leave_out(lines.number, section, '$Periodic makes nodes of two sides one, and GRD has no place for that')
    elif squeezed(section) not in known.GMSH:
        model.leave_out(lines.number, section, '$%s is not known, and might join nodes' % section)


def version(lines):
    words = lines.words('version and file type', 3)
    if words[0] not in READERS:
        raise Fault(lines.number, 'Gmsh version %s is not read, only 2.2 and 4.1' % words[0])
    if words[1] != '0':
        raise Fault(lines.number, 'a binary Gmsh file is not read; save the mesh as text')
    lines.end('MeshFormat')
    return words[0]


def add_element(lines, model, kind, number, nodes):
    """One element, or none for a point."""
    if kind == POINT:
        model.points += 1
        return
    if kind not in TYPE:
        model.leave_out(lines.number, 'type %d' % kind, 'element %d has type %d, which is not known' % (number, kind))
        return
    grd_kind, shape, count, name = TYPE[kind]
    name = 'element %d (%s)' % (number, name)
    if len(nodes) != count:
        raise Fault(lines.number, '%s: %d nodes, and it needs %d' % (name, len(nodes), count))
    model.add_element(grd_kind, nodes, lines.number, name, shape)


# Version 2.2.

def nodes_22(lines, model):
    for _ in range(lines.integers('count of nodes', 1, 1)[0]):
        words = lines.words('node number and three coordinates', 4, 4)
        with lines.each():
            model.add_node(integer(words[0], lines.number, 'node number'), lines.number, point(words[1:]))


def elements_22(lines, model):
    for _ in range(lines.integers('count of elements', 1, 1)[0]):
        # number, type, count of tags, tags, nodes
        words = lines.integers('element number, type, tags and nodes', 4)
        with lines.each():
            if words[2] < 0:
                raise Fault(lines.number, 'element %d: %d tags' % (words[0], words[2]))
            nodes = words[3 + words[2]:]
            add_element(lines, model, words[1], words[0], nodes)
            # the first tag is the physical group, 0 for none
            if words[2] > 0 and words[3]:
                tag(lines, model, dimension(words[1]), words[3], nodes)


# Version 4.1: blocks, one for each entity of the drawing.

def blocks_41(lines, what):
    """The four words before each block; at the end the counts must add up."""
    blocks, total = lines.integers('counts of blocks and ' + what, 4, 4)[:2]
    start, found = lines.number, 0
    for _ in range(blocks):
        head = lines.integers('head of a block of ' + what, 4, 4)
        found += head[3]
        yield head
    if found != total:
        raise Fault(start, '%d %s announced, %d found' % (total, what, found))


def nodes_41(lines, model):
    for _, _, _, count in blocks_41(lines, 'nodes'):
        # all numbers of the block, then all coordinates
        numbers = []
        for _ in range(count):
            numbers.append(lines.integers('node number', 1, 1)[0])
            with lines.each():
                model.add_node(numbers[-1], lines.number)
        for number in numbers:
            model.places[number] = point(lines.words('three coordinates', 3))


def elements_41(lines, model):
    for wide, entity, kind, count in blocks_41(lines, 'elements'):
        for _ in range(count):
            words = lines.integers('element number and nodes', 2)
            with lines.each():
                add_element(lines, model, kind, words[0], words[1:])
                tag(lines, model, wide, entity, words[1:])


# Physical groups. A group is told by its dimension and its number.

def dimension(kind):
    """Of an element type; of one that is not known none."""
    if kind == POINT:
        return 0
    return DIMENSION.get(TYPE[kind][1], 3) if kind in TYPE else None


def tag(lines, model, wide, number, nodes):
    """The nodes of an element belong to its group, or in version 4.1 to its entity of the drawing."""
    model.tagged.setdefault((wide, abs(number)), (lines.number, set()))[1].update(nodes)


def add_groups(model, readers, kept):
    """The nodes of each group, under its name and under its number."""
    if 'PartitionedEntities' in kept:
        raise Stop(kept['PartitionedEntities'][0][0], 'the physical groups of a mesh in partitions are not read')
    names = group_names(kept.get('PhysicalNames', []))
    groups = model.tagged if readers is READERS['2.2'] else groups_41(model, kept.get('Entities', []))
    for key in sorted(set(groups) | set(names)):
        line, nodes = groups.get(key, (0, set()))
        for place, name in ((line, str(key[1])),) + ((names[key],) if key in names else ()):
            model.sets.add(name, place, lambda found=nodes: found, key)


def group_names(lines):
    """Line and name of each group that has one."""
    names = {}
    for line, text in lines[2:]:
        match = PHYSICAL_NAME.fullmatch(text)
        if not match:
            raise Fault(line, 'dimension, number and name of a physical group expected')
        names[int(match.group(1)), abs(int(match.group(2)))] = line, match.group(3)
    return names


def groups_41(model, lines):
    """By the entities that belong to each group: a point has three coordinates before its groups, another entity six."""
    groups = {}
    counts = [integer(word, line, 'count of entities') for line, text in lines[1:2] for word in text.split()]
    kinds = [wide for wide, count in enumerate(counts[:4]) for _ in range(count)]
    for wide, (line, text) in zip(kinds, lines[2:]):
        words = text.split()
        at = 4 if wide == 0 else 7
        if len(words) <= at:
            raise Fault(line, 'an entity with its place and its physical groups expected')
        entity = integer(words[0], line, 'entity')
        for word in words[at + 1:at + 1 + integer(words[at], line, 'count of physical groups')]:
            nodes = model.tagged.get((wide, entity), (line, set()))[1]
            groups.setdefault((wide, abs(integer(word, line, 'physical group'))), (line, set()))[1].update(nodes)
    return groups


READERS = {'2.2': {'Nodes': nodes_22, 'Elements': elements_22},
           '4.1': {'Nodes': nodes_41, 'Elements': elements_41}}
