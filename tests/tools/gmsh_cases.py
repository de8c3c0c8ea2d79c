"""Gmsh files of both versions."""

from converting import KINDS, adjoins, all_kinds, converts, fails, left_out, stops
from harness import data, edited, grd_file

import gmsh

# Types and counts of nodes, as Gmsh 4.8.4 writes them for orders from 2 to 5.
OTHER_TYPES = {8: 3, 10: 9, 12: 27, 13: 18, 14: 14, 17: 20, 18: 15, 19: 13, 20: 9, 21: 10, 22: 12, 23: 15, 25: 21, 26: 4, 27: 5, 28: 6, 29: 20,
               30: 35, 31: 56, 32: 22, 36: 16, 37: 25, 38: 36, 39: 12, 40: 16, 90: 40, 91: 75, 92: 64, 93: 125, 99: 32, 100: 44, 106: 126, 111: 24, 112: 33,
               118: 30, 119: 55, 137: 16}

TRIANGLES = ((2, 1, 2, 3), (2, 2, 3, 4))


def mesh(numbers, elements, version='2.2'):
    """A version 2.2 file, nodes from line 6 on; an element is its type and nodes."""
    nodes = ''.join('%d 0 0 0\n' % number for number in numbers)
    lines = ''.join('%d %d 2 0 1 %s\n' % (i, kind, ' '.join(str(p) for p in ps)) for i, (kind, *ps) in enumerate(elements, 1))
    return ('$MeshFormat\n%s 0 8\n$EndMeshFormat\n$Nodes\n%d\n%s$EndNodes\n$Elements\n%d\n%s$EndElements\n'
            % (version, len(numbers), nodes, len(elements), lines))


def cases(c):
    all_kinds(c, 'kinds22.msh')
    all_kinds(c, 'kinds41.msh')
    converts(c, 'gmsh: line ends of another system', 'a.msh', data('kinds22.msh').replace('\n', '\r\n'), KINDS)
    converts(c, 'gmsh: ending in capitals', 'A.MSH', data('kinds41.msh'), KINDS)
    converts(c, 'gmsh: nodes in any order', 'a.msh', mesh([4, 2, 1, 3], TRIANGLES), grd_file(4, *TRIANGLES))
    other_types(c)
    sections(c)
    meshes(c)
    old_form(c)
    new_form(c)


def other_types(c):
    """Types that GRD has no kind for: all nodes of an element adjoin, and no others."""
    for kind, count in OTHER_TYPES.items():
        nodes = range(3, count + 3)
        text = mesh(range(1, count + 4), [(1, 1, 2), (kind,) + tuple(nodes), (1, 2, 3)])
        adjoins(c, 'gmsh: type %d' % kind, 'a.msh', text, count + 3, (1, 2), nodes, (2, 3))
        fails(c, 'gmsh: type %d with a node less' % kind, 'a.msh', mesh(range(1, count + 4), [(kind,) + tuple(nodes[:-1])]),
              ':%d: element 1 (%s): %d nodes, and it needs %d' % (count + 12, gmsh.TYPE[kind][3], count - 1, count))
    c.equal('gmsh: the table of types', {kind: gmsh.TYPE[kind][2] for kind in gmsh.TYPE if kind not in gmsh.TYPES}, OTHER_TYPES)
    text = mesh(range(1, 5), [(1, 1, 2), (120, 1, 2, 3, 4)])
    stops(c, 'gmsh: type 120', 'a.msh', text, ":14: element 2 has type 120, which is not known; --ignore 'type 120' leaves it out")
    left_out(c, 'gmsh: type 120 left out', 'a.msh', text, grd_file(4, (1, 1, 2)), 'type 120', 1)


def sections(c):
    """Sections beside nodes and elements: known ones join nothing, and others are named."""
    text = mesh(range(1, 5), TRIANGLES)
    pairs = text + '$Periodic\n1\n0 1 2\n1\n1 2\n$EndPeriodic\n'
    stops(c, 'gmsh: periodic', 'a.msh', pairs,
          ':16: $Periodic makes nodes of two sides one, and GRD has no place for that; --ignore Periodic leaves it out')
    left_out(c, 'gmsh: periodic left out', 'a.msh', pairs, grd_file(4, *TRIANGLES), '$Periodic', 1)
    stops(c, 'gmsh: elements misspelt', 'a.msh', text.replace('Elements', 'Elemnts'),
          ':11: $Elemnts is not known, and might join nodes; --ignore Elemnts leaves it out')
    fields = '$NodeData\n1\n"T"\n1\n0.0\n3\n0\n1\n1\n1 2.5\n$EndNodeData\n'
    converts(c, 'gmsh: a field', 'a.msh', text + fields, grd_file(4, *TRIANGLES))
    for name, mark, encoding in (('UTF-8', b'\xef\xbb\xbf', 'utf-8'), ('UTF-16, low byte first', b'\xff\xfe', 'utf-16-le')):
        converts(c, 'gmsh: byte order mark of ' + name, 'a.msh', mark + text.encode(encoding), grd_file(4, *TRIANGLES))


def meshes(c):
    """Mistakes of the mesh."""
    fails(c, 'gmsh: no such node', 'a.msh', mesh([1, 2, 3], TRIANGLES), ':13: element 2 (3-node triangle): there is no node 4')
    fails(c, 'gmsh: node given twice', 'a.msh', mesh([1, 2, 3, 2], [(2, 1, 2, 3)]), ':9: node 2 is given twice, first on line 7')
    fails(c, 'gmsh: node 0', 'a.msh', mesh([0, 1, 2], [(1, 1, 2)]), ':6: node 0: numbers start at 1')
    fails(c, 'gmsh: one number missing', 'a.msh', mesh([1, 2, 4], [(2, 1, 2, 4)]),
          ':8: node 4 comes after a gap: no node has number 3; --compact closes gaps')
    fails(c, 'gmsh: numbers missing', 'a.msh', mesh([9, 5, 7], [(2, 5, 7, 9)]),
          ':7: node 5 comes after a gap: no node has numbers 1 to 4; --compact closes gaps')
    fails(c, 'gmsh: no elements', 'a.msh', mesh([1, 2], []), ': no elements found')
    fails(c, 'gmsh: only a point', 'a.msh', mesh([1, 2], [(15, 1)]), ': no elements found')


def old_form(c):
    """Mistakes in the form, version 2.2."""
    def edit(name, old, new, message):
        fails(c, 'gmsh 2.2: ' + name, 'a.msh', edited('kinds22.msh', (old, new)), message)
    edit('version', '2.2 0 8', '4 0 8', ':2: Gmsh version 4 is not read, only 2.2 and 4.1')
    edit('binary', '2.2 0 8', '2.2 1 8', ':2: a binary Gmsh file is not read; save the mesh as text')
    edit('no head', '$MeshFormat\n2.2 0 8\n$EndMeshFormat\n', '',
         ':1: $PhysicalNames comes before $MeshFormat: this is no Gmsh file of version 2.2 or 4.1')
    edit('nodes too few', '$Nodes\n12\n', '$Nodes\n13\n', ':22: node number and three coordinates expected')
    edit('nodes too many', '$Nodes\n12\n', '$Nodes\n11\n', ':21: $EndNodes expected: the section is longer than it says')
    edit('elements too few', '$Elements\n11\n', '$Elements\n12\n', ':36: element number, type, tags and nodes expected')
    edit('elements too many', '$Elements\n11\n', '$Elements\n10\n', ':35: $EndElements expected: the section is longer than it says')
    edit('element short', '3 2 2 0 1 3 1 2\n', '3 2 2 0 1 3 1\n', ':27: element 3 (3-node triangle): 2 nodes, and it needs 3')
    edit('element long', '3 2 2 0 1 3 1 2\n', '3 2 2 0 1 3 1 2 4\n', ':27: element 3 (3-node triangle): 4 nodes, and it needs 3')
    edit('no number', '3 2 2 0 1 3 1 2\n', '3 2 2 0 1 3 1 x\n', ":27: element number, type, tags and nodes: 'x' is no whole number")
    edit('number with a bar', '\n12\n', '\n1_2\n', ":9: count of nodes: '1_2' is no whole number")
    edit('cut', '$EndElements\n', '', ':35: the file ends too early')
    edit('section without end', '$EndPhysicalNames\n', '', ':4: $PhysicalNames has no $EndPhysicalNames')
    edit('stray line', '$Nodes\n', 'hello\n$Nodes\n', ':8: a section was expected, such as $Nodes')
    converts(c, 'gmsh: a comment first', 'a.msh', '$Comments\nby hand\n$EndComments\n' + data('kinds22.msh'), KINDS)
    fails(c, 'gmsh: version 1', 'a.msh', '$NOD\n1\n1 0 0 0\n$ENDNOD\n',
          ':1: $NOD comes before $MeshFormat: this is no Gmsh file of version 2.2 or 4.1')
    fails(c, 'gmsh: empty file', 'a.msh', '', ': no $MeshFormat: this is no Gmsh file of version 2.2 or 4.1')


def new_form(c):
    """Mistakes in the form, version 4.1."""
    def edit(name, old, new, message):
        fails(c, 'gmsh 4.1: ' + name, 'a.msh', edited('kinds41.msh', (old, new)), message)
    edit('count of nodes', '2 12 1 12', '2 13 1 12', ':9: 13 nodes announced, 12 found')
    edit('count of elements', '11 11 1 11', '11 10 1 11', ':38: 10 elements announced, 11 found')
    edit('block short', '2 1 0 5', '2 1 0 6', ':16: node number expected')
    edit('kind', '2 1 16 1', '2 1 10 1', ':58: element 10 (9-node quadrangle): 8 nodes, and it needs 9')
    edit('no such node', '2 2 1 \n', '2 2 13 \n', ':42: element 2 (2-node line): there is no node 13')
    edit('cut', '$EndElements\n', '', ':60: the file ends too early')
