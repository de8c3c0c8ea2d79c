"""CalculiX and Abaqus .inp files: the keywords *NODE and *ELEMENT, the files that *INCLUDE takes in, and node sets where one is asked for.

Every other keyword must be known to join nothing: a misspelt *ELEMENT is refused, not passed over.
"""

import re
from collections import namedtuple
from string import ascii_uppercase

import grd
import known
from model import Fault, Model, Stop, integer, line_name, squeezed
from places import point, turned
from sets import Sets, node_named, nodes_within

# Element types by GRD kind. Letters behind the last digit (R, I, H, M, T ..) stand for no further node and are left out here.
TYPES = {
    1: 'B21 B23 B31 B33 PIPE21 PIPE31 ELBOW31 T2D2 T3D2 SAX1 MAX1 MGAX1 DSAX1 DC1D2 AC1D2 R2D2 RAX2 RB2D2 RB3D2 '
       'SPRINGA SPRING2 DASHPOTA DASHPOT2 GAPUNI GAPCYL GAPSPHER JOINTC CONN2D2 CONN3D2',
    2: 'S3 DS3 STRI3 CPS3 CPE3 CAX3 CGAX3 M3D3 SFM3D3 R3D3 DC2D3 DCAX3 AC2D3 ACAX3',
    3: 'S4 S4R5 DS4 CPS4 CPE4 CAX4 CGAX4 M3D4 SFM3D4 R3D4 DC2D4 DCAX4 AC2D4 ACAX4 SHEAR4 COH2D4 COHAX4',
    4: 'C3D4 DC3D4 AC3D4 F3D4',
    5: 'C3D5 DC3D5 AC3D5',
    6: 'C3D6 DC3D6 AC3D6 F3D6 SC6 COH3D6',
    7: 'C3D8 DC3D8 AC3D8 F3D8 SC8 COH3D8',
    8: 'S6 DS6 STRI65 CPS6 CPE6 CAX6 CGAX6 M3D6 SFM3D6 DC2D6 DCAX6 AC2D6 ACAX6',
    9: 'S8 S8R5 DS8 CPS8 CPE8 CAX8 CGAX8 M3D8 SFM3D8 DC2D8 DCAX8 AC2D8 ACAX8',
    10: 'C3D10 DC3D10 AC3D10',
}
# Types that GRD has no kind for: the least and the most nodes, as the nodes in the middle of some faces may be missing, and the kind with the
# same corners.
OTHER_TYPES = {
    (3, 3, 1): 'B22 B32 PIPE22 PIPE32 ELBOW32 T2D3 T3D3 SAX2 MAX2 MGAX2 DSAX2 DC1D3 AC1D3',
    (9, 9, 3): 'S9R5 CPS9 CPE9 M3D9 SFM3D9',
    (13, 13, 5): 'C3D13', (14, 14, 5): 'C3D14',
    (15, 15, 6): 'C3D15 DC3D15 AC3D15', (15, 18, 6): 'C3D15V C3D15VH', (18, 18, 6): 'C3D18',
    (20, 20, 7): 'C3D20 DC3D20 AC3D20', (21, 27, 7): 'C3D27',
}

# kind: the GRD kind, or None where GRD has none
Type = namedtuple('Type', 'kind least most shape')
TYPE = {name: Type(kind, grd.KINDS[kind][1], grd.KINDS[kind][1], kind) for kind, names in TYPES.items() for name in names.split()}
TYPE.update((name, Type(None, *rest)) for rest, names in OTHER_TYPES.items() for name in names.split())

# Elements of one node join nothing.
POINTS = set('MASS ROTARYI SPRING1 DASHPOT1 HEATCAP'.split())

# Keywords that make nodes or elements, or join nodes, in a way that GRD has no place for.
OUTSIDE = {name: what for what, names in {
    'makes nodes': 'NGEN, NFILL, NCOPY',
    'changes nodes': 'NMAP',
    'makes elements': 'ELGEN, ELCOPY, SYMMETRIC MODEL GENERATION',
    'changes the mesh': 'REFINE MESH, ADAPTIVE MESH REFINEMENT',
    'takes another model': 'IMPORT',
    'adds unknowns': 'ENRICHMENT',
    'joins nodes': 'EQUATION, MPC, NETWORK MPC, TIE, RIGID BODY, RIGID SURFACE, COUPLING, KINEMATIC COUPLING, DISTRIBUTING COUPLING, '
                   'SHELL TO SOLID COUPLING, EMBEDDED ELEMENT, CONTACT, CONTACT PAIR, SLIDE LINE, BOND, FASTENER, PRE-TENSION SECTION, '
                   'CYCLIC SYMMETRY MODEL, PERIODIC MEDIA, MATRIX INPUT, MATRIX ASSEMBLE, FLUID CAVITY, FLUID EXCHANGE',
    'joins faces': 'EQUATIONF, CAVITY DEFINITION',
    'may join faces that see one another': 'RADIATE',
}.items() for name in known.names(names)}

MEMBER = re.compile('[0-9]{1,18}')

# data: pairs of a line and its text
Block = namedtuple('Block', 'line name parameters data')


def read(source, ignore=()):
    """The model of the file and of those that it takes in."""
    model, seen, once, moved, members, scope = Model(ignore), {}, set(), False, {}, ''
    model.sets = Sets()
    for block in blocks(source):
        with source.each():
            name = squeezed(block.name)
            # a part's sets and the assembly's may have the same names
            scope = {'PART': 'part', 'ENDPART': ''}.get(name, scope)
            note_set(block, model, scope)
            # a system of its own for the nodes that follow
            moved = bool(block.data) if name == 'SYSTEM' else moved
            if name in ('PART', 'INSTANCE'):
                test_once(block, once)
            elif name == 'NODE':
                read_nodes(source, block, model, moved)
            elif name == 'ELEMENT':
                read_elements(source, block, model, seen)
            elif name == 'ELSET':
                members.update(set_members(block))
            elif name in OUTSIDE:
                model.leave_out(block.line, block.name, '*%s %s, and GRD has no place for that' % (block.name, OUTSIDE[name]))
            elif name not in known.ABAQUS:
                model.leave_out(block.line, block.name, '*%s is not known, and might join nodes' % block.name)
    for number, line in members.items():
        with source.each():
            test_member(number, line, model, seen)
    return model


def read_nodes(source, block, model, moved):
    system = upper(block.parameters.get('SYSTEM', ''))
    for line, text in block.data:
        with source.each():
            number, *words = text.split(',')
            model.add_node(integer(number, line, 'node number'), line, None if moved else turned(system, point(words)))


def test_once(block, once):
    """One part, in its place once: each further one has the same numbers again."""
    if block.name in once:
        raise Stop(block.line, 'a second *%s: node numbers start again in each; write the model without parts' % block.name)
    once.add(block.name)
    if 'LIBRARY' in block.parameters:
        raise Stop(block.line, '*%s takes another model, and GRD has no place for that' % block.name)


# Node sets.

def note_set(block, model, scope):
    """The set that the nodes of *NODE go to, or that *NSET gives."""
    set_name = block.parameters.get('NSET')
    if set_name and block.name == 'NODE':
        model.sets.add(set_name, block.line, lambda: first_numbers(block), scope)
    elif set_name and block.name == 'NSET':
        model.sets.add(set_name, block.line, lambda: set_numbers(block, model, set_name), scope)


def first_numbers(block):
    return {integer(text.split(',')[0], line, 'node number') for line, text in block.data}


def set_numbers(block, model, name):
    """The nodes of a *NSET: numbers and names of other sets, or ranges."""
    if 'ELSET' in block.parameters:
        raise Stop(block.line, 'set %s is made of a set of elements, and that is not read' % name)
    found = set()
    for line, text in block.data:
        words = [word.strip().strip('"\'') for word in text.split(',') if word.strip()]
        if 'GENERATE' in block.parameters:
            found |= generated(words, line, model, name)
            continue
        for word in words:
            found |= {node_named(model, int(word), line, name)} if MEMBER.fullmatch(word) else model.sets.named(word)
    return found


def generated(words, line, model, name):
    """First, last and step of a range, which may have gaps."""
    numbers = [integer(word, line, 'set %s' % name) for word in words] + [1] * (len(words) == 2)
    if len(numbers) != 3 or numbers[2] < 1:
        raise Fault(line, 'set %s: a range has first, last and step' % name)
    return nodes_within(model, *numbers)


# Keywords.

def statements(source, lines):
    """Keywords on one line each and data lines: pairs of a line and its text. Included files stand in their keyword's place."""
    waiting = ''
    for line, text in lines:
        text = text.strip()
        if not text or text.startswith('**'):
            continue
        if waiting or text.startswith('*'):
            waiting += text
            # a keyword line that ends with a comma goes on
            if waiting.endswith(','):
                continue
            text, waiting = waiting, ''
            block = keyword(line, text)
            if block.name == 'INCLUDE':
                yield from statements(source, taken_in(source, block))
                continue
        yield line, text
    if waiting:
        raise Fault(line, 'the file ends within a keyword')


def taken_in(source, block):
    """The lines of the file behind INPUT=."""
    if not block.parameters.get('INPUT'):
        raise Fault(block.line, '*%s without INPUT=' % block.name)
    return source.included(block.line, block.parameters['INPUT'])


def blocks(source):
    """Each keyword with its parameters and data lines, those of a file behind INPUT= first."""
    block = None
    for line, text in statements(source, source.lines()):
        if text.startswith('*'):
            if block:
                yield block
            block = keyword(line, text)
            if block.name in ('NODE', 'ELEMENT') and 'INPUT' in block.parameters:
                block.data.extend(data_lines(source, block))
        elif block:
            block.data.append((line, text))
        else:
            raise Fault(line, 'data before the first keyword')
    if block:
        yield block


def data_lines(source, block):
    for line, text in statements(source, taken_in(source, block)):
        if text.startswith('*'):
            raise Fault(line, 'a keyword in a file of data lines')
        yield line, text


def keyword(line, text):
    name, *rest = text[1:].split(',')
    parameters = {}
    for word in rest:
        key, _, value = word.partition('=')
        # a file's name keeps its case
        parameters[upper(key)] = value.strip().strip('"\'')
    return Block(line, upper(name), parameters, [])


def upper(text):
    """Capitals with single spaces: case and spaces mean nothing in keywords."""
    return ' '.join(text.upper().split())


# Elements.

def type_of(name):
    """The element type, or None."""
    return TYPE.get(name, TYPE.get(name.rstrip(ascii_uppercase)))


def read_elements(source, block, model, seen):
    type_name = upper(block.parameters.get('TYPE', ''))
    if not type_name:
        raise Fault(block.line, '*ELEMENT without TYPE=')
    if type_of(type_name):
        add_elements(source, block, type_name, model, seen)
        return
    if type_name in POINTS:
        model.points += len(block.data)
    else:
        model.leave_out(block.line, type_name, 'element type %s is not known' % type_name)
    model.unread.update(text.split(',')[0].strip() for _, text in block.data)


def set_members(block):
    """The element numbers that a set names, each with its line. A range may have gaps."""
    if 'GENERATE' in block.parameters:
        return {}
    return {int(word): line for line, text in block.data for word in map(str.strip, text.split(',')) if MEMBER.fullmatch(word)}


def test_member(number, line, model, seen):
    """Gmsh leaves elements out that it has no type for, and names them in sets all the same."""
    if number not in seen and str(number) not in model.unread:
        model.leave_out(line, 'ELSET', 'the set names element %d, which is not in the file' % number)


def add_elements(source, block, type_name, model, seen):
    for line, numbers in records(block.data, type_of(type_name).most + 1):
        with source.each():
            add_element(line, numbers, type_name, model, seen)


def add_element(line, numbers, type_name, model, seen):
    kind, least, most, shape = type_of(type_name)
    name, count = 'element %d (%s)' % (numbers[0], type_name), len(numbers) - 1
    if not least <= count <= most:
        wanted = '%d' % least if least == most else '%d to %d' % (least, most)
        hint = '; a line that goes on ends with a comma' if count < least else ''
        raise Fault(line, '%s: %d nodes, and it needs %s%s' % (name, count, wanted, hint))
    if numbers[0] in seen:
        raise Fault(line, '%s is given twice, first on %s' % (name, line_name(seen[numbers[0]], line)))
    seen[numbers[0]] = line
    model.add_element(kind, corners_first(shape, numbers[1:]), line, name, shape)


def corners_first(shape, nodes):
    """The nodes with the corners first: the middle one of a line of three stands between its ends."""
    return [nodes[0], nodes[2], nodes[1]] if shape == 1 and len(nodes) == 3 else nodes


def records(data, size):
    """Lines joined to one list of numbers for each element; a short one that ends with a comma goes on."""
    start, numbers = 0, []
    for line, text in data:
        if not numbers:
            start = line
        numbers += [integer(word, line, 'element or node number') for word in text.split(',') if word.strip()]
        if text.endswith(',') and len(numbers) < size:
            continue
        yield start, numbers
        numbers = []
    if numbers:
        yield start, numbers
