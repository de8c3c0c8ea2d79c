"""What every input format is read into, and the tests on the way from there to a GRD mesh."""

import re
from collections import namedtuple

import cover
import grd

WHOLE = re.compile(r'[+-]?[0-9]{1,18}')

# kind: the GRD kind, or None where GRD has none; name: as a message calls it, such as 'element 7 (CQUAD4)';
# shape: a kind with the same corners, which are the element's first nodes
Element = namedtuple('Element', 'kind nodes line name shape')


class Line(int):
    """The number of a line, with the files around it: the last is its own, and each one before takes in the next."""

    def __new__(cls, number, files):
        line = super().__new__(cls, number)
        line.files = files
        return line


def file_of(line):
    """The file that a line stands in, or None for the command's first file."""
    return line.files[-1] if isinstance(line, Line) else None


def line_name(line, near):
    """As a message about a line near it says it."""
    return 'line %d' % line if file_of(line) == file_of(near) else 'line %d of %s' % (line, file_of(line))


class Fault(Exception):
    """A mistake in a file; line 0 stands for the file as a whole. Without a path it is the line's file, or the command's first."""

    # the exit status of the command
    status = 1

    def __init__(self, line, text, path=None):
        super().__init__(text)
        self.line = line
        self.path = path or file_of(line)

    def message(self, path):
        place = '%s:%d' % (self.path or path, self.line) if self.line else self.path or path
        return '%s: %s' % (place, self)


class Stop(Fault):
    """Something that is no mistake, but not understood or not allowed: nothing is done."""

    status = 2


def squeezed(name):
    """A keyword as it is compared: in capitals, without blanks and the mark before it."""
    return ''.join(name.upper().split()).lstrip('*$')


class Model:
    """Nodes by their numbers in the input, each with its line; elements in the input's order."""

    def __init__(self, ignore=()):
        self.nodes = {}
        # coordinates by node number; None, or no entry, where they aren't known
        self.places = {}
        self.elements = []
        # elements of one node: they join nothing, so GRD needs none
        self.points = 0
        # numbers, as words, of elements that are left out for what they are
        self.unread = set()
        # elements taken out again, as others hold their nodes
        self.dropped = 0
        # node sets by name, from a format that has them (sets.py)
        self.sets = None
        # what the user lets be left out, and how often each was met
        self.ignored = {squeezed(name): 0 for name in ignore}

    def add_node(self, number, line, place=None):
        if number < 1:
            raise Fault(line, 'node %d: numbers start at 1' % number)
        if number in self.nodes:
            raise Fault(line, 'node %d is given twice, first on %s' % (number, line_name(self.nodes[number], line)))
        self.nodes[number] = line
        self.places[number] = place

    def add_element(self, kind, nodes, line, name, shape=None):
        self.elements.append(Element(kind, nodes, line, name, shape or kind))

    def leave_out(self, line, name, text):
        """A thing that may join nodes and is not read. The user alone may leave it out."""
        if squeezed(name) not in self.ignored:
            shown = "'%s'" % name if ' ' in name else name
            raise Stop(line, '%s; --ignore %s leaves it out' % (text, shown))
        self.ignored[squeezed(name)] += 1

    def nodes_from_elements(self):
        """For a file that gives elements alone: the nodes are those that they name."""
        for element in self.elements:
            for number in element.nodes:
                if number not in self.nodes:
                    self.add_node(number, element.line)


def integer(text, line, what):
    # int alone would take 1_000 too, and no bound
    word = text.strip()
    if not WHOLE.fullmatch(word):
        raise Fault(line, '%s: %r is no whole number' % (what, word))
    return int(word)


# From a model to a mesh.

def mesh_of(model, compact, drop=False, counter=None):
    """The mesh, and the list of input numbers in the order of the mesh's 1 to n. Elements within others go where asked, or the file is too long;
    the counter (counts.py) gives the unknowns of the nodes by the elements that the file has."""
    test_nodes(model)
    for element in model.elements:
        test_element(model, element)
    numbers = sorted(model.nodes)
    if not compact:
        test_gaps(model, numbers)
    counts = counter(model, numbers) if counter else None
    start = grd.elements_at(len(numbers), counts)
    if drop or too_long(model, start):
        drop_inner(model)
    test_length(model, start)
    place = {number: i for i, number in enumerate(numbers, 1)}
    mesh = grd.Mesh(len(numbers), [(kind, [place[p] for p in nodes]) for e in model.elements for kind, nodes in records(e)], counts)
    try:
        grd.test_entries(mesh)
    except grd.Refusal as refusal:
        raise Fault(0, 'the program would refuse this mesh: ' + str(refusal)) from None
    return mesh, numbers


def records(element):
    """The element as GRD has it: one record of its kind, or several in which the same nodes adjoin."""
    return [(element.kind, element.nodes)] if element.kind else cover.records(element.nodes)


def length(element):
    return sum(grd.element_bytes(kind) for kind, _ in records(element))


def too_long(model, start):
    """Whether the elements, from this byte on, run past the greatest length."""
    return start + sum(length(element) for element in model.elements) > grd.MOST_BYTES


def test_nodes(model):
    if not model.elements:
        raise Fault(0, 'no elements found')
    if len(model.nodes) > grd.MOST_NODES:
        line = list(model.nodes.values())[grd.MOST_NODES]
        raise Fault(line, '%d nodes, and GRD has room for %d: this is the first too many' % (len(model.nodes), grd.MOST_NODES))


def test_length(model, start):
    size = start
    for element in model.elements:
        size += length(element)
        if size > grd.MOST_BYTES:
            raise Fault(element.line, '%s is the first that does not fit: a GRD file has at most %d bytes' % (element.name, grd.MOST_BYTES))


def test_element(model, element):
    for number in element.nodes:
        if number not in model.nodes:
            raise Fault(element.line, '%s: there is no node %d' % (element.name, number))


def test_gaps(model, numbers):
    for wanted, number in enumerate(numbers, 1):
        if number != wanted:
            missing = 'number %d' % wanted if number == wanted + 1 else 'numbers %d to %d' % (wanted, number - 1)
            raise Fault(model.nodes[number], 'node %d comes after a gap: no node has %s; --compact closes gaps' % (number, missing))


# Elements within others.

def drop_inner(model):
    """Take out each element whose nodes all lie in another one: the same nodes adjoin without it."""
    within, kept = {}, set()
    distinct = [set(element.nodes) for element in model.elements]
    # the largest first; of two with the same nodes the earlier one stays
    for place in sorted(range(len(distinct)), key=lambda i: -len(distinct[i])):
        nodes = distinct[place]
        # whatever holds all the nodes holds each of them
        if not any(nodes <= other for other in min((within.get(p, []) for p in nodes), key=len)):
            kept.add(place)
            for p in nodes:
                within.setdefault(p, []).append(nodes)
    model.dropped = len(model.elements) - len(kept)
    model.elements = [element for i, element in enumerate(model.elements) if i in kept]
