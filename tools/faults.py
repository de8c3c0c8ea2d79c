"""All faults of a mesh file: of a GRD file, where the first is the one that the program refuses it by, and of the other formats."""

import counts
import grd
from files import Source
from grd import Refusal
from model import Fault, mesh_of, test_element, test_gaps, test_nodes
from to_grd import model_of


# GRD, in the order in which the program meets them.

def of_grd(data):
    """A list of refusals; an empty one for a legal file."""
    try:
        grd.test_header(data)
    except Refusal as refusal:
        # what follows a wrong length, mark or version can't be told
        return [refusal]
    n, count = grd.word_at(data, 5), grd.word_at(data, 7)
    found = []
    if n == 0 or n > grd.MOST_NODES:
        found.append(Refusal(1, 'the file says %d nodes' % n))
    try:
        unknowns = grd.counts_in(data, n)
    except Refusal as refusal:
        # no element follows
        return found + [refusal]
    found += grd.count_refusals(unknowns)
    elements, at = [], grd.elements_at(n, unknowns)
    for position in range(1, count + 1):
        name = 'element %d (byte %d)' % (position, at)
        try:
            kind, nodes, at = element_at(data, at, name)
        except Refusal as refusal:
            # without its kind or its end nobody knows where the next element begins
            return found + [refusal]
        wrong = list(node_faults(n, nodes, '%s, a %s,' % (name, grd.KINDS[kind][0])))
        found += wrong
        elements += [] if wrong else [(kind, nodes)]
    if at < len(data):
        found.append(Refusal(12, 'bytes left over after the last element: %d' % (len(data) - at)))
    return found + entry_faults(grd.Mesh(n, elements))


def element_at(data, at, name):
    """Kind and nodes of the element that begins at this byte, and the byte after it."""
    if at + 2 > len(data):
        raise Refusal(12, 'the file ends before ' + name)
    kind = grd.word_at(data, at)
    if kind not in grd.KINDS:
        raise Refusal(9, '%s has kind %d' % (name, kind))
    end = at + grd.element_bytes(kind)
    if end > len(data):
        raise Refusal(12, 'the file ends within %s, a %s' % (name, grd.KINDS[kind][0]))
    return kind, [grd.word_at(data, t) for t in range(at + 2, end, 2)], end


def node_faults(n, nodes, name):
    """One for each node that is wrong."""
    for p in dict.fromkeys(nodes):
        if p == 0 or p > n:
            yield Refusal(10, '%s has node %d, and the nodes are 1 to %d' % (name, p, n))


def entry_faults(mesh):
    try:
        grd.test_entries(mesh)
    except Refusal as refusal:
        return [refusal]
    return []


# The other formats: what the reader meets, in the order of the lines, then what the nodes and elements have.

def of_source(path, options):
    """A list of faults; the first is the one that a conversion ends by."""
    found = []
    try:
        counts.counter(options)
        model = model_of(Source(path, found), options.format, options.ignore)
    except Fault as fault:
        # what follows can't be told
        return found + [fault]
    return found + of_model(model, options, not found)


def of_model(model, options, whole):
    """Where something was not read, a missing node may be just that, and is not told."""
    found = attempted(test_nodes, model)
    for element in model.elements if whole else ():
        found += attempted(test_element, model, element)
    if not options.compact:
        found += attempted(test_gaps, model, sorted(model.nodes))
    return found or attempted(mesh_of, model, options.compact, options.drop_inner, counts.counter(options)) if whole else found


def attempted(test, *words):
    try:
        test(*words)
    except Fault as fault:
        return [fault]
    return []
