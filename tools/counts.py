"""How many unknowns each node of a mesh has, as the user says it: for all nodes, by the kinds of elements, by node sets.

  --unknowns N            each element gives its nodes N, and so has a node in no element
  --unknowns KIND=N       an element of this kind gives N instead
  --unknowns-set NAME=N   the nodes of this set have N, whatever their elements give

A node has the greatest count that one of its elements gives. Where an element has two of the kinds, as it is a quadrilateral and a CQUAD4, the
later word rules, as the later set does where a node is in two.
"""

import re
from collections import namedtuple

import grd
from model import Fault, Stop, squeezed

# every: the count for all, or None; kinds and sets: pairs of a name and a count, in the user's order
Wanted = namedtuple('Wanted', 'every kinds sets')

COUNT = re.compile('[0-9]{1,9}')


def add_options(parser):
    parser.add_argument('--unknowns', action='append', default=[], metavar='[KIND=]N',
                        help='so many unknowns to a node, 1 to 6: of each element, or of those of this kind')
    parser.add_argument('--unknowns-set', action='append', default=[], metavar='NAME=N', help='so many unknowns to a node of this set')


def wanted(options):
    """What the options say, or None where they say nothing: then the mesh has no counts."""
    if not options.unknowns and not options.unknowns_set:
        return None
    kinds = [pair('--unknowns', word) for word in options.unknowns]
    sets = [pair('--unknowns-set', word) for word in options.unknowns_set]
    every = [count for name, count in kinds if not name]
    if len(every) > 1:
        raise Stop(0, 'a count for all nodes is given twice', '--unknowns')
    for name, _ in sets:
        if not name:
            raise Stop(0, 'needs a name and a count, as NAME=3', '--unknowns-set')
    return Wanted(every[0] if every else None, [one for one in kinds if one[0]], sets)


def pair(option, word):
    """Name and count of a word, such as CQUAD4=6 or 6, which has no name."""
    name, sign, text = word.rpartition('=')
    place = '%s %s' % (option, word)
    if sign and not name.strip():
        raise Stop(0, 'there is no name before the =', place)
    if not COUNT.fullmatch(text.strip()):
        raise Stop(0, '%r is no count of unknowns' % text.strip(), place)
    if not 1 <= int(text) <= grd.MOST_UNKNOWNS:
        raise Stop(0, 'a node has 1 to %d unknowns' % grd.MOST_UNKNOWNS, place)
    return name.strip(), int(text)


def counter(options):
    """What mesh_of asks for counts, or None."""
    asked = wanted(options)
    return asked and (lambda model, numbers: counts_of(model, asked, numbers))


def words(options):
    """The options as words of a command line."""
    made = []
    for option, given in (('--unknowns', options.unknowns), ('--unknowns-set', options.unknowns_set)):
        for word in given:
            made += [option, word]
    return made


# Elements.

def kind_name(shape, count):
    """Such as 'brick' or '20-node brick'."""
    name, nodes = grd.KINDS[shape]
    return name if count == nodes else '%d-node %s' % (count, name.split()[-1])


def names_of(element):
    """What an element's kind may be called: as GRD does, and as its own format does, which stands in brackets in its name."""
    own = re.search(r'\((.*)\)$', element.name)
    return [kind_name(element.shape, len(element.nodes))] + ([own.group(1)] if own else [])


def test_kinds(model, asked):
    """Each kind that is asked for must be there."""
    there = {name for element in model.elements for name in names_of(element)}
    known = {squeezed(name) for name in there}
    for name, _ in asked.kinds:
        if squeezed(name) not in known:
            raise Fault(0, 'no element is of kind %s; there are: %s' % (name, ', '.join(sorted(there))))


def by_element(model, asked):
    """The greatest count that an element gives each node, for those that get one."""
    given = {squeezed(name): (place, count) for place, (name, count) in enumerate(asked.kinds)}
    found = {}
    for element in model.elements:
        met = [given[squeezed(name)] for name in names_of(element) if squeezed(name) in given]
        count = max(met)[1] if met else asked.every
        for number in element.nodes if count else ():
            found[number] = max(found.get(number, 0), count)
    return found


# Counts.

def counts_of(model, asked, numbers):
    """The counts of the nodes with these numbers, in their order."""
    test_kinds(model, asked)
    found = by_element(model, asked)
    for name, count in asked.sets:
        for number in model.sets.named(name):
            found[number] = count
    for number in numbers:
        if number not in found and asked.every is None:
            raise Fault(model.nodes[number],
                        'node %d has no count of unknowns by its elements or sets; --unknowns N gives one to all others' % number)
    return [found.get(number, asked.every) for number in numbers]
