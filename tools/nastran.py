"""NASTRAN bulk data: connection cards in free, small (8 columns) and large (16 columns) field, the files that INCLUDE takes in, and sets of grid
points where one is asked for: SET of the case control, SET1 and SET3.

As in source document 004, a continuation stands right behind its parent card. Every other card must be known to join nothing.
"""

import re
from collections import namedtuple

import known
from model import Fault, Model, Stop, integer, line_name
from places import point
from sets import Sets, node_named, nodes_within
from systems import KINDS, Systems

# A card's nodes: their fields (field 1 is the element's number), how many of them it must have, and the GRD kind with the same corners.
Nodes = namedtuple('Nodes', 'fields least shape')
CARDS = {name: Nodes(fields, least, shape) for names, fields, least, shape in (
    ('CBAR CBEAM CROD CTUBE CBEND CVISC CGAP', (3, 4), 2, 1),
    ('CONROD', (2, 3), 2, 1),
    ('CBEAM3', (3, 4, 5), 2, 1),
    ('CTRIA3 CTRIAR CPLSTN3 CPLSTS3 CTRAX3 CTRIA1 CTRIA2 CTRMEM CTRPLT CTRBSC', range(3, 6), 3, 2),
    ('CTRIA6 CTRIAX CPLSTN6 CPLSTS6 CTRAX6', range(3, 9), 3, 2),
    ('CTRIAX6', (3, 5, 7, 4, 6, 8), 3, 2),
    ('CQUAD4 CQUADR CSHEAR CPLSTN4 CPLSTS4 CQUADX4 CQUAD1 CQUAD2 CQDMEM CQDMEM1 CQDMEM2 CQDPLT CTWIST', range(3, 7), 4, 3),
    ('CQUAD8 CPLSTN8 CPLSTS8 CQUADX8', range(3, 11), 4, 3),
    ('CQUAD CQUADX CQUAD9', range(3, 12), 4, 3),
    # Gmsh writes solids with nodes in the middle of faces too: 14, 18 and 27 in all
    ('CTETRA', range(3, 13), 4, 4),
    ('CPYRAM CPYRA', range(3, 17), 5, 5),
    ('CPENTA', range(3, 21), 6, 6),
    ('CHEXA', range(3, 30), 8, 7),
    ('CWEDGE', range(3, 9), 6, 6),
    ('CHEXA1 CHEXA2', range(3, 11), 8, 7),
    # springs, dampers and masses: with one node they stand on the ground
    ('CBUSH CBUSH1D CBUSH2D', (3, 4), 1, 1),
    ('CELAS1 CELAS2 CDAMP1 CDAMP2 CMASS1 CMASS2', (3, 5), 0, 1),
) for name in names.split()}

# Cards with room for a second element behind the first, as NASTRAN had them in document 004's time.
TWO = {'CROD', 'CTUBE', 'CVISC'}
FIELDS_OF_ONE = 4

# Fields behind the nodes of a shell that hold a real number or nothing: a whole number there is a node of a larger shell under a wrong name.
REAL = {name: fields for names, fields in (
    ('CTRIA3 CTRIAR', (7, 8)), ('CQUAD4 CQUADR', (8,)), ('CTRIA6', (10, 11, 12, 13)), ('CQUAD8', (11, 12, 13, 14, 16)),
    ('CTRIA1 CTRIA2 CTRMEM CTRPLT CTRBSC', (6, 7, 8)), ('CSHEAR CQUAD1 CQUAD2 CQDMEM CQDMEM1 CQDMEM2 CQDPLT CTWIST', (7, 8)),
) for name in names.split()}

# Solids have nothing behind their nodes.
SOLIDS = (4, 5, 6, 7)

# The GRD kind of a shape with so many nodes; other counts have none.
KIND = {(1, 2): 1, (2, 3): 2, (3, 4): 3, (4, 4): 4, (5, 5): 5, (6, 6): 6, (7, 8): 7, (2, 6): 8, (3, 8): 9, (4, 10): 10}

# Masses of one node.
POINTS = {'CONM1', 'CONM2'}

# Others that join points, or make points of their own.
JOINS = set('RBE1 RBE2 RBE3 RBAR RBAR1 RROD RJOINT RSPLINE RSSCON RTRPLT RTRPLT1 MPC MPCY MPCAX GENEL SPOINT EPOINT DMIG DMIAX TF CWELD CFAST '
            'CSEAM CELAS3 CELAS4 CDAMP3 CDAMP4 CMASS3 CMASS4 BCTABLE BCTABL1 BCONECT BCTSET BCTADD BGSET BGADD BCONP BCBODY BCBODY1 BOLT '
            'CYJOIN CONV CONVM RADBC CHBDYE CHBDYG CHBDYP SECONCT CSUPER CSUPEXT'.split())

# Warping points of a beam: fields 17 and 18.
WARPING = (17, 18)

Card = namedtuple('Card', 'line name fields')

# A set of the case control; a line that ends with a comma goes on.
SET = re.compile(r'\s*SET\s+([0-9]+)\s*=(.*)', re.IGNORECASE)


def read(source, ignore=()):
    """The model of the file and of those that it takes in. Without a GRID card the nodes are those that the elements name."""
    model, seen, systems = Model(ignore), {}, Systems()
    model.sets = Sets()
    control, data = parted(source)
    note_control(control, model)
    for card in cards(bulk(data)):
        with source.each():
            read_card(card, model, seen)
            note_place(card, systems)
            note_set(card, model)
    systems.settle(model.places)
    if not model.nodes:
        model.nodes_from_elements()
    return model


def read_card(card, model, seen):
    if card.name == 'GRID':
        model.add_node(node(card, 1), card.line, point(card.fields[2:5]))
    elif card.name in CARDS:
        add_element(card, model, seen)
        second = card.fields[FIELDS_OF_ONE:]
        if card.name in TWO and any(second):
            add_element(card._replace(fields=second), model, seen)
    elif card.name in POINTS:
        model.points += 1
    elif card.name in JOINS:
        model.leave_out(card.line, card.name, 'card %s: GRD has no kind for it' % card.name)
    elif card.name not in known.NASTRAN:
        model.leave_out(card.line, card.name, 'card %s is not known, and might join nodes' % card.name)


def parted(source):
    """Lines with their numbers, without comments: those before BEGIN BULK, and those after it; all where there is none."""
    lines = list(with_included(source, source.lines()))
    begins = [i for i, (_, text) in enumerate(lines) if text.upper().split()[:2] == ['BEGIN', 'BULK']]
    return (lines[:begins[0]], lines[begins[0] + 1:]) if begins else ([], lines)


def bulk(lines):
    """The lines up to ENDDATA that hold something."""
    for line, text in lines:
        # some programs write a checksum behind it
        if text.upper().split()[:1] == ['ENDDATA']:
            return
        if text.strip():
            yield line, text


def with_included(source, lines):
    """The lines without comments, those of an included file in the place of INCLUDE."""
    for line, text in lines:
        text = text.split('$')[0].rstrip().expandtabs(8)
        if text.upper().split()[:1] == ['INCLUDE']:
            yield from with_included(source, source.included(line, included_name(line, text.strip()[7:].strip())))
        else:
            yield line, text


def included_name(line, text):
    """The name behind INCLUDE, mostly in quotes."""
    quote = text[:1]
    if quote in ('"', "'") and len(text) > 2 and text.find(quote, 1) == len(text) - 1:
        return text[1:-1]
    if not text or quote in ('"', "'"):
        raise Fault(line, 'INCLUDE needs a file name, whole and on its line')
    return text


# Cards from lines.

def cards(lines, read=frozenset(CARDS)):
    """Each card with the fields of all its lines, continuation marks left out. Of the cards of these names every field is read."""
    card, mark = None, ''
    for line, text in lines:
        name, fields, next_mark = split(line, text)
        if name[:1] in ('', '+', '*'):
            if card is None:
                raise Fault(line, 'a continuation without a card before it')
            go_on(card, mark, line, name, fields, read)
        else:
            if card:
                yield ended(card, mark, read)
            card = Card(line, name.rstrip('*').rstrip().upper(), fields)
        test_room(card, line, name, fields, read)
        mark = next_mark
    if card:
        yield ended(card, mark, read)


def test_room(card, line, name, fields, read):
    """A card that is read must have no fields beyond its line; others, such as equations, may."""
    room = 4 if large(name) else 8
    if len(fields) > room and (card.name in read or card.name == 'GRID'):
        raise Fault(line, '%d fields in a line, and it has room for %d' % (len(fields) + 1, room + 2))


def go_on(card, mark, line, name, fields, read):
    """The fields of one more line."""
    if card.name in read and label(mark) and label(name) and label(mark) != label(name):
        raise Fault(line, 'continuation %s does not follow its card, which ends with %s' % (name, mark))
    if not large(name):
        # the second half of a large-field pair may be left out
        card.fields.extend([''] * (-len(card.fields) % 8))
    card.fields.extend(fields)


def ended(card, mark, read):
    """A card that is read must have the continuation that it asks for: without it a wedge of 15 nodes would pass for one of 6."""
    if card.name in read and mark[:1] in ('+', '*') and label(mark):
        raise Fault(card.line, 'card %s ends with %s, and its continuation does not follow' % (card.name, mark))
    return card


def label(mark):
    return mark.lstrip('+*').strip()


def large(name):
    """Large field: a star behind the card's name or before the continuation's mark."""
    return '*' in name


def split(line, text):
    """Name, data fields and continuation mark of one line."""
    if text.upper().split()[0] == 'BEGIN':
        return 'BEGIN', [], ''
    if text.lstrip().startswith('='):
        raise Stop(line, 'replicated cards (=) are not read')
    if ',' in text[:10]:
        return split_free(text)
    name = text[:8].strip()
    width, count = (16, 4) if large(name) else (8, 8)
    fields = [text[8 + width * i:8 + width * (i + 1)].strip() for i in range(count)]
    return name, fields, text[72:80].strip()


def split_free(text):
    words = [word.strip() for word in text.split(',')]
    count = 4 if large(words[0]) else 8
    if len(words) > count + 2:
        return words[0], words[1:], ''
    words += [''] * (count + 2 - len(words))
    return words[0], words[1:count + 1], words[count + 1]


# Sets.

def note_control(lines, model):
    """The sets of the case control. One that is given twice is two: each subcase has its own."""
    place = 0
    while place < len(lines):
        line, text = lines[place]
        match = SET.fullmatch(text)
        while match and text.rstrip().endswith(',') and place + 1 < len(lines):
            place += 1
            text = text + lines[place][1]
        if match:
            words = SET.fullmatch(text).group(2).upper().replace(',', ' ').split()
            add_set(model, match.group(1), line, words, 'case control, line %d' % line)
        place += 1


def note_set(card, model):
    """A set that a card gives: SET1, or SET3 with what it is a set of before the numbers."""
    if card.name == 'SET1':
        add_set(model, field(card, 1), card.line, [word.upper() for word in card.fields[1:] if word], 'SET1')
    elif card.name == 'SET3' and field(card, 2).upper() == 'GRID':
        add_set(model, field(card, 1), card.line, [word.upper() for word in card.fields[2:] if word], 'SET3')


def add_set(model, name, line, words, scope):
    model.sets.add(name, line, lambda: set_numbers(model, words, line, name), scope)


def set_numbers(model, words, line, name):
    """Numbers, and ranges by THRU, which may have gaps; behind EXCEPT those of the range that are not in it, as long as they lie within it."""
    if words == ['ALL']:
        return set(model.nodes)
    found, span, without, at = set(), None, False, 0
    while at < len(words):
        if words[at] == 'EXCEPT' and span:
            without, at = True, at + 1
            continue
        number = integer(words[at], line, 'set %s' % name)
        if words[at + 1:at + 2] == ['THRU']:
            span, without = (number, integer(''.join(words[at + 2:at + 3]), line, 'set %s, behind THRU' % name)), False
            found |= nodes_within(model, *span)
            at += 3
            continue
        without = without and span[0] <= number <= span[1]
        if without:
            found.discard(number)
        else:
            found.add(node_named(model, number, line, name))
        at += 1
    return found


# Nodes and elements from cards.

def field(card, place):
    return card.fields[place - 1] if place <= len(card.fields) else ''


def node(card, place):
    return integer(field(card, place), card.line, '%s, field %d' % (card.name, place + 1))


def note_place(card, systems):
    """The system that a grid point's coordinates are given in, or one that a card defines."""
    if card.name == 'GRID':
        systems.named[node(card, 1)] = field(card, 2)
    elif card.name == 'GRDSET':
        systems.common = field(card, 2)
    elif card.name in KINDS:
        systems.define(card.name, card.fields)


def nodes_of(card, name):
    """The nodes that are given, those that the card must have among them; 0 stands for none."""
    places, least, shape = CARDS[card.name]
    given = [at for at in places if field(card, at) not in ('', '0')]
    for at in places[:least]:
        if at not in given:
            raise Fault(card.line, '%s has no node in field %d' % (name, at + 1))
    if shape in SOLIDS and any(card.fields[places[-1]:]):
        raise Fault(card.line, '%s has more than %d nodes' % (name, len(places)))
    for at in REAL.get(card.name, ()):
        if field(card, at).lstrip('0').isdecimal():
            raise Fault(card.line, '%s has a whole number in field %d, where no node can be' % (name, at + 1))
    return [node(card, at) for at in given]


def add_element(card, model, seen):
    number, shape = node(card, 1), CARDS[card.name].shape
    name = 'element %d (%s)' % (number, card.name)
    nodes = nodes_of(card, name)
    if number in seen:
        raise Fault(card.line, '%s is given twice, first on %s' % (name, line_name(seen[number], card.line)))
    seen[number] = card.line
    if card.name == 'CBEAM' and any(field(card, at) for at in WARPING):
        raise Stop(card.line, '%s has warping points, and GRD has no kind for that' % name)
    # a spring between two directions of one node joins it to no other
    if CARDS[card.name].least < 2 and len(set(nodes)) < 2:
        model.points += 1
    else:
        model.add_element(KIND.get((shape, len(nodes))), nodes, card.line, name, shape)
