#!/usr/bin/env python3
"""A numbering that another mesh tool sent as NASTRAN's SEQGP cards (source document 004), held to its mesh and to the figures sent with it.

  from_seqgp.py MESH CARDS --figures BANDWIDTH PROFILE FRONT -o OUT    CARDS in free, small or large field; it may be the mesh's own file
  from_seqgp.py --independent ..                                       by tests/reference, where the proved library can't be built

OUT has the three figures and a line for each node: its number in the mesh file and its new number. A node that no card names keeps its number.
The mesh is of any format, with the unknowns that --unknowns and --unknowns-set give its nodes; the figures count unknowns.
"""

import argparse
import re
import sys
from collections import namedtuple

import engine
import grd
import nastran
import source
from files import Kind, Output, Source, add_output_options, command, write_own
from model import Fault, Stop, integer, line_name

CARD = 'SEQGP'
NUMBERING = Kind('a numbering of from_seqgp.py', re.compile(rb'nodes [0-9]+ bandwidth [0-9]+ profile [0-9]+ front [0-9]+\n([0-9]+ [0-9]+\n)+'))

# NASTRAN also takes 1.5, or 1.5.2, for a place between two points.
BETWEEN = re.compile(r'[0-9]+(\.[0-9]*)+')

FIGURES = ('bandwidth', 'profile', 'front')
MOST_FIGURE = 2 ** 64 - 1
MOST_WORD = 65535

# A grid point's own number and its new number, and the line of their card.
Pair = namedtuple('Pair', 'line old new')


# Cards.

def read_pairs(cards):
    """The pairs of all cards, in order, and how many cards there are."""
    pairs, count = [], 0
    for card in nastran.cards(nastran.bulk(nastran.parted(cards)[1]), {CARD}):
        if card.name == CARD:
            count += 1
            pairs += pairs_of(card)
    if not count:
        raise Fault(0, 'there is no %s card' % CARD, cards.path)
    return pairs, count


def pairs_of(card):
    """The pairs of a card; fields come two by two, and two that are blank hold nothing."""
    for at in range(1, len(card.fields) + 1, 2):
        old, new = nastran.field(card, at), nastran.field(card, at + 1)
        if old or new:
            yield Pair(card.line, point_of(card, old, at), sequence_of(card, old, new, at + 1))


def point_of(card, old, at):
    if not old:
        raise refused(13, card.line, 'field %d has no grid point for the number behind it' % (at + 1))
    return integer(old, card.line, '%s, field %d' % (CARD, at + 1))


def sequence_of(card, old, new, at):
    if not new:
        raise refused(13, card.line, 'grid point %s has no new number in field %d' % (old, at + 1))
    if BETWEEN.fullmatch(new):
        raise Stop(card.line, 'grid point %s has %s, a place between two points; a numbering has whole numbers, so this is not read' % (old, new))
    return integer(new, card.line, '%s, field %d' % (CARD, at + 1))


# What is wrong, in words.

def refused(number, line, words):
    return Fault(line, 'refused %d: %s' % (number, words))


def wrong_pairs(pairs, places):
    """Refusal 13: a grid point that is none, or is given twice."""
    first = {}
    for pair in pairs:
        if pair.old not in places:
            yield refused(13, pair.line, 'the mesh has no grid point %d' % pair.old)
        elif pair.old in first:
            yield refused(13, pair.line, 'grid point %d is given twice, first on %s' % (pair.old, line_name(first[pair.old], pair.line)))
        else:
            first[pair.old] = pair.line


def no_numbering(pairs, places):
    """Refusal 7: a new number that is none, or is taken twice, by two cards or by a point that no card names."""
    n, listed, first = len(places), {pair.old for pair in pairs}, {}
    keeps = {place for old, place in places.items() if old not in listed}
    for pair in pairs:
        if not 1 <= pair.new <= n:
            yield refused(7, pair.line, 'grid point %d has new number %d, and the new numbers are 1 to %d' % (pair.old, pair.new, n))
        elif pair.new in first:
            other = first[pair.new]
            yield refused(7, pair.line, 'new number %d is given twice, to grid point %d and, on %s, to %d'
                          % (pair.new, pair.old, line_name(other.line, pair.line), other.old))
        elif pair.new in keeps:
            yield refused(7, pair.line, 'new number %d of grid point %d is that of a grid point that no card names, and keeps it'
                          % (pair.new, pair.old))
        else:
            first[pair.new] = pair


def wrong_figures(sent, found):
    """Refusal 14: each figure that differs."""
    for name, one, other in zip(FIGURES, sent, found):
        if one != other:
            yield refused(14, 0, '%s %d was sent, and the numbering has %d' % (name, one, other))


def test_kept(pairs, numbers):
    """A point that no card names keeps its own number, which must be one of 1 to n."""
    listed = {pair.old for pair in pairs}
    if numbers != list(range(1, len(numbers) + 1)):
        for number in numbers:
            if number not in listed:
                raise Stop(0, 'no card names grid point %d, and it has no number of 1 to %d to keep, as the numbers of the mesh have gaps'
                           % (number, len(numbers)))


# The call.

def words_of(mesh):
    return [word for kind, nodes in mesh.elements for word in [kind, *nodes]]


def imported(by, mesh, pairs, places, figures):
    """The refusal of the call, or 0, the full numbering, and the graph that it was handed. Points that are none are handed as 0, and numbers that no
    word holds as the greatest word: 13 and 7 of them are told by the cards."""
    counts = mesh.counts or [1] * mesh.n
    graph = (*by.mesh_lists(mesh.n, words_of(mesh)), counts)
    words = [word for pair in pairs for word in (places.get(pair.old, 0), pair.new if 0 <= pair.new <= MOST_WORD else MOST_WORD)]
    return (*by.import_numbering(*graph, words, figures), graph)


def full(pairs, places):
    """The numbering of pairs that 13 and 7 do not refuse."""
    number_of = dict(zip(places.values(), places.values()))
    number_of.update((places[pair.old], pair.new) for pair in pairs)
    return [number_of[p] for p in range(1, len(places) + 1)]


def faults(by, refusal, graph, pairs, places, figures):
    """All that is wrong of the kind that the call refused."""
    if refusal == 14:
        return list(wrong_figures(figures, by.measures(*graph, full(pairs, places))))
    return list({13: wrong_pairs, 7: no_numbering}[refusal](pairs, places)) if refusal in (13, 7) else []


def figure(word):
    if not re.fullmatch('[0-9]{1,20}', word) or int(word) > MOST_FIGURE:
        raise Stop(0, '%r is no figure' % word, '--figures')
    return int(word)


def convert(arguments):
    figures = [figure(word) for word in arguments.figures]
    found = source.read(arguments.mesh, arguments)
    places = {number: place for place, number in enumerate(found.numbers, 1)}
    cards = Source(arguments.cards)
    pairs, count = read_pairs(cards)
    test_kept(pairs, found.numbers)
    by = (engine.Independent if arguments.independent else engine.Proved)()
    refusal, numbers, graph = imported(by, found.mesh, pairs, places, figures)
    if refusal:
        told = faults(by, refusal, graph, pairs, places, figures) or [refused(refusal, 0, grd.MEANING[refusal])]
        for fault in told[:-1]:
            print(fault.message(arguments.cards), file=sys.stderr)
        raise Fault(told[-1].line, str(told[-1]), arguments.cards)
    lines = ['nodes %d bandwidth %d profile %d front %d' % (found.mesh.n, *figures)] + ['%d %d' % row for row in zip(found.numbers, numbers)]
    data = ''.join(line + '\n' for line in lines).encode('ascii')
    write_own([Output(arguments.output, data, NUMBERING)], found.paths + cards.paths, arguments.force)
    kept = found.mesh.n - len(pairs)
    print('%s: %s, %s, %s; nodes that no card names: %d' % (arguments.output, grd.node_words(found.mesh), grd.counted(count, 'card'),
                                                           grd.counted(len(pairs), 'pair'), kept))
    print('bandwidth %d, profile %d and front %d are those of the numbering' % tuple(figures))


def main(words):
    parser = argparse.ArgumentParser(prog='from_seqgp.py', description='a numbering from SEQGP cards, held to its mesh and its figures')
    source.add_reading_options(parser)
    parser.add_argument('--figures', nargs=3, required=True, metavar=('BANDWIDTH', 'PROFILE', 'FRONT'), help='as sent with the cards, in unknowns')
    parser.add_argument('--independent', action='store_true', help='by tests/reference, not by the proved library')
    parser.add_argument('mesh', metavar='MESH')
    parser.add_argument('cards', metavar='CARDS')
    add_output_options(parser, 'OUT')
    arguments = parser.parse_args(words)
    return command(lambda: convert(arguments), arguments.mesh)


if __name__ == '__main__':
    sys.exit(main(sys.argv[1:]))
