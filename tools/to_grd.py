#!/usr/bin/env python3
"""Gmsh, CalculiX, Abaqus and NASTRAN meshes to GRD.

  to_grd.py IN -o OUT.grd              by IN's ending: .msh, .inp, or .bdf .nas .dat .fem
  to_grd.py --from gmsh|abaqus|nastran IN -o OUT.grd
  to_grd.py --compact IN -o OUT.grd    close gaps in the node numbers; OUT.nodes has the map
  to_grd.py --ignore NAME ..           leave out what may join nodes and is not read: a keyword, card, section or element type
  to_grd.py --drop-inner ..            leave out elements whose nodes all lie in another one
  to_grd.py --unknowns N ..            a file of version 2: N unknowns to each node; KIND=N for the elements of a kind
  to_grd.py --unknowns-set NAME=N ..   N unknowns to each node of a set
"""

import argparse
import os
import sys

import abaqus
import counts
import gmsh
import grd
import nastran
import parts
from files import GRD, NODES, Output, Source, add_output_options, command, read_text, write_own
from model import Fault, mesh_of, squeezed

READERS = {'gmsh': gmsh.read, 'abaqus': abaqus.read, 'nastran': nastran.read}
ENDINGS = {'.msh': 'gmsh', '.inp': 'abaqus', '.bdf': 'nastran', '.nas': 'nastran', '.dat': 'nastran', '.fem': 'nastran'}


def format_of(path):
    ending = os.path.splitext(path)[1].lower()
    if ending not in ENDINGS:
        raise Fault(0, 'the ending %r tells no format: say --from gmsh, abaqus or nastran' % ending)
    # CalculiX's cgx names its meshes .msh too
    if ending == '.msh' and read_text(path).lstrip()[:1] == '*':
        return 'abaqus'
    return ENDINGS[ending]


def map_path(out):
    return os.path.splitext(out)[0] + '.nodes'


def map_bytes(numbers):
    """A line for each node: its number in GRD, its number in the input."""
    return ''.join('%d %d\n' % pair for pair in enumerate(numbers, 1)).encode('ascii')


def model_of(source, form=None, ignore=()):
    """The model of a Source, by its ending where no format is given."""
    return READERS[form or format_of(source.path)](source, ignore)


def convert(arguments):
    counter = counts.counter(arguments)
    source = Source(arguments.input)
    model = model_of(source, arguments.format, arguments.ignore)
    mesh, numbers = mesh_of(model, arguments.compact, arguments.drop_inner, counter)
    outputs = [Output(arguments.output, grd.write(mesh), GRD)]
    if arguments.compact:
        outputs.append(Output(map_path(arguments.output), map_bytes(numbers), NODES))
    write_own(outputs, source.paths, arguments.force)
    print('\n'.join(report(arguments, model, mesh)))


def report(arguments, model, mesh):
    yield '%s: %s' % (arguments.output, grd.summary(mesh))
    if arguments.compact:
        yield '%s: the numbers before and after closing gaps' % map_path(arguments.output)
    yield from changed(arguments.ignore, model)
    alone = len(parts.loose(grd.neighbours(mesh)))
    if alone:
        yield 'nodes joined to no other, each a part of its own: %d' % alone


def changed(ignore, model):
    """What the mesh has otherwise than the file, or hasn't."""
    covered = [element for element in model.elements if not element.kind]
    if covered:
        met = {len(element.nodes): 0 for element in covered}
        for element in covered:
            met[len(element.nodes)] += 1
        yield ('elements that GRD has no kind for, written as others that make the same nodes adjoin: %d (%s)'
               % (len(covered), ', '.join('%d-node %d' % pair for pair in sorted(met.items()))))
    if model.points:
        yield 'one-node elements left out, as they join nothing: %d' % model.points
    if model.dropped:
        yield 'elements left out, as their nodes all lie in another: %d' % model.dropped
    for name in ignore:
        yield 'left out by --ignore %s: %d' % (name, model.ignored[squeezed(name)])


def main(words):
    parser = argparse.ArgumentParser(prog='to_grd.py', description='Gmsh, CalculiX, Abaqus and NASTRAN meshes to GRD')
    parser.add_argument('--from', dest='format', choices=sorted(READERS), help="the input's format; otherwise its ending tells")
    parser.add_argument('--compact', action='store_true', help='renumber nodes by rising number; OUT.nodes has the map')
    parser.add_argument('--ignore', action='append', default=[], metavar='NAME', help='leave out this keyword, card, section or element type')
    parser.add_argument('--drop-inner', action='store_true', help='leave out elements whose nodes all lie in another one')
    counts.add_options(parser)
    parser.add_argument('input', metavar='IN')
    add_output_options(parser, 'OUT.grd')
    arguments = parser.parse_args(words)
    return command(lambda: convert(arguments), arguments.input)


if __name__ == '__main__':
    sys.exit(main(sys.argv[1:]))
