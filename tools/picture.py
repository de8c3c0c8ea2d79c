#!/usr/bin/env python3
"""A picture of the matrix before and after the renumbering, or of the mesh, or of both.

  picture.py MESH LISTING -o OUT.svg          the matrix: entries, envelope and band
  picture.py --fill MESH LISTING -o OUT.svg   with what elimination joins
  picture.py --mesh MESH LISTING -o OUT.svg   the mesh by old number, new number, level and part
  picture.py --both MESH LISTING -o OUT.svg   the mesh, then the matrix with what elimination joins

MESH is a GRD file or one of the formats of to_grd.py; --mesh and --both need its coordinates, which a GRD file hasn't.
"""

import argparse
import os
import re
import sys

import drawing
import figures
import grd
import matrix
import result
import source
from files import Kind, Output, add_output_options, command, read_lines, write_own
from ink import FONT, WIDTH, framed, heading
from model import Fault

HEAD = 50
START = rb'<svg xmlns="http://www.w3.org/2000/svg" width="%d" height="[0-9]+" viewBox="[0-9 ]+" font-family="%s">\n<title>'
SVG = Kind('a picture of picture.py', re.compile(START % (WIDTH, FONT.encode('ascii')) + rb'.*</svg>\n', re.DOTALL))


def counts(mesh, elements, listed):
    unknowns = [] if mesh.counts is None else [(sum(mesh.counts), 'unknown')]
    return ', '.join(grd.counted(*pair) for pair in [(mesh.n, 'node')] + unknowns + [(elements, 'element'), (listed.figures.parts, 'part')])


def ground(height):
    return '<rect width="%d" height="%d" fill="#ffffff"/>' % (WIDTH, height)


def svg(name, mesh, listed, filled=False, head=HEAD, elements=None):
    """The matrix before and after; without room for a heading there is none. The source may have another count of elements than the mesh."""
    height = head + matrix.height(filled)
    words = counts(mesh, elements or len(mesh.elements), listed)
    lines = [matrix.clip(mesh), ground(height)] + heading(name, words) * bool(head) + matrix.lines(head, mesh, listed, filled)
    return framed(name + ' before and after the renumbering', height, lines)


def mesh_svg(name, found, listed, head=HEAD):
    """The mesh in four colourings."""
    drawn = drawing.scene(found.model, found.numbers)
    height = head + drawing.height(drawn)
    words = counts(found.mesh, source.elements(found), listed)
    lines = [ground(height)] + heading(name, words) * bool(head) + drawing.lines(head, found.mesh, listed, found.numbers, drawn)
    return framed(name + ' by number, level and part', height, lines)


def both_svg(name, found, listed):
    """The mesh, and the matrix with what elimination joins below it."""
    mesh = found.mesh
    drawn = drawing.scene(found.model, found.numbers)
    top = HEAD + drawing.height(drawn)
    height = top + matrix.height(True)
    lines = [matrix.clip(mesh), ground(height)] + heading(name, counts(mesh, source.elements(found), listed))
    lines += drawing.lines(HEAD, mesh, listed, found.numbers, drawn) + matrix.lines(top, mesh, listed, True)
    return framed(name + ' before and after the renumbering', height, lines)


def any_svg(name, found, listed):
    """Mesh and matrix, or the matrix alone where there are no coordinates."""
    return svg(name, found.mesh, listed, True, HEAD, source.elements(found)) if undrawable(found) else both_svg(name, found, listed)


def undrawable(found):
    """Why the mesh itself can't be drawn, or an empty text."""
    if found.model is None:
        return 'a GRD file has no coordinates: give the mesh file that it was made from'
    try:
        drawing.places_of(found.model, found.numbers)
    except Fault as fault:
        return str(fault)
    return ''


# The command.

def test_match(mesh, listed):
    """The listing must be this mesh's: same nodes, and its figures those of its numbers."""
    if listed.figures.nodes != mesh.n:
        raise Fault(0, 'the listing has %d nodes, the mesh %d: they do not belong together' % (listed.figures.nodes, mesh.n))
    after = figures.figures(figures.renumbered(figures.graph(mesh), listed.numbers))
    if after != (listed.figures.bandwidth, listed.figures.profile, listed.figures.front):
        raise Fault(0, "the listing's figures are not those of its numbers on this mesh: they do not belong together")


def read_listing(path):
    try:
        return result.read(read_lines(path))
    except Fault as fault:
        raise Fault(fault.line, str(fault), fault.path or path) from None


def drawn_text(arguments, name, found, listed):
    if arguments.show == 'matrix':
        return svg(name, found.mesh, listed, arguments.fill, HEAD, source.elements(found))
    if found.model is None:
        raise Fault(0, 'a GRD file has no coordinates: give the mesh file that it was made from')
    return (mesh_svg if arguments.show == 'mesh' else both_svg)(name, found, listed)


def draw(arguments):
    found = source.read(arguments.mesh, arguments)
    listed = read_listing(arguments.listing)
    test_match(found.mesh, listed)
    name = os.path.splitext(os.path.basename(arguments.mesh))[0]
    data = drawn_text(arguments, name, found, listed).encode('utf-8', 'replace')
    write_own([Output(arguments.output, data, SVG)], found.paths + [arguments.listing], arguments.force)
    print('%s: %d bytes' % (arguments.output, len(data)))


def main(words):
    parser = argparse.ArgumentParser(prog='picture.py', description='a picture of the matrix before and after the renumbering, or of the mesh')
    show = parser.add_mutually_exclusive_group()
    show.add_argument('--fill', action='store_true', help='show in the matrix what elimination joins')
    show.add_argument('--mesh', dest='show', action='store_const', const='mesh', default='matrix', help='the mesh by number, level and part')
    show.add_argument('--both', dest='show', action='store_const', const='both', help='the mesh, and the matrix with what elimination joins')
    source.add_reading_options(parser)
    parser.add_argument('mesh', metavar='MESH')
    parser.add_argument('listing', metavar='LISTING')
    add_output_options(parser, 'OUT.svg')
    arguments = parser.parse_args(words)
    return command(lambda: draw(arguments), arguments.mesh)


if __name__ == '__main__':
    sys.exit(main(sys.argv[1:]))
