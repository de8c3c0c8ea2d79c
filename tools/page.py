#!/usr/bin/env python3
"""One page on a renumbering: figures, mesh and matrix. It holds its pictures itself, so it reads without a network.

  page.py MESH LISTING -o OUT.html
"""

import argparse
import html
import os
import re
import sys

import explain
import figures
import fill
import grd
import parts
import picture
import source
import thickness
from files import Kind, Output, add_output_options, command, write_own
from ink import FAINT, FONT, INK, grouped
from model import Fault

MARK = '<!-- a page of wagonepoch/tools/page.py -->'
PAGE = Kind('a page of page.py', re.compile(b'<!doctype html>\n' + re.escape(MARK.encode('ascii')) + b'\n.*</html>\n', re.DOTALL))
# So many parts have a row of their own.
MOST_ROWS = 40

STYLE = '''body { font-family: %s; color: %s; max-width: 970px; margin: 2em auto; padding: 0 1em; line-height: 1.45 }
h1 { margin-bottom: 0 } h2 { margin-top: 2em }
.faint { color: %s } .warning, .told { white-space: pre-wrap } .warning { color: #a33a0a }
table { border-collapse: collapse; margin: 1em 0; font-variant-numeric: tabular-nums }
th, td { padding: .25em .9em; text-align: right; border-bottom: 1px solid #d5dbe1 }
th:first-child, td:first-child { text-align: left; padding-left: 0 }
svg { max-width: 100%%; height: auto; page-break-inside: avoid }''' % (FONT, INK, FAINT)


def table(head, rows):
    """Rows of cells, texts or numbers."""
    def row(cells, tag):
        return '<tr>%s</tr>' % ''.join('<%s>%s</%s>' % (tag, html.escape(str(cell)), tag) for cell in cells)
    return ['<table>', row(head, 'th')] + [row(cells, 'td') for cells in rows] + ['</table>']


# Figures.

def before_and_after(mesh, listed):
    """Bandwidth, profile, front and elimination under the old and the new numbers."""
    sides = []
    before = figures.graph(mesh)
    for graph in (before, figures.renumbered(before, listed.numbers)):
        total, new = fill.counts(graph)
        sides.append(figures.figures(graph) + (total, new))
    names = ('bandwidth', 'profile: places of the store', 'front', 'places used at the end of elimination', '\u2003of them joined by elimination')
    return [(name, grouped(old), grouped(now), '%.1f %%' % (100 * now / old) if old else '') for name, old, now in zip(names, *sides)]


PART = ('part', 'nodes', 'lowest node', 'new numbers', 'levels', 'width', 'thickest level')
# the same where the mesh counts unknowns
COUNTED_PART = ('part', 'nodes', 'unknowns', 'lowest node', 'new numbers', 'levels', 'width in unknowns', 'thickest level')


def part_rows(mesh, listed, numbers):
    """For each part its nodes, its unknowns where they are counted, its lowest number in the source, the new numbers that it takes, its levels,
    their greatest count and where it is."""
    rows = []
    for i, part in enumerate(parts.parts_of(grd.neighbours(mesh)), 1):
        new = [listed.numbers[p] for p in part]
        one = thickness.of_part(part, listed.levels, grd.unknowns(mesh))
        unknowns = () if mesh.counts is None else (grouped(sum(one.sizes)),)
        rows.append((i, grouped(len(part))) + unknowns + (numbers[part[0] - 1], '%d to %d' % (min(new), max(new)), len(one.sizes), max(one.sizes),
                                                          one.level))
    return rows


# The page.

def head(name, path, found, listed):
    words = '%s, %s; from %s' % (source.summary(found), grd.counted(listed.figures.parts, 'part'), os.path.basename(path))
    lines = ['<h1>%s</h1>' % html.escape(name), '<p class="faint">%s</p>' % html.escape(words)]
    lines += told('warning', parts.warnings(found.mesh, found.numbers))
    lines += table(('', 'before', 'after', 'after / before'), before_and_after(found.mesh, listed))
    lines += ['<p class="faint">%s.</p>' % html.escape(words) for words in explain.units(found.mesh)]
    rows = part_rows(found.mesh, listed, found.numbers)
    lines += table(PART if found.mesh.counts is None else COUNTED_PART, rows[:MOST_ROWS])
    if len(rows) > MOST_ROWS:
        lines.append('<p class="faint">and %s parts more</p>' % grouped(len(rows) - MOST_ROWS))
    lines += told('told', thickness.words(found.mesh, listed, found.numbers))
    passes = grd.counted(listed.figures.passes, 'pass').replace('passs', 'passes')
    return lines + ['<p class="faint">%s to find the ends of the parts.</p>' % passes]


def told(kind, lines):
    """A paragraph for each line and those that stand under it."""
    return ['<p class="%s">%s</p>' % (kind, html.escape('\n'.join(block))) for block in blocks(lines)]


def blocks(lines):
    """Lines with those under each."""
    made = []
    for line in lines:
        if line.startswith(' '):
            made[-1].append(line)
        else:
            made.append([line])
    return made


def pictures(name, found, listed):
    """The mesh, or why it is not drawn, and the matrix."""
    try:
        if found.model is None:
            raise Fault(0, 'a GRD file has no coordinates, so the mesh is not drawn')
        mesh = picture.mesh_svg(name, found, listed, 0)
    except Fault as fault:
        mesh = '<p class="faint">%s.</p>' % html.escape(str(fault))
    return ['<h2>The mesh</h2>',
            '<p>Around each node its share of every face has the node’s colour. A good numbering runs through the mesh from one end to the other. '
            'Rings mark the nodes of each part’s thickest level.</p>',
            mesh.rstrip('\n'),
            '<h2>The matrix</h2>',
            '<p>Dark cells are entries. Below the diagonal the envelope is what the store holds: orange places are zero at first and are joined by '
            'elimination, blue ones stay zero. A bar beside the new numbers marks the rows of each part’s thickest level.</p>',
            picture.svg(name, found.mesh, listed, True, 0).rstrip('\n')]


def page(name, path, found, listed):
    lines = ['<!doctype html>', MARK, '<html lang="en">', '<head>', '<meta charset="utf-8">',
             '<meta name="viewport" content="width=device-width, initial-scale=1">',
             '<title>%s renumbered</title>' % html.escape(name), '<style>', STYLE, '</style>', '</head>', '<body>']
    lines += head(name, path, found, listed) + pictures(name, found, listed)
    lines += ['<p class="faint">New numbers, levels and their figures are the proved program’s. The figures before, the elimination and the drawings '
              'are unproved help.</p>', '</body>', '</html>', '']
    return '\n'.join(lines)


def write_page(arguments):
    found = source.read(arguments.mesh, arguments)
    listed = picture.read_listing(arguments.listing)
    picture.test_match(found.mesh, listed)
    name = os.path.splitext(os.path.basename(arguments.mesh))[0]
    data = page(name, arguments.mesh, found, listed).encode('utf-8', 'replace')
    write_own([Output(arguments.output, data, PAGE)], found.paths + [arguments.listing], arguments.force)
    print('%s: %d bytes' % (arguments.output, len(data)))


def main(words):
    parser = argparse.ArgumentParser(prog='page.py', description='one page on a renumbering: figures, mesh and matrix')
    source.add_reading_options(parser)
    parser.add_argument('mesh', metavar='MESH')
    parser.add_argument('listing', metavar='LISTING')
    add_output_options(parser, 'OUT.html')
    arguments = parser.parse_args(words)
    return command(lambda: write_page(arguments), arguments.mesh)


if __name__ == '__main__':
    sys.exit(main(sys.argv[1:]))
