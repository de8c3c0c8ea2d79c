"""A mesh from any of the formats: the GRD mesh, and the numbers and coordinates that its nodes have in the file."""

import re
from collections import namedtuple

import counts
import grd
from files import Source, read_bytes
from model import Fault, Stop, mesh_of
from to_grd import READERS, model_of

# NASTRAN's card GRDSET begins as GRD files do
GRD = re.compile(grd.MARK + rb'(?!SET[\s,*])')

# numbers: the file's own, in the order of the mesh's 1 to n; model: None for a GRD file, which has neither names nor coordinates;
# paths: every file that was read
Found = namedtuple('Found', 'mesh numbers model paths')


def summary(found):
    """One line: nodes, their unknowns, elements as the file has them, how many of each kind, and how many are collapsed."""
    if found.model is None:
        return grd.summary(found.mesh)
    met = {}
    for element in found.model.elements:
        kind = (element.shape, len(element.nodes))
        met[kind] = met.get(kind, 0) + 1
    kinds = ', '.join('%s %d' % (counts.kind_name(*kind), count) for kind, count in sorted(met.items()))
    kinds += grd.collapsed(element.nodes for element in found.model.elements)
    return '%s, %s (%s)' % (grd.node_words(found.mesh), grd.counted(elements(found), 'element'), kinds)


def elements(found):
    """How many elements the file has, that are not points or dropped."""
    return len(found.model.elements if found.model else found.mesh.elements)


def add_reading_options(parser):
    """The options of every command that reads a mesh."""
    parser.add_argument('--from', dest='format', choices=sorted(READERS), help="the mesh's format; otherwise its ending tells")
    parser.add_argument('--ignore', action='append', default=[], metavar='NAME', help='leave out this keyword, card, section or element type')
    parser.add_argument('--drop-inner', action='store_true', help='leave out elements whose nodes all lie in another one')
    counts.add_options(parser)


def read(path, options):
    """The mesh of a file; gaps in its numbers are closed."""
    counter = counts.counter(options)
    if options.format is None and GRD.match(read_bytes(path)):
        if counter:
            raise Stop(0, 'a GRD file has its own counts of unknowns; --unknowns and --unknowns-set are for the other formats', path)
        return of_grd(path)
    source = Source(path)
    model = model_of(source, options.format, options.ignore)
    mesh, numbers = mesh_of(model, True, options.drop_inner, counter)
    return Found(mesh, numbers, model, source.paths)


def of_grd(path):
    try:
        mesh = grd.read(read_bytes(path))
    except grd.Refusal as refusal:
        raise Fault(0, str(refusal)) from None
    return Found(mesh, list(range(1, mesh.n + 1)), None, [path])
