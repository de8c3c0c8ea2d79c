"""The page: its figures against tests/reference, what it holds, and that it needs nothing from elsewhere."""

import re
from html.parser import HTMLParser

from drawing_cases import PLATE, listing_of
from grd_cases import SAMPLE
from harness import run
from picture_cases import quads, reference_figures, reference_marks
from seqgp_cases import SAMPLE as LISTING

import grd
import page
import program


class Reader(HTMLParser):
    """The cells of the tables, the tags that are open at the end, and every address."""

    # elements without an end
    SINGLE = ('meta',)

    def __init__(self, text):
        super().__init__()
        self.open, self.cells, self.addresses, self.wrong = [], [], [], []
        self.feed(text)

    def handle_starttag(self, tag, attrs):
        self.addresses += [value for name, value in attrs if name in ('src', 'href', 'xlink:href', 'data', 'action')]
        if tag not in self.SINGLE:
            self.open.append(tag)

    def handle_startendtag(self, tag, attrs):
        self.handle_starttag(tag, attrs)
        self.open.pop()

    def handle_endtag(self, tag):
        if not self.open or self.open.pop() != tag:
            self.wrong.append(tag)

    def handle_data(self, data):
        if self.open and self.open[-1] in ('td', 'th'):
            self.cells.append(data)


def made(mesh_name, mesh, listing):
    status, out, err, files = run(page.main, [mesh_name, 'a.txt', '-o', 'a.html'], {mesh_name: mesh, 'a.txt': listing})
    return status, out, err, files.get('a.html', b'')


def cases(c):
    whole(c)
    counted(c)
    overwritten(c)


def whole(c):
    """A deck in three parts: well-formed, both pictures, warnings in its own numbers, no address."""
    status, out, err, data = made('a.bdf', PLATE, listing_of(PLATE))
    c.equal('page: made', (status, out, err), (0, 'a.html: %d bytes\n' % len(data), ''))
    text = data.decode('utf-8')
    reader = Reader(text)
    c.equal('page: well-formed', (reader.open, reader.wrong), ([], []))
    c.equal('page: nothing from elsewhere', (reader.addresses, re.findall('<(script|link|img|iframe|object)', text),
                                             re.findall(r'url\((?!#)|@import', text)), ([], [], []))
    c.equal('page: addresses are names of namespaces', set(re.findall('https?://[^"]*', text)), {'http://www.w3.org/2000/svg'})
    c.equal('page: two pictures', text.count('<svg '), 2)
    for words in ('9 nodes, 3 elements (bar 1, quadrilateral 2), 3 parts; from a.bdf', 'warning: the mesh falls into 2 parts that no element joins',
                  'part 1, 6 nodes: 10, 20, 30, 40, 50, 60', 'part 2, 2 nodes: 70, 80', 'warning: joined to no other, each a part of its own, 1 node: 90'):
        c.holds('page: ' + words, words in text)
    c.equal('page: parts', reader.cells[-21:], ['1', '6', '10', '1 to 6', '3', '2', '1', '2', '2', '70', '7 to 8', '2', '1', '1',
                                                '3', '1', '90', '9 to 9', '1', '1', '1'])


def counted(c):
    """The figures of both numberings."""
    data = quads(9)
    mesh, listing = grd.read(data), program.text_for(data)
    after = [int(line.split()[1]) for line in listing.decode('ascii').splitlines()[1:]]
    reader = Reader(made('a.grd', data, listing)[3].decode('utf-8'))
    sides = [list(reference_figures(mesh, numbers)) + list(reference_marks(mesh, numbers)) for numbers in (list(range(1, mesh.n + 1)), after)]
    cells = reader.cells[3:23]
    c.equal('page: before', cells[1::4], [format(value, ',') for value in sides[0]])
    c.equal('page: after', cells[2::4], [format(value, ',') for value in sides[1]])
    text = made('a.grd', SAMPLE, LISTING)[3].decode('utf-8')
    c.holds('page: a GRD file has no mesh to draw', 'a GRD file has no coordinates, so the mesh is not drawn.' in text and text.count('<svg ') == 1)
    name = 'a&lt;b&gt;.grd'
    text = made('a<b>.grd', SAMPLE, LISTING)[3].decode('utf-8')
    c.holds('page: a name with signs', name in text and '<b>' not in text)


def overwritten(c):
    files = {'a.grd': SAMPLE, 'a.txt': LISTING, 'b.html': '<!doctype html>\n<html></html>\n'}
    for output, message in (('a.txt', 'a.txt: is an input (a.txt), and stays as it is\n'),
                            ('b.html', 'b.html: stands there already and is not a page of page.py; --force writes over it\n')):
        c.equal('page: over ' + output, run(page.main, ['a.grd', 'a.txt', '-o', output], files), (2, '', message, {}))

    def twice(words):
        return page.main(words) + page.main(words)
    status, _, err, files = run(twice, ['a.grd', 'a.txt', '-o', 'c.html'], files)
    c.equal('page: over an older one', (status, err, list(files)), (0, '', ['c.html']))
