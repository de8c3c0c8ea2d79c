"""Archives: what is kept, that it checks, and that every change of it is found."""

import hashlib
import os
import re

from drawing_cases import PLATE
from grd_cases import HINGE, SAMPLE
from harness import run

import archive
import grd
import program

FILES = ['a.bdf', 'a.store', 'mesh.grd', 'nodes.txt', 'listing.txt', 'ABOUT.txt', 'SHA256SUMS']


def worked(words, files, change=None, check=('check', 'kept')):
    """An archive is made by tests/reference, changed, and checked: both statuses and what is printed, and the files of the archive."""
    kept = {}

    def work(_):
        status = archive.main(words)
        for at, _, names in os.walk('kept'):
            for name in names:
                with open(os.path.join(at, name), 'rb') as file:
                    kept[os.path.relpath(os.path.join(at, name), 'kept')] = file.read()
        if change:
            change()
        return status, archive.main(list(check)) if check else None
    by_program, archive.by_program = archive.by_program, archive.by_reference
    try:
        (status, checked), out, err, _ = run(work, words, files)
    finally:
        archive.by_program = by_program
    return status, checked, out, err, kept


def put(name, old, new):
    def change():
        path = os.path.join('kept', name)
        with open(path, 'rb') as file:
            text = file.read()
        with open(path, 'wb') as file:
            file.write(text.replace(old, new))
    return change


def cases(c):
    made(c)
    found(c)
    refused(c)


def made(c):
    files = {'a.bdf': PLATE, 'a.store': b'\1\2\3'}
    status, checked, out, err, kept = worked(['make', 'a.bdf', 'a.store', '-o', 'kept'], files)
    c.equal('archive: made and checked', (status, checked, err), (0, 0, ''))
    c.equal('archive: files', sorted(kept), sorted(FILES))
    c.equal('archive: printed', (out.splitlines()[0], out.splitlines()[-1]), ('kept: ' + ', '.join(FILES), 'kept: 9 hold, 0 do not'))
    sums = dict(reversed(line.split('  ')) for line in kept['SHA256SUMS'].decode('ascii').splitlines())
    c.equal('archive: sums', sums, {name: hashlib.sha256(kept[name]).hexdigest() for name in FILES[:-1]})
    c.equal('archive: the mesh and the store are copies', (kept['a.bdf'], kept['a.store']), (PLATE.encode('ascii'), b'\1\2\3'))
    c.equal('archive: the listing', kept['listing.txt'], program.text_for(kept['mesh.grd']))
    c.equal('archive: the numbers', kept['nodes.txt'], b''.join(b'%d %d\n' % (p, 10 * p) for p in range(1, 10)))
    about = kept['ABOUT.txt'].decode('ascii')
    facts = dict(line.split(': ', 1) for line in about.split('\n\n')[1].split('\n'))
    c.equal('archive: facts', sorted(facts), ['before', 'commit', 'elimination', 'figures', 'made', 'mesh', 'read', 'sources', 'store', 'toolchain', 'version'])
    c.equal('archive: figures', (facts['figures'], facts['store'], facts['mesh']),
            (kept['listing.txt'].decode('ascii').split('\n')[0], 'a.store, 3 bytes', 'a.bdf'))
    c.holds('archive: a day', re.fullmatch('20[0-9]{2}-[01][0-9]-[0-3][0-9]', facts['made']))
    c.equal('archive: every line under 145 letters', [line for line in about.split('\n') if len(line) > 145], [])
    places(c, kept, about)
    status, checked, out, err, kept = worked(['make', 'mesh.grd', '-o', 'kept'], {'mesh.grd': SAMPLE})
    c.equal('archive: a GRD file of the name of the copy', (status, checked, err, sorted(kept)), (0, 0, '', sorted(FILES[2:])))
    deck = '*INCLUDE, INPUT=b.txt\n*ELEMENT, TYPE=T3D2\n1,1,2\n*TIE\nA,B\n'
    status, checked, out, err, kept = worked(['make', '--ignore', 'TIE', '--from', 'abaqus', 'a.txt', '-o', 'kept'],
                                             {'a.txt': deck, 'b.txt': '*NODE\n1\n2\n'})
    c.equal('archive: files taken in, and options', (status, checked, err, 'b.txt' in kept), (0, 0, '', True))
    unknowns(c)


def unknowns(c):
    """Counts are kept, in mesh.grd and in how the mesh was read; the page tells the store in unknowns."""
    words = ['make', '--unknowns', '3', '--unknowns', 'CQUAD4=6', '--unknowns-set', '7=2', 'a.bdf', '-o', 'kept']
    status, checked, out, err, kept = worked(words, {'a.bdf': PLATE + 'SET1,7,70,90\n'})
    c.equal('archive: with counts', (status, checked, err, out.splitlines()[-1]), (0, 0, '', 'kept: 8 hold, 0 do not'))
    mesh = grd.read(kept['mesh.grd'])
    c.equal('archive: the counts', mesh.counts, [6] * 6 + [2, 3, 2])
    about = kept['ABOUT.txt'].decode('ascii')
    c.holds('archive: how it was read', "\nread: --unknowns 3 --unknowns CQUAD4=6 --unknowns-set 7=2\n" in about)
    c.equal('archive: every line under 145 letters, with counts', [line for line in about.split('\n') if len(line) > 145], [])
    places(c, kept, about)
    status, checked, out, err, kept = worked(['make', 'a.grd', '-o', 'kept'], {'a.grd': HINGE})
    c.equal('archive: a GRD file with counts', (status, checked, err, kept['a.grd'] == kept['mesh.grd'] == HINGE), (0, 0, '', True))


def places(c, kept, about):
    """The page's rule for a place, followed by hand on the listing and the mesh, has each pair of the envelope once."""
    c.holds('archive: the rule', 's_q + p - f_q' in about)
    rows = [[int(word) for word in line.split()] for line in kept['listing.txt'].decode('ascii').splitlines()[1:]]
    new = {old: number for old, number, _ in rows}
    mesh = grd.read(kept['mesh.grd'])
    first, of_node, last = {}, {}, 0
    for p in sorted(new, key=lambda p: new[p]):
        count = mesh.counts[p - 1] if mesh.counts else 1
        of_node[p] = range(last + 1, last + count + 1)
        last += count
        first.update({q: of_node[p][0] for q in of_node[p]})
    for _, nodes in mesh.elements:
        for p in nodes:
            for q in of_node[p]:
                first[q] = min([first[q]] + [of_node[other][0] for other in nodes])
    found = sorted(sum(r - first[r] for r in range(1, q)) + p - first[q] for q in first for p in range(first[q], q))
    c.equal('archive: places', found, list(range(int(kept['listing.txt'].split()[7]))))


def found(c):
    """Each change is told, and the status is 1."""
    files = {'a.bdf': PLATE, 'a.store': b'\1\2\3'}

    def tells(name, change, *lines):
        status, checked, out, err, _ = worked(['make', 'a.bdf', 'a.store', '-o', 'kept'], files, change)
        wrong = [line[7:] for line in out.splitlines() if line.startswith('WRONG')]
        c.equal('archive: ' + name, (status, checked, wrong, err), (0, 1, list(lines), 'kept: the archive does not hold\n'))
    other = 'is not the file that was archived'
    tells('a store with another byte', put('a.store', b'\2', b'\4'), 'a.store ' + other)
    tells('a store that is gone', lambda: os.remove('kept/a.store'), 'a.store is missing')
    tells('another mesh', put('a.bdf', b'10,20,50,40', b'10,20,50,60'), 'a.bdf ' + other, 'a.bdf no longer gives the mesh of mesh.grd')
    tells('a mesh that is none', put('a.bdf', b'CQUAD4', b'CQUAD5'), 'a.bdf ' + other,
          'a.bdf can no longer be read: card CQUAD5 is not known, and might join nodes; --ignore CQUAD5 leaves it out')
    tells('a file more', lambda: open('kept/b', 'w').close(), 'b stands in the folder and is not of the archive')
    tells('a listing that is gone', lambda: os.remove('kept/listing.txt'), 'listing.txt is missing')

    def exchanged():
        with open('kept/listing.txt', 'rb') as file:
            lines = file.read().split(b'\n')
        old = [line.split() for line in lines]
        lines[1] = b' '.join([old[1][0], old[2][1], old[1][2]])
        lines[2] = b' '.join([old[2][0], old[1][1], old[2][2]])
        with open('kept/listing.txt', 'wb') as file:
            file.write(b'\n'.join(lines))
    tells('two new numbers exchanged', exchanged, 'listing.txt ' + other,
          'the listing comes out different: 2 nodes differently numbered or levelled, the first is node 1')
    tells('another figure', put('listing.txt', b'parts 3', b'parts 4'), 'listing.txt ' + other, 'the figures are those of the listing',
          'the listing comes out different: the figures were %r and are now %r' % figures_twice())
    tells('a sum left out', put('SHA256SUMS', b'  nodes.txt', b'  nodes.tx'), 'nodes.tx is missing', 'nodes.txt has no sum',
          'nodes.txt stands in the folder and is not of the archive')
    status, checked, out, err, _ = worked(['make', 'a.bdf', '-o', 'kept'], files, put('ABOUT.txt', b'commit: ', b'commit: another '))
    c.holds('archive: another program is noted', (status, checked) == (0, 1) and re.search('note: the commit was another .* and is now', out))


def figures_twice():
    """The first line with and without the change."""
    status, _, _, _, kept = worked(['make', 'a.bdf', '-o', 'kept'], {'a.bdf': PLATE}, None, None)
    line = kept['listing.txt'].decode('ascii').split('\n')[0]
    return line.replace('parts 3', 'parts 4'), line


def refused(c):
    def fails(name, words, files, message, status=2):
        got = worked(words, files, None, None)
        c.equal('archive: ' + name, (got[0], got[2], got[3], got[4]), (status, '', message + '\n', {}))
    files = {'a.bdf': PLATE, 'kept': b'x'}
    fails('a file of its name', ['make', 'a.bdf', '-o', 'kept'], files, 'kept: stands there already; an archive goes to a new folder')
    fails('a store named as its own files', ['make', 'a.bdf', 'listing.txt', '-o', 'kept'], {'a.bdf': PLATE, 'listing.txt': b''},
          'listing.txt: two files of the archive would be named so: give one another name')
    fails('no mesh', ['make', 'b.bdf', '-o', 'kept'], {}, 'b.bdf: No such file or directory', 1)
    fails('a broken mesh', ['make', 'a.grd', '-o', 'kept'], {'a.grd': SAMPLE[:-1]},
          'a.grd: refused 12: %s; the file ends within element 4 (byte 27), a bar' % grd.MEANING[12], 1)
    fails('no archive', ['check', 'kept'], {}, 'kept/ABOUT.txt: No such file or directory', 1)

    def full(words):
        os.mkdir('kept')
        with open('kept/x', 'w'):
            pass
        return archive.main(words)
    c.equal('archive: a folder that is not empty', run(full, ['make', 'a.bdf', '-o', 'kept'], {'a.bdf': PLATE}),
            (2, '', 'kept: stands there already; an archive goes to a new folder\n', {}))
