"""What a command may write over: its own kind of output, and never an input."""

import os

from harness import grd_file, run
from seqgp_cases import SAMPLE, SMALL

import to_grd
import to_seqgp

DECK = 'CROD,1,1,1,2\n'
MESH = grd_file(2, (1, 1, 2))
OTHER = grd_file(3, (2, 1, 2, 3))
MAP = b'1 1\n2 2\n'
STANDS = '%s: stands there already and is not %s; --force writes over it\n'


def after(main, words, files, before=None):
    """The status, what is said on standard error, and every file after the command."""
    def work(words):
        if before:
            before()
        try:
            status = main(words)
        except SystemExit as end:
            status = end.code
        return status, {name: open(name, 'rb').read() for name in sorted(os.listdir('.')) if os.path.isfile(name)}
    (status, left), _, err, _ = run(work, words, files)
    return status, err, left


def cases(c):
    meshes(c)
    cards(c)
    other_names(c)
    usage(c)


def meshes(c):
    """to_grd.py: the mesh and the map beside it."""
    def ends(name, words, files, status, message, **changed):
        wanted = dict(files, **{name.replace('_', '.'): data for name, data in changed.items()})
        c.equal('output: ' + name, after(to_grd.main, words, files), (status, message, wanted))
    deck = {'a.bdf': DECK.encode('ascii')}
    ends('an older mesh', ['a.bdf', '-o', 'b.grd'], dict(deck, **{'b.grd': OTHER}), 0, '', b_grd=MESH)
    ends('an older mesh with counts', ['a.bdf', '-o', 'b.grd'], dict(deck, **{'b.grd': grd_file(3, (2, 1, 2, 3), counts=[6, 6, 3])}), 0, '',
         b_grd=MESH)
    ends('counts over an older mesh', ['--unknowns', '6', 'a.bdf', '-o', 'b.grd'], dict(deck, **{'b.grd': OTHER}), 0, '',
         b_grd=grd_file(2, (1, 1, 2), counts=[6, 6]))
    ends('a count that is none', ['--unknowns', '7', 'a.bdf', '-o', 'b.grd'], dict(deck, **{'b.grd': OTHER}), 2,
         '--unknowns 7: a node has 1 to 6 unknowns\n')
    ends('an empty file', ['a.bdf', '-o', 'b.grd'], dict(deck, **{'b.grd': b''}), 0, '', b_grd=MESH)
    ends('another deck', ['a.bdf', '-o', 'b.bdf'], dict(deck, **{'b.bdf': b'GRID,1\n'}), 2, STANDS % ('b.bdf', 'a GRD file'))
    ends('another version', ['a.bdf', '-o', 'b.grd'], dict(deck, **{'b.grd': b'GRD\3\0'}), 2, STANDS % ('b.grd', 'a GRD file'))
    ends('another deck, forced', ['--force', 'a.bdf', '-o', 'b.bdf'], dict(deck, **{'b.bdf': b'GRID,1\n'}), 0, '', b_bdf=MESH)
    ends('its input', ['a.bdf', '-o', 'a.bdf'], deck, 2, 'a.bdf: is an input (a.bdf), and stays as it is\n')
    ends('its input, forced', ['--force', 'a.bdf', '-o', './a.bdf'], deck, 2, './a.bdf: is an input (a.bdf), and stays as it is\n')
    ends('an older map', ['--compact', 'a.bdf', '-o', 'b.grd'], dict(deck, **{'b.nodes': b'1 3\n2 4\n'}), 0, '', b_grd=MESH, b_nodes=MAP)
    ends('another file where the map would be', ['--compact', 'a.bdf', '-o', 'b.grd'], dict(deck, **{'b.nodes': b'2 2\n'}),
         2, STANDS % ('b.nodes', 'a map of node numbers'))
    ends('the map and the mesh in one', ['--compact', 'a.bdf', '-o', 'b.nodes'], deck, 2, 'b.nodes: two outputs would be this file\n')


def cards(c):
    """to_seqgp.py: the cards."""
    def ends(name, words, files, status, message, **changed):
        wanted = dict(files, **{name.replace('_', '.'): data for name, data in changed.items()})
        c.equal('output: ' + name, after(to_seqgp.main, words, files), (status, message, wanted))
    listing = {'a.txt': SAMPLE.encode('ascii')}
    ends('older cards', ['a.txt', '-o', 'b.bdf'], dict(listing, **{'b.bdf': b'SEQGP,1,1\n'}), 0, '', b_bdf=SMALL.encode('ascii'))
    for name, deck in (('a deck', b'GRID,1\nCROD,1,1,1,2\n'), ('a deck that begins with cards', b'SEQGP,1,1\nGRID,1\n')):
        ends(name, ['a.txt', '-o', 'b.bdf'], dict(listing, **{'b.bdf': deck}), 2, STANDS % ('b.bdf', 'a file of SEQGP cards alone'))
    ends('the listing', ['--force', 'a.txt', '-o', 'a.txt'], listing, 2, 'a.txt: is an input (a.txt), and stays as it is\n')
    names = dict(listing, m=b''.join(b'%d %d\n' % (p, 10 * p) for p in range(1, 6)))
    ends('the map', ['--force', '--nodes', 'm', 'a.txt', '-o', 'm'], names, 2, 'm: is an input (m), and stays as it is\n')


def other_names(c):
    """The same file by a link of either kind; a link to elsewhere; a folder; a device."""
    deck = {'a.bdf': DECK.encode('ascii')}
    for name, link in (('link', lambda: os.symlink('a.bdf', 'b.grd')), ('second name', lambda: os.link('a.bdf', 'b.grd'))):
        c.equal('output: its input by a ' + name, after(to_grd.main, ['--force', 'a.bdf', '-o', 'b.grd'], deck, link),
                (2, 'b.grd: is an input (a.bdf), and stays as it is\n', dict(deck, **{'b.grd': deck['a.bdf']})))
    kept = []

    def linked(words):
        status = to_grd.main(words)
        kept.append((os.path.islink('b.grd'), open('c.grd', 'rb').read()))
        return status
    after(linked, ['a.bdf', '-o', 'b.grd'], deck, lambda: os.symlink('c.grd', 'b.grd'))
    c.equal('output: a link stays one', kept, [(True, MESH)])
    c.equal('output: a folder', after(to_grd.main, ['--force', 'a.bdf', '-o', 'b'], deck, lambda: os.mkdir('b')),
            (2, 'b: is no file that may be written to\n', deck))
    c.equal('output: no file', after(to_grd.main, ['--force', 'a.bdf', '-o', 'b'], deck, lambda: os.mkfifo('b')),
            (2, 'b: is no file that may be written to\n', deck))


def usage(c):
    """Two meshes, or an output without -o: nothing is done."""
    files = {'a.msh': b'first', 'b.msh': b'second'}
    for words, message in ((['a.msh', 'b.msh'], 'the following arguments are required: -o'),
                           (['a.msh', 'b.msh', '-o', 'c.grd'], 'unrecognized arguments: b.msh')):
        status, err, left = after(to_grd.main, words, files)
        c.equal('output: ' + ' '.join(words), (status, message in err, left), (2, True, files))
    files = {'a.txt': SAMPLE.encode('ascii'), 'b.bdf': b'GRID,1\n'}
    status, err, left = after(to_seqgp.main, ['a.txt', 'b.bdf'], files)
    c.equal('output: cards without -o', (status, 'required: -o' in err, left), (2, True, files))
