"""to_grd.py as a command: limits, --compact, what it prints, and what it leaves behind."""

import os
import subprocess
import sys

from converting import KINDS, converts, fails
from harness import TOP, data, grd_file, run

import grd
import to_grd


def bars(pairs):
    """A NASTRAN deck of bars."""
    return ''.join('CROD,%d,1,%d,%d\n' % (i, p, q) for i, (p, q) in enumerate(pairs, 1))


def cases(c):
    limits(c)
    compact(c)
    printed(c)
    left_behind(c)
    command = subprocess.run([sys.executable, os.path.join(TOP, 'tools', 'to_grd.py'), 'no such file.msh', '-o', 'a.grd'],
                             stdout=subprocess.PIPE, stderr=subprocess.PIPE, cwd=os.path.join(TOP, 'tests', 'tools', 'data'), check=False)
    c.equal('to_grd: started as a command', (command.returncode, command.stdout, command.stderr),
            (1, b'', b'no such file.msh: No such file or directory\n'))


def limits(c):
    chain = [(p, p + 1) for p in range(1, 4097)]
    converts(c, 'to_grd: 4,096 nodes', 'a.bdf', bars(chain[:-1]), grd_file(4096, *[(1, p, q) for p, q in chain[:-1]]))
    fails(c, 'to_grd: 4,097 nodes', 'a.bdf', bars(chain), ':4096: 4097 nodes, and GRD has room for 4096: this is the first too many')
    long = (chain[:-1] + [(p, p + 2) for p in range(1, 4095)] + [(p, p + 3) for p in range(1, 4094)])[:10921]
    converts(c, 'to_grd: 65,535 bytes', 'a.bdf', bars(long), grd_file(4096, *[(1, p, q) for p, q in long]))
    fails(c, 'to_grd: a file too long', 'a.bdf', bars(long + [(1, 9)]),
          ':10922: element 10922 (CROD) is the first that does not fit: a GRD file has at most 65535 bytes')
    inner(c, long)
    fails(c, 'to_grd: too many neighbours', 'a.bdf', tetrahedra(),
          ': the program would refuse this mesh: refused 11: the elements give more than 32,768 neighbour entries; they give 34560')


def inner(c, long):
    """Elements whose nodes all lie in another one."""
    status, out, err, made = run(to_grd.main, ['a.bdf', '-o', 'out.grd'], {'a.bdf': bars(long + long[:20])})
    c.equal('inner: left out where the file is too long', (status, out, err, made.get('out.grd')),
            (0, 'out.grd: 4,096 nodes, 10,921 elements (bar 10921)\nelements left out, as their nodes all lie in another: 20\n', '',
             grd_file(4096, *[(1, p, q) for p, q in long])))
    deck = 'CROD,1,1,2,1\nCTRIA3,2,1,1,2,3\nCQUAD4,3,1,4,3,2,1\nCTRIA3,4,1,3,4,5\nCTRIA3,5,1,5,4,3\nCROD,6,1,1,5\n'
    got = run(to_grd.main, ['--drop-inner', 'a.bdf', '-o', 'out.grd'], {'a.bdf': deck})
    c.equal('inner: left out where asked', got,
            (0, 'out.grd: 5 nodes, 3 elements (bar 1, triangle 1, quadrilateral 1)\nelements left out, as their nodes all lie in another: 3\n', '',
             {'out.grd': grd_file(5, (3, 4, 3, 2, 1), (2, 3, 4, 5), (1, 1, 5))}))
    whole = run(to_grd.main, ['a.bdf', '-o', 'out.grd'], {'a.bdf': deck})[3]['out.grd']
    c.equal('inner: the same nodes adjoin without', grd.neighbours(grd.read(got[3]['out.grd'])), grd.neighbours(grd.read(whole)))


def tetrahedra():
    """384 groups of ten nodes with no pair in common: 90 entries each."""
    lines = []
    for i in range(384):
        row, at = i // 6, 10 * (i % 6)
        fields = [i + 1, 1] + [64 * row + at + t + 1 for t in range(10)]
        lines.append('CTETRA,' + ','.join(str(f) for f in fields[:8]))
        lines.append(',' + ','.join(str(f) for f in fields[8:]))
    grid = ['GRID,%d' % p for p in range(1, 4097)]
    return '\n'.join(grid + lines) + '\n'


def compact(c):
    text = 'GRID,30\nGRID,7\nGRID,1000000\nCTRIA3,1,1,7,1000000,30\n'
    status, out, err, made = run(to_grd.main, ['--compact', 'a.bdf', '-o', 'out.grd'], {'a.bdf': text})
    c.equal('compact: mesh', made.get('out.grd'), grd_file(3, (2, 1, 3, 2)))
    c.equal('compact: map', made.get('out.nodes'), b'1 7\n2 30\n3 1000000\n')
    c.equal('compact: printed', (status, out, err),
            (0, 'out.grd: 3 nodes, 1 element (triangle 1)\nout.nodes: the numbers before and after closing gaps\n', ''))
    status, _, _, made = run(to_grd.main, ['--compact', 'kinds.inp', '-o', 'out.grd'], {'kinds.inp': data('kinds.inp')})
    c.equal('compact: no gap changes nothing', (status, made.get('out.grd')), (0, KINDS))
    fails(c, 'compact: no such node all the same', 'a.bdf', text + 'CROD,2,1,7,8\n', ':5: element 2 (CROD): there is no node 8', '--compact')


def printed(c):
    """What it prints: kinds, one-node elements left out, nodes joined to no other."""
    got = run(to_grd.main, ['kinds22.msh', '-o', 'a.grd'], {'kinds22.msh': data('kinds22.msh')})
    c.equal('to_grd: printed', got[1],
            'a.grd: 12 nodes, 10 elements (bar 1, triangle 1, quadrilateral 1, tetrahedron 1, pyramid 1, wedge 1, brick 1, '
            '6-node triangle 1, 8-node quadrilateral 1, 10-node tetrahedron 1)\n'
            'one-node elements left out, as they join nothing: 1\n')
    got = run(to_grd.main, ['a.bdf', '-o', 'a.grd'], {'a.bdf': 'GRID,1\nGRID,2\nGRID,3\nGRID,4\nCROD,1,1,1,2\n'})
    c.equal('to_grd: nodes alone', got[1], 'a.grd: 4 nodes, 1 element (bar 1)\nnodes joined to no other, each a part of its own: 2\n')


def left_behind(c):
    fails(c, 'to_grd: ending', 'a.xyz', '', ": the ending '.xyz' tells no format: say --from gmsh, abaqus or nastran")
    good = {'a.bdf': bars([(1, 2)])}
    c.equal('to_grd: no such folder', run(to_grd.main, ['a.bdf', '-o', 'b/a.grd'], good), (1, '', 'b/a.grd: No such file or directory\n', {}))
    old = {'a.bdf': 'GRID,1\n' + bars([(1, 2)]), 'a.grd': b'older', 'a.nodes': b'older'}

    def main(words):
        status = to_grd.main(words)
        with open('a.grd', 'rb') as file:
            return status, file.read()
    c.equal('to_grd: an older file stays', run(main, ['--compact', 'a.bdf', '-o', 'a.grd'], old),
            ((1, b'older'), '', 'a.bdf:2: element 1 (CROD): there is no node 2\n', {}))
