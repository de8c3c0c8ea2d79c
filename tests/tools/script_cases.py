"""The script `renumber` on meshes of every format, and how it builds, with stand-ins for the proved program and rt; tests/program.py has the real ones."""

import glob
import os
import re
import shutil
import subprocess
import tempfile
import time

from drawing_cases import PLATE
from grd_cases import HINGE, SAMPLE
from harness import DATA, TOP, grd_file, run

import page
import picture
import program
import to_grd
import to_seqgp

# What the script calls.
COMMANDS = 'awk bash cat chmod cp date dirname env find flock grep head mkdir mktemp mv python3 readlink rm sh sleep tail tee touch'.split()
NOBODY = 65534


class Place:
    """A folder with the script, a program, a toolchain and a path of their own."""

    def __init__(self, folder):
        self.folder = folder
        self.path = os.path.join(folder, 'commands')
        os.mkdir(self.path)
        for name in filter(shutil.which, COMMANDS):
            os.symlink(shutil.which(name), os.path.join(self.path, name))
        for name in ('tools', 'tests'):
            os.symlink(os.path.join(TOP, name), os.path.join(folder, name))
        shutil.copy(os.path.join(TOP, 'renumber'), os.path.join(folder, 'renumber'))
        self.put('crates.txt', 'renumber: io\n')
        self.put('crates/renumber/src/main.rt', '')
        self.program()
        # anyone may look in
        os.chmod(folder, 0o755)

    def put(self, name, content, mode=0o644):
        path = os.path.join(self.folder, name)
        os.makedirs(os.path.dirname(path), exist_ok=True)
        with open(path, 'wb') as file:
            file.write(content if isinstance(content, bytes) else content.encode('utf-8'))
        os.chmod(path, mode)
        return path

    def get(self, name):
        with open(os.path.join(self.folder, name), 'rb') as file:
            return file.read()

    def program(self, text=None):
        """The program is tests/reference, or prints a text."""
        body = 'cat > /dev/null\nprintf "%s"' % text if text else 'exec python3 "$(dirname "$0")/../../tests/reference/program.py"'
        self.put('target/bin/renumber', '#!/bin/sh\n%s\n' % body, 0o755)

    def run(self, *words, given=b'', commands=None, anyone=False, **variables):
        """Status, standard output and standard error of the script, in this folder."""
        def drop():
            os.setuid(NOBODY)
        done = subprocess.run([os.path.join(self.folder, 'renumber'), *words], input=given, stdout=subprocess.PIPE, stderr=subprocess.PIPE,
                              cwd=self.folder, env=dict(os.environ, PATH=commands or self.path, **variables), check=False,
                              preexec_fn=drop if anyone and os.getuid() == 0 else None)
        return done.returncode, done.stdout, done.stderr.decode('utf-8')


def cases(c):
    for part in (formats, strange, files_beside, explained, unknowns, without_python, stale, progress):
        with tempfile.TemporaryDirectory() as folder:
            part(c, Place(folder))


# Formats.

def converted(path, *options):
    """The listing that tests/reference gives for a file as to_grd.py converts it."""
    made = run(to_grd.main, list(options) + [path, '-o', 'a.grd'], {})[3]
    return program.text_for(made['a.grd'])


def formats(c, place):
    """Meshes of tests/tools/data, those that are refused excepted, by their content: as a file of any name, and on standard input."""
    refused = ('misspelt.inp', 'periodic_41.msh', 'pyramid14.inp', 'wedge18.inp')
    paths = [path for path in sorted(glob.glob(os.path.join(DATA, '*.*')) + glob.glob(os.path.join(DATA, '*', '*.*')))
             if os.path.splitext(path)[1] not in ('.md', '.geo', '.sh') and os.path.basename(path) not in refused]
    c.holds('script: meshes of three formats', len(paths) > 30)
    for path in paths[::4] + [path for path in paths if os.path.basename(path) in ('beam.inp', 'collapsed.bdf')]:
        name = os.path.relpath(path, DATA)
        form = ['--from', 'abaqus'] if 'calculix' in path else []
        wanted = converted(path, *form)
        c.equal('script: ' + name, place.run(path)[:2], (0, wanted))
        with open(path, 'rb') as file:
            data = file.read()
        if b'*include' not in data.lower():
            c.equal('script: %s on standard input' % name, place.run(given=data)[:2], (0, wanted))
    for path in sorted(glob.glob(os.path.join(TOP, 'examples', 't*.grd'))):
        with open(path, 'rb') as file:
            data = file.read()
        c.equal('script: %s' % path, place.run(path), (0, program.text_for(data), ''))


DECK = '$ a comment\nGRID,1,,0.,0.,0.\nGRID,2,,1.,0.,0.\nGRID,3,,1.,1.,0.\nCTRIA3,1,1,1,2,3\n'
TRIANGLE = program.text_for(grd_file(3, (2, 1, 2, 3)))


def strange(c, place):
    """Byte order marks, line ends, cards first; and what no format claims."""
    inp = '** a comment\n*NODE\n1,0,0\n2,1,0\n3,1,1\n*ELEMENT, TYPE=S3\n1,1,2,3\n'
    for name, text in (('a deck', DECK), ('a deck in small letters', DECK.lower()), ('a deck of elements', 'CTRIA3,1,1,1,2,3\n'),
                       ('a deck of elements in fixed field', 'CTRIA3         1       1       1       2       3\n'),
                       ('a whole deck', 'SOL 101\nCEND\nTITLE = GRID\nBEGIN BULK\n' + DECK + 'ENDDATA\n'),
                       ('a deck that begins with GRDSET', 'GRDSET\n' + DECK),
                       ('keywords', inp), ('keywords in small letters', inp.lower()), ('keywords after blank lines', '\n\n' + inp)):
        c.equal('script: ' + name, place.run(given=text.encode('ascii')), (0, TRIANGLE, ''))
    for name, data in (('a deck with a mark', b'\xef\xbb\xbf' + DECK.encode('ascii')), ('keywords in two bytes', inp.encode('utf-16')),
                       ('a deck with CR LF', DECK.replace('\n', '\r\n').encode('ascii')),
                       ('keywords with CR', inp.replace('\n', '\r').encode('ascii'))):
        c.equal('script: ' + name, place.run(given=data), (0, TRIANGLE, ''))
    lists = 'refused 12\n'.encode('ascii')
    for name, data in (('nothing', b''), ('prose', b'A mesh of CQUAD4 and GRID cards.\n'), ('a broken mark', b'gRD' + SAMPLE[3:]),
                       ('a broken mark, with words as of a keyword', b'gRD' + grd_file(90, (2, 10, 42, 65))[3:]),
                       ('another version', b'GRD\3' + SAMPLE[4:]),
                       ('the mark alone before keywords', b'GRD\n*NODE\n1,0,0\n'), ('a picture', b'<svg></svg>\n'), ('zeros', bytes(50))):
        c.equal('script: %s goes to the program' % name, place.run(given=data), (1, lists, ''))
    words = grd_file(90, (2, 10, 42, 65))
    c.equal('script: a mesh with words as of a keyword', place.run(given=words), (0, program.text_for(words), ''))
    c.equal('script: the wrong format by --from', place.run('--from', 'abaqus', given=DECK.encode('ascii')),
            (2, b'', 'standard input:1: data before the first keyword\n'))
    c.equal('script: an unknown format', place.run('--from', 'unv', given=DECK.encode('ascii')),
            (2, b'', 'renumber: --from unv: the formats are gmsh, abaqus and nastran\n'))
    binary = b'$MeshFormat\n4.1 1 8\n\1\0\0\0\n$EndMeshFormat\n'
    c.equal('script: a binary Gmsh file is no text', place.run(given=binary)[:2], (1, lists))


# Files beside the listing.

def files_beside(c, place):
    """Pictures, cards and maps: their contents, and what they may not be written over."""
    place.put('plate.bdf', PLATE)
    gaps = 'plate.bdf:1: node 10 comes after a gap: no node has numbers 1 to 9; --compact closes gaps\n'
    c.equal('script: gaps', place.run('plate.bdf'), (2, b'', gaps))
    deck = os.path.join(place.folder, 'plate.bdf')
    wanted = converted(deck, '--compact')
    status, out, err = place.run('--compact', 'plate.bdf')
    c.equal('script: gaps closed', (status, out), (0, wanted))
    c.equal('script: what is said of it', err.splitlines(),
            ['plate.bdf: old number 1 of the listing is node 10, and so on by rising number; --nodes FILE writes them all',
             'plate.bdf: warning: the mesh falls into 2 parts that no element joins', '  part 1, 6 nodes: 10, 20, 30, 40, 50, 60',
             '  part 2, 2 nodes: 70, 80',
             'plate.bdf: warning: joined to no other, each a part of its own, 1 node: 90'])
    status, out, err = place.run('--compact', 'plate.bdf', '--picture', 'plate.svg', '--seqgp', 'cards', '--nodes', 'map')
    c.equal('script: all files', (status, out), (0, wanted))
    place.put('plate.txt', wanted)
    made = run(picture.main, ['--both', deck, os.path.join(place.folder, 'plate.txt'), '-o', 'a.svg'], {})[3]['a.svg']
    c.equal('script: the picture', place.get('plate.svg'), made)
    c.equal('script: the map', place.get('map'), b''.join(b'%d %d\n' % (p, 10 * p) for p in range(1, 10)))
    made = run(to_seqgp.main, ['--nodes', 'm', 'l', '-o', 'a'], {'m': place.get('map'), 'l': wanted})[3]['a']
    c.equal('script: the cards', place.get('cards'), made)
    c.equal('script: the page', (place.run('--compact', 'plate.bdf', '--picture', 'plate.html')[:2],
                                 bool(page.PAGE.pattern.fullmatch(place.get('plate.html')))), ((0, wanted), True))
    grid = place.put('part.grd', SAMPLE)
    c.equal('script: a GRD file drawn and carded', place.run('part.grd', '--picture', 'part.svg', '--seqgp', 'part.bdf')[:2],
            (0, program.text_for(SAMPLE)))
    c.holds('script: its matrix', b'elimination joins' in place.get('part.svg'))
    long = PLATE.replace(',10,', ',123456789,')
    status = place.run('--compact', '--seqgp', 'long', given=long.encode('ascii'))[0]
    c.equal('script: a number too long for small field', (status, re.findall(b'123456789,[0-9]+$', place.get('long'), re.M) != []), (0, True))
    kept(c, place, grid)


def kept(c, place, grid):
    """Nothing is written over an input or another's file, and then nothing is listed."""
    before = {name: place.get(name) for name in ('plate.bdf', 'part.grd', 'crates.txt')}
    for name, words, message in (('the mesh', ['part.grd', '--picture', 'part.grd'], 'part.grd: a picture ends with .svg, a page with .html\n'),
                                 ('the mesh as cards', ['part.grd', '--seqgp', 'part.grd'],
                                  'part.grd: stands there already and is not a file of SEQGP cards alone; --force writes over it\n'),
                                 ('the deck', ['--compact', 'plate.bdf', '--seqgp', 'plate.bdf', '--force'],
                                  'plate.bdf: is an input (plate.bdf), and stays as it is\n'),
                                 ('another file', ['part.grd', '--nodes', 'crates.txt'],
                                  'crates.txt: stands there already and is not a map of node numbers; --force writes over it\n'),
                                 ('no folder', ['part.grd', '--nodes', 'none/map'], 'none/map: No such file or directory\n'),
                                 ('one file twice', ['part.grd', '--nodes', 'x', '--seqgp', 'x'], 'x: two outputs would be this file\n')):
        status, out, err = place.run(*words)
        c.equal('script: over ' + name, (status, out, err.splitlines(True)[-1:]), (2, b'', [message]))
    c.equal('script: all stay', {name: place.get(name) for name in before}, before)
    c.equal('script: forced', place.run('part.grd', '--nodes', place.put('other', 'x'), '--force')[0], 0)
    status, out, err = place.run('--picture', 'no.svg', given=SAMPLE[:-1])
    c.equal('script: nothing beside a refusal', (status, out, err, os.path.exists(os.path.join(place.folder, 'no.svg'))),
            (1, b'refused 12\n', 'renumber: the mesh is refused, so nothing is written\n', False))
    for words in (['--picture'], ['--seqgp', ''], ['part.grd', '--ignore']):
        status, out, err = place.run(*words)
        c.equal('script: %s' % words, (status, out, 'needs a name behind it' in err), (2, b'', True))


def explained(c, place):
    """--explain: all faults, or the figures in the source's own words; the listing stays as it is."""
    place.put('bad.bdf', 'GRID,1\nGRID,1\nGRID,2\nCROD,1,1,1,2\nCROD,1,1,1,2\nCWHAT,1\n')
    lines = ['bad.bdf:2: node 1 is given twice, first on line 1', 'bad.bdf:5: element 1 (CROD) is given twice, first on line 4',
             'bad.bdf:6: card CWHAT is not known, and might join nodes; --ignore CWHAT leaves it out']
    c.equal('script: the first fault', place.run('bad.bdf'), (2, b'', lines[0] + '\nbad.bdf: 2 faults more; --explain lists all\n'))
    c.equal('script: all faults', place.run('--explain', 'bad.bdf'), (2, b'', '\n  also: '.join(lines) + '\n'))
    place.put('plate.bdf', PLATE)
    wanted = converted(os.path.join(place.folder, 'plate.bdf'), '--compact')
    status, out, err = place.run('--explain', '--compact', 'plate.bdf')
    c.equal('script: a deck explained', (status, out), (0, wanted))
    c.equal('script: in its own numbers', err.splitlines()[1:3] + err.splitlines()[-6:],
            ['In words (the answer is proved, this help is not):', '  9 nodes, 3 elements (bar 1, quadrilateral 2)',
             '  part 2, 2 nodes, thickest at combined level 1 of 2, 1 node, the first of 2 such: 70', '    nodes in each level: [1] 1',
             '  warning: the mesh falls into 2 parts that no element joins', '    part 1, 6 nodes: 10, 20, 30, 40, 50, 60',
             '    part 2, 2 nodes: 70, 80',
             '  warning: joined to no other, each a part of its own, 1 node: 90'])
    status, out, err = place.run('--explain', given=grd_file(3, (2, 1, 2, 4), (1, 0, 2)))
    c.equal('script: all faults of a GRD file', (status, out, err.splitlines()[-1]),
            (1, b'refused 10\n', '  also: element 2 (byte 17), a bar, has node 0, and the nodes are 1 to 3 (10)'))
    c.equal('script: an option for the reader', place.run('--ignore', 'CWHAT', given=(DECK + 'CWHAT,1\n').encode('ascii')),
            (0, TRIANGLE, 'standard input: left out by --ignore CWHAT: 1\n'))


def unknowns(c, place):
    """Counts of unknowns: those of a GRD file, and those that the user gives for a mesh of another format."""
    c.equal('script: a GRD file with counts', place.run(given=HINGE), (0, program.text_for(HINGE), ''))
    wanted = program.text_for(grd_file(3, (2, 1, 2, 3), counts=[6, 3, 6]))
    place.put('a.bdf', DECK + 'SET1,7,2\n')
    words = ('--unknowns', 'CTRIA3=6', '--unknowns-set', '7=3')
    c.equal('script: counts given', place.run(*words, 'a.bdf'), (0, wanted, ''))
    c.equal('script: counts given for a deck on standard input', place.run('--unknowns', '6', given=DECK.encode('ascii')),
            (0, program.text_for(grd_file(3, (2, 1, 2, 3), counts=[6] * 3)), ''))
    status, out, err = place.run('--explain', '--picture', 'a.svg', *words, 'a.bdf')
    c.equal('script: counts explained', (status, out, err.splitlines()[2]),
            (0, wanted, '  3 nodes, 15 unknowns (1 node with 3, 2 nodes with 6), 1 element (triangle 1)'))
    c.holds('script: counts drawn', b'3 nodes, 15 unknowns, 1 element, 1 part' in place.get('a.svg'))
    own = 'a GRD file has its own counts of unknowns; --unknowns and --unknowns-set are for the other formats\n'
    for word in words[::2]:
        c.equal('script: %s for a GRD file' % word, place.run(word, 'a=3', given=HINGE), (2, b'', 'renumber: standard input: ' + own))
    for word, message in (('7', '--unknowns 7: a node has 1 to 6 unknowns'), ('-3', "--unknowns -3: '-3' is no count of unknowns"),
                          ('S4=3', 'a.bdf: no element is of kind S4; there are: CTRIA3, triangle')):
        c.equal('script: --unknowns ' + word, place.run('--unknowns', word, 'a.bdf'), (2, b'', message + '\n'))
    status, out, err = place.run('--unknowns')
    c.equal('script: --unknowns alone', (status, out, 'needs a name behind it' in err), (2, b'', True))


def without_python(c, place):
    """GRD files need none; other formats say so."""
    os.remove(os.path.join(place.path, 'python3'))
    place.program('refused 12\\n')
    c.equal('script: no python, GRD', place.run(given=SAMPLE), (1, b'refused 12\n', ''))
    c.equal('script: no python, a deck', place.run(given=DECK.encode('ascii')),
            (2, b'', 'renumber: standard input: this is no GRD file but a mesh of another format (nastran), and reading it needs python3, '
                     'which is not on the path\n'))
    c.equal('script: no python, a picture', place.run('--picture', 'a.svg', given=SAMPLE),
            (2, b'', 'renumber: pictures, cards and maps need python3, which is not on the path\n'))
    c.equal('script: no python, explained', place.run('--explain', given=SAMPLE), (1, b'refused 12\n', 'renumber: --explain needs python3\n'))


# The program.

def stale(c, place):
    """A program that is older than a source is not run where it can't be built; nor is anything else, and one line says why."""
    place.program('refused 12\\n')
    later = time.time() + 5
    source = os.path.join(place.folder, 'crates', 'renumber', 'src', 'main.rt')
    c.equal('script: a program that is not old', place.run(given=SAMPLE, anyone=True), (1, b'refused 12\n', ''))
    os.utime(source, (later, later))
    older = 'renumber: the program is older than crates/renumber/src/main.rt, and '
    for name in ('', 'bin'):
        os.chmod(os.path.join(place.folder, 'target', name), 0o555)
    c.equal('script: old, and target cannot be written', place.run(given=SAMPLE, anyone=True),
            (2, b'', older + 'nothing can be written in target: nothing is run\n'))
    os.chmod(os.path.join(place.folder, 'target'), 0o755)
    c.equal('script: old, and no toolchain', place.run(given=SAMPLE),
            (2, b'', older + 'the Rattle toolchain (rt) is not on the path: nothing is run\n'))
    shutil.rmtree(os.path.join(place.folder, 'target'))
    os.chmod(place.folder, 0o555)
    none = 'renumber: there is no program yet, and '
    c.equal('script: none, and target cannot be made', place.run(given=SAMPLE, anyone=True),
            (2, b'', none + 'the folder target cannot be made: nothing is run\n'))
    os.chmod(place.folder, 0o755)
    c.equal('script: none, and no toolchain', place.run(given=SAMPLE),
            (2, b'', none + 'the Rattle toolchain (rt) is not on the path: nothing is run\n'))
    shutil.rmtree(os.path.join(place.folder, 'target'))
    place.put('target', '')
    c.equal('script: none, and target is a file', place.run(given=SAMPLE), (2, b'', none + 'the folder target cannot be made: nothing is run\n'))
    os.remove(os.path.join(place.folder, 'target'))
    os.remove(os.path.join(place.folder, 'crates.txt'))
    place.put('commands/rt', '#!/bin/sh\n', 0o755)
    status, out, err = place.run(given=SAMPLE)
    c.equal('script: nothing to build', (status, out, err.splitlines()[-1]),
            (2, b'', none + 'crates.txt does not say what it is made of: nothing is run'))


# Stand-ins for the toolchain, which proved `one` before and takes so many seconds for the others, and for the clock beside it.
RT = """#!/bin/sh
now=0 looks=1
# until the clock has been looked at so often
seen() {
  until [ "$(grep -c look ../../looked 2> /dev/null || true)" = $looks ]; do sleep 0.02; done
  looks=$((looks + 1))
}
tell() {
  now=$((now + $2))
  echo $now > ../../seconds
  echo "crate $1: modules loaded=0 checked=9" >&2
  echo 'logic=proved functions=1' >&2
  seen
}
seen
tell two 100
echo 'rt: a line of another kind' >&2
tell three 90
tell renumber 3
rm ../../looked ../../seconds
mkdir -p out
printf '#!/bin/sh\\ncat > /dev/null\\necho refused 12\\n' > out/renumber
chmod +x out/renumber
echo 'rt: running out/renumber; to give it other input, run that file yourself' >&2
exec out/renumber
"""
DATE = '#!/bin/sh\nif [ -e seconds ]; then cat seconds; else echo 0; fi\necho look >> looked\n'


def progress(c, place):
    """The first build: how many there are, how long it will take, and how far it is."""
    shutil.rmtree(os.path.join(place.folder, 'target'))
    place.put('crates.txt', 'one:\ntwo: one\nthree: one\nother: two\nrenumber: one two three io\n')
    times = ['| `%s` | %d | 3 |\n' % pair for pair in (('one', 60), ('two', 200), ('three', 180), ('other', 999), ('renumber', 240))]
    place.put('docs/TIMES.md', '# Times\n\n| Crate | check | edits |\n|---|---|---|\n' + ''.join(times))
    place.put('commands/rt', RT, 0o755)
    os.remove(os.path.join(place.path, 'date'))
    place.put('commands/date', DATE, 0o755)
    # one after the other: 60 + 200 + 180 + 240 s; later at half the table's times
    lines = ['proving and building the program: 4 crates, about 11 minutes; what was proved before is not proved again',
             '2 of 4: two proved in 100 s, about 4 minutes left', '3 of 4: three proved in 90 s, about 2 minutes left', 'renumber proved in 3 s',
             '4 of 4 crates proved, 1 of them before']
    status, out, err = place.run(given=SAMPLE)
    c.equal('script: built', (status, out), (1, b'refused 12\n'))
    c.equal('script: progress', err.splitlines()[:-1], ['renumber: ' + line for line in lines])
    c.holds('script: and the end: %s' % err, re.fullmatch('renumber: proved and built in [0-9]+ s', err.splitlines()[-1]))
    c.equal('script: built once', place.run(given=SAMPLE), (1, b'refused 12\n', ''))
    os.remove(os.path.join(place.folder, 'docs', 'TIMES.md'))
    os.remove(os.path.join(place.folder, 'target', 'bin', 'renumber'))
    status, out, err = place.run(given=SAMPLE)
    c.equal('script: without the table', err.splitlines()[:2],
            ['renumber: proving and building the program: 4 crates; what was proved before is not proved again',
             'renumber: 2 of 4: two proved in 100 s'])
