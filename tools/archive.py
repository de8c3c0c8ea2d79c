#!/usr/bin/env python3
"""An archive of a renumbering, so that a store opens years later: what is kept beside it, and a check that numbers again.

  archive.py make MESH [STORE ..] -o FOLDER    number the mesh and keep everything in a new folder; STORE are the coefficient files
  archive.py check FOLDER                      the files are unchanged, and the numbering comes out the same
  archive.py check --independent FOLDER        numbered by tests/reference, where the proved program can't be built any more
"""

import argparse
import datetime
import glob
import hashlib
import os
import re
import shlex
import subprocess
import sys
import tempfile

import counts
import figures
import fill
import grd
import result
import source
from files import command, read_bytes
from model import Fault, Stop
from to_grd import map_bytes

HERE = os.path.dirname(os.path.realpath(__file__))
TOP = os.path.dirname(HERE)
FIRST = 'A renumbered mesh and its store, kept by wagonepoch/tools/archive.py, version 1'

# The files of an archive beside the mesh and the stores.
MESH, NODES, LISTING, ABOUT, SUMS = 'mesh.grd', 'nodes.txt', 'listing.txt', 'ABOUT.txt', 'SHA256SUMS'

OPENING = '''
How the store is opened, without any program of ours. listing.txt has a line for each node: its number in mesh.grd, its new number, its
level. nodes.txt has a line for each node: its number in mesh.grd, its number in the mesh file. For a new number q, f_q is the least of q and
the new numbers of the nodes that share an element with it. s_q is the sum of r - f_r over all r below q. The coefficient of the new numbers
p < q has place s_q + p - f_q, counted from 0, where p is at least f_q; otherwise it is zero and has no place. Diagonal coefficients are
kept apart. mesh.grd: the letters GRD, then 16-bit words, low byte first: 1, the count of nodes, the count of elements, and for each element
its kind and its nodes (kinds 1 to 10 have 2, 3, 4, 4, 5, 6, 8, 6, 8, 10 nodes). SHA256SUMS is for the command sha256sum -c.
'''

# The same for a mesh with counts of unknowns.
COUNTED_OPENING = '''
How the store is opened, without any program of ours. listing.txt has a line for each node: its number in mesh.grd, its new number, its
level. nodes.txt has a line for each node: its number in mesh.grd, its number in the mesh file. The nodes have the counts of unknowns that
mesh.grd says. Unknowns are numbered from 1 on: those of the node with new number 1, then those of the node with new number 2, and so on. Two
unknowns of one node adjoin, and so do those of two nodes that share an element. For an unknown q, f_q is the least of q and the unknowns that
it adjoins. s_q is the sum of r - f_r over all r below q. The coefficient of the unknowns p < q has place s_q + p - f_q, counted from 0, where
p is at least f_q; otherwise it is zero and has no place. Diagonal coefficients are kept apart. mesh.grd: the letters GRD, then 16-bit words,
low byte first: 2, the count of nodes, the count of elements, the count of unknowns of each node, and for each element its kind and its nodes
(kinds 1 to 10 have 2, 3, 4, 4, 5, 6, 8, 6, 8, 10 nodes). SHA256SUMS is for the command sha256sum -c.
'''


def sha256(data):
    return hashlib.sha256(data).hexdigest()


# What is noted of the program.

def said(*words):
    """The first line that a command prints, or an empty text where it can't be run."""
    try:
        done = subprocess.run(words, cwd=TOP, stdout=subprocess.PIPE, stderr=subprocess.DEVNULL, check=False)
    except OSError:
        return ''
    return done.stdout.decode('utf-8', 'replace').split('\n')[0].strip() if done.returncode == 0 else ''


def sources():
    """One sum over the crates' files, by name."""
    total = hashlib.sha256()
    paths = [os.path.join(TOP, 'crates.txt')]
    for part in ('src', 'specs', 'proofs'):
        paths += glob.glob(os.path.join(TOP, 'crates', '*', part, '**', '*'), recursive=True)
    for path in sorted(path for path in paths if os.path.isfile(path)):
        total.update(('%s %s\n' % (sha256(read_bytes(path)), os.path.relpath(path, TOP))).encode('utf-8'))
    return total.hexdigest()


def version():
    """The file VERSION's line."""
    path = os.path.join(TOP, 'VERSION')
    return read_bytes(path).decode('utf-8').strip() if os.path.exists(path) else 'not known'


def program_facts():
    commit = said('git', 'rev-parse', 'HEAD') or 'not known'
    if said('git', 'status', '--porcelain', '--', 'crates', 'crates.txt'):
        commit += ' with changes'
    return [('version', version()), ('commit', commit), ('sources', 'sha256 ' + sources()), ('toolchain', said('rt', 'version') or 'not known')]


# Numbering.

def by_program(data):
    """The proved program's listing."""
    with tempfile.TemporaryDirectory() as folder:
        path = os.path.join(folder, MESH)
        with open(path, 'wb') as file:
            file.write(data)
        done = subprocess.run([os.path.join(TOP, 'renumber'), path], stdout=subprocess.PIPE, stderr=subprocess.PIPE, check=False)
    if done.returncode == 2:
        words = done.stderr.decode('utf-8', 'replace').strip().split('\n')[-1]
        raise Stop(0, '%s (check --independent takes tests/reference)' % words, 'the program')
    return done.stdout


def by_reference(data):
    """The listing of the independent program, which needs nothing but Python."""
    sys.path.insert(0, os.path.join(TOP, 'tests', 'reference'))
    import program
    return program.text_for(data)


def listed(text):
    return result.read(text.decode('ascii', 'replace').splitlines())


# Making.

def about(name, reading, found, text, stores):
    """The page of the archive: facts, a line each, then how the store is opened."""
    graph = figures.graph(found.mesh)
    total, new = fill.counts(figures.renumbered(graph, listed(text).numbers))
    facts = [('made', datetime.datetime.now(datetime.timezone.utc).strftime('%Y-%m-%d')), ('mesh', name), ('read', reading)] + program_facts()
    facts += [('figures', text.decode('ascii').split('\n')[0]),
              ('before', 'bandwidth %d profile %d front %d' % figures.figures(graph)),
              ('elimination', 'marks %d new %d' % (total, new))]
    facts += [('store', '%s, %s' % (store, grd.counted(size, 'byte'))) for store, size in stores]
    return '\n'.join([FIRST, ''] + ['%s: %s' % fact for fact in facts]) + '\n' + (OPENING if found.mesh.counts is None else COUNTED_OPENING)


def reading_words(options):
    """The options of a reading, as one line."""
    words = ['--from', options.format] if options.format else []
    for name in options.ignore:
        words += ['--ignore', name]
    return shlex.join(words + ['--drop-inner'] * options.drop_inner + counts.words(options))


def reading_options(text):
    parser = argparse.ArgumentParser(prog='archive.py')
    source.add_reading_options(parser)
    return parser.parse_args(shlex.split(text))


def mesh_files(paths):
    """The mesh file and those that it takes in, by names from its folder."""
    for path in dict.fromkeys(paths):
        name = os.path.relpath(path, os.path.dirname(paths[0]) or '.')
        if name.startswith(os.pardir):
            raise Stop(0, 'is taken in from another folder: archive one mesh file that holds all', path)
        yield name, read_bytes(path)


def kept(arguments):
    """Pairs of a name and bytes: everything but the sums."""
    found = source.read(arguments.mesh, arguments)
    data = grd.write(found.mesh)
    text = by_program(data)
    listed(text)
    files = list(mesh_files(found.paths))
    stores = [(os.path.basename(path), read_bytes(path)) for path in arguments.stores]
    page = about(files[0][0], reading_words(arguments), found, text, [(name, len(content)) for name, content in stores])
    files += stores + [(MESH, data), (NODES, map_bytes(found.numbers)), (LISTING, text), (ABOUT, page.encode('utf-8'))]
    # a GRD file named so is the same file as the copy
    if files[0] == (MESH, data):
        files.pop(0)
    names = [name for name, _ in files]
    twice = sorted({name for name in names if names.count(name) > 1 or name == SUMS})
    if twice:
        raise Stop(0, 'two files of the archive would be named so: give one another name', twice[0])
    return files


def make(arguments):
    folder = arguments.output
    if os.path.exists(folder) and (not os.path.isdir(folder) or os.listdir(folder)):
        raise Stop(0, 'stands there already; an archive goes to a new folder', folder)
    files = kept(arguments)
    files.append((SUMS, ''.join('%s  %s\n' % (sha256(data), name) for name, data in files).encode('utf-8')))
    try:
        for name, data in files:
            os.makedirs(os.path.dirname(os.path.join(folder, name)), exist_ok=True)
            with open(os.path.join(folder, name), 'xb') as file:
                file.write(data)
    except OSError as error:
        raise Fault(0, error.strerror, folder) from None
    print('%s: %s' % (folder, ', '.join(name for name, _ in files)))


# Checking.

def facts_of(text):
    """The facts of an ABOUT.txt, the first of each name."""
    lines = text.decode('utf-8', 'replace').split('\n')
    if lines[0] != FIRST:
        raise Fault(1, 'this is no archive of archive.py, version 1')
    facts = {}
    for line in lines[2:]:
        match = re.fullmatch('([a-z]+): (.*)', line)
        if not match:
            break
        facts.setdefault(*match.groups())
    return facts


def sums_of(text):
    sums = {}
    for number, line in enumerate(text.decode('utf-8', 'replace').splitlines(), 1):
        match = re.fullmatch('([0-9a-f]{64})  ([^/].*)', line)
        if not match or os.pardir in match.group(2).split('/'):
            raise Fault(number, 'a line has a sum of 64 digits, two blanks and a name', SUMS)
        sums[match.group(2)] = match.group(1)
    return sums


def difference(old, new):
    """What differs between two listings, in words."""
    old, new = old.split(b'\n'), new.split(b'\n')
    if old[0] != new[0]:
        return 'the figures were %r and are now %r' % (old[0].decode('ascii', 'replace'), new[0].decode('ascii', 'replace'))
    nodes = [i for i, pair in enumerate(zip(old, new)) if pair[0] != pair[1]]
    return '%s differently numbered or levelled, the first is node %d' % (grd.counted(len(nodes), 'node'), nodes[0]) if nodes else 'the ends differ'


def unchanged(folder):
    """A line for each file: a text and whether it holds."""
    sums = sums_of(read_bytes(os.path.join(folder, SUMS)))
    for name, wanted in sums.items():
        path = os.path.join(folder, name)
        if not os.path.isfile(path):
            yield '%s is missing' % name, False
        else:
            same = sha256(read_bytes(path)) == wanted
            yield '%s is %s' % (name, 'unchanged' if same else 'not the file that was archived'), same
    for name in (MESH, NODES, LISTING, ABOUT):
        if name not in sums:
            yield '%s has no sum' % name, False
    there = {os.path.relpath(os.path.join(at, name), folder) for at, _, names in os.walk(folder) for name in names}
    for name in sorted(there - set(sums) - {SUMS}):
        yield '%s stands in the folder and is not of the archive' % name, False


def numbered_again(folder, facts, number):
    """The mesh file still gives mesh.grd and nodes.txt, and mesh.grd the listing."""
    data, text = (read_bytes(os.path.join(folder, name)) for name in (MESH, LISTING))
    yield 'the figures are those of the listing', facts.get('figures', '').encode('utf-8') == text.split(b'\n')[0]
    name = os.path.basename(facts.get('mesh', MESH))
    try:
        found = source.read(os.path.join(folder, name), reading_options(facts.get('read', '')))
        same = (grd.write(found.mesh), map_bytes(found.numbers)) == (data, read_bytes(os.path.join(folder, NODES)))
        yield '%s %s the mesh of %s' % (name, 'is still' if same else 'no longer gives', MESH), same
    except Fault as fault:
        yield '%s can no longer be read: %s' % (name, fault), False
    again = number(data)
    yield 'the listing comes out the same' if again == text else 'the listing comes out different: ' + difference(text, again), again == text


def check(arguments):
    folder = arguments.folder
    facts = facts_of(read_bytes(os.path.join(folder, ABOUT)))
    lines = list(unchanged(folder))
    if all(os.path.isfile(os.path.join(folder, name)) for name in (MESH, NODES, LISTING)):
        lines += numbered_again(folder, facts, by_reference if arguments.independent else by_program)
    for text, holds in lines:
        print('%s: %s' % ('ok' if holds else 'WRONG', text))
    for name, now in program_facts():
        if facts.get(name) != now:
            print('note: the %s was %s and is now %s' % (name, facts.get(name), now))
    bad = sum(1 for _, holds in lines if not holds)
    print('%s: %d hold, %d do not' % (folder, len(lines) - bad, bad))
    if bad:
        raise Fault(0, 'the archive does not hold', folder)


def main(words):
    parser = argparse.ArgumentParser(prog='archive.py', description='keep a renumbering so that its store opens years later, and check it')
    commands = parser.add_subparsers(dest='command', metavar='make|check', required=True)
    making = commands.add_parser('make', help='number a mesh and keep everything in a new folder')
    source.add_reading_options(making)
    making.add_argument('mesh', metavar='MESH')
    making.add_argument('stores', metavar='STORE', nargs='*', help='files of coefficients to keep with it')
    making.add_argument('-o', dest='output', metavar='FOLDER', required=True, help='the new folder')
    checking = commands.add_parser('check', help='the files are unchanged and the numbering comes out the same')
    checking.add_argument('--independent', action='store_true', help='number by tests/reference, not by the proved program')
    checking.add_argument('folder', metavar='FOLDER')
    arguments = parser.parse_args(words)
    if arguments.command == 'make':
        return command(lambda: make(arguments), arguments.mesh)
    return command(lambda: check(arguments), arguments.folder)


if __name__ == '__main__':
    sys.exit(main(sys.argv[1:]))
