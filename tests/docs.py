#!/usr/bin/env python3
"""Every command in the pages is run, and prints what stands under it.

A command stands after four blanks and '$ '; the lines under it, to the next command or the end of the block, are its output, where a line '..'
stands for any lines that follow. A command that takes long, or that runs this test, is named here with what runs it.
"""

import glob
import os
import re
import subprocess
import sys
import tempfile

TOP = os.path.dirname(os.path.dirname(os.path.abspath(__file__)))
sys.path.insert(0, os.path.join(TOP, 'tests', 'tools'))

from gmsh_cases import mesh
from harness import Cases, grd_file

PAGES = ['README.md', 'docs/*.md', '*/README.md', 'tests/*/README.md', 'examples/*/README.md']
# Documents 01 and 02 are not ours to mark.
LEFT_OUT = ['docs/01-scope.md', 'docs/02-change-requests.md']

# The input files that the pages speak of and the repository hasn't.
FILES = {'arm.msh': mesh(range(1, 21), [(1, 1, 2), (8, 1, 2, 3)]).encode('ascii'),
         'arm.inp': b'*NODE\n1\n2\n4\n9\n*ELEMENT, TYPE=S4\n1, 1, 2, 4, 9\n',
         'broken.grd': grd_file(3, (2, 1, 2, 4))}

# Commands that run this test or take long: the script that runs them, or their short form, and the line in it.
ELSEWHERE = {'.ci/run': ('.ci/run', 'tests/run'), 'tests/run': ('tests/run', 'tests/docs.py'),
             'tests/run --long': ('tests/run', 'python3 tests/interface/compare.py'), 'bench/run': ('tests/run', 'bench/run --quick')}
# A command that takes minutes, and its short form.
SHORT = {'tests/definitions/compare.py': 'tests/definitions/compare.py --graphs 1 --files 1'}
# Commands that work on the crates themselves, not in a folder beside them.
ON_CRATES = 'rt '
# What a command looks like: no page has one without its '$'.
BARE = re.compile(r'    (\./|\.ci/|tests/|tools/|bench/|examples/|python3 |rt )')


def commands(page):
    """Pairs of a command and the lines under it; and the lines that look like a command and are not marked."""
    found, bare, inside = [], [], False
    with open(os.path.join(TOP, page), encoding='utf-8') as lines:
        for line in lines:
            if line.startswith('    $ '):
                found.append((line[6:].strip(), []))
                inside = True
            elif line.startswith('    ') and inside:
                found[-1][1].append(line[4:])
            else:
                inside = False
                if BARE.match(line):
                    bare.append(line.strip())
    return found, bare


def prints(got, lines):
    """Whether the output is these lines; '..' stands for the rest."""
    if lines and lines[-1].strip() == '..':
        return got.startswith(''.join(lines[:-1]))
    return got == ''.join(lines)


def try_command(c, page, command, lines, folder):
    name = '%s: %s' % (page, command)
    if command in ELSEWHERE:
        script, line = ELSEWHERE[command]
        with open(os.path.join(TOP, script), encoding='utf-8') as file:
            c.holds('%s is run by %s' % (name, script), line in file.read())
        return
    where = TOP if command.startswith(ON_CRATES) else folder
    ran = subprocess.run(SHORT.get(command, command), shell=True, cwd=where, stdout=subprocess.PIPE, stderr=subprocess.STDOUT, check=False)
    if command in SHORT:
        c.equal(name, ran.returncode, 0)
    else:
        got = ran.stdout.decode('utf-8')
        c.equal(name, got if not prints(got, lines) else '', '')


def main():
    c = Cases()
    pages = sorted({os.path.relpath(path, TOP) for pattern in PAGES for path in glob.glob(os.path.join(TOP, pattern))} - set(LEFT_OUT))
    # the first ./renumber builds the program and says so, which no page shows
    c.equal('./renumber is built', subprocess.run(['./renumber', 'examples/two_parts.grd'], cwd=TOP, stdout=subprocess.DEVNULL, stderr=subprocess.DEVNULL, check=False).returncode, 0)
    with tempfile.TemporaryDirectory() as folder:
        for name in os.listdir(TOP):
            os.symlink(os.path.join(TOP, name), os.path.join(folder, name))
        for name, content in FILES.items():
            with open(os.path.join(folder, name), 'wb') as file:
                file.write(content)
        for page in pages:
            found, bare = commands(page)
            c.equal(page + ': commands without $', bare, [])
            for command, lines in found:
                try_command(c, page, command, lines, folder)
    return c.report()


if __name__ == '__main__':
    sys.exit(main())
