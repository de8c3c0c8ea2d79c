#!/usr/bin/env python3
""".ci/run beside stand-ins for rt and tests/run: what it passes, what it fails, and its last line. Nothing is proved.

A folder has a copy of the script, a crate and TOOLCHAIN; its rt notes how it was called and what stood beside it, and prints a recorded report.
"""

import os
import re
import shutil
import subprocess
import sys
import tempfile

TOP = os.path.dirname(os.path.dirname(os.path.abspath(__file__)))
sys.path.insert(0, os.path.join(TOP, 'tests', 'tools'))

from harness import Cases

KIT = 'rattle-kit-0 logic 0123'
RT = '''#!/bin/sh
if [ "$1" = version ]; then cat kit; exit; fi
echo "$#: $*" >> calls
find . -path ./target -prune -o -type f -print | sort > seen
cat report
exit "$(cat status)"
'''
TESTS = '''#!/bin/sh
echo ran > tests-ran
cat tests-report
exit "$(cat tests-status)"
'''
PROVED = '''== words
fn words::wide: proved
logic=proved functions=1 sum=0123
rt: words proved
rt: basis is kept: an earlier run on this machine proved the same files over the same libraries
rt: words: its tests are proved
rt: words: trying its must-fail edits (3)
'''
OK = 'rt: ok; handles allowed: none; must-fail edits: %s; every proof and must-fail edit was done in this run\n'
GOOD = PROVED + OK % '3 refused' + '5 passed, 0 failed\n'
LIMITED = PROVED + OK % '3 refused, 1 of them only by a limit' + '5 passed, 0 failed\n'
BAD = PROVED + 'rt: must-fail words/one.edit: BAD EDIT: it changes nothing\n' + OK % '1 refused, 2 bad' + '3 passed, 0 failed\n'
BAD_LIMITED = PROVED + OK % '3 refused, 1 of them only by a limit, 1 bad' + '5 passed, 0 failed\n'
NO_EDIT = PROVED + 'rt: ok; handles allowed: none; every proof and must-fail edit was done in this run\n2 passed, 0 failed\n'
FAILED = PROVED + 'rt: rows NOT PROVED\nrt: FAILED: rows\n4 passed, 1 failed\n'
PART = PROVED + 'rt: words and the crates below passed, and that is kept. This is not the gate: run rt ci with no names\n'
PART += '2 passed, 0 failed (words and the crates below alone: not the gate)\n'
WELL = 'ok: one: 3 cases\nskipped: two: no gfortran\n'
# what it is, rt's report and status, the tests' and theirs; the status that is due, the last line, and whether the tests are run
CASES = (
    ('all passes', GOOD, 0, WELL, 0, 0, '5 passed, 0 failed', True),
    ('an edit that only a limit refuses', LIMITED, 0, WELL, 0, 0, '5 passed, 0 failed', True),
    ('no edits', NO_EDIT, 0, WELL, 0, 0, '2 passed, 0 failed', True),
    ('a crate is not proved', FAILED, 1, WELL, 0, 1, '4 passed, 1 failed', False),
    ('rt stops', 'rt: the disk is full\n0 passed, 1 failed\n', 2, WELL, 0, 2, '0 passed, 1 failed', False),
    ('rt breaks off', PROVED + 'Traceback\n', 1, WELL, 0, 1, '0 passed, 1 failed', False),
    ('rt breaks off with status 0', PROVED, 0, WELL, 0, 1, '0 passed, 1 failed', False),
    ('rt says nothing', '', 0, WELL, 0, 1, '0 passed, 1 failed', False),
    ('a failure with status 0', FAILED, 0, WELL, 0, 1, '4 passed, 1 failed', False),
    ('status 1 without a failure', GOOD, 1, WELL, 0, 1, '0 passed, 1 failed', False),
    ('no line ok', PROVED + '5 passed, 0 failed\n', 0, WELL, 0, 1, '0 passed, 1 failed', False),
    ('some crates alone', PART, 0, WELL, 0, 1, '0 passed, 1 failed', False),
    ('bad edits', BAD, 0, WELL, 0, 1, '3 passed, 2 failed', False),
    ('a bad edit beside one that only a limit refuses', BAD_LIMITED, 0, WELL, 0, 1, '5 passed, 1 failed', False),
    ('two tests fail', GOOD, 0, WELL + 'FAILED: three\nFAILED: four\n', 1, 1, '5 passed, 2 failed', True),
    ('the tests break off', GOOD, 0, 'ok: one: 3 cases\n', 7, 1, '5 passed, 1 failed', True),
)


def put(folder, name, text, mode=0o644):
    path = os.path.join(folder, name)
    os.makedirs(os.path.dirname(path), exist_ok=True)
    with open(path, 'w', encoding='utf-8') as file:
        file.write(text)
    os.chmod(path, mode)


def get(folder, name):
    path = os.path.join(folder, name)
    if not os.path.exists(path):
        return ''
    with open(path, encoding='utf-8') as file:
        return file.read()


def gate(folder, path=None):
    """Status and lines of the script, called from another folder."""
    paths = os.path.join(folder, 'bin') + os.pathsep + os.environ['PATH'] if path is None else path
    ran = subprocess.run(['bash', os.path.join(folder, '.ci', 'run')], cwd=os.path.dirname(folder), stdout=subprocess.PIPE, stderr=subprocess.STDOUT,
                         text=True, env=dict(os.environ, PATH=paths), check=False)
    return ran.returncode, ran.stdout.splitlines()


def files_in(folder):
    return sorted('./' + os.path.relpath(os.path.join(at, name), folder) for at, _, names in os.walk(folder) for name in names)


def try_case(c, folder, name, report, status, tests, tests_status, due, last, tested):
    for path, text in (('report', report), ('status', str(status)), ('tests-report', tests), ('tests-status', str(tests_status)), ('calls', ''), ('seen', '')):
        put(folder, path, text)
    before = files_in(folder)
    got, lines = gate(folder)
    c.equal(name, (got, lines[-1], bool(get(folder, 'tests-ran'))), (due, last, tested))
    c.equal(name + ': one run of rt ci, with no names', get(folder, 'calls'), '1: ci\n')
    c.equal(name + ': over all that stands there', get(folder, 'seen').splitlines(), before)
    c.equal(name + ": rt's lines, but its last", lines[:len(report.splitlines()[:-1])], report.splitlines()[:-1])
    c.equal(name + ': one line counts', sum(bool(re.match(r'\d+ passed, \d+ failed', line)) for line in lines), 1)
    if 'rt: words proved\n' in report:
        at = lines.index('crates proved in this run, with the seconds from its start, last first:')
        c.holds(name + ': a time for each crate proved', lines[at + 1].split()[1:] == ['words'] and not lines[at + 2:at + 3] == ['basis'])
    if tested:
        os.remove(os.path.join(folder, 'tests-ran'))


def main():
    c = Cases()
    with tempfile.TemporaryDirectory() as place:
        folder = os.path.join(place, 'repository')
        os.makedirs(os.path.join(folder, '.ci'))
        shutil.copy(os.path.join(TOP, '.ci', 'run'), os.path.join(folder, '.ci', 'run'))
        for path, text, mode in (('bin/rt', RT, 0o755), ('tests/run', TESTS, 0o755), ('kit', KIT + '\n', 0o644), ('TOOLCHAIN', KIT + '\n', 0o644),
                                 ('crates.txt', 'words:\n', 0o644), ('crates/words/src/lib.rt', '', 0o644), ('crates/words/out/x', '', 0o644)):
            put(folder, path, text, mode)
        for case in CASES:
            try_case(c, folder, *case)
        for path, text in (('report', GOOD), ('status', '0'), ('tests-report', WELL), ('tests-status', '0')):
            put(folder, path, text)
        c.holds('its own kit: no warning', not any('warning' in line for line in gate(folder)[1]))
        put(folder, 'TOOLCHAIN', 'another\n')
        status, lines = gate(folder)
        c.equal('another kit: a warning', (status, lines[0]), (0, "warning: this toolchain is '%s', the one of TOOLCHAIN is 'another'" % KIT))
        bare = os.path.join(place, 'commands')
        os.makedirs(bare)
        for command in ('bash', 'dirname'):
            os.symlink(shutil.which(command), os.path.join(bare, command))
        status, lines = gate(folder, bare)
        c.equal('no rt', (status, lines[-1]), (1, '0 passed, 1 failed'))
    return c.report()


if __name__ == '__main__':
    sys.exit(main())
