#!/usr/bin/env python3
"""The script `renumber` and the program that it runs: every text is held to the independent program's, and each exit status to the rule.

  program.py                       all of it
  program.py --files N --seed S    only the program, on N random files and N damaged ones

The program is run on thousands of generated files, valid and damaged; the script on fewer, and beside stand-ins for the program and the toolchain.
Each wrong case is printed, then one line, 'N cases, M wrong'. Status 1 where one is wrong.
"""

import argparse
import glob
import os
import random
import shutil
import signal
import subprocess
import sys
import tempfile
import time

TOP = os.path.dirname(os.path.dirname(os.path.abspath(__file__)))
SCRIPT = os.path.join(TOP, 'renumber')
PROGRAM = os.path.join(TOP, 'target', 'bin', 'renumber')
sys.path[:0] = [os.path.join(TOP, 'tests', part) for part in ('tools', 'reference', 'vectors')]

from files import all_files, random_damaged, random_valid
from harness import Cases, grd_file, words
from program import text_for
from vectors import Draw

# What the script calls, for a path on which no toolchain is.
COMMANDS = 'awk bash cat chmod cp date dirname env find flock grep head mkdir mktemp mv python3 readlink rm sleep tail tee touch'.split()


def run(*words, given=b'', path=None, script=SCRIPT):
    """Exit status, standard output and standard error."""
    variables = dict(os.environ, PATH=path) if path else None
    done = subprocess.run([script, *words], input=given, stdout=subprocess.PIPE, stderr=subprocess.PIPE, env=variables, check=False)
    return done.returncode, done.stdout, done.stderr


def expected(text):
    """What a run that says nothing on standard error gives."""
    return (1 if text.startswith(b'refused') else 0), text, b''


def read(path):
    with open(path, 'rb') as file:
        return file.read()


def written(folder, content):
    path = os.path.join(folder, 'mesh.grd')
    with open(path, 'wb') as file:
        file.write(content)
    return path


# Files.

SAMPLE = grd_file(5, (1, 1, 2), (1, 1, 4), (1, 2, 3), (1, 3, 5))

# 9 + 6 * 10,921 bytes: the longest file
LONGEST = grd_file(4, *[(1, 1 + i % 4, 1 + (i + 1) % 4) for i in range(10921)])


def sample_text():
    """The text that document 01 has under its sample."""
    lines = read(os.path.join(TOP, 'docs', '01-scope.md')).decode('utf-8').split('\n')
    first = next(i for i, line in enumerate(lines) if line.startswith('    nodes 5 '))
    return ''.join(line[4:] + '\n' for line in lines[first:first + 6]).encode('ascii')


def full():
    """A mesh of 200 nodes with 32,768 entries, and the same with an edge more."""
    draw = random.Random(1)
    pairs, elements = set(), []
    while len(pairs) < 16000:
        nodes = sorted(draw.sample(range(1, 201), 10))
        pairs.update((p, q) for p in nodes for q in nodes if p < q)
        elements.append((10, *nodes))
    others = [(p, q) for p in range(1, 201) for q in range(p + 1, 201) if (p, q) not in pairs]
    elements += [(1, p, q) for p, q in others[:16384 - len(pairs)]]
    return grd_file(200, *elements), grd_file(200, *elements, (1, *others[16384 - len(pairs)]))


def counted(content, *counts):
    """The file in version 2, with these counts."""
    return content[:3] + b'\2\0' + content[5:9] + words(*counts) + content[9:]


def counted_files():
    """A name and the bytes of each: files with counts of unknowns, and such as are refused for them."""
    hub = grd_file(5, (5, 1, 2, 3, 4, 5), (1, 5, 5))
    whole = counted(SAMPLE, 3, 1, 6, 1, 2)
    bad = counted(SAMPLE, 3, 1, 7, 1, 2)
    return [('counts', whole), ('one unknown each', counted(SAMPLE, *[1] * 5)), ('one node of six', counted(grd_file(1), 6)),
            ('a pyramid in version 2', counted(hub, 2, 2, 2, 2, 6)), ('4,096 nodes of six', counted(grd_file(4096), *[6] * 4096)),
            ('a count of 7', bad), ('a count of 0', counted(SAMPLE, 0, 1, 1, 1, 1)), ('a count of 257', counted(SAMPLE, 1, 1, 1, 1, 257)),
            ('cut within the counts', whole[:18]), ('cut within the counts, after a bad one', bad[:18]), ('no counts', whole[:9]),
            ('a bad count, and no elements', bad[:19]), ('counts, and no elements', whole[:19]), ('counts, a byte left over', whole + b'\0'),
            ('a bad count, kind 0', counted(grd_file(2, (0, 1, 2)), 1, 9)), ('counts, kind 0', counted(grd_file(2, (0, 1, 2)), 1, 2)),
            ('counts, 4,097 nodes', counted(grd_file(4097), *[0] * 4097)), ('counts, no nodes', counted(grd_file(0), 7)),
            ('counts in version 3', whole[:3] + b'\3\0' + whole[5:]), ('counts in version 1', whole[:3] + b'\1\0' + whole[5:])]


def odd_files():
    """A name and the bytes of each."""
    exact, over = full()
    good = grd_file(4, (3, 1, 2, 3, 4))
    return [('empty', b''), ('8 bytes', SAMPLE[:8]), ('a header alone', grd_file(3)), ('wrong mark', b'grd' + SAMPLE[3:]),
            ('version 0', SAMPLE[:3] + b'\0\0' + SAMPLE[5:]), ('version 2, elements for counts', SAMPLE[:3] + b'\2\0' + SAMPLE[5:]),
            ('no nodes', grd_file(0)), ('4,096 nodes', grd_file(4096)),
            ('4,097 nodes', grd_file(4097)), ('kind 0', grd_file(4, (0, 1, 2))), ('kind 11', grd_file(4, (11, 1, 2))),
            ('a record past the end', good[:-1]), ('half a kind word', good[:10]), ('an element missing', good[:7] + b'\2\0' + good[9:]),
            ('node 0', grd_file(4, (2, 1, 0, 3))), ('node 5 of 4', grd_file(4, (2, 1, 5, 3))), ('a node twice', grd_file(4, (2, 1, 3, 1))),
            ('a bar on one node', grd_file(4, (1, 2, 2))), ('a corner twice', grd_file(4, (3, 1, 2, 4, 4))),
            ('a brick on one node', grd_file(4, (7, *[3] * 8))), ('a node twice, a byte left over', grd_file(4, (1, 2, 2)) + b'\0'),
            ('node 0 twice', grd_file(4, (2, 0, 3, 0))), ('node 5 of 4 twice', grd_file(4, (2, 1, 5, 5))),
            ('a byte left over', good + b'\0'), ('32,768 entries', exact), ('32,770 entries', over), ('line feeds', b'\n' * 40),
            ('the longest', LONGEST), ('65,536 bytes', LONGEST + b'\0'), ('70,000 bytes', LONGEST + bytes(4465))] + counted_files()


def damaged(draw, content):
    """One to three bytes changed, or the end cut off or longer."""
    content = bytearray(content)
    for _ in range(draw.randint(1, 3)):
        content[draw.randrange(len(content))] = draw.choice((0, 1, 2, 10, 255, draw.randrange(256)))
    return bytes(draw.choice((content, content, content[:draw.randrange(len(content))], content + b'\1')))


# Cases.

def listings(c, folder):
    """The text to the byte and the exit status, from a file and from standard input."""
    for path in sorted(glob.glob(os.path.join(TOP, 'examples', '*.grd'))):
        wanted = expected(read(path[:-4] + '.txt'))
        c.equal(path, run(path), wanted)
        c.equal(path + ' on standard input', run(given=read(path)), wanted)
    c.equal("document 01's sample", run(given=SAMPLE), expected(sample_text()))
    for name, content in odd_files():
        wanted = expected(text_for(content))
        c.equal(name, run(written(folder, content)), wanted)
        c.equal(name + ' on standard input', run('-', given=content), wanted)
    draw = random.Random(1)
    sources = [SAMPLE, read(os.path.join(TOP, 'examples', 'two_parts.grd')), counted(SAMPLE, 3, 1, 6, 1, 2)]
    for i in range(60):
        content = damaged(draw, sources[i % 3])
        c.equal('damaged %d: %r' % (i, content), run(given=content), expected(text_for(content)))


def generated(c, made):
    """The program itself, without the script."""
    for number, content in enumerate(made, 1):
        done = subprocess.run([PROGRAM], input=content, stdout=subprocess.PIPE, stderr=subprocess.PIPE, check=False)
        c.equal('generated %d: %r' % (number, content[:200]), (done.returncode, done.stdout, done.stderr), (0, text_for(content), b''))


def random_files(seed, count):
    draw = Draw(seed)
    return list(random_valid(draw, count)) + list(random_damaged(draw, count))


def in_pieces(content, size, pause):
    """A run whose input comes in small pieces."""
    with subprocess.Popen([SCRIPT], stdin=subprocess.PIPE, stdout=subprocess.PIPE, stderr=subprocess.PIPE) as process:
        for at in range(0, len(content), size):
            process.stdin.write(content[at:at + size])
            process.stdin.flush()
            time.sleep(pause)
        out, err = process.communicate()
    return process.returncode, out, err


def pieces(c):
    c.equal('byte by byte', in_pieces(SAMPLE, 1, 0.002), expected(sample_text()))
    for name, content in (('the longest', LONGEST), ('65,536 bytes', LONGEST + b'\0')):
        c.equal(name + ' in pieces', in_pieces(content, 999, 0.002), expected(text_for(content)))


def explained(c, folder):
    """--explain leaves standard output and the status as they are."""
    told = b'In words (the answer is proved, this help is not):\n  '
    figures = b'5 nodes, 4 elements (bar 4)\n  bandwidth 3 before, 1 after\n  profile 7 before, 4 after\n  front 3 before, 2 after\n'
    thickest = b'  thickest at combined level 1 of 5, 1 node, the first of 5 such: 4\n    nodes in each level: [1] 1 1 1 1\n'
    c.equal('explained', run('--explain', written(folder, SAMPLE)), (0, sample_text(), told + figures + thickest))
    c.equal('explained, standard input', run('--explain', given=SAMPLE), (0, sample_text(), told + figures + thickest))
    for content, where in ((grd_file(3, (2, 1, 2, 3), (2, 1, 2, 4)), b'element 2 (byte 17), a triangle, has node 4, and the nodes are 1 to 3'),
                           (b'', b'the file has only 0 bytes'), (LONGEST + bytes(9), b'the file is too long')):
        status, out, err = run('--explain', written(folder, content))
        c.equal('explained: %s' % where, (status, out), (1, text_for(content)))
        c.holds('explained: %s in %s' % (where, err), err.startswith(told + b'refused ') and err.endswith(where + b'\n'))
    path = written(folder, b'')
    c.equal('another answer is not explained', run(path, given=b'refused 9\n', script=os.path.join(TOP, 'tools', 'explain.py')),
            (1, b'', path.encode() + b': this help would refuse the mesh by 12; the answer of the program stands\n'))


def nothing_done(c, folder):
    """Status 2, a message, and nothing on standard output."""
    path = written(folder, SAMPLE)
    for words, message in ((['no such file'], b'no such file'), ([folder], b'is a folder'), ([path, path], b'one file'), ([''], b'one file'),
                           (['--exlpain', path], b'unknown option --exlpain')):
        status, out, err = run(*words)
        c.equal('%s: status and output' % words, (status, out), (2, b''))
        c.holds('%s: %s' % (words, err), message in err)
    # reading it fails at once
    for words in ([], ['--explain'], ['-']) if os.path.exists('/proc/self/mem') else []:
        with open('/proc/self/mem', 'rb', buffering=0) as file:
            done = subprocess.run([SCRIPT, *words], stdin=file, stdout=subprocess.PIPE, stderr=subprocess.PIPE, check=False)
        c.equal('a read that fails', (done.returncode, done.stdout, done.stderr), (2, b'', b'renumber: the mesh cannot be read to its end\n'))
    status, out, err = run('--help')
    c.equal('--help', (status, err), (0, b''))
    c.holds('--help says how', out.startswith(b'usage: renumber '))


# A stand-in for the program: it prints the file `text` and ends with the status in the file `status`.
STAND_IN = '#!/bin/sh\ncat > /dev/null\ncat text\nexit $(cat status)\n'


def put(path, content):
    os.makedirs(os.path.dirname(path), exist_ok=True)
    with open(path, 'wb') as file:
        file.write(content)


def stand_in(place):
    """The script beside a program of ours, and a function that runs it on what that program prints."""
    put(os.path.join(place, 'crates.txt'), b'renumber: io\n')
    script, program = os.path.join(place, 'renumber'), os.path.join(place, 'target', 'bin', 'renumber')
    put(program, STAND_IN.encode('ascii'))
    os.chmod(program, 0o755)
    put(os.path.join(place, 'target', 'renumber.built'), b'')
    shutil.copy(SCRIPT, script)

    def ran(text, status=0):
        put(os.path.join(place, 'text'), text)
        put(os.path.join(place, 'status'), b'%d\n' % status)
        return run(given=SAMPLE, script=script)
    return ran


def changed(lines, at, *others):
    """The text with others in place of the line at that place."""
    return b''.join(lines[:at] + list(others) + lines[at + 1:])


def cut_short(c, folder):
    """A text that is no whole answer is not printed: status 2 and a message."""
    ran = stand_in(os.path.join(folder, 'stand-in'))
    listing = sample_text()
    # the last level has two digits: cut by one it is a number still
    two_digits = listing[:-2] + b'12\n'
    for text in (listing, two_digits, b'refused 9\n', b'refused 12\n', text_for(grd_file(4096))):
        c.equal('whole: %r' % text[:30], ran(text), expected(text))
    cuts = [text[:size] for text in (two_digits, b'refused 12\n') for size in range(len(text))]
    lines = listing.splitlines(keepends=True)
    figures, row = lines[0], lines[3]
    broken = [changed(lines, 3), changed(lines, 5), changed(lines, 3, row, row), changed(lines, 5, lines[5], b'6 6 6\n'),
              changed(lines, 3, lines[4], row), changed(lines, 3, b'\n'), changed(lines, 3, b'\n', row), listing + b'\n', listing + listing,
              changed(lines, 3, row[:-3] + b'\n'), changed(lines, 3, row[:-1] + b' 1\n'), changed(lines, 3, row[:-1] + b'x\n'),
              changed(lines, 0), changed(lines, 0, figures, figures), changed(lines, 0, figures[:-1] + b' \n'),
              changed(lines, 0, figures[:-3] + b'\n'), changed(lines, 0, figures.replace(b'parts', b'part')),
              changed(lines, 0, figures.replace(b'nodes 5', b'nodes 6')), changed(lines, 0, figures.replace(b'nodes 5', b'nodes 4')),
              b'\n', b'refused\n', b'refused \n', b'refused x\n', b'refused 9\nrefused 9\n', b'refused 9\n1 1 1\n', b'refused 9' + listing,
              listing + b'refused 9\n', figures]
    for text in cuts + broken:
        status, out, err = ran(text)
        c.equal('not whole: %r' % text, (status, out, err), (2, b'', b"renumber: the program's output is cut short\n"))
    for text in (listing, b'refused 9\n', b''):
        c.equal('stopped: %r' % text, ran(text, 3), (2, b'', b'renumber: the program was stopped before its end\n'))


def not_written(c, folder):
    """Where standard output takes nothing, or only a part, the status is neither 0 nor 1."""
    message = b'renumber: standard output cannot be written\n'
    for content in (SAMPLE, grd_file(4096), b''):
        path = written(folder, content)
        if os.path.exists('/dev/full'):
            with open('/dev/full', 'wb') as device:
                done = subprocess.run([SCRIPT, path], stdout=device, stderr=subprocess.PIPE, check=False)
            c.equal('a full device', (done.returncode, done.stderr), (2, message))
        done = subprocess.run(['bash', '-c', '"$0" "$1" >&-', SCRIPT, path], stderr=subprocess.PIPE, check=False)
        c.equal('no standard output', (done.returncode, done.stderr), (2, message))
        for kept, wanted in ((True, (-signal.SIGPIPE, b'')), (False, (2, message))):
            # a pipe that nobody reads any more, with the signal for it and with the signal ignored
            there, here = os.pipe()
            os.close(there)
            done = subprocess.run([SCRIPT, path], stdout=here, stderr=subprocess.PIPE, restore_signals=kept, check=False)
            os.close(here)
            c.equal('a closed pipe', (done.returncode, done.stderr), wanted)


# A stand-in for the toolchain: it notes that it was called, and its program refuses everything by 12. It takes 3 s by the clock beside it.
RT = """#!/usr/bin/env bash
echo "$*" >> ../../calls
if [ -e ../../broken ]; then echo 'error: a fact' >&2; exit 1; fi
until [ -e ../../looked ]; do sleep 0.02; done
echo 3 > ../../seconds
echo 'crate renumber: modules loaded=0 checked=9' >&2
echo 'logic=proved functions=1' >&2
sleep 0.2
mkdir -p out
printf '#!/bin/sh\\ncat > /dev/null\\necho refused 12\\n' > out/renumber
chmod +x out/renumber
rm -f ../../looked ../../seconds
echo 'rt: running out/renumber; to give it other input, run that file yourself' >&2
exec out/renumber
"""
DATE = '#!/bin/sh\nif [ -e seconds ]; then cat seconds; else echo 0; fi\ntouch looked\n'


def building(c, folder):
    """Where the script stands alone: when it calls the toolchain, and what it says."""
    commands, kit, place = (os.path.join(folder, name) for name in ('commands', 'kit', 'place'))
    for made in (commands, kit, os.path.join(place, 'crates', 'renumber', 'src')):
        os.makedirs(made)
    for name in filter(shutil.which, COMMANDS):
        os.symlink(shutil.which(name), os.path.join(commands, name))
    script, source, calls = (os.path.join(place, *names) for names in (['renumber'], ['crates', 'renumber', 'src', 'main.rt'], ['calls']))
    shutil.copy(SCRIPT, script)
    for path, text in ((os.path.join(place, 'crates.txt'), 'renumber: io\n'), (source, ''), (os.path.join(kit, 'rt'), RT), (os.path.join(kit, 'date'), DATE)):
        with open(path, 'w', encoding='ascii') as file:
            file.write(text)
    for name in ('rt', 'date'):
        os.chmod(os.path.join(kit, name), 0o755)

    status, out, err = run(given=SAMPLE, path=commands, script=script)
    c.equal('no toolchain, nothing built', (status, out), (2, b''))
    c.holds('no toolchain: %s' % err, b'(rt) is not on the path' in err)
    both = kit + os.pathsep + commands
    status, out, err = run(given=SAMPLE, path=both, script=script)
    c.equal('built and run', (status, out), (1, b'refused 12\n'))
    c.holds('what is proved is said: %s' % err, b'renumber: renumber proved in 3 s\n' in err)
    for path in (both, commands):
        c.equal('run again, nothing built', run(given=SAMPLE, path=path, script=script), (1, b'refused 12\n', b''))
    c.equal('one call of the toolchain', read(calls), b'run\n')
    later = time.time() + 5
    os.utime(source, (later, later))
    c.equal('a newer source, no toolchain', run(given=SAMPLE, path=commands, script=script)[:2], (2, b''))
    c.equal('a newer source', run(given=SAMPLE, path=both, script=script)[:2], (1, b'refused 12\n'))
    c.equal('it is built again', read(calls), b'run\n' * 2)
    if shutil.which('flock'):
        shutil.rmtree(os.path.join(place, 'target'))
        os.utime(source)
        started = [subprocess.Popen([script], stdin=subprocess.DEVNULL, stdout=subprocess.PIPE, stderr=subprocess.DEVNULL,
                                    env=dict(os.environ, PATH=both)) for _ in range(3)]
        c.equal('three at once', [process.communicate()[0] for process in started], [b'refused 12\n'] * 3)
        c.equal('and one build', read(calls), b'run\n' * 3)
        os.utime(source, (later, later))
    # the source's time is still ahead
    with open(os.path.join(place, 'broken'), 'w', encoding='ascii'):
        pass
    status, out, err = run(given=SAMPLE, path=both, script=script)
    c.equal('not proved, not run', (status, out), (2, b''))
    c.holds('why: %s' % err, b'error: a fact\n' in err and b'not proved' in err)


def without_toolchain(c, folder):
    """What is built runs without it."""
    c.equal('no toolchain, all built', run(given=SAMPLE, path=os.path.join(folder, 'commands')), expected(sample_text()))


def main():
    parser = argparse.ArgumentParser(description=__doc__.split('\n')[0])
    parser.add_argument('--files', type=int)
    parser.add_argument('--seed', type=int, default=13)
    asked = parser.parse_args()
    status, _, err = run(given=SAMPLE)
    if status:
        print(err.decode('utf-8', 'replace'))
        return 1
    c = Cases()
    if asked.files is not None:
        generated(c, random_files(asked.seed, asked.files))
        return c.report()
    with tempfile.TemporaryDirectory() as folder:
        listings(c, folder)
        # every file that test_reading is run on, and random ones
        generated(c, [file for _, file in all_files()] + random_files(asked.seed, 1500))
        pieces(c)
        explained(c, folder)
        nothing_done(c, folder)
        cut_short(c, folder)
        not_written(c, folder)
        building(c, folder)
        without_toolchain(c, folder)
    return c.report()


if __name__ == '__main__':
    sys.exit(main())
