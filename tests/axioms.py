#!/usr/bin/env python3
"""The libraries rest on no axiom, and each program on a few C functions alone, which the toolchain states; none is ours.

A program's report, and that of the static library, counts the axioms of its whole graph: the C functions that the check reached, by a proof, a
contract or linked code. That is what `rt check --list-axioms` prints in the crate's folder. A library in no static library's graph has no such
report, so of every library the code is read besides: it names nothing of std but arithmetic, and declares no C function. And every crate must be
in the graph of a program or of the static library. Each report and the code of each library is also doctored, and must then be found wrong.
"""

import glob
import os
import re
import subprocess
import sys

from staticlib import TOP, build_library

# The C functions that a program rests on: it reads, it writes, and it says what failed. They are stated in the toolchain's libc and os.
STATED = {'libc::read', 'libc::write', 'os::c::__xpg_strerror_r', 'os::c::rattle_errno'}
# Programs that have less.
LESS = {'test_graph': {'libc::read'}}
# Programs that hold their input and output in buffers of std's, and the C functions that give it memory.
BUFFERED = ('test_calls', 'test_reading')
BUFFERS = {'libc::heap::rattle_alloc', 'libc::heap::rattle_dealloc', 'libc::heap::rattle_realloc'}
# The library that the others are linked into for C, and the one that the programs of the gate share, which reads and writes.
STATIC, SHARED = 'capi_c', 'test_vectors'
TARGET = 'x86_64-unknown-linux-gnu'

# What a library's code must not have: anything of std but arithmetic, a handle, memory, C functions.
BEYOND = re.compile(r'\bstd\s*::\s*(?!num\b)|\bHostRuntime\b|\bGlobal\b|\balloc\b|\b(?:Box|Vec|String)\b|\b(?:libc|os|io)\s*::|\w+!\s*\(\s*rt\b'
                    r'|\bextern\s*(?:"C"\s*)?\{')


def crates():
    """{crate: what it may see}"""
    with open(os.path.join(TOP, 'crates.txt'), encoding='utf-8') as lines:
        pairs = (line.partition(':') for line in lines if line.strip() and not line.startswith('#'))
        return {kind.split()[0]: below.split() for kind, _, below in pairs}


def graph_of(name, below):
    """The crate, and all that it rests on."""
    found, left = set(), [name]
    while left:
        one = left.pop()
        if one not in found:
            found.add(one)
            left += below.get(one, [])
    return found


def is_program(name):
    return os.path.exists(os.path.join(TOP, 'crates', name, 'src', 'main.rt'))


def is_linked(name):
    return is_program(name) or name == STATIC


def report(name):
    """What rt says of a program or of the static library. Where libraries were built on the way, their verdicts stand before its own: it is asked again."""
    for _ in range(2):
        done = subprocess.run(['rt', 'check', '--list-axioms'], cwd=os.path.join(TOP, 'crates', name), stdin=subprocess.DEVNULL,
                              stdout=subprocess.PIPE, stderr=subprocess.STDOUT, text=True, check=False)
        if len(re.findall(r'(?m)^logic=', done.stdout)) == 1:
            break
    return done.stdout


def code(name):
    """A library's code without its comments and its ghost imports."""
    text = ''
    for path in sorted(glob.glob(os.path.join(TOP, 'crates', name, 'src', '**', '*.rt'), recursive=True)):
        with open(path, encoding='utf-8') as file:
            text += file.read()
    return re.sub(r'//[^\n]*|\bghost use [^;]*;', '', text)


def expected(name):
    """The functions that a linked crate rests on."""
    if not is_program(name):
        return set()
    return (STATED | BUFFERS if name in BUFFERED else STATED) - LESS.get(name, set())


def wrong(name, text):
    """What the report of a linked crate has that it must not have, or lacks: the verdict, its words, and the functions that were reached."""
    verdicts = [line for line in text.split('\n') if line.startswith('logic=')]
    if len(verdicts) != 1:
        return '%s: %d verdicts in its report' % (name, len(verdicts))
    fields = dict(word.partition('=')[::2] for word in verdicts[0].split())
    reached = re.findall(r'(?m)^  (\S+)\s+reached$', text)
    for field, value in {'logic': 'proved', 'foreign': None, 'axioms': str(len(reached)) if reached else None, 'target': TARGET}.items():
        if fields.get(field) != value:
            return '%s: %s is %s, must be %s: %s' % (name, field, fields.get(field), value, verdicts[0])
    counts = re.findall(r'(?m)^axioms (\S+): (\d+|none) reached of the \d+ declared$', text)
    if len(counts) != len(re.findall(r'(?m)^axioms ', text)):
        return '%s: a line of axioms of another form' % name
    for crate, count in counts:
        of_crate = [function for function in reached if function.split('::')[0] == crate]
        if crate not in ('libc', 'os', 'std') or len(of_crate) != (0 if count == 'none' else int(count)):
            return '%s: axioms of %s: %s, and %s' % (name, crate, count, ' '.join(of_crate))
    if sorted(reached) != sorted(expected(name)):
        return '%s: rests on %s' % (name, ' '.join(reached) or 'nothing')
    return ''


def beyond(name, text):
    """What a library's code names that reaches past it."""
    found = BEYOND.search(text)
    return '%s: its code has %s' % (name, found.group(0).strip()) if found and name != SHARED else ''


def doctored(text):
    """The report with this or that changed."""
    ours, other = 'axioms basis: 1 reached of the 1 declared\n  basis::f   reached\n', 'axioms os: 1 reached of the 22 declared\n  os::now   reached\n'
    for old, new in (('logic=proved', 'logic=not-proved'), ('logic=', ours + 'logic='), ('logic=', other + 'logic='), ('\nlogic=', '\n'),
                     (' target=', ' axioms=99 target='), (' sum=', ' axioms=99 sum='), (' sum=', ' foreign=here sum='), (' axioms=', ' axiom='),
                     ('libc::write   reached', 'libc::exit   reached'), ('libc::write   reached', 'libc::write   reached\n  libc::exit   reached'),
                     ('libc::write   reached', 'libc::write'), (' reached of', ' not of'), (' target=', ' other=')):
        if old in text:
            yield text.replace(old, new)


def spoilt(text):
    """The code of a library with a line more."""
    for line in ('use std::io;', 'use std :: {fs, num};', 'fn f(rt: &HostRuntime) {}', 'println!(rt; "x")?;', 'extern "C" { fn getpid() -> i32; }',
                 'extern { fn getpid() -> i32; }', 'fn f(alloc: Global) {}', 'use libc::write;', 'let v: Vec<u8> = f();'):
        yield text + '\n' + line + '\n'


def reached_by(below):
    """What is wrong with the graphs: every crate is in that of a program or of the static library; the libraries see none of the toolchain's."""
    seen = set().union(*(graph_of(name, below) for name in below if is_linked(name)))
    found = ['%s is in no report that counts axioms' % name for name in below if name not in seen]
    for name in below:
        outside = sorted(graph_of(name, below) - set(below))
        if outside and name != SHARED and not is_program(name):
            found.append('%s sees %s' % (name, ' '.join(outside)))
    return found


def main():
    below = crates()
    build_library()
    reports = {name: report(name) for name in below if is_linked(name)}
    codes = {name: code(name) for name in below if not is_program(name)}
    found = reached_by(below) + ([] if STATIC in below else ['there is no crate ' + STATIC])
    found += [text for text in [wrong(name, text) for name, text in reports.items()] + [beyond(name, text) for name, text in codes.items()] if text]
    missed = tried = 0
    for name, text in reports.items():
        for other in doctored(text):
            tried += 1
            missed += not wrong(name, other)
    for name, text in codes.items():
        for other in spoilt(text) if name != SHARED else ():
            tried += 1
            missed += not beyond(name, other)
    for text in found:
        print(text)
    programs = sum(map(is_program, below))
    print('%d libraries, %d programs, %d wrong; %d reports and texts doctored, %d not seen' % (len(codes), programs, len(found), tried, missed))
    return bool(found) or missed > 0 or tried == 0


if __name__ == '__main__':
    sys.exit(main())
