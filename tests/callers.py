#!/usr/bin/env python3
"""The examples in C, Fortran and Rust: built over the static library, run on three meshes and on broken files, held to the independent program.

`renumber` must print what the program prints for every file, so it is run on many, and `orders` on a tenth of them; `hinge` has a mesh of its own;
`import` is run on the three meshes with numberings of ours and others, and so is tools/from_seqgp.py, by the library and by the independent program.
One without its compiler here is skipped, as 'skipped: no gfortran'. The library is built first where it is older than the crates.
"""

import os
import random
import shutil
import subprocess
import sys
import tempfile

from staticlib import LIBRARY, TOP, build_library

sys.path[:0] = [os.path.join(TOP, 'tests', part) for part in ('reference', 'vectors')]

import calls
from files import all_files
from listing import counts_of_file, nodes_of_file, words_of_elements
from program import text_for

MESHES = ('bracket', 'two_parts', 'hinged_plates')

# `renumber` is run on every so many-th of the files that test_reading is run on.
STEP = 3

# example: its compiler, and the words behind it; {out} is the folder for what is made
C_WORDS = '-std=c99 -Wall -Wextra -pedantic -Werror -O2 -Iinclude examples/c/{0}.c examples/c/grd.c ' + LIBRARY + ' -o {{out}}/{1}'
EXAMPLES = {
    'C': ('cc', C_WORDS.format('bracket', 'C')),
    'renumber': ('cc', C_WORDS.format('renumber', 'renumber')),
    'orders': ('cc', C_WORDS.format('orders', 'orders')),
    'hinge': ('cc', C_WORDS.format('hinge', 'hinge')),
    'import': ('cc', C_WORDS.format('import', 'import')),
    'Fortran': ('gfortran', '-std=f2008 -Wall -Werror -fcheck=all -O2 -J {out} examples/fortran/wagonepoch.f90 examples/fortran/bracket.f90 '
                + LIBRARY + ' -o {out}/Fortran'),
    'Rust': ('rustc', '--edition 2021 -D warnings -O -L target/staticlib -l static=capi examples/rust/bracket.rs -o {out}/Rust'),
}


def value(answer):
    kind, figures = answer
    assert kind == 'accepted', answer
    return figures


def lists_of(file):
    """The two lists of the mesh in these bytes, and the counts."""
    return graph_of(nodes_of_file(file), words_of_elements(file)) + (counts_of_file(file),)


def graph_of(n, words):
    starts, neighbours = [0] * (n + 1), [0] * 32768
    entries, = value(calls.mesh(n, words, starts, neighbours, [0] * n))
    return starts, neighbours[:entries]


def order(call, starts, neighbours, counts):
    """Its numbers, the passes of each part, and its figures."""
    n = len(starts) - 1
    numbers, passes = [0] * n, [0] * n
    figures = value(call(starts, neighbours, counts, numbers, [0] * n, passes, [0] * calls.scratch_words(n)))
    return numbers, passes[:figures[1]], figures


MEASURES = '{}: bandwidth {} profile {} front {}'


def both_orders(file):
    """What `orders` prints for the mesh in these bytes."""
    lists = lists_of(file)
    run, _, figures = order(calls.whole_run, *lists)
    reverse, _, others = order(calls.reverse_cuthill_mckee, *lists)
    lines = [MEASURES.format('run', *figures[2:5]), MEASURES.format('reverse Cuthill-McKee', *others[2:5])]
    return '\n'.join(lines + ['%d %d %d' % row for row in zip(range(1, len(run) + 1), run, reverse)]) + '\n'


def expected(file):
    """What the brackets print for the mesh in these bytes."""
    starts, neighbours, counts = lists = lists_of(file)
    n, entries = len(starts) - 1, len(neighbours)
    scratch, levels, sizes = [0] * n, [0] * n, [0] * n
    before = value(calls.measures(*lists, list(range(1, n + 1)), scratch))
    numbers, passes, _ = order(calls.whole_run, *lists)
    after = value(calls.measures(*lists, numbers, scratch))
    reverse = order(calls.reverse_cuthill_mckee, *lists)[2][2:5]
    root = numbers.index(1) + 1
    depth, width, _ = value(calls.rooted_levels(starts, neighbours, root, levels, sizes))
    profile = after[1]
    marks, new = value(calls.elimination(*lists, numbers, scratch, [0] * ((profile + 7) // 8)))
    edges = sum(len(row) for row in calls.adjoining_of(*lists, numbers).values()) // 2
    return '\n'.join([
        'mesh: nodes {} unknowns {} entries {}'.format(n, sum(counts), entries),
        MEASURES.format('before', *before),
        MEASURES.format('after', *after),
        MEASURES.format('reverse Cuthill-McKee', *reverse),
        ' '.join(['passes:'] + [str(count) for count in passes]),
        'levels: root {} depth {} thickest {} nodes {}'.format(root, depth, sizes.index(width) + 1, width),
        'elimination: marked {} new {}'.format(marks, new),
        'store: places {} marked {} edges {}'.format(profile, marks, edges),
    ]) + '\n'


def expected_hinge():
    """What `hinge` prints: of two plates of 6 by 4 squares, each without one of them, that are numbered along their length."""
    def node(x, y):
        return 13 * y + x + 1
    squares = [(x, y) for y in range(4) for x in range(12) if (x, y) not in ((2, 0), (9, 3))]
    words = [word for x, y in squares for word in (3, node(x, y), node(x + 1, y), node(x + 1, y + 1), node(x, y + 1))]
    lists = graph_of(65, words) + ([3 if x == 6 else 6 for _ in range(5) for x in range(13)],)
    numbers, _, figures = order(calls.whole_run, *lists)
    report = value(calls.part_report(*lists, 1, [0] * calls.scratch_words(65)))
    marks, _ = value(calls.elimination(*lists, numbers, [0] * 65, [0] * figures[3]))
    return '\n'.join([
        'mesh: nodes 65 unknowns {} hinges 5'.format(sum(lists[2])),
        MEASURES.format('before', *value(calls.measures(*lists, list(range(1, 66)), [0] * 65))),
        MEASURES.format('after', *figures[2:5]),
        'part: levels {} width {} {}'.format(report[2], report[3], report[5].lower()),
        'store: places {} marked {}'.format(figures[3], marks),
        'factor: every pivot positive, places filled without a mark 0',
        'solution: as the dense solve has it',
    ]) + '\n'


def paired(numbers, kept):
    """The pairs of a numbering, by a fixed draw in another order, with or without the nodes that keep their number."""
    pairs = [pair for pair in enumerate(numbers, 1) if kept or pair[0] != pair[1]]
    return [word for pair in random.Random(5).sample(pairs, len(pairs)) for word in pair]


def numberings(file):
    """Pairs and figures for `import`: of the run, of reverse Cuthill-McKee and of the old order, and such as are refused."""
    lists = lists_of(file)
    n = len(lists[0]) - 1
    (run, _, figures), (reverse, _, others) = [order(call, *lists) for call in (calls.whole_run, calls.reverse_cuthill_mckee)]
    pairs, found = paired(run, True), list(figures[2:5])
    return {'run': (pairs, found), 'reverse Cuthill-McKee': (paired(reverse, False), list(others[2:5])),
            'old order': ([], list(value(calls.measures(*lists, list(range(1, n + 1)), [0] * n)))),
            'wrong front': (pairs, found[:2] + [found[2] + 1]),
            'wide profile': (pairs, [found[0], found[1] + 2 ** 32, found[2]]), 'a pair again': (pairs + pairs[:2], found), 'odd': (pairs[:-1], found),
            'no number': (pairs[:-1] + [n + 1], found), 'no node': ([0] + pairs[1:], found), 'long': (pairs * 40, found)}


def expected_import(file, pairs, figures):
    """What `import` prints, and its status."""
    lists = lists_of(file)
    n = len(lists[0]) - 1
    numbers = [0] * n
    text = 'mesh: nodes {} unknowns {} entries {}\n'.format(n, sum(lists[2]), len(lists[1]))
    kind, number = calls.import_numbering(*lists, pairs, *figures, numbers, [0] * n)
    if kind == 'refused':
        return text + 'import: refused {}\n'.format(number), 1
    counts = value(calls.elimination(*lists, numbers, [0] * n, [0] * ((figures[1] + 7) // 8)))
    text += 'import: pairs {} bandwidth {} profile {} front {}\n'.format(len(pairs) // 2, *figures)
    return text + 'store: places {} marked {} new {}\n'.format(figures[1], *counts), 0


def try_import(meshes, out):
    """The same as try_example, of `import`, which is handed two files."""
    why, made = built('import', out), 0
    if why:
        return why
    for name, file in meshes.items():
        for kind, (pairs, figures) in numberings(file).items():
            made += 1
            with open(os.path.join(out, 'mesh'), 'wb') as f, open(os.path.join(out, 'pairs'), 'w') as g:
                f.write(file)
                g.write(' '.join(map(str, figures + pairs)) + '\n')
            run = subprocess.run([os.path.join(out, word) for word in ('import', 'mesh', 'pairs')], stdout=subprocess.PIPE, text=True)
            due = expected_import(file, pairs, figures)
            if (run.stdout, run.returncode) != due:
                print('import, %s, %s: printed\n%swith status %d, wanted\n%swith status %d' % (name, kind, run.stdout, run.returncode, *due))
                return 'FAILED: ' + name
    return 'ok (%d numberings)' % made


def of_cards(mesh, out, *words):
    """What tools/from_seqgp.py says of the cards in `cards`, its status, and what it writes."""
    path = os.path.join(out, 'numbering')
    if os.path.exists(path):
        os.remove(path)
    run = subprocess.run([sys.executable, 'tools/from_seqgp.py', 'examples/%s.grd' % mesh, os.path.join(out, 'cards'), '-o', path, *words],
                         stdout=subprocess.PIPE, stderr=subprocess.STDOUT, text=True)
    text = ''
    if os.path.exists(path):
        with open(path) as f:
            text = f.read()
    return run.stdout, run.returncode, text


def try_cards(meshes, out):
    """tools/from_seqgp.py over the library says and writes what it does over the independent program."""
    if not shutil.which('cc'):
        return 'skipped: no cc'
    made = 0
    for name, file in meshes.items():
        for kind, (pairs, figures) in numberings(file).items():
            if kind in ('odd', 'old order', 'long'):
                continue
            made += 1
            with open(os.path.join(out, 'cards'), 'w') as f:
                f.writelines('SEQGP,%s\n' % ','.join(map(str, pairs[at:at + 8])) for at in range(0, len(pairs), 8))
            words = ['--figures', *map(str, figures)]
            by_library, by_reference = of_cards(name, out, *words), of_cards(name, out, '--independent', *words)
            if by_library != by_reference or by_library[1] != expected_import(file, pairs, figures)[1]:
                print('from_seqgp.py, %s, %s: %r, and by the independent program %r' % (name, kind, by_library, by_reference))
                return 'FAILED: ' + name
    return 'ok (%d numberings)' % made


def broken(mesh):
    """The mesh with its end, its header or an element damaged."""
    return {'empty': b'', 'short header': mesh[:8], 'mark': b'grd' + mesh[3:], 'version': mesh[:3] + b'\3' + mesh[4:], 'cut': mesh[:-1],
            'word cut': mesh[:-2], 'byte more': mesh + b'\0', 'element more': mesh + b'\1\0\1\0\2\0', 'count less': mesh[:7] + b'\1\0' + mesh[9:],
            'count more': mesh[:7] + b'\xff\xff' + mesh[9:], 'no nodes': mesh[:5] + b'\0\0' + mesh[7:], 'kind': mesh[:9] + b'\13' + mesh[10:],
            'node': mesh[:11] + b'\0\0' + mesh[13:], 'too long': mesh + bytes(65536), 'too long, no nodes': b'GRD\1' + bytes(65532)}


def broken_counts(mesh):
    """The mesh, which has counts, with one of them wrong, or cut, or without them."""
    return {'no counts': mesh[:3] + b'\1' + mesh[4:], 'count 0': mesh[:9] + b'\0' + mesh[10:], 'count 7': mesh[:11] + b'\7' + mesh[12:],
            'count 257': mesh[:10] + b'\1' + mesh[11:], 'counts cut': mesh[:14], 'counts cut, one wrong': mesh[:9] + b'\0' + mesh[10:15],
            'no nodes, counted': mesh[:5] + b'\0\0' + mesh[7:], 'too many nodes, counted': mesh[:5] + b'\1\x10' + mesh[7:],
            'elements cut': mesh[:-2], 'byte more, counted': mesh + b'\0'}


def wrong(example, file, run):
    """What is wrong with a run of an example on these bytes, or ''."""
    if example == 'hinge':
        text = expected_hinge()
        return '' if run.stdout == text and run.returncode == 0 else 'printed\n%swith status %d, wanted\n%s' % (run.stdout, run.returncode, text)
    text = text_for(file).decode('ascii')
    refused = text.startswith('refused')
    if example != 'renumber' and not refused:
        text = (both_orders if example == 'orders' else expected)(file)
    if example == 'C' and refused:
        text = 'mesh: ' + text
    if example in ('Fortran', 'Rust') and refused:
        # they tell a broken file in a line of their own, or the call's refusal
        due = run.stdout.count('\n') == 1 and (' is no mesh\n' in run.stdout or run.stdout == 'mesh: ' + text)
    else:
        due = run.stdout == text
    return '' if due and run.returncode == refused else 'printed\n%swith status %d, wanted\n%s' % (run.stdout, run.returncode, text)


def built(example, out):
    """'', or why it is not built."""
    compiler, words = EXAMPLES[example]
    if not shutil.which(compiler):
        return 'skipped: no ' + compiler
    done = subprocess.run([compiler] + words.format(out=out).split(), stdout=subprocess.PIPE, stderr=subprocess.STDOUT, text=True)
    if done.returncode:
        print(done.stdout)
        return 'FAILED: not built'
    return ''


def try_example(example, files, out):
    """'ok' and how many files it was run on, or what is wrong."""
    why = built(example, out)
    if why:
        return why
    for name, file in files.items():
        path = os.path.join(out, 'mesh')
        with open(path, 'wb') as f:
            f.write(file)
        run = subprocess.run([os.path.join(out, example), path], stdout=subprocess.PIPE, stderr=subprocess.DEVNULL, text=True)
        why = wrong(example, file, run)
        if why:
            print('%s, %s: %s' % (example, name, why))
            return 'FAILED: ' + name
    return 'ok (%d files)' % len(files)


def not_written(example, out):
    """Whether the example says by its status that its output could not be written."""
    with open('/dev/full', 'wb') as device:
        return subprocess.run([os.path.join(out, example)], stdout=device).returncode == 2


def main():
    os.chdir(TOP)
    build_library()
    meshes = {}
    for name in MESHES:
        with open('examples/%s.grd' % name, 'rb') as f:
            meshes[name] = f.read()
    whole = dict(meshes)
    meshes.update(broken(meshes['bracket']), **broken_counts(meshes['hinged_plates']))
    many = {'file %d (%s)' % (i, kind): file for i, (kind, file) in list(enumerate(all_files(), 1))[::STEP]}
    with tempfile.TemporaryDirectory() as out:
        more = {'renumber': many, 'orders': dict(list(many.items())[::10])}
        files = {example: dict(meshes, **more.get(example, {})) for example in EXAMPLES}
        files['hinge'] = {'its own plates': b''}
        results = {example: try_example(example, files[example], out) for example in EXAMPLES if example != 'import'}
        results.update({'import': try_import(whole, out), 'from_seqgp.py': try_cards(whole, out)})
        for example in more if os.path.exists('/dev/full') else ():
            if results[example].startswith('ok') and not not_written(example, out):
                results[example] = 'FAILED: a full device'
    print('; '.join('%s %s' % pair for pair in results.items()))
    return any(result.startswith('FAILED') for result in results.values())


if __name__ == '__main__':
    sys.exit(main())
