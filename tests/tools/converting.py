"""What the cases of the three input formats share."""

from harness import data, grd_file, run

import grd
import to_grd

# The mesh of the files kinds22.msh, kinds41.msh, kinds.inp, small.bdf, large.nas and free.dat: each kind once.
KINDS = grd_file(12, (1, 2, 1), (2, 3, 1, 2), (3, 4, 1, 3, 2), (4, 5, 2, 4, 3), (5, 1, 2, 3, 4, 5), (6, 6, 1, 5, 2, 4, 3),
                 (7, 8, 7, 6, 5, 4, 3, 2, 1), (8, 3, 4, 5, 6, 7, 8), (9, 12, 5, 11, 6, 10, 7, 9, 8), (10, 1, 2, 3, 4, 9, 10, 11, 12, 5, 6))


def converts(c, name, file, text, wanted, *options, files=()):
    """The text, under this file name and with these files beside it, becomes the wanted GRD bytes."""
    status, _, err, made = run(to_grd.main, list(options) + [file, '-o', 'out.grd'], dict(files, **{file: text}))
    c.equal(name, (status, err, made.get('out.grd')), (0, '', wanted))


def all_kinds(c, file):
    converts(c, '%s: every kind' % file, file, data(file), KINDS)


def adjoins(c, name, file, text, n, *groups):
    """The text becomes a mesh of n nodes in which two adjoin exactly if one of these groups has both."""
    status, _, err, made = run(to_grd.main, [file, '-o', 'out.grd'], {file: text})
    rows = [{q for group in groups if p in group for q in group} - {p} for p in range(n + 1)]
    c.equal(name, (status, err, grd.neighbours(grd.read(made['out.grd'])) if made else None), (0, '', rows))


def fails(c, name, file, text, message, *options, files=(), status=1):
    """The text is refused with this message behind the file's name, and nothing is left behind."""
    got = run(to_grd.main, list(options) + [file, '-o', 'out.grd'], dict(files, **{file: text}))
    c.equal(name, got, (status, '', file + message + '\n', {}))


def stops(c, name, file, text, message, *options, files=()):
    """Nothing is wrong with the text, but it holds what is not read."""
    fails(c, name, file, text, message, *options, files=files, status=2)


def left_out(c, name, file, text, wanted, word, count):
    """With --ignore the text becomes the wanted GRD bytes, and the tool says what it left out."""
    status, out, err, made = run(to_grd.main, ['--ignore', word, file, '-o', 'out.grd'], {file: text})
    line = 'left out by --ignore %s: %d\n' % (word, count)
    c.equal(name, (status, line in out, err, made.get('out.grd')), (0, True, '', wanted))
