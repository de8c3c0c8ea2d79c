"""The calls of the library that the tools make: of the proved one by its C interface, or of the independent program in tests/reference.

Both kinds of Engine have the same functions, over plain lists: mesh_lists, measures and import_numbering.
"""

import ctypes
import os
import subprocess
import sys
from array import array

import capi
from capi import TOP, older
from model import Stop

STATIC = capi.STATIC
FOLDER = os.path.dirname(STATIC)
SHARED = os.path.join(FOLDER, 'libtools.so')
MOST_ENTRIES = 32768


# Building.

def run(why, *words, cwd=TOP):
    """A command of the build; what it prints is told only where it fails."""
    try:
        done = subprocess.run(words, cwd=cwd, stdout=subprocess.PIPE, stderr=subprocess.STDOUT, check=False)
    except FileNotFoundError:
        raise Stop(0, '%s, and %s is not on the path; --independent takes tests/reference' % (why, words[0]), 'the library') from None
    if done.returncode:
        raise Stop(0, '%s, and this fails: %s' % (why, done.stdout.decode('utf-8', 'replace').strip().split('\n')[-1]), 'the library')


def build():
    """The shared library, proved and built where it is older than the crates."""
    if capi.is_due(STATIC):
        print('proving and building the library; what was proved before is not proved again', file=sys.stderr, flush=True)
        run('it is not built, or older than its sources', *capi.COMMAND, cwd=capi.CRATE)
        capi.put(STATIC)
    if older(SHARED, os.path.getmtime(STATIC)):
        # under another name first, so that nobody loads half of it
        part = '%s.%d' % (SHARED, os.getpid())
        run('it must be linked', 'cc', '-shared', '-o', part, '-Wl,--whole-archive', STATIC, '-Wl,--no-whole-archive')
        os.replace(part, SHARED)
    return ctypes.CDLL(SHARED)


# The proved library.

# An empty list has a pointer too, which the library asks for and never follows.
NOTHING = array('Q', [0])


def passed(values):
    """Arguments: a list is a pointer and its length, a number 64 bits wide."""
    for value in values:
        if isinstance(value, array):
            yield ctypes.c_void_p((value or NOTHING).buffer_info()[0])
            yield ctypes.c_size_t(len(value))
        else:
            yield ctypes.c_uint64(value)


class Proved:
    def __init__(self):
        self.library = build()

    def call(self, name, *values):
        """0 or the refusal. An array that is lent is written; every value stays until the call is done."""
        function = getattr(self.library, 'wagonepoch_' + name)
        function.restype = ctypes.c_uint16
        return function(*passed(values))

    def mesh_lists(self, n, elements):
        """The two lists of a legal mesh."""
        starts, neighbours, figures = array('H', [0] * (n + 1)), array('H', [0] * MOST_ENTRIES), array('Q', [0])
        refusal = self.call('mesh', n, array('H', elements), starts, neighbours, array('H', [0] * n), figures)
        if refusal:
            raise Stop(0, 'refused %d' % refusal, 'the mesh')
        return list(starts), list(neighbours[:figures[0]])

    def measures(self, starts, neighbours, counts, numbering):
        """Bandwidth, profile and front of a legal numbering."""
        scratch, figures = array('H', [0] * len(counts)), array('Q', [0, 0, 0])
        refusal = self.call('measures', *[array('H', words) for words in (starts, neighbours, counts, numbering)], scratch, figures)
        if refusal:
            raise Stop(0, 'refused %d' % refusal, 'the numbering')
        return tuple(figures)

    def import_numbering(self, starts, neighbours, counts, pairs, figures):
        """0 or the refusal, and the full numbering where it is accepted."""
        numbers = array('H', [0] * len(counts))
        refusal = self.call('import_numbering', *[array('H', words) for words in (starts, neighbours, counts, pairs)], *figures,
                            numbers, array('H', [0] * len(counts)))
        return refusal, list(numbers)


# The independent program, which needs nothing but Python.

class Independent:
    def __init__(self):
        sys.path.insert(0, os.path.join(TOP, 'tests', 'reference'))
        import calls
        self.calls = calls

    def mesh_lists(self, n, elements):
        starts, neighbours = [0] * (n + 1), [0] * MOST_ENTRIES
        state, value = self.calls.mesh(n, elements, starts, neighbours, [0] * n)
        if state == 'refused':
            raise Stop(0, 'refused %d' % value, 'the mesh')
        return starts, neighbours[:value[0]]

    def measures(self, starts, neighbours, counts, numbering):
        state, value = self.calls.measures(starts, neighbours, counts, numbering, [0] * len(counts))
        if state == 'refused':
            raise Stop(0, 'refused %d' % value, 'the numbering')
        return value

    def import_numbering(self, starts, neighbours, counts, pairs, figures):
        numbers = [0] * len(counts)
        state, value = self.calls.import_numbering(starts, neighbours, counts, pairs, *figures, numbers, [0] * len(counts))
        return (value if state == 'refused' else 0), numbers
