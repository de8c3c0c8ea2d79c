"""What the cases share: counting, running a tool in a folder of its own, files of words."""

import contextlib
import io
import os
import sys
import tempfile

HERE = os.path.dirname(os.path.abspath(__file__))
TOP = os.path.dirname(os.path.dirname(HERE))
DATA = os.path.join(HERE, 'data')
sys.path[:0] = [os.path.join(TOP, 'tools'), os.path.join(TOP, 'tests', 'reference')]


class Cases:
    def __init__(self):
        self.made = 0
        self.wrong = 0

    def equal(self, name, got, wanted):
        self.made += 1
        if got != wanted:
            self.wrong += 1
            print('wrong: %s\n  got    %r\n  wanted %r' % (name, got, wanted))

    def holds(self, name, truth):
        self.equal(name, bool(truth), True)

    def report(self):
        """Print the line and give the exit status."""
        print('%d cases, %d wrong' % (self.made, self.wrong))
        return 1 if self.wrong else 0


# Files.

def words(*values):
    """Two bytes a word, low byte first."""
    return b''.join(bytes([value % 256, value // 256]) for value in values)


def grd_file(n, *elements, counts=None):
    """A GRD file of the elements, each a kind and its nodes; of version 2 where there are counts of unknowns."""
    head = words(1 if counts is None else 2, n, len(elements), *(counts or ()))
    return b'GRD' + head + b''.join(words(*element) for element in elements)


def data(name):
    with open(os.path.join(DATA, name), encoding='ascii') as file:
        return file.read()


def edited(name, *changes):
    """A data file with pairs of an old text, which must be there once, and a new one."""
    text = data(name)
    for old, new in changes:
        if text.count(old) != 1:
            raise ValueError('%r stands %d times in %s' % (old, text.count(old), name))
        text = text.replace(old, new)
    return text


# Running.

def run(main, arguments, files):
    """Run a tool's main in a new folder with these files: status, standard output, standard error, files that it made."""
    here = os.getcwd()
    out, err = io.StringIO(), io.StringIO()
    with tempfile.TemporaryDirectory() as folder:
        try:
            os.chdir(folder)
            for name, content in files.items():
                with open(name, 'wb') as file:
                    file.write(content if isinstance(content, bytes) else content.encode('latin-1'))
            with contextlib.redirect_stdout(out), contextlib.redirect_stderr(err):
                status = main(arguments)
            made = {}
            for name in sorted(os.listdir('.')):
                if os.path.isfile(name) and name not in files:
                    with open(name, 'rb') as file:
                        made[name] = file.read()
        finally:
            os.chdir(here)
    return status, out.getvalue(), err.getvalue(), made
