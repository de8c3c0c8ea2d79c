"""Reading and writing the files of a command, all or nothing, and never over a file that is not its own."""

import contextlib
import os
import re
import sys
from collections import namedtuple

from model import Fault, Line, Stop

# A kind of output: its name in a message, and a pattern of bytes that the whole of such a file fits.
Kind = namedtuple('Kind', 'name pattern')
GRD = Kind('a GRD file', re.compile(rb'GRD[\x01\x02]\x00.*', re.DOTALL))
NODES = Kind('a map of node numbers', re.compile(rb'1 [0-9]+\n([0-9]+ [0-9]+\n)*'))
CARDS = Kind('a file of SEQGP cards alone', re.compile(rb'(SEQGP[ ,][-0-9 ,]*\n)+'))

Output = namedtuple('Output', 'path data kind')


# Reading.

def read_bytes(path):
    try:
        with open(path, 'rb') as file:
            return file.read()
    except OSError as error:
        raise Fault(0, error.strerror, path) from None


# Byte order marks, and the encoding behind each; the longer of two that begin alike comes first. Without one, and in UTF-8, comments may be
# in any encoding: every byte is a character of latin-1.
MARKS = [(b'\xff\xfe\0\0', 'utf-32-le'), (b'\0\0\xfe\xff', 'utf-32-be'), (b'\xff\xfe', 'utf-16-le'), (b'\xfe\xff', 'utf-16-be'),
         (b'\xef\xbb\xbf', 'latin-1')]


def read_text(path):
    """The file's text without its byte order mark."""
    data = read_bytes(path)
    mark, encoding = next((pair for pair in MARKS if data.startswith(pair[0])), (b'', 'latin-1'))
    if not mark and b'\0' in data[:4]:
        raise Fault(0, 'this is no text file: zeros among its first bytes', path)
    try:
        return data[len(mark):].decode(encoding)
    except UnicodeDecodeError:
        raise Fault(0, 'the byte order mark says %s, and the text is not in it' % encoding.upper(), path) from None


def read_lines(path):
    # splitlines would split at other characters too
    lines = read_text(path).replace('\r\n', '\n').replace('\r', '\n').split('\n')
    return lines[:-1] if lines[-1] == '' else lines


class Source:
    """An input file and the files that it takes in; paths are all those that were read. Where a list of faults is given, they are kept there
    and reading goes on; otherwise the first one ends it."""

    def __init__(self, path, faults=None):
        self.path = path
        self.paths = []
        self.faults = faults

    @contextlib.contextmanager
    def each(self):
        """Around the reading of one node, element, keyword or card."""
        try:
            yield
        except Fault as fault:
            if self.faults is None:
                raise
            self.faults.append(fault)

    def lines(self):
        """Pairs of a Line and its text."""
        return self.numbered((self.path,))

    def numbered(self, files):
        self.paths.append(files[-1])
        return [(Line(number, files), text) for number, text in enumerate(read_lines(files[-1]), 1)]

    def included(self, line, name):
        """The lines of the file that this line takes in, sought from the folder of the line's own file."""
        if '\0' in name:
            raise Fault(line, 'takes in a file with a zero in its name')
        path = os.path.join(os.path.dirname(line.files[-1]), name)
        if any(os.path.realpath(path) == os.path.realpath(other) for other in line.files):
            raise Stop(line, 'takes in %s, which stands around it already' % name)
        try:
            return self.numbered(line.files + (path,))
        except Fault as fault:
            raise Fault(line, 'takes in %s: %s' % (name, fault)) from None


# Writing.

def add_output_options(parser, name):
    """-o and --force, as every command that writes has them."""
    parser.add_argument('-o', dest='output', metavar=name, required=True, help='the file to write')
    parser.add_argument('--force', action='store_true', help='write over a file of another kind too; never over an input')


def write_own(outputs, inputs=(), force=False):
    """Write each Output, or none: an older file stays where it is one of the inputs, or of another kind and not forced."""
    paths = [output.path for output in outputs]
    for place, output in enumerate(outputs):
        test_output(output, inputs, force)
        if os.path.realpath(output.path) in [os.path.realpath(path) for path in paths[:place]]:
            raise Stop(0, 'two outputs would be this file', output.path)
    write_all([(output.path, output.data) for output in outputs])


def test_output(output, inputs, force):
    """An output's path is free, or holds a file of the same kind. An empty file holds nothing to lose."""
    path = output.path
    if not os.path.exists(path):
        return
    if not os.path.isfile(path) or not os.access(path, os.W_OK):
        raise Stop(0, 'is no file that may be written to', path)
    for other in inputs:
        if os.path.samefile(path, other):
            raise Stop(0, 'is an input (%s), and stays as it is' % other, path)
    old = b'' if force else read_bytes(path)
    if old and not output.kind.pattern.fullmatch(old):
        raise Stop(0, 'stands there already and is not %s; --force writes over it' % output.kind.name, path)


def write_all(outputs):
    """Write pairs of a path and bytes. If one can't be written, none is, and older files of these names stay."""
    parts = []
    try:
        for path, data in outputs:
            # a link stays a link, and a file that happens to have the name of the part stays too
            part = '%s.%d.part' % (os.path.realpath(path), os.getpid())
            with open(part, 'xb') as file:
                parts.append(part)
                file.write(data)
        for (path, _), part in zip(outputs, parts):
            os.replace(part, os.path.realpath(path))
    except OSError as error:
        raise Fault(0, error.strerror, path) from None
    finally:
        for part in parts:
            if os.path.isfile(part):
                os.remove(part)


def command(work, path):
    """Do the work; a fault becomes a message with the file's name on standard error. The exit status."""
    try:
        work()
        return 0
    except Fault as fault:
        print(fault.message(path), file=sys.stderr)
        return fault.status
