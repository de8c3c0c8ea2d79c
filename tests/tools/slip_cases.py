"""No slip of one letter in the name of a keyword, card or section loses an element: the file is refused, or the same nodes adjoin."""

import os
import re
import tempfile

from harness import data

import grd
import to_grd
from files import Source
from model import Fault, mesh_of

FILES = ('kinds.inp', 'kinds22.msh', 'kinds41.msh', 'small.bdf', 'large.nas', 'free.dat')
NAME = re.compile(r'(\*+ ?[A-Za-z ]*|\$[A-Za-z]+|[A-Za-z][A-Za-z0-9]*\*?)(?=[ ,]|$)')
# Cards in columns: the name has the first eight.
COLUMNS = ('small.bdf', 'large.nas')


def neighbours(path, text):
    """Who adjoins whom in a text, or None where it is refused."""
    with open(path, 'w', encoding='ascii') as file:
        file.write(text)
    try:
        return grd.neighbours(mesh_of(to_grd.model_of(Source(path)), False)[0])
    except Fault:
        return None


def slips(name):
    """The name with a letter left out, doubled or another, and with another digit."""
    for at, letter in enumerate(name):
        for other in ('', letter * 2, ' ', 'X', '3', '4', '6', '8'):
            if other != letter:
                yield name[:at] + other + name[at + 1:]


def slipped(file, line, name):
    """The line with each slip in its name, other columns as they were."""
    if file in COLUMNS:
        return ['%-8s%s' % (slip, line[8:]) for slip in slips(name) if len(slip) <= 8]
    return [slip + line[len(name):] for slip in slips(name)]


def cases(c):
    with tempfile.TemporaryDirectory() as folder:
        for file in FILES:
            path, lines = os.path.join(folder, file), data(file).split('\n')
            wanted, lost = neighbours(path, data(file)), []
            for i, line in enumerate(lines):
                match = NAME.match(line)
                for other in slipped(file, line, match.group(1)) if match else ():
                    if neighbours(path, '\n'.join(lines[:i] + [other] + lines[i + 1:])) not in (None, wanted):
                        lost.append(other)
            c.equal('slips: ' + file, lost, [])
