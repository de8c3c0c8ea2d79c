"""The program's listing, read back and tested."""

import re
from collections import namedtuple

import grd
from model import Fault

NUMBER = '([0-9]{1,9})'
FIGURES = 'nodes parts bandwidth profile front levels width passes'
HEAD = re.compile(' '.join('%s %s' % (name, NUMBER) for name in FIGURES.split()))
ROW = re.compile(' '.join([NUMBER] * 3))
REFUSED = re.compile('refused ' + NUMBER)

Figures = namedtuple('Figures', FIGURES)

# numbers and levels by old number; place 0 is unused
Result = namedtuple('Result', 'figures numbers levels')


def read(lines):
    """The result of a listing's lines."""
    test_refused(lines)
    head = HEAD.fullmatch(lines[0]) if lines else None
    if not head:
        raise Fault(1, "no listing of the program: its first line begins with 'nodes'")
    figures = Figures(*(int(word) for word in head.groups()))
    if len(lines) != figures.nodes + 1:
        raise Fault(len(lines), '%d nodes announced, %d rows found' % (figures.nodes, len(lines) - 1))
    numbers, levels = [0], [0]
    for line, text in enumerate(lines[1:], 2):
        number, level = row(line, text, figures.nodes)
        numbers.append(number)
        levels.append(level)
    test_numbering(numbers)
    return Result(figures, numbers, levels)


def test_refused(lines):
    refused = REFUSED.fullmatch(lines[0]) if lines else None
    if refused:
        meaning = grd.MEANING.get(int(refused.group(1)), 'unknown refusal')
        raise Fault(1, 'the program refused the mesh (%s): %s' % (refused.group(1), meaning))


def row(line, text, n):
    """New number and level of one row."""
    match = ROW.fullmatch(text)
    if not match:
        raise Fault(line, 'a row has old number, new number and level')
    old, number, level = (int(word) for word in match.groups())
    if old != line - 1:
        raise Fault(line, 'old number %d expected, %d found' % (line - 1, old))
    if not 1 <= number <= n or level < 1:
        raise Fault(line, 'new number %d, level %d: the new numbers are 1 to %d, levels start at 1' % (number, level, n))
    return number, level


def test_numbering(numbers):
    first = {}
    for old in range(1, len(numbers)):
        if numbers[old] in first:
            raise Fault(old + 1, 'new number %d is given twice, first on line %d' % (numbers[old], first[numbers[old]] + 1))
        first[numbers[old]] = old
