"""Where the nodes lie: coordinates as the input formats write them. The numbering never looks at them; only drawings do."""

import math
import re

# NASTRAN leaves out the E of an exponent, Fortran writes it as D
REAL = re.compile(r'([+-]?(?:[0-9]+\.?[0-9]*|\.[0-9]+))(?:[eEdD]?([+-][0-9]{1,3})|[eEdD]([0-9]{1,3}))?')


def real(text):
    """The number of a word, 0 for a blank one, or None where it is no number."""
    if not text.strip():
        return 0.0
    match = REAL.fullmatch(text.strip())
    if not match:
        return None
    return float('%se%s' % (match.group(1), match.group(2) or match.group(3) or '0'))


def point(words):
    """Three coordinates; missing ones are 0. None where one is no number."""
    values = [real(word) for word in list(words[:3]) + [''] * (3 - len(words))]
    return None if None in values else tuple(values)


def turned(system, place):
    """A place given in a cylindrical (C) or spherical (S) system, angles in degrees, in the rectangular one."""
    if system not in ('C', 'S') or place is None:
        return place
    r, turn = place[0], math.radians(place[1])
    if system == 'C':
        return r * math.cos(turn), r * math.sin(turn), place[2]
    rise = math.radians(place[2])
    return r * math.cos(rise) * math.cos(turn), r * math.cos(rise) * math.sin(turn), r * math.sin(rise)
