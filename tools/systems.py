"""NASTRAN's coordinate systems, for drawings: CORD2R, CORD2C and CORD2S cards, and what grid points name. Of others nothing is known here."""

import math
import re

from places import point, turned

KINDS = {'CORD2R': 'R', 'CORD2C': 'C', 'CORD2S': 'S'}
BASIC = 0
# isdigit would take a raised 3 too, which int does not
WHOLE = re.compile('[0-9]{1,18}')


def number_of(text):
    """A system's number, the basic one for a blank, or None."""
    if not text:
        return BASIC
    return int(text) if WHOLE.fullmatch(text) else None


def combined(origin, *pairs):
    """A point and multiples of vectors added."""
    return tuple(origin[i] + sum(share * vector[i] for share, vector in pairs) for i in range(3))


def dot(p, q):
    return sum(a * b for a, b in zip(p, q))


def cross(p, q):
    return p[1] * q[2] - p[2] * q[1], p[2] * q[0] - p[0] * q[2], p[0] * q[1] - p[1] * q[0]


def unit(p):
    """The direction of a vector, or None for one without."""
    size = math.sqrt(dot(p, p))
    return tuple(x / size for x in p) if size else None


class Systems:
    def __init__(self):
        # by number: kind, the system that its three points are given in, and these
        self.defined = {}
        # the system that each grid point names, and the one for those that name none
        self.named = {}
        self.common = ''

    def define(self, name, fields):
        """A card's fields: number, reference, origin, a point on the z axis, a point in the half-plane of x and z."""
        fields = fields + [''] * (11 - len(fields))
        self.defined[number_of(fields[0])] = KINDS[name], number_of(fields[1]), [point(fields[at:at + 3]) for at in (2, 5, 8)]

    def settle(self, places):
        """Bring all places to the basic system; None where that can't be done."""
        for node, system in self.named.items():
            places[node] = self.basic(number_of(system or self.common), places.get(node))

    def basic(self, system, place, within=()):
        """A place of a system in the basic one; within are the systems that lead here."""
        if system == BASIC or place is None:
            return place
        if system not in self.defined or system in within:
            return None
        kind, reference, points = self.defined[system]
        corners = [self.basic(reference, corner, within + (system,)) for corner in points]
        if None in corners:
            return None
        # here the second angle comes first, and is counted from the z axis
        if kind == 'S':
            place = place[0], place[2], 90 - place[1]
        return on_axes(corners, turned(kind, place))


def on_axes(corners, place):
    origin, above, beside = corners
    z = unit(combined(above, (-1, origin)))
    side = combined(beside, (-1, origin))
    x = unit(combined(side, (-dot(side, z), z))) if z else None
    return combined(origin, (place[0], x), (place[1], cross(z, x)), (place[2], z)) if x else None
