"""From elements and coordinates to faces on paper: what is seen of a mesh, from above where it is flat, else from one fixed side."""

import math
from collections import namedtuple

# For each shape its faces, as places in the element's list of nodes, around. A bar has one of two nodes.
# Second-order faces run corner, middle, corner, middle ..; the middles of solids are found by where they lie.
FACES = {
    'bar': [(0, 1)],
    'triangle': [(0, 1, 2)],
    'quadrilateral': [(0, 1, 2, 3)],
    'tetrahedron': [(0, 1, 2), (0, 1, 3), (1, 2, 3), (2, 0, 3)],
    'pyramid': [(0, 1, 2, 3), (0, 1, 4), (1, 2, 4), (2, 3, 4), (3, 0, 4)],
    'wedge': [(0, 1, 2), (3, 4, 5), (0, 1, 4, 3), (1, 2, 5, 4), (2, 0, 3, 5)],
    'brick': [(0, 1, 2, 3), (4, 5, 6, 7), (0, 1, 5, 4), (1, 2, 6, 5), (2, 3, 7, 6), (3, 0, 4, 7)],
}
CORNERS = {'bar': 2, 'triangle': 3, 'quadrilateral': 4, 'tetrahedron': 4, 'pyramid': 5, 'wedge': 6, 'brick': 8}
SOLID = ('tetrahedron', 'pyramid', 'wedge', 'brick')

# The fixed view: turned so far from the front to the right, and raised so far above the ground.
TURN = math.radians(32)
RISE = math.radians(24)
LIGHT = (0.28, -0.48, 0.83)
# Steps from the darkest face to the lightest.
SHADES = 10

# nodes: around the face, or along a bar; points: on paper, y downwards; depth: greater is nearer; shade: 0 dark to SHADES light
Face = namedtuple('Face', 'nodes points depth shade bar')


# Points in space.

def less(p, q):
    return tuple(a - b for a, b in zip(p, q))


def dot(p, q):
    return sum(a * b for a, b in zip(p, q))


def mean(points):
    return tuple(sum(values) / len(points) for values in zip(*points))


def normal(points):
    """A vector across the polygon (Newell's sum), of length twice its area."""
    total = [0.0, 0.0, 0.0]
    for p, q in zip(points, points[1:] + points[:1]):
        for axis in range(3):
            i, j = (axis + 1) % 3, (axis + 2) % 3
            total[axis] += (p[i] - q[i]) * (p[j] + q[j])
    return tuple(total)


# The view.

class View:
    """Directions to the right, upwards and towards the eye; the names of the axes that are seen."""

    def __init__(self, places):
        spans = [max(values) - min(values) for values in zip(*places)]
        flat = [axis for axis in range(3) if spans[axis] <= 1e-6 * max(spans)]
        self.flat = bool(flat)
        if flat:
            # from above, or in front of the plane; a line of nodes lies to the right
            lost = 2 if 2 in flat else flat[0]
            kept = [axis for axis in range(3) if axis != lost]
            self.right, self.up, self.eye = [tuple(float(i == axis) for i in range(3)) for axis in kept + [lost]]
        else:
            c, s = math.cos(TURN), math.sin(TURN)
            self.right = (c, s, 0.0)
            self.up = (-s * math.sin(RISE), c * math.sin(RISE), math.cos(RISE))
            self.eye = (s * math.cos(RISE), -c * math.cos(RISE), math.sin(RISE))

    def on_paper(self, place):
        return dot(place, self.right), -dot(place, self.up)

    def depth(self, place):
        return dot(place, self.eye)

    def axes(self):
        """The axes that aren't seen from their end: a name and a direction on paper."""
        ends = [('xyz'[i], self.on_paper(tuple(float(i == axis) for axis in range(3)))) for i in range(3)]
        return [(name, way) for name, way in ends if abs(way[0]) + abs(way[1]) > 0.1]


# Faces of elements.

def shape_of(name):
    """The shape behind a kind's name, such as '8-node quadrilateral'."""
    return name.split()[-1]


def distinct(nodes):
    """Each node once, in the order in which they are first met."""
    return list(dict.fromkeys(nodes))


def around(shape, face, nodes, places):
    """The face's nodes around it, each once, with the middle node of each edge where the element has them."""
    corners = distinct(nodes[i] for i in face)
    middles = [p for p in distinct(nodes[CORNERS[shape]:]) if p not in nodes[:CORNERS[shape]]]
    if not middles:
        return corners
    if len(corners) < 3:
        return corners[:1] + middles[:1] + corners[1:]
    found = []
    for p, q in zip(corners, corners[1:] + corners[:1]):
        half = mean([places[p], places[q]])
        found += [p, min(middles, key=lambda m: dist(places[m], half))]
    # an edge without a middle of its own has taken another's
    return found if len(set(found)) == len(found) else corners


def dist(p, q):
    return dot(less(p, q), less(p, q))


def element_faces(shape, nodes, places):
    """The nodes around each face of an element, by its corners. Faces that are collapsed to fewer than three go; an element without others is
    drawn by the lines that they became, and one with a single node not at all."""
    rings = {frozenset(nodes[i] for i in face): around(shape, face, nodes, places) for face in FACES[shape]}
    for least in (3, 2, 1):
        found = {corners: ring for corners, ring in rings.items() if len(corners) >= least and len(ring) > 1}
        if found:
            return found
    return {}


def outer_faces(elements, places):
    """Whether a line, nodes around and the middle of the solid behind, None for a line or a shell: each face once, none between two solids."""
    faces = {}
    for shape, nodes in elements:
        found = element_faces(shape, nodes, places)
        # with fewer than four faces a solid is collapsed to a shell or a bar
        inside = mean([places[p] for p in nodes]) if shape in SOLID and len(found) > 3 else None
        for corners, ring in found.items():
            faces.setdefault(corners, []).append((len(corners) < 3, ring, inside))
    for met in faces.values():
        solids = [face for face in met if face[2]]
        if len(solids) < 2:
            yield solids[0] if solids else met[0]


def visible(elements, places):
    """The faces that look towards the eye, farthest first; elements are pairs of a shape and its nodes. And the view."""
    view = View(list(places.values()))
    seen = []
    for bar, nodes, inside in outer_faces(elements, places):
        points = [places[p] for p in nodes]
        centre = mean(points)
        across = normal(points)
        if inside and dot(across, less(centre, inside)) < 0:
            across = tuple(-x for x in across)
        if inside and dot(across, view.eye) < 0:
            continue
        seen.append(Face(nodes, [view.on_paper(p) for p in points], view.depth(centre), shade(view, across, inside), bar))
    return sorted(seen, key=lambda face: face.depth), view


def shade(view, across, inside):
    """How the light falls on a face; a flat mesh is light all over."""
    size = math.sqrt(dot(across, across))
    if view.flat or not size:
        return SHADES
    light = dot(across, LIGHT) / size
    if not inside and dot(across, view.eye) < 0:
        light = -light
    return int(max(light, 0) * SHADES + 0.5)
