"""The mesh itself, four times: coloured by old number, by new number, by level and by part.

Around each node its share of every face has the node's colour: a border runs halfway between two nodes that differ. Among the levels the
nodes of each part's thickest one have a ring.
"""

import math
from collections import namedtuple

import faces
import grd
import parts
import thickness
from ink import COLUMNS, FAINT, INK, SIDE, grouped, number, text
from model import Fault

# Coordinates on paper are in tenths of a pixel, so whole numbers do.
UNIT = 10
LEAST_HEIGHT = 70
# Up to so many nodes a flat mesh has their numbers written on it; up to so many faces a solid one has outlines.
MOST_LABELLED = 60
MOST_OUTLINED = 2500
# A ring around a label, and the least and the greatest around a node without one.
LABEL_RING = 80
RINGS = (12, 50)
STEPS = 32
# The legends: how wide a band of colours is, and how many parts are named.
LEGEND = 192
MOST_PARTS = 5
# The room for a panel's title above and its legend below.
ABOVE = 34
BELOW = 58

# Dark to light, even to the eye, and told apart by colour-blind readers too.
SCALE = ['#5a2a7a', '#4c4f96', '#3f709d', '#36909f', '#35ad93', '#5fc47c', '#97d55f', '#d0e04f', '#fbe84a']
PARTS = ['#e69f00', '#56b4e9', '#009e73', '#f0e442', '#0072b2', '#d55e00', '#cc79a7', '#999999']
# how light the darkest face is
DARKEST = 0.66
WHITE = (255, 255, 255)

# What is drawn in all four panels: faces farthest first, nodes that no element joins to another, and the paper.
Scene = namedtuple('Scene', 'faces loose view paper')

# colours: by node, a text such as '#5a2a7a'; labels: by node; legend: lines of SVG for a left edge and a height; ringed: the nodes with a ring
Panel = namedtuple('Panel', 'title colours labels legend ringed', defaults=(frozenset(),))


# Colours.

def parsed(colour):
    return tuple(int(colour[at:at + 2], 16) for at in (1, 3, 5))


def written(values):
    return '#%02x%02x%02x' % tuple(int(value + 0.5) for value in values)


def mixed(one, other, share):
    """A colour on the way from one to the other."""
    return tuple(a + (b - a) * share for a, b in zip(one, other))


def on_scale(share):
    """The colour at a share, 0 to 1, of the scale."""
    at = min(share, 0.999999) * (len(SCALE) - 1)
    return written(mixed(parsed(SCALE[int(at)]), parsed(SCALE[int(at) + 1]), at - int(at)))


def by_rank(rank, count):
    """Numbers 1 to count in few steps of the scale."""
    step = (rank - 1) * STEPS // count
    return on_scale(step / (STEPS - 1))


def by_level(level, depth):
    """Every other level is lighter, so that neighbours differ on a long scale too."""
    colour = parsed(on_scale((level - 1) / max(depth - 1, 1)))
    return written(mixed(colour, WHITE, 0.3) if level % 2 == 0 else colour)


def by_part(part):
    return PARTS[(part - 1) % len(PARTS)]


def shaded(colour, shade):
    light = DARKEST + (1 - DARKEST) * shade / faces.SHADES
    return written(tuple(value * light for value in parsed(colour)))


# Paper: the mesh brought to the size of a panel.

class Paper:
    def __init__(self, points):
        xs, ys = [x for x, _ in points], [y for _, y in points]
        wide, high = max(xs) - min(xs), max(ys) - min(ys)
        self.scale = min(SIDE / wide if wide else math.inf, SIDE / high if high else math.inf) * 0.94
        self.height = max(LEAST_HEIGHT, math.ceil(high * self.scale / 0.94))
        self.left = SIDE / 2 - self.scale * (max(xs) + min(xs)) / 2
        self.top = self.height / 2 - self.scale * (max(ys) + min(ys)) / 2

    def at(self, point):
        """Tenths of a pixel from the panel's upper left corner."""
        return (int(math.floor(UNIT * (self.left + self.scale * point[0]) + 0.5)),
                int(math.floor(UNIT * (self.top + self.scale * point[1]) + 0.5)))


def scene(model, numbers):
    """The model's elements on paper; nodes go by their places among the numbers, which are GRD's."""
    places = places_of(model, numbers)
    place = {number: p for p, number in enumerate(numbers, 1)}
    elements = [(faces.shape_of(grd.KINDS[element.shape][0]), [place[node] for node in element.nodes]) for element in model.elements]
    seen, view = faces.visible(elements, places)
    used = {p for _, nodes in elements if len(set(nodes)) > 1 for p in nodes}
    paper = Paper([view.on_paper(place) for place in places.values()])
    loose = [(p, paper.at(view.on_paper(places[p]))) for p in sorted(places) if p not in used]
    return Scene([face._replace(points=[paper.at(point) for point in face.points]) for face in seen], loose, view, paper)


def places_of(model, numbers):
    """Coordinates by GRD number, from a model and its numbers in GRD's order."""
    for node in numbers:
        if model.places.get(node) is None:
            raise Fault(model.nodes[node], 'node %d has no coordinates that are read here, so the mesh is not drawn' % node)
    places = {p: model.places[node] for p, node in enumerate(numbers, 1)}
    if len(set(places.values())) == 1 and len(places) > 1:
        raise Fault(0, 'all nodes lie in one place, so the mesh is not drawn')
    return places


# Shapes.

def half(p, q):
    return (p[0] + q[0]) // 2, (p[1] + q[1]) // 2


def outline(points, closed=True):
    """A path from point to point."""
    words = ''
    for (x, y), (u, v) in zip(points, points[1:]):
        words += '%s%d%s%d' % (' ' if words and u >= x else '', u - x, ' ' if v >= y else '', v - y)
    return 'M%d %dl%s%s' % (points[0] + (words, 'z' if closed else ''))


def turned(points):
    """The same polygon, never counter-clockwise: so polygons in one path never cancel."""
    area = sum(p[0] * q[1] - q[0] * p[1] for p, q in zip(points, points[1:] + points[:1]))
    return points if area >= 0 else points[::-1]


def cells(face, colours):
    """Pairs of a colour and a polygon: neighbours on the face with one colour are joined."""
    nodes, points = face.nodes, face.points
    count = len(nodes)
    starts = [i for i in range(count) if colours[nodes[i]] != colours[nodes[i - 1]]]
    if not starts:
        return [(colours[nodes[0]], turned(points))]
    centre = (sum(x for x, _ in points) // count, sum(y for _, y in points) // count)
    found = []
    for start, following in zip(starts, starts[1:] + [starts[0] + count]):
        run = [points[i % count] for i in range(start, following)]
        first, last = half(points[start - 1], run[0]), half(run[-1], points[following % count])
        found.append((colours[nodes[start]], turned([first] + run + [last, centre])))
    return found


def pieces(face, colours):
    """The same of a bar: pairs of a colour and a line."""
    points = face.points
    for i, node in enumerate(face.nodes):
        line = [half(points[i - 1], points[i])] if i else []
        line.append(points[i])
        if i + 1 < len(points):
            line.append(half(points[i], points[i + 1]))
        yield colours[node], line


def rings(places, ringed, radius):
    """Around those of the nodes that are ringed; places are pairs of a node and its point."""
    return ['<circle class="t" cx="%d" cy="%d" r="%d"/>' % (point + (radius,)) for node, point in places if node in ringed]


# One panel.

def flat_shapes(drawn, colours, ringed, radius):
    """Nothing hides anything: one path for each colour, then the outlines, then the bars, then the rings."""
    areas, bars, edges = {}, {}, {}
    for face in drawn.faces:
        if face.bar:
            for colour, line in pieces(face, colours):
                bars.setdefault(colour, []).append(outline(line, False))
            continue
        for colour, polygon in cells(face, colours):
            areas.setdefault(colour, []).append(outline(polygon))
        for p, q in zip(face.points, face.points[1:] + face.points[:1]):
            edges[min(p, q), max(p, q)] = True
    made = ['<path color="%s" d="%s"/>' % (colour, ''.join(paths)) for colour, paths in sorted(areas.items())]
    if edges:
        made.append('<path class="o" d="%s"/>' % ''.join(outline(edge, False) for edge in edges))
    made += ['<path class="b" color="%s" d="%s"/>' % (colour, ''.join(paths)) for colour, paths in sorted(bars.items())]
    return made + rings(sorted(spots(drawn).items()), ringed, radius)


def solid_shapes(drawn, colours, ringed, radius):
    """Nearer faces hide farther ones: in their order, each with its outline and its rings."""
    outlined = len(drawn.faces) <= MOST_OUTLINED
    made = []
    for face in drawn.faces:
        if face.bar:
            made += ['<path class="b" color="%s" d="%s"/>' % (colour, outline(line, False)) for colour, line in pieces(face, colours)]
        else:
            made += ['<path color="%s" d="%s"/>' % (shaded(colour, face.shade), outline(polygon)) for colour, polygon in cells(face, colours)]
            if outlined:
                made.append('<path class="o" d="%s"/>' % outline(face.points))
        made += rings(zip(face.nodes, face.points), ringed, radius)
    return made


def spots(drawn):
    """The point of each node that is drawn."""
    found = {node: point for face in drawn.faces for node, point in zip(face.nodes, face.points)}
    found.update(drawn.loose)
    return found


def labels(drawn, words):
    """Numbers written on the nodes."""
    return [text(x / UNIT, y / UNIT + 3.5, str(words[node]), 10, INK, ' text-anchor="middle" paint-order="stroke" stroke="#ffffff" stroke-width="3"')
            for node, (x, y) in sorted(spots(drawn).items())]


def labelled(drawn, wanted):
    return drawn.view.flat and len(wanted.labels) <= MOST_LABELLED


def ring_radius(drawn, wanted):
    """A fifth of the way from node to node, as far apart as they would be if they were spread over the panel."""
    if labelled(drawn, wanted):
        return LABEL_RING
    apart = UNIT * math.sqrt(SIDE * drawn.paper.height / len(wanted.labels))
    return int(min(max(apart / 5, RINGS[0]), RINGS[1]))


def axes(x, y, view):
    """The axes' directions."""
    made = []
    for name, (right, down) in view.axes():
        u, v = x + 22 * right, y + 22 * down
        made.append('<path d="M%d %dL%s %s" stroke="%s"/>' % (x, y, number(u), number(v), FAINT))
        made.append(text(u + 7 * right, v + 7 * down + 3.5, name, 11, FAINT, ' text-anchor="middle"'))
    return made


def panel(left, top, drawn, wanted):
    """One colouring: title, mesh, legend."""
    shapes = flat_shapes if drawn.view.flat else solid_shapes
    made = [text(left, top - 12, wanted.title, 15, INK, ' font-weight="bold"'),
            '<g transform="translate(%d %d)">' % (left, top),
            '<g transform="scale(.1)" fill="currentColor" stroke="currentColor" stroke-width="5" stroke-linejoin="round">']
    made += shapes(drawn, wanted.colours, wanted.ringed, ring_radius(drawn, wanted))
    made += ['<circle color="%s" cx="%d" cy="%d" r="35"/>' % ((wanted.colours[p],) + point) for p, point in drawn.loose]
    made.append('</g>')
    if labelled(drawn, wanted):
        made += labels(drawn, wanted.labels)
    return made + ['</g>'] + wanted.legend(left, top + drawn.paper.height + 18)


# The four colourings and their legends.

def bar_legend(colours, first, last):
    """A band of colours with a word at each end."""
    def made(left, y):
        wide = LEGEND / len(colours)
        begin = left + 6 + 8 * len(first)
        band = ['<rect x="%s" y="%d" width="%s" height="12" fill="%s"/>' % (number(begin + i * wide), y, number(wide), colour)
                for i, colour in enumerate(colours)]
        return ([text(left, y + 10, first, 12, FAINT), '<g shape-rendering="crispEdges">'] + band
                + ['</g>', text(begin + LEGEND + 7, y + 10, last, 12, FAINT)])
    return made


def level_legend(mesh, colours, thickest):
    """The band of the levels, and under it what the rings mark."""
    band = bar_legend(colours, 'level 1', str(len(colours)))

    def made(left, y):
        if not thickest:
            return band(left, y)
        ring = '<circle cx="%d" cy="%d" r="5" fill="#ffffff" stroke="%s" stroke-width="1.2"/>' % (left + 6, y + 25, INK)
        return band(left, y) + [ring, text(left + 18, y + 29, thickness.in_short(mesh, thickest), 12, FAINT)]
    return made


def part_legend(sizes):
    """The first parts with their colours and counts of nodes; the others are counted."""
    def made(left, y):
        items = []
        for i, size in enumerate(sizes[:MOST_PARTS]):
            x, down = left + 133 * (i % 3), y + 18 * (i // 3)
            items += ['<rect x="%d" y="%d" width="12" height="12" fill="%s"/>' % (x, down, by_part(i + 1)),
                      text(x + 18, down + 10, '%d: %s' % (i + 1, grd.counted(size, 'node')), 12, FAINT)]
        if len(sizes) > MOST_PARTS:
            items.append(text(left + 266, y + 28, 'and %s more' % grouped(len(sizes) - MOST_PARTS), 12, FAINT))
        return items
    return made


def panels(mesh, listed, numbers):
    """Before, after, levels, parts; numbers are the source's, in GRD's order."""
    n = mesh.n
    every = range(1, n + 1)
    scale = [on_scale(step / (STEPS - 1)) for step in range(STEPS)]
    depth = max(listed.levels)
    found = parts.parts_of(grd.neighbours(mesh))
    part = {p: i for i, nodes in enumerate(found, 1) for p in nodes}
    ends = [str(numbers[0]), str(numbers[-1])]
    levels = [by_level(level, depth) for level in range(1, depth + 1)]
    thickest = thickness.of_parts(mesh, listed)
    return [Panel('before: old numbers', {p: by_rank(p, n) for p in every}, {p: numbers[p - 1] for p in every}, bar_legend(scale, *ends)),
            Panel('after: new numbers', {p: by_rank(listed.numbers[p], n) for p in every}, {p: listed.numbers[p] for p in every},
                  bar_legend(scale, '1', str(n))),
            Panel('levels', {p: levels[listed.levels[p] - 1] for p in every}, {p: listed.levels[p] for p in every},
                  level_legend(mesh, levels, thickest), {p for one in thickest for p in one.nodes}),
            Panel('parts', {p: by_part(part[p]) for p in every}, {p: part[p] for p in every}, part_legend([len(nodes) for nodes in found]))]


STYLE = ('<style>.o{fill:none;stroke:#1d2b3a;stroke-opacity:.4;stroke-width:5}.b{fill:none;stroke-width:28}'
         '.t{fill:#ffffff;stroke:#1d2b3a;stroke-width:12}</style>')


def height(drawn):
    return 2 * (ABOVE + drawn.paper.height + BELOW)


def lines(top, mesh, listed, numbers, drawn):
    """All four panels below this height, two by two; the axes stand beside the first legend."""
    made = [STYLE] + axes(COLUMNS[0] + SIDE - 45, top + ABOVE + drawn.paper.height + 36, drawn.view)
    for i, wanted in enumerate(panels(mesh, listed, numbers)):
        made += panel(COLUMNS[i % 2], top + ABOVE + (ABOVE + drawn.paper.height + BELOW) * (i // 2), drawn, wanted)
    return made
