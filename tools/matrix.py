"""The matrix before and after the renumbering: entries, envelope and band, and what elimination joins.

A dark cell is an entry. The blue area is the envelope, row q from f_q to q: the store. The lines on both sides of the diagonal bound the band.
A node has a row and a column for each of its unknowns, which is one where the mesh counts none. With more than 200 rows several rows and columns
share a cell, which is dark if one of its entries is there. A bar beside the new numbers stands at the rows of each part's thickest level.
"""

from itertools import accumulate

import figures
import fill
import grd
import thickness
from ink import COLUMNS, FAINT, INK, MARGIN, SIDE, WIDTH, grouped, number, text

MOST_CELLS = 200
# Up to here lines part the cells.
MOST_RULED = 40
# The room for a side's title above and for its figures and the legend below.
ABOVE = 34
BELOW = 118
# The line of the thickest level, and one more where elimination is shown.
LINE = 19

ENTRY = '#17324d'
ENVELOPE = '#9cc9ee'
JOINED = '#e8963c'
OUTSIDE = '#f5f6f7'
BAND = '#d1480f'


# The matrix in cells. Cell 0 has the first `step` rows or columns, and so on.

def step_for(n):
    return -(-n // MOST_CELLS)


def dark_cells(graph, step):
    """For each row of cells the set of dark ones, the diagonal included."""
    last = figures.lasts(graph)
    cells = [set() for _ in range(-(-last[-1] // step))]
    spans = [None] + [range(last[p - 1] // step, (last[p] - 1) // step + 1) for p in range(1, len(last))]
    for q in range(1, len(last)):
        columns = {cell for p in graph.rows[q] | {q} for cell in spans[p]}
        for row in spans[q]:
            cells[row] |= columns
    return cells


def runs(columns):
    """Neighbouring columns joined: pairs of the first and the count."""
    joined = []
    for column in sorted(columns):
        if joined and sum(joined[-1]) == column:
            joined[-1] = (joined[-1][0], joined[-1][1] + 1)
        else:
            joined.append((column, 1))
    return joined


# Shapes. Lengths of the paths of cells are in cells; their group's scale brings them to pixels.

def entries_path(cells):
    return ''.join('M%d %dh%dv1h-%dz' % (first, row, count, count) for row, columns in enumerate(cells) for first, count in runs(columns))


def envelope_path(graph, step):
    """The steps at the left of the envelope from the top down, then back along the diagonal's cells."""
    lefts = [(f - 1) // step for f in figures.firsts(graph)[1:]]
    path, here = 'M0 0', 0
    count = -(-len(lefts) // step)
    for cell in range(count):
        left = min(lefts[cell * step:(cell + 1) * step])
        if left != here:
            path += 'H%d' % left
            here = left
        path += 'V%d' % (cell + 1)
    path += 'H%d' % count
    for cell in range(count - 1, -1, -1):
        path += 'V%dH%d' % (cell, cell)
    return path + 'z'


def band(left, top, n, width):
    """Two lines that touch the outermost entries of the band from outside, in pixels; none where the band is the whole matrix."""
    if n - width - 1 <= 0:
        return []
    low, far = SIDE * (width + 1) / n, SIDE * (n - width - 1) / n
    path = 'M%s %sL%s %s' % (number(left), number(top + low), number(left + far), number(top + SIDE))
    path += 'M%s %sL%s %s' % (number(left + low), number(top), number(left + SIDE), number(top + far))
    return ['<path d="%s" fill="none" stroke="%s" stroke-width="1.5"/>' % (path, BAND)]


def rules(left, top, n):
    """White lines between the cells of a small matrix, in pixels."""
    if n > MOST_RULED:
        return []
    places = [number(SIDE * i / n) for i in range(1, n)]
    path = ''.join('M%s 0v%dM0 %sh%d' % (place, SIDE, place, SIDE) for place in places)
    return ['<path d="%s" transform="translate(%d %d)" stroke="#ffffff"/>' % (path, left, top)]


# One side of the picture.

def matrix(left, top, graph, filled):
    """Ground, envelope, what elimination joins, entries, rules and band of one numbering."""
    n = figures.size(graph)
    step = step_for(n)
    group = '<g transform="translate(%d %d) scale(%s)">' % (left, top, ('%.6f' % (SIDE * step / n)).rstrip('0').rstrip('.'))
    size = number(n / step)
    # several rows to a cell: the last cell may be cut
    lines = [group,
             '<rect width="%s" height="%s" fill="%s"/>' % (size, size, OUTSIDE),
             '<g shape-rendering="crispEdges"%s>' % (' clip-path="url(#square)"' if n % step else ''),
             '<path d="%s" fill="%s"/>' % (envelope_path(graph, step), ENVELOPE)]
    if filled:
        lines.append('<path d="%s" fill="%s"/>' % (entries_path(fill.dark_cells(graph, step)), JOINED))
    lines += ['<path d="%s" fill="%s"/>' % (entries_path(dark_cells(graph, step)), ENTRY),
              '</g>',
              '</g>']
    return lines + rules(left, top, n) + band(left, top, n, figures.bandwidth(graph))


def side(left, top, title, graph, filled):
    width, profile, front = figures.figures(graph)
    n, below = figures.size(graph), top + SIDE
    lines = [text(left, top - 14, title, 15, INK, ' font-weight="bold"')]
    lines += matrix(left, top, graph, filled)
    lines.append('<rect x="%d" y="%d" width="%d" height="%d" fill="none" stroke="%s"/>' % (left, top, SIDE, SIDE, FAINT))
    for at, name, value in ((0, 'bandwidth', width), (147, 'profile', profile), (307, 'front', front)):
        lines.append(text(left + at, below + 26, '%s <tspan font-weight="bold">%s</tspan>' % (name, grouped(value)), 15))
    share = 100 * profile / (n * (n - 1) / 2) if n > 1 else 0
    lines.append(text(left, below + 47, 'the store has %.1f %% of the places below the diagonal' % share, 12, FAINT))
    if filled:
        lines.append(text(left, below + 47 + LINE, elimination(graph, profile), 12, FAINT))
    return lines


def elimination(graph, profile):
    """What it joins, and how much of the store that fills."""
    total, new = fill.counts(graph)
    # rounded down, so that 100 % says that every place is used
    share = 1000 * total // profile / 10 if profile else 0
    return 'elimination joins %s more: %.1f %% of the store is used' % (grd.counted(new, 'pair'), share)


def thickest(left, top, mesh, listed, filled):
    """A bar at the left of the rows of each part's thickest level, and its meaning below the figures."""
    found = thickness.of_parts(mesh, listed)
    if not found:
        return []
    n, rows = sum(grd.unknowns(mesh)), rows_of(mesh, listed.numbers)
    path = ''.join('M%d %sv%s' % (left - 7, number(top + SIDE * (first - 1) / n), number(max(1, SIDE * count / n)))
                   for first, count in runs(row for one in found for p in one.nodes for row in rows[p]))
    y = top + SIDE + 47 + LINE * (1 + filled)
    path += 'M%d %dv12' % (left + 2, y - 10)
    return ['<path d="%s" fill="none" stroke="%s" stroke-width="4"/>' % (path, INK), text(left + 12, y, thickness.in_short(mesh, found), 12, FAINT)]


def rows_of(mesh, numbers):
    """The rows of each node, by its old number, under new numbers."""
    counts = grd.unknowns(mesh)
    order = sorted(range(1, mesh.n + 1), key=lambda p: numbers[p])
    last = accumulate(counts[p] for p in order)
    return {p: range(end - counts[p] + 1, end + 1) for p, end in zip(order, last)}


# The whole.

def legend(y, step, filled):
    """A sample of each colour with its meaning."""
    square = '<rect x="%d" y="%d" width="12" height="12" fill="'
    items = [(square + ENTRY + '"/>', 'entry', 70), (square + ENVELOPE + '"/>', 'envelope: the places of the store', 240),
             ('<path d="M%d %dh16" transform="translate(-2 6)" stroke="' + BAND + '" stroke-width="2"/>', 'limits of the band', 150)]
    if filled:
        items.insert(1, (square + JOINED + '"/>', 'joined by elimination', 165))
    lines, x = [], MARGIN
    for shape, words, wide in items:
        lines += [shape % (x, y - 11), text(x + 19, y, words, 12)]
        x += wide
    if step > 1:
        lines.append(text(WIDTH - MARGIN, y, 'a cell is %d by %d places' % (step, step), 12, FAINT, ' text-anchor="end"'))
    return lines


def clip(mesh):
    """The square that a last cell is cut by, in cells."""
    n = sum(grd.unknowns(mesh))
    size = number(n / step_for(n))
    return '<clipPath id="square"><rect width="%s" height="%s"/></clipPath>' % (size, size)


def height(filled):
    return ABOVE + SIDE + BELOW + LINE * (1 + filled)


def lines(top, mesh, listed, filled):
    """Both sides and the legend below this height."""
    before = figures.graph(mesh)
    after = figures.renumbered(before, listed.numbers)
    rows = '' if mesh.counts is None else ', a row for each unknown'
    made = side(COLUMNS[0], top + ABOVE, 'before: old numbers' + rows, before, filled)
    made += side(COLUMNS[1], top + ABOVE, 'after: new numbers' + rows, after, filled) + thickest(COLUMNS[1], top + ABOVE, mesh, listed, filled)
    return made + legend(top + height(filled) - 24, step_for(figures.size(before)), filled)
