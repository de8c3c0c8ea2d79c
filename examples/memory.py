"""How full a store gets: docs/MEMORY.md with its table, and its picture docs/store.svg.

make.py hands over the meshes, of one unknown a node, and writes both. The numbers are those of tests/reference, what elimination joins is that of
tools/fill.py. A graph is one of tools/figures.py: its rows are neighbours by number, with place 0 unused.
"""

from collections import namedtuple

import calls
import figures
import fill
import grd
import ink
import matrix
import parts

# The places of a store, how many are joined at first, and how many at the end.
Count = namedtuple('Count', 'places first last')

# The graph by each order: the old numbers, the run's, reverse Cuthill-McKee as the call gives it, and before its turning.
Orders = namedtuple('Orders', 'old run cuthill unturned')


# Orders.

def numbers_by(call, rows):
    """The numbers of a call of tests/reference, by old number."""
    n = len(rows) - 1
    graph = calls.from_edges(n, [(p, q) for p in range(1, n + 1) for q in rows[p]])
    numbers = [0] * n
    call(*graph, calls.ones(n), numbers, [0] * n, [0] * n, [0] * calls.scratch_words(n))
    return [0] + numbers


def turned(rows, numbers):
    """Each part's numbers end for end within themselves: n + 1 less the number, where there is one part."""
    other = list(numbers)
    for part in parts.parts_of(rows):
        taken = [numbers[p] for p in part]
        for p in part:
            other[p] = min(taken) + max(taken) - numbers[p]
    return other


def orders(mesh):
    graph = figures.graph(mesh)
    cuthill = numbers_by(calls.reverse_cuthill_mckee, graph.rows)
    numberings = range(len(graph.rows)), numbers_by(calls.whole_run, graph.rows), cuthill, turned(graph.rows, cuthill)
    return Orders(*(figures.renumbered(graph, numbers) for numbers in numberings))


def count(graph):
    last, new = fill.counts(graph)
    return Count(figures.profile(graph), last - new, last)


# The table.

def tenths(some, places):
    """Some of the places in tenths of a percent, rounded up: 0 is said only where there are none."""
    return -(-1000 * some // places)


def idle(counted):
    return tenths(counted.places - counted.last, counted.places)


def percent(value):
    return '%.1f' % (value / 10)


def table_row(name, by):
    """Places and idle share by each order; by the run's also what is empty at first. The fewest places are bold."""
    least = min(counted.places for counted in by)
    pairs = [[('**%s**' if counted.places == least else '%s') % ink.grouped(counted.places), percent(idle(counted))] for counted in by]
    pairs[1].insert(1, percent(tenths(by.run.places - by.run.first, by.run.places)))
    cells = ['[`%s`](../examples/%s.svg)' % (name, name)] + [cell for pair in pairs for cell in pair]
    return '| %s |' % ' | '.join(cells)


PAGE = '''# How full a store gets

For buyers of memory. A store is bought by its places, before anything stands in them. How many of them stay empty to the end depends on the order of
the nodes: on the seven meshes of `examples/` with one unknown a node the run's order leaves at most %(run)s %% of them idle, reverse Cuthill-McKee at
most %(cuthill)s %%, and Cuthill-McKee before its turning none. But of the three that last one has the largest store on each of these meshes: **buy by
the places, not by the share that is idle.**

## What a store is

The stiffness matrix has a coefficient for each pair of nodes. At first only those of pairs that share an element need not be 0: these pairs are
joined. The solver eliminates the nodes by their numbers, and eliminating one joins all higher-numbered nodes that are joined to it to one another:
their coefficients need not be 0 any more. The pairs that become joined so are the fill-in.

So the store has, in the row of each node, a place for every number from that of its lowest-numbered neighbour up to the one before its own. These
places are the envelope; the profile is their count. It is known before the first elimination, and it suffices: no elimination joins a pair that has
no place, which is proved. That is why a store is sized by the profile. A place holds one coefficient, of a pair of unknowns; on this page each node
has one. The diagonal is not counted.

A place is **idle** if its pair is never joined, neither at first nor at any elimination: its coefficient stays 0.

## Empty at first, used at the end

![A store before the first and after the last elimination, by two orders](store.svg)

Before the first elimination most places are empty, by the run's order %(empty)s: who looks then sees half of the store empty, or more. After
the last one nearly all or all are used. With the old numbers, as a mesh tool gives them, that does not hold: up to %(old)s %% are idle, in a store of
%(times)s times the run's places. (On the mesh of the picture the run and reverse Cuthill-McKee give the same numbers, so its two orders are one,
end for end.)

## Which order leaves no idle place

Number a connected mesh so that every number but 1 has a neighbour with a lower number. Then after the last elimination every place of the store is
used. That is a theorem here, for every such numbering with one unknown a node: [`SPEC.md`, A.12](SPEC.md#a12-store-with-no-idle-place).

Cuthill and McKee's order is one of these: each node after the first gets its number as a neighbour of one that has a number. The call of reverse
Cuthill-McKee hands it out turned end for end. To turn it back, take n + 1 − number. Where a mesh falls into several parts, as `two_parts` does, the
parts follow one another, each in its order, and again no place is idle: that is proved too. There each part is turned back within its own
consecutive numbers.

Neither the run's own order nor reverse Cuthill-McKee as handed out is free of idle places in general, though on some meshes they are. The smallest
example is a triangle with one more node at each corner: both orders need 7 places and leave one of them idle, and before its turning
Cuthill-McKee's needs 8 and leaves none.

## No idle place is not the least memory

What is paid for is the places, used or idle. Turning Cuthill-McKee's order end for end never makes the profile more (the 1976 paper, by its
reference 24; here it is tested on every generated graph, `tests/reference/cuthill_cases.py`, and not proved). So of these two the order without an
idle place never has the smaller store: `hub_sector` takes %(full)s places with none idle, or %(less)s with %(few)s idle.

| Mesh | Old numbers: places | idle %% | The run: places | empty at first %% | idle %% | Reverse Cuthill-McKee: places | idle %% | Cuthill-McKee before turning: places | idle %% |
|---|---:|---:|---:|---:|---:|---:|---:|---:|---:|
%(table)s

Idle is what is not joined after the last elimination, empty at first what is not joined before the first one, each as a share of that store's places
and rounded up to a tenth: 0.0 says that there is none. The fewest places of each mesh are bold. `examples/make.py` makes this page and the picture,
by `examples/memory.py`; the numbers come from `tests/reference`, the independent program, and what is joined from `tools/fill.py`. A test of the
gate, `examples/make.py --check`, holds both to it.

A caller can have this of any numbering: the elimination call, `wagonepoch_eliminate`, returns how many marks are 1, which are the places used at the
end, and how many pairs are newly joined. The profile less these marks are the idle places, and the mark bytes say which they are.
'''


def test_words(found):
    """Stops where a sentence of the page that no figure fills in is not true of these meshes."""
    if any(by.unturned.places < max(by.run.places, by.cuthill.places) for _, by in found):
        raise AssertionError('Cuthill-McKee before its turning has not the largest store of the three on each mesh')
    if any(by.unturned.last < by.unturned.places for _, by in found):
        raise AssertionError('Cuthill-McKee before its turning leaves a place idle')


def page(meshes):
    """The page's text; meshes are pairs of a name and a mesh."""
    found = [(name, Orders(*map(count, orders(mesh)))) for name, mesh in meshes]
    test_words(found)
    times = [by.old.places / by.run.places for _, by in found]
    most = {order: percent(max(idle(getattr(by, order)) for _, by in found)) for order in ('old', 'run', 'cuthill')}
    empty = [tenths(by.run.places - by.run.first, by.run.places) for _, by in found]
    hub = dict(found)['hub_sector']
    return PAGE % dict(most, times='%.1f to %.1f' % (min(times), max(times)), empty='%s to %s %%' % (percent(min(empty)), percent(max(empty))),
                       full=ink.grouped(hub.unturned.places), less=ink.grouped(hub.cuthill.places),
                       few=ink.grouped(hub.cuthill.places - hub.cuthill.last), table='\n'.join(table_row(*one) for one in found))


# The picture. Lengths in the paths are in cells, as in tools/matrix.py.

# The room for the headings, for a panel's title above it, between the two rows of panels, and for the legend.
HEAD = 84
ABOVE = 30
BETWEEN = 24
BELOW = 52
# What tells an idle place from one that is empty as yet.
OUTLINE = 'fill="none" stroke="%s" stroke-width=".09"' % matrix.ENTRY


def cells(graph, last):
    """By row, sets of columns below the diagonal: all, the places of the store, those joined by now, and those joined at first."""
    every = [set(range(row)) for row in range(len(graph.rows) - 1)]
    places = [set(range(f - 1, q - 1)) for q, f in enumerate(figures.firsts(graph))][1:]
    first = [{p - 1 for p in graph.rows[q] if p < q} for q in range(1, len(graph.rows))]
    return every, places, fill.dark_cells(graph, 1) if last else first, first


def idle_path(row, column):
    """A square with a stroke across."""
    x, y = ink.number(column + 0.17), ink.number(row + 0.17)
    return 'M%s %sh.66v.66h-.66zl.66 .66' % (x, y)


def panel(left, top, title, graph, last):
    """A store at one time: title, figures in the empty half, cells, and the numbers along the diagonal."""
    n, counted = figures.size(graph), count(graph)
    layers = cells(graph, last)
    used = counted.last if last else counted.first
    scale = '<g transform="translate(%d %d) scale(%s)">' % (left, top, ('%.6f' % (ink.SIDE / n)).rstrip('0').rstrip('.'))
    lines = [ink.text(left, top - 10, title, 13), scale, '<g shape-rendering="crispEdges">']
    for colour, layer in zip((matrix.OUTSIDE, matrix.ENVELOPE, matrix.JOINED, matrix.ENTRY), layers):
        lines.append('<path d="%s" fill="%s"/>' % (matrix.entries_path(layer), colour))
    lines += ['</g>', '</g>'] + matrix.rules(left, top, n)
    if last:
        marks = ''.join(idle_path(row, column) for row in range(n) for column in sorted(layers[1][row] - layers[2][row]))
        lines += [scale, '<path d="%s" %s/>' % (marks, OUTLINE), '</g>']
    return lines + diagonal(left, top, n) + figure_lines(left + ink.SIDE, top, counted.places, used, last)


def diagonal(left, top, n):
    step = ink.SIDE / n
    middle = ' text-anchor="middle"'
    return [ink.text(left + (i - 0.5) * step, top + (i - 0.5) * step + 3.5, str(i), 10, ink.FAINT, middle) for i in range(1, n + 1)]


def figure_lines(right, top, places, used, last):
    words = ((places, 'places'), (used, 'joined'), (places - used, 'idle' if last else 'empty'))
    return [ink.text(right, top + 34, ',  '.join('<tspan font-weight="bold">%d</tspan> %s' % pair for pair in words), 15, ink.INK,
                     ' text-anchor="end"')]


def legend(y):
    """A sample of each colour with its meaning."""
    items = [(matrix.ENTRY, 'joined at first', 135), (matrix.JOINED, 'joined by elimination', 178), (matrix.ENVELOPE, 'place empty as yet', 160),
             (matrix.ENVELOPE, 'idle place: empty to the end', 215), (matrix.OUTSIDE, 'outside the store', 0)]
    lines, x = [], ink.MARGIN
    for colour, words, wide in items:
        # the ground is nearly white, so its sample has an outline
        edge = ' stroke="%s" stroke-width=".6"' % ink.FAINT if colour == matrix.OUTSIDE else ''
        lines.append('<rect x="%d" y="%d" width="14" height="14" fill="%s"%s/>' % (x, y - 12, colour, edge))
        if words.startswith('idle'):
            lines.append('<path d="%s" transform="translate(%d %d) scale(14)" %s/>' % (idle_path(0, 0), x, y - 12, OUTLINE))
        lines.append(ink.text(x + 21, y, words, 12))
        x += wide
    return lines


def svg(mesh):
    """Columns are orders, rows are before and after."""
    by = orders(mesh)
    if by.run != by.cuthill:
        raise AssertionError('the page says that the run and reverse Cuthill-McKee give the same numbers here')
    height = HEAD + 2 * (ABOVE + ink.SIDE) + BETWEEN + BELOW
    words = 'a hanger: flange, plate around a hole, tab; %s' % grd.counted(mesh.n, 'node')
    lines = ['<rect width="%d" height="%d" fill="#ffffff"/>' % (ink.WIDTH, height)] + ink.heading('A store before and after elimination', words)
    for left, title, graph in zip(ink.COLUMNS, ("the run's order", "Cuthill-McKee's order before its turning"), (by.run, by.unturned)):
        lines.append(ink.text(left, HEAD - 8, title, 15, ink.INK, ' font-weight="bold"'))
        lines += panel(left, HEAD + ABOVE, 'before the first elimination', graph, False)
        lines += panel(left, HEAD + 2 * ABOVE + ink.SIDE + BETWEEN, 'after the last elimination', graph, True)
    return ink.framed('a store before the first and after the last elimination, by two orders', height, lines + legend(height - 18))


def files(meshes, small):
    """Pairs of a file name, seen from here, and its bytes."""
    return [('../docs/MEMORY.md', page(meshes).encode('utf-8')), ('../docs/store.svg', svg(small).encode('utf-8'))]
