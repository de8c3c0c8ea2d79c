"""The lines of the timing program as tables."""

from math import exp, log

# The line of docs/PERFORMANCE.md below which the tables stand.
BELOW = '## Measured\n'

# Our two orders, by the calls that make them.
ORDERS = ('whole run', 'reverse Cuthill-McKee')
# The calls that take counts of unknowns, and what the timing program says of counts that are not all 1.
COUNTED = ('measures', *ORDERS, 'import', 'elimination', 'store map')
SORTS = ('mixed unknowns', 'six unknowns each')
CALLS = ('adjacency test', 'rooted levels', 'mesh', *COUNTED,
         *('%s, numbers as given' % call for call in ('measures', 'import', 'elimination', 'store map')),
         *('%s, %s' % (call, sort) for sort in SORTS for call in COUNTED))
EACH, MEAN = 2.0, 1.5


class Mesh:
    def __init__(self, name, nodes, entries, parts):
        self.name, self.nodes, self.entries, self.parts = name, nodes, entries, parts
        self.times = {}    # call: nanoseconds of the proved library, of the C++ for any processor and for this one, of the bare stage
        self.figures = {}  # 'as given' and each order: bandwidth, profile, front
        self.peers = {}    # name: nanoseconds, bandwidth, profile, front; or a word


class Store:
    """The largest store, eliminated once: nanoseconds of the proved library and of the C++ for any processor and for this one."""

    def __init__(self, mesh, unknowns, size, marks, *times):
        self.mesh, self.unknowns, self.size, self.marks, self.times = mesh, unknowns, size, marks, times


def read(text):
    """The meshes and the largest store."""
    meshes, store = [], None
    for line in text.splitlines():
        kind, name, *rest = line.split('\t')
        if kind == 'mesh':
            meshes.append(Mesh(name, *map(int, rest)))
        elif kind == 'time':
            meshes[-1].times[name] = list(map(float, rest))
        elif kind == 'figures':
            meshes[-1].figures[name] = list(map(int, rest))
        elif kind == 'peer':
            meshes[-1].peers[name] = rest[0] if len(rest) == 1 else [float(rest[0])] + list(map(int, rest[1:]))
        elif kind == 'store':
            store = Store(name, *map(int, rest))
    return meshes, store


def rows(head, body):
    return '\n'.join('| ' + ' | '.join(row) + ' |' for row in [head, ['---'] * len(head)] + body) + '\n'


def micro(nanoseconds):
    return '{:,.0f}'.format(nanoseconds / 1000) if nanoseconds >= 1e5 else '%.1f' % (nanoseconds / 1000)


def times(ratio):
    return '%.0f' % ratio if ratio >= 20 else '%.1f' % ratio if ratio >= 5 else '%.2f' % ratio


def ratio(mesh, call):
    """Of the proved library to the same job in C++ for this processor."""
    return mesh.times[call][0] / mesh.times[call][2]


def mean(values):
    return exp(sum(map(log, values)) / len(values))


def summary(meshes):
    body = []
    for call in CALLS:
        ratios = {mesh.name: ratio(mesh, call) for mesh in meshes}
        missed = [name for name, r in ratios.items() if r > EACH]
        average = mean(ratios.values())
        goal = ['mean'] * (average > MEAN) + ['%d of %d meshes' % (len(missed), len(ratios))] * bool(missed)
        body.append([call, times(min(ratios.values())), times(max(ratios.values())), times(average),
                     'missed: ' + ', '.join(goal) if goal else 'met'])
    return rows(['call', 'least ratio', 'greatest', 'geometric mean', 'goal'], body)


def call_table(meshes, call):
    body = []
    for mesh in meshes:
        ours, plain, same, bare = mesh.times[call]
        mark = ' **' if ours / same > EACH else ' '
        body.append([mesh.name, micro(ours), micro(same), (mark + times(ours / same) + mark[::-1]).strip(), times(ours / plain), times(ours / bare)])
    return rows(['mesh', 'proved, µs', 'same job, µs', 'ratio', 'ratio, plain -O3', 'ratio, bare stage'], body)


def store_table(store):
    ours, plain, same = store.times
    return rows(['mesh', 'unknowns', 'bytes', 'marks', 'proved, µs', 'same job, µs', 'ratio', 'ratio, plain -O3'],
                [[store.mesh] + ['{:,}'.format(count) for count in (store.unknowns, store.size, store.marks)]
                 + [micro(ours), micro(same), times(ours / same), times(ours / plain)]])


def figures(values):
    return '{:,} / {:,} / {:,}'.format(*values)


def figure_table(meshes):
    names = list(meshes[0].peers)
    body = []
    for mesh in meshes:
        cells = [mesh.peers[name] for name in names]
        body.append([mesh.name] + ['{:,}'.format(count) for count in (mesh.nodes, mesh.entries, mesh.parts)]
                    + [figures(mesh.figures[which]) for which in ('as given', *ORDERS)]
                    + [cell if isinstance(cell, str) else figures(cell[1:]) for cell in cells])
    return rows(['mesh', 'nodes', 'entries', 'parts', 'as given', *ORDERS] + names, body)


def peer_table(meshes, call, names):
    """The times of these programs as multiples of that of our call."""
    body = []
    for mesh in meshes:
        ours = mesh.times[call][0]
        cells = [mesh.peers[name] for name in names]
        body.append([mesh.name, micro(ours)] + [cell if isinstance(cell, str) else times(cell[0] / ours) for cell in cells])
    return rows(['mesh', call + ', µs'] + names, body)


def peer_tables(meshes):
    """All programs beside the whole run, and beside reverse Cuthill-McKee those that make that order."""
    names = list(meshes[0].peers)
    parts = ['### Other programs: time\n']
    for call, beside in zip(ORDERS, (names, [name for name in names if name.endswith(ORDERS[1])])):
        parts += ['Multiples of the time of our %s; below 1 they are faster.\n' % call, peer_table(meshes, call, beside)]
    return parts


def tables(meshes, store):
    parts = ['\nRatios of processor time, the proved library to the same job in C++. Over %g: bold.\n' % EACH,
             'Each node has one unknown but where a name says otherwise; mixed: node p has 1 + p mod 6.\n', summary(meshes)]
    for call in CALLS:
        parts += ['### %s\n' % (call[0].upper() + call[1:]), call_table(meshes, call)]
    parts += ['### The largest store\n', 'The largest there is: 4,096 nodes of six unknowns, one of which adjoins all others and has number 1; eliminated once.\n', store_table(store)]
    parts += peer_tables(meshes) + ['### Bandwidth, profile and front\n', figure_table(meshes)]
    return '\n'.join(parts)
