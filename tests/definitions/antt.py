"""Values of the reference program as antt terms: lists, records, outcomes."""

LEVEL_FIGURES = ('depth', 'width', 'reached')
ENDS = ('v', 'u', 'k', 'v_width', 'u_width', 'passes')
COMBINED_FIGURES = ('k', 'width')
PART_REPORT = ('v', 'u', 'k', 'width', 'passes', 'direction')
FIGURES = ('nodes', 'parts', 'bandwidth', 'profile', 'front', 'levels', 'width')
MEASURE_FIGURES = ('bandwidth', 'profile', 'front')
ELIMINATION_FIGURES = ('marked', 'new')
MAP_FIGURES = ('profile', 'unknowns')


def words(values):
    """A list of numbers; a long run of one number as replicate."""
    values = list(values)
    runs = []
    for value in values:
        if runs and runs[-1][0] == value:
            runs[-1][1] += 1
        else:
            runs.append([value, 1])
    parts = []
    for value, count in runs:
        parts.append('replicate %d %d' % (count, value) if count > 8
                     else '(%s ∷ [])' % ' ∷ '.join([str(value)] * count))
    if not any(count > 8 for _, count in runs):
        return '(%s ∷ [])' % ' ∷ '.join(map(str, values)) if values else '[]'
    return '(%s)' % ' ++ '.join(parts)


def bare(term):
    """A list without the brackets that it has as an argument."""
    return term[1:-1] if term.startswith('(') else term


def record(fields, values):
    return '(record { %s })' % '; '.join('%s = %s' % pair for pair in zip(fields, values))


def outcome(answer, value):
    """An answer of the reference, with what value makes of an accepted one."""
    state, figures = answer
    return 'refused %d' % figures if state == 'refused' else 'accepted %s' % value(figures)


def figures(fields):
    return lambda values: record(fields, values)


def one_number(values):
    return str(values[0])


def nothing(_):
    return 'tt'


def truth(held):
    return 'true' if held else 'false'
