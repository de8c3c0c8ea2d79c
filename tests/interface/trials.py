"""A trial of the C interface: what a call is given and lent, and what the independent program says that it must answer and leave.

A trial has one call, or the whole run or reverse Cuthill-McKee and then the elimination on the n numbers that it left, in the memory that it left
them in; or reverse Cuthill-McKee, and on its numbers, which the trial turns back in that memory, the measures and the elimination; or the whole run
and then the store map on its numbers; or the run or reverse Cuthill-McKee, then the import of its numbers, which the trial writes down as pairs,
with its figures, and the elimination on what that left.
"""

import json
from array import array
from collections import namedtuple

import calls
import idle_cases
import worked
from cases import CALLS as CASE_CALLS
from graph import adjacency_refusal, wrong_node_count
from library import CODE_OF, FIGURES, PARAMETERS, Span, guarded

# What is given, lists and numbers in the order of the call; the lengths of what is lent, and of the list of figures of each call; what is in them.
Trial = namedtuple('Trial', 'kind call given lent figures fill')

# Given to a pair. A.6: both calls are handed the same counts.
GIVEN_TO_PAIR = ('starts', 'neighbours', 'counts')
# Lent to a pair: numbers, levels, passes and scratch to the first; to the elimination a scratch of its own, or None for the first's, and bytes.
PAIRS = ('run, then eliminate', 'reverse Cuthill-McKee, then eliminate')
LENT_TO_PAIR = ('numbers', 'levels', 'passes', 'scratch', 'other scratch', 'bytes')
# A.12: lent as to a pair; the measures have the elimination's scratch.
TURNED_BACK = 'reverse Cuthill-McKee turned back, then measures and eliminate'
# The store of a run, for a caller who fills it: lent as to a pair, with the map's two lists in place of the bytes.
MAPPED = 'run, then store map'
LENT_TO_MAPPED = LENT_TO_PAIR[:-1] + ('first', 'place')
# A.5: lent as to a pair, and for the import 2n words of pairs and a list of numbers of its own; it has the elimination's scratch.
IMPORTED = ('run, then import and eliminate', 'reverse Cuthill-McKee, then import and eliminate')
LENT_TO_IMPORTED = LENT_TO_PAIR + ('pairs', 'other numbers')
FIGURE_LISTS = ('figures', 'other figures', 'third figures')

# The functions that a trial calls, one after the other.
FUNCTIONS = {
    'adjacency test': ('test_adjacency',), 'rooted levels': ('rooted_levels',), 'ends': ('ends',), 'combined levels': ('combined_levels',),
    'measures': ('measures',), 'part report': ('part_report',), 'whole run': ('run',), 'reverse Cuthill-McKee': ('reverse_cuthill_mckee',),
    'elimination': ('eliminate',), PAIRS[0]: ('run', 'eliminate'), PAIRS[1]: ('reverse_cuthill_mckee', 'eliminate'), 'mesh': ('mesh',),
    TURNED_BACK: ('reverse_cuthill_mckee', 'measures', 'eliminate'), 'store map': ('store_map',), MAPPED: ('run', 'store_map'),
    'import': ('import_numbering',), IMPORTED[0]: ('run', 'import_numbering', 'eliminate'),
    IMPORTED[1]: ('reverse_cuthill_mckee', 'import_numbering', 'eliminate'),
}
# Eliminations of a star whose centre has number 1, one unknown each and enough of everything lent: by sums, where the reference would take hours.
STAR = 'star, centre first'
# As many unknowns of every node: bandwidth and front must be what they are of one unknown each, by a rule of their own.
ALIKE = 'as many unknowns each'
REFERENCE = {functions[0]: CASE_CALLS[call].reference for call, functions in FUNCTIONS.items() if len(functions) == 1}

# What a lent list holds before the call, by place, below the modulus of its elements: falling from the top, zeros, ones, small numbers.
FILLS = (lambda i: -1 - i % 5000, lambda i: 0, lambda i: -1, lambda i: 1 + i % 7)
ZEROS, ONES = 1, 2
MODULUS = {'B': 256, 'H': 65536, 'I': 2 ** 32, 'Q': 2 ** 64}
patterns = {}


def name_of(call):
    """What the call is named by in a command and in a file's name."""
    return '_then_'.join(FUNCTIONS[call])


def code_of(name):
    return CODE_OF[name.split()[-1]]


def filled(fill, code, count):
    known = patterns.setdefault((fill, code), [])
    known += [FILLS[fill](i) % MODULUS[code] for i in range(len(known), count)]
    return known[:count]


# What is given and lent, by name, and the calls.

def before(trial):
    """Numbers and lists by name, as they are before the first call."""
    if len(FUNCTIONS[trial.call]) > 1:
        buffers = LENT_TO_MAPPED if trial.call == MAPPED else LENT_TO_IMPORTED if trial.call in IMPORTED else LENT_TO_PAIR
        names = GIVEN_TO_PAIR + buffers + FIGURE_LISTS
    else:
        names = [parameter.name for parameter in PARAMETERS[FUNCTIONS[trial.call][0]]]
    lengths = [length or 0 for length in list(trial.lent) + list(trial.figures)]
    lent = zip(names[len(trial.given):], lengths)
    return dict(list(zip(names, trial.given)) + [(name, filled(trial.fill, code_of(name), length)) for name, length in lent])


def in_memory(values):
    """The lists by name, each with what is behind it."""
    return {name: guarded(code_of(name), value) for name, value in values.items() if isinstance(value, list)}


def whole(values, *names):
    """Each with its length; a number has None."""
    return [(name, len(values[name]) if isinstance(values[name], list) else None) for name in names]


def steps(trial, values):
    """The calls: a function, and the name of each argument with the length that the call is told."""
    first, *others = FUNCTIONS[trial.call]
    if not others:
        return [(first, whole(values, *values))]
    n = max(0, len(values['starts']) - 1)
    scratch = 'scratch' if trial.lent[LENT_TO_PAIR.index('other scratch')] is None else 'other scratch'
    begin = [(first, whole(values, *GIVEN_TO_PAIR, 'numbers', 'levels', 'passes', 'scratch', 'figures'))]
    if trial.call in IMPORTED:
        figures = [(name, None) for name in SUPPLIED]
        return begin + [
            ('import_numbering', whole(values, *GIVEN_TO_PAIR, 'pairs') + figures + whole(values, 'other numbers', scratch)),
            ('eliminate', whole(values, *GIVEN_TO_PAIR) + [('other numbers', n)] + whole(values, scratch, 'bytes', 'other figures'))]
    lent = {'measures': [scratch], 'eliminate': [scratch, 'bytes'], 'store_map': [scratch, 'first', 'place']}
    return begin + [(function, whole(values, *GIVEN_TO_PAIR) + [('numbers', n)] + whole(values, *lent[function], figures))
                    for function, figures in zip(others, FIGURE_LISTS[1:])]


# Bandwidth, profile and front, and where a numbering call has them among its figures.
SUPPLIED = {'bandwidth': 2, 'profile': 3, 'front': 4}


def between(trial, function, lists, numbers):
    """What the trial itself does after a call that accepted. A.12: the numbers as they were before A.3's turning, in their place. A.5: the numbers as
    pairs, by new number, in the lists, and the figures among the numbers."""
    if trial.call == TURNED_BACK and function == 'reverse_cuthill_mckee':
        calls.put(lists['numbers'], idle_cases.turned_back(trial.given[:2], lists['numbers']))
    if trial.call in IMPORTED and function == FUNCTIONS[trial.call][0]:
        n = len(trial.given[0]) - 1
        calls.put(lists['pairs'], [word for new, old in sorted(zip(lists['numbers'][:n], range(1, n + 1))) for word in (old, new)])
        numbers.update({name: lists['figures'][at] for name, at in SUPPLIED.items()})


# By the reference.

def figures_of(function, value):
    """An accepted value of the reference as figures: a direction is 0 or 1."""
    if function == 'part_report':
        return list(value[:5]) + [('Forward', 'Reversed').index(value[5])]
    return list(value)


def before_five(function, given):
    """The refusal by a test that comes before 5, or 0."""
    if function == 'mesh':
        return 1 if wrong_node_count(given[0]) else 0
    return adjacency_refusal(given[0], given[1])


def front(value, length):
    """A list itself where all of it is meant, so that it can be written; else its front alone, which is only given. A number is itself."""
    return value if length is None or length == len(value) else value[:length]


def reference_answer(function, values, arguments):
    """0 or the refusal; the lists are left as they must be. A short list of figures is 5, tested with the other lists."""
    given = [front(values[name], length) for name, length in arguments]
    figures = given.pop() if FIGURES[function] else []
    if len(figures) < FIGURES[function]:
        return before_five(function, given) or 5
    state, value = REFERENCE[function](*given)
    if state == 'refused':
        return value
    calls.put(figures, figures_of(function, value))
    return 0


def wanted_of_star(trial):
    """The same as `wanted`, of a star."""
    values = before(trial)
    n = len(values['starts']) - 1
    mark_bytes, marks, new = worked.star_store(n)
    calls.put(values['scratch'], [0] * n)
    calls.put(values['bytes'], mark_bytes)
    calls.put(values['figures'], [marks, new])
    return [(0, list(in_memory(values).values()))]


def wanted(trial):
    """Of each call that is made its answer, and every list with what is behind it; none is made after a refusal."""
    if trial.kind == STAR:
        return wanted_of_star(trial)
    values, made = before(trial), []
    for function, arguments in steps(trial, values):
        answer = reference_answer(function, values, arguments)
        made.append((answer, list(in_memory(values).values())))
        if answer:
            break
        between(trial, function, values, values)
    return made


# By the library.

def told(values, memory, arguments):
    """What a call gets: numbers, and lists in their memory."""
    return [values[name] if length is None else Span(memory[name], length) for name, length in arguments]


def got(library, trial):
    """The same by the library. The lists of the trial stay in one place from its first call to its last."""
    values, made = before(trial), []
    memory = in_memory(values)
    for function, arguments in steps(trial, values):
        answer = library.call(function, told(values, memory, arguments))
        made.append((answer, [array(words.typecode, words) for words in memory.values()]))
        if answer:
            break
        between(trial, function, memory, values)
    return made


def idle_place(trial, was):
    """A.12, by the library's figures alone: under numbers turned back the marks are as many as the profile. What is wrong, or ''. It is said of
    one unknown a node, and holds of any counts, as then every unknown but the first of a part has a neighbour with a lower number."""
    if trial.call != TURNED_BACK or [answer for answer, _ in was] != [0, 0, 0]:
        return ''
    lists = dict(zip(in_memory(before(trial)), was[-1][1]))
    profile, marks = lists['other figures'][1], lists['third figures'][0]
    return '' if marks == profile else 'eliminate marked %d places, must mark all %d' % (marks, profile)


def other_store(trial, was):
    """By the library's figures alone: the map of the run's numbers has the run's profile, and as many rows as there are unknowns. What is wrong,
    or ''."""
    if trial.call != MAPPED or [answer for answer, _ in was] != [0, 0]:
        return ''
    lists = dict(zip(in_memory(before(trial)), was[-1][1]))
    store, due = tuple(lists['other figures'][:2]), (lists['figures'][3], sum(trial.given[2]))
    return '' if store == due else 'store_map has %d places and %d rows, must have %d and %d by the run' % (*store, *due)


def measured(trial, figures):
    """Bandwidth and front, where the figures are those of measures or of a numbering call."""
    return (figures[0], figures[2]) if trial.call == 'measures' else (figures[2], figures[4])


def not_alike(trial, was):
    """With c unknowns of every node the bandwidth is c(b + 1) - 1 and the front c times what they are of one each, as the order is the same. What
    is wrong by the library's own figures, or ''."""
    if trial.kind != ALIKE or was[0][0]:
        return ''
    n, count = len(trial.given[0]) - 1, trial.given[2][0]
    ones = trial._replace(given=trial.given[:2] + [[1] * n] + trial.given[3:])
    wide, high = measured(trial, dict(zip(in_memory(before(trial)), was[0][1]))['figures'])
    bandwidth, front = measured(ones, dict(zip(in_memory(before(ones)), wanted(ones)[0][1]))['figures'])
    due = count * (bandwidth + 1) - 1, count * front
    return '' if (wide, high) == due else 'bandwidth %d and front %d, must be %d and %d for %d unknowns each' % (wide, high, *due, count)


def difference(trial, was, must):
    """What differs first, or ''; where nothing does, whether a place is idle that may not be, a map is of another store than the run's, or figures
    are not those of as many unknowns each."""
    names = list(in_memory(before(trial)))
    for function, one, other in zip(FUNCTIONS[trial.call], was, must):
        if one[0] != other[0]:
            return '%s answered %d, must answer %d' % (function, one[0], other[0])
        for name, words, due in zip(names, one[1], other[1]):
            if words != due:
                i = next(i for i in range(len(words)) if words[i] != due[i])
                return 'after %s %s[%d] is %d, must be %d' % (function, name, i, words[i], due[i])
    return idle_place(trial, was) or other_store(trial, was) or not_alike(trial, was)


def to_text(trial, text):
    return json.dumps(dict(trial._asdict(), difference=text))


def of_text(text):
    fields = json.loads(text)
    return Trial(*[fields[name] for name in Trial._fields])
