#!/usr/bin/env python3
"""That the comparison can fail: a library that alters one word is reported, and its case is saved and found again; so is one that faults, an idle
place where none may be, a map of another store than the run's, and a bandwidth or front that is not that of as many unknowns each.

Altered in turn are the answer and, of every list of a call, the first word, the last and the last element behind it.
"""

import contextlib
import io
import os
import signal
import sys
import tempfile

import compare
from cases import CALLS, Case, fields, map_lengths
from graph import from_edges
from kinds import every_call
from library import BEHIND, FIGURES, Library, Span
from trials import ALIKE, FUNCTIONS, IMPORTED, MAPPED, PAIRS, TURNED_BACK, Trial, difference, got


class Altered:
    """The library, of which one function changes the answer, or the word at a place of a list."""

    def __init__(self, library, function, number, place):
        self.library, self.function, self.number, self.place = library, function, number, place

    def call(self, function, values):
        answer = self.library.call(function, values)
        if function != self.function:
            return answer
        if self.number is None:
            return answer ^ 1
        [value for value in values if isinstance(value, Span)][self.number].words[self.place] ^= 1
        return answer


class Recorded:
    """The library, which notes how long the lists of each call are, with what is behind them."""

    def __init__(self, library):
        self.library, self.lengths = library, []

    def call(self, function, values):
        self.lengths.append((function, [len(value.words) for value in values if isinstance(value, Span)]))
        return self.library.call(function, values)


class Faulting:
    def call(self, function, values):
        os.kill(os.getpid(), signal.SIGSEGV)


def trials():
    """Each call on three nodes of two, one and three unknowns, with one word more than it needs in every list that is lent; calls one after another
    with one scratch and two."""
    on_graph = list(every_call('self-test', (*from_edges(3, [(1, 2), (2, 3)]), [2, 1, 3]), 1, [1, 2, 3], 3))
    for c in on_graph + [Case('self-test', 'mesh', [], [], [], [1, 1, 2], 3, 4, 32768, 3)]:
        given, lent = fields(c, CALLS[c.call].given), [size + 1 for size in fields(c, CALLS[c.call].lent)]
        chained = [(chain, lent[:4] + [other] + lent[4:] + ([6, 4] if chain in IMPORTED else []))
                   for chain in (*PAIRS, TURNED_BACK, *IMPORTED) for other in (None, 4)]
        chained += [(MAPPED, lent[:4] + [other] + [size + 1 for size in map_lengths(3)[1:]]) for other in (None, 4)]
        for call, lengths in chained if c.call == 'run and eliminate' else [(c.call, lent)]:
            yield Trial(c.kind, call, given, lengths, [FIGURES[function] + 1 for function in FUNCTIONS[call] if FIGURES[function]], 0)


def places(library, trial):
    """Every alteration of a trial: a function, and a list and a place, or none."""
    recorded = Recorded(library)
    got(recorded, trial)
    for function, lengths in recorded.lengths:
        yield function, None, 0
        for number, length in enumerate(lengths):
            for place in (0, length - BEHIND - 1, length - 1):
                yield function, number, place


def saved_in(folder):
    return [os.path.join(folder, name) for name in os.listdir(folder)]


def seen(library, altered, trial):
    """Whether the alteration is reported, saved and found again, and the saved case is none of the library itself."""
    with tempfile.TemporaryDirectory() as folder, contextlib.redirect_stdout(io.StringIO()) as printed:
        tally = compare.Tally()
        compare.compare(altered, trial, tally, folder)
        saved = saved_in(folder)
        return (tally.failed() == 1 and len(saved) == 1 and ' must ' in printed.getvalue() and compare.replay(altered, saved[0])
                and not compare.replay(library, saved[0]))


def fault_seen():
    with tempfile.TemporaryDirectory() as folder, contextlib.redirect_stdout(io.StringIO()) as printed:
        status = compare.watched(Faulting(), compare.options(['--only', 'test_adjacency']), folder)
        return status and len(saved_in(folder)) == 1 and 'ended by signal' in printed.getvalue()


def idle_seen(library):
    """Whether marks that are not as many as the profile are reported, even if the independent program counted them so."""
    trial = next(trial for trial in trials() if trial.call == TURNED_BACK)
    was, idle = got(library, trial), got(Altered(library, 'eliminate', -1, 0), trial)
    return not difference(trial, was, was) and ' must mark all ' in difference(trial, idle, idle)


def map_seen(library):
    """Whether a map with another profile than the run's is reported, even if the independent program had the same."""
    trial = next(trial for trial in trials() if trial.call == MAPPED)
    was, other = got(library, trial), got(Altered(library, 'store_map', -1, 0), trial)
    return not difference(trial, was, was) and ' by the run' in difference(trial, other, other)


def alike_seen(library):
    """Whether a front of measures that is not that of as many unknowns each is reported, even if the independent program had the same."""
    trial = Trial(ALIKE, 'measures', [*from_edges(3, [(1, 2), (2, 3)]), [2, 2, 2], [1, 2, 3]], [3], [3], 0)
    was, other = got(library, trial), got(Altered(library, 'measures', -1, 2), trial)
    return not difference(trial, was, was) and ' unknowns each' in difference(trial, other, other)


def main():
    library, tried, missed = Library(), 0, 0
    for trial in trials():
        for function, number, place in places(library, trial):
            tried += 1
            if not seen(library, Altered(library, function, number, place), trial):
                missed += 1
                print('%s: not seen: %s, list %s, place %d' % (trial.call, function, number, place))
    if not fault_seen():
        missed += 1
        print('a fault is not seen')
    if not idle_seen(library):
        missed += 1
        print('an idle place is not seen')
    if not map_seen(library):
        missed += 1
        print('a map of another store is not seen')
    if not alike_seen(library):
        missed += 1
        print('a wrong front of as many unknowns each is not seen')
    print('%d words altered, %d not seen' % (tried, missed))
    return tried == 0 or missed > 0


if __name__ == '__main__':
    sys.exit(main())
