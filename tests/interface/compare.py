#!/usr/bin/env python3
"""The proved libraries through their C interface against the independent program, on generated input.

  compare.py [--seed S] [--cases N] [--only CALL]    some three minutes: the fixed kinds, and random ones by N
  compare.py --seconds T                             then further random ones, with other seeds, until T seconds have passed
  compare.py --replay FILE                           one case again that was saved

Of each case the answer, every list given or lent, the figures among them, and eight elements behind each list are compared word by word, after
each call where the run or reverse Cuthill-McKee, and then the elimination or the store map by its numbers, are called, or before the elimination
the import of its numbers with its figures. The map's profile must also be the run's. Under reverse Cuthill-McKee's numbers turned back the marks
counted must also be as many as the profile; with c unknowns of every node bandwidth and front must also be c(b + 1) - 1 and c times those of one
each. A case that differs, or that ends the process, is saved in target/failed. All expected values come from tests/reference.
"""

import argparse
import multiprocessing
import os
import sys
import time
from itertools import islice

TOP = os.path.dirname(os.path.dirname(os.path.dirname(os.path.abspath(__file__))))
sys.path[:0] = [os.path.join(TOP, 'tests', part) for part in ('reference', 'definitions', 'vectors', 'interface', '')]

import kinds
from library import FIGURES, Library
from trials import FUNCTIONS, difference, got, name_of, of_text, to_text, wanted
from vectors import Draw

FAILED = os.path.join(TOP, 'target', 'failed')
MOST_SAVED = 20


class Tally:
    """Of each call how many cases of each kind were run, what they answer, and how many differ."""

    def __init__(self):
        self.kinds, self.answers, self.short, self.differ = {}, {}, {}, {}

    def add(self, trial, answers, text):
        said = ', then '.join('refused %d' % answer if answer else 'accepted' for answer in answers)
        for counts, name in ((self.kinds, trial.kind), (self.answers, said)):
            of_call = counts.setdefault(trial.call, {})
            of_call[name] = of_call.get(name, 0) + 1
        needs = [FIGURES[function] for function in FUNCTIONS[trial.call] if FIGURES[function]]
        self.short[trial.call] = self.short.get(trial.call, 0) + any(length < need for length, need in zip(trial.figures, needs))
        self.differ[trial.call] = self.differ.get(trial.call, 0) + (text != '')

    def of_call(self, call):
        return sum(self.kinds[call].values())

    def total(self):
        return sum(self.of_call(call) for call in self.kinds)

    def failed(self):
        return sum(self.differ.values())

    def print(self):
        for call in self.kinds:
            print('%s: %d cases, %d differ, %d with short figures' % (call, self.of_call(call), self.differ[call], self.short[call]))
            for counts in (self.kinds[call], self.answers[call]):
                print('    ' + ', '.join('%s %d' % item for item in sorted(counts.items())))
        each = ', '.join('%s %d' % (call, self.of_call(call)) for call in self.kinds)
        print('%d cases, %d differ (%s)' % (self.total(), self.failed(), each), flush=True)


def report(folder, trial, text):
    """Say what differs, and keep the case."""
    print('%s, %s: %s' % (trial.call, trial.kind, text))
    os.makedirs(folder, exist_ok=True)
    number = len(os.listdir(folder)) + 1
    if number <= MOST_SAVED:
        path = os.path.join(folder, '%s-%d.json' % (name_of(trial.call), number))
        with open(path, 'w') as f:
            f.write(to_text(trial, text))
        print('  again: tests/interface/compare.py --replay %s' % os.path.relpath(path, TOP), flush=True)


def compare(library, trial, tally, folder):
    must = wanted(trial)
    text = difference(trial, got(library, trial), must)
    tally.add(trial, [answer for answer, _ in must], text)
    if text:
        report(folder, trial, text)


def replay(library, path):
    """Whether the saved case differs."""
    with open(path) as f:
        trial = of_text(f.read())
    text = difference(trial, got(library, trial), wanted(trial))
    print('%s, %s: %s' % (trial.call, trial.kind, text or 'no difference'))
    return text != ''


def trials(asked, seed):
    """The trials of a round; the first has the fixed kinds too."""
    made = (kinds.some if seed == asked.seed else kinds.more)(Draw(seed), asked.cases)
    return (trial for trial in made if asked.only in (None, name_of(trial.call)))


def rounds(library, asked, at, folder):
    """The first round, then others until the time is over. `at` has the seed and the number of the trial under way."""
    start, tally, seed = time.time(), Tally(), asked.seed
    while seed == asked.seed or time.time() - start < asked.seconds:
        for number, trial in enumerate(trials(asked, seed)):
            at[0], at[1] = seed, number
            compare(library, trial, tally, folder)
            if seed > asked.seed and time.time() - start >= asked.seconds:
                break
        seed += 1
        if asked.seconds:
            print('%d seconds, %d cases, %d differ' % (time.time() - start, tally.total(), tally.failed()), flush=True)
    tally.print()
    sys.exit(tally.failed() > 0)


def watched(library, asked, folder):
    """The rounds in a process of their own, so that a call that ends it is reported too; the exit status."""
    fork = multiprocessing.get_context('fork')
    at = fork.Array('Q', 2, lock=False)
    worker = fork.Process(target=rounds, args=(library, asked, at, folder))
    worker.start()
    worker.join()
    if worker.exitcode < 0:
        report(folder, next(islice(trials(asked, at[0]), at[1], None)), 'ended by signal %d' % -worker.exitcode)
    return worker.exitcode != 0


def options(words=None):
    parser = argparse.ArgumentParser(description=__doc__.split('\n')[0])
    parser.add_argument('--seed', type=int, default=1976)
    parser.add_argument('--cases', type=int, default=1000)
    parser.add_argument('--only', choices=sorted(map(name_of, FUNCTIONS)))
    parser.add_argument('--seconds', type=int, default=0)
    parser.add_argument('--replay')
    return parser.parse_args(words)


def main():
    asked, library = options(), Library()
    return replay(library, asked.replay) if asked.replay else watched(library, asked, FAILED)


if __name__ == '__main__':
    sys.exit(main())
