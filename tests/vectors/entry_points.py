#!/usr/bin/env python3
"""Cases for the program `test_calls`, and what each call must answer and leave.

  entry_points.py                     write crates/test_calls/stdin and crates/test_calls/stdout: the selection that the gate runs
  entry_points.py --check             say whether the two stand as this script makes them
  entry_points.py --show K            print case K (line K of stdout) and its line
  entry_points.py --run N --seed S    run crates/test_calls/out/test_calls on all graphs of up to 5 nodes at every node and under every numbering, N random
                                      graphs of up to 40 nodes at every node, N of up to 60 nodes, N graphs with several passes or
                                      pieces, N / 10 of up to 1,000 nodes, graphs of full size, N illegal adjacencies, N meshes,
                                      N / 10 stores of each of a few sizes, N graphs of parts with other passes, N / 10 that
                                      their counts turn, N store maps, and numberings from other tools on all graphs of up to 5 nodes
                                      and N others, and compare

A line has the answer, then for each of the four lent lists its words up to the last that isn't as it was lent, then the lent bytes; of the store
map the places stand behind the answer. All expected lines come from tests/reference.
"""

import os
import sys

TOP = os.path.dirname(os.path.dirname(os.path.dirname(os.path.abspath(__file__))))
sys.path[:0] = [os.path.join(TOP, 'tests', part) for part in ('reference', 'definitions', 'vectors')]

import cases
import counted_cases
import mapped_cases
import pair_cases
from vectors import Draw, differences, keep, options, tally

CRATE = os.path.join(TOP, 'crates', 'test_calls')
# rt run makes it, in the crate's folder.
PROGRAM = os.path.join(CRATE, 'out', 'test_calls')


def selection():
    """What the gate runs."""
    draw = Draw(1976)
    return (list(cases.small(draw, 1, 4)) + list(cases.some_of_five(draw, 40)) + list(cases.of_table(draw)) + list(cases.telling(draw, 120))
            + list(cases.at_random(draw, 20, 3)) + list(cases.runs_at_random(draw, 16)) + list(cases.illegal(draw, 350))
            + list(cases.limits(draw)) + list(cases.of_many_parts(draw)) + list(cases.meshes(draw, 250)) + list(cases.collapsed_meshes())
            + list(cases.full_meshes()) + list(cases.store_sizes(draw, 3)) + list(cases.scratch_sizes(draw)) + list(cases.level_sizes(draw))
            + list(cases.pass_counts(draw, 30)) + list(cases.cuthill_orders(draw, 30)) + list(cases.cuthill_stores(draw, 30))
            + list(cases.full_stores(draw, 16)) + list(counted_cases.unknowns(draw, 20)) + list(mapped_cases.maps(draw, 40))
            + list(pair_cases.imports(draw, 30)))


def many(count, seed):
    """What is run by hand."""
    draw = Draw(seed)
    return (list(cases.small(draw, 1, 5)) + list(cases.every_numbering(draw, 1, 5)) + list(cases.of_table(draw)) + list(cases.telling(draw, count))
            + list(cases.at_random(draw, count, 40)) + list(cases.runs_at_random(draw, count)) + list(cases.large(draw, count // 10))
            + list(cases.illegal(draw, count)) + list(cases.limits(draw)) + list(cases.of_many_parts(draw)) + list(cases.of_full_size(draw))
            + list(cases.meshes(draw, count)) + list(cases.collapsed_meshes()) + list(cases.full_meshes()) + list(cases.long_meshes())
            + list(cases.store_sizes(draw, count // 10)) + list(cases.scratch_sizes(draw)) + list(cases.level_sizes(draw))
            + list(cases.pass_counts(draw, count)) + list(cases.cuthill_orders(draw, count // 10)) + list(cases.cuthill_stores(draw, count // 10))
            + list(cases.full_stores(draw, count // 10)) + list(counted_cases.unknowns(draw, count // 10)) + list(mapped_cases.maps(draw, count))
            + list(pair_cases.small(draw, 5)) + list(pair_cases.imports(draw, count)) + list(pair_cases.full_size(draw)))


def report(made):
    tally('of each kind', [c.kind for c in made])
    tally('of each call', [c.call for c in made])


def run(count, seed):
    """Run the program and compare; the exit status."""
    made = many(count, seed)
    report(made)
    return 1 if differences(PROGRAM, made, cases.encoded, cases.expected) else 0


def main():
    asked = options(__doc__)
    if asked.run is not None:
        return run(asked.run, asked.seed)
    made = selection()
    if asked.show is not None:
        c = made[asked.show - 1]
        print('%s\n%s' % (c, cases.expected(c)))
        return 0
    report(made)
    lines = [cases.expected(c) for c in made]
    status = keep([(os.path.join(CRATE, 'stdin'), b''.join(cases.encoded(c) for c in made)),
                   (os.path.join(CRATE, 'stdout'), ''.join(line + '\n' for line in lines).encode('ascii'))], asked.check)
    tally('%d cases' % len(made), sorted(' '.join(line.split(';')[0].split()[:2 if line.startswith('refused') else 1]) for line in lines))
    return status


if __name__ == '__main__':
    sys.exit(main())
