#!/usr/bin/env python3
"""The definitions of `spec` and the crates of that family against the independent program.

  compare.py [--seed N] [--graphs N] [--files N]

Each equation (a defined call on an input, and what tests/reference answers and leaves) is a theorem by computation.
They are checked in a temporary repository with copies of the crates basis, spec, spec_claims and spec_import, in batches. Run by hand; it takes
a quarter of an hour and is no part of the gate. Exit status 1 where a definition and the reference differ.
"""

import argparse
import os
import re
import shutil
import subprocess
import sys
import tempfile

HERE = os.path.dirname(os.path.abspath(__file__))
TOP = os.path.dirname(os.path.dirname(HERE))
sys.path[:0] = [os.path.join(TOP, 'tests', 'reference'), HERE]

import graphs
import imports
import meshes
from expected import of_file, of_graph, of_import, of_mesh, of_store

HEAD = '''-- Made by compare.py. Assumes nothing.
use Prim.Native.Nat.{ℕ}
use mathlib.Core.Bool.{true, false}
use mathlib.Core.Path.{◌≡◌, refl}
use mathlib.Core.List.{List, [], ◌∷◌, ◌++◌}
use lib.ListN.{replicate}
use Rattle.spec.specs.Graph.{graph_of}
use Rattle.spec.specs.Lent.{refused, accepted}
use Rattle.spec.specs.Measures.{renumbered}
use Rattle.spec_claims.specs.NoIdle.{connected, lower_neighbours, full_bytes, before_turning, turned_back}
use Rattle.spec.specs.Numbering.{Forward, Reversed}
use Rattle.spec.specs.CallsLevels.{adjacency_answer, rooted_answer, rooted_levels, rooted_sizes, ends_answer, ends_scratch}
use Rattle.spec.specs.CallsLevels.{combined_answer, combined_levels, combined_scratch}
use Rattle.spec.specs.CallsNumbering.{report_answer, report_scratch, run_answer, run_numbers, run_levels, run_passes, run_scratch}
use Rattle.spec.specs.CallsNumbering.{measures_answer, measures_scratch}
use Rattle.spec.specs.CallsCuthill.{cuthill_answer, cuthill_numbers, cuthill_levels, cuthill_passes, cuthill_scratch}
use Rattle.spec.specs.CallsCuthill.{cuthill_eliminate_answer, cuthill_eliminate_bytes}
use Rattle.spec.specs.CallsStore.{elimination_answer, elimination_scratch, elimination_bytes, run_eliminate_answer, run_eliminate_bytes}
use Rattle.spec.specs.CallsMap.{store_map_answer, store_map_scratch, store_map_first, store_map_place}
use Rattle.spec_import.specs.CallsImport.{import_answer, import_numbers, import_scratch}
use Rattle.spec.specs.CallsMesh.{mesh_answer, mesh_starts, mesh_neighbours, mesh_scratch}
use Rattle.spec.specs.Mesh.{start_list, neighbour_list}
use Rattle.spec.specs.File.{file_counts, file_graph, file_refusal, program_output}
use Rattle.spec_claims.proofs.Compute.{computes_claims}
use Rattle.spec_import.proofs.Compute.{computes_import}
'''
BATCH = 60


def theorems(inputs, equations):
    """Text of a batch, and the input that each theorem is of."""
    text, names = [HEAD], {}
    for number, i in enumerate(inputs):
        for part, (left, right) in enumerate(equations(i)):
            name = 'case_%d_%d' % (number, part)
            names[name] = (left, right)
            text.append('%s : %s ≡ %s\nunfolding computes_claims computes_import\n%s = refl\n' % (name, left, right, name))
    return '\n'.join(text), names


def repository(folder):
    """A repository with the definitions and room for one batch."""
    for crate in ('basis', 'spec', 'spec_claims', 'spec_import'):
        shutil.copytree(os.path.join(TOP, 'crates', crate), os.path.join(folder, 'crates', crate), ignore=shutil.ignore_patterns('must-fail', 'out'))
    for part in ('src', 'proofs'):
        os.makedirs(os.path.join(folder, 'crates', 'batch', part))
    write(folder, 'crates.txt', 'basis:\nspec: basis\nspec_claims: basis spec\nspec_import: basis spec\nbatch: basis spec spec_claims spec_import\n')
    write(folder, 'crates/batch/src/lib.rt', '// Theorems only.\n#![tactic(auto)]\n')
    write(folder, 'crates/batch/proofs/Lib.antt', 'pub mod Batch\n')


def write(folder, name, text):
    with open(os.path.join(folder, name), 'w', encoding='utf-8') as f:
        f.write(text)


def differences(folder, inputs, equations):
    """How many theorems of the batch there are, and those that the checker refuses."""
    text, names = theorems(inputs, equations)
    write(folder, 'crates/batch/proofs/Batch.antt', text)
    done = subprocess.run(['rt', 'check'], cwd=os.path.join(folder, 'crates', 'batch'), stdout=subprocess.PIPE, stderr=subprocess.STDOUT, text=True)
    wrong = sorted(set(re.findall(r'error: `(case_[0-9]+_[0-9]+)`', done.stdout)))
    if done.returncode and not wrong:
        sys.exit('the batch was not checked:\n' + done.stdout[-3000:])
    return len(names), [names[name] for name in wrong]


def run(folder, title, inputs, equations):
    """Check the inputs in batches; the count of differences."""
    made, wrong = 0, []
    for at in range(0, len(inputs), BATCH):
        count, found = differences(folder, inputs[at:at + BATCH], equations)
        made += count
        wrong += found
    print('%s: %d inputs, %d equations, %d differ' % (title, len(inputs), made, len(wrong)), flush=True)
    for left, right in wrong[:5]:
        print('  %s\n  is not %s' % (left, right))
    return len(wrong)


def of_graph_and_store(i):
    return of_graph(i) + of_store(i)


def main():
    parser = argparse.ArgumentParser(description=__doc__.split('\n')[0])
    parser.add_argument('--seed', type=int, default=1976)
    parser.add_argument('--graphs', type=int, default=120, help='random graphs of 5 to 12 nodes')
    parser.add_argument('--files', type=int, default=60, help='meshes, and files')
    asked = parser.parse_args()
    rng = graphs.seeded(asked.seed)
    with tempfile.TemporaryDirectory() as folder:
        repository(folder)
        wrong = run(folder, 'all graphs of up to 4 nodes', graphs.all_small(rng, 4), of_graph_and_store)
        wrong += run(folder, 'random graphs of 5 to 8 nodes', graphs.at_random(rng, asked.graphs * 2 // 3, 5, 8), of_graph_and_store)
        wrong += run(folder, 'random graphs of 9 to 12 nodes', graphs.at_random(rng, asked.graphs // 3, 9, 12), of_graph_and_store)
        wrong += run(folder, 'bad counts among other refusals', graphs.in_order(rng), of_graph)
        wrong += run(folder, 'numberings from other tools, on all graphs of up to 4 nodes', imports.all_small(rng, 4), of_import)
        wrong += run(folder, 'numberings from other tools, on random graphs', imports.at_random(rng, asked.graphs, 5, 10), of_import)
        wrong += run(folder, 'numberings of the engine', imports.engine_made(rng, asked.graphs // 2), of_import)
        wrong += run(folder, 'lists of pairs among other refusals', imports.in_order(), of_import)
        wrong += run(folder, 'meshes', meshes.mesh_inputs(rng, asked.files), of_mesh)
        wrong += run(folder, 'files', meshes.file_inputs(rng, asked.files), of_file)
        wrong += run(folder, 'files with counts', meshes.counted_inputs(rng), of_file)
    print('%d differ' % wrong)
    return 1 if wrong else 0


if __name__ == '__main__':
    sys.exit(main())
