#!/usr/bin/env python3
"""tools/dev/proof on recorded reports: what it shortens, writes, puts back and refuses. Nothing is proved: a script that prints the reports
stands in rt's place, in a folder that has a copy of the tool and one crate.
"""

import os
import re
import shutil
import subprocess
import sys
import tempfile

TOP = os.path.dirname(os.path.dirname(os.path.abspath(__file__)))
sys.path[:0] = [os.path.join(TOP, 'tests', 'tools'), os.path.join(TOP, 'tools', 'dev')]

import naming
from harness import Cases

# What rt check says where `total` has no file: a note, a line that follows, and the lines to write.
MISSING = '''note: src/legal.rt:9:5: it is not proved that what the function ensures holds when it returns (`returns`)
note: to see how far a `search` got, write `search rules` in place of that hole in the function's `Answers.antt`
fn sums::legal::total: no proof: expected answers in ./proofs/legal/total/Answers.antt; `search` did not prove `returns`
help: write ./proofs/legal/total/Answers.antt with these lines, and check again: each hole's goal is what is left to show there
    use Rattle.std.proofs.Common.{rules, ◌≡◌}
    use Rattle.sums.proofs.legal.total.Goals as goal

    -- src/legal.rt:9:5
    pub returns : goal.returns
    returns c = ?
note: `returns` of proofs/legal/total/Answers.antt must prove: c.loop-i.all ≡ sum (reverse c.args.a.now)

logic=not-proved
'''
SKELETON = '''use Rattle.std.proofs.Common.{rules, ◌≡◌}
use Rattle.sums.proofs.legal.total.Goals as goal

-- src/legal.rt:9:5
pub returns : goal.returns
returns c = ?
'''
ANSWERED = SKELETON.replace('= ?', '= search rules')
# where the search of the file's line 6 is refused
REFUSED = '''checked sums::legal::total, 1 of 1
./proofs/legal/total/Answers.antt:6:13: error: `returns`: `search`: no proof of `Rattle.sums.specs.Sums.Sum 3`
      (computed from: lib.ListN.length
        a.now)
note: antt's advice on a `search` that finds no proof, printed once in this run: what is tried
./proofs/legal/total/Answers.antt:8:5: error: `other`: `returns` was not admitted, so this cannot be checked
fn sums::legal::total: not proved
statements core: modules loaded=222 checked=0
rt: rt lemma WORD.. finds a lemma by guessed names or words of the goal
'''
# where a hole stands in its place
HOLE = '''./proofs/legal/total/Answers.antt:5:5: `returns` is not admitted: has-holes
./proofs/legal/total/Answers.antt:6:13: goal ? in `returns`
    c : goal.After-loop-i
  ⊢ Rattle.sums.specs.Sums.total c.before.before.before.args.a.now ≡ lib.ListN.get_or c.loop-i.all 0
      (computed from: borrow.Fn.Claims.AllOf 3)
  names you can use, by step:
    c: .lifetimes, .requires
    c.loop-i: .all, .i, .invariant
    Rattle's own names, which may change, so do not cite them: c.items_fit
  the newest fields, with their types:
    c.loop-i.all : ℕ
fn sums::legal::total: depends on a hole in `Rattle.sums.proofs.legal.total.Answers.returns`
'''
# two answers of several lines with a helper between them, and what `places` asks
PROVED = '''use Rattle.sums.proofs.legal.total.Goals as goal

-- the empty list
abbrev none : List ℕ
none = []

pub loop-i-init : goal.loop-i-init
unfolding total
loop-i-init c =
    let e : none ≡ [] = refl in
    (omega arith, e)

helper : ℕ → ℕ
helper n = n

pub returns : goal.returns
returns c = record {
  low = helper 1;
}
'''
HOLED = '''use Rattle.sums.proofs.legal.total.Goals as goal

-- the empty list
abbrev none : List ℕ
none = []

pub loop-i-init : goal.loop-i-init
unfolding total
loop-i-init c = ?

helper : ℕ → ℕ
helper n = n

pub returns : goal.returns
returns c = ?
'''
RT = '''#!/bin/sh
# rt in a test: the report that fits the file as it stands
answers=proofs/legal/total/Answers.antt
echo "$*" >> ../../calls
if [ ! -e $answers ]; then cat ../../missing
elif grep -q '= [?]' $answers; then cp $answers ../../holed; cat ../../hole
else cat ../../refused
fi
'''


class Folder:
    """A repository of one crate, with the tool and what stands for rt."""

    def __init__(self, path):
        self.path = path
        self.proof = os.path.join(path, 'crates', 'sums', 'proofs', 'legal', 'total', 'Answers.antt')
        for part in ('bin', os.path.join('tools', 'dev'), os.path.join('crates', 'sums', 'src')):
            os.makedirs(os.path.join(path, part))
        for tool in ('proof', 'naming.py'):
            shutil.copy(os.path.join(TOP, 'tools', 'dev', tool), os.path.join(path, 'tools', 'dev'))
        for name, text in {'missing': MISSING, 'refused': REFUSED, 'hole': HOLE, 'bin/rt': RT, 'note.txt': 'c^2\n'}.items():
            self.write(os.path.join(path, name), text)
        os.chmod(os.path.join(path, 'bin', 'rt'), 0o755)

    def write(self, path, text):
        with open(path, 'w', encoding='utf-8') as file:
            file.write(text)

    def read(self, path):
        with open(path, encoding='utf-8') as file:
            return file.read()

    def run(self, *words, path=None):
        """Status, and what is printed."""
        paths = os.path.join(self.path, 'bin') + os.pathsep + os.environ['PATH'] if path is None else path
        ran = subprocess.run([sys.executable, os.path.join(self.path, 'tools', 'dev', 'proof'), *words], cwd=self.path, text=True,
                             stdout=subprocess.PIPE, stderr=subprocess.STDOUT, env=dict(os.environ, PATH=paths), check=False)
        return ran.returncode, ran.stdout


def new_cases(c, folder):
    where = os.path.relpath(folder.proof, folder.path)
    c.equal('new writes what does not stand', folder.run('new', 'sums'), (0, 'wrote %s\n' % where))
    c.equal('new writes the lines that are printed', folder.read(folder.proof), SKELETON)
    mine = SKELETON.replace('?', 'mine')
    folder.write(folder.proof, mine)
    shutil.copy(os.path.join(folder.path, 'missing'), os.path.join(folder.path, 'refused'))
    c.equal('new writes nothing twice', folder.run('new', 'sums'), (0, ''))
    c.equal('new leaves a file that stands', folder.read(folder.proof), mine)
    folder.write(os.path.join(folder.path, 'refused'), REFUSED)
    folder.write(folder.proof, ANSWERED)


def view_cases(c, folder):
    c.equal('dev cuts down', folder.run('dev', 'sums'),
            (0, './proofs/legal/total/Answers.antt:6:13: error: `returns`: `search`: no proof of `Sum 3`\nfn sums::legal::total: not proved\n\n'))
    c.equal('dev keeps the report', folder.read(os.path.join(folder.path, 'target', 'dev-sums.txt')), REFUSED)
    c.equal('it checks the crate', folder.read(os.path.join(folder.path, 'calls')).splitlines()[-1], 'check')
    due = ('./proofs/legal/total/Answers.antt:6:13: goal ? in `returns`\n    c : goal.After-loop-i\n'
           '  ⊢ total c^3.args.a.now ≡ get_or c.loop-i.all 0\n')
    c.equal('goals are short', folder.run('goals', 'sums'), (0, due))
    c.equal('goals of a function', folder.run('goals', 'sums', 'total'), (0, due))
    c.equal('goals puts the file back', folder.read(folder.proof), ANSWERED)
    c.equal('goals of another function', folder.run('goals', 'sums', 'other'), (0, ''))
    folder.write(folder.proof, PROVED)
    c.equal('places', folder.run('places', 'sums', 'total'), (0, 'returns\n    c: .lifetimes, .requires\n    c.loop-i: .all, .i, .invariant\n'))
    c.equal('places asks at each answer', folder.read(os.path.join(folder.path, 'holed')), HOLED)
    c.equal('places puts the file back', folder.read(folder.proof), PROVED)
    status, text = folder.run('places', 'sums', 'other')
    c.equal('places of no function', (status, text.startswith('proof: other has no Answers.antt')), (2, True))
    folder.write(folder.proof, ANSWERED)


def expand_cases(c, folder):
    where = os.path.relpath(folder.proof, folder.path)
    folder.write(folder.proof, 'returns c = f c^3.args c^1.loop ac^2\n')
    c.equal('expand', folder.run('expand', where), (0, where + ': 2 written out\n'))
    c.equal('expand writes out', folder.read(folder.proof), 'returns c = f c.before.before.before.args c.before.loop ac^2\n')
    c.equal('expand has nothing more to do', folder.run('expand', where), (0, ''))
    c.equal('expand leaves other files', folder.run('expand', where, 'note.txt'), (2, 'proof: note.txt: no proof file below crates\n'))
    c.equal('expand left it', folder.read(os.path.join(folder.path, 'note.txt')), 'c^2\n')


# Thirteen places in a row: the start, a call, five facts, a branch, five facts.
ROW = ['Start', 'After-sum', *('After-known%d' % i for i in range(1, 6)), 'Then1', *('After-known%d' % i for i in range(6, 11))]
RECORDS = {place: [('before', before), (place.replace('After-', '').replace('Then', 'if'), 'T')] for place, before in zip(ROW[1:], ROW)}
RECORDS.update({place + '·own': [('given', 'T')] for place in ROW if 'known' in place}, Start=[('args', 'T'), ('pre', 'T')])
NEEDS = {'Need-first': 'After-known10', 'Need-second': 'After-known9'}
# proof files without and with names; c^7 stands for c and seven ' .before'
STEPS = ('first : tie.Need-first\nfirst c = f (c^11 .sum) (c^5 .if1)\n',
         'first : tie.Need-first\nfirst c =\n    let at-if1 = c^5 in\n    let at-known1 = at-if1^5 in\n    let at-sum = at-known1^1 in\n'
         '    f (at-sum .sum) (at-if1 .if1)\n')
SHARED = ('first : tie.Need-first\nfirst c κs = let s = c^12 in g s (s .args)\n\nsecond : tie.Need-second\nsecond c = c^11 .pre\n',
          '-- where the function starts\nabbrev start-of : tie.Then1 → tie.Start\nstart-of c =\n    let at-known1 = c^5 in\n    at-known1^2\n\n'
          'first : tie.Need-first\nfirst c κs =\n    let at-if1 = c^5 in\n    let start = start-of at-if1 in\n    g start (start .args)\n\n'
          'second : tie.Need-second\nsecond c =\n    let at-if1 = c^4 in\n    let start = start-of at-if1 in\n    start .pre\n')
ALIAS = ('first : tie.Need-first\nfirst c =\n    let e = c^3 in\n    h e (e^8 .sum) (law e .2)\n',
         'first : tie.Need-first\nfirst c =\n    let at-if1 = c^5 in\n    let at-known1 = at-if1^5 in\n    let at-sum = at-known1^1 in\n'
         '    h (c^3) (at-sum .sum) (law (c^3) .2)\n')
TYPED = ('law : (c : tie.After-known5 I) → P (c^6 .args)\nlaw c = x\n',
         '-- a place of `law`\nabbrev law-start : tie.After-known5 I → tie.Start I\nlaw-start c =\n    let at-sum = c^5 in\n    at-sum^1\n\n'
         'law : (c : tie.After-known5 I) → P (law-start c .args)\nlaw c = x\n')
SHORT = 'first : tie.Need-first\nfirst c = f (c^5 .if1)\n'
UNKNOWN = 'other : tie.Need-other\nother c = c^9 .args\n\nlong : (d : D) → T\nlong d = d^8 .x\n'


def name_cases(c):
    def chained(text):
        return re.sub(r'\^(\d+)', lambda match: ' .before' * int(match.group(1)), text)

    def named(text):
        return naming.renamed(chained(text), RECORDS, NEEDS)

    for what, (text, wanted) in (('steps of at most five, with the names of the places', STEPS), ('two that go back to the start share the way', SHARED),
                                 ('a place with a name of its own gets that of its field', ALIAS), ('a signature has an abbreviation', TYPED)):
        c.equal(what, named(text), chained(wanted))
        c.equal(what + ', and no more', named(wanted), chained(wanted))
    c.equal('five are no long chain', named(SHORT), chained(SHORT))
    c.equal('what has no known place is left', named(UNKNOWN), chained(UNKNOWN))


def word_cases(c, folder):
    c.equal('no such crate', folder.run('dev', 'other'), (2, 'proof: no crate other\n'))
    c.equal('no rt', folder.run('dev', 'sums', path=''), (2, 'proof: the Rattle toolchain (rt) is not on the path\n'))
    for words, status in (((), 0), (('--help',), 0), (('dev',), 2), (('places', 'sums'), 2), (('new', 'sums', 'more'), 2), (('other', 'sums'), 2)):
        got, text = folder.run(*words)
        c.equal('usage for %s' % ' '.join(words), (got, 'proof places CRATE F' in text), (status, True))


def main():
    c = Cases()
    with tempfile.TemporaryDirectory() as path:
        folder = Folder(path)
        new_cases(c, folder)
        view_cases(c, folder)
        expand_cases(c, folder)
        name_cases(c)
        c.equal('name has nothing to do', folder.run('name', 'sums'), (0, ''))
        word_cases(c, folder)
    return c.report()


if __name__ == '__main__':
    sys.exit(main())
