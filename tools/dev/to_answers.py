#!/usr/bin/env python3
"""Turns the proofs of a crate that walk the places of a function by `.before` (proofs/F/Proof.antt) into Invariants.antt and Answers.antt.

usage: tools/dev/to_answers.py NAMES CRATE [FUNCTION ..]
NAMES is the names.json that `rt check --generated DIR --old-names` wrote for the crate; CRATE its folder.
A place that it can't turn is left as it stands and named on a line 'look:'. The check decides.
"""
import json
import os
import re
import sys

WORD = r"[^\s(){}.;,@\"«»]+"
ARG = r"(?!=\s)[^\s(){}.;,@\"«»]+"
PATH = re.compile(r"(?<![^\s(){};,])(" + WORD + r")((?:\." + WORD + r")+)")
TOKEN = re.compile(WORD)
FIXED = {'pre': 'requires', 'inv': 'invariant', 'taken': 'true', 'left': 'false'}


def norm(s):
    s = s.replace('-', '_').lower()
    return s[:-4] if s.endswith('_lem') else s


def matched(text, at, opens='({', closes=')}'):
    depth = 0
    for i in range(at, len(text)):
        if text[i] in opens:
            depth += 1
        elif text[i] in closes:
            depth -= 1
            if depth == 0:
                return i
    return -1


def split_top(text, sep=','):
    parts, depth, last = [], 0, 0
    for i, ch in enumerate(text):
        if ch in '([{':
            depth += 1
        elif ch in ')]}':
            depth -= 1
        elif ch == sep and depth == 0:
            parts.append(text[last:i])
            last = i + 1
    parts.append(text[last:])
    return parts


# ---- clauses of the sources

def clauses_of(crates):
    """{'crate::module::fn': {'requires': [names], 'ensures': [names]}}; a lone clause without a name is None."""
    out = {}
    for crate in os.listdir(crates):
        src = os.path.join(crates, crate, 'src')
        for folder, _, names in os.walk(src):
            for n in names:
                if not n.endswith('.rt'):
                    continue
                rel = os.path.relpath(os.path.join(folder, n), src)[:-3].split(os.sep)
                mod = [crate] + ([] if rel in (['lib'], ['main']) else rel)
                text = open(os.path.join(folder, n), encoding='utf-8').read()
                text = re.sub(r'//[^\n]*', '', text)
                for m in re.finditer(r'\bfn (\w+)\s*(?:<[^>]*>)?\s*\(', text):
                    i = matched(text, m.end() - 1)
                    got = {'requires': [], 'ensures': []}
                    while True:
                        c = re.compile(r'\b(requires|ensures)\b\s*(\w+)?\s*\{|\{|;').search(text, i)
                        if not c or not c.group(1):
                            break
                        got[c.group(1)].append(c.group(2))
                        i = matched(text, c.end() - 1) + 1
                    out['::'.join(mod + [m.group(1)])] = got
    return out


def record_of(names, body):
    """A nested pair (a, (b, c)) as a record of the clauses' names; what is no literal is read by its parts."""
    body = body.strip()
    parts, let = [], ''
    k = 0
    while k < len(names) - 1:
        if body.startswith('(') and matched(body, 0) == len(body) - 1:
            two = [p for p in split_top(body[1:-1])]
            if two and not two[-1].strip():
                two = two[:-1]
            if len(two) == len(names) - k and len(two) > 1:
                parts += [p.strip() for p in two]
                k = len(names)
                break
            if len(two) == 2:
                parts.append(two[0].strip())
                body = two[1].strip()
                k += 1
                continue
            if len(two) == 1:
                body = two[0].strip()
                continue
            return None
        m = re.match(r'rw (?=\()', body)
        if m and k == 0:
            j = matched(body, m.end(), '(', ')')
            inner = record_of(names, body[j + 1:].strip()) if body[j + 1:].strip() else None
            return None if inner is None else body[:j + 1] + ' (' + inner + ')'
        if re.match(r'(search|omega|simp|rw|cc|grind|elim|let|λ|record)\b', body):
            return None
        let = f'let done = {body} in '
        for i in range(k, len(names)):
            parts.append('done' + '.1' * (i - k) + ('.0' if i < len(names) - 1 else ''))
        k = len(names)
        break
    if k == len(names) - 1:
        parts.append(body)
    return let + 'record { ' + '; '.join(f'{n} = {p}' for n, p in zip(names, parts)) + ' }'


def with_tail(body, turn):
    """turn applied to what follows the last `in` of leading lets."""
    b = body.lstrip()
    lead = body[:len(body) - len(b)]
    if b.startswith('let '):
        depth = 0
        i = 4
        nest = 1
        for m in re.finditer(r'[(){}\[\]]|(?<![^\s])let(?=\s)|(?<![^\s])in(?=\s)', b[4:]):
            t = m.group()
            if t in '([{':
                depth += 1
            elif t in ')]}':
                depth -= 1
            elif depth == 0 and t == 'let':
                nest += 1
            elif depth == 0 and t == 'in':
                nest -= 1
                if nest == 0:
                    at = 4 + m.end()
                    rest = with_tail(b[at:], turn)
                    return None if rest is None else lead + b[:at] + rest
        return None
    got = turn(b)
    return None if got is None else lead + ' ' + got if lead.endswith('in') else (None if got is None else (lead or ' ') + got)


# ---- a file

class Decl:
    def __init__(self, name, type_, unfolding, clauses, comment, abbrev):
        self.name, self.type, self.unfolding, self.clauses, self.comment, self.abbrev = name, type_, unfolding, clauses, comment, abbrev
        self.block = None
        self.more = []


def parse(text):
    """header comments, use lines, declarations"""
    lines = text.split('\n')
    header, uses, decls = [], [], []
    i = 0
    while i < len(lines) and lines[i].startswith('--'):
        header.append(lines[i])
        i += 1
    while i < len(lines) and (lines[i].startswith('use ') or not lines[i].strip()):
        if lines[i].strip():
            uses.append(lines[i])
        i += 1
    comment = []
    cur = None
    while i < len(lines):
        l = lines[i]
        i += 1
        if not l.strip():
            continue
        if l.startswith('--'):
            comment.append(l)
            continue
        if l[0].isspace() or l[0] in '})]' and cur is not None:
            if cur is None:
                comment.append('-- ?? ' + l)
                continue
            if cur.clauses:
                cur.clauses[-1] += '\n' + l
            else:
                cur.type += '\n' + l
            continue
        if l.startswith('unfolding '):
            cur.unfolding += l[10:].split()
            continue
        if re.match(r'(pub )?(record|data|module) ', l):
            name = re.match(r'(?:pub )?(?:record|data|module) (' + WORD + r')', l).group(1)
            cur = Decl(name, '', [], [], comment, False)
            cur.block = [l]
            comment = []
            decls.append(cur)
            while i < len(lines) and (not lines[i].strip() or lines[i][0].isspace()):
                cur.block.append(lines[i])
                i += 1
            while cur.block and not cur.block[-1].strip():
                cur.block.pop()
            continue
        m = re.match(r'((?:(?:abbrev|pub|unfoldable)\s+)*)(' + WORD + r')\s*:\s(.*)$', l) or re.match(r'((?:(?:abbrev|pub|unfoldable)\s+)*)(' + WORD + r')((?:\s+[{(][^=]*[})])*)\s*:\s*(.*)$', l)
        if m and not (cur is not None and l.startswith(cur.name + ' ') and '=' in l and ' : ' not in l.split('=')[0]):
            cur = Decl(m.group(2), m.group(m.lastindex), [], [], comment, 'abbrev' in m.group(1))
            comment = []
            decls.append(cur)
            continue
        if cur is not None and (l.startswith(cur.name + ' ') or l.startswith(cur.name + '=')):
            cur.clauses.append(l)
            continue
        comment.append('-- ?? ' + l)
    return header, uses, decls, comment


class Turner:
    def __init__(self, entry, function, clauses, said):
        self.entry, self.function, self.clauses, self.said = entry, function, clauses, said
        self.needs = {norm(o): n for o, n in entry['needs']}
        self.need_list = entry['needs']
        self.asked_at = {n[1]: p[0] for n, p in zip(entry['needs'], entry['asked_at'])}
        self.parent = {p[0]: p[1] for p in entry['places']}
        self.step_at = {p[0]: p[2] for p in entry['places']}
        self.callee_at = {p[0]: p[3] for p in entry['places']}
        self.loops = {norm(l[0][0]): (l[0][1], l[1], ch) for l, ch in zip(entry['loops'], entry['changed'])}
        self.own = clauses.get(function, {'requires': [], 'ensures': []})

    def look(self, text):
        self.said.append(f'look: {self.function}: {text}')

    def steps(self, place):
        """old step -> (new step, callee) on the way to the place; all places where place is None"""
        out = {}
        for p in self.entry['places']:
            if p[2][0]:
                out.setdefault(norm(p[2][0]), (p[2][1], p[3]))
        if place in self.parent:
            chain = []
            while place:
                chain.append(place)
                place = self.parent.get(place)
            for p in reversed(chain):
                if self.step_at[p][0]:
                    out[norm(self.step_at[p][0])] = (self.step_at[p][1], self.callee_at[p])
        return out

    def arms(self, place):
        """What an arm of a match names: (arm, field, old step, old fields), from the places on the way, the nearest first"""
        index = {p[0]: k for k, p in enumerate(self.entry['places'])}
        chain = []
        while place:
            chain.append(place)
            place = self.parent.get(place)
        if not chain:
            chain = [p[0] for p in reversed(self.entry['places'])]
        out = []
        for p in chain:
            a = self.entry['arms'][index[p]] if p in index else None
            if a:
                for field, step, way in a[2]:
                    out.append((a[0], field, step, way))
        return out

    def named(self, names, segs):
        """segs after requires or ensures, a nested pair: the clause's name in place of .0, .1.0, .."""
        if len(names) < 2:
            return segs
        k = 0
        i = 0
        while k < len(names) - 1:
            if i >= len(segs):
                return None
            if segs[i] == '0':
                return [names[k]] + segs[i + 1:]
            if segs[i] == '1':
                k += 1
                i += 1
                continue
            if segs[i] in names:
                return segs
            return None
        return [names[k]] + segs[i:]

    def turn(self, text, places, place):
        """The term over c. places: names of values that are a place; place: the old place of c."""
        steps = self.steps(place)
        alias_req = {}
        # lets that name a place
        changed = True
        text = '\n' + text

        def strip(path):
            return [s for s in path if s != 'before']

        while changed:
            changed = False
            m = re.search(r'(?<![^\s(])let (' + WORD + r') = (' + WORD + r')((?:\.before)*) in(?=\s)', text)
            while m:
                if m.group(2) in places:
                    places = places | {m.group(1)}
                    text = text[:m.start()] + text[m.end():]
                    changed = True
                    break
                m = re.compile(r'(?<![^\s(])let (' + WORD + r') = (' + WORD + r')((?:\.before)*) in(?=\s)').search(text, m.end())

        # lets that name a value on the way: a path from there is written out
        alias = {}

        def fixed(segs):
            out = [{'type-inv': 'type_inv', 'well-formed': 'well_formed'}.get(x, x) for x in segs]
            if out and out[0] == 'pre':
                out[0] = 'requires'
            if len(out) > 1:
                st = out[0]
                if re.fullmatch(r'if\d*', st) or re.fullmatch(r'loop\d*[-_]test', st):
                    out[1] = {'taken': 'true', 'left': 'false'}.get(out[1], out[1])
                if not re.match(r'(loop|if)\d*([-_]test)?$', st):
                    out[1] = {'kept': 'auto', 'last': 'new'}.get(out[1], out[1])
                if re.fullmatch(r'loop\d*', st) and out[1] == 'inv':
                    out[1] = 'invariant'
            return out

        def told(base, names, segs):
            """base.segs of a nested pair of clauses, by name; what is left of the pair where segs end within it"""
            if len(names) < 2:
                return base + ''.join('.' + s for s in segs)
            k = 0
            for i, s_ in enumerate(segs):
                if s_ == '1' and k < len(names) - 1:
                    k += 1
                    if k == len(names) - 1:
                        return base + '.' + names[k] + ''.join('.' + s for s in segs[i + 1:])
                    continue
                if s_ == '0' and k < len(names) - 1:
                    return base + '.' + names[k] + ''.join('.' + s for s in segs[i + 1:])
                if s_ in names and k == 0:
                    return base + ''.join('.' + s for s in segs)
                self.look(base + '.' + '.'.join(segs))
                return base + ''.join('.' + s for s in segs)
            rest = [base + '.' + n for n in names[k:]]
            out = rest[-1]
            for r in reversed(rest[:-1]):
                out = f'({r}, {out})'
            return out

        def let_of(m):
            head, segs = m.group(2), m.group(3).split('.')[1:]
            if head in alias:
                segs = alias[head] + segs
                head = 'c'
            elif head not in places:
                return m.group()
            alias[m.group(1)] = strip(segs)
            return m.group()

        for m in re.finditer(r'(?<![^\s(])let (' + WORD + r') = (' + WORD + r')((?:\.' + WORD + r')+) in(?=\s)', text):
            let_of(m)

        def path(m):
            head, segs = m.group(1), m.group(2).split('.')[1:]
            if head in alias:
                if head in places:
                    self.look(f'{head} is a place and a value')
                segs = alias[head] + segs
            elif head not in places:
                return m.group()
            segs = fixed(strip(segs))
            if not segs:
                return 'c'
            first = segs[0]
            rest = segs[1:]
            for arm, field, step, way in self.arms(place):
                if norm(step) == norm(first) and way and rest[:len(way)] == way:
                    return f'c⟡.{arm}.{field}' + ''.join('.' + s for s in rest[len(way):])
            if first == 'requires':
                return told('c⟡.requires', self.own['requires'], rest)
            st = steps.get(norm(first))
            if st:
                new, callee = st
                if len(rest) >= 2 and rest[0] in ('new', 'auto') and callee and rest[1] in ('0', '1'):
                    ps = self.entry['params'].get(callee, [])
                    k, i = 0, 1
                    while i < len(rest) and rest[i] == '1':
                        k, i = k + 1, i + 1
                    if i < len(rest) and rest[i] == '0' and k < len(ps):
                        rest = [rest[0], ps[k]] + rest[i + 1:]
                    else:
                        self.look('.'.join(segs))
                if rest and rest[0] == 'ensures' and callee:
                    return told('c⟡.' + new + '.ensures', self.clauses.get(callee, {}).get('ensures', []), rest[1:])
                return 'c⟡.' + new + ''.join('.' + s for s in rest)
            return 'c⟡.' + '.'.join(segs)

        text = PATH.sub(path, text)
        # a place as a value
        text = re.sub(r'(?<![^\s(){};,])' + WORD + r'(?![^\s(){};,])', lambda m: 'c' if m.group() in places else m.group(), text)
        for m in list(re.finditer(r'(?<![^\s(])let (' + WORD + r') = (?=\()', text)):
            if m.group(1) in alias:
                i = text.index(m.group())
                j = matched(text, i + len(m.group()), '(', ')')
                if j > 0 and re.match(r' in(?=\s)', text[j + 1:]):
                    value = text[i + len(m.group()):j + 1]
                    a = m.group(1)
                    text = text[:i] + text[j + 4:].lstrip(' ')
                    text = re.sub(r'(?<![^\s(){};,])' + re.escape(a) + r'(?![^\s(){};,])', lambda _: value, text)
        for a in alias:
            lone = r'(?<![^\s(){};,])' + re.escape(a) + r'(?![^\s(){};,])'
            if len(re.findall(lone, text)) == 1:
                text = re.sub(r'(?<![^\s(])let ' + re.escape(a) + r' = [^\s]+ in\s', '', text)
        # a test is the fact itself
        text = re.sub(r'(?:ltb|leb|eqb)-(?:true|false) (?:\([^()]*\)|[^\s()]+) (?:\([^()]*\)|[^\s()]+) (c⟡\.(?:if|loop)-\S+?\.(?:true|false))(?![^\s(){};,])', r'\1', text)
        return text[1:]


def invariant(t, d, old, kind):
    if old not in t.loops:
        t.look(f'no loop {old}')
        return None
    new, vars_, changed = t.loops[old]
    m = re.match(re.escape(d.name) + r'\s+([^=]*?)\s*=\s*(.*)$', d.clauses[0], re.S)
    args, body = m.group(1).split(), m.group(2)
    un = [v for v, c in zip(vars_, changed) if not c]
    ch = [v for v, c in zip(vars_, changed) if c]
    if len(args) == len(un) + 2 * len(ch):
        # in the order of the source, what changes as it was at the start; then what changes as it is
        fields = [('l.initial.' if c else 'l.') + v for v, c in zip(vars_, changed)] + ['l.' + v for v in ch]
        # names settle it where they can
        base = [a.rstrip('₀') for a in args]
        if any(a != f.split('.')[-1].replace('_', '-') and a.replace('-', '_') != f.split('.')[-1] for a, f in zip(base, fields)):
            t.look(f'{d.name} {" ".join(args)} against {" ".join(fields)}')
        table = dict(zip(args, fields))
    else:
        t.look(f'{d.name}: {len(args)} arguments, {un} unchanged, {ch} changed')
        table = {}
        for a in args:
            v = a.rstrip('₀')
            table[a] = ('l.initial.' if a.endswith('₀') else 'l.') + v
    if '_' in table:
        del table['_']

    def sub(m):
        w = m.group()
        head, dot, rest = w.partition('.')
        return table.get(head, head) + dot + rest if head in table else w
    body = re.sub(r"(?<![^\s(){};,])" + WORD + r"(?:\." + WORD + r")*", sub, body)
    return new, body


def convert(path, entry, function, clauses, goal_module, said):
    text = open(path, encoding='utf-8').read()
    header, uses, decls, loose = parse(text)
    t = Turner(entry, function, clauses, said)
    for l in loose:
        t.look(f'not read: {l}')
    uses = [u for u in uses if not re.search(r'\.(Statement\.\{|Tie as )', u)]
    invs, answers, helpers = [], {}, {}
    order = []
    spec = None
    goals_imports = set()
    local = []  # lemmas with no place
    for d in decls:
        ty = d.type.strip()
        if d.block:
            if any('tie.' in l for l in d.block):
                t.look(f'block {d.name} names places')
            local.append(d)
            continue
        m = re.match(r'tie\.(invariant|decreases)-(\S+)', ty)
        if m:
            got = invariant(t, d, norm(m.group(2)), m.group(1))
            if got:
                invs.append((m.group(1), got[0], got[1], d.comment))
            continue
        if re.search(r'→ statement M', ty) or d.name.endswith(('-spec', '_spec')) and 'statement' in ty:
            spec = d
            continue
        m = re.match(r'tie\.Need-(\S+)', ty)
        if m:
            old = m.group(1)
            for p in ('overflow-', 'nonzero-'):
                if old.startswith(p):
                    old = old[len(p):]
            key = norm(old)
            new = t.needs.get(key) or t.needs.get('shared_' + key) or {norm(n): n for _, n in entry['needs']}.get(norm(m.group(1)))
            if new is None:
                for o, n in entry['needs']:
                    if n == m.group(1).replace('overflow-', 'overflow_'):
                        new = n
            if new is None:
                t.look(f'no goal for {d.name} : {ty}')
                continue
            if len(d.clauses) != 1:
                t.look(f'{d.name} has {len(d.clauses)} clauses')
                continue
            mm = re.match(re.escape(d.name) + r'((?:\s+' + ARG + r')+)\s+=\s*(.*)$', d.clauses[0], re.S)
            if not mm:
                t.look(f'{d.name}: not read')
                continue
            args = mm.group(1).split()
            d.more = [a for a in args[1:] if a != 'κs']
            answers[new] = (args[0], mm.group(2), d)
            order.append(new)
            continue
        if 'tie.' in ty:
            helpers[d.name] = d
        else:
            local.append(d)
    unfolded = {u for d in decls for u in d.unfolding}
    for h, d in helpers.items():
        if h in unfolded:
            d.abbrev = True
    for d in decls:
        d.unfolding = [u for u in d.unfolding if u not in helpers]
    # inline answers of the spec, by position
    if spec is not None:
        body = spec.clauses[-1]
        m = re.search(r'\(tie\.spec(.*)\)\s*$', body, re.S) or re.search(r'tie\.spec(.*)$', body, re.S)
        if m:
            args, s, i = [], m.group(1), 0
            while i < len(s):
                if s[i].isspace():
                    i += 1
                    continue
                if s[i] == '(':
                    j = matched(s, i, '(', ')')
                    args.append(s[i:j + 1])
                    i = j + 1
                else:
                    j = i
                    while j < len(s) and not s[j].isspace():
                        j += 1
                    args.append(s[i:j])
                    i = j
            args = args[2 * len(t.loops):] if len(args) >= 2 * len(t.loops) else args
            names = {d.name for d in decls}
            exact = len(args) == len(t.need_list)
            if not exact:
                t.look(f'{len(args)} answers, {len(t.need_list)} goals')
            for k, a in enumerate(args):
                if a.startswith('('):
                    mm = re.match(r'\(λ ([^.]*)\.\s*(.*)\)$', a, re.S)
                    if not mm:
                        t.look(f'inline {a}')
                        continue
                    b = mm.group(2).strip()
                    if b in ('omega arith', 'search rules', 'refl', 'tt'):
                        continue
                    if not exact:
                        t.look(f'inline {a}')
                        continue
                    one = Decl('inline', '', [], [], [], False)
                    one.more = [x for x in mm.group(1).split()[1:] if x != 'κs']
                    answers[t.need_list[k][1]] = (mm.group(1).split()[0], b, one)
                    order.append(t.need_list[k][1])

            if exact:
                for k, a in enumerate(args):
                    if a in helpers:
                        answers[t.need_list[k][1]] = ('c', f'{a} c', Decl('inline', '', [], [], [], False))
                        order.append(t.need_list[k][1])
            elif any(a in helpers for a in args):
                t.look('a lemma is an answer')

    # helpers
    def helper_parts(h):
        d = helpers[h]
        ty = d.type.strip()
        m = re.match(r'\((' + WORD + r') : tie\.([^\s()]+)[^)]*\)\s*(.*)$', ty, re.S)
        dependent = True
        if not m:
            m2 = re.match(r'tie\.(\S+)((?:\s+' + WORD + r')*?)\s*→\s*(.*)$', ty, re.S)
            if not m2:
                return None
            var, place, rest = None, m2.group(1), m2.group(3)
        else:
            var, place, rest = m.group(1), m.group(2), m.group(3)
            if rest.startswith('→'):
                rest = rest[1:].strip()
        mm = re.match(re.escape(h) + r'((?:\s+(?:' + ARG + r'|\([^)]*\)|\{[^}]*\}))+)\s+=\s*(.*)$', d.clauses[0], re.S)
        if not mm or len(d.clauses) != 1:
            return None
        args = mm.group(1).split()
        return var, place, rest, args, mm.group(2)

    def new_place(p):
        for q in entry['places']:
            if norm(q[0]) == norm(p):
                return q[0]
        return None

    def replace_call(text, h, repl):
        """h PLACE -> repl, for a place variable or a parenthesised path that is all before"""
        return re.sub(r'(?<![^\s(){};,])' + re.escape(h) + r'\s+c(?![^\s(){};,])', lambda m: repl, text)

    place_helpers = [h for h in helpers if re.search(r'→\s*tie\.', helpers[h].type)]

    def settle(text, place):
        for _ in range(8):
            before = text
            for h in place_helpers:
                text = re.sub(r'\(\s*' + re.escape(h) + r'\s+c\s*\)', 'c', text)
                text = re.sub(r'(?<![^\s(){};,])' + re.escape(h) + r'\s+c(?![^\s(){};,])', 'c', text)
            text = t.turn(text, {'c'}, place)
            if text == before:
                break
        return text

    def expand(text, place, used):
        """text over c with calls of helpers; abbreviations are put in, lemmas become lets, collected in used"""
        for _ in range(30):
            before = text
            text = settle(text, place)
            for h in helpers:
                if h in place_helpers or not re.search(r'(?<![^\s(){};,])' + re.escape(h) + r'\s+c(?![^\s(){};,])', text):
                    continue
                parts = helper_parts(h)
                if parts is None:
                    t.look(f'helper {h} not read')
                    continue
                var, pl, rest, args, body = parts
                hp = new_place(pl) or place
                b = t.turn(body, {args[0]}, hp)
                if helpers[h].abbrev and len(args) == 1:
                    flat = ' '.join(b.split())
                    text = re.sub(r'\(\s*' + re.escape(h) + r'\s+c\s*\)(?=\.)', lambda m: flat if re.fullmatch(r'[\w.\-]+', flat) else f'({flat})', text)
                    text = re.sub(r'\(\s*' + re.escape(h) + r'\s+c\s*\)', lambda m: flat if re.fullmatch(r'[^\s()]+', flat) else f'({flat})', text)
                    text = replace_call(text, h, flat if re.fullmatch(r'[^\s()]+', flat) else f'({flat})')
                else:
                    if h not in used:
                        used[h] = None
                        ty = t.turn(rest, {var} if var else set(), hp)
                        ty = expand(ty, hp, used)
                        vs = args[1:]
                        bb = expand(b, hp, used)
                        if vs:
                            bb = 'λ ' + ' '.join(vs) + '. ' + bb.strip()
                        used[h] = (' '.join(ty.split()), bb.strip(), helpers[h].unfolding)
                        order_used.append(h)
                    text = re.sub(r'\(\s*' + re.escape(h) + r'\s+c\s*\)', lambda m: h, text)
                    text = replace_call(text, h, h)
            # paths whose head was put in: c.x from (c).x
            text = re.sub(r'\(c\)\.', 'c.', text)
            text = re.sub(r'(?<![^\s(){};,])c\.(?:before\.)+', 'c.', text)
            if text == before:
                break
        return text

    out = []
    for new in order:
        var, body, d = answers[new]
        place = t.asked_at.get(new)
        order_used = []
        used = {}
        body = t.turn(body, {var}, place)
        body = expand(body, place, used)
        body = settle(body, place).replace('c⟡', 'c')
        unf = list(d.unfolding)
        lets = []
        for h in order_used:
            if used.get(h):
                ty, b, u = used[h]
                ty, b = settle(ty, place).replace('c⟡', 'c'), settle(b, place).replace('c⟡', 'c')
                lets.append(f'    let {h} : {ty.strip()} = {b.strip()} in\n')
                unf += [x for x in u if x not in unf]
        # cases of a join
        def cases(m):
            step = m.group(3)
            goals_imports.update({'then-' + step[3:], 'else-' + step[3:]})
            def arm(x):
                v, e = re.match(r'\(λ (' + WORD + r')\. (.*)\)$', x, re.S).groups()
                e = re.sub(r'(?<![^\s(){};,])' + re.escape(v) + r'\.0\.(taken|true)', f'{v}.{step}.true', e)
                e = re.sub(r'(?<![^\s(){};,])' + re.escape(v) + r'\.0\.(left|false)', f'{v}.{step}.false', e)
                return v, e
            (v, a), (w, b) = arm(m.group(1)), arm(m.group(2))
            return f'elim c.{step}.branch [ then-{step[3:]} {v} ↦ {a} | else-{step[3:]} {w} ↦ {b} ]'
        mm = re.search(r'⊎_elim\s+(?=\()', body)
        if mm and '.branch' in body:
            i = mm.end()
            j = matched(body, i, '(', ')')
            i2 = j + 1 + len(body[j + 1:]) - len(body[j + 1:].lstrip())
            j2 = matched(body, i2, '(', ')') if body[i2:i2 + 1] == '(' else -1
            rest = re.match(r'\s*c\.(\S+?)\.branch', body[j2 + 1:]) if j2 > 0 else None
            if rest:
                class M:
                    def group(self, k):
                        return (None, body[i:j + 1], body[i2:j2 + 1], rest.group(1))[k]
                body = body[:mm.start()] + cases(M()) + body[j2 + 1 + rest.end():]
                t.look(f'{new} has cases of a join')
        # clauses of the callee, of the function
        names = entry.get('asked', {}).get(dict((n, o) for o, n in entry['needs'])[new])
        if new.startswith('returns') and len(t.own['ensures']) > 1:
            names = t.own['ensures']
        if names and len(names) > 1 and not re.fullmatch(r'\s*(search rules|omega arith)\s*', body):
            got = with_tail(body, lambda b: record_of(names, b))
            if got is None:
                t.look(f'{new} answers {names} by no literal')
            else:
                body = got
        body = body.strip('\n')
        text = ''
        if d.comment:
            text += '\n'.join(d.comment) + '\n'
        text += f'pub {new} : goal.{new}\n'
        if unf:
            text += 'unfolding ' + ' '.join(dict.fromkeys(unf)) + '\n'
        b = body.strip()
        if lets or '\n' in b:
            text += ' '.join([new, 'c'] + d.more) + ' =\n' + ''.join(lets) + '    ' + b + '\n'
        else:
            text += ' '.join([new, 'c'] + d.more) + f' = {b}\n'
        out.append(text)
    folder = os.path.dirname(path)

    def written(d, public):
        text = '\n'.join(d.comment) + '\n' if d.comment else ''
        if d.block:
            lines = list(d.block)
            if public and not lines[0].startswith(('pub ', 'module')):
                lines[0] = 'pub ' + lines[0]
            if public and re.match(r'pub record', lines[0]):
                lines = lines[:1] + [re.sub(r'^  (?=[^\s-])(?!pub )', '  pub ', l) if re.match(r'  \S', l) else l for l in lines[1:]]
            if public and lines[0].startswith('module'):
                lines = [re.sub(r'^(\s+)(abbrev )?(?!pub )(' + WORD + r'(?: \{[^}]*\})? :)', r'\1\2pub \3', l) for l in lines]
            return text + '\n'.join(lines) + '\n\n'
        return text + ('abbrev ' if d.abbrev else '') + ('pub ' if public else '') + f'{d.name} : {d.type}\n' + (('unfolding ' + ' '.join(d.unfolding) + '\n') if d.unfolding else '') + '\n'.join(d.clauses) + '\n\n'

    def words_of(d):
        if d.block:
            return set(TOKEN.findall('\n'.join(d.block).replace('.', ' ')))
        return set(TOKEN.findall((d.type + ' ' + ' '.join(d.clauses)).replace('.', ' ')))

    def names_of(d):
        if d.block and d.block[0].startswith(('module', 'pub module')):
            return [m.group(1) for l in d.block for m in [re.match(r'\s+(?:abbrev |pub )*(' + WORD + r')(?: \{[^}]*\})? :', l)] if m]
        return [d.name]
    in_invs = []
    if invs:
        used_words = set(TOKEN.findall(' '.join(b for _, _, b, _ in invs).replace('.', ' ')))
        for _ in range(5):
            for d in local:
                if d not in in_invs and used_words & set(names_of(d)):
                    in_invs.append(d)
                    used_words |= words_of(d)
        in_invs = [d for d in local if d in in_invs]
        text = '\n'.join(header) + '\n' + '\n'.join(uses) + f'\nuse {goal_module}.Given as goal\n\n'
        for d in in_invs:
            text += written(d, True)
        for kind, new, body, comment in invs:
            text += ('\n'.join(comment) + '\n' if comment else '') + f'abbrev pub {kind}-{new} : goal.{kind}-{new}\n{kind}-{new} l = {body.strip()}\n\n'
        open(os.path.join(folder, 'Invariants.antt'), 'w', encoding='utf-8').write(text.rstrip('\n') + '\n')
    if out:
        alltext = '\n'.join(out)
        text = '\n'.join(header) + '\n' + '\n'.join(uses) + f'\nuse {goal_module}.Goals as goal\n'
        if goals_imports:
            text += f'use {goal_module}.Goals.{{' + ', '.join(sorted(goals_imports)) + '}\n'
        shared = [n for d in in_invs for n in names_of(d)]
        if shared:
            text += f'use {goal_module}.Invariants.{{' + ', '.join(shared) + '}\n'
        text += '\n'
        for d in local:
            if d not in in_invs:
                text += written(d, False)
        text += alltext
        open(os.path.join(folder, 'Answers.antt'), 'w', encoding='utf-8').write(text.rstrip('\n') + '\n')
    os.remove(path)


def main(argv):
    names, crate = argv[0], argv[1].rstrip('/')
    only = argv[2:]
    data = json.load(open(names, encoding='utf-8'))
    name = os.path.basename(crate)
    clauses = clauses_of(os.path.dirname(os.path.abspath(crate)))
    said = []
    for folder, dirs, fs in os.walk(os.path.join(crate, 'proofs')):
        if 'Proof.antt' not in fs:
            continue
        rel = os.path.relpath(folder, os.path.join(crate, 'proofs')).split(os.sep)
        fn = '.'.join(rel)
        if only and fn not in only and rel[-1] not in only:
            continue
        key = f'Rattle-{name}-proofs.{fn}.Lts'
        if key not in data:
            said.append(f'look: {fn}: no entry {key}')
            continue
        convert(os.path.join(folder, 'Proof.antt'), data[key], '::'.join([name] + rel), clauses, f'Rattle.{name}.proofs.{fn}', said)
    print('\n'.join(said))


if __name__ == '__main__':
    main(sys.argv[1:])
