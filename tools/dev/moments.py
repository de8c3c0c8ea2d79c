#!/usr/bin/env python3
"""Writes a contract's moments as today's clauses do: `was x` as x.now of a `&` and x.old of a `&mut`, `left x` as x.new.

usage: tools/dev/moments.py FILE.rt ..      rewrites each file; a place that it can't turn is named on a line 'look:'
"""
import re
import sys


def matched(text, at):
    depth = 0
    for i in range(at, len(text)):
        if text[i] in '({[':
            depth += 1
        elif text[i] in ')}]':
            depth -= 1
            if depth == 0:
                return i
    return -1


def params(text):
    depth, last, out = 0, 0, []
    for i, ch in enumerate(text + ','):
        if ch in '([{<':
            depth += 1
        elif ch in ')]}' or ch == '>' and text[i - 1:i] != '-':
            depth -= 1
        elif ch == ',' and depth == 0:
            if text[last:i].strip():
                out.append(text[last:i].strip())
            last = i + 1
    return out


def turn(path):
    text = open(path, encoding='utf-8').read()
    out, at = [], 0
    for m in re.finditer(r'\bfn (\w+)\s*(?:<[^>]*>)?\s*\(', text):
        if m.start() < at:
            continue
        end = matched(text, m.end() - 1)
        kind = {}
        for p in params(text[m.end():end]):
            p = p.removeprefix('mut ')
            name, _, ty = p.partition(':')
            ty = re.sub(r"^&\s*'\w+\s*", '&', ty.strip())
            kind[name.strip()] = 'mut' if ty.startswith('&mut') else 'shared' if ty.startswith('&') else 'value'
        i = end
        out.append(text[at:end])
        at = end
        while True:
            c = re.compile(r'\b(requires|ensures)\b\s*(\w+)?\s*\{|\{|;').search(text, i)
            if not c or not c.group(1):
                break
            i = matched(text, c.end() - 1) + 1
        clauses = text[at:i]

        def put(m):
            word, name = m.group(2), m.group(3)
            k = kind.get(name)
            if k not in ('mut', 'shared'):
                print(f'look: {path}: {m.group()}')
                return m.group()
            new = name + ('.new' if word == 'left' else '.old' if k == 'mut' else '.now')
            if m.group(1) and m.group(4):
                return new
            return m.group(1) + new + m.group(4)
        clauses = re.sub(r'(\(?)\b(was|left) (\w+)(?![\w.])(\)?)', lambda m: put(m) if bool(m.group(1)) == bool(m.group(4)) or not m.group(1) else put(m), clauses)
        out.append(clauses)
        at = i
    out.append(text[at:])
    new = ''.join(out)
    if not re.search(r'\b(was|left) \w', re.sub(r'//[^\n]*|ghost use[^;]*;', '', new)):
        def use(m):
            names = [n for n in re.split(r',\s*', m.group(1)) if n not in ('was', 'left')]
            return f'ghost use Rattle.basis.specs.Moments.{{{", ".join(names)}}};\n' if names else ''
        new = re.sub(r'ghost use Rattle\.basis\.specs\.Moments\.\{([^}]*)\};\n', use, new)
    if new != text:
        open(path, 'w', encoding='utf-8').write(new)


for f in sys.argv[1:]:
    turn(f)
