#!/usr/bin/env python3
"""Every exported function of crates/capi_c stands in include/wagonepoch.h with the same parameters and as many figures, and nothing else does.

The declarations in examples/rust are compared too, and the names of the parameters in examples/fortran. A slice is a pointer and a length.
"""

import glob
import os
import re
import sys

TOP = os.path.dirname(os.path.dirname(os.path.abspath(__file__)))
C = {'u8': 'uint8_t', 'u16': 'uint16_t', 'u32': 'uint32_t', 'u64': 'uint64_t', 'usize': 'size_t'}


def text_of(path):
    with open(os.path.join(TOP, path), encoding='utf-8') as f:
        return f.read()


def parameters(text):
    return [tuple(part.strip().split(': ')) for part in text.split(',') if part.strip()]


def exported():
    """{name: (parameters, figures)} of the crates, the figures as the contract has them."""
    found = {}
    for path in [path for crate in ('capi', 'capi_c') for path in sorted(glob.glob(os.path.join(TOP, 'crates', crate, 'src', '*.rt')))]:
        for m in re.finditer(r'pub extern "C" fn (\w+)\(([^)]*)\) -> u16\n(.*?)\n}', text_of(path), re.S):
            figures = re.search(r'answer_c (\d+) figures\.old', m.group(3))
            found[m.group(1)] = (parameters(m.group(2)), int(figures.group(1)) if figures else 0)
    return found


def in_c(name, kind):
    m = re.match(r'&(mut )?\[(\w+)\]', kind)
    if not m:
        return ['%s %s' % (C[kind], name)]
    return ['%s%s *%s' % ('' if m.group(1) else 'const ', C[m.group(2)], name), 'size_t %s_len' % name]


def in_rust(name, kind):
    m = re.match(r'&(mut )?\[(\w+)\]', kind)
    if not m:
        return [(name, kind)]
    return [(name, '*%s %s' % ('mut' if m.group(1) else 'const', m.group(2))), (name + '_len', 'usize')]


def declared():
    """{name: (parameters, figures)} of the header."""
    header = text_of('include/wagonepoch.h')
    counts = {m.group(1).lower(): int(m.group(2)) for m in re.finditer(r'#define WAGONEPOCH_(\w+)_FIGURES (\d+)', header)}
    found = {}
    for m in re.finditer(r'(?m)^uint16_t (wagonepoch_(\w+?)(?:_levels)?)\(([^)]*)\);', header):
        found[m.group(1)] = ([' '.join(part.split()) for part in m.group(3).split(',')], counts.get(m.group(2), 0))
    return found


def in_fortran():
    """(name, names of the parameters) of each declaration."""
    text = text_of('examples/fortran/wagonepoch.f90').replace('&\n', '')
    return [(m.group(1), m.group(2).replace(',', ' ').split()) for m in re.finditer(r'function (wagonepoch_\w+)\(([^)]*)\) bind\(C\)', text)]


def main():
    wanted, stands, wrong = exported(), declared(), []
    for name in sorted(set(wanted) | set(stands)):
        if name not in wanted or name not in stands:
            wrong.append('%s stands in one only' % name)
            continue
        listed, figures = wanted[name]
        if stands[name][0] != [part for one in listed for part in in_c(*one)]:
            wrong.append('%s: other parameters in the header' % name)
        if stands[name][1] != figures:
            wrong.append('%s: another count of figures in the header' % name)
    for m in re.finditer(r'pub fn (wagonepoch_\w+)\(([^)]*)\) -> u16;', text_of('examples/rust/wagonepoch.rs')):
        if parameters(m.group(2)) != [part for one in wanted[m.group(1)][0] for part in in_rust(*one)]:
            wrong.append('%s: other parameters in examples/rust' % m.group(1))
    for name, names in in_fortran():
        if names != [part[0] for one in wanted[name][0] for part in in_rust(*one)]:
            wrong.append('%s: other parameters in examples/fortran' % name)
    print('\n'.join(wrong) or '%d functions' % len(wanted))
    return bool(wrong)


if __name__ == '__main__':
    sys.exit(main())
