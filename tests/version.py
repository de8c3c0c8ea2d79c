#!/usr/bin/env python3
"""The file VERSION is the one source of the version: the header's macros and the first heading of CHANGES.md say the same, and TOOLCHAIN is one line.

Each is also doctored, and must then be found wrong.
"""

import os
import re
import sys

TOP = os.path.dirname(os.path.dirname(os.path.abspath(__file__)))
FILES = ('VERSION', 'TOOLCHAIN', 'CHANGES.md', 'include/wagonepoch.h')


def text_of(path):
    with open(os.path.join(TOP, path), encoding='utf-8') as f:
        return f.read()


def wrong(version, toolchain, changes, header):
    """What does not agree, of the texts of these files."""
    numbers = re.fullmatch(r'(\d+)\.(\d{1,2})\.(\d{1,2})\n', version)
    if not numbers:
        return ['VERSION is not one line of three numbers, the last two below 100']
    first, second, third = map(int, numbers.groups())
    found = []
    if not re.fullmatch(r'\S[^\n]*\n', toolchain):
        found.append('TOOLCHAIN is not one line')
    if re.findall(r'(?m)^## (\S+)', changes)[:1] != [version.strip()]:
        found.append('the first heading of CHANGES.md is of another version')
    if re.findall(r'(?m)^#define WAGONEPOCH_VERSION (.*)$', header) != ['"%s"' % version.strip()]:
        found.append('WAGONEPOCH_VERSION is another version')
    if re.findall(r'(?m)^#define WAGONEPOCH_VERSION_NUMBER (.*)$', header) != [str(10000 * first + 100 * second + third)]:
        found.append('WAGONEPOCH_VERSION_NUMBER is another version')
    return found


def doctored(version, toolchain, changes, header):
    """The texts with one thing changed."""
    raised = re.sub(r'\d+\n', '99\n', version)
    yield raised, toolchain, changes, header
    yield version.strip(), toolchain, changes, header
    yield version, '', changes, header
    yield version, toolchain, changes.replace('## ' + version.strip(), '## ' + raised.strip(), 1), header
    yield version, toolchain, changes, header.replace('"%s"' % version.strip(), '"%s"' % raised.strip())
    yield version, toolchain, changes, re.sub('_VERSION_NUMBER .*', '_VERSION_NUMBER 1', header)
    yield version, toolchain, changes, header.replace('WAGONEPOCH_VERSION', 'WAGONEPOCH')


def main():
    texts = [text_of(path) for path in FILES]
    found = wrong(*texts)
    for text in found:
        print(text)
    missed = sum(not wrong(*others) for others in doctored(*texts))
    print('version %s; %d wrong, %d doctored texts not seen' % (texts[0].strip(), len(found), missed))
    return bool(found) or missed > 0


if __name__ == '__main__':
    sys.exit(main())
