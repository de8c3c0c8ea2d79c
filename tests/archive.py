#!/usr/bin/env python3
"""The static library asks its surroundings for memset alone, so that a caller without C's library can link it.

The list that nm prints is also doctored, and must then be found wrong.
"""

import os
import re
import subprocess
import sys

from staticlib import LIBRARY, TOP, build_library

ASKED = ['memset']


def wrong(text):
    """What nm -u lists that is not what the library may ask for, or lacks."""
    names = sorted(set(re.findall(r'(?m)^ +[UwvV] (\S+)$', text)))
    return '' if names == ASKED else 'the static library asks for %s' % (' '.join(names) or 'nothing')


def doctored(text):
    yield text + '                 U memmove\n'
    yield text.replace('U memset', 'U memcpy')
    yield text.replace('U memset', '')


def main():
    build_library()
    text = subprocess.run(['nm', '-u', os.path.join(TOP, LIBRARY)], stdout=subprocess.PIPE, text=True, check=True).stdout
    found = wrong(text)
    missed = sum(not wrong(other) for other in doctored(text))
    if found:
        print(found)
    print('asks for %s; %d lists doctored, %d not seen' % (' '.join(ASKED), len(list(doctored(text))), missed))
    return bool(found) or missed > 0


if __name__ == '__main__':
    sys.exit(main())
