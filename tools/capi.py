#!/usr/bin/env python3
"""The static library for C, Fortran and Rust: proved and built where it is older than its sources.

  capi.py    builds target/staticlib/libcapi.a

The crate capi_c exports what crate capi has; `rt lib` there proves it and what it stands on, and what was proved before is not proved again.
"""

import os
import shutil
import subprocess
import sys

TOP = os.path.dirname(os.path.dirname(os.path.realpath(__file__)))
CRATE = os.path.join(TOP, 'crates', 'capi_c')
ARCHIVE = os.path.join(CRATE, 'out', 'libcapi_c.a')
STATIC = os.path.join(TOP, 'target', 'staticlib', 'libcapi.a')
# What rt lib is asked for, in the crate's folder.
COMMAND = ('rt', 'lib')


def sources():
    """The files that a proof reads."""
    yield os.path.join(TOP, 'crates.txt')
    for crate in os.scandir(os.path.join(TOP, 'crates')):
        for part in ('src', 'specs', 'proofs'):
            for at, _, names in os.walk(os.path.join(crate.path, part)):
                yield from (os.path.join(at, name) for name in names)


def older(path, time):
    return not os.path.exists(path) or os.path.getmtime(path) < time


def is_due(static=STATIC):
    return older(static, max(map(os.path.getmtime, sources())))


def put(static=STATIC):
    """What rt lib has built, under the name that callers link; in one step, since another may be reading it."""
    os.makedirs(os.path.dirname(static), exist_ok=True)
    part = '%s.%d' % (static, os.getpid())
    shutil.copyfile(ARCHIVE, part)
    os.replace(part, static)


def build(static=STATIC):
    """Where it is due; rt's report goes to standard output. The status of rt."""
    if not is_due(static):
        return 0
    done = subprocess.run(COMMAND, cwd=CRATE, check=False)
    if not done.returncode:
        put(static)
    return done.returncode


if __name__ == '__main__':
    if len(sys.argv) > 1:
        sys.exit(__doc__.strip())
    sys.exit(build())
