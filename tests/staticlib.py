"""The static library that C programs link, for the tests and the benchmark: built where it is older than the crates."""

import os
import subprocess
import sys

TOP = os.path.dirname(os.path.dirname(os.path.abspath(__file__)))
LIBRARY = os.path.join('target', 'staticlib', 'libcapi.a')


def build_library():
    """Build it, in the repository's root."""
    subprocess.run([sys.executable, os.path.join('tools', 'capi.py')], check=True, stdout=subprocess.DEVNULL)
