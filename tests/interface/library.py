"""The C interface as a caller has it: the functions that include/wagonepoch.h declares, over a shared library made of the static one."""

import ctypes
import os
import subprocess
from array import array
from collections import namedtuple

from staticlib import LIBRARY, TOP, build_library
from header import declared

SHARED = os.path.join(TOP, 'target', 'staticlib', 'libcapi.so')
CODES = {'uint8_t': 'B', 'uint16_t': 'H', 'uint32_t': 'I', 'uint64_t': 'Q'}
NUMBERS = {'uint16_t': ctypes.c_uint16, 'uint64_t': ctypes.c_uint64, 'size_t': ctypes.c_size_t}

# Elements behind the end of every list: no call may write them. They also keep the pointer of an empty list from being null.
BEHIND = 8

# Of a list `code` is that of its elements, of a number None.
Parameter = namedtuple('Parameter', 'name code number')

# What a call gets of a list: its memory, and the length that it is told.
Span = namedtuple('Span', 'words length')


def parameters_of(texts):
    """The parameters; a length belongs to the list before it and is none of its own."""
    found = []
    for text in texts:
        kind, name = text.replace('const ', '').split()
        if name.startswith('*'):
            found.append(Parameter(name[1:], CODES[kind], None))
        elif not name.endswith('_len'):
            found.append(Parameter(name, None, NUMBERS[kind]))
    return found


PARAMETERS = {name.replace('wagonepoch_', ''): parameters_of(texts) for name, (texts, _) in declared().items()}
FIGURES = {name.replace('wagonepoch_', ''): count for name, (_, count) in declared().items()}

# The code of a list by its name, which is the same in every call.
CODE_OF = {parameter.name: parameter.code for parameters in PARAMETERS.values() for parameter in parameters if parameter.code}


def guarded(code, values):
    """A list in memory, with the elements behind it."""
    top = 256 ** array(code).itemsize - 1
    return array(code, list(values) + [top - i for i in range(BEHIND)])


def load():
    """The library, built where it is older than the crates."""
    os.chdir(TOP)
    build_library()
    subprocess.run(['cc', '-shared', '-o', SHARED, '-Wl,--whole-archive', LIBRARY, '-Wl,--no-whole-archive'], check=True)
    return ctypes.CDLL(SHARED)


class Library:
    def __init__(self):
        self.loaded = load()

    def call(self, function, values):
        """What the function answers; a value is a number, or a span, whose words the function may write."""
        words = []
        for parameter, value in zip(PARAMETERS[function], values):
            if parameter.code is None:
                words.append(parameter.number(value))
            else:
                words += [ctypes.c_void_p(value.words.buffer_info()[0]), ctypes.c_size_t(value.length)]
        called = getattr(self.loaded, 'wagonepoch_' + function)
        called.restype = ctypes.c_uint16
        return called(*words)
