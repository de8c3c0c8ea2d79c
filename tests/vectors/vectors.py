"""What the scripts of vectors share: the pattern in lent buffers, their end contents as text, random draws, and the two committed files.

The crate `vectors` writes buffers in the same form.
"""

import argparse
import random
import subprocess

MOST_SHOWN = 120
MODULUS = 4294967291
PATTERN = [60000 + i % 5000 for i in range(40000)]
BYTE_PATTERN = [100 + i % 100 for i in range(40000)]
PLACE_PATTERN = [4000000000 + i % 5000 for i in range(40000)]


# Lent buffers.

def pattern(count):
    """Words as a buffer of this length has them before a call; no list of a mesh has a word above 32,768."""
    return PATTERN[:count]


def byte_pattern(count):
    return BYTE_PATTERN[:count]


def place_pattern(count):
    """Entries of 32 bits; no store has so many places."""
    return PLACE_PATTERN[:count]


def changed(buffer, was=PATTERN):
    """Words, or entries, up to the last one that isn't as it was lent."""
    size, step = len(buffer), 1024
    while size >= step and buffer[size - step:size] == was[size - step:size]:
        size -= step
    while size > 0 and buffer[size - 1] == was[size - 1]:
        size -= 1
    return buffer[:size]


def checksum(words):
    total = 1
    for word in words:
        total = (31 * total + word) % MODULUS
    return total


def shown(words):
    """Count of the words, then the words, or a checksum of many."""
    if len(words) > MOST_SHOWN:
        return '; %d sum %d' % (len(words), checksum(words))
    return '; ' + ' '.join(str(word) for word in [len(words)] + words)


def answer_text(answer):
    """'refused' and the number, or 'accepted' and the figures."""
    words = []
    for part in answer:
        words += answer_text(part).split() if isinstance(part, tuple) else [str(part)]
    return ' '.join(words)


# Numbers of the input.

def number(value):
    """Four bytes, low byte first."""
    return value.to_bytes(4, 'little')


def wide_number(value):
    """Eight bytes, low byte first."""
    return value.to_bytes(8, 'little')


def of_words(words):
    """Two bytes a word, low byte first."""
    return b''.join(word.to_bytes(2, 'little') for word in words)


class Draw:
    """Random draws by random() alone, which stays the same from one Python to the next."""

    def __init__(self, seed):
        self.source = random.Random(seed)

    def below(self, count):
        return int(self.source.random() * count)

    def chance(self, part):
        return self.source.random() < part

    def one(self, values):
        return values[self.below(len(values))]

    def some(self, values, count):
        """This many of the values, in random order."""
        values = list(values)
        for i in range(count):
            j = i + self.below(len(values) - i)
            values[i], values[j] = values[j], values[i]
        return values[:count]


# The built program.

def differences(program, made, encoded, expected):
    """Run the program on all that was made and compare its lines; how many differ. The first five are printed."""
    done = subprocess.run([program], input=b''.join(encoded(one) for one in made), stdout=subprocess.PIPE, check=True)
    lines = done.stdout.decode('ascii').split('\n')[:-1]
    differ = abs(len(lines) - len(made))
    for one, line in zip(made, lines):
        wanted = expected(one)
        if line != wanted:
            differ += 1
            if differ <= 5:
                print('%.400s\n  wrote  %.200s\n  wanted %.200s' % (str(one), line, wanted))
    print('%d run, %d differ' % (len(made), differ))
    return differ


# The two committed files.

def tally(title, names):
    """One line: how many of each name."""
    counts = {}
    for name in names:
        counts[name] = counts.get(name, 0) + 1
    print('%s: %s' % (title, ', '.join('%s %d' % item for item in counts.items())))


def keep(files, check):
    """Write the files, or say whether they stand so; the exit status."""
    status = 0
    for path, content in files:
        if check:
            with open(path, 'rb') as f:
                if f.read() != content:
                    print('%s is not what this script makes' % path)
                    status = 1
        else:
            with open(path, 'wb') as f:
                f.write(content)
    return status


def options(text):
    """What the words of the command ask; text is the script's own description."""
    parser = argparse.ArgumentParser(description=text.split('\n')[0])
    parser.add_argument('--check', action='store_true')
    parser.add_argument('--show', type=int)
    parser.add_argument('--run', type=int)
    parser.add_argument('--seed', type=int, default=1)
    return parser.parse_args()
