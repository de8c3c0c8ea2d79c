"""The program: a GRD file on standard input, the output text on standard output."""

import sys

from calls import listing, scratch_words
from graph import MOST_ENTRIES, MOST_NODES
from listing import MOST_FILE_WORDS, most_output_bytes, refusal_line

# One byte more than the longest file, so that a longer one is seen.
MOST_BYTES_READ = 65536


def text_for(file):
    """Output bytes for the bytes of a file."""
    # The program lends enough for any n, so it never answers 5.
    n = MOST_NODES
    output = [0] * most_output_bytes(n)
    numbers, levels, passes, counts = [0] * n, [0] * n, [0] * n, [0] * n
    state, value = listing(list(file[:MOST_BYTES_READ]), [0] * MOST_FILE_WORDS, [0] * (n + 1), [0] * MOST_ENTRIES,
                           [0] * scratch_words(n), numbers, levels, passes, counts, output)
    count = value[0] if state == 'accepted' else len(refusal_line(value))
    return bytes(output[:count])


if __name__ == '__main__':
    sys.stdout.buffer.write(text_for(sys.stdin.buffer.read(MOST_BYTES_READ)))
