"""The GRD file and the output text, from 'Mesh and file' and the program's part of document 01, and A.6 and A.9 of document 02."""

from graph import wrong_node_count
from mesh import NODE_COUNT, wrong_nodes
from unknowns import ones, wrong_counts

MOST_FILE_BYTES = 65535
HEADER_BYTES = 9
# Words of the longest file after its header.
MOST_FILE_WORDS = (MOST_FILE_BYTES - HEADER_BYTES) // 2
FIGURE_NAMES = ('nodes', 'parts', 'bandwidth', 'profile', 'front', 'levels', 'width', 'passes')


def word_at(file, at):
    # "each word low byte first"
    return file[at] + 256 * file[at + 1]


# "The file, at most 65,535 bytes: the three letters GRD, version word 1, n,
# element count, then elements ... nothing after."
# A.6: "file version 2 carries that list as n words after the element count"

def wrong_header(file):
    # 12: "wrong mark or version, file too long, under 9 bytes"
    if len(file) > MOST_FILE_BYTES or len(file) < HEADER_BYTES:
        return True
    return list(file[0:3]) != list(b'GRD') or version_of_file(file) not in (1, 2)


def header_refusal(file):
    # "The program tests length, mark and version for 12 first, then 1"
    if wrong_header(file):
        return 12
    if wrong_node_count(nodes_of_file(file)):
        return 1
    return 0


def version_of_file(file):
    return word_at(file, 3)


def nodes_of_file(file):
    return word_at(file, 5)


def element_count(file):
    return word_at(file, 7)


def words_after_header(file):
    """The complete words after the header; a last half word is left out."""
    return [word_at(file, at) for at in range(HEADER_BYTES, len(file) - 1, 2)]


# The counts.

def count_words(file):
    """How many words between header and elements are counts."""
    return nodes_of_file(file) if version_of_file(file) == 2 else 0


def elements_at(file):
    """Where the elements begin."""
    return HEADER_BYTES + 2 * count_words(file)


def words_of_elements(file):
    """The complete words of the elements."""
    return words_after_header(file)[count_words(file):]


def counts_of_file(file):
    # "Version 1 means one unknown each."
    if version_of_file(file) == 1:
        return ones(nodes_of_file(file))
    return words_after_header(file)[:count_words(file)]


def count_refusal(file):
    """Refusal of the counts, or 0; the header has passed."""
    # 15: "tested in the program after 1, where a file ending within the counts is 12
    # first"; reading 14: "even where an earlier count is bad"
    if len(file) < elements_at(file):
        return 12
    return 15 if wrong_counts(nodes_of_file(file), counts_of_file(file)) else 0


# The elements.

def element_refusal(file):
    """Refusal of the elements and of bytes left over or missing, or 0; the counts have passed."""
    at = elements_at(file)
    for _ in range(element_count(file)):
        # A kind word that is missing, whole or half: "bytes ... missing".
        if at + 2 > len(file):
            return 12
        kind = word_at(file, at)
        if kind not in NODE_COUNT:
            return 9
        # "there a record past the file's end is 12"
        end = at + 2 + 2 * NODE_COUNT[kind]
        if end > len(file):
            return 12
        if wrong_nodes(nodes_of_file(file), [word_at(file, t) for t in range(at + 2, end, 2)]):
            return 10
        at = end
    # "bytes left over once all elements pass, before 11"
    return 12 if at < len(file) else 0


# The output.

def most_output_bytes(n):
    """Bytes that hold the output text for any file of n nodes."""
    # The first line: 48 letters, 15 spaces and the line's end, and with 24,576 unknowns of 4,096 nodes the
    # figures have up to 4, 4, 5, 9, 5, 4, 5 and 4 digits. A row: three numbers of up to 4 digits.
    return 104 + 15 * n


def output_text(figures, numbers, levels, passes):
    """The first line and the rows, as bytes."""
    words = []
    # A.9: "The first line of the program's list prints their sum under the old label."
    for name, figure in zip(FIGURE_NAMES, figures + (sum(passes),)):
        words += [name, str(figure)]
    lines = [' '.join(words)]
    # "The rows are old number, new number, level, by old number."
    for p in range(1, len(numbers) + 1):
        lines.append('%d %d %d' % (p, numbers[p - 1], levels[p - 1]))
    return ''.join(line + '\n' for line in lines).encode('ascii')


def refusal_line(number):
    # "A refusal prints one line, as `refused 9`."
    return ('refused %d\n' % number).encode('ascii')
