"""A numbering from another mesh tool, as pairs of an old and a new number. From A.5 of document 02."""


def pairs_of(words):
    """The pairs of a list with an even number of words."""
    # "pairs, old number then new"
    return [(words[t], words[t + 1]) for t in range(0, len(words), 2)]


def wrong_pairs(n, words):
    # 13: "an odd number of words or an old number given twice or outside 1 to n"
    if len(words) % 2 == 1:
        return True
    olds = [old for old, _ in pairs_of(words)]
    return any(old < 1 or old > n for old in olds) or len(set(olds)) < len(olds)


def full_numbering(n, words):
    """The new number of each node, by old number; it may be none."""
    # "Nodes not in the list keep their own number."
    number_of = {p: p for p in range(1, n + 1)}
    number_of.update(pairs_of(words))
    return [number_of[p] for p in range(1, n + 1)]
