"""Rooted levels, from the section 'Rooted levels' of document 01, and A.2 of document 02."""


def rooted_levels(rows, root):
    """Level of each node of the root's part; other nodes are left out."""
    # "Level 1 is the root; level i + 1 holds the nodes not yet placed
    # that adjoin level i."
    level_of = {root: 1}
    level = [root]
    i = 1
    while level:
        i = i + 1
        following = []
        for p in level:
            for q in rows[p]:
                if q not in level_of:
                    level_of[q] = i
                    following.append(q)
        level = following
    return level_of


def depth(level_of):
    # "Depth is the number of levels"
    return max(level_of.values())


def level_counts(level_of, k):
    """Count of nodes in each level 1 to k."""
    counts = {i: 0 for i in range(1, k + 1)}
    for z in level_of:
        counts[level_of[z]] += 1
    return counts


def size_list(level_of, n):
    """n words: the size of level i in word i - 1."""
    # A.2: "a lent list of n words with the size of each level in order, zeros
    # after the depth"
    k = depth(level_of)
    counts = level_counts(level_of, k)
    return [counts[i] for i in range(1, k + 1)] + [0] * (n - k)


def width(level_of):
    # "width the greatest count in a level"
    return max(level_counts(level_of, depth(level_of)).values())


def last_level(level_of):
    k = depth(level_of)
    return [z for z in level_of if level_of[z] == k]


def by_old_number(level_of, n):
    """Levels as a list by old number."""
    # "Nodes outside the root's part get 0."
    return [level_of.get(p, 0) for p in range(1, n + 1)]
