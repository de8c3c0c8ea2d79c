"""Places, the store map, joined pairs after each elimination, marks, mark bytes and counts.

Written from the section 'Store and elimination' of document 01. A pair is
(p, q) with p < q, both new numbers. A.6: "store and elimination are then measured
in unknowns", so these are numbers of unknowns.
"""

from measures import first, profile


def places(adjoins):
    """Place of each pair that has one."""
    # "s_q is the sum of r - f_r over r < q. Pair p < q with p >= f_q has
    # place s_q + p - f_q, counted from 0; other pairs have none."
    place_of = {}
    s = 0
    for q in range(1, len(adjoins) + 1):
        f = first(adjoins, q)
        for p in range(f, q):
            place_of[(p, q)] = s + p - f
        s += q - f
    return place_of


def store_map(adjoins):
    """f_q and s_q of each row, and behind the last s the count of places."""
    # "f_q is the least of q and its neighbours." "s_q is the sum of r - f_r over r < q."
    numbers = range(1, len(adjoins) + 1)
    firsts = [first(adjoins, q) for q in numbers]
    begins = [0]
    for q in numbers:
        begins.append(begins[-1] + q - firsts[q - 1])
    return firsts, begins


def edges_joined(adjoins):
    # "At first the edges are joined." A.6: any two unknowns that adjoin, those of
    # one node too, "are joined from the start".
    return {(p, q) for q in adjoins for p in adjoins[q] if p < q}


def eliminate(joined, i, n):
    """Add to joined what eliminating i joins."""
    # "Eliminating i = 1, 2, .. n joins each pair of numbers above i that
    # are both joined to i; a joined pair stays joined."
    above = [j for j in range(i + 1, n + 1) if (i, j) in joined]
    for q in above:
        for p in above:
            if p < q:
                joined.add((p, q))


def joined_after(adjoins, i):
    """Pairs joined after the eliminations of 1 to i; with i = 0 the edges."""
    joined = edges_joined(adjoins)
    for e in range(1, i + 1):
        eliminate(joined, e, len(adjoins))
    return joined


def marks(adjoins, joined):
    """Mark of each place, as a list by place."""
    # "Each place has a mark, 1 exactly if its pair is joined after the
    # last elimination, else 0." "The store has as many places as the profile."
    place_of = places(adjoins)
    marked = [0] * profile(adjoins)
    for pair in place_of:
        marked[place_of[pair]] = 1 if pair in joined else 0
    return marked


def byte_count(places_in_store):
    # "the mark bytes, profile / 8 rounded up"
    return (places_in_store + 7) // 8


def mark_bytes(marked):
    # "place t is bit t mod 8 (bit 0 lowest) of byte t div 8. Spare bits of
    # the last byte are 0."
    bytes_out = [0] * byte_count(len(marked))
    for t in range(len(marked)):
        bytes_out[t // 8] += marked[t] * 2 ** (t % 8)
    return bytes_out


def elimination(adjoins):
    """Mark bytes, the marks that are 1, and the newly joined pairs."""
    at_first = edges_joined(adjoins)
    at_end = joined_after(adjoins, len(adjoins))
    marked = marks(adjoins, at_end)
    # "The marks that are 1 are counted, and so are the newly joined pairs,
    # those not joined at first."
    return mark_bytes(marked), sum(marked), len(at_end - at_first)
