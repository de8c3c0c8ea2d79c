"""Any set of nodes that all adjoin, as records of the ten kinds: exactly its pairs."""

from itertools import combinations

import cover
import grd


def pairs(nodes):
    return {frozenset(pair) for pair in combinations(nodes, 2)}


def cases(c):
    wrong = []
    for count in range(2, 131):
        nodes = list(range(3, 3 * count + 3, 3))
        records = cover.records(nodes)
        exact = set().union(*(pairs(block) for _, block in records)) == pairs(nodes)
        if not exact or any(len(set(block)) != grd.KINDS[kind][1] or len(block) != len(set(block)) for kind, block in records):
            wrong.append(count)
    c.equal('cover: every pair of 2 to 130 nodes, and no other', wrong, [])
    # 9: two records leave a pair out, so three are the fewest; the same holds for 7 to 15; 20 and 27 as covering designs have them or near
    for count, records in ((3, 1), (7, 3), (9, 3), (13, 3), (14, 3), (15, 3), (18, 6), (20, 6), (27, 12), (64, 78)):
        c.equal('cover: records for %d nodes' % count, len(cover.records(range(count))), records)
