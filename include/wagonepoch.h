/* Wagonepoch: Gibbs-Poole-Stockmeyer renumbering, from mesh to store. The C interface of the proved libraries.

   `tools/capi.py` writes target/staticlib/libcapi.a, for x86-64. It needs no library but C's, allocates nothing, keeps nothing between calls
   and writes only to what is lent, so calls on different buffers may run at the same time.

   LISTS. A list is a pointer and its length in its elements: uint16_t words, uint32_t row starts, uint64_t figures, uint8_t bytes. Nodes are
   numbered from 1. n, the number of nodes, is the length of `starts` less 1, but for wagonepoch_mesh, which is given n.

   WHAT A CALLER OWES. Each pointer is aligned and not null, also that of an empty list, and has as many elements as its length says; and no
   list that is lent, here without `const`, overlaps another list of the same call. Nothing else is asked: whatever numbers the lists hold, a
   call ends and answers as said here. That is proved; the contracts are in crates/capi/src.

   GRAPHS. `starts` has n + 1 words, the first 0, and `neighbours` as many as the last start says: the neighbours of node p are the words
   neighbours[starts[p - 1]] to neighbours[starts[p] - 1]. They rise, never hold p, and hold q exactly if the row of q holds p.

   UNKNOWNS. A node has one to six unknowns, a hinge node three and a shell node six, and the store is laid out in unknowns. `counts` has exactly
   n words: how many unknowns each node has, by node. A caller with one unknown a node hands n ones, and gets what these calls gave before
   version 1.6.0. The unknowns take consecutive numbers in the order of the new numbers of their nodes. Any two of one node adjoin, and any two of
   two nodes that adjoin. There are at most 24,576. The seven calls that number, import a numbering, measure, map the store, eliminate or report a
   part take the counts.
     in unknowns   bandwidth, profile and front; the width of wagonepoch_run, wagonepoch_reverse_cuthill_mckee and wagonepoch_part_report; the
                   rows and places of the store, marks and joined pairs, and so the length of the mark bytes
     in nodes      new numbers, parts, levels and passes; sizes and widths of wagonepoch_rooted_levels, wagonepoch_ends and
                   wagonepoch_combined_levels; n, and so the length of every other list: also that of the two lists of
                   wagonepoch_store_map, which are as long as six unknowns a node would need

   ANSWERS. 0, or the number of the first test that refuses. Tests run in this order, 15 between 5 and 6, 13 and 14 about 7:

     1   n is 0 or over 4,096, or `starts` is empty
     2   the first start is not 0, starts fall, or the last start is not the length of `neighbours` or is over 32,768
     3   a row leaves 1..n, holds its own node or does not rise
     4   a row's entry lacks its partner
     5   a lent list is short, `figures` too, the mark bytes excepted
     15  a count is not 1 to 6, or `counts` has not n words
     6   the node given is 0 or above n
     13  the pairs given are an odd number of words, or have an old number that is 0, above n or given twice
     7   the numbering given is not n words, each of 1..n once; of pairs, the full numbering
     14  a bandwidth, profile or front given is not that of the numbering
     8   the mark bytes are short
     9   unknown element kind, or a record runs past the end
     10  an element's node is 0 or above n
     11  over 32,768 neighbour entries result

   12, a broken file, is the refusal of the program ./renumber alone: no call here is given a file. examples/c/grd.c reads one. A file of version 2
   has the n counts behind its element count, and then its elements; of version 1 it has no counts, and each node has one unknown.

   WHAT IS LEFT. Where a call answers 0 its figures stand in the front of `figures`, its results in the front of their lists, and the scratch
   words that it asks for are 0. A longer list keeps its excess. A refusal leaves every lent list as it was, but for the first n scratch words,
   which are 0 after 7, 8, 11 and 14. Lent lists need not be cleared.

   ONE CALL AFTER ANOTHER. wagonepoch_mesh makes the two lists, wagonepoch_run or wagonepoch_reverse_cuthill_mckee the numbers of their nodes, or
   wagonepoch_import_numbering takes them from another tool; wagonepoch_store_map makes the places of the store by both, and wagonepoch_eliminate
   its marks. That these go together holds as long as all but the first are handed the same counts, and nobody writes the two lists or the numbers
   between the calls. */

#ifndef WAGONEPOCH_H
#define WAGONEPOCH_H

#include <stddef.h>
#include <stdint.h>

#ifdef __cplusplus
extern "C" {
#endif

/* The version, that of the file VERSION, as a text and as 10000 a + 100 b + c for a.b.c; CHANGES.md says what each of the three numbers means. */
#define WAGONEPOCH_VERSION "1.8.3"
#define WAGONEPOCH_VERSION_NUMBER 10803

/* The most nodes, neighbour entries and unknowns of a node. */
#define WAGONEPOCH_NODES 4096
#define WAGONEPOCH_ENTRIES 32768
#define WAGONEPOCH_UNKNOWNS 6

/* How many figures each call writes. */
#define WAGONEPOCH_ROOTED_FIGURES 3
#define WAGONEPOCH_ENDS_FIGURES 6
#define WAGONEPOCH_COMBINED_FIGURES 2
#define WAGONEPOCH_MEASURES_FIGURES 3
#define WAGONEPOCH_PART_REPORT_FIGURES 6
#define WAGONEPOCH_RUN_FIGURES 7
#define WAGONEPOCH_REVERSE_CUTHILL_MCKEE_FIGURES 7
#define WAGONEPOCH_ELIMINATE_FIGURES 2
#define WAGONEPOCH_STORE_MAP_FIGURES 2
#define WAGONEPOCH_MESH_FIGURES 1

/* The direction of a part report. */
#define WAGONEPOCH_FORWARD 0
#define WAGONEPOCH_REVERSED 1

/* Adjacency test: whether the two lists are a legal graph.
   Refusals: 1 to 4. */
uint16_t wagonepoch_test_adjacency(const uint16_t *starts, size_t starts_len,
                                   const uint16_t *neighbours, size_t neighbours_len);

/* Rooted levels: the root has level 1, its neighbours 2, and so on; nodes outside the root's part get 0.
   Lent: levels n (by node), sizes n (by level: word i - 1 is the count of nodes in level i, 0 after the depth), figures 3.
   Figures: depth, width (the greatest of the sizes), nodes reached (their sum).
   Refusals: 1 to 6. */
uint16_t wagonepoch_rooted_levels(const uint16_t *starts, size_t starts_len,
                                  const uint16_t *neighbours, size_t neighbours_len,
                                  uint16_t root,
                                  uint16_t *levels, size_t levels_len,
                                  uint16_t *sizes, size_t sizes_len,
                                  uint64_t *figures, size_t figures_len);

/* Ends of the part that holds `node`, any node of it.
   Lent: scratch 6n, figures 6.
   Figures: v, u, k (the depth from v), the width of the levels rooted at v, that at u, both in nodes, passes.
   Refusals: 1 to 6. */
uint16_t wagonepoch_ends(const uint16_t *starts, size_t starts_len,
                         const uint16_t *neighbours, size_t neighbours_len,
                         uint16_t node,
                         uint16_t *scratch, size_t scratch_len,
                         uint64_t *figures, size_t figures_len);

/* Combined levels of the part that holds `node`, before any change of the names of its ends; nodes of other parts get 0.
   Lent: levels n (by node), scratch 6n, figures 2.
   Figures: k, the greatest count of nodes in a level.
   Refusals: 1 to 6. */
uint16_t wagonepoch_combined_levels(const uint16_t *starts, size_t starts_len,
                                    const uint16_t *neighbours, size_t neighbours_len,
                                    uint16_t node,
                                    uint16_t *levels, size_t levels_len,
                                    uint16_t *scratch, size_t scratch_len,
                                    uint64_t *figures, size_t figures_len);

/* Measures under a numbering: `numbering` has the new number of each node.
   Lent: scratch n, figures 3.
   Figures: bandwidth (without the diagonal), profile, front, in unknowns. Of a lone node of c unknowns they are c - 1, c (c - 1) / 2 and c.
   Refusals: 1 to 5, 15, and 7, which leaves the first n scratch words 0. */
uint16_t wagonepoch_measures(const uint16_t *starts, size_t starts_len,
                             const uint16_t *neighbours, size_t neighbours_len,
                             const uint16_t *counts, size_t counts_len,
                             const uint16_t *numbering, size_t numbering_len,
                             uint16_t *scratch, size_t scratch_len,
                             uint64_t *figures, size_t figures_len);

/* Report of the part that holds `node`, any node of it: how the whole run numbers it.
   Lent: scratch 6n, figures 6.
   Figures: v and u, which change names where u has the lower degree, so that the numbering starts at v; k, the count of the part's levels; the
   greatest count of unknowns in a level; passes; direction, WAGONEPOCH_REVERSED where the part's numbers are turned end for end, which they are
   exactly if that makes its profile, in unknowns, less, else WAGONEPOCH_FORWARD. Of these the counts touch width and direction alone.
   Refusals: 1 to 5, 15, 6. */
uint16_t wagonepoch_part_report(const uint16_t *starts, size_t starts_len,
                                const uint16_t *neighbours, size_t neighbours_len,
                                const uint16_t *counts, size_t counts_len,
                                uint16_t node,
                                uint16_t *scratch, size_t scratch_len,
                                uint64_t *figures, size_t figures_len);

/* The whole run: every part renumbered.
   Lent: numbers n (the new number of each node), levels n (the combined level of each node), passes n (by part: word j - 1 is the count of the
   passes that the search for the ends of part j took, 0 after the last part), scratch 6n, figures 7.
   Parts come in order of their lowest nodes, in the numbers too: those of part 1 are 1 to its size, and so on. Of a part's numbers the counts
   touch only whether they are turned end for end, and its levels and passes not at all.
   Figures: nodes, parts, bandwidth, profile, front, levels, width. Levels is the sum over the parts, width w the greatest count of unknowns in a
   level; bandwidth, profile and front are in unknowns too, and the bandwidth is at most 2w - 1. A part has at least 1 pass and at most as many as
   it has levels.
   The n numbers, without the excess of a longer list, are a numbering for wagonepoch_measures, which with the same counts finds the same
   bandwidth, profile and front, for wagonepoch_store_map, and for wagonepoch_eliminate, whose mark bytes the profile gives.
   Refusals: 1 to 5, 15. */
uint16_t wagonepoch_run(const uint16_t *starts, size_t starts_len,
                        const uint16_t *neighbours, size_t neighbours_len,
                        const uint16_t *counts, size_t counts_len,
                        uint16_t *numbers, size_t numbers_len,
                        uint16_t *levels, size_t levels_len,
                        uint16_t *passes, size_t passes_len,
                        uint16_t *scratch, size_t scratch_len,
                        uint64_t *figures, size_t figures_len);

/* Reverse Cuthill-McKee: every part in that order, for a solver that expects it. A part starts at the v of wagonepoch_ends. The neighbours of v
   come next, then those of each of them in turn, and so on, every time the ones that have not come yet, by degree and then by node number. So
   they come level by level of the levels rooted at v. Then every part is turned end for end: v has the highest number of its part.
   Lent: as for wagonepoch_run: numbers n, levels n (the level of each node, rooted at the v of its part; levels are not turned, v has 1),
   passes n, scratch 6n, figures 7.
   Figures: as of wagonepoch_run: nodes, parts, bandwidth, profile, front, levels, width, of these numbers and of these levels, in the same units.
   In a part with two or more nodes the bandwidth is at least the greatest count w of unknowns in one of its levels, and at most 2w - 1. The
   counts touch the figures alone, not the numbers.
   The n numbers are a numbering for wagonepoch_measures, wagonepoch_store_map and wagonepoch_eliminate, as those of the run are.
   Refusals: 1 to 5, 15. */
uint16_t wagonepoch_reverse_cuthill_mckee(const uint16_t *starts, size_t starts_len,
                                          const uint16_t *neighbours, size_t neighbours_len,
                                          const uint16_t *counts, size_t counts_len,
                                          uint16_t *numbers, size_t numbers_len,
                                          uint16_t *levels, size_t levels_len,
                                          uint16_t *passes, size_t passes_len,
                                          uint16_t *scratch, size_t scratch_len,
                                          uint64_t *figures, size_t figures_len);

/* A numbering that another mesh tool made, as pairs of words: old number, new number, old number, new number, and so on, in any order, as NASTRAN's
   SEQGP cards have them. A node that is in no pair keeps its own number; a node may be listed with its own number, and the list may be empty. The
   tool's bandwidth, profile and front come with it, in unknowns; they are compared whole with what wagonepoch_measures finds of the full numbering.
   Lent: numbers n (the full numbering: the new number of each node), scratch n. There are no figures: they are the caller's own.
   Accepted exactly if the pairs give a numbering, have no old number twice, and the three figures are those of wagonepoch_measures. What
   wagonepoch_run or wagonepoch_reverse_cuthill_mckee made is accepted, its n numbers as pairs in any order, with or without the nodes that keep
   their number, with its third, fourth and fifth figure, on the same two lists and counts; and so is every numbering with its own measures.
   The n numbers are a numbering for wagonepoch_store_map and wagonepoch_eliminate, whose mark bytes the profile gives. The call has 8 KB of its own
   on the stack.
   Refusals: 1 to 5, 15, 13, which leave both lists as they were, then 7 and 14, which leave the numbers as they were and the first n scratch words
   0. A new number that is 0, above n or taken twice, also by a node that keeps it, is 7. */
uint16_t wagonepoch_import_numbering(const uint16_t *starts, size_t starts_len,
                                     const uint16_t *neighbours, size_t neighbours_len,
                                     const uint16_t *counts, size_t counts_len,
                                     const uint16_t *pairs, size_t pairs_len,
                                     uint64_t bandwidth, uint64_t profile, uint64_t front,
                                     uint16_t *numbers, size_t numbers_len,
                                     uint16_t *scratch, size_t scratch_len);

/* Elimination under a numbering of the nodes, as for the measures: which places of the store are ever used.
   Here p, q and r are unknowns by their numbers. With f_q the least of q and the unknowns that adjoin q, the pair p < q with p >= f_q has place
   s_q + p - f_q, counted from 0, where s_q is the sum of r - f_r over r < q. Place t is bit t % 8, bit 0 the lowest, of byte t / 8: 1 if the pair
   is joined in the end, at first or by an elimination. The pairs of one node's own unknowns are joined at first, as those of two nodes that adjoin
   are: they have places and marks, and are never newly joined. Spare bits of the last byte used are 0.
   Lent: scratch n, bytes (profile + 7) / 8, at most 37,747,200, figures 2.
   Figures: marks that are 1, newly joined pairs, both of unknowns.
   After a run, or after wagonepoch_reverse_cuthill_mckee, on the same two lists and counts and with its n numbers as it left them, only a short
   list is refused: 5, or 8 where the bytes are fewer than its profile asks for. The profile is its fourth figure, and the scratch may be the same.
   The numbers are read and not written, so after 8 all that it gave still stands, and this call can be made again with bytes enough.
   Marks that are 1 are at most the profile, and the profile less these marks are idle places. With one unknown a node none is idle where every
   number but 1 has a neighbour with a lower number: then the marks are the profile, and the bytes are full. Of one part, n + 1 less each number of
   wagonepoch_reverse_cuthill_mckee is such a numbering; docs/MEMORY.md says what it costs.
   Refusals: 1 to 5, 15, and 7 and 8, which leave the first n scratch words 0. */
uint16_t wagonepoch_eliminate(const uint16_t *starts, size_t starts_len,
                              const uint16_t *neighbours, size_t neighbours_len,
                              const uint16_t *counts, size_t counts_len,
                              const uint16_t *numbering, size_t numbering_len,
                              uint16_t *scratch, size_t scratch_len,
                              uint8_t *bytes, size_t bytes_len,
                              uint64_t *figures, size_t figures_len);

/* The store map under a numbering of the nodes, as for the measures: of each row of the store its first column and where it starts, so that no
   caller has to add them up. A row is an unknown: row q is unknown q, with f_q and s_q as for wagonepoch_eliminate, and there are as many as the
   counts add up to. The unknowns of a node are the rows after those of all nodes with lower numbers, as many as its count says.
   Lent: scratch n, first 6n (word q - 1 is f_q), place 6n + 1 (entry q - 1 is s_q, and the entry after the last row the profile), figures 2.
   The lists are so long whatever the counts; only one word a row, and one entry more, are written, and the others stay as they were.
   Figures: profile, rows (the number of unknowns).
   The place of the pair p < q, counted from 0, where it has one:
     if (p < q && p >= first[q - 1])
         t = place[q - 1] + (p - first[q - 1]);
   With the same two lists, counts and numbering wagonepoch_eliminate leaves the mark of that pair at place t, bit t % 8 of byte t / 8. place[rows]
   is the length of the store, and row q has place[q] - place[q - 1] places.
   Refusals: 1 to 5, 15, and 7, which leaves the first n scratch words 0. */
uint16_t wagonepoch_store_map(const uint16_t *starts, size_t starts_len,
                              const uint16_t *neighbours, size_t neighbours_len,
                              const uint16_t *counts, size_t counts_len,
                              const uint16_t *numbering, size_t numbering_len,
                              uint16_t *scratch, size_t scratch_len,
                              uint16_t *first, size_t first_len,
                              uint32_t *place, size_t place_len,
                              uint64_t *figures, size_t figures_len);

/* The graph of a mesh of n nodes. `elements` has a record for each element, its kind and then its nodes, to the end of the list:
     kind         1    2         3              4            5        6      7      8                9                     10
     nodes        2    3         4              4            5        6      8      6                8                     10
                  bar  triangle  quadrilateral  tetrahedron  pyramid  wedge  brick  6-node triangle  8-node quadrilateral  10-node tetrahedron
   All nodes of an element adjoin one another. One that repeats counts once, and an element with one distinct node joins nothing.
   Lent: starts n + 1, neighbours 32,768 whatever the mesh needs, scratch n, figures 1.
   Figures: neighbour entries, both directions. So many words of `neighbours` are written, and the length of that list for the calls above is
   this figure.
   Refusals: 1, 5, then 9 and 10 element by element, then 11, which leaves the first n scratch words 0. */
uint16_t wagonepoch_mesh(size_t n,
                         const uint16_t *elements, size_t elements_len,
                         uint16_t *starts, size_t starts_len,
                         uint16_t *neighbours, size_t neighbours_len,
                         uint16_t *scratch, size_t scratch_len,
                         uint64_t *figures, size_t figures_len);

#ifdef __cplusplus
}
#endif

#endif
