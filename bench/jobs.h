// The jobs of the C interface once more, in C++ and made for speed. include/wagonepoch.h says what each call is given and lent and what it answers;
// the arguments here are the same, and so are the rules: the tests in their order, the lent words as the only memory, scratch words 0 at the end; the
// import has 4,096 words of its own besides, as the proved one has.
// Where every node has one unknown, the way of one unknown is taken.
// The bare stages do the same work without the tests and without clearing, and take what memory they like.
#ifndef JOBS_H
#define JOBS_H

#include <cstddef>
#include <cstdint>
#include <cstring>

typedef uint8_t u8;
typedef uint16_t u16;
typedef uint32_t u32;
typedef uint64_t u64;

enum { MAX_NODES = 4096, MAX_ENTRIES = 32768, MAX_UNKNOWNS = 6 };

// The pairs of one node's own unknowns.
constexpr u32 own_pairs(u32 count) { return count * (count - 1) / 2; }

inline void clear(u16 *words, size_t count) { memset(words, 0, count * sizeof(u16)); }

#define DECLARE_JOBS(build)                                                                                                                \
  namespace build {                                                                                                                        \
  u16 test_adjacency(const u16 *starts, size_t starts_len, const u16 *neighbours, size_t neighbours_len);                                  \
  u16 rooted_levels(const u16 *starts, size_t starts_len, const u16 *neighbours, size_t neighbours_len, u16 root, u16 *levels,             \
                    size_t levels_len, u16 *sizes, size_t sizes_len, u64 *figures, size_t figures_len);                                    \
  u16 measures(const u16 *starts, size_t starts_len, const u16 *neighbours, size_t neighbours_len, const u16 *counts,                      \
               size_t counts_len, const u16 *numbering, size_t numbering_len, u16 *scratch, size_t scratch_len, u64 *figures,              \
               size_t figures_len);                                                                                                        \
  u16 run(const u16 *starts, size_t starts_len, const u16 *neighbours, size_t neighbours_len, const u16 *counts, size_t counts_len,        \
          u16 *numbers, size_t numbers_len, u16 *levels, size_t levels_len, u16 *passes, size_t passes_len, u16 *scratch,                  \
          size_t scratch_len, u64 *figures, size_t figures_len);                                                                           \
  u16 reverse_cuthill_mckee(const u16 *starts, size_t starts_len, const u16 *neighbours, size_t neighbours_len, const u16 *counts,         \
                            size_t counts_len, u16 *numbers, size_t numbers_len, u16 *levels, size_t levels_len, u16 *passes,              \
                            size_t passes_len, u16 *scratch, size_t scratch_len, u64 *figures, size_t figures_len);                        \
  u16 import_numbering(const u16 *starts, size_t starts_len, const u16 *neighbours, size_t neighbours_len, const u16 *counts,              \
                       size_t counts_len, const u16 *pairs, size_t pairs_len, u64 bandwidth, u64 profile, u64 front, u16 *numbers,         \
                       size_t numbers_len, u16 *scratch, size_t scratch_len);                                                              \
  u16 eliminate(const u16 *starts, size_t starts_len, const u16 *neighbours, size_t neighbours_len, const u16 *counts,                     \
                size_t counts_len, const u16 *numbering, size_t numbering_len, u16 *scratch, size_t scratch_len, u8 *bytes,                \
                size_t bytes_len, u64 *figures, size_t figures_len);                                                                       \
  u16 store_map(const u16 *starts, size_t starts_len, const u16 *neighbours, size_t neighbours_len, const u16 *counts,                     \
                size_t counts_len, const u16 *numbering, size_t numbering_len, u16 *scratch, size_t scratch_len, u16 *first,               \
                size_t first_len, u32 *place, size_t place_len, u64 *figures, size_t figures_len);                                         \
  u16 mesh(size_t n, const u16 *elements, size_t elements_len, u16 *starts, size_t starts_len, u16 *neighbours, size_t neighbours_len,     \
           u16 *scratch, size_t scratch_len, u64 *figures, size_t figures_len);                                                            \
  u32 most_unknowns(const u16 *counts, size_t length, u32 n);                                                                              \
  bool bare_test(const u16 *starts, const u16 *neighbours, u32 n);                                                                         \
  void bare_rooted(const u16 *starts, const u16 *neighbours, u32 n, u32 root, u16 *levels, u16 *sizes, u64 *figures);                      \
  void bare_measures(const u16 *starts, const u16 *neighbours, const u16 *counts, u32 n, const u16 *numbering, u16 *scratch,               \
                     u64 *figures);                                                                                                        \
  void bare_run(const u16 *starts, const u16 *neighbours, const u16 *counts, u32 n, u16 *numbers, u16 *levels, u16 *passes, u16 *scratch,  \
                u64 *figures);                                                                                                             \
  void bare_reverse_cuthill_mckee(const u16 *starts, const u16 *neighbours, const u16 *counts, u32 n, u16 *numbers, u16 *levels,           \
                                  u16 *passes, u16 *scratch, u64 *figures);                                                                \
  bool bare_import(const u16 *starts, const u16 *neighbours, const u16 *counts, u32 n, const u16 *pairs, size_t pairs_len,                 \
                   const u64 *figures, u16 *numbers);                                                                                      \
  void bare_eliminate(const u16 *starts, const u16 *neighbours, const u16 *counts, u32 n, const u16 *numbering, u16 *scratch, u8 *bytes,   \
                      size_t bytes_len, u64 *figures);                                                                                     \
  void bare_store_map(const u16 *starts, const u16 *neighbours, const u16 *counts, u32 n, const u16 *numbering, u16 *scratch,              \
                      u16 *first, u32 *place, u64 *figures);                                                                               \
  void bare_mesh(u32 n, const u16 *elements, size_t elements_len, u16 *starts, u16 *neighbours, u64 *figures);                             \
  }

// Compiled for any x86-64, as the proved library is, and for the processor at hand.
DECLARE_JOBS(any_processor)
DECLARE_JOBS(this_processor)

#endif
