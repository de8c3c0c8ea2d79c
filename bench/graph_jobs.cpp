// The adjacency test, the rooted levels, the measures, the import and the elimination: see jobs.h. BUILD is the namespace of this compilation.
#include "jobs.h"

#include <algorithm>

namespace BUILD {

// Whether a row that rises holds p: halving without a branch on what is read.
static inline bool holds(const u16 *row, u32 length, u32 p) {
  while (length > 1) {
    u32 half = length / 2;
    row += row[half - 1] < p ? half : 0;
    length -= half;
  }
  return length == 1 && *row == p;
}

// Every entry q < p of row p must have p in row q. That is enough where as many entries are above their row's number as below: each entry
// below has another partner among those above.
u16 test_adjacency(const u16 *starts, size_t starts_len, const u16 *neighbours, size_t length) {
  if (starts_len < 2 || starts_len > MAX_NODES + 1) return 1;
  const u32 n = u32(starts_len - 1);
  if (starts[0] != 0 || starts[n] != length || length > MAX_ENTRIES) return 2;
  bool falls = false;
  for (u32 p = 1; p <= n; p++) falls |= starts[p] < starts[p - 1];
  if (falls) return 2;
  bool bad = false, lacking = false;
  u32 below = 0;
  for (u32 p = 1; p <= n && !bad; p++) {
    const u32 from = starts[p - 1], to = starts[p];
    u32 last = 0, k = from;
    for (; k < to && neighbours[k] < p; k++) {
      const u32 q = neighbours[k];
      bad |= q <= last;
      last = q;
      if (!bad) lacking |= !holds(neighbours + starts[q - 1], starts[q] - starts[q - 1], p);
    }
    below += k - from;
    last = p;  // what follows is above p
    for (; k < to; k++) {
      const u32 q = neighbours[k];
      bad |= q <= last;
      last = q;
    }
    bad |= last > n;
  }
  if (bad) return 3;
  return lacking || 2 * below != length ? 4 : 0;
}

// With a cursor for each row: rows are met in rising order, so each must be the next partner of the row that its entry names.
bool bare_test(const u16 *starts, const u16 *neighbours, u32 n) {
  u16 cursors[MAX_NODES];
  memcpy(cursors, starts, n * sizeof(u16));
  bool good = true;
  for (u32 p = 1; p <= n && good; p++) {
    u32 last = 0;
    for (u32 k = starts[p - 1]; k < starts[p] && good; k++) {
      const u32 q = neighbours[k];
      good = q > last && q <= n && q != p && cursors[q - 1] < starts[q] && neighbours[cursors[q - 1]] == p;
      if (good) cursors[q - 1]++;
      last = q;
    }
  }
  return good;
}

// The neighbours of p that have no level get this one and join the queue; returns its end. It has room for all of the row.
static inline u32 visit(const u16 *starts, const u16 *neighbours, u32 p, u32 level, u16 *__restrict levels, u16 *__restrict queue, u32 tail) {
  for (u32 k = starts[p - 1]; k < starts[p]; k++) {
    const u32 q = neighbours[k], old = levels[q - 1];
    queue[tail] = u16(q);
    tail += old == 0;
    levels[q - 1] = u16(old == 0 ? level : old);
  }
  return tail;
}

// The same with a branch, where the queue may have no room for a node that is not new.
static inline u32 visit_last(const u16 *starts, const u16 *neighbours, u32 p, u32 level, u16 *__restrict levels, u16 *__restrict queue, u32 tail) {
  for (u32 k = starts[p - 1]; k < starts[p]; k++) {
    const u32 q = neighbours[k];
    if (levels[q - 1]) continue;
    levels[q - 1] = u16(level);
    queue[tail++] = u16(q);
  }
  return tail;
}

// The list of sizes is the queue too: level i ends behind word i - 1, which its size takes once its nodes have been visited. The search ends
// where all nodes are found.
void bare_rooted(const u16 *starts, const u16 *neighbours, u32 n, u32 root, u16 *levels, u16 *sizes, u64 *figures) {
  u16 *queue = sizes;
  clear(levels, n);
  levels[root - 1] = 1;
  queue[0] = u16(root);
  u32 depth = 0, width = 0, begin = 0, end = 1, tail = 1;
  while (begin < end) {
    for (u32 head = begin; head < end && tail < n; head++) {
      const u32 p = queue[head];
      const bool room = tail + starts[p] - starts[p - 1] <= n;
      tail = room ? visit(starts, neighbours, p, depth + 2, levels, queue, tail) : visit_last(starts, neighbours, p, depth + 2, levels, queue, tail);
    }
    width = std::max(width, end - begin);
    sizes[depth++] = u16(end - begin);
    begin = end;
    end = tail;
  }
  clear(sizes + depth, n - depth);
  figures[0] = depth;
  figures[1] = width;
  figures[2] = tail;
}

u16 rooted_levels(const u16 *starts, size_t starts_len, const u16 *neighbours, size_t neighbours_len, u16 root, u16 *levels,
                  size_t levels_len, u16 *sizes, size_t sizes_len, u64 *figures, size_t figures_len) {
  if (u16 refusal = test_adjacency(starts, starts_len, neighbours, neighbours_len)) return refusal;
  const u32 n = u32(starts_len - 1);
  if (levels_len < n || sizes_len < n || figures_len < 3) return 5;
  if (root == 0 || root > n) return 6;
  bare_rooted(starts, neighbours, n, root, levels, sizes, figures);
  return 0;
}

// 7: whether the numbering has each of 1..n once. The n scratch words end as 0.
static bool is_numbering(const u16 *numbering, size_t length, u32 n, u16 *scratch) {
  clear(scratch, n);
  if (length != n) return false;
  bool out = false;
  for (u32 i = 0; i < n; i++) {
    const u32 at = numbering[i] - 1u;
    out |= at >= n;
    scratch[at < n ? at : 0] = 1;
  }
  u32 count = 0;
  for (u32 i = 0; i < n; i++) count += scratch[i];
  clear(scratch, n);
  return !out && count == n;
}

// The least of the number of a node and those of its neighbours.
static inline u32 first_of(const u16 *starts, const u16 *neighbours, const u16 *numbering, u32 p) {
  u32 first = numbering[p];
  for (u32 k = starts[p]; k < starts[p + 1]; k++) {
    const u32 q = numbering[neighbours[k] - 1];
    first = q < first ? q : first;
  }
  return first;
}

// 15: the greatest count, or 0 where there are not n counts of 1 to 6.
u32 most_unknowns(const u16 *counts, size_t length, u32 n) {
  if (length != n) return 0;
  u16 most = 0;
  bool out = false;
  for (u32 i = 0; i < n; i++) {
    out |= u16(counts[i] - 1) >= MAX_UNKNOWNS;
    most = std::max(most, counts[i]);
  }
  return out ? 0 : most;
}

struct Measures {
  u32 bandwidth, profile, front;
  void write(u64 *figures) const {
    figures[0] = bandwidth;
    figures[1] = profile;
    figures[2] = front;
  }
};

// One unknown each. The bandwidth is the greatest q - f_q. The front at i is the count of the f_q up to i less the numbers passed.
static Measures measures_in_nodes(const u16 *starts, const u16 *neighbours, u32 n, const u16 *numbering, u16 *scratch) {
  u32 bandwidth = 0, profile = 0, front = 0, live = 0;
  clear(scratch, n);
  for (u32 p = 0; p < n; p++) {
    const u32 first = first_of(starts, neighbours, numbering, p), reach = numbering[p] - first;
    scratch[first - 1]++;
    profile += reach;
    bandwidth = std::max(bandwidth, reach);
  }
  for (u32 i = 0; i < n; i++) {
    live += scratch[i];
    front = std::max(front, live);
    live--;
  }
  return {bandwidth, profile, front};
}

struct Reach {
  u32 bandwidth, profile;
};

// The scratch word of each number becomes the count of the unknowns before its own. Returns how many there are.
static u32 unknowns_before(u32 n, const u16 *numbering, const u16 *counts, u16 *scratch) {
  for (u32 p = 0; p < n; p++) scratch[numbering[p] - 1] = counts[p];
  u32 before = 0;
  for (u32 x = 0; x < n; x++) {
    const u32 count = scratch[x];
    scratch[x] = u16(before);
    before += count;
  }
  return before;
}

// The first unknown of all that a node has is that of the least number around it.
static Reach reach_in_unknowns(const u16 *starts, const u16 *neighbours, u32 n, const u16 *numbering, const u16 *counts, u16 *scratch) {
  unknowns_before(n, numbering, counts, scratch);
  u32 bandwidth = 0, profile = 0;
  for (u32 p = 0; p < n; p++) {
    const u32 first = first_of(starts, neighbours, numbering, p), count = counts[p];
    const u32 reach = u32(scratch[numbering[p] - 1]) - scratch[first - 1];
    profile += count * reach + own_pairs(count);
    bandwidth = std::max(bandwidth, reach + count - 1);
  }
  return {bandwidth, profile};
}

// The front is greatest at the first unknown of a number. From one number to the next it changes by the unknowns that begin to be held less those
// that are passed.
static u32 front_in_unknowns(const u16 *starts, const u16 *neighbours, u32 n, const u16 *numbering, const u16 *counts, u16 *scratch) {
  clear(scratch, n);
  for (u32 p = 0; p < n; p++) {
    const u32 first = first_of(starts, neighbours, numbering, p), next = numbering[p];
    scratch[first - 1] = u16(scratch[first - 1] + counts[p]);
    if (next < n) scratch[next] = u16(scratch[next] - counts[p]);
  }
  int live = 0, front = 0;
  for (u32 x = 0; x < n; x++) {
    live += int16_t(scratch[x]);
    front = std::max(front, live);
  }
  return u32(front);
}

static Measures measures_in_unknowns(const u16 *starts, const u16 *neighbours, u32 n, const u16 *numbering, const u16 *counts, u16 *scratch) {
  const Reach found = reach_in_unknowns(starts, neighbours, n, numbering, counts, scratch);
  return {found.bandwidth, found.profile, front_in_unknowns(starts, neighbours, n, numbering, counts, scratch)};
}

void bare_measures(const u16 *starts, const u16 *neighbours, const u16 *counts, u32 n, const u16 *numbering, u16 *scratch, u64 *figures) {
  const Measures found = most_unknowns(counts, n, n) == 1 ? measures_in_nodes(starts, neighbours, n, numbering, scratch)
                                                          : measures_in_unknowns(starts, neighbours, n, numbering, counts, scratch);
  found.write(figures);
}

u16 measures(const u16 *starts, size_t starts_len, const u16 *neighbours, size_t neighbours_len, const u16 *counts, size_t counts_len,
             const u16 *numbering, size_t numbering_len, u16 *scratch, size_t scratch_len, u64 *figures, size_t figures_len) {
  if (u16 refusal = test_adjacency(starts, starts_len, neighbours, neighbours_len)) return refusal;
  const u32 n = u32(starts_len - 1);
  if (scratch_len < n || figures_len < 3) return 5;
  if (most_unknowns(counts, counts_len, n) == 0) return 15;
  if (!is_numbering(numbering, numbering_len, n, scratch)) return 7;
  bare_measures(starts, neighbours, counts, n, numbering, scratch, figures);
  clear(scratch, n);
  return 0;
}

// Whether the words are pairs of another old number each, from 1 to n: as many are marked as there are pairs.
static bool are_pairs(const u16 *pairs, size_t length, u32 n, u16 *marks) {
  if (length % 2 != 0 || length > 2 * size_t(n)) return false;
  clear(marks, n);
  bool out = false;
  for (size_t i = 0; i < length; i += 2) {
    const u32 at = pairs[i] - 1u;
    out |= at >= n;
    marks[at < n ? at : 0] = 1;
  }
  u32 count = 0;
  for (u32 i = 0; i < n; i++) count += marks[i];
  return !out && 2 * size_t(count) == length;
}

// The full numbering: who is in no pair keeps his number.
static void number_by(const u16 *pairs, size_t length, u32 n, u16 *numbering) {
  for (u32 p = 0; p < n; p++) numbering[p] = u16(p + 1);
  for (size_t i = 0; i < length; i += 2) numbering[pairs[i] - 1] = pairs[i + 1];
}

// Whether the three figures are those of the numbering.
static bool has_figures(const u16 *starts, const u16 *neighbours, const u16 *counts, u32 n, const u16 *numbering, const u64 *figures, u16 *words) {
  u64 found[3];
  bare_measures(starts, neighbours, counts, n, numbering, words, found);
  return memcmp(found, figures, sizeof found) == 0;
}

bool bare_import(const u16 *starts, const u16 *neighbours, const u16 *counts, u32 n, const u16 *pairs, size_t pairs_len, const u64 *figures,
                 u16 *numbers) {
  u16 words[MAX_NODES];
  number_by(pairs, pairs_len, n, numbers);
  return has_figures(starts, neighbours, counts, n, numbers, figures, words);
}

u16 import_numbering(const u16 *starts, size_t starts_len, const u16 *neighbours, size_t neighbours_len, const u16 *counts, size_t counts_len,
                     const u16 *pairs, size_t pairs_len, u64 bandwidth, u64 profile, u64 front, u16 *numbers, size_t numbers_len,
                     u16 *scratch, size_t scratch_len) {
  if (u16 refusal = test_adjacency(starts, starts_len, neighbours, neighbours_len)) return refusal;
  const u32 n = u32(starts_len - 1);
  if (numbers_len < n || scratch_len < n) return 5;
  if (most_unknowns(counts, counts_len, n) == 0) return 15;
  u16 words[MAX_NODES];
  if (!are_pairs(pairs, pairs_len, n, words)) return 13;
  number_by(pairs, pairs_len, n, scratch);
  const u64 figures[3] = {bandwidth, profile, front};
  u16 answer = 7;
  if (is_numbering(scratch, n, n, words)) answer = has_figures(starts, neighbours, counts, n, scratch, figures, words) ? 0 : 14;
  if (answer == 0) memcpy(numbers, scratch, n * sizeof(u16));
  clear(scratch, n);
  return answer;
}

// One unknown each: the first column of each row, in the order of the numbers.
static u32 firsts_of_nodes(const u16 *starts, const u16 *neighbours, u32 n, const u16 *numbering, u16 *first) {
  for (u32 p = 0; p < n; p++) first[numbering[p] - 1] = u16(first_of(starts, neighbours, numbering, p));
  return n;
}

// The rows of a node have the same first column.
static u32 firsts_of_unknowns(const u16 *starts, const u16 *neighbours, u32 n, const u16 *numbering, const u16 *counts, u16 *scratch, u16 *first) {
  const u32 unknowns = unknowns_before(n, numbering, counts, scratch);
  for (u32 p = 0; p < n; p++) {
    const u16 column = u16(scratch[first_of(starts, neighbours, numbering, p) - 1] + 1);
    u16 *row = first + scratch[numbering[p] - 1];
    for (u32 i = 0; i < counts[p]; i++) row[i] = column;
  }
  return unknowns;
}

void bare_store_map(const u16 *starts, const u16 *neighbours, const u16 *counts, u32 n, const u16 *numbering, u16 *scratch, u16 *first, u32 *place,
                    u64 *figures) {
  const u32 rows = most_unknowns(counts, n, n) == 1 ? firsts_of_nodes(starts, neighbours, n, numbering, first)
                                                    : firsts_of_unknowns(starts, neighbours, n, numbering, counts, scratch, first);
  u32 begin = 0;
  for (u32 q = 1; q <= rows; q++) {
    place[q - 1] = begin;
    begin += q - first[q - 1];
  }
  place[rows] = begin;
  figures[0] = begin;
  figures[1] = rows;
}

u16 store_map(const u16 *starts, size_t starts_len, const u16 *neighbours, size_t neighbours_len, const u16 *counts, size_t counts_len,
              const u16 *numbering, size_t numbering_len, u16 *scratch, size_t scratch_len, u16 *first, size_t first_len, u32 *place,
              size_t place_len, u64 *figures, size_t figures_len) {
  if (u16 refusal = test_adjacency(starts, starts_len, neighbours, neighbours_len)) return refusal;
  const u32 n = u32(starts_len - 1);
  if (scratch_len < n || first_len < MAX_UNKNOWNS * n || place_len < MAX_UNKNOWNS * n + 1 || figures_len < 2) return 5;
  if (most_unknowns(counts, counts_len, n) == 0) return 15;
  if (!is_numbering(numbering, numbering_len, n, scratch)) return 7;
  bare_store_map(starts, neighbours, counts, n, numbering, scratch, first, place, figures);
  clear(scratch, n);
  return 0;
}

// One unknown each. Row q of the factor is what the lower neighbours of q reach by going from each number to its parent, the first number above it
// that it is joined to. The marks tell which are reached. The scratch word of a number holds its node until its row is made, then its parent.
static void eliminate_nodes(const u16 *starts, const u16 *neighbours, u32 n, const u16 *numbering, u16 *scratch, u8 *bytes, size_t bytes_len,
                            u64 *figures) {
  memset(bytes, 0, bytes_len);
  for (u32 p = 0; p < n; p++) scratch[numbering[p] - 1] = u16(p + 1);
  u32 start = 0, marked = 0;
  for (u32 q = 1; q <= n; q++) {
    const u32 node = scratch[q - 1] - 1u;
    scratch[q - 1] = 0;
    const u32 first = first_of(starts, neighbours, numbering, node);
    for (u32 k = starts[node]; k < starts[node + 1]; k++) {
      u32 p = numbering[neighbours[k] - 1];
      while (p < q) {
        const u32 t = start + p - first;
        const u8 bit = u8(1u << (t % 8));
        if (bytes[t / 8] & bit) break;
        bytes[t / 8] |= bit;
        marked++;
        const u32 parent = scratch[p - 1];
        if (parent == 0) {
          scratch[p - 1] = u16(q);
          break;
        }
        p = parent;
      }
    }
    start += q - first;
  }
  figures[0] = marked;
  figures[1] = marked - starts[n] / 2u;
}

// Bits laid one behind the other to the end of the bytes.
struct Bits {
  u8 *at, *end;
  u64 pending;  // what is not stored yet, or only in part
  u32 count;    // of it, below 8 but within a row that is read ahead

  // Up to 56. What stands in the next eight bytes is lost.
  void put(u64 bits, u32 length) {
    pending |= bits << count;
    count += length;
    settle();
  }

  void settle() {
    if (end - at >= 8) {
      memcpy(at, &pending, 8);
    } else {
      for (u32 i = 0; 8 * i < count; i++) at[i] = u8(pending >> (8 * i));
    }
    at += count / 8;
    pending >>= count & ~7u;
    count &= 7;
  }

  // Up to 8, between two settlings. What stands ahead is kept: seven bytes are stored where there are seven.
  void put_gently(u64 bits, u32 length) {
    pending |= bits << count;
    count += length;
    if (count < 56) return;
    memcpy(at, &pending, 7);
    at += 7;
    pending >>= 56;
    count -= 56;
  }
};

static inline u64 ones(u32 count) { return (u64(1) << count) - 1; }

// At least 57 bits from bit t on, as far as there are so many.
static inline u64 bits_from(const u8 *bytes, const u8 *end, u32 t) {
  const u8 *at = bytes + t / 8;
  u64 bits = 0;
  if (end - at >= 8) {
    memcpy(&bits, at, 8);
  } else {
    for (u32 i = 0; at + i < end; i++) bits |= u64(at[i]) << (8 * i);
  }
  return bits >> (t % 8);
}

// In unknowns the scratch word of a number, here from 0 on, holds its node from 0 on, and once its row is made its parent, 0 for none; above that its
// count of unknowns.
static const u32 INDEX = 0xFFF, COUNT = 12;

static inline u32 count_in(u32 word) { return word >> COUNT; }

// Rows of the unknowns of one number. Of its row of nodes the bits stand from `marks` on, in these same bytes: at their end, so that they are read
// before their place is taken. Each bit becomes as many as its number has unknowns; that row of `width` bits comes `count` times, each time with
// one more of the pairs of the number's own unknowns.
static void lay_rows(Bits &to, const u8 *bytes, u32 start, u32 marks, const u16 *words, u32 length, u32 width, u32 count) {
  auto spread = [&](u32 i) {
    const u32 t = marks + i;
    return bytes[t / 8] >> (t % 8) & 1 ? ones(count_in(words[i])) : 0;
  };
  if (width + MAX_UNKNOWNS <= 56) {
    u64 row = 0;
    for (u32 i = 0, at = 0; i < length; at += count_in(words[i++])) row |= spread(i) << at;
    for (u32 j = 0; j < count; j++) to.put(row | ones(j) << width, width + j);
    return;
  }
  for (u32 i = 0; i < length; i++) to.put_gently(spread(i), count_in(words[i]));
  to.settle();
  for (u32 j = 1; j < count; j++) {
    for (u32 done = 0; done < width; done += 56) {  // 56 bits at a time from the first row
      const u32 some = std::min(width - done, 56u);
      to.put(bits_from(bytes, to.end, start + done) & ones(some), some);
    }
    to.put(ones(j), j);
  }
}

// Unknowns: eliminated on the nodes, since the pairs of two nodes are all joined or none, and each row laid out in unknowns as soon as it is made.
static void eliminate_unknowns(const u16 *starts, const u16 *neighbours, u32 n, const u16 *numbering, const u16 *counts, u16 *scratch, u8 *bytes,
                               size_t bytes_len, u64 *figures) {
  for (u32 p = 0; p < n; p++) scratch[numbering[p] - 1] = u16(counts[p] << COUNT | p);
  Bits to = {bytes, bytes + bytes_len, 0, 0};
  u32 start = 0, marked = 0, joined = 0;
  for (u32 q = 0; q < n; q++) {
    const u32 node = scratch[q] & INDEX, count = count_in(scratch[q]);
    scratch[q] &= u16(~INDEX);
    const u32 first = first_of(starts, neighbours, numbering, node) - 1, length = q - first;
    u32 width = 0, reached = 0, lower = 0;
    for (u32 p = first; p < q; p++) width += count_in(scratch[p]);
    const u32 end = start + count * width + own_pairs(count), marks = end - length;
    if (length) memset(bytes + marks / 8, 0, (end - 1) / 8 - marks / 8 + 1);
    for (u32 k = starts[node]; k < starts[node + 1]; k++) {
      u32 p = numbering[neighbours[k] - 1] - 1u;
      if (p < q) lower += count_in(scratch[p]);
      while (p < q) {
        const u32 t = marks + p - first;
        const u8 bit = u8(1u << (t % 8));
        if (bytes[t / 8] & bit) break;
        bytes[t / 8] |= bit;
        reached += count_in(scratch[p]);
        const u32 parent = scratch[p] & INDEX;
        if (parent == 0) {
          scratch[p] |= u16(q);
          break;
        }
        p = parent;
      }
    }
    lay_rows(to, bytes, start, marks, scratch + first, length, width, count);
    marked += count * reached + own_pairs(count);
    joined += count * (reached - lower);
    start = end;
  }
  figures[0] = marked;
  figures[1] = joined;
}

static void eliminate_by(u32 most, const u16 *starts, const u16 *neighbours, const u16 *counts, u32 n, const u16 *numbering, u16 *scratch,
                         u8 *bytes, size_t bytes_len, u64 *figures) {
  if (most == 1) {
    eliminate_nodes(starts, neighbours, n, numbering, scratch, bytes, bytes_len, figures);
  } else {
    eliminate_unknowns(starts, neighbours, n, numbering, counts, scratch, bytes, bytes_len, figures);
  }
}

void bare_eliminate(const u16 *starts, const u16 *neighbours, const u16 *counts, u32 n, const u16 *numbering, u16 *scratch, u8 *bytes,
                    size_t bytes_len, u64 *figures) {
  eliminate_by(most_unknowns(counts, n, n), starts, neighbours, counts, n, numbering, scratch, bytes, bytes_len, figures);
}

static u32 profile_in_nodes(const u16 *starts, const u16 *neighbours, u32 n, const u16 *numbering) {
  u32 profile = 0;
  for (u32 p = 0; p < n; p++) profile += numbering[p] - first_of(starts, neighbours, numbering, p);
  return profile;
}

u16 eliminate(const u16 *starts, size_t starts_len, const u16 *neighbours, size_t neighbours_len, const u16 *counts, size_t counts_len,
              const u16 *numbering, size_t numbering_len, u16 *scratch, size_t scratch_len, u8 *bytes, size_t bytes_len, u64 *figures,
              size_t figures_len) {
  if (u16 refusal = test_adjacency(starts, starts_len, neighbours, neighbours_len)) return refusal;
  const u32 n = u32(starts_len - 1);
  if (scratch_len < n || figures_len < 2) return 5;
  const u32 most = most_unknowns(counts, counts_len, n);
  if (most == 0) return 15;
  if (!is_numbering(numbering, numbering_len, n, scratch)) return 7;
  const u32 profile = most == 1 ? profile_in_nodes(starts, neighbours, n, numbering)
                                : reach_in_unknowns(starts, neighbours, n, numbering, counts, scratch).profile;
  const u32 used = (profile + 7) / 8;
  if (bytes_len >= used) eliminate_by(most, starts, neighbours, counts, n, numbering, scratch, bytes, used, figures);
  clear(scratch, n);
  return bytes_len >= used ? 0 : 8;
}

}  // namespace BUILD
