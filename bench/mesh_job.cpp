// The mesh call: see jobs.h. BUILD is the namespace of this compilation.
#include "jobs.h"

#include <algorithm>

namespace BUILD {

static const u8 NODE_COUNT[11] = {0, 2, 3, 4, 4, 5, 6, 8, 6, 8, 10};

// 9 or 10 for the first element that is refused, or 0.
static u16 test_elements(const u16 *elements, size_t length, u32 n) {
  for (size_t at = 0; at < length;) {
    const u32 kind = elements[at];
    if (kind > 10 || kind == 0 || length - at - 1 < NODE_COUNT[kind]) return 9;
    const u16 *nodes = elements + at + 1;
    const u32 count = NODE_COUNT[kind];
    bool bad = false;
    for (u32 i = 0; i < count; i++) bad |= nodes[i] - 1u >= n;
    if (bad) return 10;
    at += 1 + count;
  }
  return 0;
}

// A set of nodes as bits, in lent words. A second level tells which words hold any, so that a row comes out rising in the time of its length.
struct Row {
  u16 *bits;  // (n + 15) / 16 words, zeros between rows
  u64 groups[4];

  void add(const u16 *nodes, u32 count) {
    for (u32 i = 0; i < count; i++) {
      const u32 q = nodes[i] - 1u;
      bits[q / 16] |= u16(1u << (q % 16));
      groups[q / 1024] |= u64(1) << (q / 16 % 64);
    }
  }

  // Empties the set of all but p into `to`, where that is not null. Returns how many there were.
  u32 empty(u32 p, u16 *to) {
    bits[(p - 1) / 16] &= u16(~(1u << ((p - 1) % 16)));
    u32 count = 0;
    for (u32 g = 0; g < 4; g++) {
      for (u64 left = groups[g]; left; left &= left - 1) {
        const u32 word = 64 * g + u32(__builtin_ctzll(left));
        u32 in = bits[word];
        if (to)
          for (; in; in &= in - 1) to[count++] = u16(16 * word + u32(__builtin_ctz(in)) + 1);
        else
          count += u32(__builtin_popcount(in));
        bits[word] = 0;
      }
      groups[g] = 0;
    }
    return count;
  }
};

// The rows of the nodes from..to - 1, written to `neighbours` from `at` on with their ends in `starts`, or only counted where starts is null.
struct Rows {
  const u16 *elements;
  size_t length;
  u32 n;
  Row row;
  u16 *starts, *neighbours;
  u32 entries;

  void close(u32 p) {
    entries += row.empty(p, starts ? neighbours + entries : nullptr);
    if (starts) starts[p] = u16(entries);
  }

  // One row out of all elements.
  void one(u32 p) {
    for (size_t at = 0; at < length;) {
      const u32 count = NODE_COUNT[elements[at]];
      bool in = false;
      for (u32 i = 1; i <= count; i++) in |= elements[at + i] == p;
      if (in) row.add(elements + at + 1, count);
      at += 1 + count;
    }
    close(p);
  }

  // As many rows from p on as have their elements listed in `room` words of `work`, behind a word for each row. Returns the next row.
  u32 some(u32 p, u32 most, u16 *work, u32 room) {
    clear(work, most);
    for (size_t at = 0; at < length;) {
      const u32 count = NODE_COUNT[elements[at]];
      for (u32 i = 1; i <= count; i++) {
        const u32 r = elements[at + i] - p;
        if (r < most) work[r]++;
      }
      at += 1 + count;
    }
    u32 rows = 0, listed = 0;
    while (rows < most && listed + work[rows] <= room - most) {
      const u32 count = work[rows];
      work[rows++] = u16(listed);
      listed += count;
    }
    u16 *list = work + most;
    for (size_t at = 0; at < length;) {
      const u32 count = NODE_COUNT[elements[at]];
      for (u32 i = 1; i <= count; i++) {
        const u32 r = elements[at + i] - p;
        if (r < rows) list[work[r]++] = u16(at);
      }
      at += 1 + count;
    }
    for (u32 r = 0, k = 0; r < rows; r++) {
      for (; k < work[r]; k++) row.add(elements + list[k] + 1, NODE_COUNT[elements[list[k]]]);
      close(p + r);
    }
    return p + rows;
  }

  // All rows, so many at a time as the scratch has words for.
  void all(u16 *scratch) {
    const u32 bit_words = (n + 15) / 16, room = n - bit_words;
    row.bits = scratch;
    clear(row.bits, bit_words);
    for (u64 &g : row.groups) g = 0;
    entries = 0;
    const u32 usual = u32(length / n) + 2;  // words that a row takes
    for (u32 p = 1; p <= n;) {
      const u32 most = std::min(n + 1 - p, room / usual);
      const u32 next = most && length <= 65535 ? some(p, most, scratch + bit_words, room) : p;
      if (next == p) one(p);
      p = next == p ? p + 1 : next;
    }
  }
};

u16 mesh(size_t size, const u16 *elements, size_t length, u16 *starts, size_t starts_len, u16 *neighbours, size_t neighbours_len,
              u16 *scratch, size_t scratch_len, u64 *figures, size_t figures_len) {
  if (size == 0 || size > MAX_NODES) return 1;
  const u32 n = u32(size);
  if (starts_len < n + 1 || neighbours_len < MAX_ENTRIES || scratch_len < n || figures_len < 1) return 5;
  if (u16 refusal = test_elements(elements, length, n)) return refusal;
  size_t pairs = 0;
  for (size_t at = 0; at < length; at += 1 + NODE_COUNT[elements[at]]) pairs += NODE_COUNT[elements[at]] * (NODE_COUNT[elements[at]] - 1u);
  Rows rows = {elements, length, n, {}, nullptr, nullptr, 0};
  if (pairs > MAX_ENTRIES) rows.all(scratch);  // else 11 cannot be
  const bool over = rows.entries > MAX_ENTRIES;
  if (!over) {
    rows.starts = starts;
    rows.neighbours = neighbours;
    starts[0] = 0;
    rows.all(scratch);
    figures[0] = rows.entries;
  }
  clear(scratch, n);
  return over ? 11 : 0;
}

// With a list of the records of each node, and rows that are written out of order and then transposed, which puts them in order.
void bare_mesh(u32 n, const u16 *elements, size_t length, u16 *starts, u16 *neighbours, u64 *figures) {
  static u16 begins[MAX_NODES + 2], cursors[MAX_NODES + 2], records[65536], unsorted[MAX_ENTRIES + MAX_NODES], marks[MAX_NODES + 1];
  memset(begins, 0, sizeof begins);
  memset(marks, 0, sizeof marks);
  for (size_t at = 0; at < length; at += 1 + NODE_COUNT[elements[at]])
    for (u32 i = 1; i <= NODE_COUNT[elements[at]]; i++) begins[elements[at + i] + 1]++;
  for (u32 p = 1; p <= n + 1; p++) begins[p] = u16(begins[p] + begins[p - 1]);
  memcpy(cursors, begins, sizeof cursors);
  for (size_t at = 0; at < length; at += 1 + NODE_COUNT[elements[at]])
    for (u32 i = 1; i <= NODE_COUNT[elements[at]]; i++) records[cursors[elements[at + i]]++] = u16(at);
  u32 t = 0;
  starts[0] = 0;
  for (u32 p = 1; p <= n; p++) {
    marks[p] = u16(p);
    for (u32 k = begins[p]; k < begins[p + 1]; k++) {
      const u16 *record = elements + records[k];
      for (u32 i = 1; i <= NODE_COUNT[record[0]]; i++) {
        unsorted[t] = record[i];
        t += marks[record[i]] != p;
        marks[record[i]] = u16(p);
      }
    }
    starts[p] = u16(t);
  }
  memcpy(cursors, starts, n * sizeof(u16));
  for (u32 p = 1; p <= n; p++)
    for (u32 k = starts[p - 1]; k < starts[p]; k++) neighbours[cursors[unsorted[k] - 1]++] = u16(p);
  figures[0] = t;
}
}  // namespace BUILD
