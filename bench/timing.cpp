// timing [--quick] MESH.grd ..: each call of the C interface on each mesh, the proved library against the same job in C++, in one process.
// First all answers and buffers are compared, also on damaged input: a difference ends the run with status 1. Then each call is timed: medians of
// the processor time of the thread, the programs taking turns. Calls that take counts of unknowns are so with each sort of them; in the end the
// largest store is eliminated once. Lines for table.py go to standard output, their columns split by tabs.
#include "../include/wagonepoch.h"
#include "jobs.h"
#include "peers.h"

#include <algorithm>
#include <cstdio>
#include <cstdlib>
#include <ctime>
#include <functional>
#include <string>
#include <vector>

typedef std::vector<u16> Words;

// The calls of one program.
struct Calls {
  decltype(&wagonepoch_test_adjacency) test_adjacency;
  decltype(&wagonepoch_rooted_levels) rooted_levels;
  decltype(&wagonepoch_mesh) mesh;
  decltype(&wagonepoch_run) run, reverse_cuthill_mckee;
  decltype(&wagonepoch_measures) measures;
  decltype(&wagonepoch_import_numbering) import_numbering;
  decltype(&wagonepoch_eliminate) eliminate;
  decltype(&wagonepoch_store_map) store_map;
};

#define CALLS_OF(build)                                                                           \
  {build::test_adjacency,        build::rooted_levels, build::mesh,             build::run,       \
   build::reverse_cuthill_mckee, build::measures,      build::import_numbering, build::eliminate, \
   build::store_map}
static const Calls PROGRAMS[] = {
    {wagonepoch_test_adjacency, wagonepoch_rooted_levels, wagonepoch_mesh, wagonepoch_run, wagonepoch_reverse_cuthill_mckee,
     wagonepoch_measures, wagonepoch_import_numbering, wagonepoch_eliminate, wagonepoch_store_map},
    CALLS_OF(any_processor),
    CALLS_OF(this_processor),
};

// What is lent to a call, and its answer. A list may be longer than it need be.
struct Lent {
  Words starts, neighbours, numbers, levels, sizes, passes, scratch, first;
  std::vector<u32> place;
  std::vector<u8> bytes;
  std::vector<u64> figures;
  u16 answer;

  explicit Lent(size_t n, size_t byte_count = 0)
      : starts(n + 3, 60001), neighbours(32770, 60002), numbers(n + 2, 60003), levels(n + 2, 60004), sizes(n + 2, 60007),
        passes(n + 2, 60008), scratch(6 * n + 2, 60005), first(6 * n + 2, 60009), place(6 * n + 3, 4000000010), bytes(byte_count + 2, 165),
        figures(12, 60006), answer(65535) {}

  bool operator==(const Lent &o) const {
    return answer == o.answer && starts == o.starts && neighbours == o.neighbours && numbers == o.numbers && levels == o.levels &&
           sizes == o.sizes && passes == o.passes && scratch == o.scratch && first == o.first && place == o.place && bytes == o.bytes &&
           figures == o.figures;
  }
};

// What a call is given.
struct Given {
  size_t n;
  Words elements, starts, neighbours, counts, numbering;
  u16 root;
  Words pairs = {};      // of old and new number
  u64 supplied[3] = {};  // bandwidth, profile and front that come with the pairs
};

// The counts of unknowns that the calls are tried with, and what their lines say of them.
struct Sort {
  const char *said;
  u16 (*count)(u32 node);
};
static const Sort SORTS[] = {
    {"", [](u32) { return u16(1); }},
    {", mixed unknowns", [](u32 node) { return u16(1 + node % 6); }},
    {", six unknowns each", [](u32) { return u16(6); }},
};

static Given with_unknowns(const Given &given, const Sort &sort) {
  Given g = given;
  g.counts.clear();
  for (u32 p = 1; p <= g.n; p++) g.counts.push_back(sort.count(p));
  return g;
}

// A pointer is never null, also that of an empty list.
static const u16 *data(const Words &words) {
  static const u16 none = 0;
  return words.empty() ? &none : words.data();
}

typedef std::function<void(const Calls &, const Given &, Lent &)> Job;

static void test_job(const Calls &c, const Given &g, Lent &l) {
  l.answer = c.test_adjacency(data(g.starts), g.starts.size(), data(g.neighbours), g.neighbours.size());
}
static void rooted_job(const Calls &c, const Given &g, Lent &l) {
  l.answer = c.rooted_levels(data(g.starts), g.starts.size(), data(g.neighbours), g.neighbours.size(), g.root, l.levels.data(),
                             l.levels.size(), l.sizes.data(), l.sizes.size(), l.figures.data(), l.figures.size());
}
static void mesh_job(const Calls &c, const Given &g, Lent &l) {
  l.answer = c.mesh(g.n, data(g.elements), g.elements.size(), l.starts.data(), l.starts.size(), l.neighbours.data(), l.neighbours.size(),
                    l.scratch.data(), l.scratch.size(), l.figures.data(), l.figures.size());
}
static void order_by(decltype(Calls::run) call, const Given &g, Lent &l) {
  l.answer = call(data(g.starts), g.starts.size(), data(g.neighbours), g.neighbours.size(), data(g.counts), g.counts.size(),
                  l.numbers.data(), l.numbers.size(), l.levels.data(), l.levels.size(), l.passes.data(), l.passes.size(), l.scratch.data(),
                  l.scratch.size(), l.figures.data(), l.figures.size());
}
static void run_job(const Calls &c, const Given &g, Lent &l) { order_by(c.run, g, l); }
static void reverse_job(const Calls &c, const Given &g, Lent &l) { order_by(c.reverse_cuthill_mckee, g, l); }
static void measures_job(const Calls &c, const Given &g, Lent &l) {
  l.answer = c.measures(data(g.starts), g.starts.size(), data(g.neighbours), g.neighbours.size(), data(g.counts), g.counts.size(),
                        data(g.numbering), g.numbering.size(), l.scratch.data(), l.scratch.size(), l.figures.data(), l.figures.size());
}
static void import_job(const Calls &c, const Given &g, Lent &l) {
  l.answer = c.import_numbering(data(g.starts), g.starts.size(), data(g.neighbours), g.neighbours.size(), data(g.counts), g.counts.size(),
                                data(g.pairs), g.pairs.size(), g.supplied[0], g.supplied[1], g.supplied[2], l.numbers.data(),
                                l.numbers.size(), l.scratch.data(), l.scratch.size());
}
static void eliminate_job(const Calls &c, const Given &g, Lent &l) {
  l.answer = c.eliminate(data(g.starts), g.starts.size(), data(g.neighbours), g.neighbours.size(), data(g.counts), g.counts.size(),
                         data(g.numbering), g.numbering.size(), l.scratch.data(), l.scratch.size(), l.bytes.data(), l.bytes.size(),
                         l.figures.data(), l.figures.size());
}
static void map_job(const Calls &c, const Given &g, Lent &l) {
  l.answer = c.store_map(data(g.starts), g.starts.size(), data(g.neighbours), g.neighbours.size(), data(g.counts), g.counts.size(),
                         data(g.numbering), g.numbering.size(), l.scratch.data(), l.scratch.size(), l.first.data(), l.first.size(),
                         l.place.data(), l.place.size(), l.figures.data(), l.figures.size());
}

static std::string mesh_name;

static u64 now() {
  timespec t;
  clock_gettime(CLOCK_THREAD_CPUTIME_ID, &t);
  return u64(t.tv_sec) * 1000000000 + u64(t.tv_nsec);
}

// The job by every program on equal buffers, which must end equal, with the answer wanted. Returns what the proved library left. `times`, if any,
// gets the nanoseconds of each.
static Lent agreed(const std::string &call, const Job &job, const Given &given, const Lent &lent, u16 wanted,
                   std::vector<u64> *times = nullptr) {
  std::vector<Lent> ends;
  for (const Calls &program : PROGRAMS) {
    ends.push_back(lent);
    const u64 begin = now();
    job(program, given, ends.back());
    if (times) times->push_back(now() - begin);
    if (!(ends.back() == ends[0]) || ends[0].answer != wanted) {
      printf("%s, %s: the proved library answers %u, program %zu %u, wanted %u; buffers %s\n", mesh_name.c_str(), call.c_str(),
             ends[0].answer, ends.size(), ends.back().answer, wanted, ends.back() == ends[0] ? "agree" : "differ");
      exit(1);
    }
  }
  return ends[0];
}

typedef std::function<void(const Job &, u16, const std::function<void(Given &, Lent &)> &)> Refused;

// Refusals of the import, whose pairs are all nodes with their new numbers: 5, 13, 7 and 14, each before the next.
static void try_pairs(const Refused &refused, size_t n) {
  refused(import_job, 5, [n](Given &, Lent &l) { l.numbers.resize(n - 1); });
  refused(import_job, 5, [n](Given &g, Lent &l) { l.scratch.resize(n - 1), g.pairs.pop_back(); });
  refused(import_job, 13, [](Given &g, Lent &) { g.pairs.pop_back(), g.supplied[0]++; });
  refused(import_job, 13, [](Given &g, Lent &) { g.pairs[0] = 0, g.pairs[1] = 0; });
  refused(import_job, 13, [n](Given &g, Lent &) { g.pairs[2 * n - 2] = u16(n + 1); });
  refused(import_job, 13, [](Given &g, Lent &) { g.pairs.insert(g.pairs.end(), {g.pairs[0], g.pairs[1]}); });
  refused(import_job, 7, [](Given &g, Lent &) { g.pairs[1] = 0, g.supplied[0]++; });
  refused(import_job, 7, [n](Given &g, Lent &) { g.pairs[2 * n - 1] = u16(n + 1); });
  if (n > 1) {
    refused(import_job, 13, [n](Given &g, Lent &) { g.pairs[2 * n - 2] = g.pairs[0]; });
    refused(import_job, 7, [n](Given &g, Lent &) { g.pairs[2 * n - 1] = g.pairs[1]; });
    refused(import_job, 7, [](Given &g, Lent &) { g.pairs = {1, 2}; });
  }
  for (size_t at : {size_t(0), size_t(1), size_t(2)})
    for (u64 change : {u64(1), ~u64(0), u64(1) << 32}) refused(import_job, 14, [=](Given &g, Lent &) { g.supplied[at] += change; });
}

// Refusals: each of a few damages to what is given or lent, and the number that it must get.
static void try_refusals(const Given &good, size_t byte_count) {
  const size_t n = good.n;
  auto refused = [&](const Job &job, u16 wanted, const std::function<void(Given &, Lent &)> &damage) {
    Given given = good;
    Lent lent(n, byte_count);
    damage(given, lent);
    agreed("a refusal", job, given, lent, wanted);
  };
  for (const Job &job :
       {Job(test_job), Job(rooted_job), Job(run_job), Job(reverse_job), Job(measures_job), Job(import_job), Job(eliminate_job), Job(map_job)}) {
    refused(job, 1, [](Given &g, Lent &) { g.starts.clear(); });
    refused(job, 1, [](Given &g, Lent &) { g.starts.resize(1); });
    refused(job, 1, [](Given &g, Lent &) { g.starts.resize(4098, g.starts.back()); });
    refused(job, 2, [](Given &g, Lent &) { g.starts[0] = 1; });
    refused(job, 2, [](Given &g, Lent &) { g.starts.back()++; });
    refused(job, 2, [n](Given &g, Lent &) { g.starts[n / 2] = 40000; });
    if (good.neighbours.empty()) continue;
    const size_t last = good.neighbours.size() - 1;
    const size_t row = size_t(std::lower_bound(good.starts.begin(), good.starts.end(), last + 1) - good.starts.begin());
    refused(job, 3, [](Given &g, Lent &) { g.neighbours[0] = 0; });
    refused(job, 3, [=](Given &g, Lent &) { g.neighbours[last] = u16(n + 1); });
    refused(job, 3, [=](Given &g, Lent &) { g.neighbours[last] = u16(row); });
    // the last entry taken out: its partner lacks it
    refused(job, 4, [=](Given &g, Lent &) {
      g.neighbours.erase(g.neighbours.begin() + long(last));
      for (size_t p = row; p <= n; p++) g.starts[p]--;
    });
  }
  for (const Job &job : {Job(run_job), Job(reverse_job), Job(measures_job), Job(eliminate_job), Job(map_job), Job(mesh_job)}) {
    refused(job, 5, [n](Given &, Lent &l) { l.scratch.resize(n - 1); });
    refused(job, 5, [](Given &, Lent &l) { l.figures.clear(); });
  }
  // 5 comes before 6
  refused(rooted_job, 5, [n](Given &g, Lent &l) { l.levels.resize(n - 1), g.root = 0; });
  refused(rooted_job, 5, [n](Given &g, Lent &l) { l.sizes.resize(n - 1), g.root = 0; });
  refused(rooted_job, 5, [](Given &, Lent &l) { l.figures.resize(2); });
  refused(rooted_job, 6, [](Given &g, Lent &) { g.root = 0; });
  refused(rooted_job, 6, [n](Given &g, Lent &) { g.root = u16(n + 1); });
  for (const Job &job : {Job(run_job), Job(reverse_job)}) {
    refused(job, 5, [n](Given &, Lent &l) { l.numbers.resize(n - 1); });
    refused(job, 5, [n](Given &, Lent &l) { l.levels.resize(n - 1); });
    refused(job, 5, [n](Given &, Lent &l) { l.passes.resize(n - 1); });
    refused(job, 5, [n](Given &, Lent &l) { l.scratch.resize(6 * n - 1); });
    refused(job, 5, [](Given &, Lent &l) { l.figures.resize(6); });
  }
  refused(map_job, 5, [n](Given &, Lent &l) { l.first.resize(6 * n - 1); });
  refused(map_job, 5, [n](Given &, Lent &l) { l.place.resize(6 * n); });
  for (const Job &job : {Job(run_job), Job(reverse_job), Job(measures_job), Job(import_job), Job(eliminate_job), Job(map_job)}) {
    refused(job, 15, [](Given &g, Lent &) { g.counts.pop_back(); });
    refused(job, 15, [](Given &g, Lent &) { g.counts.push_back(1); });
    refused(job, 15, [](Given &g, Lent &) { g.counts[0] = 0; });
    refused(job, 15, [n](Given &g, Lent &) { g.counts[n - 1] = 7; });
    // 15 comes after 5 and before 7 and 13
    refused(job, 5, [n](Given &g, Lent &l) { g.counts.clear(), l.figures.clear(), l.scratch.resize(n - 1); });
    refused(job, 15, [](Given &g, Lent &) { g.counts.clear(), g.numbering[0] = 0, g.pairs.push_back(0); });
  }
  try_pairs(refused, n);
  for (const Job &job : {Job(measures_job), Job(eliminate_job), Job(map_job)}) {
    refused(job, 7, [](Given &g, Lent &) { g.numbering.pop_back(); });
    refused(job, 7, [](Given &g, Lent &) { g.numbering[0] = 0; });
    refused(job, 7, [n](Given &g, Lent &) { g.numbering[n - 1] = u16(n + 1); });
    refused(job, 7, [n](Given &g, Lent &) { g.numbering[0] = g.numbering[n - 1]; });
  }
  if (byte_count) refused(eliminate_job, 8, [=](Given &, Lent &l) { l.bytes.resize(byte_count - 1); });
  refused(mesh_job, 1, [](Given &g, Lent &) { g.n = 0; });
  refused(mesh_job, 1, [](Given &g, Lent &) { g.n = 4097; });
  refused(mesh_job, 5, [n](Given &, Lent &l) { l.starts.resize(n); });
  refused(mesh_job, 5, [](Given &, Lent &l) { l.neighbours.resize(32767); });
  refused(mesh_job, 9, [](Given &g, Lent &) { g.elements.insert(g.elements.end(), {11, 1, 2}); });
  refused(mesh_job, 9, [](Given &g, Lent &) { g.elements.insert(g.elements.end(), {1, 1}); });
  refused(mesh_job, 10, [n](Given &g, Lent &) { g.elements.insert(g.elements.end(), {1, 1, u16(n + 1)}); });
  refused(mesh_job, 10, [](Given &g, Lent &) { g.elements.insert(g.elements.end(), {2, 0, 2, 0}); });
  refused(mesh_job, 11, [n](Given &g, Lent &) {  // bars from each of twenty nodes to all others
    for (u16 p = 1; p <= 20; p++)
      for (u16 q = u16(p + 1); q <= n; q++) g.elements.insert(g.elements.end(), {1, p, q});
  });
}

// Elements with a node more than once: the first one, if there is any, with two equal nodes, and a bar on one node.
static void try_collapsed(const Given &good) {
  Given given = good;
  if (!given.elements.empty()) given.elements[2] = given.elements[1];
  given.elements.insert(given.elements.end(), {1, 1, 1});
  agreed("collapsed elements", mesh_job, given, Lent(good.n), 0);
}

// Rooted levels from a few nodes, in lists as long as they must be.
static void try_roots(const Given &good) {
  Given given = good;
  const size_t n = good.n;
  for (size_t root : {size_t(1), (n + 1) / 2, n}) {
    given.root = u16(root);
    Lent lent(n);
    agreed("rooted levels", rooted_job, given, lent, 0);
    lent.levels.resize(n);
    lent.sizes.resize(n);
    agreed("rooted levels", rooted_job, given, lent, 0);
  }
}

// The pairs of the numbering, by old number, and figures with them.
static void supply(Given &g, const u64 *figures) {
  g.pairs.clear();
  for (size_t p = 0; p < g.n; p++) g.pairs.insert(g.pairs.end(), {u16(p + 1), g.numbering[p]});
  std::copy(figures, figures + 3, g.supplied);
}

static Given numbered_by(const Given &given, const Lent &made) {
  Given g = given;
  g.numbering.assign(made.numbers.begin(), made.numbers.begin() + long(g.n));
  supply(g, made.figures.data() + 2);
  return g;
}

// The pairs from the last to the first, without those of one number: they give the same numbering, in a list as long as it must be.
static void try_import(const Given &given) {
  agreed("import", import_job, given, Lent(given.n), 0);
  Given g = given;
  g.pairs.clear();
  for (size_t p = g.n; p > 0; p--)
    if (g.numbering[p - 1] != p) g.pairs.insert(g.pairs.end(), {u16(p), g.numbering[p - 1]});
  Lent lent(g.n);
  lent.numbers.resize(g.n);
  lent.scratch.resize(g.n);
  if (agreed("import", import_job, g, lent, 0).numbers != g.numbering) {
    printf("%s: other numbers than were handed in\n", mesh_name.c_str());
    exit(1);
  }
}

// An order that a call made: the measures find the figures that it reported, the map has its profile, and the elimination takes so many bytes as
// that asks for.
static void try_order(const Given &given, const Lent &made) {
  const Given g = numbered_by(given, made);
  const Lent measured = agreed("measures", measures_job, g, Lent(g.n), 0);
  if (!std::equal(measured.figures.begin(), measured.figures.begin() + 3, made.figures.begin() + 2)) {
    printf("%s: other measures than the order's own\n", mesh_name.c_str());
    exit(1);
  }
  if (agreed("store map", map_job, g, Lent(g.n), 0).figures[0] != made.figures[3]) {
    printf("%s: a map of another profile than the order's own\n", mesh_name.c_str());
    exit(1);
  }
  try_import(g);
  agreed("elimination", eliminate_job, g, Lent(g.n, (made.figures[3] + 7) / 8), 0);
}

typedef std::function<void()> Step;

// Medians in nanoseconds. A short step is repeated until the clock's own time doesn't count. The steps take turns.
static std::vector<double> medians(const std::vector<Step> &steps, bool quick) {
  const u64 slice = quick ? 0 : 50000, budget = quick ? 0 : 500000000;
  std::vector<u64> repeats;
  std::vector<std::vector<double>> times(steps.size());
  for (const Step &step : steps) {
    const u64 begin = now();
    step();
    repeats.push_back(1 + slice / (now() - begin + 1));
  }
  const u64 begin = now();
  do {
    for (size_t i = 0; i < steps.size(); i++) {
      const u64 from = now();
      for (u64 k = 0; k < repeats[i]; k++) steps[i]();
      times[i].push_back(double(now() - from) / double(repeats[i]));
    }
  } while (!quick && (times[0].size() < 5 || (now() - begin < budget && times[0].size() < 101)));
  std::vector<double> result;
  for (auto &t : times) {
    std::nth_element(t.begin(), t.begin() + long(t.size() / 2), t.end());
    result.push_back(t[t.size() / 2]);
  }
  return result;
}

// Times the job by every program and, last, the bare stage.
static void time_job(const std::string &call, const Job &job, const Given &given, const Lent &lent, const Step &bare, bool quick) {
  std::vector<Lent> lents(std::size(PROGRAMS), lent);
  std::vector<Step> steps;
  for (size_t i = 0; i < lents.size(); i++) steps.push_back([&, i] { job(PROGRAMS[i], given, lents[i]); });
  steps.push_back(bare);
  printf("time\t%s", call.c_str());
  for (double t : medians(steps, quick)) printf("\t%.0f", t);
  printf("\n");
}

static Words words_of(const std::string &path) {
  FILE *file = fopen(path.c_str(), "rb");
  if (!file) {
    printf("cannot read %s\n", path.c_str());
    exit(1);
  }
  Words words;
  fseek(file, 3, SEEK_SET);
  for (int low = getc(file); low != EOF; low = getc(file)) words.push_back(u16(low | getc(file) << 8));
  fclose(file);
  return words;
}

// The lists of a mesh, its nodes numbered as given.
static Given lists_of(const Words &file) {
  Given g = {file[1], Words(file.begin() + 3, file.end()), {}, {}, {}, {}, 1, {}, {}};
  const long n = file[1];
  const Lent lists = agreed("mesh", mesh_job, g, Lent(g.n), 0);
  g.starts.assign(lists.starts.begin(), lists.starts.begin() + n + 1);
  g.neighbours.assign(lists.neighbours.begin(), lists.neighbours.begin() + long(lists.figures[0]));
  for (long p = 1; p <= n; p++) g.numbering.push_back(u16(p));
  agreed("adjacency test", test_job, g, Lent(g.n), 0);
  return g;
}

// A mesh with its counts, and what the run, the measures and reverse Cuthill-McKee make of it.
struct Case {
  Given given;
  Lent ran, measured, turned;
};

// Compares the calls that take counts.
static Case compare(const Given &lists, const Sort &sort) {
  Given g = with_unknowns(lists, sort);
  const std::string said = sort.said;
  const Lent measured = agreed("measures" + said, measures_job, g, Lent(g.n), 0);
  supply(g, measured.figures.data());
  const Case c = {g, agreed("whole run" + said, run_job, g, Lent(g.n), 0), measured,
                  agreed("reverse Cuthill-McKee" + said, reverse_job, g, Lent(g.n), 0)};
  const size_t bytes = (c.measured.figures[1] + 7) / 8;
  try_order(g, c.ran);
  try_order(g, c.turned);
  try_import(g);
  agreed("elimination, numbers as given" + said, eliminate_job, g, Lent(g.n, bytes), 0);
  agreed("store map, numbers as given" + said, map_job, g, Lent(g.n), 0);
  if (g.n < 1500 && bytes < 2000000) try_refusals(g, bytes);  // larger ones take long and tell no more
  return c;
}

static void print_figures(const Case &c) {
  const auto &f = c.ran.figures, &m = c.measured.figures, &r = c.turned.figures;
  printf("mesh\t%s\t%zu\t%zu\t%lu\n", mesh_name.c_str(), c.given.n, c.given.neighbours.size(), f[1]);
  printf("figures\tas given\t%lu\t%lu\t%lu\n", m[0], m[1], m[2]);
  printf("figures\twhole run\t%lu\t%lu\t%lu\n", f[2], f[3], f[4]);
  printf("figures\treverse Cuthill-McKee\t%lu\t%lu\t%lu\n", r[2], r[3], r[4]);
}

// The calls that take neither counts nor a numbering.
static void time_lists(const Given &g, bool quick) {
  const u16 *starts = data(g.starts), *neighbours = data(g.neighbours);
  const u32 n = u32(g.n);
  Lent own(n);
  using namespace this_processor;
  time_job("adjacency test", test_job, g, Lent(n), [&] { bare_test(starts, neighbours, n); }, quick);
  time_job("rooted levels", rooted_job, g, Lent(n),
           [&] { bare_rooted(starts, neighbours, n, g.root, own.levels.data(), own.sizes.data(), own.figures.data()); }, quick);
  time_job("mesh", mesh_job, g, Lent(n),
           [&] { bare_mesh(n, data(g.elements), g.elements.size(), own.starts.data(), own.neighbours.data(), own.figures.data()); }, quick);
}

// The calls that make a numbering.
static void time_orders(const Given &g, const std::string &said, bool quick) {
  const u32 n = u32(g.n);
  Lent own(n);
  const auto bare = [&](decltype(&this_processor::bare_run) stage) {
    stage(data(g.starts), data(g.neighbours), data(g.counts), n, own.numbers.data(), own.levels.data(), own.passes.data(),
          own.scratch.data(), own.figures.data());
  };
  time_job("whole run" + said, run_job, g, Lent(n), [&] { bare(this_processor::bare_run); }, quick);
  time_job("reverse Cuthill-McKee" + said, reverse_job, g, Lent(n), [&] { bare(this_processor::bare_reverse_cuthill_mckee); }, quick);
}

// The calls that take a numbering, of this profile.
static void time_numbered(const Given &g, u64 profile, const std::string &said, bool quick) {
  const u16 *starts = data(g.starts), *neighbours = data(g.neighbours), *counts = data(g.counts), *numbering = data(g.numbering);
  const u32 n = u32(g.n);
  const size_t bytes = (profile + 7) / 8;
  const Lent lent(n, bytes);
  Lent own = lent;
  using namespace this_processor;
  time_job("measures" + said, measures_job, g, lent,
           [&] { bare_measures(starts, neighbours, counts, n, numbering, own.scratch.data(), own.figures.data()); }, quick);
  time_job("import" + said, import_job, g, lent,
           [&] { bare_import(starts, neighbours, counts, n, data(g.pairs), g.pairs.size(), g.supplied, own.numbers.data()); }, quick);
  time_job("elimination" + said, eliminate_job, g, lent,
           [&] {
             bare_eliminate(starts, neighbours, counts, n, numbering, own.scratch.data(), own.bytes.data(), bytes, own.figures.data());
           },
           quick);
  time_job("store map" + said, map_job, g, Lent(n),
           [&] {
             bare_store_map(starts, neighbours, counts, n, numbering, own.scratch.data(), own.first.data(), own.place.data(), own.figures.data());
           },
           quick);
}

// The largest store there is: 4,096 nodes of six unknowns, number 1 with an edge to every other, so that every pair of unknowns has a place. Eliminated
// once by each program.
static void eliminate_largest() {
  const size_t n = 4096, unknowns = 6 * n, profile = unknowns * (unknowns - 1) / 2, bytes = (profile + 7) / 8;
  Given star = {n, {}, {0, u16(n - 1)}, {}, Words(n, 6), {1}, 1};
  for (size_t p = 2; p <= n; p++) {
    star.neighbours.push_back(u16(p));
    star.starts.push_back(u16(n - 2 + p));
    star.numbering.push_back(u16(p));
  }
  star.neighbours.resize(2 * (n - 1), 1);
  mesh_name = "star of 4,096, its middle first";
  std::vector<u64> times;
  const Lent left = agreed("the largest store", eliminate_job, star, Lent(n, bytes), 0, &times);
  printf("store\t%s\t%zu\t%zu\t%lu", mesh_name.c_str(), unknowns, bytes, left.figures[0]);
  for (u64 t : times) printf("\t%lu", t);
  printf("\n");
}

// One mesh: all calls agree, then all are timed, then the other programs.
static void bench(const std::string &path, bool quick) {
  mesh_name = path.substr(path.find_last_of('/') + 1);
  mesh_name.resize(mesh_name.size() - 4);
  const Given lists = lists_of(words_of(path));
  try_collapsed(lists);
  try_roots(lists);
  for (const Sort &sort : SORTS) {
    const Case c = compare(lists, sort);
    const bool first = &sort == SORTS;
    if (first) {
      print_figures(c);
      time_lists(c.given, quick);
    }
    time_orders(c.given, sort.said, quick);
    time_numbered(numbered_by(c.given, c.ran), c.ran.figures[3], sort.said, quick);
    if (first) time_numbered(c.given, c.measured.figures[1], ", numbers as given", quick);
  }
  fflush(stdout);
  if (!quick) time_peers(lists.starts, lists.neighbours);
}

int main(int argc, char **argv) {
  const bool quick = argc > 1 && std::string(argv[1]) == "--quick";
  for (int i = quick ? 2 : 1; i < argc; i++) bench(argv[i], quick);
  eliminate_largest();
  return 0;
}
