// Other programs that renumber: see peers.h.
#include "peers.h"

#include <algorithm>
#include <csignal>
#include <cstdio>
#include <cstdlib>
#include <cstring>
#include <ctime>
#include <functional>
#include <map>
#include <memory>
#include <sys/time.h>
#include <sys/wait.h>
#include <unistd.h>

#ifdef HAVE_BOOST
#include <boost/graph/adjacency_list.hpp>
#include <boost/graph/cuthill_mckee_ordering.hpp>
#include <boost/graph/king_ordering.hpp>
#include <boost/graph/properties.hpp>
#include <boost/graph/sloan_ordering.hpp>
#endif
#ifdef HAVE_VIENNACL
#include <viennacl/misc/bandwidth_reduction.hpp>
#endif
#ifdef HAVE_DOLFINX
#include <dolfinx/graph/AdjacencyList.h>
#include <dolfinx/graph/ordering.h>
#endif
#ifdef HAVE_PETSC
#include <petscmat.h>
#endif
#ifdef HAVE_FREEFEM
namespace fem {
// The header makes this method private, the library exports it: only its shape is repeated.
class femMesh {
 public:
  int gibbsa_(long *n, long *starts, long *rows, long *r, long *m, long *nv, long *nx, long *ny, long *nn, long *w1, long *w2, long *before,
              long *after, long *print, long *unit);
};
}  // namespace fem
#endif

namespace {

typedef std::vector<u32> Numbers;  // new numbers, from 1 on, by node, from 0 on

// Nodes count from 0 here.
struct Graph {
  std::vector<std::vector<u32>> rows;
  std::vector<std::vector<u32>> parts;
};

typedef std::function<void()> Step;
// Builds the peer's own graph and returns the step to be timed, which leaves its numbering in `numbers`.
typedef std::function<Step(const Graph &, Numbers &numbers)> Prepare;

struct Peer {
  const char *name;
  Prepare prepare;  // empty where the program is not installed
};

Graph graph_of(const std::vector<u16> &starts, const std::vector<u16> &neighbours) {
  const size_t n = starts.size() - 1;
  Graph g;
  g.rows.resize(n);
  for (size_t p = 0; p < n; p++)
    for (u32 k = starts[p]; k < starts[p + 1]; k++) g.rows[p].push_back(neighbours[k] - 1u);
  std::vector<bool> seen(n);
  for (u32 p = 0; p < n; p++) {
    if (seen[p]) continue;
    std::vector<u32> part = {p};
    seen[p] = true;
    for (size_t i = 0; i < part.size(); i++)
      for (u32 q : g.rows[part[i]])
        if (!seen[q]) {
          seen[q] = true;
          part.push_back(q);
        }
    std::sort(part.begin(), part.end());
    g.parts.push_back(part);
  }
  return g;
}

#if defined(HAVE_BOOST) || defined(HAVE_VIENNACL)
// The place of each node in a part, or in the whole graph where there is one part.
std::vector<u32> places(const Graph &g, const std::vector<u32> &part) {
  std::vector<u32> place(g.rows.size());
  for (u32 i = 0; i < part.size(); i++) place[part[i]] = i;
  return place;
}
#endif

#ifdef HAVE_VIENNACL
// Part by part: on a graph of several parts its numbering is no permutation. Each row has its diagonal.
Step viennacl_gps(const Graph &g, Numbers &numbers) {
  auto matrices = std::make_shared<std::vector<std::vector<std::map<int, double>>>>();
  for (const auto &part : g.parts) {
    const auto place = places(g, part);
    matrices->emplace_back(part.size());
    for (u32 i = 0; i < part.size(); i++) {
      matrices->back()[i][int(i)] = 1;
      for (u32 q : g.rows[part[i]]) matrices->back()[i][int(place[q])] = 1;
    }
  }
  return [&g, &numbers, matrices] {
    numbers.assign(g.rows.size(), 0);
    u32 base = 1;
    for (size_t p = 0; p < g.parts.size(); p++) {
      const std::vector<int> order = viennacl::reorder((*matrices)[p], viennacl::gibbs_poole_stockmeyer_tag());
      for (size_t i = 0; i < order.size(); i++) numbers[g.parts[p][i]] = base + u32(order[i]);
      base += u32(order.size());
    }
  };
}
#else
const Prepare viennacl_gps;
#endif

enum Ordering { CUTHILL_MCKEE, KING, SLOAN };

#ifdef HAVE_BOOST
typedef boost::adjacency_list<
    boost::vecS, boost::vecS, boost::undirectedS,
    boost::property<boost::vertex_color_t, boost::default_color_type,
                    boost::property<boost::vertex_degree_t, int, boost::property<boost::vertex_priority_t, double>>>>
    BoostGraph;
typedef boost::graph_traits<BoostGraph>::vertex_descriptor Vertex;

// As the library's examples have it: from the back for Cuthill-McKee and King, forward for Sloan, which takes one part at a time.
Step boost_ordering(const Graph &g, Numbers &numbers, Ordering ordering) {
  auto parts = std::make_shared<std::vector<std::vector<u32>>>(g.parts);
  if (ordering != SLOAN) {
    parts->assign(1, std::vector<u32>(g.rows.size()));
    for (u32 p = 0; p < g.rows.size(); p++) (*parts)[0][p] = p;
  }
  auto graphs = std::make_shared<std::vector<BoostGraph>>();
  for (const auto &part : *parts) {
    const auto place = places(g, part);
    graphs->emplace_back(part.size());
    for (u32 p : part)
      for (u32 q : g.rows[p])
        if (p < q) add_edge(place[p], place[q], graphs->back());
  }
  return [&g, &numbers, parts, graphs, ordering] {
    numbers.assign(g.rows.size(), 0);
    u32 last = 0;
    for (size_t c = 0; c < graphs->size(); c++) {
      BoostGraph &b = (*graphs)[c];
      std::vector<Vertex> order((*parts)[c].size());
      const auto color = get(boost::vertex_color, b);
      const auto degree = boost::make_degree_map(b);
      if (ordering == CUTHILL_MCKEE)
        boost::cuthill_mckee_ordering(b, order.rbegin(), color, degree);
      else if (ordering == KING)
        boost::king_ordering(b, order.rbegin(), color, degree, get(boost::vertex_index, b));
      else if (order.size() > 1)
        boost::sloan_ordering(b, order.begin(), color, degree, get(boost::vertex_priority, b));
      for (Vertex v : order) numbers[(*parts)[c][v]] = ++last;
    }
  };
}

Prepare boost(Ordering ordering) {
  return [ordering](const Graph &g, Numbers &numbers) { return boost_ordering(g, numbers, ordering); };
}
#else
Prepare boost(Ordering) { return {}; }
#endif

#ifdef HAVE_DOLFINX
Step dolfinx_gps(const Graph &g, Numbers &numbers) {
  std::vector<std::int32_t> entries, offsets = {0};
  for (const auto &row : g.rows) {
    entries.insert(entries.end(), row.begin(), row.end());
    offsets.push_back(std::int32_t(entries.size()));
  }
  auto list = std::make_shared<dolfinx::graph::AdjacencyList<std::int32_t>>(std::move(entries), std::move(offsets));
  return [&numbers, list] {
    const std::vector<std::int32_t> order = dolfinx::graph::reorder_gps(*list);
    numbers.resize(order.size());
    for (size_t i = 0; i < order.size(); i++) numbers[i] = u32(order[i]) + 1;
  };
}
#else
const Prepare dolfinx_gps;
#endif

#ifdef HAVE_PETSC
Step petsc_rcm(const Graph &g, Numbers &numbers) {
  PetscInitializeNoArguments();
  Mat matrix;
  const PetscInt n = PetscInt(g.rows.size());
  std::vector<PetscInt> lengths;
  for (const auto &row : g.rows) lengths.push_back(PetscInt(row.size()) + 1);
  MatCreateSeqAIJ(PETSC_COMM_SELF, n, n, 0, lengths.data(), &matrix);
  for (PetscInt p = 0; p < n; p++) {
    MatSetValue(matrix, p, p, 1, INSERT_VALUES);
    for (u32 q : g.rows[size_t(p)]) MatSetValue(matrix, p, PetscInt(q), 1, INSERT_VALUES);
  }
  MatAssemblyBegin(matrix, MAT_FINAL_ASSEMBLY);
  MatAssemblyEnd(matrix, MAT_FINAL_ASSEMBLY);
  return [&numbers, matrix, n] {
    IS rows, columns;
    MatGetOrdering(matrix, MATORDERINGRCM, &rows, &columns);
    const PetscInt *order;
    ISGetIndices(rows, &order);
    numbers.assign(size_t(n), 0);
    for (PetscInt i = 0; i < n; i++) numbers[size_t(order[i])] = u32(i) + 1;
    ISRestoreIndices(rows, &order);
    ISDestroy(&rows);
    ISDestroy(&columns);
  };
}
#else
const Prepare petsc_rcm;
#endif

#ifdef HAVE_FREEFEM
// Rows hold their own node and count from 1. The room is more than the routine asks for.
Step freefem_gibbs(const Graph &g, Numbers &numbers) {
  struct Work {
    std::vector<long> starts, rows, lists[8];
    char object[256];
  };
  auto w = std::make_shared<Work>();
  memset(w->object, 0, sizeof w->object);
  w->starts.push_back(1);
  for (u32 p = 0; p < g.rows.size(); p++) {
    std::vector<u32> row = g.rows[p];
    row.insert(std::lower_bound(row.begin(), row.end(), p), p);
    for (u32 q : row) w->rows.push_back(long(q) + 1);
    w->starts.push_back(long(w->rows.size()) + 1);
  }
  w->rows.resize(w->rows.size() + 16);
  w->starts.resize(w->starts.size() + 16);
  return [&g, &numbers, w] {
    long n = long(g.rows.size()), before = 0, after = 0, print = 0, unit = 6;
    for (auto &list : w->lists) list.assign(2 * (g.rows.size() + 16), 0);
    auto *x = w->lists;
    reinterpret_cast<fem::femMesh *>(w->object)->gibbsa_(&n, w->starts.data(), w->rows.data(), x[0].data(), x[1].data(), x[2].data(),
                                                         x[3].data(), x[4].data(), x[5].data(), x[6].data(), x[7].data(), &before, &after,
                                                         &print, &unit);
    numbers.assign(x[0].begin(), x[0].begin() + n);
  };
}
#else
const Prepare freefem_gibbs;
#endif

const Peer PEERS[] = {
    {"ViennaCL, Gibbs-Poole-Stockmeyer", viennacl_gps}, {"DOLFINx, Gibbs-Poole-Stockmeyer", dolfinx_gps},
    {"FreeFEM, Gibbs-Poole-Stockmeyer", freefem_gibbs}, {"Boost, reverse Cuthill-McKee", boost(CUTHILL_MCKEE)},
    {"PETSc, reverse Cuthill-McKee", petsc_rcm},        {"Boost, King", boost(KING)},
    {"Boost, Sloan", boost(SLOAN)},
};

enum State { DONE, NO_NUMBERING, TOO_LONG, CRASHED };

struct Result {
  State state;
  double nanoseconds;
  u64 figures[3];
};

u64 now() {
  timespec t;
  clock_gettime(CLOCK_THREAD_CPUTIME_ID, &t);
  return u64(t.tv_sec) * 1000000000 + u64(t.tv_nsec);
}

// Time of the step and figures of what it numbers: in the child.
Result measure(const Peer &peer, const Graph &g, const std::vector<u16> &starts, const std::vector<u16> &neighbours) {
  Numbers numbers;
  const Step step = peer.prepare(g, numbers);
  std::vector<u64> times;
  const u64 begin = now();
  do {
    const u64 from = now();
    step();
    times.push_back(now() - from);
  } while (times.size() < 101 && now() - begin < 150000000);
  std::sort(times.begin(), times.end());
  Result r = {DONE, double(times[times.size() / 2]), {0, 0, 0}};
  const u32 n = u32(g.rows.size());
  const std::vector<u16> numbering(numbers.begin(), numbers.end()), counts(n, 1);
  std::vector<u16> scratch(n);
  if (this_processor::measures(starts.data(), starts.size(), neighbours.data(), neighbours.size(), counts.data(), n, numbering.data(),
                               numbering.size(), scratch.data(), n, r.figures, 3))
    r.state = NO_NUMBERING;
  return r;
}

Result in_child(const Peer &peer, const Graph &g, const std::vector<u16> &starts, const std::vector<u16> &neighbours) {
  int ends[2];
  if (pipe(ends)) abort();
  const pid_t child = fork();
  if (child == 0) {
    close(ends[0]);
    if (!freopen("/dev/null", "w", stderr) || !freopen("/dev/null", "w", stdout)) _exit(1);
    const itimerval limit = {{0, 0}, {5, 0}};
    setitimer(ITIMER_VIRTUAL, &limit, nullptr);
    const Result r = measure(peer, g, starts, neighbours);
    _exit(write(ends[1], &r, sizeof r) != sizeof r);
  }
  close(ends[1]);
  Result r;
  const bool got = read(ends[0], &r, sizeof r) == sizeof r;
  close(ends[0]);
  int status = 0;
  waitpid(child, &status, 0);
  if (!got) r.state = WIFSIGNALED(status) && WTERMSIG(status) == SIGVTALRM ? TOO_LONG : CRASHED;
  return r;
}

}  // namespace

void time_peers(const std::vector<u16> &starts, const std::vector<u16> &neighbours) {
  const Graph g = graph_of(starts, neighbours);
  for (const Peer &peer : PEERS) {
    if (!peer.prepare) {
      printf("peer\t%s\tnot installed\n", peer.name);
      continue;
    }
    const Result r = in_child(peer, g, starts, neighbours);
    if (r.state == DONE)
      printf("peer\t%s\t%.0f\t%lu\t%lu\t%lu\n", peer.name, r.nanoseconds, r.figures[0], r.figures[1], r.figures[2]);
    else
      printf("peer\t%s\t%s\n", peer.name, r.state == NO_NUMBERING ? "no numbering" : r.state == TOO_LONG ? "over 5 s" : "crashed");
    fflush(stdout);
  }
}
