/* Renumbers a mesh file, says what another order would give, how many passes each part took and where it is thickest, eliminates by the new
   numbers and opens the store, which is laid out in unknowns: examples/bracket.grd, or the file named.
   cc -Iinclude examples/c/bracket.c examples/c/grd.c target/staticlib/libcapi.a */
#include <stdio.h>
#include <stdlib.h>
#include "grd.h"

enum { NODES = WAGONEPOCH_NODES, MOST_UNKNOWNS = 6 * NODES };

static struct graph g;
static uint16_t numbers[NODES], levels[NODES], passes[NODES], rooted[NODES], sizes[NODES], scratch[6 * NODES];

/* Unknowns take consecutive numbers in the order of their nodes: node p has those from begin[p - 1] on, as many as its count says. There are
   `unknowns` of them. */
static size_t begin[NODES], unknowns;

/* The store map: row q has the places place[q - 1] on, for the unknowns first[q - 1] to q - 1. Behind the last row comes the count of places. */
static uint16_t first[MOST_UNKNOWNS];
static uint32_t place[MOST_UNKNOWNS + 1];

static void stop_if(unsigned refusal, const char *call)
{
    if (refusal != 0) {
        printf("%s: refused %u\n", call, refusal);
        exit(1);
    }
}

/* The unknowns of each node, by the new numbers of the nodes. */
static void number_unknowns(void)
{
    static size_t at[NODES + 1];
    size_t p, q, next = 1;
    for (p = 0; p < g.n; p++)
        at[numbers[p]] = p;
    for (q = 1; q <= g.n; q++) {
        begin[at[q]] = next;
        next += g.counts[at[q]];
    }
    unknowns = next - 1;
}

/* f_q, the least of q and the unknowns that it adjoins, and s_q, where row q starts. */
static void map_store(void)
{
    uint64_t f[WAGONEPOCH_STORE_MAP_FIGURES];
    stop_if(wagonepoch_store_map(g.starts, g.n + 1, g.neighbours, g.entries, g.counts, g.n, numbers, g.n, scratch, g.n, first, 6 * g.n,
                                 place, 6 * g.n + 1, f, WAGONEPOCH_STORE_MAP_FIGURES), "store map");
}

/* The mark of the pair p < q. */
static int marked(const uint8_t *bytes, size_t p, size_t q)
{
    size_t t;
    if (p < first[q - 1])
        return 0;
    t = place[q - 1] + p - first[q - 1];
    return bytes[t / 8] >> (t % 8) & 1;
}

/* How many pairs of an unknown of one node and a later one of another, or of the same, are marked. */
static size_t marked_pairs(const uint8_t *bytes, size_t one, size_t other)
{
    size_t p, q, pairs = 0;
    for (p = begin[one]; p < begin[one] + g.counts[one]; p++)
        for (q = begin[other]; q < begin[other] + g.counts[other]; q++)
            if (p < q)
                pairs += (size_t)marked(bytes, p, q);
    return pairs;
}

/* Counts the marks, and those of pairs that adjoin: of two neighbours, or of one node. */
static void open_store(const uint8_t *bytes)
{
    size_t p, q, i, ones = 0, edges = 0;
    for (q = 1; q <= unknowns; q++)
        for (p = first[q - 1]; p < q; p++)
            ones += (size_t)marked(bytes, p, q);
    for (p = 0; p < g.n; p++) {
        edges += marked_pairs(bytes, p, p);
        for (i = g.starts[p]; i < g.starts[p + 1]; i++)
            edges += marked_pairs(bytes, p, (size_t)g.neighbours[i] - 1);
    }
    printf("store: places %lu marked %zu edges %zu\n", (unsigned long)place[unknowns], ones, edges);
}

static void print_measures(const char *when, const uint16_t *numbering)
{
    uint64_t f[WAGONEPOCH_MEASURES_FIGURES];
    stop_if(wagonepoch_measures(g.starts, g.n + 1, g.neighbours, g.entries, g.counts, g.n, numbering, g.n, scratch, g.n, f,
                                WAGONEPOCH_MEASURES_FIGURES), "measures");
    printf("%s: bandwidth %llu profile %llu front %llu\n", when, (unsigned long long)f[0], (unsigned long long)f[1], (unsigned long long)f[2]);
}

/* The order for a solver that expects reverse Cuthill-McKee, with lists of its own. */
static void print_reverse(void)
{
    static uint16_t reverse[NODES], from_end[NODES], of_search[NODES];
    uint64_t f[WAGONEPOCH_REVERSE_CUTHILL_MCKEE_FIGURES];
    stop_if(wagonepoch_reverse_cuthill_mckee(g.starts, g.n + 1, g.neighbours, g.entries, g.counts, g.n, reverse, g.n, from_end, g.n,
                                             of_search, g.n, scratch, 6 * g.n, f, WAGONEPOCH_REVERSE_CUTHILL_MCKEE_FIGURES),
            "reverse Cuthill-McKee");
    print_measures("reverse Cuthill-McKee", reverse);
}

/* The passes of each part, parts by lowest old number: which of them the search for its ends was slow on. */
static void print_passes(size_t parts)
{
    size_t i;
    printf("passes:");
    for (i = 0; i < parts; i++)
        printf(" %u", passes[i]);
    printf("\n");
}

/* Where the part that has number 1 is thickest, level by level from the node with that number: the first level with the most nodes. */
static void print_thickest(void)
{
    uint64_t f[WAGONEPOCH_ROOTED_FIGURES];
    uint16_t root = 1;
    size_t i = 0;
    while (numbers[root - 1] != 1)
        root++;
    stop_if(wagonepoch_rooted_levels(g.starts, g.n + 1, g.neighbours, g.entries, root, rooted, g.n, sizes, g.n, f, WAGONEPOCH_ROOTED_FIGURES),
            "rooted levels");
    while (sizes[i] != f[1])
        i++;
    printf("levels: root %u depth %llu thickest %zu nodes %u\n", root, (unsigned long long)f[0], i + 1, sizes[i]);
}

int main(int argc, char **argv)
{
    uint64_t f[WAGONEPOCH_RUN_FIGURES];
    size_t length, p;
    uint8_t *bytes;
    stop_if(read_graph(argc > 1 ? argv[1] : "examples/bracket.grd", &g), "mesh");
    for (p = 0; p < g.n; p++)
        numbers[p] = (uint16_t)(p + 1);
    number_unknowns();
    printf("mesh: nodes %zu unknowns %zu entries %zu\n", g.n, unknowns, g.entries);
    print_measures("before", numbers);
    stop_if(wagonepoch_run(g.starts, g.n + 1, g.neighbours, g.entries, g.counts, g.n, numbers, g.n, levels, g.n, passes, g.n,
                           scratch, 6 * g.n, f, WAGONEPOCH_RUN_FIGURES), "run");
    number_unknowns();
    /* the run's profile says how many bytes the marks need */
    length = (size_t)(f[3] + 7) / 8;
    print_measures("after", numbers);
    print_reverse();
    print_passes((size_t)f[1]);
    print_thickest();
    bytes = malloc(length + 1);
    if (bytes == NULL)
        return 2;
    stop_if(wagonepoch_eliminate(g.starts, g.n + 1, g.neighbours, g.entries, g.counts, g.n, numbers, g.n, scratch, g.n, bytes, length, f,
                                 WAGONEPOCH_ELIMINATE_FIGURES), "eliminate");
    printf("elimination: marked %llu new %llu\n", (unsigned long long)f[0], (unsigned long long)f[1]);
    map_store();
    open_store(bytes);
    free(bytes);
    return 0;
}
