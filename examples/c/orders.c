/* Prints both orders of a mesh file, the run's and reverse Cuthill-McKee: a line of figures for each, then a row for each node, its old number and
   its number by the one and by the other: examples/bracket.grd, or the file named. The figures are in unknowns, the numbers are of nodes.
   Status 0 printed, 1 refused, 2 neither.
   cc -Iinclude examples/c/orders.c examples/c/grd.c target/staticlib/libcapi.a */
#include <stdio.h>
#include "grd.h"

enum { NODES = WAGONEPOCH_NODES, FIGURES = WAGONEPOCH_RUN_FIGURES };

/* What one call makes of the graph. */
struct order {
    uint16_t numbers[NODES], levels[NODES], passes[NODES];
    uint64_t figures[FIGURES];
};

static struct graph g;
static struct order by_run, by_reverse;
static uint16_t scratch[6 * NODES];

/* The two calls have the same parameters and as many figures. */
static unsigned put_in_order(uint16_t (*call)(const uint16_t *, size_t, const uint16_t *, size_t, const uint16_t *, size_t, uint16_t *, size_t,
                                              uint16_t *, size_t, uint16_t *, size_t, uint16_t *, size_t, uint64_t *, size_t), struct order *o)
{
    return call(g.starts, g.n + 1, g.neighbours, g.entries, g.counts, g.n, o->numbers, NODES, o->levels, NODES, o->passes, NODES,
                scratch, 6 * NODES, o->figures, FIGURES);
}

static void print_figures(const char *name, const struct order *o)
{
    printf("%s: bandwidth %llu profile %llu front %llu\n", name, (unsigned long long)o->figures[2], (unsigned long long)o->figures[3],
           (unsigned long long)o->figures[4]);
}

int main(int argc, char **argv)
{
    size_t i;
    unsigned refusal = read_graph(argc > 1 ? argv[1] : "examples/bracket.grd", &g);
    if (refusal == 0)
        refusal = put_in_order(wagonepoch_run, &by_run);
    if (refusal == 0)
        refusal = put_in_order(wagonepoch_reverse_cuthill_mckee, &by_reverse);
    if (refusal == 0) {
        print_figures("run", &by_run);
        print_figures("reverse Cuthill-McKee", &by_reverse);
        for (i = 0; i < g.n; i++)
            printf("%zu %u %u\n", i + 1, by_run.numbers[i], by_reverse.numbers[i]);
    } else {
        printf("refused %u\n", refusal);
    }
    /* an order that could not be written whole is none */
    return fflush(stdout) != 0 || ferror(stdout) ? 2 : refusal != 0;
}
