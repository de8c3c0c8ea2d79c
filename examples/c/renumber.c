/* Prints the listing of a mesh file, as ./renumber does: examples/bracket.grd, or the file named. Status 0 listed, 1 refused, 2 neither.
   cc -Iinclude examples/c/renumber.c examples/c/grd.c target/staticlib/libcapi.a */
#include <stdio.h>
#include "grd.h"

enum { NODES = WAGONEPOCH_NODES, FIGURES = WAGONEPOCH_RUN_FIGURES };

static const char *const names[FIGURES] = { "nodes", "parts", "bandwidth", "profile", "front", "levels", "width" };
static struct graph g;
static uint16_t numbers[NODES], levels[NODES], passes[NODES], scratch[6 * NODES];

/* Those of all parts; behind the last part stand zeros. */
static unsigned long sum_of_passes(void)
{
    unsigned long sum = 0;
    size_t i;
    for (i = 0; i < g.n; i++)
        sum += passes[i];
    return sum;
}

static void print_listing(const uint64_t *figures)
{
    size_t i;
    for (i = 0; i < FIGURES; i++)
        printf("%s %llu ", names[i], (unsigned long long)figures[i]);
    printf("passes %lu\n", sum_of_passes());
    for (i = 0; i < g.n; i++)
        printf("%zu %u %u\n", i + 1, numbers[i], levels[i]);
}

int main(int argc, char **argv)
{
    uint64_t figures[FIGURES];
    unsigned refusal = read_graph(argc > 1 ? argv[1] : "examples/bracket.grd", &g);
    if (refusal == 0)
        refusal = wagonepoch_run(g.starts, g.n + 1, g.neighbours, g.entries, g.counts, g.n, numbers, NODES, levels, NODES, passes, NODES,
                                 scratch, 6 * NODES, figures, FIGURES);
    if (refusal == 0)
        print_listing(figures);
    else
        printf("refused %u\n", refusal);
    /* a listing that could not be written whole is none */
    return fflush(stdout) != 0 || ferror(stdout) ? 2 : refusal != 0;
}
