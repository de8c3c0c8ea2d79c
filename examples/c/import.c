/* Takes a numbering that another mesh tool made and eliminates by it: a mesh file, and a text of numbers, bandwidth, profile and front as the tool
   sent them, in unknowns, and then pairs of an old and a new number. A node that no pair names keeps its number. Such a text, out of a listing:
       awk 'NR == 1 { print $6, $8, $10 } NR > 1 { print $1, $2 }' examples/bracket.txt > pairs.txt
   Status 0 eliminated, 1 refused, 2 neither.
   cc -Iinclude examples/c/import.c examples/c/grd.c target/staticlib/libcapi.a */
#include <inttypes.h>
#include <stdio.h>
#include <stdlib.h>
#include "grd.h"

/* Two words more than a numbering of the most nodes has: of a longer list the call refuses the front as it would the whole. */
enum { NODES = WAGONEPOCH_NODES, MOST_WORDS = 2 * NODES + 2, FIGURES = 3 };

static struct graph g;
static uint16_t pairs[MOST_WORDS], numbers[NODES], scratch[NODES];
static uint64_t figures[FIGURES];

static void stop(const char *name, const char *why)
{
    fprintf(stderr, "%s: %s\n", name, why);
    exit(2);
}

/* The figures and the pairs of the named file; how many words the pairs have. */
static size_t read_pairs(const char *name)
{
    FILE *f = fopen(name, "r");
    uint64_t number;
    size_t i, count = 0;
    if (f == NULL)
        stop(name, "cannot be read");
    for (i = 0; i < FIGURES; i++)
        if (fscanf(f, "%" SCNu64, &figures[i]) != 1)
            stop(name, "begins with bandwidth, profile and front");
    while (count < MOST_WORDS && fscanf(f, "%" SCNu64, &number) == 1) {
        if (number > UINT16_MAX)
            stop(name, "has a number that no word holds");
        pairs[count++] = (uint16_t)number;
    }
    if (ferror(f) || (count < MOST_WORDS && !feof(f)))
        stop(name, "has something else than numbers");
    fclose(f);
    return count;
}

static int ended(const char *call, unsigned refusal)
{
    printf("%s: refused %u\n", call, refusal);
    return fflush(stdout) != 0 ? 2 : 1;
}

int main(int argc, char **argv)
{
    size_t i, words, unknowns = 0, bytes_len;
    uint64_t counted[WAGONEPOCH_ELIMINATE_FIGURES];
    uint8_t *bytes;
    unsigned refusal;
    if (argc != 3)
        stop("import", "needs a mesh file and a file of pairs");
    refusal = read_graph(argv[1], &g);
    if (refusal != 0)
        return ended("mesh", refusal);
    words = read_pairs(argv[2]);
    for (i = 0; i < g.n; i++)
        unknowns += g.counts[i];
    printf("mesh: nodes %zu unknowns %zu entries %zu\n", g.n, unknowns, g.entries);
    refusal = wagonepoch_import_numbering(g.starts, g.n + 1, g.neighbours, g.entries, g.counts, g.n, pairs, words,
                                          figures[0], figures[1], figures[2], numbers, NODES, scratch, NODES);
    if (refusal != 0)
        return ended("import", refusal);
    printf("import: pairs %zu bandwidth %" PRIu64 " profile %" PRIu64 " front %" PRIu64 "\n", words / 2, figures[0], figures[1], figures[2]);
    /* the profile is now known to be that of the numbers, so its bytes are enough and nothing can be refused */
    bytes_len = (size_t)(figures[1] + 7) / 8;
    bytes = malloc(bytes_len + 1);
    if (bytes == NULL)
        stop("import", "no room for the marks");
    refusal = wagonepoch_eliminate(g.starts, g.n + 1, g.neighbours, g.entries, g.counts, g.n, numbers, g.n, scratch, NODES, bytes, bytes_len,
                                   counted, WAGONEPOCH_ELIMINATE_FIGURES);
    free(bytes);
    if (refusal != 0)
        return ended("eliminate", refusal);
    printf("store: places %" PRIu64 " marked %" PRIu64 " new %" PRIu64 "\n", figures[1], counted[0], counted[1]);
    return fflush(stdout) != 0 || ferror(stdout) ? 2 : 0;
}
