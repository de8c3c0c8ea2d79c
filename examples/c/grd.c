/* The file: the letters GRD, then words of two bytes, low byte first: the version, the number of nodes, the number of elements, in version 2 the
   count of unknowns of each node, and each element, its kind and its nodes. In version 1 each node has one unknown. It has at most 65,535 bytes
   and nothing after the last element. */
#include <stdio.h>
#include <stdlib.h>
#include <string.h>
#include "grd.h"

enum { HEADER = 9, MOST_BYTES = 65535, MOST_WORDS = (MOST_BYTES - HEADER) / 2, KINDS = 10, MOST_UNKNOWNS = 6 };

/* How many nodes an element has, by its kind. */
static const size_t node_count[KINDS + 1] = { 0, 2, 3, 4, 4, 5, 6, 8, 6, 8, 10 };

/* One byte more than a file may have, so that a longer one is seen. */
static uint8_t file[MOST_BYTES + 1];
static uint16_t words[MOST_WORDS], scratch[WAGONEPOCH_NODES];

static size_t read_bytes(const char *name)
{
    FILE *f = fopen(name, "rb");
    size_t bytes = f == NULL ? 0 : fread(file, 1, sizeof file, f);
    if (f == NULL || ferror(f)) {
        perror(name);
        exit(2);
    }
    fclose(f);
    return bytes;
}

static uint16_t word_at(size_t at)
{
    return (uint16_t)(file[at] + 256 * file[at + 1]);
}

static int known(size_t kind)
{
    return kind >= 1 && kind <= KINDS;
}

/* The words after the header; how many there are. A last odd byte is none. */
static size_t read_words(size_t bytes)
{
    size_t i, have = (bytes - HEADER) / 2;
    for (i = 0; i < have; i++)
        words[i] = word_at(HEADER + 2 * i);
    return have;
}

/* The counts of unknowns, which stand in front of the elements' words, or ones. Answers 12 where they are cut, or else 15 where one is wrong. */
static unsigned read_counts(size_t version, size_t have, struct graph *g)
{
    unsigned refusal = 0;
    size_t p;
    if (version == 2 && have < g->n)
        return 12;
    for (p = 0; p < g->n; p++) {
        g->counts[p] = version == 2 ? words[p] : 1;
        if (g->counts[p] < 1 || g->counts[p] > MOST_UNKNOWNS)
            refusal = 15;
    }
    return refusal;
}

/* Walks over so many elements, which begin at this word, as far as they are whole and of a known kind; how many were met, and where they end. */
static size_t walk(size_t elements, size_t begin, size_t have, size_t *taken)
{
    size_t met, end;
    *taken = begin;
    for (met = 0; met < elements && *taken < have && known(words[*taken]); met++) {
        end = *taken + 1 + node_count[words[*taken]];
        if (end > have)
            break;
        *taken = end;
    }
    return met;
}

unsigned read_graph(const char *name, struct graph *g)
{
    uint64_t entries[WAGONEPOCH_MESH_FIGURES] = { 0 };
    size_t bytes = read_bytes(name), version, elements, have, begin, met, taken, given;
    unsigned refusal;
    version = bytes < HEADER ? 0 : word_at(3);
    if (bytes < HEADER || bytes > MOST_BYTES || memcmp(file, "GRD", 3) != 0 || (version != 1 && version != 2))
        return 12;
    g->n = word_at(5);
    elements = word_at(7);
    /* before the counts are looked at */
    if (g->n < 1 || g->n > WAGONEPOCH_NODES)
        return 1;
    have = read_words(bytes);
    refusal = read_counts(version, have, g);
    if (refusal != 0)
        return refusal;
    begin = version == 2 ? g->n : 0;
    met = walk(elements, begin, have, &taken);
    /* The mesh call knows no number of elements: it gets those that were met, and the unknown kind that ended the walk, if one did. */
    given = met < elements && taken < have && !known(words[taken]) ? taken + 1 : taken;
    refusal = wagonepoch_mesh(g->n, words + begin, given - begin, g->starts, WAGONEPOCH_NODES + 1, g->neighbours, WAGONEPOCH_ENTRIES,
                              scratch, WAGONEPOCH_NODES, entries, WAGONEPOCH_MESH_FIGURES);
    g->entries = (size_t)entries[0];
    /* Elements missing or bytes left over: after 1, 9 and 10, before 11. */
    if ((refusal == 0 || refusal == 11) && (met < elements || HEADER + 2 * taken < bytes))
        return 12;
    return refusal;
}
