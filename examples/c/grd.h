/* A mesh file (GRD, version 1 or 2), its graph and the unknowns of its nodes, for a C caller: the words of the elements handed to
   wagonepoch_mesh. */
#ifndef GRD_H
#define GRD_H

#include "wagonepoch.h"

struct graph {
    size_t n, entries;
    /* counts: how many unknowns each node has, 1 to 6 */
    uint16_t starts[WAGONEPOCH_NODES + 1], neighbours[WAGONEPOCH_ENTRIES], counts[WAGONEPOCH_NODES];
};

/* Makes the graph of the named file. Answers 0, or what ./renumber refuses the file by; ends the program with status 2 where it can't be read. */
unsigned read_graph(const char *name, struct graph *g);

#endif
