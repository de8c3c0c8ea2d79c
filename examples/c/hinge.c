/* Two plates that a row of hinges joins, held at their far ends and loaded at the hinges: renumbered, stored in the profile of its unknowns,
   factored there and solved, and held against a dense solve that knows no profile. A plate's node has six unknowns, three displacements and three
   rotations; a hinge has its three displacements alone, as it passes no moment on. Status 0 where both solves agree, else 1.
   cc -Iinclude examples/c/hinge.c target/staticlib/libcapi.a */
#include <stdio.h>
#include <stdlib.h>
#include "wagonepoch.h"

/* A lattice of so many squares along and across, with a notch in each plate; the hinges stand in its middle. Nodes are numbered along it, so the
   old band is wide. */
enum { ALONG = 12, ACROSS = 4, ROW = ALONG + 1, NODES = ROW * (ACROSS + 1), MOST_SQUARES = ALONG * ACROSS, MIDDLE = ALONG / 2 };
enum { PLATE = 6, HINGE = 3, MOST = PLATE * NODES, QUADRILATERAL = 3, QUADRILATERAL_WORDS = 5 };

/* Stiffness of a beam against stretching, bending and twisting, of a held end, and the load on a hinge. */
static const double EA = 1000, EI = 2, GJ = 1, HELD = 10000, LOAD = -1;

static uint16_t elements[QUADRILATERAL_WORDS * MOST_SQUARES], starts[NODES + 1], neighbours[WAGONEPOCH_ENTRIES], counts[NODES];
static uint16_t numbers[NODES], levels[NODES], passes[NODES], scratch[6 * NODES];
static size_t squares, entries;

static void stop_if(unsigned refusal, const char *call)
{
    if (refusal != 0) {
        printf("%s: refused %u\n", call, refusal);
        exit(1);
    }
}

static void *room(size_t count, size_t size)
{
    void *made = calloc(count + 1, size);
    if (made == NULL)
        exit(2);
    return made;
}

static size_t node(size_t x, size_t y)
{
    return y * ROW + x;
}

/* Whether a square is there, by its lowest corner: none lies past the edges or in a notch. */
static int there(size_t x, size_t y)
{
    return x < ALONG && y < ACROSS && !(x == 2 && y == 0) && !(x == ALONG - 3 && y == ACROSS - 1);
}

/* The mesh: squares of four nodes that all adjoin, and the counts of unknowns. */
static void draw(void)
{
    size_t x, y;
    uint16_t *words = elements;
    for (y = 0; y <= ACROSS; y++)
        for (x = 0; x <= ALONG; x++) {
            counts[node(x, y)] = x == MIDDLE ? HINGE : PLATE;
            if (!there(x, y))
                continue;
            *words++ = QUADRILATERAL;
            *words++ = (uint16_t)(node(x, y) + 1);
            *words++ = (uint16_t)(node(x + 1, y) + 1);
            *words++ = (uint16_t)(node(x + 1, y + 1) + 1);
            *words++ = (uint16_t)(node(x, y + 1) + 1);
            squares++;
        }
}

/* A matrix in its profile, and the numbers of its unknowns, from 0: node p has those from begin[p] on. Row q has its diagonal apart, and
   the places from[q] on for the unknowns first_of(q) to q - 1: the store map has both, by numbers from 1. */
struct store {
    size_t unknowns, begin[NODES];
    uint16_t first[MOST];
    uint32_t from[MOST + 1];
    double diagonal[MOST], *places;
};

/* Unknowns take consecutive numbers in the order of their nodes. The map says how many there are, and how many places. */
static void lay_out(struct store *s, const uint16_t *numbering)
{
    size_t at[NODES], p, q, next = 0;
    uint64_t f[WAGONEPOCH_STORE_MAP_FIGURES];
    for (p = 0; p < NODES; p++)
        at[numbering[p] - 1] = p;
    for (q = 0; q < NODES; q++) {
        s->begin[at[q]] = next;
        next += counts[at[q]];
    }
    stop_if(wagonepoch_store_map(starts, NODES + 1, neighbours, entries, counts, NODES, numbering, NODES, scratch, NODES, s->first, MOST,
                                 s->from, MOST + 1, f, WAGONEPOCH_STORE_MAP_FIGURES), "store map");
    s->unknowns = (size_t)f[1];
    s->places = room((size_t)f[0], sizeof *s->places);
}

static size_t first_of(const struct store *s, size_t q)
{
    return s->first[q] - 1u;
}

/* The place of the coefficient of p < q; p is at least first_of(q). */
static double *place(struct store *s, size_t p, size_t q)
{
    return s->places + s->from[q] + p - first_of(s, q);
}

static void add(struct store *s, size_t p, size_t q, double value)
{
    if (p == q)
        s->diagonal[q] += value;
    else if (p < q)
        *place(s, p, q) += value;
}

/* L D L', row by row; no place outside the profile is ever needed. Whether every pivot is positive. */
static int factor(struct store *s)
{
    size_t p, q, k;
    double scaled;
    for (q = 0; q < s->unknowns; q++) {
        for (p = first_of(s, q); p < q; p++)
            for (k = first_of(s, s->first[p] > s->first[q] ? p : q); k < p; k++)
                *place(s, p, q) -= *place(s, k, q) * *place(s, k, p);
        for (p = first_of(s, q); p < q; p++) {
            scaled = *place(s, p, q) / s->diagonal[p];
            s->diagonal[q] -= *place(s, p, q) * scaled;
            *place(s, p, q) = scaled;
        }
        if (!(s->diagonal[q] > 0))
            return 0;
    }
    return 1;
}

/* From the right side to the solution, in the same list. */
static void solve(struct store *s, double *x)
{
    size_t p, q;
    for (q = 0; q < s->unknowns; q++)
        for (p = first_of(s, q); p < q; p++)
            x[q] -= *place(s, p, q) * x[p];
    for (q = 0; q < s->unknowns; q++)
        x[q] /= s->diagonal[q];
    for (q = s->unknowns; q-- > 0;)
        for (p = first_of(s, q); p < q; p++)
            x[p] -= *place(s, p, q) * x[q];
}

/* The same matrix with all its places, in the order of the old numbers. */
struct dense {
    size_t unknowns, begin[NODES];
    double coefficient[MOST][MOST];
};

static void number_dense(struct dense *d)
{
    size_t p;
    for (d->unknowns = 0, p = 0; p < NODES; p++) {
        d->begin[p] = d->unknowns;
        d->unknowns += counts[p];
    }
}

/* Gauss: the lower half goes, then the solution comes from below. */
static void solve_dense(struct dense *d, double *x)
{
    size_t p, q, k;
    double times;
    for (p = 0; p < d->unknowns; p++)
        for (q = p + 1; q < d->unknowns; q++) {
            times = d->coefficient[q][p] / d->coefficient[p][p];
            for (k = p; k < d->unknowns; k++)
                d->coefficient[q][k] -= times * d->coefficient[p][k];
            x[q] -= times * x[p];
        }
    for (p = d->unknowns; p-- > 0;) {
        for (k = p + 1; k < d->unknowns; k++)
            x[p] -= d->coefficient[p][k] * x[k];
        x[p] /= d->coefficient[p][p];
    }
}

/* The stiffness. The plates are lattices of beams in a plane; a beam joins two nodes of a square, along a side or a diagonal. */
struct beam {
    size_t ends[2];
    double length, along[3], across[3];
};

static struct store by_profile;
static struct dense by_rows;

static void add_both(size_t p, size_t i, size_t q, size_t j, double value)
{
    add(&by_profile, by_profile.begin[p] + i, by_profile.begin[q] + j, value);
    by_rows.coefficient[by_rows.begin[p] + i][by_rows.begin[q] + j] += value;
}

/* One way to deform, with its stiffness: the displacement of the second end against the first in one direction, by the length and so many times,
   and the turn of each end about an axis, so many times. A hinge has no turn: its factor is 0. */
static void add_way(const struct beam *b, double stiffness, const double *way, double chord, const double *axis, double left, double right)
{
    double share[2][PLATE];
    size_t i, j, one, other;
    for (i = 0; i < 3; i++) {
        share[0][i] = -chord * way[i] / b->length;
        share[1][i] = chord * way[i] / b->length;
        share[0][3 + i] = left * axis[i];
        share[1][3 + i] = right * axis[i];
    }
    for (one = 0; one < 2; one++)
        for (other = 0; other < 2; other++)
            for (i = 0; i < counts[b->ends[one]]; i++)
                for (j = 0; j < counts[b->ends[other]]; j++)
                    add_both(b->ends[one], i, b->ends[other], j, stiffness * share[one][i] * share[other][j]);
}

/* Bending in one plane: a bow and an S; where an end is a hinge the bow alone that leaves it free. */
static void add_bending(const struct beam *b, const double *way, const double *axis)
{
    int left = counts[b->ends[0]] == PLATE, right = counts[b->ends[1]] == PLATE;
    double stiffness = EI / b->length;
    if (left && right) {
        add_way(b, stiffness, way, 0, axis, -1, 1);
        add_way(b, 3 * stiffness, way, -2, axis, 1, 1);
    } else if (left || right) {
        add_way(b, 3 * stiffness, way, -1, axis, left, right);
    }
}

static void add_beam(size_t p, size_t q)
{
    static const double up[3] = { 0, 0, 1 };
    struct beam b = { { p, q }, 1, { 0, 0, 0 }, { 0, 0, 0 } };
    double x = (double)(q % ROW) - (double)(p % ROW), y = (double)(q / ROW) - (double)(p / ROW);
    double level[3];
    size_t i;
    if (x != 0 && y != 0)
        b.length = 1.4142135623730951;
    b.along[0] = x / b.length;
    b.along[1] = y / b.length;
    b.across[0] = -b.along[1];
    b.across[1] = b.along[0];
    /* a turn about the axis across lowers the far end */
    for (i = 0; i < 3; i++)
        level[i] = -b.across[i];
    add_way(&b, EA * b.length, b.along, 1, up, 0, 0);
    if (counts[p] == PLATE && counts[q] == PLATE)
        add_way(&b, GJ / b.length, b.along, 0, b.along, -1, 1);
    add_bending(&b, b.across, up);
    add_bending(&b, up, level);
}

/* Each square has six beams; the nodes of both far ends are held in all their unknowns. */
static void assemble(void)
{
    size_t x, y, i, j, e;
    for (e = 0; e < squares; e++)
        for (i = 1; i <= 4; i++)
            for (j = i + 1; j <= 4; j++)
                add_beam(elements[QUADRILATERAL_WORDS * e + i] - 1u, elements[QUADRILATERAL_WORDS * e + j] - 1u);
    for (y = 0; y <= ACROSS; y++)
        for (x = 0; x <= ALONG; x += ALONG)
            for (i = 0; i < PLATE; i++)
                add_both(node(x, y), i, node(x, y), i, HELD);
}

static double size_of(double x)
{
    return x < 0 ? -x : x;
}

/* Both solves of the same load. Whether they agree, as far as rounding lets them. */
static int agree(void)
{
    static double x[MOST], y[MOST];
    double most = 0, apart = 0, here, there;
    size_t p, i;
    for (p = 0; p <= ACROSS; p++) {
        x[by_profile.begin[node(MIDDLE, p)] + 2] = LOAD;
        y[by_rows.begin[node(MIDDLE, p)] + 2] = LOAD;
    }
    solve(&by_profile, x);
    solve_dense(&by_rows, y);
    for (p = 0; p < NODES; p++)
        for (i = 0; i < counts[p]; i++) {
            here = x[by_profile.begin[p] + i];
            there = y[by_rows.begin[p] + i];
            most = size_of(there) > most ? size_of(there) : most;
            apart = size_of(here - there) > apart ? size_of(here - there) : apart;
        }
    return most > 0 && apart <= 1e-8 * most;
}

/* How many places of the factor hold something though the elimination left them unmarked. */
static size_t filled_in_vain(struct store *s, const uint8_t *bytes)
{
    size_t t, found = 0;
    for (t = 0; t < s->from[s->unknowns]; t++)
        found += (bytes[t / 8] >> (t % 8) & 1) == 0 && s->places[t] != 0;
    return found;
}

static void print_measures(const char *when, const uint16_t *numbering)
{
    uint64_t f[WAGONEPOCH_MEASURES_FIGURES];
    stop_if(wagonepoch_measures(starts, NODES + 1, neighbours, entries, counts, NODES, numbering, NODES, scratch, NODES, f,
                                WAGONEPOCH_MEASURES_FIGURES), "measures");
    printf("%s: bandwidth %llu profile %llu front %llu\n", when, (unsigned long long)f[0], (unsigned long long)f[1], (unsigned long long)f[2]);
}

/* How the run numbers the part of node 1, which is all: its width is in unknowns. */
static void print_part(void)
{
    uint64_t f[WAGONEPOCH_PART_REPORT_FIGURES];
    stop_if(wagonepoch_part_report(starts, NODES + 1, neighbours, entries, counts, NODES, 1, scratch, 6 * NODES, f,
                                   WAGONEPOCH_PART_REPORT_FIGURES), "part report");
    printf("part: levels %llu width %llu %s\n", (unsigned long long)f[2], (unsigned long long)f[3],
           f[5] == WAGONEPOCH_REVERSED ? "reversed" : "forward");
}

int main(void)
{
    uint64_t f[WAGONEPOCH_RUN_FIGURES];
    uint8_t *bytes;
    size_t length, p, in_vain;
    int solved;
    draw();
    stop_if(wagonepoch_mesh(NODES, elements, QUADRILATERAL_WORDS * squares, starts, NODES + 1, neighbours, WAGONEPOCH_ENTRIES, scratch, NODES, f,
                            WAGONEPOCH_MESH_FIGURES), "mesh");
    entries = (size_t)f[0];
    for (p = 0; p < NODES; p++)
        numbers[p] = (uint16_t)(p + 1);
    number_dense(&by_rows);
    printf("mesh: nodes %d unknowns %zu hinges %d\n", NODES, by_rows.unknowns, ACROSS + 1);
    print_measures("before", numbers);
    stop_if(wagonepoch_run(starts, NODES + 1, neighbours, entries, counts, NODES, numbers, NODES, levels, NODES, passes, NODES,
                           scratch, 6 * NODES, f, WAGONEPOCH_RUN_FIGURES), "run");
    length = (size_t)(f[3] + 7) / 8;
    print_measures("after", numbers);
    print_part();
    lay_out(&by_profile, numbers);
    assemble();
    solved = factor(&by_profile);
    bytes = room(length, 1);
    stop_if(wagonepoch_eliminate(starts, NODES + 1, neighbours, entries, counts, NODES, numbers, NODES, scratch, NODES, bytes, length, f,
                                 WAGONEPOCH_ELIMINATE_FIGURES), "eliminate");
    in_vain = filled_in_vain(&by_profile, bytes);
    printf("store: places %lu marked %llu\n", (unsigned long)by_profile.from[by_profile.unknowns], (unsigned long long)f[0]);
    printf("factor: %s, places filled without a mark %zu\n", solved ? "every pivot positive" : "a pivot is not positive", in_vain);
    solved = solved && agree();
    printf("solution: %s\n", solved ? "as the dense solve has it" : "not as the dense solve has it");
    free(bytes);
    free(by_profile.places);
    return !solved || in_vain != 0;
}
