/* Measures the proved build against plain C on the same inputs, in one process. Each row first compares every word. Then the whole
 * C call, from a sheet's bytes to its listing's. */
#include <stdint.h>
#include <stdio.h>
#include <string.h>
#include <time.h>

#include "gowkaroo.h"
#include "plain.h"

enum costs { RANDOM, OPPOSED };

struct row {
    uint32_t nodes, arcs, hops, criteria, p, q, most;
    enum costs costs;
};

static const struct row rows[] = {
    /*  N    M   K  d   p   q     most     costs */
    {16, 128, 15, 2, 1, 1, 1000, RANDOM},
    {64, 512, 63, 2, 1, 1, 1000000, OPPOSED},
    {32, 256, 63, 2, 1, 10, 1000, RANDOM},
    {64, 512, 63, 2, 1, 10, 1000, OPPOSED},
    {64, 512, 31, 2, 1, 10, 1000000, OPPOSED},
    {64, 512, 15, 2, 1, 64, 1000, RANDOM},
    {64, 512, 15, 2, 1, 64, 1000, OPPOSED},
    {32, 256, 31, 2, 1, 64, 1000000, RANDOM},
    {64, 512, 15, 2, 1, 64, 1000000, OPPOSED},
    {32, 256, 4, 2, 0, 1, 1000, RANDOM},
    {32, 512, 4, 2, 0, 1, 1000, OPPOSED},
    {64, 512, 15, 3, 1, 1, 1000, RANDOM},
    {64, 512, 15, 3, 1, 1, 1000000, OPPOSED},
    {16, 128, 7, 3, 1, 10, 1000, RANDOM},
    {16, 256, 7, 3, 1, 10, 1000, OPPOSED},
};

enum { RUNS = 15, BUILDS = 4 };

static uint32_t arcs[GOWKAROO_MOST_ARC_WORDS];
static uint32_t ladders[2][GOWKAROO_MOST_LADDER_WORDS];
static uint32_t labels[2][GOWKAROO_MOST_LABEL_WORDS];

static uint64_t state;

static uint32_t below(uint32_t count) {
    state ^= state >> 12;
    state ^= state << 25;
    state ^= state >> 27;
    return (uint32_t)((state * 0x2545f4914f6cdd1du >> 32) % count);
}

/* A ring through all nodes, so that each is reached, and arcs between any two different ones. Opposed: the first cost is high where
 * the second is low, so that few walks are better than others in both. */
static void draw(const struct row *row) {
    state = 88172645463325252u;
    for (uint32_t a = 0; a < row->arcs; a++) {
        uint32_t *arc = arcs + a * (row->criteria + 2);
        arc[0] = a < row->nodes ? a : below(row->nodes);
        arc[1] = (arc[0] + (a < row->nodes ? 1 : 1 + below(row->nodes - 1))) % row->nodes;
        for (uint32_t j = 0; j < row->criteria; j++)
            arc[2 + j] = below(row->most + 1);
        if (row->costs == OPPOSED) {
            uint32_t noise = row->most / 16 + 1;
            uint32_t other = row->most - arc[2] + below(noise);
            arc[3] = other > row->most ? row->most : other;
        }
    }
}

static double now(void) {
    struct timespec at;
    clock_gettime(CLOCK_MONOTONIC, &at);
    return (double)at.tv_sec + (double)at.tv_nsec * 1e-9;
}

struct input {
    uint32_t request[GOWKAROO_REQUEST_WORDS];
    uint32_t m;
    size_t arc_words;
    struct plain_shape shape;
};

/* The build number `which`, into its own buffers. */
static uint64_t run(int which, const struct input *in) {
    if (which == 0)
        return gowkaroo_build(in->request, arcs, in->arc_words, ladders[0], GOWKAROO_MOST_LADDER_WORDS, labels[0], GOWKAROO_MOST_LABEL_WORDS);
    /* plain C finds the shape each time too: it is a part of the build */
    struct plain_shape shape = plain_shape(in->request, arcs, in->m);
    if (which == 1)
        return plain_build_by_halves(in->request, arcs, in->m, shape, ladders[1], labels[1]);
    if (which == 2)
        return plain_build_by_climbing(in->request, arcs, in->m, shape, ladders[1], labels[1]);
    return plain_build_by_key(in->request, arcs, in->m, shape, ladders[1], labels[1]);
}

/* The shortest of many proved builds of one table and nothing else: the same nodes, hops and ladders, but a single arc, of the largest
 * costs, which leads from a node that nothing reaches. So no label is tried: the layers are cleared and kept, as in every build. */
static double lay_out(const struct row *row, const struct input *in) {
    uint32_t arc[5] = {1, 2, 0, 0, 0};
    for (uint32_t a = 0; a < in->m; a++)
        for (uint32_t j = 0; j < row->criteria; j++) {
            uint32_t cost = arcs[a * (row->criteria + 2) + 2 + j];
            if (arc[2 + j] < cost)
                arc[2 + j] = cost;
        }
    double best = 1e9, until = now() + 0.1;
    for (double begun = now(), ended; begun < until; begun = ended) {
        gowkaroo_build(in->request, arc, row->criteria + 2, ladders[0], GOWKAROO_MOST_LADDER_WORDS, labels[0], GOWKAROO_MOST_LABEL_WORDS);
        ended = now();
        if (ended - begun < best)
            best = ended - begun;
    }
    return best;
}

static int measure(const struct row *row) {
    struct input in = {{row->nodes, row->criteria, 0, row->hops, row->p, row->q, row->p, row->q}, row->arcs, row->arcs * (row->criteria + 2), {{0, 0}, 0, 0, 0}};
    draw(row);
    in.shape = plain_shape(in.request, arcs, in.m);
    size_t all = (size_t)GOWKAROO_MOST_LABEL_WORDS * 4;
    memset(labels[0], 0xa5, all);
    memset(ladders[0], 0xa5, sizeof ladders[0]);
    uint64_t tries = run(0, &in);
    if (gowkaroo_number(tries) != GOWKAROO_DONE) {
        printf("refused %u, place %u\n", gowkaroo_number(tries), gowkaroo_low(tries));
        return 1;
    }
    for (int which = 1; which < BUILDS; which++) {
        memset(labels[1], 0xa5, all);
        memset(ladders[1], 0xa5, sizeof ladders[1]);
        if (run(which, &in) != tries || memcmp(labels[0], labels[1], all) != 0 || memcmp(ladders[0], ladders[1], sizeof ladders[0]) != 0) {
            printf("plain C %d and the proved build differ\n", which);
            return 1;
        }
    }
    double best[BUILDS] = {1e9, 1e9, 1e9, 1e9};
    for (int turn = 0; turn < RUNS; turn++)
        for (int which = 0; which < BUILDS; which++) {
            double until = now() + 0.02;
            for (double begun = now(), ended; begun < until; begun = ended) {
                uint64_t again = run(which, &in);
                ended = now();
                if (again != tries)
                    return 1;
                if (ended - begun < best[which])
                    best[which] = ended - begun;
            }
        }
    printf("| %u | %u | %u | %u | %u/%u | %u | %s | %u | %lu | %.3f | %.3f | %.3f | %.3f | %.2f | %.2f | %.2f | %.1f | %.0f%% |\n", row->nodes, row->arcs, row->hops,
           row->criteria, row->p, row->q, row->most, row->costs == RANDOM ? "random" : "opposed", in.shape.cells, (unsigned long)tries, best[0] * 1e3,
           best[1] * 1e3, best[2] * 1e3, best[3] * 1e3, best[0] / best[1], best[0] / best[2], best[0] / best[3], (double)tries / best[0] / 1e6,
           100 * lay_out(row, &in) / best[0]);
    fflush(stdout);
    return 0;
}

/* The shortest of many whole C calls on a sheet. */
static int list(const char *name, const uint8_t *sheet, size_t bytes) {
    static uint8_t listing[GOWKAROO_MOST_LISTING_BYTES];
    uint64_t answer = 0;
    double best = 1e9, until = now() + 0.3;
    for (double begun = now(), ended; begun < until; begun = ended) {
        answer = gowkaroo_list(sheet, bytes, listing, sizeof listing);
        ended = now();
        if (ended - begun < best)
            best = ended - begun;
    }
    if (gowkaroo_number(answer) != GOWKAROO_DONE) {
        printf("%s: refused %u, place %u\n", name, gowkaroo_number(answer), gowkaroo_low(answer));
        return 1;
    }
    printf("| %s | %lu | %u | %.1f |\n", name, (unsigned long)bytes, gowkaroo_low(answer), best * 1e6);
    return 0;
}

/* The document's example, and a sheet of about as many bytes as a sheet may have. */
static int list_sheets(void) {
    static const char example[] = "tracks\t4\t2\narc\t0\t1\t4\t5\narc\t0\t1\t6\t3\narc\t0\t2\t1\t9\narc\t1\t3\t2\t2\narc\t2\t3\t6\t1\nask\t0\t2\t1\t1\n";
    static const struct row full = {16, 478, 5, 2, 1, 2, 400, OPPOSED};
    static uint8_t sheet[GOWKAROO_MOST_SHEET_BYTES];
    uint32_t request[GOWKAROO_REQUEST_WORDS] = {full.nodes, full.criteria, 0, full.hops, full.p, full.q, 0, 1};
    draw(&full);
    uint64_t written = gowkaroo_write(request, arcs, full.arcs * (full.criteria + 2), sheet, sizeof sheet);
    if (gowkaroo_number(written) != GOWKAROO_DONE) {
        printf("a full sheet: refused %u, place %u\n", gowkaroo_number(written), gowkaroo_low(written));
        return 1;
    }
    printf("\n| the whole C call | sheet bytes | listing bytes | microseconds |\n|--|--|--|--|\n");
    if (list("the document's example", (const uint8_t *)example, sizeof example - 1) != 0)
        return 1;
    return list("a full sheet", sheet, gowkaroo_low(written));
}

int main(void) {
    printf("| N | M | K | d | ratio | costs to | costs | C | tries | proved, ms | halving, ms | climbing, ms | keys, ms | to halving | to climbing | to keys | million tries/s | laying out |\n");
    printf("|--|--|--|--|--|--|--|--|--|--|--|--|--|--|--|--|--|--|\n");
    for (size_t i = 0; i < sizeof rows / sizeof rows[0]; i++)
        if (measure(&rows[i]) != 0)
            return 1;
    return list_sheets();
}
