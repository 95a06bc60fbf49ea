/* The build of document 01 in plain C, unproved, to measure the proved one against: the same words in the same buffers. */
#ifndef GOWKAROO_BENCH_PLAIN_H
#define GOWKAROO_BENCH_PLAIN_H

#include <stddef.h>
#include <stdint.h>

/* How a cost's position is found on its ladder. */
enum find { FIND_BY_HALVES, FIND_BY_CLIMBING, FIND_BY_KEY };

/* The sizes of a request's table. */
struct plain_shape {
    uint32_t buckets[2]; /* B; 1 for a criterion with no ratio */
    uint32_t cells;      /* C */
    size_t ladder_words;
    size_t label_words;
};

/* Of an accepted request: eight words as in gowkaroo.h, and m arcs. */
struct plain_shape plain_shape(const uint32_t *request, const uint32_t *arcs, uint32_t m);

/* Fills the ladders and the labels of an accepted request, whose shape is given, and answers the sum of all tries. */
uint64_t plain_build_by_halves(const uint32_t *request, const uint32_t *arcs, uint32_t m, struct plain_shape shape, uint32_t *ladders, uint32_t *labels);
uint64_t plain_build_by_climbing(const uint32_t *request, const uint32_t *arcs, uint32_t m, struct plain_shape shape, uint32_t *ladders, uint32_t *labels);
uint64_t plain_build_by_key(const uint32_t *request, const uint32_t *arcs, uint32_t m, struct plain_shape shape, uint32_t *ladders, uint32_t *labels);

#endif
