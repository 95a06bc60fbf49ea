/* The rounds of document 01, loop by loop as it tells them. */
#include "plain.h"

#include "gowkaroo.h"

/* "the next fence is b x (p+q) / q rounded down, plus 1" */
static uint32_t next_fence(uint32_t p, uint32_t q, uint32_t b) { return (uint32_t)((uint64_t)b * (p + q) / q) + 1; }

struct plain_shape plain_shape(const uint32_t *request, const uint32_t *arcs, uint32_t m) {
    uint32_t d = request[GOWKAROO_AT_CRITERIA], k = request[GOWKAROO_AT_HOPS];
    struct plain_shape shape = {{1, 1}, 1, 0, 0};
    for (uint32_t j = 0; j + 1 < d; j++) {
        uint32_t p = request[GOWKAROO_AT_P1 + 2 * j], q = request[GOWKAROO_AT_Q1 + 2 * j];
        /* "A criterion's ladder top T is K times its largest arc cost"; "B is the position of T, plus 1" */
        uint32_t largest = 0;
        for (uint32_t a = 0; a < m; a++)
            if (arcs[a * (d + 2) + 2 + j] > largest)
                largest = arcs[a * (d + 2) + 2 + j];
        uint32_t top = k * largest, buckets = 1;
        for (uint32_t fence = next_fence(p, q, 0); fence <= top; fence = next_fence(p, q, fence))
            buckets++;
        shape.buckets[j] = buckets;
        shape.cells *= buckets;
        shape.ladder_words += buckets + 1;
    }
    shape.label_words = (size_t)(k + 1) * request[GOWKAROO_AT_NODES] * shape.cells * (d + 2);
    return shape;
}

/* "Cost c has position j when fence j <= c < fence j+1": halving the ladder of `buckets` buckets. */
static inline uint32_t by_halves(const uint32_t *ladder, uint32_t buckets, uint32_t cost) {
    uint32_t low = 0, high = buckets;
    while (high - low > 1) {
        uint32_t middle = (low + high) / 2;
        if (ladder[middle] <= cost)
            low = middle;
        else
            high = middle;
    }
    return low;
}

/* The same, climbing up or down from the last position found. */
static inline uint32_t by_climbing(const uint32_t *ladder, uint32_t last, uint32_t cost) {
    while (ladder[last] > cost)
        last--;
    while (ladder[last + 1] <= cost)
        last++;
    return last;
}

/* The same from a table: costs of one key, which is the highest nine bits of a cost and where they stand, have their lowest position
 * looked up, and the rest is climbed. */
enum { KEYS = 256 * 20 };

static inline uint32_t key_of(uint32_t cost) {
    if (cost < 256)
        return cost;
    uint32_t up = 23 - (uint32_t)__builtin_clz(cost);
    return (up + 1) * 256 + ((cost >> up) & 255);
}

static void fill_keys(uint16_t *keys, const uint32_t *ladder, uint32_t buckets) {
    uint32_t at = 0;
    for (uint32_t key = 0; key < KEYS; key++) {
        uint32_t up = key < 512 ? 0 : key / 256 - 1, low = key < 256 ? key : (256 + key % 256) << up;
        while (at + 1 < buckets && ladder[at + 1] <= low)
            at++;
        keys[key] = (uint16_t)at;
    }
}

static inline uint32_t by_key(const uint16_t *keys, const uint32_t *ladder, uint32_t cost) {
    uint32_t at = keys[key_of(cost)];
    while (ladder[at + 1] <= cost)
        at++;
    return at;
}

static inline __attribute__((always_inline)) uint64_t build(enum find find, const uint32_t *restrict request, const uint32_t *restrict arcs, uint32_t m,
                                                            struct plain_shape shape, uint32_t *restrict ladders, uint32_t *restrict labels) {
    uint32_t n = request[GOWKAROO_AT_NODES], d = request[GOWKAROO_AT_CRITERIA], k = request[GOWKAROO_AT_HOPS], w = d + 2;
    size_t block = (size_t)shape.cells * w, layer = n * block;
    uint64_t tries = 0;
    /* "its ladder is fences 0 to B [..] stored one ladder after another" */
    uint32_t *ladder[2] = {ladders, ladders + shape.buckets[0] + 1};
    for (uint32_t j = 0; j + 1 < d; j++) {
        ladder[j][0] = 0;
        for (uint32_t i = 0; i < shape.buckets[j]; i++)
            ladder[j][i + 1] = next_fence(request[GOWKAROO_AT_P1 + 2 * j], request[GOWKAROO_AT_Q1 + 2 * j], ladder[j][i]);
    }
    static uint16_t keys[2][KEYS];
    for (uint32_t j = 0; find == FIND_BY_KEY && j + 1 < d; j++)
        fill_keys(keys[j], ladder[j], shape.buckets[j]);
    /* "Layer 0 is empty but for the source's cell 0, a start." */
    for (size_t i = 0; i < layer; i++)
        labels[i] = 0;
    labels[request[GOWKAROO_AT_SOURCE] * block + d] = 1;
    for (uint32_t round = 1; round <= k; round++) {
        const uint32_t *before = labels + (round - 1) * layer;
        uint32_t *own = labels + round * layer;
        /* "Round i (1 to K) first keeps every filled label of layer i-1." */
        for (size_t at = 0; at < layer; at += w) {
            for (uint32_t j = 0; j < d; j++)
                own[at + j] = before[at + j];
            own[at + d] = before[at + d] != 0 ? 2 : 0;
            own[at + d + 1] = 0;
        }
        /* "Then arcs in table order, and for each arc the tail's filled cells of layer i-1 in rising order" */
        for (uint32_t a = 0; a < m; a++) {
            const uint32_t *arc = arcs + a * w, *tail = before + arc[0] * block;
            uint32_t *head = own + arc[1] * block;
            uint32_t last[2] = {0, 0};
            for (uint32_t from = 0; from < shape.cells; from++) {
                const uint32_t *label = tail + (size_t)from * w;
                if (label[d] == 0)
                    continue;
                /* "costs plus arc costs make a candidate, which is one try" */
                tries++;
                uint32_t costs[3] = {0, 0, 0}, cell = 0;
                for (uint32_t j = 0; j < d; j++)
                    costs[j] = label[j] + arc[2 + j];
                for (uint32_t j = 0; j + 1 < d; j++) {
                    last[j] = find == FIND_BY_HALVES ? by_halves(ladder[j], shape.buckets[j], costs[j])
                              : find == FIND_BY_KEY  ? by_key(keys[j], ladder[j], costs[j])
                                                     : by_climbing(ladder[j], last[j], costs[j]);
                    cell = cell * shape.buckets[j] + last[j];
                }
                /* "It goes to its cell at the head in layer i if that is empty or holds a strictly larger last cost." */
                uint32_t *held = head + (size_t)cell * w;
                if (held[d] == 0 || held[d - 1] > costs[d - 1]) {
                    for (uint32_t j = 0; j < d; j++)
                        held[j] = costs[j];
                    held[d] = 3 + a;
                    held[d + 1] = from;
                }
            }
        }
    }
    return tries;
}

uint64_t plain_build_by_halves(const uint32_t *request, const uint32_t *arcs, uint32_t m, struct plain_shape shape, uint32_t *ladders, uint32_t *labels) {
    return build(FIND_BY_HALVES, request, arcs, m, shape, ladders, labels);
}

uint64_t plain_build_by_climbing(const uint32_t *request, const uint32_t *arcs, uint32_t m, struct plain_shape shape, uint32_t *ladders, uint32_t *labels) {
    return build(FIND_BY_CLIMBING, request, arcs, m, shape, ladders, labels);
}

uint64_t plain_build_by_key(const uint32_t *request, const uint32_t *arcs, uint32_t m, struct plain_shape shape, uint32_t *ladders, uint32_t *labels) {
    return build(FIND_BY_KEY, request, arcs, m, shape, ladders, labels);
}
