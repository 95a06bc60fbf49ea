/* The route planner for C. Link with target/staticlib/libdesk.a (examples/c/build.sh makes it).
 *
 * Every function answers one 64-bit number, which is never anything else than
 *
 *     number x 2^48 + byte x 2^32 + low
 *
 * Number 0: the call succeeded, and low is a count (each function says of what). Any other number is a refusal, by the
 * table below; low is then its place, 0 where none is named. The byte is 0 for now.
 *
 * Rules for the caller, whom nothing checks:
 *   - a pointer is valid for its length and is never NULL, with length 0 neither; uint32_t pointers are aligned to 4 bytes;
 *   - a buffer that a call writes (its pointer is not const) overlaps no other argument of that call;
 *   - the planner keeps no pointer, allocates nothing, and has no state: the memory stays the caller's, and calls with
 *     different buffers may run at the same time.
 * Nothing else is asked. Whatever the numbers and bytes say, a call ends, stays inside the lent memory, and answers.
 *
 * A refusal changes no lent buffer. What lies beyond the part that an answer fills stays as it was.
 */
#ifndef GOWKAROO_H
#define GOWKAROO_H

#include <stddef.h>
#include <stdint.h>

#ifdef __cplusplus
extern "C" {
#endif

/* ---- The answer ---- */

static inline uint32_t gowkaroo_number(uint64_t answer) { return (uint32_t)(answer >> 48); }
static inline uint32_t gowkaroo_byte(uint64_t answer) { return (uint32_t)(answer >> 32) & 0xffff; }
static inline uint32_t gowkaroo_low(uint64_t answer) { return (uint32_t)answer; }

/* The numbers, and what the place says. 8 and 17 are weighed together, arc by arc, where "2 to 10" has 8: in each arc the nodes'
 * ranges first (8), then a loop (17), then the costs (8). */
enum {
    GOWKAROO_DONE = 0,                 /* no refusal: low is a count */
    GOWKAROO_REFUSED_FORM = 1,         /* sheet form: the first bad line, from 1; one more than the lines if `ask` is missing */
    GOWKAROO_REFUSED_NODES = 2,        /* N is not 1 to 64 */
    GOWKAROO_REFUSED_CRITERIA = 3,     /* d is not 2 or 3 */
    GOWKAROO_REFUSED_SOURCE = 4,       /* the source is not below N */
    GOWKAROO_REFUSED_HOPS = 5,         /* K is over 63 */
    GOWKAROO_REFUSED_RATIO = 6,        /* q is not 1 to 1,000, or p is over q: the first such criterion, from 1 */
    GOWKAROO_REFUSED_ARC_WORDS = 7,    /* the arc words are no multiple of d + 2, or over 512 arcs */
    GOWKAROO_REFUSED_ARC = 8,          /* an arc's node or cost is out of range: the first such arc, from 0 */
    GOWKAROO_REFUSED_BUCKETS = 9,      /* over 4,096 buckets: the first such criterion, from 1 */
    GOWKAROO_REFUSED_LABELS = 10,      /* over 1,048,576 labels */
    GOWKAROO_REFUSED_NUMBER = 11,      /* writer: a number to be written is over 99,999,999 */
    GOWKAROO_REFUSED_SHEET_BYTES = 12, /* the sheet is over 8,192 bytes */
    GOWKAROO_REFUSED_BUFFER = 13,      /* a lent buffer is too short: the first such; each function says which is which */
    GOWKAROO_REFUSED_ASKED = 14,       /* the asked layer is over K, the node not below N or the cell not below C */
    GOWKAROO_REFUSED_EMPTY = 15,       /* the asked cell is empty: its step is 0 */
    GOWKAROO_REFUSED_BROKEN = 16,      /* the chain is broken: the layer where it breaks */
    GOWKAROO_REFUSED_LOOP = 17         /* an arc leads from a node to itself: the first such arc, from 0 */
};

/* ---- Sizes that always suffice ---- */

enum {
    GOWKAROO_MOST_CRITERIA = 3,
    GOWKAROO_MOST_HOPS = 63,                /* route words that always suffice */
    GOWKAROO_MOST_SHEET_BYTES = 8192,
    GOWKAROO_MOST_LISTING_BYTES = 53000,
    GOWKAROO_MOST_ARC_WORDS = 512 * 5,      /* 512 arcs of d + 2 words: tail, head, costs */
    GOWKAROO_MOST_LADDER_WORDS = 2 * 4097,  /* two ladders of 4,096 buckets: B + 1 fences each */
    GOWKAROO_MOST_LABEL_WORDS = 1048576 * 5 /* 1,048,576 labels of d + 2 words: costs, step, from */
};

/* ---- The request: eight words ---- */

enum {
    GOWKAROO_AT_NODES = 0,    /* N, 1 to 64 */
    GOWKAROO_AT_CRITERIA = 1, /* d, 2 or 3 */
    GOWKAROO_AT_SOURCE = 2,   /* below N */
    GOWKAROO_AT_HOPS = 3,     /* K, 0 to 63 */
    GOWKAROO_AT_P1 = 4,       /* the first criterion's ratio, p over q: q 1 to 1,000, p 0 to q */
    GOWKAROO_AT_Q1 = 5,
    GOWKAROO_AT_P2 = 6,       /* the second's; with d = 2 it is not in use: read as 0 over 1, and never looked at */
    GOWKAROO_AT_Q2 = 7,
    GOWKAROO_REQUEST_WORDS = 8
};

/* ---- The functions ---- */

/* Lists a sheet: reader, build and listing in one call, with arc, ladder and label words of its own (about 90 KB of stack). The
 * listing goes to the front of `listing`: a line `cover` with the filled labels of the last layer and the tries, then a line
 * `label` for each of them, with node, costs, arc count and arc numbers; fields are parted by tabs, and every line ends in LF.
 * Low: the listing's length in bytes, always under 53,000. Refusals, in this order: 12, 1, 2 to 10 with 17, 13 (2: the table has
 * over 12,288 words, which this call has of its own; 3: listing). */
uint64_t gowkaroo_list(const uint8_t *sheet, size_t sheet_len,
                       uint8_t *listing, size_t listing_len);

/* Reads a sheet. The request goes to the eight words of `request`, the arcs' words to the front of `arcs`.
 * Low: how many words of `arcs` were filled. Refusals, in this order: 12, 1, 13 (1: arcs). Ranges and loops are judged by
 * the build: a sheet in form is read whatever its numbers are. */
uint64_t gowkaroo_read(const uint8_t *sheet, size_t sheet_len,
                       uint32_t request[GOWKAROO_REQUEST_WORDS],
                       uint32_t *arcs, size_t arcs_len);

/* Writes the sheet of a request and its arcs to the front of `sheet`.
 * Low: the sheet's length in bytes. Refusals: 3, 7, 11, 12, 13 (1: sheet). */
uint64_t gowkaroo_write(const uint32_t request[GOWKAROO_REQUEST_WORDS],
                        const uint32_t *arcs, size_t arcs_len,
                        uint8_t *sheet, size_t sheet_len);

/* Draws up the table of a request. The ladders go one after another to the front of `ladders`, B + 1 words each; the
 * layers 0 to K to the front of `labels`: the label of layer i, node v, cell c starts at word
 * ((i x N + v) x C + c) x (d + 2) and is its costs, its step, its from.
 * Low: the sum of all tries, at most 2^29. Refusals: 2 to 10 with 17, 13 (1: ladders, 2: labels). */
uint64_t gowkaroo_build(const uint32_t request[GOWKAROO_REQUEST_WORDS],
                        const uint32_t *arcs, size_t arcs_len,
                        uint32_t *ladders, size_t ladders_len,
                        uint32_t *labels, size_t labels_len);

/* Reads the label of a layer, node and cell back as a route. It trusts nothing in `labels`: a damaged table is told as such.
 * The route's costs go to the three words of `costs` (with d = 2 the third is 0), its arc numbers in travel order to the front
 * of `route`.
 * Low: the route's arc count. Refusals: 2 to 10 with 17, 13 (1: labels, 2: route under K words), 14, 15 (an empty cell), 16. */
uint64_t gowkaroo_read_back(const uint32_t request[GOWKAROO_REQUEST_WORDS],
                            const uint32_t *arcs, size_t arcs_len,
                            const uint32_t *labels, size_t labels_len,
                            uint32_t layer, uint32_t node, uint32_t cell,
                            uint32_t costs[GOWKAROO_MOST_CRITERIA],
                            uint32_t *route, size_t route_len);

#ifdef __cplusplus
}
#endif

#endif
