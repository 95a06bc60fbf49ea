/* Runs the planner's calls on cases that come framed on standard input, and answers each on standard output.
 *
 * A case is 17 words (op, 8 request words, layer, node, cell, then five lengths in bytes: sheet, arcs, labels, first
 * lent buffer, second lent buffer), then the bytes of sheet, arcs and labels. An answer is 14 words (faults, the 64-bit
 * answer, 8 request words, 3 costs), then both lent buffers whole. Words are little-endian.
 *
 * A lent buffer begins as a pattern, between guards; what the call is given to read has guards too. Faults: 1 where a guard
 * changed, 2 where something that was given to read changed. */
#include <stdint.h>
#include <stdio.h>
#include <stdlib.h>
#include <string.h>

#include "gowkaroo.h"

enum { OP_READ = 1, OP_WRITE = 2, OP_BUILD = 3, OP_LIST = 4, OP_READ_BACK = 5 };
enum { GUARD = 64, GUARD_BYTE = 0xc3 };

struct buffer {
    uint8_t *at;
    size_t bytes;
};

static struct buffer between_guards(size_t bytes) {
    uint8_t *whole = malloc(bytes + 2 * GUARD);
    memset(whole, GUARD_BYTE, GUARD);
    memset(whole + GUARD + bytes, GUARD_BYTE, GUARD);
    return (struct buffer){whole + GUARD, bytes};
}

/* Frees the buffer; 1 where a guard changed. */
static uint32_t guards_changed(struct buffer buffer) {
    uint32_t changed = 0;
    for (size_t i = 0; i < GUARD; i++)
        changed |= buffer.at[-1 - (long)i] != GUARD_BYTE || buffer.at[buffer.bytes + i] != GUARD_BYTE;
    free(buffer.at - GUARD);
    return changed;
}

static struct buffer lent(size_t bytes) {
    struct buffer buffer = between_guards(bytes);
    for (size_t i = 0; i < bytes; i++)
        buffer.at[i] = (uint8_t)(0xa5 ^ (i * 37));
    return buffer;
}

static int fill(void *to, size_t bytes) { return fread(to, 1, bytes, stdin) == bytes; }

static uint64_t sum_of(struct buffer buffer) {
    uint64_t sum = 14695981039346656037u;
    for (size_t i = 0; i < buffer.bytes; i++)
        sum = (sum ^ buffer.at[i]) * 1099511628211u;
    return sum;
}

static uint32_t *words(struct buffer buffer) { return (uint32_t *)(void *)buffer.at; }
static size_t count(struct buffer buffer) { return buffer.bytes / 4; }

int main(void) {
    uint32_t head[17];
    while (fill(head, sizeof head)) {
        struct buffer request = between_guards(32), costs = lent(12);
        memcpy(request.at, head + 1, 32);
        struct buffer sheet = between_guards(head[12]), arcs = between_guards(head[13]), labels = between_guards(head[14]);
        if (!fill(sheet.at, sheet.bytes) || !fill(arcs.at, arcs.bytes) || !fill(labels.at, labels.bytes))
            return 1;
        struct buffer first = lent(head[15]), second = lent(head[16]);
        uint64_t given = sum_of(sheet) ^ sum_of(arcs) ^ sum_of(labels) ^ (head[0] == OP_READ ? 0 : sum_of(request));
        uint64_t answer = 0;
        switch (head[0]) {
        case OP_READ:
            answer = gowkaroo_read(sheet.at, sheet.bytes, words(request), words(first), count(first));
            break;
        case OP_WRITE:
            answer = gowkaroo_write(words(request), words(arcs), count(arcs), first.at, first.bytes);
            break;
        case OP_BUILD:
            answer = gowkaroo_build(words(request), words(arcs), count(arcs), words(first), count(first), words(second), count(second));
            break;
        case OP_LIST:
            answer = gowkaroo_list(sheet.at, sheet.bytes, first.at, first.bytes);
            break;
        case OP_READ_BACK:
            answer = gowkaroo_read_back(words(request), words(arcs), count(arcs), words(labels), count(labels), head[9], head[10], head[11],
                                        words(costs), words(first), count(first));
            break;
        default:
            return 1;
        }
#ifdef SPOILED /* a wrong planner, to see that it is found out */
        if (gowkaroo_number(answer) == 0 && gowkaroo_low(answer) > 40 && first.bytes > 0)
            first.at[first.bytes - 1] ^= 1;
#endif
        given ^= sum_of(sheet) ^ sum_of(arcs) ^ sum_of(labels) ^ (head[0] == OP_READ ? 0 : sum_of(request));
        uint32_t reply[14] = {given != 0 ? 2 : 0, (uint32_t)answer, (uint32_t)(answer >> 32)};
        memcpy(reply + 3, request.at, 32);
        memcpy(reply + 11, costs.at, 12);
        uint8_t *bytes[2] = {malloc(first.bytes + 1), malloc(second.bytes + 1)};
        memcpy(bytes[0], first.at, first.bytes);
        memcpy(bytes[1], second.at, second.bytes);
        size_t sizes[2] = {first.bytes, second.bytes};
        reply[0] |= guards_changed(request) | guards_changed(costs) | guards_changed(sheet) | guards_changed(arcs) | guards_changed(labels);
        reply[0] |= guards_changed(first) | guards_changed(second);
        fwrite(reply, 1, sizeof reply, stdout);
        for (int i = 0; i < 2; i++) {
            fwrite(bytes[i], 1, sizes[i], stdout);
            free(bytes[i]);
        }
        fflush(stdout);
    }
    return 0;
}
