/* A readable message for each refusal number of documents 01 and 02. */
#ifndef GOWKAROO_EXAMPLE_REFUSAL_H
#define GOWKAROO_EXAMPLE_REFUSAL_H

#include <stdio.h>

#include "gowkaroo.h"

/* How the place of a refusal reads: nothing where none is named. */
struct refusal_words {
    const char *what;
    const char *place;
};

static struct refusal_words refusal_words(uint32_t number) {
    switch (number) {
    case GOWKAROO_REFUSED_FORM: return (struct refusal_words){"the sheet's form is broken", "first bad line"};
    case GOWKAROO_REFUSED_NODES: return (struct refusal_words){"the number of nodes is not 1 to 64", 0};
    case GOWKAROO_REFUSED_CRITERIA: return (struct refusal_words){"the number of criteria is not 2 or 3", 0};
    case GOWKAROO_REFUSED_SOURCE: return (struct refusal_words){"the source is not one of the nodes", 0};
    case GOWKAROO_REFUSED_HOPS: return (struct refusal_words){"the hop bound is over 63", 0};
    case GOWKAROO_REFUSED_RATIO: return (struct refusal_words){"a ratio is out of range", "criterion"};
    case GOWKAROO_REFUSED_ARC_WORDS: return (struct refusal_words){"the arc words are no whole arcs, or over 512 arcs", 0};
    case GOWKAROO_REFUSED_ARC: return (struct refusal_words){"an arc's node or cost is out of range", "arc"};
    case GOWKAROO_REFUSED_BUCKETS: return (struct refusal_words){"a criterion has over 4,096 buckets", "criterion"};
    case GOWKAROO_REFUSED_LABELS: return (struct refusal_words){"the table has over 1,048,576 labels", 0};
    case GOWKAROO_REFUSED_NUMBER: return (struct refusal_words){"a number to be written is over 99,999,999", 0};
    case GOWKAROO_REFUSED_SHEET_BYTES: return (struct refusal_words){"the sheet is over 8,192 bytes", 0};
    case GOWKAROO_REFUSED_BUFFER: return (struct refusal_words){"a buffer is too short", "buffer"};
    case GOWKAROO_REFUSED_ASKED: return (struct refusal_words){"there is no such layer, node or cell", 0};
    case GOWKAROO_REFUSED_EMPTY: return (struct refusal_words){"the asked cell is empty", 0};
    case GOWKAROO_REFUSED_BROKEN: return (struct refusal_words){"the chain of labels is broken", "layer"};
    case GOWKAROO_REFUSED_LOOP: return (struct refusal_words){"an arc leads from a node to itself", "arc"};
    default: return (struct refusal_words){"a number that is not in the table", "place"};
    }
}

static void print_refusal(FILE *to, uint64_t answer) {
    struct refusal_words words = refusal_words(gowkaroo_number(answer));
    if (words.place)
        fprintf(to, "refused %u: %s (%s %u)\n", gowkaroo_number(answer), words.what, words.place, gowkaroo_low(answer));
    else
        fprintf(to, "refused %u: %s\n", gowkaroo_number(answer), words.what);
}

#endif
