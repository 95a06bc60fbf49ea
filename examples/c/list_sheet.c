/* Reads a sheet from a file and prints its listing: list_sheet FILE.
 * The exit status is 0, 1 for a refusal, 2 where the file cannot be read. */
#include <stdio.h>

#include "gowkaroo.h"
#include "refusal.h"

/* One byte more than a sheet may have, so that a longer one is refused as such and not cut. */
static uint8_t sheet[GOWKAROO_MOST_SHEET_BYTES + 1];
static uint8_t listing[GOWKAROO_MOST_LISTING_BYTES];

int main(int count, char **words) {
    if (count != 2) {
        fprintf(stderr, "list_sheet: give one file with a sheet\n");
        return 2;
    }
    FILE *file = fopen(words[1], "rb");
    if (!file) {
        fprintf(stderr, "list_sheet: %s cannot be opened\n", words[1]);
        return 2;
    }
    size_t len = fread(sheet, 1, sizeof sheet, file);
    fclose(file);
    uint64_t answer = gowkaroo_list(sheet, len, listing, sizeof listing);
    if (gowkaroo_number(answer) != GOWKAROO_DONE) {
        print_refusal(stdout, answer);
        return 1;
    }
    fwrite(listing, 1, gowkaroo_low(answer), stdout);
    return 0;
}
