/*
 * A call that judges a bundle and writes it anew, and what it did, for the programs that make
 * such calls.
 */
#ifndef REWRITTEN_H
#define REWRITTEN_H

#include "judged.h"

#include <inttypes.h>
#include <stdio.h>
#include <string.h>

typedef uint32_t rewrite_call(const uint8_t *, size_t, uint8_t *, size_t, uint16_t *, size_t,
                              uint64_t[4]);

static uint8_t output[HOV_MAX_BUNDLE_SIZE];

/* Prints the bytes in front of the nines that the output was filled with. */
static inline void print_output(void)
{
    size_t written = sizeof output;
    while (written > 0 && output[written - 1] == 9) {
        written--;
    }
    fputs(written == 0 ? "output as it was" : "output", stdout);
    for (size_t i = 0; i < written; i++) {
        printf(" %u", (unsigned)output[i]);
    }
}

/* Makes the call, and prints what it returned, the numbers of its answer, the output, and how
   it left the table. */
static inline void rewrite(rewrite_call *call, const char *what, const uint8_t *bundle,
                           size_t bundle_len, size_t output_len, size_t table_len)
{
    uint64_t answer[4] = {7, 7, 7, 7};
    memset(output, 9, sizeof output);
    fill_table();
    uint32_t number = call(bundle, bundle_len, output, output_len, table, table_len, answer);
    printf("%s: %" PRIu32 ", %" PRIu64 " %" PRIu64 " %" PRIu64 " %" PRIu64 ", ", what, number,
           answer[0], answer[1], answer[2], answer[3]);
    print_output();
    printf(", %s\n", table_state());
}

#endif
