/*
 * A table and long words, for the programs that judge bundles.
 */
#ifndef JUDGED_H
#define JUDGED_H

#include "hovmekhar.h"

static uint16_t table[HOV_TABLE_SIZE];

static inline void fill_table(void)
{
    for (size_t i = 0; i < HOV_TABLE_SIZE; i++) {
        table[i] = 9;
    }
}

/* How the table is after it was filled and lent. */
static inline const char *table_state(void)
{
    size_t zeros = 0;
    size_t nines = 0;
    for (size_t i = 0; i < HOV_TABLE_SIZE; i++) {
        zeros += table[i] == 0;
        nines += table[i] == 9;
    }
    return zeros == HOV_TABLE_SIZE   ? "table zero"
           : nines == HOV_TABLE_SIZE ? "table as it was"
                                     : "table with rows";
}

/* Words of 255 events 0: five of them, or one and then the word 1. */
static uint8_t five_words[2 + 5 * 256] = {1, 5};
static uint8_t two_words[2 + 256 + 2] = {2, 2, 255};

static inline void write_long_words(void)
{
    for (size_t word = 0; word < 5; word++) {
        five_words[2 + word * 256] = 255;
    }
    two_words[2 + 256] = 1;
    two_words[2 + 256 + 1] = 1;
}

#endif
