/*
 * Prunes bundles from C, one for each answer, and prints what each call returned, the
 * numbers of its answer, the output, and how it left the table.
 */
#include "rewritten.h"

static void prune(const char *what, const uint8_t *bundle, size_t bundle_len, size_t output_len,
                  size_t table_len)
{
    rewrite(hov_prune, what, bundle, bundle_len, output_len, table_len);
}

int main(void)
{
    /* One event, the word 0, and three places: the second refuses the event after the word,
       the first permits it three times and the third always. */
    uint8_t bundle[] = {
        1, 1, 1, 0, 3, 3, 0, 0, 0, 1, 0, 1, 0, 0, 0, 1, 0, 0, 0, 0, 0, 0, 0, 0, 1, 0,
    };
    const size_t bundle_len = sizeof bundle - 1;
    const uint8_t no_terms[] = {1, 0, 0, 1, 1, 0, 0};
    const size_t room = sizeof output;
    write_long_words();

    prune("two idle", bundle, bundle_len, room, HOV_TABLE_SIZE);
    uint8_t pruned[13];
    memcpy(pruned, output, sizeof pruned);
    prune("again", pruned, sizeof pruned, sizeof pruned, HOV_TABLE_SIZE);
    prune("exact output", bundle, bundle_len, 13, HOV_TABLE_SIZE);
    prune("short output", bundle, bundle_len, 12, HOV_TABLE_SIZE);
    prune("no output", bundle, bundle_len, 0, HOV_TABLE_SIZE);
    prune("empty", bundle, 0, 0, 0);
    prune("short table", bundle, bundle_len, 0, HOV_TABLE_SIZE - 1);
    prune("cut", bundle, bundle_len - 1, 0, HOV_TABLE_SIZE);
    prune("too many events", five_words, sizeof five_words, room, HOV_TABLE_SIZE);
    prune("too many rows", two_words, sizeof two_words, room, HOV_TABLE_SIZE);
    prune("no terms", no_terms, sizeof no_terms, room, HOV_TABLE_SIZE);
    prune("a byte more", bundle, sizeof bundle, room, HOV_TABLE_SIZE);
    bundle[bundle_len - 1] = 3;
    prune("no such place", bundle, bundle_len, room, HOV_TABLE_SIZE);
    bundle[bundle_len - 1] = 0;
    prune("place permits", bundle, bundle_len, room, HOV_TABLE_SIZE);
    bundle[5] = 0;
    prune("place does not fit", bundle, bundle_len, room, HOV_TABLE_SIZE);
    return 0;
}
