/*
 * Judges bundles from C, one for each answer, and prints what each call returned,
 * the numbers of its answer, and how it left the table.
 */
#include "judged.h"

#include <inttypes.h>
#include <stdio.h>

static void judge(const char *what, const uint8_t *bundle, size_t bundle_len, size_t table_len)
{
    uint64_t answer[4] = {7, 7, 7, 7};
    fill_table();
    uint32_t number = hov_judge(bundle, bundle_len, table, table_len, answer);
    printf("%s: %" PRIu32 ", %" PRIu64 " %" PRIu64 " %" PRIu64 " %" PRIu64 ", %s\n", what, number,
           answer[0], answer[1], answer[2], answer[3], table_state());
}

int main(void)
{
    /* Two events, the words 1 and 0 0 1, two places and six certificates. */
    uint8_t accepted[] = {
        2, 2, 1, 1, 3, 0, 0, 1, 2, 1, 0, 1, 0, 0, 0, 1, 0, 1, 0, 2, 0, 0, 0, 0, 0, 1, 0,
        0, 0, 0, 0, 0, 0, 1, 2, 0, 2, 0, 0, 1, 1, 0, 3, 0, 1, 1, 0, 0, 1, 0, 0, 0, 0,
    };
    /* One event, no word, and a place that refuses the event; then a byte. */
    const uint8_t longer[] = {1, 0, 1, 0, 0, 0, 0, 1, 0, 0, 0, 0};
    const uint8_t no_terms[] = {1, 0, 0, 1, 1, 0, 0};
    const uint8_t k_zero[] = {1, 0, 0, 1, 0, 0, 0};
    write_long_words();

    judge("accepted", accepted, sizeof accepted, HOV_TABLE_SIZE);
    for (size_t row = 0; row < 5; row++) {
        const uint16_t *numbers = table + row * HOV_ROW_SIZE;
        printf("counts %u %u, mask %u, traffic %u\n", (unsigned)numbers[0], (unsigned)numbers[1],
               (unsigned)numbers[HOV_MAX_EVENTS], (unsigned)numbers[HOV_MAX_EVENTS + 1]);
    }
    judge("empty", accepted, 0, HOV_TABLE_SIZE);
    judge("short table", accepted, sizeof accepted, HOV_TABLE_SIZE - 1);
    judge("cut", accepted, sizeof accepted - 1, HOV_TABLE_SIZE);
    judge("k = 0", k_zero, sizeof k_zero, HOV_TABLE_SIZE);
    judge("too many events", five_words, sizeof five_words, HOV_TABLE_SIZE);
    judge("too many rows", two_words, sizeof two_words, HOV_TABLE_SIZE);
    uint8_t saved = accepted[9];
    accepted[9] = 0;
    judge("place does not fit", accepted, sizeof accepted, HOV_TABLE_SIZE);
    accepted[9] = saved;
    accepted[30] = 1;
    judge("place permits", accepted, sizeof accepted, HOV_TABLE_SIZE);
    judge("no terms", no_terms, sizeof no_terms, HOV_TABLE_SIZE);
    judge("a byte more", longer, sizeof longer, HOV_TABLE_SIZE);
    return 0;
}
