/*
 * Converts bundles from C, one for each answer, and prints what each call returned, the
 * numbers of its answer, the output, and how it left the table.
 */
#include "rewritten.h"

/* One event and so many empty words; the place has no token, and the event takes one. All
   words are partial. */
static size_t write_words(uint8_t *bundle, int is_new, uint8_t words)
{
    static const uint8_t place[] = {1, 0, 0, 0, 0, 1, 0, 0, 0};
    const size_t before_place = 2 + (size_t)words * (is_new ? 2 : 1);
    memset(bundle, 0, before_place);
    bundle[0] = is_new ? HOV_NEW_EDITION + 1 : 1;
    bundle[1] = words;
    memcpy(bundle + before_place, place, sizeof place);
    return before_place + sizeof place;
}

static void to_both(const uint8_t *bundle, size_t bundle_len, size_t output_len, size_t table_len)
{
    rewrite(hov_to_new, "to new", bundle, bundle_len, output_len, table_len);
    rewrite(hov_to_old, "to old", bundle, bundle_len, output_len, table_len);
}

/* What judging refuses. */
static void refused(uint8_t *old, size_t old_len)
{
    const uint8_t no_terms[] = {1, 0, 0, 1, 1, 0, 0};
    const size_t room = sizeof output;
    puts("empty");
    to_both(old, 0, 0, 0);
    puts("short table");
    to_both(old, old_len, 0, HOV_TABLE_SIZE - 1);
    puts("cut");
    to_both(old, old_len - 1, 0, HOV_TABLE_SIZE);
    puts("too many events");
    to_both(five_words, sizeof five_words, room, HOV_TABLE_SIZE);
    puts("too many rows");
    to_both(two_words, sizeof two_words, room, HOV_TABLE_SIZE);
    puts("no terms");
    to_both(no_terms, sizeof no_terms, room, HOV_TABLE_SIZE);
    puts("a byte more");
    to_both(old, old_len + 1, room, HOV_TABLE_SIZE);
    old[old_len - 1] = 3;
    puts("no such place");
    to_both(old, old_len, room, HOV_TABLE_SIZE);
}

int main(void)
{
    uint8_t old[40] = {0};
    uint8_t new[40] = {0};
    const size_t old_len = write_words(old, 0, 2);
    const size_t new_len = write_words(new, 1, 2);
    const size_t room = sizeof output;
    write_long_words();

    puts("old");
    to_both(old, old_len, room, HOV_TABLE_SIZE);
    puts("new");
    to_both(new, new_len, room, HOV_TABLE_SIZE);
    puts("exact output");
    rewrite(hov_to_new, "to new", old, old_len, new_len, HOV_TABLE_SIZE);
    rewrite(hov_to_old, "to old", new, new_len, old_len, HOV_TABLE_SIZE);
    puts("short output");
    rewrite(hov_to_new, "to new", old, old_len, new_len - 1, HOV_TABLE_SIZE);
    rewrite(hov_to_old, "to old", new, new_len, old_len - 1, HOV_TABLE_SIZE);
    puts("completed");
    new[5] = 1;
    to_both(new, new_len, room, HOV_TABLE_SIZE);
    refused(old, old_len);
    return 0;
}
