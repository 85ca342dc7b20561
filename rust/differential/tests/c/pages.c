/*
 * Makes calls on buffers that start or end exactly where a page that may not be
 * read or written starts or ends, with the inputs in pages that may not be
 * written. A call that reads or writes beyond its buffers, or writes to an
 * input, ends the program with a signal.
 */
#include "pages.h"

#include "hovmekhar.h"

typedef uint32_t call(const uint8_t *, size_t, uint8_t *, size_t, uint64_t[4]);

static struct pages input_pages;
static struct pages word_pages;
static struct pages output_pages;
static bool at_end;
static unsigned calls;

/* Makes a call that has to return this number, and gives back its output. */
static uint8_t *make(call *function, const uint8_t *input, size_t input_len, size_t output_len,
                     uint32_t number)
{
    uint8_t *lent = lend(input_pages, input_len, at_end);
    uint8_t *output = lend(output_pages, output_len, at_end);
    uint64_t answer[4] = {0};

    memcpy(lent, input, input_len);
    protect(input_pages, PROT_READ);
    if (function(lent, input_len, output, output_len, answer) != number) {
        fail("another number than expected");
    }
    protect(input_pages, PROT_READ | PROT_WRITE);
    calls++;
    return output;
}

static void make_file_calls(const uint8_t *bundle, size_t bundle_len, size_t file_len)
{
    static uint8_t file[HOV_MAX_FILE_SIZE];
    memcpy(file, make(hov_seal, bundle, bundle_len, file_len, 0), file_len);
    make(hov_seal, bundle, bundle_len, file_len - 1, HOV_OUTPUT_SHORT);

    if (memcmp(make(hov_open, file, file_len, bundle_len, 0), bundle, bundle_len) != 0) {
        fail("another bundle than sealed");
    }
    make(hov_open, file, file_len, bundle_len - 1, HOV_OUTPUT_SHORT);
    file[file_len - 1] ^= 1;
    make(hov_open, file, file_len, bundle_len, HOV_BLOCK_SUMS);
    uint8_t *last = file + file_len - HOV_BLOCK_SIZE;
    last[3] = 255;
    make(hov_open, file, file_len, bundle_len, HOV_BLOCK_USE);
    last[1] = 255;
    make(hov_open, file, file_len, bundle_len, HOV_BLOCK_NUMBER);
}

/* A table of this length, in numbers. */
static uint16_t *lend_table(size_t table_len)
{
    return (uint16_t *)(void *)lend(output_pages, table_len * sizeof(uint16_t), at_end);
}

/* Starts a log over 12 events, which has to return this number, and gives back
   its table. */
static uint16_t *make_fresh(size_t table_len, uint32_t number)
{
    uint16_t *table = lend_table(table_len);
    uint64_t answer[4] = {0};

    if (hov_fresh(HOV_MAX_EVENTS, table, table_len, answer) != number) {
        fail("another number than expected");
    }
    calls++;
    return table;
}

/* Takes a word over 12 events, which has to return this number. */
static void make_take(size_t rows, size_t events, const uint8_t *word, size_t word_len,
                      size_t table_len, uint32_t number)
{
    uint8_t *lent = lend(input_pages, word_len, at_end);
    uint64_t answer[4] = {0};

    memcpy(lent, word, word_len);
    protect(input_pages, PROT_READ);
    if (hov_take(HOV_MAX_EVENTS, rows, events, lent, word_len, lend_table(table_len), table_len,
                 answer) != number) {
        fail("another number than expected");
    }
    protect(input_pages, PROT_READ | PROT_WRITE);
    calls++;
}

/* One call for each answer, with a word of these events. It needs one row more
   than it has events. */
static void make_table_calls(const uint8_t *events, size_t word_len)
{
    uint8_t word[HOV_MAX_ROWS];
    memcpy(word, events, word_len);

    make_fresh(HOV_TABLE_SIZE - 1, HOV_NUMBERS_SHORT);
    make_fresh(0, HOV_NUMBERS_SHORT);
    uint16_t *table = make_fresh(HOV_TABLE_SIZE, 0);
    /* The row of the empty prefix is there already. */
    make_take(1, HOV_MAX_LOG_EVENTS - word_len, word, word_len, HOV_TABLE_SIZE, 0);
    make_take(1, HOV_MAX_LOG_EVENTS - word_len + 1, word, word_len, HOV_TABLE_SIZE, HOV_EVENTS);
    make_take(1, 0, word, word_len, HOV_TABLE_SIZE - 1, HOV_NUMBERS_SHORT);
    make_take(1, 0, word, word_len, 0, HOV_NUMBERS_SHORT);

    /* No row has the counts of a prefix. */
    memset(table, 255, HOV_TABLE_SIZE * sizeof *table);
    make_take(HOV_MAX_ROWS - word_len, 0, word, word_len, HOV_TABLE_SIZE, HOV_ROWS);
    word[word_len - 1] = HOV_MAX_EVENTS;
    make_take(HOV_MAX_ROWS - word_len, 0, word, word_len, HOV_TABLE_SIZE, HOV_VALUE);
    /* Without its last event there are exactly enough rows. */
    make_take(HOV_MAX_ROWS - word_len, 0, word, word_len - 1, HOV_TABLE_SIZE, 0);
}

/* Judges a bundle, which has to return this number. */
static void make_judge(const uint8_t *bundle, size_t bundle_len, size_t table_len, uint32_t number)
{
    uint8_t *lent = lend(input_pages, bundle_len, at_end);
    uint64_t answer[4] = {0};

    memcpy(lent, bundle, bundle_len);
    protect(input_pages, PROT_READ);
    if (hov_judge(lent, bundle_len, lend_table(table_len), table_len, answer) != number) {
        fail("another number than expected");
    }
    protect(input_pages, PROT_READ | PROT_WRITE);
    calls++;
}

/* Judges an accepted bundle, every beginning of it, and with a byte more. */
static void make_judge_calls(const uint8_t *bundle, size_t bundle_len)
{
    static uint8_t longer[HOV_MAX_BUNDLE_SIZE + 1];
    memcpy(longer, bundle, bundle_len);

    make_judge(bundle, bundle_len, HOV_TABLE_SIZE, 0);
    for (size_t length = 1; length < bundle_len; length++) {
        make_judge(bundle, length, HOV_TABLE_SIZE, HOV_BUNDLE_END);
    }
    make_judge(longer, bundle_len + 1, HOV_TABLE_SIZE, HOV_BYTES_FOLLOW);
    make_judge(longer, sizeof longer, HOV_TABLE_SIZE, HOV_BUNDLE_LENGTH);
    make_judge(bundle, 0, HOV_TABLE_SIZE, HOV_BUNDLE_LENGTH);
    make_judge(bundle, bundle_len, HOV_TABLE_SIZE - 1, HOV_NUMBERS_SHORT);
    make_judge(bundle, bundle_len, 0, HOV_NUMBERS_SHORT);
}

/* Screens a word, which has to return this number. */
static void make_screen(const uint8_t *bundle, size_t bundle_len, const uint8_t *word,
                        size_t word_len, uint32_t number)
{
    uint8_t *lent_bundle = lend(input_pages, bundle_len, at_end);
    uint8_t *lent_word = lend(word_pages, word_len, at_end);
    uint64_t answer[4] = {0};

    memcpy(lent_bundle, bundle, bundle_len);
    memcpy(lent_word, word, word_len);
    protect(input_pages, PROT_READ);
    protect(word_pages, PROT_READ);
    if (hov_screen(lent_bundle, bundle_len, lent_word, word_len, answer) != number) {
        fail("another number than expected");
    }
    protect(input_pages, PROT_READ | PROT_WRITE);
    protect(word_pages, PROT_READ | PROT_WRITE);
    calls++;
}

/* Screens with every beginning of a bundle, whose last place ends here: words of
   events 0 up to the longest, of which so many are permitted. */
static void make_screen_calls(const uint8_t *bundle, size_t bundle_len, size_t places_end,
                              size_t permitted)
{
    static uint8_t longer[HOV_MAX_BUNDLE_SIZE + 1];
    static uint8_t zeros[HOV_MAX_WORD_EVENTS + 1];
    static uint8_t wrong[HOV_MAX_WORD_EVENTS];
    memcpy(longer, bundle, bundle_len);
    wrong[sizeof wrong - 1] = HOV_MAX_EVENTS;

    for (size_t length = 1; length < places_end; length++) {
        make_screen(bundle, length, zeros, permitted, HOV_BUNDLE_END);
    }
    for (size_t length = places_end; length <= bundle_len; length++) {
        for (size_t word_len = 0; word_len <= permitted; word_len++) {
            make_screen(bundle, length, zeros, word_len, 0);
        }
        make_screen(bundle, length, zeros, permitted + 1, HOV_STOPPED);
        make_screen(bundle, length, zeros, HOV_MAX_WORD_EVENTS, HOV_STOPPED);
        make_screen(bundle, length, zeros, HOV_MAX_WORD_EVENTS + 1, HOV_WORD_LENGTH);
        make_screen(bundle, length, wrong, sizeof wrong, HOV_WORD_EVENT);
    }
    make_screen(longer, HOV_MAX_BUNDLE_SIZE, zeros, permitted, 0);
    make_screen(longer, sizeof longer, zeros, permitted, HOV_BUNDLE_LENGTH);
    make_screen(bundle, 0, zeros, permitted, HOV_BUNDLE_LENGTH);
    make_screen(bundle, 0, zeros, HOV_MAX_WORD_EVENTS + 1, HOV_WORD_LENGTH);
}

int main(void)
{
    static uint8_t bundle[HOV_MAX_BUNDLE_SIZE];
    for (size_t i = 0; i < sizeof bundle; i++) {
        bundle[i] = (uint8_t)(i % 251 + 1);
    }
    input_pages = open_pages(HOV_MAX_FILE_SIZE);
    word_pages = open_pages(HOV_MAX_WORD_EVENTS + 1);
    output_pages = open_pages(HOV_MAX_FILE_SIZE);

    for (size_t blocks = 1; blocks <= HOV_MAX_BLOCKS; blocks++) {
        /* The last block's used count goes from 1 to 504. */
        size_t used = 1 + (blocks - 1) * 503 / 127;
        size_t bundle_len = (blocks - 1) * HOV_CONTENTS_SIZE + used;
        at_end = false;
        make_file_calls(bundle, bundle_len, blocks * HOV_BLOCK_SIZE);
        at_end = true;
        make_file_calls(bundle, bundle_len, blocks * HOV_BLOCK_SIZE);
    }
    printf("%u calls on files\n", calls);

    calls = 0;
    static uint8_t events[HOV_MAX_ROWS];
    for (size_t i = 0; i < sizeof events; i++) {
        events[i] = (uint8_t)(i % 251 % HOV_MAX_EVENTS);
    }
    for (size_t word_len = 1; word_len < HOV_MAX_ROWS; word_len++) {
        at_end = false;
        make_table_calls(events, word_len);
        at_end = true;
        make_table_calls(events, word_len);
    }
    printf("%u calls on tables\n", calls);

    calls = 0;
    /* Certificates of both kinds. */
    const uint8_t both_kinds[] = {
        2, 2, 1, 1, 3, 0, 0, 1, 2, 1, 0, 1, 0, 0, 0, 1, 0, 1, 0, 2, 0, 0, 0, 0, 0, 1, 0,
        0, 0, 0, 0, 0, 0, 1, 2, 0, 2, 0, 0, 1, 1, 0, 3, 0, 1, 1, 0, 0, 1, 0, 0, 0, 0,
    };
    /* Four words of 255 events, and so all rows of the table; then a place with
       255 tokens, of which the event takes one. */
    static uint8_t all_rows[2 + 4 * 256 + 9] = {1, 4};
    for (size_t word = 0; word < 4; word++) {
        all_rows[2 + word * 256] = 255;
    }
    const uint8_t place[] = {1, 255, 0, 0, 0, 1, 0, 0, 0};
    memcpy(all_rows + 2 + 4 * 256, place, sizeof place);
    at_end = false;
    make_judge_calls(both_kinds, sizeof both_kinds);
    make_judge_calls(all_rows, sizeof all_rows);
    at_end = true;
    make_judge_calls(both_kinds, sizeof both_kinds);
    make_judge_calls(all_rows, sizeof all_rows);
    printf("%u judged\n", calls);

    calls = 0;
    /* Each has two bytes of certificates at the end, or more. */
    at_end = false;
    make_screen_calls(both_kinds, sizeof both_kinds, 29, 2);
    make_screen_calls(all_rows, sizeof all_rows, sizeof all_rows - 2, 255);
    at_end = true;
    make_screen_calls(both_kinds, sizeof both_kinds, 29, 2);
    make_screen_calls(all_rows, sizeof all_rows, sizeof all_rows - 2, 255);
    printf("%u screened\n", calls);
    return 0;
}
