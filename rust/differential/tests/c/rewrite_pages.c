/*
 * Prunes and converts bundles: a bundle, an output and a table that start or end exactly
 * where a page that may not be read or written starts or ends, with the bundle in pages that
 * may not be written.
 */
#include "pages.h"

#include "rewritten.h"

enum { BUNDLE, OUTPUT, TABLE, BUFFERS };

static rewrite_call *call;
static struct pages pages[BUFFERS];
/* Bit i: buffer i is at the end of its pages. */
static unsigned at_end;
static unsigned calls;

static uint8_t *lend_buffer(unsigned buffer, size_t length)
{
    return lend(pages[buffer], length, at_end >> buffer & 1);
}

/* Makes the call, which has to return this number, and gives back the output. */
static uint8_t *make(const uint8_t *bundle, size_t bundle_len, size_t output_len, size_t table_len,
                     uint32_t number)
{
    uint8_t *lent = lend_buffer(BUNDLE, bundle_len);
    uint8_t *front = lend_buffer(OUTPUT, output_len);
    uint16_t *numbers = (uint16_t *)(void *)lend_buffer(TABLE, table_len * sizeof(uint16_t));
    uint64_t answer[4] = {0};

    memcpy(lent, bundle, bundle_len);
    protect(pages[BUNDLE], PROT_READ);
    if (call(lent, bundle_len, front, output_len, numbers, table_len, answer) != number) {
        fail("another number than expected");
    }
    protect(pages[BUNDLE], PROT_READ | PROT_WRITE);
    calls++;
    return front;
}

/* An accepted bundle and its result, every beginning of it, and with a byte more. */
static void make_calls(const uint8_t *bundle, size_t bundle_len, const uint8_t *result,
                       size_t result_len)
{
    static uint8_t longer[HOV_MAX_BUNDLE_SIZE + 1];
    const size_t room = bundle_len < result_len ? result_len : bundle_len;
    memcpy(longer, bundle, bundle_len);

    for (size_t output_len = 0; output_len < result_len; output_len++) {
        make(bundle, bundle_len, output_len, HOV_TABLE_SIZE, HOV_OUTPUT_SHORT);
    }
    for (size_t output_len = result_len; output_len <= room + 1; output_len++) {
        uint8_t *front = make(bundle, bundle_len, output_len, HOV_TABLE_SIZE, HOV_OK);
        if (memcmp(front, result, result_len) != 0) {
            fail("another result than expected");
        }
    }
    for (size_t length = 1; length < bundle_len; length++) {
        make(bundle, length, length, HOV_TABLE_SIZE, HOV_BUNDLE_END);
    }
    make(longer, bundle_len + 1, 0, HOV_TABLE_SIZE, HOV_BYTES_FOLLOW);
    make(longer, sizeof longer, sizeof longer, HOV_TABLE_SIZE, HOV_BUNDLE_LENGTH);
    make(bundle, 0, 0, HOV_TABLE_SIZE, HOV_BUNDLE_LENGTH);
    make(bundle, bundle_len, bundle_len, HOV_TABLE_SIZE - 1, HOV_NUMBERS_SHORT);
    make(bundle, bundle_len, bundle_len, 0, HOV_NUMBERS_SHORT);
}

/* Two events, the words 1 and 0 0 1, and four places of which the first and the third are
   idle; certificates of both kinds. */
static const uint8_t idle_places[] = {
    2, 2, 1, 1, 3, 0, 0, 1, 4, 0, 0, 0, 0, 0, 0, 0, 0, 0, 0, 1, 0, 1, 0, 0, 0, 1, 0, 1, 0,
    0, 0, 0, 0, 0, 0, 0, 0, 0, 0, 2, 0, 0, 0, 0, 0, 1, 0, 0, 0, 0, 1, 0, 1, 1, 2, 0, 2, 0,
    0, 1, 1, 0, 3, 0, 1, 1, 0, 0, 3, 0, 1, 0, 1,
};
static const uint8_t both_kinds[] = {
    2, 2, 1, 1, 3, 0, 0, 1, 2, 1, 0, 1, 0, 0, 0, 1, 0, 1, 0, 2, 0, 0, 0, 0, 0, 1, 0,
    0, 0, 0, 0, 0, 0, 1, 2, 0, 2, 0, 0, 1, 1, 0, 3, 0, 1, 1, 0, 0, 1, 0, 0, 0, 0,
};
static const uint8_t both_kinds_new[] = {
    130, 2, 1, 0, 1, 3, 0, 0, 0, 1, 2, 1, 0, 1, 0, 0, 0, 1, 0, 1, 0, 2, 0, 0, 0, 0, 0, 1, 0,
    0, 0, 0, 0, 0, 0, 1, 2, 0, 2, 0, 0, 1, 1, 0, 3, 0, 1, 1, 0, 0, 0, 1, 0, 0, 0, 0,
};

/* Four words of 255 events, and so all rows of the table. Of two places the first is idle; the
   second has 255 tokens, of which the event takes one. */
static uint8_t all_rows_idle[2 + 4 * 256 + 15] = {1, 4};
static uint8_t all_rows[2 + 4 * 256 + 9] = {1, 4};
static uint8_t all_rows_new[2 + 4 * 257 + 9] = {HOV_NEW_EDITION + 1, 4};

static void write_all_rows(void)
{
    const uint8_t two_places[] = {2, 1, 0, 1, 0, 1, 0, 255, 0, 0, 0, 1, 0, 0, 1};
    const uint8_t one_place[] = {1, 255, 0, 0, 0, 1, 0, 0, 0};
    for (size_t word = 0; word < 4; word++) {
        all_rows_idle[2 + word * 256] = 255;
        all_rows[2 + word * 256] = 255;
        all_rows_new[2 + word * 257] = 255;
    }
    memcpy(all_rows_idle + 2 + 4 * 256, two_places, sizeof two_places);
    memcpy(all_rows + 2 + 4 * 256, one_place, sizeof one_place);
    memcpy(all_rows_new + 2 + 4 * 257, one_place, sizeof one_place);
}

static void prune_all(void)
{
    call = hov_prune;
    make_calls(idle_places, sizeof idle_places, both_kinds, sizeof both_kinds);
    make_calls(all_rows_idle, sizeof all_rows_idle, all_rows, sizeof all_rows);
}

static void convert_all(void)
{
    call = hov_to_new;
    make_calls(both_kinds, sizeof both_kinds, both_kinds_new, sizeof both_kinds_new);
    make_calls(both_kinds_new, sizeof both_kinds_new, both_kinds_new, sizeof both_kinds_new);
    make_calls(all_rows, sizeof all_rows, all_rows_new, sizeof all_rows_new);
    call = hov_to_old;
    make_calls(both_kinds_new, sizeof both_kinds_new, both_kinds, sizeof both_kinds);
    make_calls(both_kinds, sizeof both_kinds, both_kinds, sizeof both_kinds);
    make_calls(all_rows_new, sizeof all_rows_new, all_rows, sizeof all_rows);
}

/* With each buffer at either end of its pages. */
static void at_each_end(void (*calls_to_make)(void), const char *what)
{
    calls = 0;
    for (at_end = 0; at_end < 1U << BUFFERS; at_end++) {
        calls_to_make();
    }
    printf("%u %s\n", calls, what);
}

int main(void)
{
    write_all_rows();
    for (size_t i = 0; i < BUFFERS; i++) {
        pages[i] = open_pages(HOV_MAX_FILE_SIZE);
    }
    at_each_end(prune_all, "pruned");
    at_each_end(convert_all, "converted");
    return 0;
}
