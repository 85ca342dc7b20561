/*
 * Takes the words of a log from C and prints its rows, then tries one call for
 * each refusal, and prints what each call returned and the numbers of its answer.
 */
#include "hovmekhar.h"

#include <inttypes.h>
#include <stdio.h>
#include <string.h>

/* The events of the log. */
#define EVENTS 4

static uint16_t table[HOV_TABLE_SIZE];
static uint16_t table_before[HOV_TABLE_SIZE];
static uint8_t zeros[HOV_MAX_LOG_EVENTS + 1];

/* The summary: event count, rows and events so far. */
static uint64_t answer[4];

static void print_summary(const char *what, uint32_t number)
{
    printf("%s: %" PRIu32 ", %" PRIu64 " %" PRIu64 " %" PRIu64 "\n", what, number, answer[0],
           answer[1], answer[2]);
}

/* Takes a word with the summary that the call before it left. */
static uint32_t take(const uint8_t *word, size_t word_len)
{
    return hov_take(answer[0], answer[1], answer[2], word, word_len, table, HOV_TABLE_SIZE, answer);
}

static void print_row(const uint16_t *row)
{
    printf("counts");
    for (unsigned event = 0; event < EVENTS; event++) {
        printf(" %u", (unsigned)row[event]);
    }
    printf(", allowed");
    for (unsigned event = 0; event < EVENTS; event++) {
        if (row[HOV_MAX_EVENTS] >> event & 1) {
            printf(" %u", event);
        }
    }
    printf(", traffic %u\n", (unsigned)row[HOV_MAX_EVENTS + 1]);
}

/* Makes a call that is refused, with rows and events of a summary. */
static void refused(const char *what, size_t rows, size_t events, const uint8_t *word,
                    size_t word_len, size_t table_len)
{
    uint64_t spot[4] = {0};
    uint32_t number =
        hov_take(EVENTS, rows, events, word, word_len, table, table_len, spot);
    printf("%s: %" PRIu32 ", %" PRIu64 ", %s\n", what, number, spot[0],
           memcmp(table, table_before, sizeof table) == 0 ? "table as it was" : "table changed");
}

int main(void)
{
    const uint8_t first[] = {0, 1, 2};
    const uint8_t second[] = {1, 0, 3};
    const uint8_t wrong[] = {0, EVENTS};

    memset(table, 255, sizeof table);
    print_summary("fresh", hov_fresh(EVENTS, table, HOV_TABLE_SIZE, answer));
    print_summary("first word", take(first, sizeof first));
    print_summary("second word", take(second, sizeof second));
    for (size_t row = 0; row < answer[1]; row++) {
        print_row(table + row * HOV_ROW_SIZE);
    }

    memcpy(table_before, table, sizeof table);
    refused("short table", 6, 6, first, sizeof first, HOV_TABLE_SIZE - 1);
    refused("no rows", 0, 6, first, sizeof first, HOV_TABLE_SIZE);
    refused("too many events", 6, 6, zeros, HOV_MAX_LOG_EVENTS - 6 + 1, HOV_TABLE_SIZE);
    refused("wrong event", 6, 6, wrong, sizeof wrong, HOV_TABLE_SIZE);
    refused("too many rows", 6, 6, zeros, HOV_MAX_ROWS, HOV_TABLE_SIZE);

    uint32_t number = hov_fresh(HOV_MAX_EVENTS + 1, table, HOV_TABLE_SIZE, answer);
    printf("fresh with 13 events: %" PRIu32 ", %" PRIu64 "\n", number, answer[0]);
    return 0;
}
