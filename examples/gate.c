/*
 * Asks whether a net may run the gate, and whether it permits a word:
 *
 *     gate FILE EVENT...
 *
 * Opens the sealed file, judges its bundle, and screens the word of the events,
 * each of 1 to 3 decimal digits and at most 255; no event is the empty word.
 *
 * Prints "accepted" with four counts, then "permitted", or "stopped" with a
 * position, a place and how many tokens it lacks. The first call that refuses ends
 * it with "refused", a number and a spot; what the number means goes to standard
 * error.
 *
 * Ends with 0 for a word that is permitted, 1 for one that is stopped and for a
 * refusal, 2 for wrong arguments, 3 for trouble with reading or writing.
 */
#include "hovmekhar.h"

#include <errno.h>
#include <inttypes.h>
#include <signal.h>
#include <stdio.h>
#include <string.h>

enum status { PERMITTED = 0, NOT_PERMITTED = 1, USAGE = 2, TROUBLE = 3 };

/* As long as any call can need, so that 3 and 5 never come. File and word have
 * one more than is allowed, so that longer ones are seen, and refused. */
static uint8_t file[HOV_MAX_FILE_SIZE + 1];
static uint8_t bundle[HOV_MAX_BUNDLE_SIZE];
static uint16_t table[HOV_TABLE_SIZE];
static uint8_t word[HOV_MAX_WORD_EVENTS + 1];

/* Reads an event. Each character is looked at, since strtoul would also take a
 * sign and spaces. */
static int read_event(const char *text, uint8_t *event)
{
    unsigned value = 0;
    size_t length = strlen(text);
    if (length < 1 || length > 3) {
        return 0;
    }
    for (size_t i = 0; i < length; i++) {
        if (text[i] < '0' || text[i] > '9') {
            return 0;
        }
        value = 10 * value + (unsigned)(text[i] - '0');
    }
    *event = (uint8_t)value;
    return value <= UINT8_MAX;
}

/* Says what failed, by errno. */
static int trouble(const char *with)
{
    int number = errno;
    fprintf(stderr, "gate: %s: %s (os error %d)\n", with, strerror(number), number);
    return TROUBLE;
}

static int refused(uint32_t number, const uint64_t answer[4])
{
    fprintf(stderr, "gate: %s\n", hov_refusal_text(number));
    printf("refused %" PRIu32 " %" PRIu64 "\n", number, answer[0]);
    return NOT_PERMITTED;
}

/* The three calls, each with its line. */
static int ask(size_t file_len, size_t word_len)
{
    uint64_t answer[4] = {0};
    uint32_t number = hov_open(file, file_len, bundle, sizeof bundle, answer);
    if (number != HOV_OK) {
        return refused(number, answer);
    }
    size_t bundle_len = (size_t)answer[0];

    number = hov_judge(bundle, bundle_len, table, HOV_TABLE_SIZE, answer);
    if (number != HOV_OK) {
        return refused(number, answer);
    }
    printf("accepted %" PRIu64 " %" PRIu64 " %" PRIu64 " %" PRIu64 "\n", answer[0],
           answer[1], answer[2], answer[3]);

    number = hov_screen(bundle, bundle_len, word, word_len, answer);
    if (number == HOV_STOPPED) {
        printf("stopped %" PRIu64 " %" PRIu64 " %" PRIu64 "\n", answer[0], answer[1],
               answer[2]);
        return NOT_PERMITTED;
    }
    if (number != HOV_OK) {
        return refused(number, answer);
    }
    printf("permitted\n");
    return PERMITTED;
}

int main(int count, char **arguments)
{
    /* A closed pipe is then an error of writing like others. */
    signal(SIGPIPE, SIG_IGN);
    if (count < 2) {
        fprintf(stderr, "usage: gate FILE EVENT...\n");
        return USAGE;
    }
    size_t word_len = 0;
    for (int i = 2; i < count; i++) {
        uint8_t event;
        if (!read_event(arguments[i], &event)) {
            fprintf(stderr, "gate: the event at position %d is not a number from 0 to 255\n",
                    i - 2);
            return USAGE;
        }
        if (word_len < sizeof word) {
            word[word_len++] = event;
        }
    }

    FILE *input = fopen(arguments[1], "rb");
    if (input == NULL) {
        return trouble(arguments[1]);
    }
    size_t file_len = fread(file, 1, sizeof file, input);
    /* A read that failed is not the end of the file. */
    if (ferror(input)) {
        return trouble(arguments[1]);
    }
    fclose(input);

    int status = ask(file_len, word_len);
    /* An answer that was not written whole is none. */
    if (fflush(stdout) != 0 || ferror(stdout)) {
        return trouble("standard output");
    }
    return status;
}
