/*
 * Screens words from C, one for each answer, and prints what each call returned and
 * the numbers of its answer.
 */
#include "hovmekhar.h"

#include <inttypes.h>
#include <stdio.h>

static void print(const char *what, uint32_t number, const uint64_t answer[4])
{
    printf("%s: %s %" PRIu32 ", %" PRIu64 " %" PRIu64 " %" PRIu64 " %" PRIu64 "\n", what,
           number == 0             ? "permitted"
           : number == HOV_STOPPED ? "stopped"
                                   : "refused",
           number, answer[0], answer[1], answer[2], answer[3]);
}

static void screen(const char *what, const uint8_t *bundle, size_t bundle_len, const uint8_t *word,
                   size_t word_len)
{
    uint64_t answer[4] = {7, 7, 7, 7};
    uint32_t number = hov_screen(bundle, bundle_len, word, word_len, answer);
    print(what, number, answer);
}

static void screen_joined(const char *what, const uint8_t *first, size_t first_len,
                          const uint8_t *second, size_t second_len, const uint8_t *word,
                          size_t word_len)
{
    uint64_t answer[4] = {7, 7, 7, 7};
    uint32_t number =
        hov_screen_joined(first, first_len, second, second_len, word, word_len, answer);
    print(what, number, answer);
}

int main(void)
{
    /* Two events, the words 1 and 0 0 1, and two places; no certificate follows. */
    const uint8_t bundle[] = {
        2, 2, 1, 1, 3, 0, 0, 1, 2, 1, 0, 1, 0, 0, 0, 1, 0, 1, 0, 2, 0, 0, 0, 0, 0, 1, 0, 0, 0,
    };
    /* Two events and two places: event 0 takes 512 tokens of 1,024 from place 0, event 1
     * takes 65,535 tokens from place 1, which has none. */
    const uint8_t takes_many[] = {
        2, 0, 2, 0, 4, 0, 0, 0, 0, 0, 2, 0, 0, 0, 0, 0, 0, 0, 0, 0, 0, 255, 255,
    };
    const uint8_t no_events[] = {0, 0, 0};
    /* Five words of 255 events 0. */
    static uint8_t five_words[2 + 5 * 256] = {1, 5};
    for (size_t word = 0; word < 5; word++) {
        five_words[2 + word * 256] = 255;
    }
    const uint8_t permitted[] = {0, 1};
    const uint8_t after_the_end[] = {1, 0};
    const uint8_t third_time[] = {0, 0, 0};
    const uint8_t after_one[] = {0, 1};
    const uint8_t wrong[] = {1, 0, 2};
    static const uint8_t long_word[HOV_MAX_WORD_EVENTS + 1];

    screen("0 1", bundle, sizeof bundle, permitted, sizeof permitted);
    screen("1 0", bundle, sizeof bundle, after_the_end, sizeof after_the_end);
    screen("0 0 0", bundle, sizeof bundle, third_time, sizeof third_time);
    screen("most tokens missing", takes_many, sizeof takes_many, after_one, sizeof after_one);
    screen("512 tokens missing", takes_many, sizeof takes_many, third_time, sizeof third_time);
    screen("no event", bundle, sizeof bundle, permitted, 0);
    screen("a word of the bundle", bundle, sizeof bundle, bundle + 5, 3);
    screen("empty", bundle, 0, permitted, sizeof permitted);
    screen("cut", bundle, sizeof bundle - 1, permitted, sizeof permitted);
    screen("n = 0", no_events, sizeof no_events, permitted, sizeof permitted);
    screen("too many events", five_words, sizeof five_words, permitted, sizeof permitted);
    screen("long word", bundle, sizeof bundle, long_word, sizeof long_word);
    screen("longest word", bundle, sizeof bundle, long_word, HOV_MAX_WORD_EVENTS);
    screen("wrong event", bundle, sizeof bundle, wrong, sizeof wrong);

    const uint8_t no_places[] = {2, 0, 0};
    const uint8_t three_events[] = {3, 0, 0};
    screen_joined("joined: 0 1", bundle, sizeof bundle, no_places, sizeof no_places, permitted,
                  sizeof permitted);
    screen_joined("joined, first: 0 0 0", bundle, sizeof bundle, takes_many, sizeof takes_many,
                  third_time, sizeof third_time);
    screen_joined("joined, second: 0 1", bundle, sizeof bundle, takes_many, sizeof takes_many,
                  after_one, sizeof after_one);
    screen_joined("joined to itself: 1 0", bundle, sizeof bundle, bundle, sizeof bundle,
                  after_the_end, sizeof after_the_end);
    screen_joined("joined, first empty", bundle, 0, bundle, sizeof bundle - 1, permitted,
                  sizeof permitted);
    screen_joined("joined, second cut", bundle, sizeof bundle, bundle, sizeof bundle - 1, permitted,
                  sizeof permitted);
    screen_joined("joined, n = 0", no_events, sizeof no_events, bundle, 0, permitted,
                  sizeof permitted);
    screen_joined("joined, too many events", bundle, sizeof bundle, five_words, sizeof five_words,
                  permitted, sizeof permitted);
    screen_joined("joined, long word", bundle, 0, bundle, 0, long_word, sizeof long_word);
    screen_joined("joined, longest word", no_places, sizeof no_places, bundle, sizeof bundle,
                  long_word, HOV_MAX_WORD_EVENTS);
    screen_joined("joined, wrong event", bundle, sizeof bundle, no_places, sizeof no_places, wrong,
                  sizeof wrong);
    screen_joined("joined, other events", bundle, sizeof bundle, three_events, sizeof three_events,
                  wrong, sizeof wrong);
    return 0;
}
