/*
 * Looks for words from C, a call or two for each answer, and prints what each call returned,
 * the numbers of its answer and the five bytes of the word.
 */
#include "hovmekhar.h"

#include <inttypes.h>
#include <stdio.h>

struct net {
    const uint8_t *bytes;
    size_t length;
};

/* Two events, the words 1 and 0 0 1, and two places; no certificate follows. */
static const uint8_t a_bytes[] = {
    2, 2, 1, 1, 3, 0, 0, 1, 2, 1, 0, 1, 0, 0, 0, 1, 0, 1, 0, 2, 0, 0, 0, 0, 0, 1, 0, 0, 0,
};
/* Three events, no word, and two places: events 0 and 1 put a token each into the first, and
   event 0 takes one out of the second that event 1 puts there. Event 2 takes tokens out of the
   first, as many as a byte says. */
static uint8_t b_bytes[] = {
    3, 0, 2, 0, 0, 1, 0, 1, 0, 0, 0, 0, 0, 0, 0, 0, 0, 0, 0, 0, 0, 1, 0, 0, 0, 1, 0, 0, 0, 0, 0,
};
enum { TAKES = 15 };
static const uint8_t no_events[] = {0, 0, 0};
/* Five words of 255 events 0. */
static uint8_t five_words[2 + 5 * 256] = {1, 5};

static const struct net a = {a_bytes, sizeof a_bytes};
static const struct net b = {b_bytes, sizeof b_bytes};
static const struct net empty = {a_bytes, 0};
static const struct net cut = {a_bytes, sizeof a_bytes - 1};
static const struct net zero = {no_events, sizeof no_events};
static const struct net many = {five_words, sizeof five_words};

static void reach(const char *what, struct net net, size_t wanted)
{
    uint8_t word[HOV_MAX_REACH_EVENTS] = {7, 7, 7, 7, 7};
    uint64_t answer[4] = {9, 9, 9, 9};
    uint32_t number = hov_reach(net.bytes, net.length, wanted, word, answer);
    printf("%s: %s %" PRIu32 ",", what,
           number == HOV_OK     ? "reached"
           : number == HOV_NONE ? "none"
                                : "refused",
           number);
    for (size_t i = 0; i < 4; i++) {
        printf(" %" PRIu64, answer[i]);
    }
    printf(", word");
    for (size_t i = 0; i < HOV_MAX_REACH_EVENTS; i++) {
        printf(" %d", word[i]);
    }
    printf("\n");
}

int main(void)
{
    for (size_t word = 0; word < 5; word++) {
        five_words[2 + word * 256] = 255;
    }
    reach("at first", a, 1);
    for (uint8_t takes = 0; takes <= 6; takes++) {
        b_bytes[TAKES] = takes;
        reach("behind others", b, 2);
    }
    reach("behind one", b, 0);
    reach("no event", a, 2);
    reach("no number", a, SIZE_MAX);
    reach("empty", empty, SIZE_MAX);
    reach("cut", cut, 2);
    reach("n = 0", zero, 0);
    reach("too many events", many, 0);
    return 0;
}
