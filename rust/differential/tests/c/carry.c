/*
 * Plays events and replaces nets from C, a call or two for each answer, and prints what each
 * call returned, the numbers of its answer, the tokens, and the events in front of the buffer.
 */
#include "hovmekhar.h"

#include <inttypes.h>
#include <stdio.h>

struct net {
    const uint8_t *bytes;
    size_t length;
};

/* Two events, the words 1 and 0 0 1, and two places; no certificate follows. */
static const uint8_t a_bytes[] = {
    2, 2, 1, 1, 3, 0, 0, 1, 2, 1, 0, 1, 0, 0, 0, 1, 0, 1, 0, 2, 0, 0, 0, 0, 0, 1, 0, 0, 0,
};
/* Two events, no word, and a place: event 0 puts a token in, event 1 takes one out. */
static const uint8_t b_bytes[] = {2, 0, 1, 0, 0, 1, 0, 0, 0, 0, 0, 1, 0};
static const uint8_t other_bytes[] = {3, 0, 0};
static const uint8_t no_events[] = {0, 0, 0};
/* Five words of 255 events 0. */
static uint8_t five_words[2 + 5 * 256] = {1, 5};

static const struct net a = {a_bytes, sizeof a_bytes};
static const struct net b = {b_bytes, sizeof b_bytes};
static const struct net empty = {a_bytes, 0};
static const struct net cut = {a_bytes, sizeof a_bytes - 1};
static const struct net zero = {no_events, sizeof no_events};
static const struct net other = {other_bytes, sizeof other_bytes};
static const struct net many = {five_words, sizeof five_words};

static uint64_t tokens[3] = {7, 7, 7};
static uint8_t kept[HOV_MAX_WORD_EVENTS];

static void print(const char *what, uint32_t number, const uint64_t answer[4])
{
    printf("%s: %s %" PRIu32 ",", what,
           number == HOV_OK        ? "result"
           : number == HOV_STOPPED ? "stopped"
                                   : "refused",
           number);
    for (size_t i = 0; i < 4; i++) {
        printf(" %" PRIu64, answer[i]);
    }
    printf(", tokens");
    for (size_t i = 0; i < 3; i++) {
        printf(" %" PRIu64, tokens[i]);
    }
    printf(", kept");
    for (size_t i = 0; i < 4; i++) {
        printf(" %d", kept[i]);
    }
    printf("\n");
}

static size_t start(const char *what, struct net net, size_t tokens_len)
{
    uint64_t answer[4] = {9, 9, 9, 9};
    uint32_t number = hov_start(net.bytes, net.length, tokens, tokens_len, answer);
    print(what, number, answer);
    return (size_t)answer[0];
}

static size_t step(const char *what, struct net net, size_t tokens_len, size_t kept_len,
                   size_t so_far, size_t event)
{
    uint64_t answer[4] = {9, 9, 9, 9};
    uint32_t number = hov_step(net.bytes, net.length, tokens, tokens_len, kept, kept_len, so_far,
                               event, answer);
    print(what, number, answer);
    return (size_t)answer[0];
}

static void replace(const char *what, struct net old, struct net net, size_t tokens_len,
                    size_t kept_len, size_t so_far)
{
    uint64_t answer[4] = {9, 9, 9, 9};
    uint32_t number = hov_replace(old.bytes, old.length, net.bytes, net.length, tokens,
                                  tokens_len, kept, kept_len, so_far, answer);
    print(what, number, answer);
}

static void play(void)
{
    start("empty", empty, 3);
    start("cut", cut, 3);
    start("n = 0", zero, 3);
    start("too many events", many, 3);
    start("few tokens", a, 1);
    size_t number = start("start", a, 3);
    number = step("0", a, 3, sizeof kept, number, 0);
    number = step("0", a, 2, 2, number, 0);
    step("0", a, 3, 3, number, 0);
    step("2", a, 3, 2, number, 2);
    step("full", a, 3, 2, number, 0);
    step("few tokens", a, 1, 3, number, 0);
    number = step("1", a, 3, 3, number, 1);
    step("last number", a, 3, sizeof kept, HOV_MAX_WORD_EVENTS - 1, 1);
    step("number", a, 3, sizeof kept, HOV_MAX_WORD_EVENTS, 1);
    step("cut", cut, 3, sizeof kept, 0, 0);
    tokens[0] = HOV_MAX_TOKENS;
    step("most tokens", a, 3, 6, 5, 1);
    tokens[0] = HOV_MAX_TOKENS + UINT64_C(1);
    step("too many tokens", a, 3, 0, 5, SIZE_MAX);
}

/* Behind the events 0 0 1, whatever the tokens are. */
static void replace_nets(void)
{
    replace("replaced", a, b, 3, 3, 3);
    size_t number = step("1", b, 3, 4, 3, 1);
    replace("back", b, a, 3, 3, 3);
    replace("stops", b, a, 3, sizeof kept, number);
    replace("no event", b, a, 3, 0, 0);
    replace("itself", a, a, 2, 1, 1);
    replace("more events", a, b, 3, sizeof kept, HOV_MAX_WORD_EVENTS + 1);
    replace("few events", a, b, 3, 2, 3);
    replace("old one empty", empty, b, 3, 3, 3);
    replace("new one empty", a, empty, 3, 3, 3);
    replace("old one cut", cut, zero, 3, 3, 3);
    replace("new one cut", a, cut, 3, 3, 3);
    replace("n = 0", a, zero, 3, 3, 3);
    replace("too many events", a, many, 3, 3, 3);
    replace("other events", a, other, 0, 3, 3);
    replace("few tokens", b, a, 1, 3, 3);
    kept[2] = 2;
    replace("wrong event", a, b, 3, 3, 3);
}

int main(void)
{
    for (size_t word = 0; word < 5; word++) {
        five_words[2 + word * 256] = 255;
    }
    for (size_t i = 0; i < sizeof kept; i++) {
        kept[i] = 8;
    }
    play();
    replace_nets();
    return 0;
}
