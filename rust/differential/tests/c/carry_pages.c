/*
 * Plays events on bundles, tokens and buffers that start or end exactly where a page that may
 * not be read or written starts or ends. The bundle ends with its last place, in a page that
 * may not be written; with a refusal and with a stop neither may the pages of the tokens and of
 * the buffer be.
 */
#include "pages.h"

#include "hovmekhar.h"

/* A place over two events: the initial tokens, what each puts and what each takes. */
enum { PLACE = 2 * (1 + 2 + 2), SO_FAR = 8 };

static struct pages bundle_pages;
static struct pages token_pages;
static struct pages kept_pages;
static unsigned calls;

struct lent {
    const uint8_t *net;
    size_t net_len;
    uint64_t *tokens;
    size_t tokens_len;
    uint8_t *kept;
    size_t kept_len;
};

/* Two events, no word and so many places: event 0 takes 3 of 5 tokens and puts 4 there; event
   1 takes 3, too, but from the last place 6. */
static const uint8_t *lend_net(uint8_t places, bool at_end, size_t *length)
{
    *length = 3 + (size_t)places * PLACE;
    uint8_t *net = lend(bundle_pages, *length, at_end);
    memset(net, 0, *length);
    net[0] = 2;
    net[2] = places;
    for (size_t at = 3; at < *length; at += PLACE) {
        net[at] = 5;
        net[at + 2] = 4;
        net[at + 6] = 3;
        net[at + 8] = 3;
    }
    if (places > 0) {
        net[*length - 2] = 6;
    }
    return net;
}

static void expect(uint32_t number, uint32_t expected, uint64_t spot, const uint64_t answer[4])
{
    if (number != expected || answer[0] != spot) {
        fail("another answer than expected");
    }
    calls++;
}

static void start(struct lent lent, uint32_t expected, uint64_t spot)
{
    uint64_t answer[4];
    expect(hov_start(lent.net, lent.net_len, lent.tokens, lent.tokens_len, answer), expected, spot,
           answer);
}

static void step(struct lent lent, size_t number, size_t event, uint32_t expected, uint64_t spot)
{
    uint64_t answer[4] = {0};
    expect(hov_step(lent.net, lent.net_len, lent.tokens, lent.tokens_len, lent.kept, lent.kept_len,
                    number, event, answer),
           expected, spot, answer);
    if (expected == HOV_STOPPED && (answer[1] != lent.net[2] - 1U || answer[2] != 1)) {
        fail("another stop than expected");
    }
}

/* The calls that leave the tokens and the buffer as they were. */
static void make_refused_calls(struct lent lent, uint8_t places)
{
    struct lent other = lent;
    protect(token_pages, PROT_READ);
    protect(kept_pages, PROT_READ);
    for (size_t fewer = 0; fewer < places; fewer++) {
        other.tokens_len = fewer;
        start(other, HOV_NUMBERS_SHORT, places);
        step(other, SO_FAR, 0, HOV_NUMBERS_SHORT, places);
    }
    other = lent;
    for (size_t shorter = 0; shorter <= SO_FAR; shorter++) {
        other.kept_len = shorter;
        step(other, SO_FAR, 0, HOV_OUTPUT_SHORT, SO_FAR + 1);
    }
    step(lent, lent.kept_len, 0, HOV_OUTPUT_SHORT, lent.kept_len + 1);
    other = lent;
    other.net_len = 2;
    start(other, HOV_BUNDLE_END, 2);
    step(other, SO_FAR, 0, HOV_BUNDLE_END, 2);
    other.net_len = 0;
    start(other, HOV_BUNDLE_LENGTH, 0);
    step(lent, SO_FAR, 2, HOV_WORD_EVENT, SO_FAR);
    step(lent, 65535, 0, HOV_WORD_LENGTH, 65535);
    if (places > 0) {
        step(lent, SO_FAR, 1, HOV_STOPPED, SO_FAR);
    }
    protect(token_pages, PROT_READ | PROT_WRITE);
    protect(kept_pages, PROT_READ | PROT_WRITE);
}

/* Bit 0 of ends: the bundle is at the end of its pages; bit 1: the tokens; bit 2: the buffer. */
static void make_calls(uint8_t places, size_t more, unsigned ends)
{
    struct lent lent = {.tokens_len = places + more, .kept_len = SO_FAR + 1 + more};
    lent.net = lend_net(places, ends & 1, &lent.net_len);
    lent.tokens = (uint64_t *)(void *)lend(token_pages, lent.tokens_len * sizeof *lent.tokens,
                                           ends >> 1 & 1);
    lent.kept = lend(kept_pages, lent.kept_len, ends >> 2 & 1);
    protect(bundle_pages, PROT_READ);
    for (size_t j = 0; j < lent.tokens_len; j++) {
        lent.tokens[j] = UINT64_MAX;
    }
    memset(lent.kept, 77, lent.kept_len);
    start(lent, HOV_OK, 0);
    make_refused_calls(lent, places);
    step(lent, SO_FAR, 0, HOV_OK, SO_FAR + 1);
    for (size_t j = 0; j < lent.tokens_len; j++) {
        if (lent.tokens[j] != (j < places ? 6 : UINT64_MAX)) {
            fail("other tokens than expected");
        }
    }
    for (size_t i = 0; i < lent.kept_len; i++) {
        if (lent.kept[i] != (i == SO_FAR ? 0 : 77)) {
            fail("other events than expected");
        }
    }
    protect(bundle_pages, PROT_READ | PROT_WRITE);
}

int main(void)
{
    const uint8_t counts[] = {0, 1, 2, 3, 7, 8, 9, 15, 16, 17, 31, 63, 64};
    bundle_pages = open_pages(3 + 64 * PLACE);
    token_pages = open_pages(80 * sizeof(uint64_t));
    kept_pages = open_pages(SO_FAR + 20);
    for (size_t i = 0; i < sizeof counts / sizeof *counts; i++) {
        for (size_t more = 0; more < 10; more += 3) {
            for (unsigned ends = 0; ends < 8; ends++) {
                make_calls(counts[i], more, ends);
            }
        }
    }
    printf("%u starts and steps\n", calls);
    return 0;
}
