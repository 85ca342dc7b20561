/*
 * Replaces nets, with bundles, tokens and events that start or end exactly where a page that
 * may not be read or written starts or ends. Only the tokens may be written, and with a refusal
 * not they either. The new bundle and the buffer end where they are read up to.
 */
#include "pages.h"

#include "hovmekhar.h"

/* A place over two events: the initial tokens, what each puts and what each takes. */
enum { PLACE = 2 * (1 + 2 + 2) };

/* The old bundle, the new one and the events so far. */
enum { OLD, NEW, KEPT, INPUTS };

static struct pages pages[INPUTS];
static struct pages token_pages;
static unsigned calls;

/* What is lent, and how many events there are. */
struct lent {
    const uint8_t *bytes[INPUTS];
    size_t length[INPUTS];
    uint64_t *tokens;
    size_t tokens_len;
    size_t number;
};

static void replace(struct lent lent, uint32_t expected, uint64_t spot)
{
    uint64_t answer[4] = {99, 99, 99, 99};
    uint32_t number = hov_replace(lent.bytes[OLD], lent.length[OLD], lent.bytes[NEW],
                                  lent.length[NEW], lent.tokens, lent.tokens_len, lent.bytes[KEPT],
                                  lent.length[KEPT], lent.number, answer);
    if (number != expected || answer[0] != (expected == HOV_OK ? 99 : spot)) {
        fail("another answer than expected");
    }
    calls++;
}

/* Two events, no word, and so many places with 9 tokens; event 0 takes 3 tokens out of each and
   puts 1 there, event 1 puts 2. */
static void lend_net(struct lent *lent, int side, uint8_t places, bool at_end)
{
    size_t length = 3 + (size_t)places * PLACE;
    uint8_t *net = lend(pages[side], length, at_end);
    memset(net, 0, length);
    net[0] = 2;
    net[2] = places;
    for (size_t at = 3; at < length; at += PLACE) {
        net[at] = 9;
        net[at + 2] = 1;
        net[at + 4] = 2;
        net[at + 6] = 3;
    }
    lent->bytes[side] = net;
    lent->length[side] = length;
    protect(pages[side], PROT_READ);
}

/* So many events, of each three the last one 0 and the others 1. */
static void lend_events(struct lent *lent, size_t number, bool at_end)
{
    uint8_t *kept = lend(pages[KEPT], number, at_end);
    for (size_t i = 0; i < number; i++) {
        kept[i] = i % 3 != 2;
    }
    lent->bytes[KEPT] = kept;
    lent->length[KEPT] = lent->number = number;
    protect(pages[KEPT], PROT_READ);
}

/* Refusals: every length that is too short, of each buffer. */
static void make_refused_calls(struct lent lent, uint8_t places)
{
    struct lent other = lent;
    protect(token_pages, PROT_READ);
    for (size_t fewer = 0; fewer < places; fewer++) {
        other.tokens_len = fewer;
        replace(other, HOV_NUMBERS_SHORT, places);
    }
    for (int side = OLD; side <= NEW; side++) {
        other = lent;
        other.length[side] = 0;
        replace(other, HOV_BUNDLE_LENGTH, 0);
        other.length[side] = 2;
        replace(other, HOV_BUNDLE_END, 2);
    }
    other = lent;
    for (size_t shorter = 0; shorter < lent.length[KEPT] && shorter < 20; shorter++) {
        other.length[KEPT] = shorter;
        replace(other, HOV_OUTPUT_SHORT, lent.number);
    }
    other.length[KEPT] = lent.length[KEPT];
    other.number = lent.number + 1;
    replace(other, lent.number == 65535 ? HOV_WORD_LENGTH : HOV_OUTPUT_SHORT,
            lent.number == 65535 ? 65535 : other.number);
    protect(token_pages, PROT_READ | PROT_WRITE);
}

/* Bit i of ends: input i is at the end of its pages; the bit behind: the tokens. */
static void make_calls(uint8_t places, size_t number, size_t more, unsigned ends)
{
    struct lent lent = {.tokens_len = places + more};
    lend_net(&lent, OLD, 2, ends >> OLD & 1);
    lend_net(&lent, NEW, places, ends >> NEW & 1);
    lend_events(&lent, number, ends >> KEPT & 1);
    lent.tokens = (uint64_t *)(void *)lend(token_pages, lent.tokens_len * sizeof *lent.tokens,
                                           ends >> INPUTS & 1);
    for (size_t j = 0; j < lent.tokens_len; j++) {
        lent.tokens[j] = UINT64_MAX;
    }
    make_refused_calls(lent, places);
    replace(lent, HOV_OK, 0);
    uint64_t after = 9 + 2 * (number - number / 3) - 2 * (number / 3);
    for (size_t j = 0; j < lent.tokens_len; j++) {
        if (lent.tokens[j] != (j < places ? after : UINT64_MAX)) {
            fail("other tokens than expected");
        }
    }
    for (size_t side = 0; side < INPUTS; side++) {
        protect(pages[side], PROT_READ | PROT_WRITE);
    }
}

int main(void)
{
    const uint8_t counts[] = {0, 1, 2, 3, 7, 8, 9, 15, 16, 17, 63, 64};
    const size_t numbers[] = {0, 1, 2, 7, 8, 33, 1023, 1024, 1025, 5120, 5121, 65535};
    pages[OLD] = open_pages(3 + 64 * PLACE);
    pages[NEW] = open_pages(3 + 64 * PLACE);
    pages[KEPT] = open_pages(65536);
    token_pages = open_pages(80 * sizeof(uint64_t));
    for (size_t i = 0; i < sizeof counts / sizeof *counts; i++) {
        for (size_t k = 0; k < sizeof numbers / sizeof *numbers; k++) {
            for (unsigned ends = 0; ends < 1U << (INPUTS + 1); ends++) {
                make_calls(counts[i], numbers[k], k % 3, ends);
            }
        }
    }
    printf("%u replacements\n", calls);
    return 0;
}
