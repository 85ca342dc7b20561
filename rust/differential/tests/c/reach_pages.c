/*
 * Looks for words, with bundles, five bytes and answers that start or end exactly where a page
 * that may not be read or written starts or ends. The bundle ends with its last place, in a page
 * that may not be written; with a refusal and where there is no word neither may the page of the
 * five bytes be, and with the latter not that of the answer either.
 */
#include "pages.h"

#include "hovmekhar.h"

/* A place over two events: the initial tokens, what each puts and what each takes. */
enum { PLACE = 2 * (1 + 2 + 2), FIVE = HOV_MAX_REACH_EVENTS };

static struct pages bundle_pages;
static struct pages word_pages;
static struct pages answer_pages;
static unsigned calls;

struct lent {
    const uint8_t *net;
    size_t net_len;
    uint8_t *word;
    uint64_t *answer;
};

/* Two events, no word and so many places without tokens: event 0 puts 2 there, and event 1 takes
   so many out of the last place. */
static const uint8_t *lend_net(uint8_t places, uint8_t takes, bool at_end, size_t *length)
{
    *length = 3 + (size_t)places * PLACE;
    uint8_t *net = lend(bundle_pages, *length, at_end);
    memset(net, 0, *length);
    net[0] = 2;
    net[2] = places;
    for (size_t at = 3; at < *length; at += PLACE) {
        net[at + 2] = 2;
    }
    if (places > 0) {
        net[*length - 2] = takes;
    }
    return net;
}

static void reach(struct lent lent, size_t wanted, uint32_t expected, uint64_t first)
{
    bool has_number = expected != HOV_NONE;
    memset(lent.answer, 0, 4 * sizeof *lent.answer);
    protect(answer_pages, has_number ? PROT_READ | PROT_WRITE : PROT_READ);
    uint32_t number = hov_reach(lent.net, lent.net_len, wanted, lent.word, lent.answer);
    protect(answer_pages, PROT_READ | PROT_WRITE);
    if (number != expected || (has_number && lent.answer[0] != first)) {
        fail("another answer than expected");
    }
    calls++;
}

/* The calls that leave the five bytes as they were. */
static void make_calls_without_word(struct lent lent)
{
    struct lent other = lent;
    protect(word_pages, PROT_READ);
    other.net_len = 0;
    reach(other, 1, HOV_BUNDLE_LENGTH, 0);
    for (size_t shorter = 1; shorter < lent.net_len && shorter < 20; shorter++) {
        other.net_len = shorter;
        reach(other, 1, HOV_BUNDLE_END, shorter < 3 ? shorter : shorter - (shorter - 3) % 2);
    }
    reach(lent, 2, HOV_WORD_EVENT, 0);
    reach(lent, SIZE_MAX, HOV_WORD_EVENT, 0);
    protect(word_pages, PROT_READ | PROT_WRITE);
}

static void expect_word(const uint8_t *word, size_t length)
{
    for (size_t i = 0; i < FIVE; i++) {
        if (word[i] != (i < length ? 0 : 77)) {
            fail("another word than expected");
        }
    }
}

/* Event 1 takes 0 to 12 tokens: it follows 0 to 5 events 0, or 6, which is none.
   Bit 0 of ends: the bundle is at the end of its pages; bit 1: the five bytes; bit 2: the
   answer. */
static void make_calls(uint8_t places, uint8_t takes, unsigned ends)
{
    struct lent lent;
    size_t length = places > 0 ? (takes + 1U) / 2 : 0;
    lent.net = lend_net(places, takes, ends & 1, &lent.net_len);
    lent.word = lend(word_pages, FIVE, ends >> 1 & 1);
    lent.answer = (uint64_t *)(void *)lend(answer_pages, 4 * sizeof *lent.answer, ends >> 2 & 1);
    protect(bundle_pages, PROT_READ);
    memset(lent.word, 77, FIVE);
    make_calls_without_word(lent);
    if (length > FIVE) {
        protect(word_pages, PROT_READ);
        reach(lent, 1, HOV_NONE, 0);
        protect(word_pages, PROT_READ | PROT_WRITE);
        length = 0;
    } else {
        reach(lent, 1, HOV_OK, length);
    }
    expect_word(lent.word, length);
    protect(bundle_pages, PROT_READ | PROT_WRITE);
}

int main(void)
{
    const uint8_t counts[] = {0, 1, 2, 3, 7, 8, 9, 15, 16, 17, 31, 63, 64};
    bundle_pages = open_pages(3 + 64 * PLACE);
    word_pages = open_pages(FIVE);
    answer_pages = open_pages(4 * sizeof(uint64_t));
    for (size_t i = 0; i < sizeof counts / sizeof *counts; i++) {
        for (uint8_t takes = 0; takes <= 12; takes++) {
            for (unsigned ends = 0; ends < 8; ends++) {
                make_calls(counts[i], takes, ends);
            }
        }
    }
    printf("%u searches\n", calls);
    return 0;
}
