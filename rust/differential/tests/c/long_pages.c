/*
 * Screens long words with one bundle and with two: inputs that start or end exactly where a
 * page that may not be read or written starts or ends, in pages that may not be written. The
 * bundles end with their last place, so that nothing but a closed page is behind it.
 */
#include "pages.h"

#include "hovmekhar.h"

/* A place over two events: the initial tokens, what each puts and what each takes. */
enum { PLACE = 2 * (1 + 2 + 2) };

/* The first bundle, the second and the word. */
enum { INPUTS = 3 };

static struct pages pages[INPUTS];
/* Bit i: input i is at the end of its pages. */
static unsigned at_end;
static unsigned calls;

/* Two events and so many places. Each event takes three tokens and puts them back, and event
   1 takes one more and puts it back from the last place: that one refuses it. */
static uint8_t *lend_net(struct pages from, uint8_t places, bool end, size_t *length)
{
    *length = 3 + (size_t)places * PLACE;
    uint8_t *net = lend(from, *length, end);
    memset(net, 0, *length);
    net[0] = 2;
    net[2] = places;
    for (size_t at = 3; at < *length; at += PLACE) {
        for (size_t number = 0; number < 5; number++) {
            net[at + 2 * number] = 3;
        }
    }
    net[*length - 6] = 4;
    net[*length - 2] = 4;
    return net;
}

static void expect(uint32_t number, const uint64_t answer[4], size_t position, size_t word_len,
                   size_t place)
{
    bool stopped = position < word_len;
    if (number != (stopped ? HOV_STOPPED : HOV_OK)) {
        fail("another number than expected");
    }
    if (stopped && (answer[0] != position || answer[1] != place || answer[2] != 1)) {
        fail("another stop than expected");
    }
    calls++;
}

/* A word of events 0, but for an event 1 at this position, or behind the word's end. */
static void make_calls(uint8_t first, uint8_t second, size_t word_len, size_t position)
{
    size_t one_len;
    size_t two_len;
    uint64_t answer[4] = {0};
    uint8_t *one = lend_net(pages[0], first, at_end & 1, &one_len);
    uint8_t *two = lend_net(pages[1], second, at_end >> 1 & 1, &two_len);
    uint8_t *word = lend(pages[2], word_len, at_end >> 2 & 1);
    memset(word, 0, word_len);
    if (position < word_len) {
        word[position] = 1;
    }
    for (size_t i = 0; i < INPUTS; i++) {
        protect(pages[i], PROT_READ);
    }
    uint32_t number = hov_screen(one, one_len, word, word_len, answer);
    expect(number, answer, position, word_len, first - 1U);
    number = hov_screen(two, two_len, word, word_len, answer);
    expect(number, answer, position, word_len, second - 1U);
    number = hov_screen_joined(one, one_len, two, two_len, word, word_len, answer);
    expect(number, answer, position, word_len, first - 1U);
    for (size_t i = 0; i < INPUTS; i++) {
        protect(pages[i], PROT_READ | PROT_WRITE);
    }

    /* Event 1 takes no token more from the first net now, and so the second refuses it. */
    one[one_len - 2] = 3;
    for (size_t i = 0; i < INPUTS; i++) {
        protect(pages[i], PROT_READ);
    }
    number = hov_screen_joined(one, one_len, two, two_len, word, word_len, answer);
    expect(number, answer, position, word_len, first + second - 1U);
    for (size_t i = 0; i < INPUTS; i++) {
        protect(pages[i], PROT_READ | PROT_WRITE);
    }
}

int main(void)
{
    const uint8_t counts[] = {1, 2, 3, 7, 8, 9, 16, 17, 63, 64};
    const size_t lengths[] = {
        255, 256, 257, 1023, 1024, 1025, 4352, 5119, 5120, 5121, 9216, HOV_MAX_WORD_EVENTS,
    };
    const size_t count = sizeof counts / sizeof *counts;

    for (size_t i = 0; i < INPUTS; i++) {
        pages[i] = open_pages(HOV_MAX_WORD_EVENTS);
    }
    for (at_end = 0; at_end < 1U << INPUTS; at_end++) {
        for (size_t i = 0; i < count; i++) {
            for (size_t j = 0; j < sizeof lengths / sizeof *lengths; j++) {
                uint8_t other = counts[(i + j) % count];
                make_calls(counts[i], other, lengths[j], 0);
                make_calls(counts[i], other, lengths[j], 1023);
                make_calls(counts[i], other, lengths[j], lengths[j] - 1);
                make_calls(counts[i], other, lengths[j], lengths[j]);
            }
        }
    }
    printf("%u long words screened\n", calls);
    return 0;
}
