/*
 * Screens words with two bundles: three inputs that start or end exactly where a page
 * that may not be read or written starts or ends, in pages that may not be written.
 */
#include "pages.h"

#include "hovmekhar.h"

/* The first bundle, the second and the word. */
enum { INPUTS = 3 };

struct input {
    const uint8_t *bytes;
    size_t length;
};

static struct pages pages[INPUTS];
/* Bit i: input i is at the end of its pages. */
static unsigned at_end;
static unsigned calls;

/* Screens, which has to return this number. */
static void make(struct input first, struct input second, struct input word, uint32_t number)
{
    const struct input inputs[INPUTS] = {first, second, word};
    const uint8_t *lent[INPUTS];
    uint64_t answer[4] = {0};

    for (size_t i = 0; i < INPUTS; i++) {
        uint8_t *buffer = lend(pages[i], inputs[i].length, at_end >> i & 1);
        memcpy(buffer, inputs[i].bytes, inputs[i].length);
        protect(pages[i], PROT_READ);
        lent[i] = buffer;
    }
    if (hov_screen_joined(lent[0], first.length, lent[1], second.length, lent[2], word.length,
                          answer) != number) {
        fail("another number than expected");
    }
    for (size_t i = 0; i < INPUTS; i++) {
        protect(pages[i], PROT_READ | PROT_WRITE);
    }
    calls++;
}

static struct input front(struct input input, size_t length)
{
    input.length = length;
    return input;
}

/* Every beginning of both bundles, whose last places end here. Both together permit two
   events 0. */
static void make_calls(struct input first, size_t first_end, struct input second, size_t second_end)
{
    static uint8_t zeros[HOV_MAX_WORD_EVENTS + 1];
    static uint8_t wrong[HOV_MAX_WORD_EVENTS];
    static uint8_t longer[HOV_MAX_BUNDLE_SIZE + 1];
    const uint8_t other[] = {3, 0, 0};
    const struct input too_long = {zeros, sizeof zeros};
    const struct input longest = {zeros, HOV_MAX_WORD_EVENTS};
    const struct input permitted = {zeros, 2};
    wrong[sizeof wrong - 1] = HOV_MAX_EVENTS;
    memcpy(longer, second.bytes, second.length);

    for (size_t length = 1; length < first_end; length++) {
        make(front(first, length), second, permitted, HOV_BUNDLE_END);
        make(front(first, length), front(second, 0), permitted, HOV_BUNDLE_END);
    }
    for (size_t length = 1; length < second_end; length++) {
        make(first, front(second, length), permitted, HOV_BUNDLE_END);
        make(front(first, first_end), front(second, length), permitted, HOV_BUNDLE_END);
    }
    for (size_t length = first_end; length <= first.length; length++) {
        for (size_t behind = second_end; behind <= second.length; behind++) {
            struct input net = front(first, length);
            struct input other_net = front(second, behind);
            make(net, other_net, front(permitted, 0), HOV_OK);
            make(net, other_net, front(permitted, 1), HOV_OK);
            make(net, other_net, permitted, HOV_OK);
            make(net, other_net, front(longest, 3), HOV_STOPPED);
        }
    }
    make(first, second, longest, HOV_STOPPED);
    make(first, second, too_long, HOV_WORD_LENGTH);
    make(front(first, 0), front(second, 0), too_long, HOV_WORD_LENGTH);
    make(front(first, 0), second, longest, HOV_BUNDLE_LENGTH);
    make(first, front(second, 0), longest, HOV_BUNDLE_LENGTH);
    make(first, (struct input){longer, HOV_MAX_BUNDLE_SIZE}, permitted, HOV_OK);
    make(first, (struct input){longer, sizeof longer}, permitted, HOV_BUNDLE_LENGTH);
    make((struct input){longer, sizeof longer}, second, permitted, HOV_BUNDLE_LENGTH);
    make(first, (struct input){other, sizeof other}, permitted, HOV_EVENT_COUNTS);
    make(first, second, (struct input){wrong, sizeof wrong}, HOV_WORD_EVENT);
}

int main(void)
{
    /* Two events, the words 1 and 0 0 1, two places and six certificates. */
    const uint8_t a[] = {
        2, 2, 1, 1, 3, 0, 0, 1, 2, 1, 0, 1, 0, 0, 0, 1, 0, 1, 0, 2, 0, 0, 0, 0, 0, 1, 0,
        0, 0, 0, 0, 0, 0, 1, 2, 0, 2, 0, 0, 1, 1, 0, 3, 0, 1, 1, 0, 0, 1, 0, 0, 0, 0,
    };
    /* Two events, no word, and a place: event 0 puts a token in, event 1 takes one out. Two
       bytes follow. */
    const uint8_t b[] = {2, 0, 1, 0, 0, 1, 0, 0, 0, 0, 0, 1, 0, 9, 9};
    const struct input with_words = {a, sizeof a};
    const struct input one_place = {b, sizeof b};

    for (size_t i = 0; i < INPUTS; i++) {
        pages[i] = open_pages(HOV_MAX_FILE_SIZE);
    }
    for (at_end = 0; at_end < 1U << INPUTS; at_end++) {
        make_calls(with_words, 29, one_place, 13);
        make_calls(one_place, 13, with_words, 29);
    }
    printf("%u screened on two nets\n", calls);
    return 0;
}
