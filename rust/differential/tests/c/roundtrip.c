/*
 * Seals and opens a bundle from C, then tries one call for each refusal, and
 * prints what each call returned and the first number of its answer.
 */
#include "hovmekhar.h"

#include <inttypes.h>
#include <stdio.h>
#include <string.h>

static uint8_t bundle[600];
static uint8_t file[2 * HOV_BLOCK_SIZE];
static uint8_t output[HOV_MAX_BUNDLE_SIZE];
static uint64_t answer[4];

static const char *output_state(void)
{
    for (size_t i = 0; i < sizeof output; i++) {
        if (output[i] != 0) {
            return "output changed";
        }
    }
    return "output as it was";
}

/* Opens the file with this byte altered, and makes it right again. */
static void open_altered(const char *name, size_t at)
{
    file[at] ^= 1;
    uint32_t number = hov_open(file, sizeof file, output, sizeof output, answer);
    printf("%s: %" PRIu32 ", %" PRIu64 ", %s\n", name, number, answer[0], output_state());
    file[at] ^= 1;
}

int main(void)
{
    for (size_t i = 0; i < sizeof bundle; i++) {
        bundle[i] = (uint8_t)(i % 251 + 1);
    }

    uint32_t number = hov_seal(bundle, sizeof bundle, file, sizeof file, answer);
    printf("sealed %zu bytes: %" PRIu32 ", %" PRIu64 "\n", sizeof bundle, number, answer[0]);

    number = hov_open(file, sizeof file, output, sizeof output, answer);
    printf("opened: %" PRIu32 ", %" PRIu64 ", %s\n", number, answer[0],
           memcmp(output, bundle, sizeof bundle) == 0 ? "equal" : "not equal");

    memset(output, 0, sizeof output);
    open_altered("altered", HOV_BLOCK_SIZE + 4);
    open_altered("another number", HOV_BLOCK_SIZE);
    open_altered("unused byte", HOV_BLOCK_SIZE + 4 + HOV_CONTENTS_SIZE - 1);

    number = hov_open(file, sizeof file, output, sizeof bundle - 1, answer);
    printf("short: %" PRIu32 ", %" PRIu64 ", %s\n", number, answer[0], output_state());

    number = hov_open(file, 0, output, 0, answer);
    printf("empty: %" PRIu32 ", %" PRIu64 "\n", number, answer[0]);

    number = hov_seal(bundle, 0, output, 0, answer);
    printf("nothing to seal: %" PRIu32 ", %" PRIu64 "\n", number, answer[0]);
    return 0;
}
