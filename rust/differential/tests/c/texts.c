/*
 * What the header has without the library: the version, and a line for each
 * number with its text.
 */
#include "hovmekhar.h"

#include <inttypes.h>
#include <stdio.h>

int main(void)
{
    printf("%s %d.%d.%d\n", HOV_VERSION, HOV_VERSION_MAJOR, HOV_VERSION_MINOR,
           HOV_VERSION_PATCH);
    for (uint32_t number = 0; number <= 260; number++) {
        printf("%" PRIu32 " %s\n", number, hov_refusal_text(number));
    }
    return HOV_OK;
}
