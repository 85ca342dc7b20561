/*
 * Pages with a page that may not be read or written on either side. A call on a
 * buffer at their start or end that reads or writes beyond it ends the program with
 * a signal.
 */
#ifndef PAGES_H
#define PAGES_H

#define _DEFAULT_SOURCE
#include <stdbool.h>
#include <stdint.h>
#include <stdio.h>
#include <stdlib.h>
#include <string.h>
#include <sys/mman.h>
#include <unistd.h>

/* Pages to lend from, with a closed page before and after. */
struct pages {
    uint8_t *first;
    size_t size;
};

static inline _Noreturn void fail(const char *what)
{
    fprintf(stderr, "%s\n", what);
    exit(1);
}

static inline void protect(struct pages pages, int protection)
{
    if (mprotect(pages.first, pages.size, protection) != 0) {
        fail("mprotect");
    }
}

static inline struct pages open_pages(size_t at_least)
{
    size_t page = (size_t)sysconf(_SC_PAGESIZE);
    size_t size = (at_least + page - 1) / page * page;
    uint8_t *all = mmap(NULL, size + 2 * page, PROT_NONE, MAP_PRIVATE | MAP_ANONYMOUS, -1, 0);
    if (all == MAP_FAILED) {
        fail("mmap");
    }
    struct pages pages = {all + page, size};
    protect(pages, PROT_READ | PROT_WRITE);
    return pages;
}

/* A buffer at the very start or the very end of the pages. */
static inline uint8_t *lend(struct pages pages, size_t length, bool at_end)
{
    return at_end ? pages.first + pages.size - length : pages.first;
}

#endif
