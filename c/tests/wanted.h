/* What a test wants, for C and C++: each want that fails is printed with its line, and counted. */
#ifndef WANTED_H
#define WANTED_H

#include <stdint.h>
#include <stdio.h>
#include <stdlib.h>
#include <string.h>
#include <sys/mman.h>
#include <unistd.h>

#include "thp.h"

static int failures = 0;

#define WANT(condition) \
    do { \
        if (!(condition)) { \
            fprintf(stderr, "%s:%d: %s\n", __FILE__, __LINE__, #condition); \
            failures++; \
        } \
    } while (0)

/* a call answers this code */
#define ANSWERS(call, code) \
    do { \
        thp_code got_ = (call); \
        if (got_ != (code)) { \
            fprintf(stderr, "%s:%d: %s: %s\n", __FILE__, __LINE__, #call, thp_strerror(got_)); \
            failures++; \
        } \
    } while (0)

/* a page of memory for one handle alone, which can be protected: a call that writes to a const handle there ends the test */
static inline void *page_for_handle(void) {
    enum { LARGEST = 1 << 16 };
    static unsigned char room[2 * LARGEST];
    const uintptr_t size = (uintptr_t)sysconf(_SC_PAGESIZE);
    return (void *)(((uintptr_t)room + size - 1) / size * size);
}

static inline void protect(void *page, int how) { WANT(mprotect(page, (size_t)sysconf(_SC_PAGESIZE), how) == 0); }

#endif
