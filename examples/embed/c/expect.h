/* What the programs that misuse the library have in common: allocations that can be made to fail, and what is expected. */
#ifndef EXPECT_H
#define EXPECT_H
#include "earlybird.h"
#include <inttypes.h>
#include <stdio.h>
#include <stdlib.h>
#include <string.h>

void *__real_malloc(size_t size);
void *__wrap_malloc(size_t size);

static long left = -1; /* how many allocations still go well; below 0: all */

void *__wrap_malloc(size_t size) {
    if (left == 0)
        return NULL;
    if (left > 0)
        left--;
    return __real_malloc(size);
}

static int failures;

#define EXPECT(got, want)                                                                                                                 \
    do {                                                                                                                                  \
        uint64_t found = (got);                                                                                                           \
        if (found != (want)) {                                                                                                            \
            failures++;                                                                                                                   \
            printf("line %d: %s is %" PRIu64 "\n", __LINE__, #got, found);                                                                \
        }                                                                                                                                 \
    } while (0)

static const unsigned char *bytes(const char *text) { return (const unsigned char *)text; }

/* Does a call with the first, the second, the third .. allocation failing, until it goes well: each time before it answers
 * EB_NO_MEMORY, and all is as it was; `tried` counts these. */
#define UNTIL_IT_GOES_WELL(call, as_before)                                                                                               \
    for (long goes = 0;; goes++) {                                                                                                        \
        left = goes;                                                                                                                      \
        uint32_t got = (call);                                                                                                            \
        left = -1;                                                                                                                        \
        if (got == EB_OK)                                                                                                                 \
            break;                                                                                                                        \
        EXPECT(got, EB_NO_MEMORY);                                                                                                        \
        EXPECT(as_before, 1);                                                                                                             \
        tried++;                                                                                                                          \
    }

#endif
