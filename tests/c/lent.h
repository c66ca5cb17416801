/* Buffers lent to a call, each with guard bytes around it, and the comparison of every byte of them after it. */
#ifndef LENT_H
#define LENT_H

#include "bq769x0.h"

#include <stdio.h>
#include <stdlib.h>
#include <string.h>

enum { GUARD = 16, MOST = 256 };

/* A lent buffer, filled and guarded with bytes that no call writes by chance. */
struct lent {
    uint8_t bytes[GUARD + MOST + GUARD];
    size_t len;
};

static unsigned long run;

static inline int tried(const char *what) {
    printf("c: %s: %lu calls as they should be\n", what, run);
    return 0;
}

static inline uint8_t *at(struct lent *b) { return b->bytes + GUARD; }

/* A pointer for a lent buffer, or none where it is empty and none is asked for. */
static inline uint8_t *lent_at(struct lent *b, int null) { return null && b->len == 0 ? NULL : at(b); }

static inline void lend(struct lent *b, const uint8_t *bytes, size_t len) {
    memset(b->bytes, 0xC3, sizeof b->bytes);
    if (bytes != NULL)
        memcpy(at(b), bytes, len);
    b->len = len;
}

static inline void must(int holds, const char *call, const char *what) {
    if (!holds) {
        printf("c: %s: %s is not as it should be\n", call, what);
        exit(1);
    }
}

/* b is as it was lent but for its first used bytes, which are those given. */
static inline void same(const char *call, const char *what, const struct lent *b, const struct lent *before, const uint8_t *bytes, size_t used) {
    struct lent expected = *before;
    memcpy(expected.bytes + GUARD, bytes, used);
    must(memcmp(expected.bytes, b->bytes, sizeof b->bytes) == 0, call, what);
}

static inline void put(uint8_t *to, uint64_t n, int width) {
    for (int i = 0; i < width; i++)
        to[i] = (uint8_t)(n >> (8 * (width - 1 - i)));
}

/* The bytes of out: two positions and five numbers. */
static inline void laid(uint8_t out[BQ769X0_OUT], size_t tape_used, size_t log_used, const uint32_t five[5]) {
    put(out, tape_used, 8);
    put(out + 8, log_used, 8);
    for (int i = 0; i < 5; i++)
        put(out + 16 + 4 * i, five[i], 4);
}

#endif
