/* What a guest writes and reads, and how an example says what it got. */
#ifndef GUEST_H
#define GUEST_H

#include "vcrypto.h"

#include <stdio.h>
#include <string.h>

/* ---- fields, lowest byte first */

static inline void put_le32(uint8_t *at, uint32_t x)
{
    for (int i = 0; i < 4; i++)
        at[i] = (uint8_t)(x >> 8 * i);
}

static inline void put_le64(uint8_t *at, uint64_t x)
{
    put_le32(at, (uint32_t)x);
    put_le32(at + 4, (uint32_t)(x >> 32));
}

static inline uint64_t get_le64(const uint8_t *at)
{
    uint64_t x = 0;
    for (int i = 0; i < 8; i++)
        x |= (uint64_t)at[i] << 8 * i;
    return x;
}

static inline size_t count_nonzero(const uint8_t *bytes, size_t size)
{
    size_t n = 0;
    for (size_t i = 0; i < size; i++)
        n += bytes[i] != 0;
    return n;
}

/* ---- what an example says, and whether it is as expected */

static int wrong = 0;

static inline void expect(const char *what, uint64_t got, uint64_t expected)
{
    printf("%s %llu\n", what, (unsigned long long)got);
    if (got != expected) {
        printf("  expected %llu\n", (unsigned long long)expected);
        wrong = 1;
    }
}

/* In lines of 32 bytes. */
static inline void show(const char *what, const uint8_t *bytes, size_t size)
{
    printf("%s ", what);
    for (size_t i = 0; i < size; i++) {
        if (i > 0 && i % 32 == 0)
            printf("\n%*s ", (int)strlen(what), "");
        printf("%02x", bytes[i]);
    }
    printf("\n");
}

#endif
