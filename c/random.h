/* Numbers that look random and are the same in every run: the public generator xorshift64*. */
#ifndef PEERIVOLT_RANDOM_H
#define PEERIVOLT_RANDOM_H

#include <stdint.h>

static inline uint64_t random64(void)
{
    static uint64_t state = 0x9E3779B97F4A7C15;
    state ^= state << 13;
    state ^= state >> 7;
    state ^= state << 17;
    return state * 0x2545F4914F6CDD1D;
}

#endif
