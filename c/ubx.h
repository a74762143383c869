/* A UBX frame for the tests. Include it behind test.h. */
#ifndef PEERIVOLT_UBX_H
#define PEERIVOLT_UBX_H

#include "random.h"

/* A UBX frame with n bytes of payload, made by the public description. Returns how many bytes it has. */
static inline size_t put_ubx(uint8_t *to, size_t n)
{
    unsigned a = 0, b = 0;
    to[0] = 0xB5;
    to[1] = 0x62;
    for (size_t i = 2; i < n + 6; i++)
        to[i] = (uint8_t)random64();
    to[4] = (uint8_t)n;
    to[5] = (uint8_t)(n >> 8);
    for (size_t i = 2; i < n + 6; i++) {
        a = (a + to[i]) % 256;
        b = (b + a) % 256;
    }
    to[n + 6] = (uint8_t)a;
    to[n + 7] = (uint8_t)b;
    return n + 8;
}

#endif
