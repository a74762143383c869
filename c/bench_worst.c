/*
 * Looks for the stream that costs most a byte: short patterns of D3, B5 62, lengths and good small frames, repeated, and fed in
 * the largest pieces and in pieces of 1,460 bytes, in both modes. Prints the worst of so many patterns, in nanoseconds of processor time a byte.
 *
 * Usage: bench_worst PATTERNS
 */
#define _POSIX_C_SOURCE 199309L /* For clock_gettime. */

#include <stdio.h>
#include <stdlib.h>
#include <string.h>
#include <time.h>

#include "peerivolt.h"
#include "random.h"

#define PATTERN_MAX 400
#define STREAM (2 * PV_PIECE_MAX)

static uint8_t stream[STREAM];

static double now_ns(void)
{
    struct timespec t;
    clock_gettime(CLOCK_PROCESS_CPUTIME_ID, &t);
    return (double)t.tv_sec * 1e9 + (double)t.tv_nsec;
}

static double fed_in(size_t piece, uint32_t mode)
{
    static uint8_t held[PV_HELD_SIZE], out[PV_FRAME_MAX];
    uint64_t extra[PV_EXTRA_SIZE];
    size_t held_count = 0, place = 0;
    double before = now_ns();
    while (place < STREAM) {
        size_t end = piece < STREAM - place ? place + piece : STREAM;
        do {
            pv_feed(held, sizeof held, held_count, place, mode, stream + place, end - place, out, sizeof out, extra,
                    PV_EXTRA_SIZE);
            place += extra[PV_AT_FED_TAKEN];
            held_count = extra[PV_AT_FED_HELD_COUNT];
        } while (extra[PV_AT_FED_IS_FRAME] == PV_FRAME);
    }
    return (now_ns() - before) / STREAM;
}

/* The least of three runs: other work on the machine only adds. */
static double cost_in(size_t piece, uint32_t mode)
{
    double least = fed_in(piece, mode);
    for (int i = 0; i < 2; i++) {
        double again = fed_in(piece, mode);
        least = again < least ? again : least;
    }
    return least;
}

static size_t random_pattern(uint8_t *pattern)
{
    size_t n = 0, parts = 1 + random64() % 12;
    while (parts-- > 0 && n < PATTERN_MAX - 100) {
        uint64_t kind = random64() % 6;
        if (kind == 0) {
            for (size_t i = 1 + random64() % 80; i > 0; i--)
                pattern[n++] = 0xD3;
        } else if (kind == 1) {
            pattern[n++] = 0xD3;
            pattern[n++] = (uint8_t)(random64() % 4);
            pattern[n++] = (uint8_t)random64();
        } else if (kind == 2) {
            uint8_t data[16];
            uint64_t extra[PV_EXTRA_SIZE];
            size_t len = random64() % sizeof data;
            memset(data, 0xD3, sizeof data);
            pv_frame_write(data, len, pattern + n, len + PV_FRAME_MIN, extra, PV_EXTRA_SIZE);
            n += len + PV_FRAME_MIN;
        } else if (kind == 3) {
            pattern[n++] = 0xB5;
            pattern[n++] = 0x62;
            pattern[n++] = (uint8_t)(random64() % 4);
        } else if (kind == 4) {
            static const uint8_t ubx[] = { 0xB5, 0x62, 0xD3, 0x03, 0xFD, 0x03 };
            memcpy(pattern + n, ubx, sizeof ubx);
            n += sizeof ubx;
        } else {
            pattern[n++] = (uint8_t)random64();
        }
    }
    return n;
}

static void print_worst(double ns, size_t piece, uint32_t mode, const uint8_t *pattern, size_t n)
{
    printf("%8.2f ns a byte in mode %u, in pieces of %zu:", ns, (unsigned)mode, piece);
    for (size_t i = 0; i < n; i++)
        printf(" %02X", pattern[i]);
    printf("\n");
    fflush(stdout);
}

int main(int argc, char **argv)
{
    static const size_t pieces[] = { PV_PIECE_MAX, 1460 };
    double worst[4] = { 0, 0, 0, 0 };
    uint8_t pattern[PATTERN_MAX];
    for (long k = argc > 1 ? atol(argv[1]) : 100; k > 0; k--) {
        size_t n = random_pattern(pattern);
        for (size_t i = 0; i < STREAM; i++)
            stream[i] = pattern[i % n];
        for (size_t i = 0; i < 4; i++) {
            double ns = cost_in(pieces[i % 2], (uint32_t)(i / 2));
            if (worst[i] < ns) {
                worst[i] = ns;
                print_worst(ns, pieces[i % 2], (uint32_t)(i / 2), pattern, n);
            }
        }
    }
    return 0;
}
