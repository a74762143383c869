/*
 * What the library keeps and needs: bytes a stream, and the most stack that each call takes. A call runs on a stack of its
 * own, painted before; what is no longer painted afterwards it has used. Each is given the input on which it goes deepest.
 */
#define _GNU_SOURCE
#include <pthread.h>
#include <stdio.h>
#include <stdlib.h>
#include <string.h>

#include "bench.h"

#define STACK ((size_t)256 * 1024)
#define PAINT 0xA5
#define OWN 256 /* Bytes below its frame that the caller keeps for itself. */

static uint8_t data[PV_DATA_MAX], frame[PV_FRAME_MAX], out[PV_FRAME_MAX], held[PV_HELD_SIZE], seam[PV_SEAM_SIZE];
static uint8_t hostile[65536], kinds[PV_ALL_MAX], satellites[400], signals[400], codes[31], locks[31], block[512], priorities[64];
static uint32_t starts[PV_ALL_MAX], lengths[PV_ALL_MAX], ranges[31];
static int32_t phases[31];
static int16_t biases[400];
static uint16_t numbers[64];
static struct pv_cache_entry entries[PV_CACHE_MAX];
static uint64_t extra[PV_EXTRA_SIZE];

#define EXTRA extra, PV_EXTRA_SIZE
#define LENT(area) area, sizeof area / sizeof area[0]
#define CALLS(CALL)                                                                                                           \
    CALL("pv_crc24q", pv_crc24q(LENT(frame)))                                                                                 \
    CALL("pv_field_read_unsigned", pv_field_read_unsigned(LENT(data), 3, 64, EXTRA))                                          \
    CALL("pv_field_read_twos", pv_field_read_twos(LENT(data), 3, 64, EXTRA))                                                  \
    CALL("pv_field_read_signmag", pv_field_read_signmag(LENT(data), 3, 64, EXTRA))                                            \
    CALL("pv_field_read_unsigned, 7 bytes", pv_field_read_unsigned(data, 7, 1, 55, EXTRA))                                    \
    CALL("pv_field_write_unsigned", pv_field_write_unsigned(LENT(data), 3, 64, 1, EXTRA))                                     \
    CALL("pv_field_write_twos", pv_field_write_twos(LENT(data), 3, 64, 1, EXTRA))                                             \
    CALL("pv_field_write_signmag", pv_field_write_signmag(LENT(data), 3, 64, 1, EXTRA))                                       \
    CALL("pv_frame_write", pv_frame_write(LENT(data), LENT(frame), EXTRA))                                                    \
    CALL("pv_frame_check", pv_frame_check(LENT(frame), EXTRA))                                                                \
    CALL("pv_differing", pv_differing(LENT(frame), LENT(out), EXTRA))                                                         \
    CALL("pv_feed, a frame", pv_feed(LENT(held), 0, 0, 0, LENT(frame), LENT(out), EXTRA))                                     \
    CALL("pv_feed, false starts", pv_feed(LENT(held), 0, 0, 0, LENT(hostile), LENT(out), EXTRA))                              \
    CALL("pv_feed, false starts, both kinds", pv_feed(LENT(held), 0, 0, 1, LENT(hostile), LENT(out), EXTRA))                  \
    CALL("pv_feed_all, false starts", pv_feed_all(LENT(held), 0, 0, 0, LENT(hostile), LENT(seam), LENT(starts),               \
                                                  LENT(lengths), LENT(kinds), EXTRA))                                         \
    CALL("pv_feed_all, both kinds", pv_feed_all(LENT(held), 0, 0, 1, LENT(hostile), LENT(seam), LENT(starts),                 \
                                                LENT(lengths), LENT(kinds), EXTRA))                                           \
    CALL("pv_close", pv_close(LENT(held), PV_HELD_SIZE, PV_HELD_SIZE, 0, LENT(out), EXTRA))                                   \
    CALL("pv_why", pv_why(LENT(hostile), 65535, EXTRA))                                                                       \
    CALL("pv_1059_write", pv_1059_write(1, LENT(data), 61, LENT(satellites), LENT(signals), LENT(biases), EXTRA))             \
    CALL("pv_1059_read", pv_1059_read(LENT(data), 61, LENT(satellites), LENT(signals), LENT(biases), EXTRA))                  \
    CALL("pv_1059_message_write", pv_1059_message_write(1, LENT(data), 1, 1, 1, 1, 1, 1, LENT(satellites), LENT(signals),     \
                                                        LENT(biases), EXTRA))                                                 \
    CALL("pv_1059_message_read", pv_1059_message_read(LENT(data), LENT(satellites), LENT(signals), LENT(biases), EXTRA))      \
    CALL("pv_1059_signal_of", pv_1059_signal_of(1, 15, EXTRA))                                                                \
    CALL("pv_1059_number_of", pv_1059_number_of(1, 5, 'Q', EXTRA))                                                            \
    CALL("pv_1230_message_write", pv_1230_message_write(LENT(data), 1, 1, 1, (const uint8_t *)"\2\3\10\11", 4, biases, 4, EXTRA)) \
    CALL("pv_1230_message_read", pv_1230_message_read(LENT(data), signals, 4, biases, 4, EXTRA))                              \
    CALL("pv_1230_write", pv_1230_write(LENT(data), 28, (const uint8_t *)"\2\3\10\11", 4, biases, 4, EXTRA))                  \
    CALL("pv_1230_read", pv_1230_read(LENT(data), 28, signals, 4, biases, 4, EXTRA))                                          \
    CALL("pv_1001_write", pv_1001_write(LENT(data), 1, 1, 1, 1, 1, codes, 31, codes, 31, LENT(ranges), LENT(phases), LENT(locks), EXTRA)) \
    CALL("pv_1001_read", pv_1001_read(LENT(data), satellites, 31, LENT(codes), LENT(ranges), LENT(phases), LENT(locks), EXTRA)) \
    CALL("pv_1001_pseudorange", pv_1001_pseudorange(1, EXTRA))                                                                \
    CALL("pv_settings_write", pv_settings_write(2, 1, LENT(numbers), LENT(priorities), LENT(block), EXTRA))                   \
    CALL("pv_settings_read", pv_settings_read(LENT(block), 2, 1, LENT(numbers), LENT(priorities), EXTRA))                     \
    CALL("pv_cache_store", pv_cache_store(LENT(entries), 1, 1, 1, 1, 1, -1, EXTRA))                                           \
    CALL("pv_cache_lookup", pv_cache_lookup(LENT(entries), 1, 1, 1, 1, EXTRA))                                                \
    CALL("pv_cache_remove", pv_cache_remove(LENT(entries), 1, 1, 1, 1, EXTRA))                                                \
    CALL("pv_signal_of", pv_signal_of(PV_GPS, 2, EXTRA))                                                                      \
    CALL("pv_number_of", pv_number_of(PV_GPS, 1, 'C', EXTRA))                                                                 \
    CALL("pv_signal_order", pv_signal_order(PV_GPS, 1, 'C', 2, 'C', EXTRA))

static uint8_t *stack;
static int asked;         /* Which call is made. */
static uint32_t answered; /* What it returned. */
static size_t used;       /* The bytes of the stack that it touched, from the caller's own frame on. */

/* Makes the call on this stack, all of which is painted but for what the caller itself needs. */
static void *on_painted_stack(void *unused)
{
    uint8_t *here = __builtin_frame_address(0);
    size_t below = (size_t)(here - stack), clean = 0;
    int i = 0;
    memset(stack, PAINT, below - OWN);
#define ONE(name, call) \
    if (asked == i++)   \
        answered = call;
    CALLS(ONE)
    while (clean < below && stack[clean] == PAINT)
        clean++;
    used = below - clean;
    return unused;
}

static void measure_stack(int which)
{
    pthread_attr_t attributes;
    pthread_t thread;
    asked = which;
    if (pthread_attr_init(&attributes) != 0 || pthread_attr_setstack(&attributes, stack, STACK) != 0 ||
        pthread_create(&thread, &attributes, on_painted_stack, NULL) != 0 || pthread_join(thread, NULL) != 0)
        exit(2);
    pthread_attr_destroy(&attributes);
}

void print_memory(void)
{
    static const char *const names[] = {
#define NAME(name, call) name,
        CALLS(NAME)
    };
    stack = aligned_alloc(65536, STACK);
    if (stack == NULL)
        exit(2);
    memset(hostile, 0xD3, sizeof hostile);
    for (size_t i = 0; i + 6 <= sizeof hostile / 2; i += 6)
        memcpy(hostile + i, "\xB5\x62\x01\x02\xFD\x03", 6);
    for (size_t i = 0; i < 400; i++)
        satellites[i] = (uint8_t)(i / 12), signals[i] = (uint8_t)"\0\1\2\5\6\7\10\11\12\13\16\17"[i % 12];
    printf("\nMemory\n%-44s %8zu bytes\n", "state of a stream, its held bytes included", sizeof(struct pv_scanner));
    printf("most stack of a call (%d: that or less)\n", OWN);
    for (size_t i = 0; i < sizeof names / sizeof names[0]; i++) {
        measure_stack((int)i);
        if (i > 0 && answered != PV_ACCEPTED)
            printf("  %s: refused with %u\n", names[i], answered), exit(1);
        printf("  %-42s %8zu bytes\n", names[i], used);
    }
    free(stack);
}
