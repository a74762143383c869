/*
 * Message 1001: a worked message, the order of refusals, random calls held to the plain reference, and what every raw
 * number of 24 and of 20 bits measures, held to the product of two doubles.
 */
#include "test.h"

#include "random.h"
#include "reference.h"

/* Two copies of everything that a call is lent: one for the library and one for the reference. */
struct lent {
    uint8_t data[1100];
    uint8_t satellites[40], codes[40], locks[40];
    uint32_t pseudoranges[40];
    int32_t phases[40];
    uint64_t extra[PV_EXTRA_SIZE];
};

static struct lent ours, theirs;

#define LISTS(l, n) (l).satellites, (n), (l).codes, (n), (l).pseudoranges, (n), (l).phases, (n), (l).locks, (n)
#define EXTRA(l) (l).extra, PV_EXTRA_SIZE

/* One byte of everything, and extra numbers that are not 0. */
static void lend(uint8_t filling)
{
    memset(&ours, filling, sizeof ours);
    theirs = ours;
}

static void set_row(size_t i, unsigned satellite, unsigned code, uint32_t pseudorange, int32_t phase, unsigned lock)
{
    ours.satellites[i] = (uint8_t)satellite;
    ours.codes[i] = (uint8_t)code;
    ours.pseudoranges[i] = pseudorange;
    ours.phases[i] = phase;
    ours.locks[i] = (uint8_t)lock;
    theirs = ours;
}

static void carries(uint32_t got, uint32_t number, uint64_t first, uint64_t second)
{
    CHECK_EQ(got, number);
    CHECK_EQ(ours.extra[0], first);
    CHECK_EQ(ours.extra[1], second);
    for (size_t k = 2; k < PV_EXTRA_SIZE; k++)
        CHECK_EQ(ours.extra[k], 0);
    memcpy(ours.extra, theirs.extra, sizeof ours.extra);
    CHECK(memcmp(&ours, &theirs, sizeof ours) == 0);
}

/* ---- A worked message. ---- */

static void worked(void)
{
    lend(0);
    set_row(0, 5, 1, 0xFFFFFF, -0x80000, 127);
    CHECK_EQ(pv_1001_write(ours.data, 16, 4095, 0x3FFFFFFF, 1, 0, 7, LISTS(ours, 1), EXTRA(ours)), PV_ACCEPTED);
    CHECK_EQ(ours.extra[PV_AT_WRITTEN_END], 122);
    ref_1001_write(theirs.data, 16, 4095, 0x3FFFFFFF, 1, 0, 7, LISTS(theirs, 1), EXTRA(theirs));
    CHECK(memcmp(ours.data, theirs.data, 16) == 0);
    memset(ours.satellites, 9, 2);
    CHECK_EQ(pv_1001_read(ours.data, 16, LISTS(ours, 2), EXTRA(ours)), PV_ACCEPTED);
    CHECK_EQ(ours.extra[PV_AT_READ_RECORDS], 1);
    CHECK_EQ(ours.extra[PV_AT_READ_END], 122);
    CHECK_EQ(ours.extra[PV_AT_1001_STATION], 4095);
    CHECK_EQ(ours.extra[PV_AT_1001_EPOCH], 0x3FFFFFFF);
    CHECK_EQ(ours.extra[PV_AT_1001_SYNCHRONOUS], 1);
    CHECK_EQ(ours.extra[PV_AT_1001_SMOOTHING], 0);
    CHECK_EQ(ours.extra[PV_AT_1001_INTERVAL], 7);
    CHECK(ours.satellites[0] == 5 && ours.codes[0] == 1 && ours.pseudoranges[0] == 0xFFFFFF);
    CHECK(ours.phases[0] == -0x80000 && ours.locks[0] == 127 && ours.satellites[1] == 9);
}

/* ---- The order of refusals. ---- */

#define READ(n, places) pv_1001_read(ours.data, (n), LISTS(ours, (places)), EXTRA(ours))
#define WRITE(n, station, places) pv_1001_write(ours.data, (n), (station), 0, 0, 0, 0, LISTS(ours, (places)), EXTRA(ours))

static void refusals_of_reading(void)
{
    lend(0);
    set_row(0, 1, 0, 2, 3, 4);
    set_row(1, 5, 0, 6, 7, 8);
    CHECK_EQ(WRITE(23, 1, 2), PV_ACCEPTED);
    theirs = ours;
    carries(READ(1024, 0), PV_SIZE, 0, 0);
    carries(pv_1001_read(ours.data, 0, ours.satellites, 1, ours.codes, 1, ours.pseudoranges, 1, ours.phases, 1, ours.locks, 2,
                         EXTRA(ours)),
            PV_SIZE, 0, 0);
    carries(READ(0, 0), PV_SHORT, 0, 12);
    carries(READ(1, 0), PV_SHORT, 0, 4);
    carries(READ(2, 0), PV_SHORT, 12, 8);
    carries(READ(7, 0), PV_SHORT, 55, 4);
    carries(READ(8, 0), PV_SHORT, 64, 6);
    carries(READ(22, 0), PV_SHORT, 173, 4);
    carries(READ(23, 0), PV_ROOM, 2, 0);
    carries(READ(23, 1), PV_ROOM, 2, 0);
    ours.data[1] ^= 0x10;
    theirs = ours;
    carries(READ(2, 0), PV_KIND, 0, 0);
    carries(READ(1, 0), PV_SHORT, 0, 4);
}

static void refusals_of_writing(void)
{
    lend(0);
    set_row(3, 64, 2, 0, 0, 0);
    set_row(2, 0, 2, 0, 0, 0);
    carries(WRITE(1024, 4096, 40), PV_SIZE, 0, 0);
    carries(WRITE(0, 4096, 40), PV_RANGE, 0, 0);
    carries(WRITE(0, 4095, 40), PV_RANGE, 2, 0);
    set_row(2, 0, 1, 0x1000000, 0, 0);
    carries(WRITE(0, 4095, 40), PV_RANGE, 2, 0);
    set_row(2, 0, 1, 0xFFFFFF, -0x80001, 0);
    carries(WRITE(0, 4095, 40), PV_RANGE, 2, 0);
    set_row(2, 0, 1, 0xFFFFFF, 0x80000, 0);
    carries(WRITE(0, 4095, 40), PV_RANGE, 2, 0);
    set_row(2, 0, 1, 0xFFFFFF, 0x7FFFF, 128);
    carries(WRITE(0, 4095, 40), PV_RANGE, 2, 0);
    set_row(2, 63, 1, 0xFFFFFF, 0x7FFFF, 127);
    carries(WRITE(0, 4095, 40), PV_SATELLITE, 3, 0);
    set_row(3, 63, 1, 0xFFFFFF, -0x80000, 127);
    carries(WRITE(0, 4095, 40), PV_TOO_MANY, 32, 0);
    carries(WRITE(0, 4095, 32), PV_TOO_MANY, 32, 0);
    carries(WRITE(232, 4095, 31), PV_ROOM, 64 + 31 * 58, 0);
    carries(WRITE(7, 4095, 0), PV_ROOM, 64, 0);
    CHECK_EQ(WRITE(233, 4095, 31), PV_ACCEPTED);
    CHECK_EQ(WRITE(8, 4095, 0), PV_ACCEPTED);
    CHECK_EQ(pv_1001_lock(1, ours.extra, 7), PV_SIZE);
}

/* ---- Random calls. ---- */

static void same(const char *what, uint32_t got, uint32_t expected)
{
    check_equal(got, expected, what, __FILE__, __LINE__);
    check_equal(memcmp(&ours, &theirs, sizeof ours) != 0, 0, what, __FILE__, __LINE__);
}

static void random_call(void)
{
    uint8_t *bytes = (uint8_t *)&ours;
    for (size_t k = 0; k < sizeof ours; k++)
        bytes[k] = (uint8_t)random64();
    size_t n = (size_t)(random64() % 34), len = (size_t)(random64() % 300);
    for (size_t i = 0; i < n; i++)
        if (random64() % 200 != 0)
            set_row(i, (unsigned)(random64() % 64), (unsigned)(random64() % 2), (uint32_t)(random64() >> 40),
                    (int32_t)(random64() >> 44) - 0x80000, (unsigned)(random64() % 128));
    theirs = ours;
    uint32_t station = (uint32_t)(random64() % 4100), epoch = (uint32_t)(random64() >> (random64() % 9 == 0 ? 33 : 34));
    uint32_t flag = (uint32_t)(random64() % 40 / 20), interval = (uint32_t)(random64() % 80 / 10);
    same("pv_1001_write", pv_1001_write(ours.data, len, station, epoch, flag, 1 - flag, interval, LISTS(ours, n), EXTRA(ours)),
         ref_1001_write(theirs.data, len, station, epoch, flag, 1 - flag, interval, LISTS(theirs, n), EXTRA(theirs)));
    if (random64() % 2)
        len = (size_t)(random64() % 300);
    if (random64() % 4 == 0)
        theirs.data[random64() % 20] = ours.data[random64() % 20];
    ours = theirs;
    n = (size_t)(random64() % 40);
    same("pv_1001_read", pv_1001_read(ours.data, len, LISTS(ours, n), EXTRA(ours)),
         ref_1001_read(theirs.data, len, LISTS(theirs, n), EXTRA(theirs)));
}

/* ---- What every raw number measures. ---- */

static uint64_t bits_of(double metres)
{
    uint64_t bits;
    memcpy(&bits, &metres, sizeof bits);
    return bits;
}

static void every_number(void)
{
    uint64_t e[PV_EXTRA_SIZE], wrong = 0;
    for (uint32_t raw = 0; raw < 1u << 24; raw++) {
        uint32_t got = pv_1001_pseudorange(raw, e, PV_EXTRA_SIZE);
        int absent = raw == 0xFFFFFF;
        wrong += got != PV_ACCEPTED || e[0] != (absent ? 0u : 2u) || e[1] != (absent ? 0 : bits_of((double)raw * 0.02));
    }
    for (int32_t raw = -0x80000; raw < 0x80000; raw++) {
        uint32_t got = pv_1001_phase(raw, e, PV_EXTRA_SIZE);
        int absent = raw == -0x80000;
        wrong += got != PV_ACCEPTED || e[0] != (absent ? 0u : 2u) || e[1] != (absent ? 0 : bits_of((double)raw * 0.0005));
    }
    for (uint32_t raw = 0; raw < 128; raw++)
        wrong += pv_1001_lock(raw, e, PV_EXTRA_SIZE) != PV_ACCEPTED || e[0] != PV_MEASURED_COUNT || e[1] != raw;
    CHECK_EQ(wrong, 0);
}

/* Usage: test_1001 CALLS [every]. */
int main(int argc, char **argv)
{
    worked();
    refusals_of_reading();
    refusals_of_writing();
    for (long k = argc > 1 ? atol(argv[1]) : 0; k > 0; k--)
        random_call();
    if (argc > 2)
        every_number();
    return checks_result("1001");
}
