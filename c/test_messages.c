/*
 * Whole messages 1059 and 1230: worked messages, every order of refusals, that a refused call writes nothing, random calls
 * held to the plain reference, and the headers as structs. test_recordings.c writes the messages of recordings back.
 *
 * Usage: test_messages CALLS
 */
#include "test.h"

#include "random.h"
#include "reference.h"

#define PLACES 2000

/* Two copies of everything that a call is lent: one for the library and one for the reference. */
struct lent {
    uint8_t data[1100];
    uint8_t satellites[PLACES], signals[PLACES];
    int16_t biases[PLACES];
    uint64_t extra[PV_EXTRA_SIZE];
};

static struct lent ours, theirs;

#define LISTS_1059(l, n) (l).satellites, (n), (l).signals, (n), (l).biases, (n)
#define LISTS_1230(l, n) (l).signals, (n), (l).biases, (n)
#define EXTRA(l) (l).extra, PV_EXTRA_SIZE

static void lend(uint8_t filling)
{
    memset(&ours, filling, sizeof ours);
    theirs = ours;
}

static void set_row(size_t i, unsigned satellite, unsigned signal, int bias)
{
    ours.satellites[i] = (uint8_t)satellite;
    ours.signals[i] = (uint8_t)signal;
    ours.biases[i] = (int16_t)bias;
    theirs = ours;
}

/* A refusal: its number, what it carries, 0 in the other places, and nothing else written. */
static void carries_at(uint32_t got, uint32_t number, uint64_t first, uint64_t second, int line)
{
    check_equal(got, number, "the refusal", __FILE__, line);
    check_equal(ours.extra[0], first, "what it carries", __FILE__, line);
    check_equal(ours.extra[1], second, "what it carries too", __FILE__, line);
    for (size_t k = 2; k < PV_EXTRA_SIZE; k++)
        check_equal(ours.extra[k], 0, "a later place", __FILE__, line);
    memcpy(ours.extra, theirs.extra, sizeof ours.extra);
    check_equal(memcmp(&ours, &theirs, sizeof ours) != 0, 0, "something written", __FILE__, line);
}

#define CARRIES(call, number, first, second) carries_at((call), (number), (first), (second), __LINE__)

/* ---- Worked messages. ---- */

static void worked_1059(void)
{
    static const uint8_t expected[] = { 0x42, 0x3F, 0xFF, 0xFF, 0x2A, 0xFF, 0xFB, 0x18, 0x22, 0x84, 0x00, 0x32, 0x7F };
    const struct pv_1059_header header = { 0xFFFFF, 2, 1, 5, 0xFFF6, 3 };
    struct pv_1059_header again = { 0, 0, 0, 0, 0, 0 };
    lend(0xFF);
    set_row(0, 5, 0, 100);
    memset(ours.data, 0, 12);
    CHECK_EQ(pv_1059_message_put(1, ours.data, 13, &header, LISTS_1059(ours, 1), EXTRA(ours)), PV_ACCEPTED);
    CHECK_EQ(ours.extra[PV_AT_WRITTEN_END], 97);
    CHECK(memcmp(ours.data, expected, sizeof expected) == 0);
    CHECK_EQ(pv_1059_message_get(ours.data, 13, &again, LISTS_1059(ours, 2), EXTRA(ours)), PV_ACCEPTED);
    CHECK(memcmp(&again, &header, sizeof header) == 0);
    CHECK_EQ(ours.extra[PV_AT_READ_RECORDS], 1);
    CHECK_EQ(ours.extra[PV_AT_READ_END], 97);
    CHECK_EQ(ours.extra[PV_AT_1059_EPOCH], 0xFFFFF);
    CHECK_EQ(ours.extra[PV_AT_1059_INTERVAL], 2);
    CHECK_EQ(ours.extra[PV_AT_1059_MULTIPLE], 1);
    CHECK_EQ(ours.extra[PV_AT_1059_IOD], 5);
    CHECK_EQ(ours.extra[PV_AT_1059_PROVIDER], 0xFFF6);
    CHECK_EQ(ours.extra[PV_AT_1059_SOLUTION], 3);
    CHECK(ours.satellites[0] == 5 && ours.signals[0] == 0 && ours.biases[0] == 100);
    CHECK(ours.satellites[1] == 0xFF && ours.signals[1] == 0xFF && ours.biases[1] == -1);
}

static void worked_1230(void)
{
    static const uint8_t expected[] = { 0x4C, 0xE8, 0x01, 0xD9, 0x00, 0x01, 0xFF, 0xFF, 0xFF };
    const struct pv_1230_header header = { 2049, 1, 5 };
    struct pv_1230_header again = { 0, 0, 0 };
    lend(0xFF);
    set_row(0, 0, 9, -1);
    set_row(1, 0, 2, 1);
    memset(ours.data, 0, 8);
    CHECK_EQ(pv_1230_message_put(ours.data, 9, &header, LISTS_1230(ours, 2), EXTRA(ours)), PV_ACCEPTED);
    CHECK_EQ(ours.extra[PV_AT_WRITTEN_END], 64);
    CHECK(memcmp(ours.data, expected, sizeof expected) == 0);
    CHECK_EQ(pv_1230_message_get(ours.data, 9, &again, LISTS_1230(ours, 3), EXTRA(ours)), PV_ACCEPTED);
    CHECK(memcmp(&again, &header, sizeof header) == 0);
    CHECK_EQ(ours.extra[PV_AT_READ_RECORDS], 2);
    CHECK_EQ(ours.extra[PV_AT_READ_END], 64);
    CHECK_EQ(ours.extra[PV_AT_1230_STATION], 2049);
    CHECK_EQ(ours.extra[PV_AT_1230_INDICATOR], 1);
    CHECK_EQ(ours.extra[PV_AT_1230_RESERVED], 5);
    CHECK(ours.signals[0] == 2 && ours.biases[0] == 1 && ours.signals[1] == 9 && ours.biases[1] == -1);
    CHECK(ours.signals[2] == 0xFF && ours.biases[2] == -1);
}

/* ---- The order of refusals in reading. ---- */

#define READ_1059(n, places) pv_1059_message_read(ours.data, (n), LISTS_1059(ours, (places)), EXTRA(ours))
#define READ_1230(n, places) pv_1230_message_read(ours.data, (n), LISTS_1230(ours, (places)), EXTRA(ours))

/* The fields of the front: where each starts, and its width. */
static void short_of_front(uint32_t (*read)(size_t), const size_t *widths, size_t fields)
{
    size_t place = 0;
    for (size_t k = 0; k < fields; place += widths[k++])
        for (size_t n = place / 8; n * 8 < place + widths[k]; n++)
            if (n * 8 >= place)
                CARRIES(read(n), PV_SHORT, place, place + widths[k] - n * 8);
}

static uint32_t read_1059_of(size_t n)
{
    return READ_1059(n, 0);
}

static uint32_t read_1230_of(size_t n)
{
    return READ_1230(n, 0);
}

static void refusals_of_reading_1059(void)
{
    static const size_t widths[] = { 12, 20, 4, 1, 4, 16, 4, 6, 6, 5, 5, 14 };
    struct pv_1059_header header = { 1, 2, 0, 3, 4, 5 };
    const struct pv_1059_header before = header;
    lend(0);
    set_row(0, 7, 1, -5);
    set_row(1, 7, 2, 6);
    CHECK_EQ(pv_1059_message_put(2, ours.data, 15, &header, LISTS_1059(ours, 2), EXTRA(ours)), PV_ACCEPTED);
    theirs = ours;
    CARRIES(READ_1059(1024, 0), PV_SIZE, 0, 0);
    CARRIES(pv_1059_message_read(ours.data, 0, ours.satellites, 1, ours.signals, 2, ours.biases, 1, EXTRA(ours)), PV_SIZE, 0, 0);
    CARRIES(pv_1059_message_read(ours.data, 0, ours.satellites, 1, ours.signals, 1, ours.biases, 2, EXTRA(ours)), PV_SIZE, 0, 0);
    short_of_front(read_1059_of, widths, 12);
    CARRIES(READ_1059(14, 0), PV_SHORT, 102, 4);
    CARRIES(READ_1059(15, 0), PV_ROOM, 2, 0);
    CARRIES(READ_1059(15, 1), PV_ROOM, 2, 0);
    CARRIES(pv_1059_message_get(ours.data, 15, &header, LISTS_1059(ours, 1), EXTRA(ours)), PV_ROOM, 2, 0);
    CHECK(memcmp(&header, &before, sizeof header) == 0);
    ours.data[1] ^= 0x10;
    theirs = ours;
    CARRIES(READ_1059(1, 0), PV_SHORT, 0, 4);
    CARRIES(READ_1059(2, 0), PV_KIND, 0, 0);
    CARRIES(READ_1059(15, 0), PV_KIND, 0, 0);
    CARRIES(READ_1059(15, 2), PV_KIND, 0, 0);
    CHECK_EQ(pv_1059_message_read(ours.data, 15, LISTS_1059(ours, 2), ours.extra, 7), PV_SIZE);
    CHECK(memcmp(&ours, &theirs, sizeof ours) == 0);
}

static void refusals_of_reading_1230(void)
{
    static const size_t widths[] = { 12, 12, 1, 3, 4, 16 };
    struct pv_1230_header header = { 4095, 1, 7 };
    const struct pv_1230_header before = header;
    lend(0);
    set_row(0, 0, 3, -5);
    set_row(1, 0, 8, 6);
    CHECK_EQ(pv_1230_message_put(ours.data, 8, &header, LISTS_1230(ours, 2), EXTRA(ours)), PV_ACCEPTED);
    theirs = ours;
    CARRIES(READ_1230(1024, 0), PV_SIZE, 0, 0);
    CARRIES(pv_1230_message_read(ours.data, 0, ours.signals, 1, ours.biases, 2, EXTRA(ours)), PV_SIZE, 0, 0);
    short_of_front(read_1230_of, widths, 6);
    CARRIES(READ_1230(7, 0), PV_SHORT, 48, 8);
    CARRIES(READ_1230(8, 0), PV_ROOM, 2, 0);
    CARRIES(READ_1230(8, 1), PV_ROOM, 2, 0);
    CARRIES(pv_1230_message_get(ours.data, 8, &header, LISTS_1230(ours, 1), EXTRA(ours)), PV_ROOM, 2, 0);
    CHECK(memcmp(&header, &before, sizeof header) == 0);
    ours.data[0] ^= 0x80;
    theirs = ours;
    CARRIES(READ_1230(1, 0), PV_SHORT, 0, 4);
    CARRIES(READ_1230(2, 0), PV_KIND, 0, 0);
    CARRIES(READ_1230(8, 2), PV_KIND, 0, 0);
    CHECK_EQ(pv_1230_message_read(ours.data, 8, LISTS_1230(ours, 2), ours.extra, 9), PV_SIZE);
    CHECK(memcmp(&ours, &theirs, sizeof ours) == 0);
}

/* ---- The order of refusals in writing. ---- */

static uint32_t put_1059(uint32_t edition, size_t n, struct pv_1059_header header, size_t places)
{
    return pv_1059_message_put(edition, ours.data, n, &header, LISTS_1059(ours, places), EXTRA(ours));
}

/* Every number of the header one too large, before a record that is faulty. */
static void header_ranges_1059(size_t places)
{
    const struct pv_1059_header most = { 1048575, 15, 1, 15, 65535, 15 };
    struct pv_1059_header h;
    CARRIES((h = most, h.epoch++, put_1059(1, 0, h, places)), PV_RANGE, 0, 0);
    CARRIES((h = most, h.interval++, put_1059(1, 0, h, places)), PV_RANGE, 0, 0);
    CARRIES((h = most, h.multiple++, put_1059(1, 0, h, places)), PV_RANGE, 0, 0);
    CARRIES((h = most, h.iod++, put_1059(1, 0, h, places)), PV_RANGE, 0, 0);
    CARRIES((h = most, h.provider++, put_1059(1, 0, h, places)), PV_RANGE, 0, 0);
    CARRIES((h = most, h.solution++, put_1059(1, 0, h, places)), PV_RANGE, 0, 0);
    CARRIES((h = most, h.solution = 0xFFFFFFFF, put_1059(1, 0, h, places)), PV_RANGE, 0, 0);
}

static void refusals_of_writing_1059(void)
{
    const struct pv_1059_header good = { 1048575, 15, 1, 15, 65535, 15 }, bad = { 1048576, 15, 1, 15, 65535, 15 };
    lend(0);
    set_row(1, 64, 3, 9000);
    CARRIES(put_1059(0, 1024, bad, 1954), PV_KIND, 0, 0);
    CARRIES(put_1059(3, 0, good, 2), PV_KIND, 0, 0);
    CARRIES(put_1059(1, 1024, bad, 2), PV_SIZE, 0, 0);
    CARRIES(put_1059(1, 0, bad, 1954), PV_SIZE, 0, 0);
    CARRIES(pv_1059_message_write(1, ours.data, 0, 1048576, 0, 0, 0, 0, 0, ours.satellites, 1, ours.signals, 2, ours.biases, 1, EXTRA(ours)), PV_SIZE, 0, 0);
    CARRIES(pv_1059_message_write(1, ours.data, 0, 1048576, 0, 0, 0, 0, 0, ours.satellites, 1, ours.signals, 1, ours.biases, 2, EXTRA(ours)), PV_SIZE, 0, 0);
    header_ranges_1059(2);
    CARRIES(put_1059(1, 0, good, 2), PV_SATELLITE, 1, 0);
    set_row(1, 63, 3, 9000);
    CARRIES(put_1059(1, 0, good, 2), PV_SIGNAL, 1, 0);
    CARRIES(put_1059(2, 0, good, 2), PV_RANGE, 1, 0);
    set_row(1, 0, 0, 8191);
    CARRIES(put_1059(1, 0, good, 40), PV_TOO_MANY, 0, 0);
    CARRIES(put_1059(1, 0, good, 2), PV_DUPLICATE, 1, 0);
    set_row(1, 63, 0, -8192);
    CARRIES(put_1059(1, 15, good, 2), PV_ROOM, 61 + 66, 0);
    CARRIES(put_1059(1, 0, good, 0), PV_ROOM, 67, 0);
    CARRIES(put_1059(1, 8, good, 0), PV_ROOM, 67, 0);
    CHECK_EQ(pv_1059_message_put(1, ours.data, 16, &good, LISTS_1059(ours, 2), ours.extra, 0), PV_SIZE);
    CHECK(memcmp(&ours, &theirs, sizeof ours) == 0);
    CHECK_EQ(put_1059(1, 16, good, 2), PV_ACCEPTED);
    CHECK_EQ(put_1059(2, 9, good, 0), PV_ACCEPTED);
    CHECK_EQ(ours.extra[PV_AT_WRITTEN_END], 67);
}

static uint32_t put_1230(size_t n, struct pv_1230_header header, size_t places)
{
    return pv_1230_message_put(ours.data, n, &header, LISTS_1230(ours, places), EXTRA(ours));
}

static void refusals_of_writing_1230(void)
{
    const struct pv_1230_header good = { 4095, 1, 7 }, far = { 4096, 1, 7 }, flag = { 4095, 2, 7 }, wide = { 4095, 1, 8 };
    lend(0);
    set_row(0, 0, 2, 1);
    set_row(1, 0, 4, 1);
    CARRIES(put_1230(1024, far, 5), PV_SIZE, 0, 0);
    CARRIES(put_1230(0, far, 5), PV_SIZE, 0, 0);
    CARRIES(pv_1230_message_write(ours.data, 0, 4096, 0, 0, ours.signals, 1, ours.biases, 2, EXTRA(ours)), PV_SIZE, 0, 0);
    CARRIES(put_1230(0, far, 2), PV_RANGE, 0, 0);
    CARRIES(put_1230(0, flag, 2), PV_RANGE, 0, 0);
    CARRIES(put_1230(0, wide, 2), PV_RANGE, 0, 0);
    CARRIES(put_1230(0, good, 2), PV_SIGNAL, 1, 0);
    set_row(1, 0, 2, 1);
    CARRIES(put_1230(0, good, 2), PV_DUPLICATE, 1, 0);
    set_row(1, 0, 9, 1);
    CARRIES(put_1230(7, good, 2), PV_ROOM, 28 + 36, 0);
    CARRIES(put_1230(3, good, 0), PV_ROOM, 32, 0);
    CARRIES(put_1230(0, good, 0), PV_ROOM, 32, 0);
    CHECK_EQ(pv_1230_message_put(ours.data, 8, &good, LISTS_1230(ours, 2), ours.extra, 9), PV_SIZE);
    CHECK(memcmp(&ours, &theirs, sizeof ours) == 0);
    CHECK_EQ(put_1230(8, good, 2), PV_ACCEPTED);
    CHECK_EQ(put_1230(4, good, 0), PV_ACCEPTED);
    CHECK_EQ(ours.extra[PV_AT_WRITTEN_END], 32);
}

/* ---- Random calls. ---- */

static void same(const char *what, uint32_t got, uint32_t expected)
{
    check_equal(got, expected, what, __FILE__, __LINE__);
    check_equal(memcmp(&ours, &theirs, sizeof ours) != 0, 0, what, __FILE__, __LINE__);
}

/* A number below 2^width, or rarely one that is just too large. */
static uint32_t number_of(unsigned width)
{
    return random64() % 60 == 0 ? 1u << width : (uint32_t)(random64() >> (64 - width));
}

static void fill(void)
{
    uint8_t *bytes = (uint8_t *)&ours;
    for (size_t k = 0; k < sizeof ours; k++)
        bytes[k] = (uint8_t)(random64() >> 40);
}

/* Data of the last call, all of it or some, with a bit turned or not, into lists with room or not. */
static size_t damage(size_t len)
{
    if (random64() % 3 == 0)
        len = (size_t)(random64() % (len + 1));
    if (random64() % 4 == 0)
        theirs.data[random64() % 30] ^= (uint8_t)(1u << random64() % 8);
    ours = theirs;
    return len;
}

static void random_1059(void)
{
    static const uint8_t usual[] = { 0, 1, 2, 5, 6, 7, 8, 9, 10, 11, 14, 15 };
    fill();
    size_t n = (size_t)(random64() % (random64() % 8 == 0 ? 400 : 24)), len = (size_t)(random64() % 1025);
    uint32_t edition = random64() % 30 == 0 ? 3 : (uint32_t)(1 + random64() % 2);
    for (size_t i = 0; i < n; i++)
        if (random64() % 300 != 0) {
            ours.satellites[i] = (uint8_t)(random64() >> 58);
            ours.signals[i] = random64() % 200 == 0 ? (uint8_t)(random64() % 32) : usual[random64() % 12];
            ours.biases[i] = (int16_t)((int)(random64() >> 50) - 8192);
        }
    theirs = ours;
    uint32_t a = number_of(20), b = number_of(4), c = number_of(1), d = number_of(4), e = number_of(16), f = number_of(4);
    same("pv_1059_message_write",
         pv_1059_message_write(edition, ours.data, len, a, b, c, d, e, f, LISTS_1059(ours, n), EXTRA(ours)),
         ref_1059_message_write(edition, theirs.data, len, a, b, c, d, e, f, LISTS_1059(theirs, n), EXTRA(theirs)));
    len = damage(len);
    n = random64() % 2 ? 422 : (size_t)(random64() % 30);
    same("pv_1059_message_read", pv_1059_message_read(ours.data, len, LISTS_1059(ours, n), EXTRA(ours)),
         ref_1059_message_read(theirs.data, len, LISTS_1059(theirs, n), EXTRA(theirs)));
}

static void random_1230(void)
{
    static const uint8_t usual[] = { 2, 3, 8, 9 };
    fill();
    size_t n = (size_t)(random64() % 40 % 6), len = (size_t)(random64() % 20);
    for (size_t i = 0; i < n; i++)
        if (random64() % 100 != 0)
            ours.signals[i] = usual[(i + random64() % 8 / 7) % 4];
    theirs = ours;
    uint32_t a = number_of(12), b = number_of(1), c = number_of(3);
    same("pv_1230_message_write", pv_1230_message_write(ours.data, len, a, b, c, LISTS_1230(ours, n), EXTRA(ours)),
         ref_1230_message_write(theirs.data, len, a, b, c, LISTS_1230(theirs, n), EXTRA(theirs)));
    len = damage(len);
    n = (size_t)(random64() % 6);
    same("pv_1230_message_read", pv_1230_message_read(ours.data, len, LISTS_1230(ours, n), EXTRA(ours)),
         ref_1230_message_read(theirs.data, len, LISTS_1230(theirs, n), EXTRA(theirs)));
}

int main(int argc, char **argv)
{
    worked_1059();
    worked_1230();
    refusals_of_reading_1059();
    refusals_of_reading_1230();
    refusals_of_writing_1059();
    refusals_of_writing_1230();
    for (long k = argc > 1 ? atol(argv[1]) : 0; k > 0; k--) {
        random_1059();
        random_1230();
    }
    return checks_result("messages");
}
