/* Every function of the header: what it answers, its limits, its refusals and their order, and what it leaves alone. */
#include "test.h"

#include "signals.h"

/* The areas of the call under test. A refused call must leave all of them as they were, but for `extra`. */
static struct area data, out, held, piece, satellites, signals, biases, extra;
static struct area *const lent[] = { &data, &out, &held, &piece, &satellites, &signals, &biases };

/* Every call starts from areas that are kept and an extra area full of rubbish. */
static void ready(void)
{
    for (size_t i = 0; i < sizeof lent / sizeof lent[0]; i++)
        area_keep(lent[i]);
    area_lend(&extra, PV_EXTRA_SIZE * sizeof(uint64_t), 0xEE);
}

static void nothing_written(const char *what, int line)
{
    for (size_t i = 0; i < sizeof lent / sizeof lent[0]; i++)
        check_equal(area_same(lent[i]), 1, what, __FILE__, line);
}

static void extra_is(const uint64_t *expected, size_t n, const char *what, int line)
{
    const uint64_t *numbers = area_u64(&extra);
    for (size_t i = 0; i < PV_EXTRA_SIZE; i++)
        check_equal(numbers[i], i < n ? expected[i] : 0, what, __FILE__, line);
    check_equal(area_guard_same(&extra), 1, what, __FILE__, line);
}

#define EXTRA area_u64(&extra), PV_EXTRA_SIZE
#define DATA data.bytes, data.size
#define OUT out.bytes, out.size
#define LISTS_1059 satellites.bytes, satellites.size, signals.bytes, signals.size, area_i16(&biases), biases.size / 2
#define LISTS_1230 signals.bytes, signals.size, area_i16(&biases), biases.size / 2

static void refused(uint32_t got, uint32_t number, uint64_t carried, const char *what, int line)
{
    check_equal(got, number, what, __FILE__, line);
    extra_is(&carried, 1, what, line);
    nothing_written(what, line);
}

static void refused_two(uint32_t got, uint32_t number, uint64_t carried, uint64_t carried_too, const char *what, int line)
{
    const uint64_t both[] = { carried, carried_too };
    check_equal(got, number, what, __FILE__, line);
    extra_is(both, 2, what, line);
    nothing_written(what, line);
}

static void accepted(uint32_t got, const uint64_t *numbers, size_t n, const char *what, int line)
{
    check_equal(got, PV_ACCEPTED, what, __FILE__, line);
    extra_is(numbers, n, what, line);
}

#define REFUSED(call, number, carried) (ready(), refused((call), (number), (carried), #call, __LINE__))
#define REFUSED_TWO(call, number, carried, carried_too)                                                                \
    (ready(), refused_two((call), (number), (carried), (carried_too), #call, __LINE__))
#define ACCEPTED(call, ...)                                                                                            \
    (ready(), accepted((call), (const uint64_t[]){ __VA_ARGS__ }, sizeof((const uint64_t[]){ __VA_ARGS__ }) / 8, #call, \
                       __LINE__))

/* Lends an area with these bytes. */
#define LEND(area, ...) lend_bytes(&(area), (const uint8_t[]){ __VA_ARGS__ }, sizeof((const uint8_t[]){ __VA_ARGS__ }))
static void lend_bytes(struct area *area, const uint8_t *bytes, size_t n)
{
    area_lend(area, n, 0);
    memcpy(area->bytes, bytes, n);
}

#define HAS(area, ...)                                                                                                 \
    CHECK((area).size >= sizeof((const uint8_t[]){ __VA_ARGS__ }) &&                                                   \
          memcmp((area).bytes, (const uint8_t[]){ __VA_ARGS__ }, sizeof((const uint8_t[]){ __VA_ARGS__ })) == 0)

static void lend_1230(size_t n)
{
    area_lend(&signals, n, 0);
    area_lend(&biases, 2 * n, 0);
}

static void set_1230(size_t i, unsigned signal, int bias)
{
    signals.bytes[i] = (uint8_t)signal;
    area_i16(&biases)[i] = (int16_t)bias;
}

static void lend_1059(size_t n)
{
    area_lend(&satellites, n, 0);
    lend_1230(n);
}

static void set_1059(size_t i, unsigned satellite, unsigned signal, int bias)
{
    satellites.bytes[i] = (uint8_t)satellite;
    set_1230(i, signal, bias);
}

#define SIGNED(number) ((uint64_t)(int64_t)(number))

/* ---- The marked examples. ---- */

static uint64_t before_held; /* Bytes that went by before the held ones. */

static uint32_t feed_in(uint32_t mode, size_t *count)
{
    uint32_t got = pv_feed(held.bytes, held.size, *count, before_held + *count, mode, piece.bytes, piece.size, OUT, EXTRA);
    if (got == PV_ACCEPTED) {
        *count = area_u64(&extra)[PV_AT_FED_HELD_COUNT];
        before_held = area_u64(&extra)[PV_AT_FED_ALL_TAKEN] - *count;
    }
    return got;
}

/* What feeding in a mode answers: the five numbers given, the place that goes with them, all taken, and the kind. */
#define FED_IN(mode, is_frame, taken, skipped, left, len, kind)                                                        \
    do {                                                                                                               \
        uint64_t place = (is_frame) == PV_FRAME ? before_held + (skipped) : 0;                                         \
        uint64_t all = before_held + count + (taken);                                                                  \
        ACCEPTED(feed_in(mode, &count), is_frame, taken, skipped, left, len, place, all, kind);                        \
    } while (0)
#define FED(is_frame, taken, skipped, left, len) FED_IN(PV_RTCM_ONLY, is_frame, taken, skipped, left, len, PV_RTCM)

static void example_1_to_3(void)
{
    const uint8_t bytes[] = { 0xD3, 0, 0 };
    CHECK_EQ(pv_crc24q(NULL, 0), 0);
    CHECK_EQ(pv_crc24q(bytes, 0), 0);
    CHECK_EQ(pv_crc24q(bytes, 1), 0xE33309);
    CHECK_EQ(pv_crc24q(bytes, 3), 0x47EA4B);

    LEND(data, 0xD3, 0, 0, 0x47, 0xEA, 0x4B);
    ACCEPTED(pv_frame_check(DATA, EXTRA), 6, 0, 0, 0, 0x47EA4B);
    LEND(data, 0xD3, 0, 0, 0x47, 0xEA, 0x4B, 0, 0);
    ACCEPTED(pv_frame_check(DATA, EXTRA), 6, 0, 0, 0, 0x47EA4B);

    LEND(data, 0xD3, 0, 0, 0x47, 0xEA, 0x4A);
    REFUSED_TWO(pv_frame_check(DATA, EXTRA), PV_BAD_CHECK, 0x47EA4A, 0x47EA4B);
    REFUSED(pv_frame_check(NULL, 0, EXTRA), PV_INCOMPLETE, 0);
}

static void example_4_and_5(void)
{
    size_t count = 0;
    area_lend(&held, PV_HELD_SIZE, 0x77);
    area_lend(&out, PV_FRAME_MAX + 3, 0x55);
    LEND(piece, 0xD3, 0, 0, 0xD3, 0, 0, 0x47, 0xEA, 0x4B);
    FED(PV_FRAME, 9, 3, 0, 6);
    HAS(out, 0xD3, 0, 0, 0x47, 0xEA, 0x4B, 0x55, 0x55);
    CHECK(area_same(&held));
    area_lend(&piece, 0, 0);
    FED(PV_MORE, 0, 0, 0, 0);

    count = 0;
    LEND(piece, 0xD3, 0xD3, 0, 0, 0x47, 0xEA, 0x4B);
    FED(PV_MORE, 7, 0, 7, 0);
    CHECK(area_same(&out));
    HAS(held, 0xD3, 0xD3, 0, 0, 0x47, 0xEA, 0x4B, 0x77, 0x77);
}

static void example_6_and_7(void)
{
    LEND(data, 0xA5);
    ACCEPTED(pv_field_read_unsigned(DATA, 2, 3, EXTRA), 4);
    ACCEPTED(pv_field_read_twos(DATA, 2, 3, EXTRA), SIGNED(-4));
    ACCEPTED(pv_field_read_signmag(DATA, 2, 3, EXTRA), 0);

    area_lend(&data, 2, 0);
    ACCEPTED(pv_field_write_twos(DATA, 0, 14, -8192, EXTRA), 14);
    ACCEPTED(pv_field_read_twos(DATA, 0, 14, EXTRA), SIGNED(-8192));
    ACCEPTED(pv_field_write_twos(DATA, 0, 14, 8191, EXTRA), 14);
    ACCEPTED(pv_field_read_twos(DATA, 0, 14, EXTRA), 8191);
    REFUSED(pv_field_write_twos(DATA, 0, 14, 8192, EXTRA), PV_RANGE, 0);
    REFUSED(pv_field_write_twos(DATA, 0, 14, 10000, EXTRA), PV_RANGE, 0);
}

static void example_8_and_9(void)
{
    area_lend(&data, 5, 0);
    lend_1059(1);
    set_1059(0, 5, 0, 100);
    ACCEPTED(pv_1059_write(1, DATA, 0, LISTS_1059, EXTRA), 36);
    HAS(data, 0x04, 0x50, 0x80, 0x06, 0x40);
    lend_1059(3);
    ACCEPTED(pv_1059_read(DATA, 0, LISTS_1059, EXTRA), 1, 36);
    CHECK(satellites.bytes[0] == 5 && signals.bytes[0] == 0 && area_i16(&biases)[0] == 100);

    area_lend(&data, 5, 0);
    lend_1230(2);
    set_1230(0, 9, -1);
    set_1230(1, 2, 1);
    ACCEPTED(pv_1230_write(DATA, 0, LISTS_1230, EXTRA), 36);
    HAS(data, 0x90, 0x00, 0x1F, 0xFF, 0xF0);
    lend_1230(4);
    ACCEPTED(pv_1230_read(DATA, 0, LISTS_1230, EXTRA), 2, 36);
    CHECK(signals.bytes[0] == 2 && area_i16(&biases)[0] == 1);
    CHECK(signals.bytes[1] == 9 && area_i16(&biases)[1] == -1);
}

/* ---- Checksum and fields. ---- */

static void published_checksums(void)
{
    /* The published check value of CRC-24Q: start 0, of the nine digits. */
    CHECK_EQ(pv_crc24q((const uint8_t *)"123456789", 9), 0xCDE703);
    area_lend(&data, 65536, 0);
    CHECK_EQ(pv_crc24q(DATA), 0);
    data.bytes[65535] = 1;
    CHECK_EQ(pv_crc24q(DATA), 0x864CFB);
}

typedef uint32_t read_field(const uint8_t *, size_t, size_t, size_t, uint64_t *, size_t);

static void field_read_refusals(read_field *read)
{
    area_lend(&data, 1024, 0xFF);
    REFUSED(read(DATA, 0, 1, EXTRA), PV_SIZE, 0);
    REFUSED(read(DATA, SIZE_MAX, 0, EXTRA), PV_SIZE, 0);
    REFUSED(read(DATA, 0, 65, EXTRA), PV_SIZE, 0);
    area_lend(&data, 1023, 0);
    REFUSED(read(DATA, SIZE_MAX, 0, EXTRA), PV_WIDTH, 0);
    REFUSED(read(DATA, 0, 65, EXTRA), PV_WIDTH, 0);
    REFUSED(read(DATA, 0, SIZE_MAX, EXTRA), PV_WIDTH, 0);
    ACCEPTED(read(DATA, 8184 - 64, 64, EXTRA), 0);
    REFUSED_TWO(read(DATA, 8184 - 63, 64, EXTRA), PV_SHORT, 8184 - 63, 1);
    ACCEPTED(read(DATA, 8183, 1, EXTRA), 0);
    REFUSED_TWO(read(DATA, 8184, 1, EXTRA), PV_SHORT, 8184, 1);
    REFUSED_TWO(read(DATA, SIZE_MAX, 1, EXTRA), PV_SHORT, SIZE_MAX, 1);
    REFUSED_TWO(read(DATA, SIZE_MAX - 63, 64, EXTRA), PV_SHORT, SIZE_MAX - 63, 64);
    REFUSED_TWO(read(DATA, SIZE_MAX - 62, 64, EXTRA), PV_SHORT, SIZE_MAX - 62, 64);
    REFUSED_TWO(read(DATA, SIZE_MAX / 8 + 1, 8, EXTRA), PV_SHORT, SIZE_MAX / 8 + 1, 8);
    REFUSED_TWO(read(NULL, 0, 0, 1, EXTRA), PV_SHORT, 0, 1);
    REFUSED_TWO(read(NULL, 0, 0, 64, EXTRA), PV_SHORT, 0, 64);
    REFUSED_TWO(read(NULL, 0, SIZE_MAX, 64, EXTRA), PV_SHORT, SIZE_MAX, 64);
    REFUSED(read(NULL, 0, 7, 0, EXTRA), PV_WIDTH, 0);
    LEND(data, 0xFF);
    REFUSED_TWO(read(DATA, 1, 8, EXTRA), PV_SHORT, 1, 1);
    REFUSED_TWO(read(DATA, 7, 64, EXTRA), PV_SHORT, 7, 63);
    REFUSED_TWO(read(DATA, 8, 64, EXTRA), PV_SHORT, 8, 64);
    REFUSED_TWO(read(DATA, 0, 9, EXTRA), PV_SHORT, 0, 1);
}

static void field_values(void)
{
    LEND(data, 0x80, 0, 0, 0, 0, 0, 0, 0, 0xFF);
    ACCEPTED(pv_field_read_unsigned(DATA, 0, 64, EXTRA), 0x8000000000000000);
    ACCEPTED(pv_field_read_twos(DATA, 0, 64, EXTRA), SIGNED(INT64_MIN));
    ACCEPTED(pv_field_read_signmag(DATA, 0, 64, EXTRA), 0);
    ACCEPTED(pv_field_read_unsigned(DATA, 1, 64, EXTRA), 1);
    ACCEPTED(pv_field_read_unsigned(DATA, 8, 64, EXTRA), 0xFF);
    ACCEPTED(pv_field_read_twos(DATA, 0, 1, EXTRA), SIGNED(-1));
    ACCEPTED(pv_field_read_signmag(DATA, 0, 1, EXTRA), 0);
    ACCEPTED(pv_field_read_signmag(DATA, 64, 8, EXTRA), SIGNED(-127));
    ACCEPTED(pv_field_read_twos(DATA, 64, 8, EXTRA), SIGNED(-1));
    CHECK(area_same(&data));
}

static void write_refusal_order(void)
{
    area_lend(&data, 1024, 0xFF);
    REFUSED(pv_field_write_unsigned(DATA, 0, 0, 9, EXTRA), PV_SIZE, 0);
    REFUSED(pv_field_write_twos(DATA, 0, 0, 9, EXTRA), PV_SIZE, 0);
    REFUSED(pv_field_write_signmag(DATA, 0, 0, 9, EXTRA), PV_SIZE, 0);
    area_lend(&data, 1023, 0xFF);
    REFUSED(pv_field_write_unsigned(DATA, SIZE_MAX, 0, 9, EXTRA), PV_WIDTH, 0);
    REFUSED(pv_field_write_twos(DATA, SIZE_MAX, 65, 9, EXTRA), PV_WIDTH, 0);
    REFUSED(pv_field_write_signmag(DATA, SIZE_MAX, SIZE_MAX, 9, EXTRA), PV_WIDTH, 0);
    REFUSED(pv_field_write_unsigned(DATA, SIZE_MAX, 3, 8, EXTRA), PV_RANGE, 0);
    REFUSED(pv_field_write_unsigned(DATA, SIZE_MAX, 3, 7, EXTRA), PV_ROOM, 3);
    REFUSED(pv_field_write_unsigned(DATA, 8184 - 63, 64, UINT64_MAX, EXTRA), PV_ROOM, 64);
    ACCEPTED(pv_field_write_unsigned(DATA, 8184 - 64, 64, UINT64_MAX, EXTRA), 8184);
    REFUSED(pv_field_write_twos(DATA, 8184, 1, 0, EXTRA), PV_ROOM, 1);
    REFUSED(pv_field_write_signmag(DATA, SIZE_MAX - 1, 4, -7, EXTRA), PV_ROOM, 4);
    REFUSED(pv_field_write_unsigned(NULL, 0, 0, 1, 0, EXTRA), PV_ROOM, 1);
    REFUSED(pv_field_write_twos(NULL, 0, 0, 0, 0, EXTRA), PV_WIDTH, 0);
    REFUSED(pv_field_write_signmag(NULL, 0, 0, 2, 2, EXTRA), PV_RANGE, 0);
}

/* Writes and reads back at the ends of the range of one width, and just outside. */
static void range_of_width(size_t width)
{
    uint64_t most = width == 64 ? UINT64_MAX : ((uint64_t)1 << width) - 1;
    int64_t limit = (int64_t)(most >> 1);
    area_lend(&data, 9, 0x5A);
    ACCEPTED(pv_field_write_unsigned(DATA, 3, width, most, EXTRA), 3 + width);
    ACCEPTED(pv_field_read_unsigned(DATA, 3, width, EXTRA), most);
    ACCEPTED(pv_field_write_twos(DATA, 3, width, -limit - 1, EXTRA), 3 + width);
    ACCEPTED(pv_field_read_twos(DATA, 3, width, EXTRA), SIGNED(-limit - 1));
    ACCEPTED(pv_field_write_twos(DATA, 3, width, limit, EXTRA), 3 + width);
    ACCEPTED(pv_field_read_twos(DATA, 3, width, EXTRA), SIGNED(limit));
    ACCEPTED(pv_field_write_signmag(DATA, 3, width, -limit, EXTRA), 3 + width);
    ACCEPTED(pv_field_read_signmag(DATA, 3, width, EXTRA), SIGNED(-limit));
    ACCEPTED(pv_field_write_signmag(DATA, 3, width, limit, EXTRA), 3 + width);
    ACCEPTED(pv_field_read_signmag(DATA, 3, width, EXTRA), SIGNED(limit));
    REFUSED(pv_field_write_signmag(DATA, 3, width, -limit - 1, EXTRA), PV_RANGE, 0);
    if (width == 64)
        return;
    REFUSED(pv_field_write_unsigned(DATA, 3, width, most + 1, EXTRA), PV_RANGE, 0);
    REFUSED(pv_field_write_unsigned(DATA, 3, width, UINT64_MAX, EXTRA), PV_RANGE, 0);
    REFUSED(pv_field_write_twos(DATA, 3, width, limit + 1, EXTRA), PV_RANGE, 0);
    REFUSED(pv_field_write_twos(DATA, 3, width, -limit - 2, EXTRA), PV_RANGE, 0);
    REFUSED(pv_field_write_twos(DATA, 3, width, INT64_MIN, EXTRA), PV_RANGE, 0);
    REFUSED(pv_field_write_signmag(DATA, 3, width, limit + 1, EXTRA), PV_RANGE, 0);
    REFUSED(pv_field_write_signmag(DATA, 3, width, INT64_MIN, EXTRA), PV_RANGE, 0);
}

static void exactly_the_named_bits(void)
{
    area_lend(&data, 4, 0xFF);
    ACCEPTED(pv_field_write_unsigned(DATA, 5, 14, 0, EXTRA), 19);
    HAS(data, 0xF8, 0x00, 0x1F, 0xFF);
    area_lend(&data, 4, 0);
    ACCEPTED(pv_field_write_unsigned(DATA, 5, 14, 0x3FFF, EXTRA), 19);
    HAS(data, 0x07, 0xFF, 0xE0, 0x00);
    area_lend(&data, 1, 0);
    ACCEPTED(pv_field_write_signmag(DATA, 2, 4, -1, EXTRA), 6);
    HAS(data, 0x24);
}

static void fields(void)
{
    field_read_refusals(pv_field_read_unsigned);
    field_read_refusals(pv_field_read_twos);
    field_read_refusals(pv_field_read_signmag);
    field_values();
    write_refusal_order();
    for (size_t width = 1; width <= 64; width++)
        range_of_width(width);
    exactly_the_named_bits();
}

/* ---- Frames. ---- */

static void frame_refusal_order(void)
{
    LEND(data, 1, 2, 3, 4, 5);
    REFUSED(pv_frame_check(DATA, EXTRA), PV_INCOMPLETE, 0);
    LEND(data, 1, 2, 3, 4, 5, 6);
    REFUSED(pv_frame_check(DATA, EXTRA), PV_NO_PREAMBLE, 0);
    LEND(data, 0xD3, 0, 1, 0, 0, 0);
    REFUSED(pv_frame_check(DATA, EXTRA), PV_INCOMPLETE, 0);
    LEND(data, 0xD3, 0, 1, 0, 0, 0, 0);
    REFUSED_TWO(pv_frame_check(DATA, EXTRA), PV_BAD_CHECK, 0, pv_crc24q(data.bytes, 4));
}

/* Frames data of a length, checks what the check says of it, and that each cut and each flipped bit is noticed. */
static void frame_of_length(size_t n)
{
    area_lend(&data, n, 0x3C);
    area_lend(&out, n + 8, 0x99);
    ACCEPTED(pv_frame_write(DATA, OUT, EXTRA), n + 6);
    CHECK(area_same(&data));
    CHECK(out.bytes[0] == 0xD3 && out.bytes[1] == n >> 8 && out.bytes[2] == (n & 0xFF));
    CHECK(out.bytes[n + 6] == 0x99 && out.bytes[n + 7] == 0x99);
    uint32_t sum = pv_crc24q(out.bytes, n + 3);
    ACCEPTED(pv_frame_check(out.bytes, n + 6, EXTRA), n + 6, n, n >= 2, n >= 2 ? 0x3C3 : 0, sum);
    ACCEPTED(pv_frame_check(OUT, EXTRA), n + 6, n, n >= 2, n >= 2 ? 0x3C3 : 0, sum);
    REFUSED(pv_frame_check(out.bytes, n + 5, EXTRA), PV_INCOMPLETE, 0);
    out.bytes[n + 5] ^= 1;
    REFUSED_TWO(pv_frame_check(OUT, EXTRA), PV_BAD_CHECK, sum ^ 1, sum);
    out.bytes[0] ^= 1;
    REFUSED(pv_frame_check(OUT, EXTRA), PV_NO_PREAMBLE, 0);
    area_lend(&out, n + 5, 0x99);
    REFUSED(pv_frame_write(DATA, OUT, EXTRA), PV_ROOM, n + 6);
    REFUSED(pv_frame_write(DATA, NULL, 0, EXTRA), PV_ROOM, n + 6);
}

static void frames(void)
{
    frame_refusal_order();
    const size_t lengths[] = { 0, 1, 2, 3, 19, 255, 256, 511, 512, 1022, 1023 };
    for (size_t i = 0; i < sizeof lengths / sizeof lengths[0]; i++)
        frame_of_length(lengths[i]);
    area_lend(&data, 1024, 0);
    REFUSED(pv_frame_write(DATA, NULL, 0, EXTRA), PV_SIZE, 0);
    area_lend(&out, 6, 0);
    ACCEPTED(pv_frame_write(NULL, 0, OUT, EXTRA), 6);
    HAS(out, 0xD3, 0, 0, 0x47, 0xEA, 0x4B);

    /* The reserved bits are ignored on reading. */
    LEND(data, 0xD3, 0xFC, 0x00, 0, 0, 0);
    uint32_t sum = pv_crc24q(data.bytes, 3);
    data.bytes[3] = (uint8_t)(sum >> 16);
    data.bytes[4] = (uint8_t)(sum >> 8);
    data.bytes[5] = (uint8_t)sum;
    ACCEPTED(pv_frame_check(DATA, EXTRA), 6, 0, 0, 0, sum);

    /* A message number is in the data alone: with one data byte there is none. */
    area_lend(&data, 1, 0xFF);
    area_lend(&out, 9, 0);
    ACCEPTED(pv_frame_write(DATA, OUT, EXTRA), 7);
    ACCEPTED(pv_frame_check(OUT, EXTRA), 7, 1, 0, 0, pv_crc24q(out.bytes, 4));
}

/* ---- Feeding. ---- */

static void feed_refusals(void)
{
    area_lend(&held, PV_HELD_SIZE, 0x11);
    area_lend(&piece, 65537, 0xD3);
    area_lend(&out, PV_FRAME_MAX - 1, 0x22);
    const uint64_t most = PV_TAKEN_MAX;
    REFUSED(pv_feed(held.bytes, 1029, 1030, 1030, 0, piece.bytes, 65537, OUT, EXTRA), PV_STATE, 0);
    REFUSED(pv_feed(held.bytes, 1029, SIZE_MAX, UINT64_MAX, 0, NULL, 0, NULL, 0, EXTRA), PV_STATE, 0);
    REFUSED(pv_feed(held.bytes, 1029, 5, 4, 0, piece.bytes, 65537, OUT, EXTRA), PV_STATE, 0);
    REFUSED(pv_feed(held.bytes, 1029, 5, most + 1, 1, piece.bytes, 65537, OUT, EXTRA), PV_STATE, 0);
    REFUSED(pv_feed(held.bytes, 1029, 5, UINT64_MAX, 0, NULL, 0, OUT, EXTRA), PV_STATE, 0);
    REFUSED(pv_feed(held.bytes, 1029, 5, 5, 2, piece.bytes, 65537, OUT, EXTRA), PV_STATE, 0);
    REFUSED(pv_feed(held.bytes, 1029, 0, 0, UINT32_MAX, NULL, 0, OUT, EXTRA), PV_STATE, 0);
    REFUSED(pv_feed(held.bytes, 1029, 1029, 1029, 1, piece.bytes, 65537, OUT, EXTRA), PV_SIZE, 0);
    REFUSED(pv_feed(held.bytes, 1029, 0, most, 0, piece.bytes, 1, OUT, EXTRA), PV_SIZE, 0);
    REFUSED(pv_feed(held.bytes, 1029, 0, most - 9, 1, piece.bytes, 10, OUT, EXTRA), PV_SIZE, 0);
    REFUSED(pv_feed(held.bytes, 1029, 0, most - 9, 1, piece.bytes, 9, OUT, EXTRA), PV_ROOM, 1029);
    REFUSED(pv_feed(held.bytes, 1029, 0, 0, 0, piece.bytes, 65536, OUT, EXTRA), PV_ROOM, 1029);
    REFUSED(pv_feed(held.bytes, 1029, 0, most, 1, NULL, 0, NULL, 0, EXTRA), PV_ROOM, 1029);

    /* A held area of another size writes nothing at all, whatever else is wrong. */
    const size_t wrong[] = { 0, 1, 1028, 1030, 2058 };
    for (size_t i = 0; i < sizeof wrong / sizeof wrong[0]; i++) {
        area_lend(&held, wrong[i], 0x11);
        ready();
        CHECK_EQ(pv_feed(held.bytes, held.size, 0, 0, 0, piece.bytes, 10, OUT, EXTRA), PV_SIZE);
        CHECK_EQ(pv_feed(held.bytes, held.size, 1030, 0, 2, piece.bytes, 65537, NULL, 0, EXTRA), PV_SIZE);
        nothing_written("a held area of another size", __LINE__);
        CHECK(area_same(&extra));
    }
}

/* A false D3 that announces 1,023 bytes, with a good frame and a stray byte behind it. */
static void taken_is_the_furthest_byte_seen(void)
{
    size_t count = 0;
    area_lend(&held, PV_HELD_SIZE, 0);
    area_lend(&out, PV_FRAME_MAX, 0);
    area_lend(&piece, 1040, 0x44);
    memcpy(piece.bytes, (const uint8_t[]){ 0xD3, 0x03, 0xFF, 0xD3, 0, 0, 0x47, 0xEA, 0x4B }, 9);
    FED(PV_FRAME, 1029, 3, 1020, 6);
    CHECK(area_same(&piece));
    /* The held bytes do not begin with D3; an empty piece skips them all, more than it takes. */
    CHECK_EQ(held.bytes[0], 0x44);
    area_lend(&piece, 0, 0);
    FED(PV_MORE, 0, 1020, 0, 0);
}

/* Two frames wait behind a false D3: once it is decided, an empty piece hands out the second. */
static void an_empty_piece_can_hand_out_a_frame(void)
{
    const uint8_t frame[] = { 0xD3, 0, 0, 0x47, 0xEA, 0x4B };
    size_t count = 0;
    area_lend(&held, PV_HELD_SIZE, 0);
    area_lend(&out, PV_FRAME_MAX, 0);
    area_lend(&piece, 19, 0x44);
    memcpy(piece.bytes, (const uint8_t[]){ 0xD3, 0, 13 }, 3);
    memcpy(piece.bytes + 3, frame, 6);
    memcpy(piece.bytes + 9, frame, 6);
    FED(PV_FRAME, 19, 3, 10, 6);
    area_lend(&piece, 0, 0);
    FED(PV_FRAME, 0, 0, 4, 6);
    FED(PV_MORE, 0, 4, 0, 0);
}

/* A frame of the longest length, byte by byte, and from a held area that is full. */
static void the_longest_frame(void)
{
    uint8_t frame[PV_FRAME_MAX];
    size_t count = 0;
    area_lend(&data, PV_DATA_MAX, 0xD3);
    area_lend(&out, PV_FRAME_MAX, 0);
    area_lend(&held, PV_HELD_SIZE, 0x66);
    ACCEPTED(pv_frame_write(DATA, OUT, EXTRA), PV_FRAME_MAX);
    memcpy(frame, out.bytes, sizeof frame);
    area_lend(&out, PV_FRAME_MAX + 1, 0x31);
    for (size_t i = 0; i + 1 < sizeof frame; i++) {
        LEND(piece, frame[i]);
        FED(PV_MORE, 1, 0, i + 1, 0);
    }
    CHECK(area_same(&out) && memcmp(held.bytes, frame, 1028) == 0 && held.bytes[1028] == 0x66);
    LEND(piece, frame[1028]);
    FED(PV_FRAME, 1, 0, 0, 1029);
    CHECK(memcmp(out.bytes, frame, sizeof frame) == 0 && out.bytes[1029] == 0x31);

    memcpy(held.bytes, frame, sizeof frame);
    count = PV_HELD_SIZE;
    area_lend(&piece, 0, 0);
    FED(PV_FRAME, 0, 0, 0, 1029);
    memset(held.bytes, 0x00, PV_HELD_SIZE);
    count = PV_HELD_SIZE;
    FED(PV_MORE, 0, 1029, 0, 0);
}

static void the_longest_piece(void)
{
    size_t count = 0;
    area_lend(&held, PV_HELD_SIZE, 0);
    area_lend(&out, PV_FRAME_MAX, 0);
    area_lend(&piece, PV_PIECE_MAX, 0xD2);
    FED(PV_MORE, 65536, 65536, 0, 0);
    piece.bytes[65535] = 0xD3;
    FED(PV_MORE, 65536, 65535, 1, 0);
    ready();
    CHECK_EQ(pv_feed(held.bytes, 1029, 1, 1, 0, NULL, 0, OUT, EXTRA), PV_ACCEPTED);
    CHECK_EQ(area_u64(&extra)[PV_AT_FED_HELD_COUNT], 1);
}

/* A false D3 that announces 1,023 bytes, and a good frame behind it: feeding waits, closing hands the frame out. */
static void closing(void)
{
    static const uint8_t stream[] = { 9, 0xD3, 3, 0xFF, 0xD3, 0, 0, 0x47, 0xEA, 0x4B, 0xD3 };
    struct pv_scanner scanner = PV_SCANNER_FRESH;
    struct pv_fed fed = { 7, 7, 7, 7, 7, 7 };
    uint8_t frame[PV_FRAME_MAX] = { 0 };
    CHECK_EQ(pv_scanner_feed(&scanner, stream, sizeof stream, frame, sizeof frame, &fed), PV_ACCEPTED);
    CHECK(fed.is_frame == 0 && fed.skipped == 1 && scanner.held_count == 10 && scanner.taken == 11);
    CHECK_EQ(pv_scanner_close(&scanner, frame, 1028, &fed), PV_ROOM);
    CHECK(scanner.held_count == 10 && scanner.taken == 11);
    CHECK_EQ(pv_scanner_close(&scanner, frame, sizeof frame, &fed), PV_ACCEPTED);
    CHECK(fed.is_frame == 1 && fed.taken == 0 && fed.skipped == 3 && fed.frame_len == 6 && fed.place == 4);
    CHECK(fed.kind == PV_RTCM && memcmp(frame, stream + 4, 6) == 0);
    CHECK(scanner.held_count == 1 && scanner.held[0] == 0xD3 && scanner.taken == 11);
    CHECK_EQ(pv_scanner_close(&scanner, frame, sizeof frame, &fed), PV_ACCEPTED);
    CHECK(fed.is_frame == 0 && fed.skipped == 1 && fed.frame_len == 0 && fed.place == 0);
    CHECK(scanner.held_count == 0 && scanner.taken == 0 && scanner.mode == PV_RTCM_ONLY);
    CHECK_EQ(pv_scanner_close(&scanner, frame, sizeof frame, &fed), PV_ACCEPTED);
    CHECK(fed.is_frame == 0 && fed.skipped == 0);
    scanner.mode = 2;
    CHECK_EQ(pv_scanner_close(&scanner, frame, sizeof frame, &fed), PV_STATE);
}

static void scanner_struct(void)
{
    static const uint8_t stream[] = { 9, 0xD3, 0, 0, 0x47, 0xEA, 0x4B, 0xD3 };
    struct pv_scanner scanner = PV_SCANNER_FRESH;
    struct pv_fed fed = { 7, 7, 7, 7, 7, 7 };
    uint8_t frame[PV_FRAME_MAX] = { 0 };
    CHECK_EQ(pv_scanner_feed(&scanner, stream, sizeof stream, frame, 1028, &fed), PV_ROOM);
    CHECK(fed.is_frame == 7 && fed.taken == 7 && fed.skipped == 7 && fed.frame_len == 7 && scanner.held_count == 0);
    CHECK(fed.place == 7 && fed.kind == 7 && scanner.taken == 0 && scanner.mode == PV_RTCM_ONLY);
    CHECK_EQ(pv_scanner_feed(&scanner, stream, sizeof stream, frame, sizeof frame, &fed), PV_ACCEPTED);
    CHECK(fed.is_frame == 1 && fed.taken == 7 && fed.skipped == 1 && fed.frame_len == 6 && scanner.held_count == 0);
    CHECK(fed.place == 1 && fed.kind == PV_RTCM && scanner.taken == 7);
    CHECK_EQ(pv_scanner_feed(&scanner, stream + 7, 1, frame, sizeof frame, &fed), PV_ACCEPTED);
    CHECK(fed.is_frame == 0 && fed.taken == 1 && fed.skipped == 0 && fed.frame_len == 0 && scanner.held_count == 1);
    scanner.held_count = 1030;
    CHECK_EQ(pv_scanner_feed(&scanner, NULL, 0, frame, sizeof frame, &fed), PV_STATE);
    CHECK_EQ(scanner.held_count, 1030);
    scanner.mode = PV_RTCM_AND_UBX;
    pv_scanner_reset(&scanner);
    CHECK(scanner.held_count == 0 && scanner.taken == 0 && scanner.mode == PV_RTCM_AND_UBX);
    CHECK_EQ(pv_scanner_feed(&scanner, stream, sizeof stream, frame, sizeof frame, &fed), PV_ACCEPTED);
    CHECK(fed.is_frame == 1 && fed.place == 1);
    memset(&scanner, 0xFF, sizeof scanner);
    pv_scanner_init(&scanner);
    CHECK(scanner.held_count == 0 && scanner.held[0] == 0 && scanner.held[1028] == 0);
    CHECK(scanner.taken == 0 && scanner.mode == PV_RTCM_ONLY);
}

/* Places go on to the last byte of the longest stream, and no further. */
static void the_longest_stream(void)
{
    size_t count = 0;
    before_held = PV_TAKEN_MAX - 8;
    area_lend(&held, PV_HELD_SIZE, 0);
    area_lend(&out, PV_FRAME_MAX, 0);
    LEND(piece, 9, 9, 0xD3, 0, 0, 0x47, 0xEA, 0x4B);
    FED(PV_FRAME, 8, 2, 0, 6);
    CHECK_EQ(area_u64(&extra)[PV_AT_FED_PLACE], PV_TAKEN_MAX - 6);
    CHECK_EQ(area_u64(&extra)[PV_AT_FED_ALL_TAKEN], PV_TAKEN_MAX);
    REFUSED(feed_in(PV_RTCM_ONLY, &count), PV_SIZE, 0);
    area_lend(&piece, 0, 0);
    FED(PV_MORE, 0, 0, 0, 0);
    before_held = 0;
}

/* ---- UBX beside RTCM. ---- */

/* Writes the UBX frame of n payload bytes as the public description has it, and gives its length. */
static size_t put_ubx(uint8_t *at, unsigned class, unsigned id, size_t n, uint8_t fill)
{
    uint8_t a = 0, b = 0;
    memset(at, fill, n + 8);
    memcpy(at, (const uint8_t[]){ 0xB5, 0x62, (uint8_t)class, (uint8_t)id, (uint8_t)n, (uint8_t)(n >> 8) }, 6);
    for (size_t i = 2; i < n + 6; i++) {
        a = (uint8_t)(a + at[i]);
        b = (uint8_t)(b + a);
    }
    at[n + 6] = a;
    at[n + 7] = b;
    return n + 8;
}

/* The acknowledgement and the question for the version that every receiver knows, with RTCM between. */
static void both_kinds(void)
{
    static const uint8_t mixed[] = { 0xB5, 0x62, 5, 1, 2, 0, 6, 1, 0x0F, 0x38, 0xB5, 0, 0xD3, 0, 0, 0x47, 0xEA, 0x4B,
                                     0xB5, 0x62, 0x0A, 4, 0, 0, 0x0E, 0x34 };
    size_t count = 0;
    area_lend(&held, PV_HELD_SIZE, 0);
    area_lend(&out, PV_FRAME_MAX, 0);
    lend_bytes(&piece, mixed, sizeof mixed);
    FED_IN(PV_RTCM_AND_UBX, PV_FRAME, 10, 0, 0, 10, PV_UBX);
    HAS(out, 0xB5, 0x62, 5, 1, 2, 0, 6, 1, 0x0F, 0x38);
    lend_bytes(&piece, mixed + 10, 16);
    FED_IN(PV_RTCM_AND_UBX, PV_FRAME, 8, 2, 0, 6, PV_RTCM);
    lend_bytes(&piece, mixed + 18, 8);
    FED_IN(PV_RTCM_AND_UBX, PV_FRAME, 8, 0, 0, 8, PV_UBX);
    CHECK_EQ(before_held, sizeof mixed);
    /* A scanner for RTCM only skips what is UBX. */
    before_held = 0;
    lend_bytes(&piece, mixed, sizeof mixed);
    FED(PV_FRAME, 18, 12, 0, 6);
    lend_bytes(&piece, mixed + 18, 8);
    FED(PV_MORE, 8, 8, 0, 0);
    before_held = 0;
}

/* Sums that are wrong in one or the other byte, and a B5 whose 62 does not come, cost one byte each. */
static void ubx_is_given_up_by_one_byte(void)
{
    size_t count = 0;
    area_lend(&held, PV_HELD_SIZE, 0);
    area_lend(&out, PV_FRAME_MAX, 0);
    LEND(piece, 0xB5, 0x62, 0x0A, 4, 0, 0, 0x0F, 0x34);
    FED_IN(PV_RTCM_AND_UBX, PV_MORE, 8, 8, 0, 0, PV_RTCM);
    LEND(piece, 0xB5, 0x62, 0x0A, 4, 0, 0, 0x0E, 0x35);
    FED_IN(PV_RTCM_AND_UBX, PV_MORE, 8, 8, 0, 0, PV_RTCM);
    LEND(piece, 0xB5, 0xB5, 0x62, 0x0A, 4, 0, 0, 0x0E, 0x34);
    FED_IN(PV_RTCM_AND_UBX, PV_FRAME, 9, 1, 0, 8, PV_UBX);
    LEND(piece, 0xB5);
    FED_IN(PV_RTCM_AND_UBX, PV_MORE, 1, 0, 1, 0, PV_RTCM);
    LEND(piece, 0x62, 1, 7, 0xFE);
    FED_IN(PV_RTCM_AND_UBX, PV_MORE, 4, 0, 5, 0, PV_RTCM);
    /* 1,022 bytes of payload are given up once the length is read. */
    LEND(piece, 3);
    FED_IN(PV_RTCM_AND_UBX, PV_MORE, 1, 6, 0, 0, PV_RTCM);
    before_held = 0;
}

/* The longest payload fills the held area; one byte more is skipped, and a frame inside it is found. */
static void the_longest_payload(void)
{
    static uint8_t frame[1040];
    size_t count = 0;
    area_lend(&held, PV_HELD_SIZE, 0);
    area_lend(&out, PV_FRAME_MAX, 0);
    size_t n = put_ubx(frame, 2, 0x15, PV_UBX_PAYLOAD_MAX, 0xB5);
    CHECK_EQ(n, 1029);
    area_lend(&piece, n - 1, 0);
    memcpy(piece.bytes, frame, n - 1);
    FED_IN(PV_RTCM_AND_UBX, PV_MORE, 1028, 0, 1028, 0, PV_RTCM);
    LEND(piece, frame[1028]);
    FED_IN(PV_RTCM_AND_UBX, PV_FRAME, 1, 0, 0, 1029, PV_UBX);
    CHECK(memcmp(out.bytes, frame, n) == 0);

    n = put_ubx(frame, 2, 0x15, PV_UBX_PAYLOAD_MAX + 1, 0);
    put_ubx(frame + 100, 5, 1, 2, 6);
    area_lend(&piece, n, 0);
    memcpy(piece.bytes, frame, n);
    FED_IN(PV_RTCM_AND_UBX, PV_FRAME, 110, 100, 0, 10, PV_UBX);
    before_held = 0;
}

static void feeding(void)
{
    feed_refusals();
    the_longest_stream();
    both_kinds();
    ubx_is_given_up_by_one_byte();
    the_longest_payload();
    taken_is_the_furthest_byte_seen();
    an_empty_piece_can_hand_out_a_frame();
    the_longest_frame();
    the_longest_piece();
    scanner_struct();
    closing();
}

/* ---- 1059. ---- */

static void read_1059_refusals(void)
{
    area_lend(&data, 1024, 0);
    lend_1059(0);
    REFUSED(pv_1059_read(DATA, 0, LISTS_1059, EXTRA), PV_SIZE, 0);
    area_lend(&data, 1, 0);
    lend_1059(2);
    area_lend(&biases, 2, 0);
    REFUSED(pv_1059_read(DATA, SIZE_MAX, LISTS_1059, EXTRA), PV_SIZE, 0);
    area_lend(&biases, 4, 0);
    area_lend(&signals, 1, 0);
    REFUSED(pv_1059_read(DATA, 0, LISTS_1059, EXTRA), PV_SIZE, 0);
    area_lend(&signals, 2, 0);
    area_lend(&satellites, 3, 0);
    REFUSED(pv_1059_read(DATA, 0, LISTS_1059, EXTRA), PV_SIZE, 0);
    lend_1059(0);
    ACCEPTED(pv_1059_read(DATA, 2, NULL, 0, NULL, 0, NULL, 0, EXTRA), 0, 8);
    REFUSED_TWO(pv_1059_read(DATA, 3, LISTS_1059, EXTRA), PV_SHORT, 3, 1);
    REFUSED_TWO(pv_1059_read(DATA, SIZE_MAX, LISTS_1059, EXTRA), PV_SHORT, SIZE_MAX, 6);
    REFUSED_TWO(pv_1059_read(NULL, 0, 0, LISTS_1059, EXTRA), PV_SHORT, 0, 6);
}

/* Cuts a block of two satellites with two biases each at every byte: the first field that does not fit is named, and how
   many of its bits are missing. */
static void read_1059_short_places(void)
{
    static const size_t starts[] = { 0, 6, 12, 17, 22, 36, 41, 55, 61, 66, 71, 85, 90, 104 };
    uint8_t block[13];
    area_lend(&data, sizeof block, 0);
    lend_1059(4);
    for (size_t i = 0; i < 4; i++)
        set_1059(i, i < 2 ? 3 : 60, i % 2 ? 15 : 14, -1);
    ACCEPTED(pv_1059_write(1, DATA, 0, LISTS_1059, EXTRA), 104);
    memcpy(block, data.bytes, sizeof block);
    for (size_t n = 0; n < sizeof block; n++) {
        size_t place = 0, end = 0;
        for (size_t i = 0; i + 1 < sizeof starts / sizeof starts[0]; i++)
            if (starts[i] <= n * 8) {
                place = starts[i];
                end = starts[i + 1];
            }
        lend_bytes(&data, block, n);
        lend_1059(n % 2 ? 4 : 0);
        REFUSED_TWO(pv_1059_read(DATA, 0, LISTS_1059, EXTRA), PV_SHORT, place, end - n * 8);
    }
    lend_bytes(&data, block, sizeof block);
    lend_1059(3);
    REFUSED(pv_1059_read(DATA, 0, LISTS_1059, EXTRA), PV_ROOM, 4);
    lend_1059(0);
    REFUSED(pv_1059_read(DATA, 0, LISTS_1059, EXTRA), PV_ROOM, 4);
}

/* A reserved signal is kept as its number, its bias bits consumed; satellites may repeat and be empty. */
static void read_1059_odd_blocks(void)
{
    area_lend(&data, 12, 0);
    const struct { size_t width; uint64_t value; } fields_of[] = {
        { 6, 3 }, { 6, 9 }, { 5, 1 }, { 5, 31 }, { 14, 0x2000 }, { 6, 9 }, { 5, 0 }, { 6, 1 }, { 5, 1 }, { 5, 3 }, { 14, 7 },
    };
    size_t place = 5;
    for (size_t i = 0; i < sizeof fields_of / sizeof fields_of[0]; i++) {
        ACCEPTED(pv_field_write_unsigned(DATA, place, fields_of[i].width, fields_of[i].value, EXTRA),
                 place + fields_of[i].width);
        place += fields_of[i].width;
    }
    lend_1059(3);
    set_1059(2, 201, 202, 203);
    ACCEPTED(pv_1059_read(DATA, 5, LISTS_1059, EXTRA), 2, place);
    CHECK(satellites.bytes[0] == 9 && signals.bytes[0] == 31 && area_i16(&biases)[0] == -8192);
    CHECK(satellites.bytes[1] == 1 && signals.bytes[1] == 3 && area_i16(&biases)[1] == 7);
    CHECK(satellites.bytes[2] == 201 && signals.bytes[2] == 202 && area_i16(&biases)[2] == 203);
}

/* Writes a field into the data, and answers the bit behind it. */
static size_t put(size_t at, size_t width, uint64_t value)
{
    area_lend(&extra, 64, 0);
    CHECK_EQ(pv_field_write_unsigned(DATA, at, width, value, EXTRA), PV_ACCEPTED);
    return at + width;
}

/* The most records that fit into 1,023 bytes: 14 satellites, 422 records, each of them signal 11, which is kept so. */
static void most_records_read_1059(void)
{
    area_lend(&data, PV_DATA_MAX, 0);
    size_t at = put(6, 6, 14);
    for (size_t i = 0; i < PV_1059_READ_MAX; i++) {
        if (i % 31 == 0)
            at = put(put(at, 6, i / 31), 5, i / 31 < 13 ? 31 : 422 - 13 * 31);
        at = put(put(at, 5, 11), 14, i);
    }
    lend_1059(PV_1059_READ_MAX);
    ACCEPTED(pv_1059_read(DATA, 6, LISTS_1059, EXTRA), 422, 6 + 6 + 14 * 11 + 422 * 19);
    CHECK(satellites.bytes[421] == 13 && signals.bytes[421] == 11 && area_i16(&biases)[421] == 421);
    REFUSED(pv_1059_write(1, DATA, 6, LISTS_1059, EXTRA), PV_DUPLICATE, 1);
}

/* The most records that can be written: 16 signals of each satellite but the last. */
static void most_records_1059(void)
{
    area_lend(&data, PV_DATA_MAX, 0);
    lend_1059(415);
    for (size_t i = 0; i < 415; i++)
        set_1059(i, (unsigned)(i / 16), (unsigned)(i % 16), (int)i);
    ACCEPTED(pv_1059_write(2, DATA, 0, LISTS_1059, EXTRA), 6 + 26 * 11 + 415 * 19);
    area_lend(&data, PV_DATA_MAX, 0);
    ACCEPTED(pv_1059_write(2, DATA, 7, LISTS_1059, EXTRA), 7 + 6 + 26 * 11 + 415 * 19);
    ACCEPTED(pv_1059_read(DATA, 7, LISTS_1059, EXTRA), 415, 7 + 6 + 26 * 11 + 415 * 19);
    CHECK(satellites.bytes[414] == 25 && signals.bytes[414] == 14 && area_i16(&biases)[414] == 414);
    REFUSED(pv_1059_write(2, DATA, 8, LISTS_1059, EXTRA), PV_ROOM, 6 + 26 * 11 + 415 * 19);
}

/* The entry of a number in a table, or null. */
static const struct signal *find_in(struct table table, uint32_t number)
{
    for (size_t i = 0; i < table.count; i++)
        if (table.entries[i].number == number)
            return table.entries + i;
    return NULL;
}

static void write_1059_faults(void)
{
    area_lend(&data, 40, 0xFF);
    lend_1059(3);
    set_1059(0, 1, 1, 1);
    set_1059(1, 64, 3, 8192);
    set_1059(2, 64, 3, 8192);
    REFUSED(pv_1059_write(1, DATA, SIZE_MAX, LISTS_1059, EXTRA), PV_SATELLITE, 1);
    set_1059(1, 63, 3, 8192);
    REFUSED(pv_1059_write(1, DATA, 0, LISTS_1059, EXTRA), PV_SIGNAL, 1);
    set_1059(1, 63, 2, 8192);
    REFUSED(pv_1059_write(1, DATA, 0, LISTS_1059, EXTRA), PV_RANGE, 1);
    set_1059(1, 63, 2, -8193);
    REFUSED(pv_1059_write(1, DATA, 0, LISTS_1059, EXTRA), PV_RANGE, 1);
    set_1059(1, 63, 2, -8192);
    REFUSED(pv_1059_write(1, DATA, 0, LISTS_1059, EXTRA), PV_SATELLITE, 2);
    set_1059(2, 0, 255, 8191);
    REFUSED(pv_1059_write(1, DATA, 0, LISTS_1059, EXTRA), PV_SIGNAL, 2);
    for (uint32_t edition = 1; edition < 3; edition++) {
        for (unsigned signal = 0; signal < 256; signal++) {
            set_1059(2, 0, signal, 8191);
            if (find_in(editions_1059[edition], signal) != NULL)
                ACCEPTED(pv_1059_write(edition, DATA, 0, LISTS_1059, EXTRA), 6 + 3 * 30);
            else
                REFUSED(pv_1059_write(edition, DATA, 0, LISTS_1059, EXTRA), PV_SIGNAL, 2);
        }
    }
}

/* An edition that there is not is refused before all else, whatever else is wrong. */
static void write_1059_kind(void)
{
    static const uint32_t none[] = { 0, 3, 4, 257, 258, UINT32_MAX };
    for (size_t i = 0; i < sizeof none / sizeof none[0]; i++) {
        area_lend(&data, 1024, 0xFF);
        lend_1059(1954);
        memset(satellites.bytes, 64, 1954);
        REFUSED(pv_1059_write(none[i], DATA, SIZE_MAX, LISTS_1059, EXTRA), PV_KIND, 0);
        area_lend(&data, 40, 0xFF);
        lend_1059(0);
        REFUSED(pv_1059_write(none[i], DATA, 0, LISTS_1059, EXTRA), PV_KIND, 0);
    }
}

/* Edition 2 writes what edition 1 accepts to the same bits, and what only it has besides. */
static void write_1059_editions(void)
{
    uint8_t first[40];
    area_lend(&data, 40, 0xA5);
    lend_1059(12);
    for (size_t i = 0; i < 12; i++)
        set_1059(i, (unsigned)(i * 7 % 5), edition_1[i].number, (int)i * 600 - 3000);
    ACCEPTED(pv_1059_write(1, DATA, 3, LISTS_1059, EXTRA), 3 + 6 + 5 * 11 + 12 * 19);
    memcpy(first, data.bytes, sizeof first);
    area_lend(&data, 40, 0xA5);
    ACCEPTED(pv_1059_write(2, DATA, 3, LISTS_1059, EXTRA), 3 + 6 + 5 * 11 + 12 * 19);
    CHECK(memcmp(first, data.bytes, sizeof first) == 0);
    lend_1059(1);
    set_1059(0, 5, 13, 100);
    REFUSED(pv_1059_write(1, DATA, 0, LISTS_1059, EXTRA), PV_SIGNAL, 0);
    ACCEPTED(pv_1059_write(2, DATA, 0, LISTS_1059, EXTRA), 36);
    ACCEPTED(pv_1059_read(DATA, 0, LISTS_1059, EXTRA), 1, 36);
    CHECK(satellites.bytes[0] == 5 && signals.bytes[0] == 13 && area_i16(&biases)[0] == 100);
}

static void write_1059_size(void)
{
    area_lend(&data, 1024, 0xFF);
    lend_1059(0);
    REFUSED(pv_1059_write(1, DATA, 0, LISTS_1059, EXTRA), PV_SIZE, 0);
    area_lend(&data, 1023, 0xFF);
    lend_1059(1954);
    memset(satellites.bytes, 64, 1954);
    REFUSED(pv_1059_write(1, DATA, 0, LISTS_1059, EXTRA), PV_SIZE, 0);
    lend_1059(1953);
    memset(satellites.bytes, 64, 1953);
    REFUSED(pv_1059_write(1, DATA, 0, LISTS_1059, EXTRA), PV_SATELLITE, 0);
    area_lend(&satellites, 1952, 64);
    REFUSED(pv_1059_write(1, DATA, 0, LISTS_1059, EXTRA), PV_SIZE, 0);
    area_lend(&signals, 1952, 64);
    REFUSED(pv_1059_write(1, DATA, 0, LISTS_1059, EXTRA), PV_SIZE, 0);
}

static void write_1059_too_many(void)
{
    area_lend(&data, 1023, 0xFF);
    lend_1059(32 + 32);
    for (size_t i = 0; i < 64; i++)
        set_1059(i, i < 32 ? 40 : 7, 0, 0);
    REFUSED(pv_1059_write(1, DATA, SIZE_MAX, LISTS_1059, EXTRA), PV_TOO_MANY, 7);
    set_1059(63, 40, 0, 0);
    REFUSED(pv_1059_write(1, DATA, 0, LISTS_1059, EXTRA), PV_TOO_MANY, 40);
    set_1059(62, 0, 0, 0);
    set_1059(63, 0, 0, 0);
    set_1059(0, 0, 0, 0);
    REFUSED(pv_1059_write(1, DATA, 0, LISTS_1059, EXTRA), PV_DUPLICATE, 2);

    lend_1059(64 + 31);
    for (unsigned i = 0; i < 64 + 31; i++)
        set_1059(i, i < 64 ? i : 63, 0, 0);
    REFUSED(pv_1059_write(1, DATA, SIZE_MAX, LISTS_1059, EXTRA), PV_TOO_MANY, 63);
    set_1059(94, 62, 0, 0);
    REFUSED(pv_1059_write(1, DATA, SIZE_MAX, LISTS_1059, EXTRA), PV_TOO_MANY, 64);
    set_1059(0, 1, 0, 0);
    REFUSED(pv_1059_write(1, DATA, 0, LISTS_1059, EXTRA), PV_DUPLICATE, 1);

    /* 63 satellites with 31 biases each are not too many: they only repeat. */
    lend_1059(1953);
    for (unsigned i = 0; i < 1953; i++)
        set_1059(i, 1 + i % 63, 0, 0);
    REFUSED(pv_1059_write(1, DATA, 0, LISTS_1059, EXTRA), PV_DUPLICATE, 63);

    /* And 16 signals of each only do not fit. */
    lend_1059(63 * 16);
    for (unsigned i = 0; i < 63 * 16; i++)
        set_1059(i, 1 + i % 63, i / 63, 0);
    REFUSED(pv_1059_write(2, DATA, 0, LISTS_1059, EXTRA), PV_ROOM, 6 + 63 * 11 + 63 * 16 * 19);
}

/* The first record that repeats an earlier one, whatever their biases and what stands between: after TooMany, before Room. */
static void write_1059_duplicate(void)
{
    area_lend(&data, 40, 0xFF);
    lend_1059(5);
    set_1059(0, 0, 15, 1);
    set_1059(1, 63, 0, 2);
    set_1059(2, 0, 0, 3);
    set_1059(3, 63, 15, 4);
    set_1059(4, 63, 0, 2);
    REFUSED(pv_1059_write(1, DATA, 0, LISTS_1059, EXTRA), PV_DUPLICATE, 4);
    REFUSED(pv_1059_write(2, DATA, SIZE_MAX, LISTS_1059, EXTRA), PV_DUPLICATE, 4);
    set_1059(3, 0, 15, 4);
    REFUSED(pv_1059_write(1, DATA, 0, LISTS_1059, EXTRA), PV_DUPLICATE, 3);
    set_1059(2, 64, 0, 3);
    REFUSED(pv_1059_write(1, DATA, 0, LISTS_1059, EXTRA), PV_SATELLITE, 2);
    lend_1059(33);
    for (size_t i = 0; i < 33; i++)
        set_1059(i, 9, 5, (int)i);
    REFUSED(pv_1059_write(1, DATA, 0, LISTS_1059, EXTRA), PV_TOO_MANY, 9);
}

static void write_1059_room(void)
{
    lend_1059(0);
    area_lend(&data, 1, 0xFF);
    ACCEPTED(pv_1059_write(1, DATA, 2, LISTS_1059, EXTRA), 8);
    HAS(data, 0xC0);
    REFUSED(pv_1059_write(1, DATA, 3, LISTS_1059, EXTRA), PV_ROOM, 6);
    REFUSED(pv_1059_write(1, DATA, SIZE_MAX, LISTS_1059, EXTRA), PV_ROOM, 6);
    REFUSED(pv_1059_write(1, NULL, 0, 0, NULL, 0, NULL, 0, NULL, 0, EXTRA), PV_ROOM, 6);
    lend_1059(1);
    set_1059(0, 5, 0, 100);
    area_lend(&data, 5, 0xFF);
    REFUSED(pv_1059_write(1, DATA, 5, LISTS_1059, EXTRA), PV_ROOM, 36);
    ACCEPTED(pv_1059_write(1, DATA, 4, LISTS_1059, EXTRA), 40);
    CHECK(area_same(&satellites) && area_same(&signals) && area_same(&biases));
    REFUSED(pv_1059_write(1, DATA, SIZE_MAX - 35, LISTS_1059, EXTRA), PV_ROOM, 36);
}

/* Satellites go out ascending, the records of one in list order. */
static void write_1059_order(void)
{
    area_lend(&data, 30, 0);
    lend_1059(4);
    set_1059(0, 9, 2, 1);
    set_1059(1, 4, 1, 2);
    set_1059(2, 9, 7, 3);
    set_1059(3, 9, 0, 4);
    ACCEPTED(pv_1059_write(1, DATA, 11, LISTS_1059, EXTRA), 11 + 6 + 22 + 76);
    ACCEPTED(pv_1059_read(DATA, 11, LISTS_1059, EXTRA), 4, 11 + 6 + 22 + 76);
    CHECK(satellites.bytes[0] == 4 && satellites.bytes[1] == 9 && satellites.bytes[3] == 9);
    CHECK(signals.bytes[0] == 1 && signals.bytes[1] == 2 && signals.bytes[2] == 7 && signals.bytes[3] == 0);
    const int16_t *bias = area_i16(&biases);
    CHECK(bias[0] == 2 && bias[1] == 1 && bias[2] == 3 && bias[3] == 4);
}

static void blocks_1059(void)
{
    read_1059_refusals();
    read_1059_short_places();
    read_1059_odd_blocks();
    most_records_read_1059();
    most_records_1059();
    write_1059_size();
    write_1059_kind();
    write_1059_faults();
    write_1059_editions();
    write_1059_too_many();
    write_1059_duplicate();
    write_1059_room();
    write_1059_order();
}

/* ---- 1230. ---- */

static void read_1230(void)
{
    area_lend(&data, 1024, 0);
    lend_1230(4);
    REFUSED(pv_1230_read(DATA, 0, LISTS_1230, EXTRA), PV_SIZE, 0);
    area_lend(&data, 9, 0);
    area_lend(&signals, 3, 0);
    REFUSED(pv_1230_read(DATA, SIZE_MAX, LISTS_1230, EXTRA), PV_SIZE, 0);
    lend_1230(0);
    ACCEPTED(pv_1230_read(DATA, 68, NULL, 0, NULL, 0, EXTRA), 0, 72);
    REFUSED_TWO(pv_1230_read(DATA, 69, LISTS_1230, EXTRA), PV_SHORT, 69, 1);
    REFUSED_TWO(pv_1230_read(DATA, SIZE_MAX, LISTS_1230, EXTRA), PV_SHORT, SIZE_MAX, 4);
    REFUSED_TWO(pv_1230_read(NULL, 0, 0, LISTS_1230, EXTRA), PV_SHORT, 0, 4);
    LEND(data, 0xF0, 0x01, 0x00, 0x02, 0x00, 0x03, 0x7F, 0xFF, 0xFF);
    REFUSED(pv_1230_read(DATA, 0, LISTS_1230, EXTRA), PV_ROOM, 4);
    lend_1230(3);
    REFUSED(pv_1230_read(DATA, 0, LISTS_1230, EXTRA), PV_ROOM, 4);
    for (size_t n = 1; n < 9; n++) {
        size_t place = 4 + (n * 8 - 4) / 16 * 16;
        REFUSED_TWO(pv_1230_read(data.bytes, n, 0, LISTS_1230, EXTRA), PV_SHORT, place, place + 16 - n * 8);
    }
    lend_1230(6);
    set_1230(4, 77, 78);
    ACCEPTED(pv_1230_read(DATA, 0, LISTS_1230, EXTRA), 4, 68);
    CHECK(memcmp(signals.bytes, signals_1230, 4) == 0 && signals.bytes[4] == 77);
    const int16_t *bias = area_i16(&biases);
    CHECK(bias[0] == 0x10 && bias[1] == 0x20 && bias[2] == 0x37 && bias[3] == -1 && bias[4] == 78);
}

static void write_1230_refusals(void)
{
    area_lend(&data, 1024, 0xFF);
    lend_1230(4);
    REFUSED(pv_1230_write(DATA, 0, LISTS_1230, EXTRA), PV_SIZE, 0);
    area_lend(&data, 9, 0xFF);
    lend_1230(5);
    REFUSED(pv_1230_write(DATA, 0, LISTS_1230, EXTRA), PV_SIZE, 0);
    area_lend(&signals, 4, 0);
    REFUSED(pv_1230_write(DATA, 0, LISTS_1230, EXTRA), PV_SIZE, 0);
    lend_1230(4);
    set_1230(0, 2, 0);
    set_1230(1, 2, 0);
    set_1230(2, 4, 0);
    set_1230(3, 5, 0);
    REFUSED(pv_1230_write(DATA, SIZE_MAX, LISTS_1230, EXTRA), PV_SIGNAL, 2);
    set_1230(2, 9, 0);
    set_1230(3, 9, 0);
    REFUSED(pv_1230_write(DATA, SIZE_MAX, LISTS_1230, EXTRA), PV_DUPLICATE, 1);
    set_1230(1, 3, 0);
    REFUSED(pv_1230_write(DATA, SIZE_MAX, LISTS_1230, EXTRA), PV_DUPLICATE, 3);
    set_1230(3, 8, 0);
    REFUSED(pv_1230_write(DATA, 5, LISTS_1230, EXTRA), PV_ROOM, 68);
    REFUSED(pv_1230_write(DATA, SIZE_MAX, LISTS_1230, EXTRA), PV_ROOM, 68);
    ACCEPTED(pv_1230_write(DATA, 4, LISTS_1230, EXTRA), 72);
    lend_1230(0);
    REFUSED(pv_1230_write(NULL, 0, 0, NULL, 0, NULL, 0, EXTRA), PV_ROOM, 4);
    REFUSED(pv_1230_write(DATA, 69, LISTS_1230, EXTRA), PV_ROOM, 4);
    ACCEPTED(pv_1230_write(DATA, 68, LISTS_1230, EXTRA), 72);
}

/* Every set of signals, in falling order of the list: the mask order decides, and other bits stay. */
static void write_1230_every_mask(void)
{
    for (unsigned mask = 0; mask < 16; mask++) {
        size_t n = 0;
        lend_1230(4);
        for (unsigned i = 0; i < 4; i++)
            if (mask >> i & 1)
                set_1230(n++, signals_1230[3 - i], -32768 + (int)i);
        area_lend(&data, 10, 0xFF);
        ACCEPTED(pv_1230_write(DATA, 3, signals.bytes, n, area_i16(&biases), n, EXTRA), 3 + 4 + 16 * n);
        ACCEPTED(pv_field_read_unsigned(DATA, 0, 7, EXTRA), 0x70 | mask);
        ACCEPTED(pv_field_read_unsigned(DATA, 7 + 16 * n, 8, EXTRA), 0xFF);
        ACCEPTED(pv_1230_read(DATA, 3, LISTS_1230, EXTRA), n, 3 + 4 + 16 * n);
        for (unsigned i = 0; i < 4; i++)
            if (mask >> i & 1)
                CHECK(signals.bytes[--n] == signals_1230[3 - i] && area_i16(&biases)[n] == -32768 + (int)i);
    }
}

/* ---- Metres. ---- */

static uint32_t bits_of(float number)
{
    uint32_t bits;
    memcpy(&bits, &number, sizeof bits);
    return bits;
}

static void metres(void)
{
    for (int raw = INT16_MIN; raw <= INT16_MAX; raw++) {
        CHECK_EQ(bits_of(pv_1059_metres((int16_t)raw)), bits_of((float)raw * 0.01f));
        CHECK_EQ(bits_of(pv_1230_metres((int16_t)raw)), bits_of((float)raw * 0.02f));
    }
    CHECK_EQ(bits_of(pv_1059_metres(100)), 0x3F800000);
    CHECK_EQ(bits_of(pv_1230_metres(-50)), 0xBF800000);
    CHECK_EQ(bits_of(pv_1059_metres(0)), 0);
}

/* ---- Signal tables. ---- */

/* The entry of a number in a system's table, or null. */
static const struct signal *find_number(uint32_t system, uint32_t number)
{
    return system < sizeof tables / sizeof tables[0] ? find_in(tables[system], number) : NULL;
}

static void numbers_to_signals(void)
{
    for (uint32_t system = 0; system < 8; system++) {
        for (uint32_t number = 0; number < 300; number++) {
            const struct signal *signal = find_number(system, number);
            if (signal == NULL) {
                ACCEPTED(pv_signal_of(system, number, EXTRA), 0);
                continue;
            }
            ACCEPTED(pv_signal_of(system, number, EXTRA), 1, signal->band, signal->letter);
            ACCEPTED(pv_number_of(system, signal->band, signal->letter, EXTRA), 1, number);
            ACCEPTED(pv_number_of(system, signal->band + 256, signal->letter, EXTRA), 0);
            ACCEPTED(pv_number_of(system, signal->band, signal->letter + 256, EXTRA), 0);
            ACCEPTED(pv_signal_of(system, number + 256, EXTRA), 0);
            ACCEPTED(pv_signal_of(system + 256, number, EXTRA), 0);
        }
    }
    ACCEPTED(pv_signal_of(UINT32_MAX, 2, EXTRA), 0);
    ACCEPTED(pv_number_of(PV_GPS, 2, 'D', EXTRA), 0);
    ACCEPTED(pv_number_of(UINT32_MAX, 1, 'C', EXTRA), 0);
}

static void names_of_1059(void)
{
    for (uint32_t edition = 0; edition < 5; edition++) {
        for (uint32_t number = 0; number < 300; number++) {
            if (edition < 1 || edition > 2) {
                REFUSED(pv_1059_signal_of(edition, number, EXTRA), PV_KIND, 0);
                continue;
            }
            const struct signal *signal = find_in(editions_1059[edition], number);
            if (signal == NULL) {
                ACCEPTED(pv_1059_signal_of(edition, number, EXTRA), 0);
                continue;
            }
            ACCEPTED(pv_1059_signal_of(edition, number, EXTRA), 1, signal->band, signal->letter);
            ACCEPTED(pv_1059_number_of(edition, signal->band, signal->letter, EXTRA), 1, number);
            ACCEPTED(pv_1059_number_of(edition, signal->band + 256, signal->letter, EXTRA), 0);
            ACCEPTED(pv_1059_number_of(edition, signal->band, signal->letter + 256, EXTRA), 0);
        }
    }
    ACCEPTED(pv_1059_number_of(1, 1, 'Y', EXTRA), 0);
    ACCEPTED(pv_1059_number_of(2, 1, 'Y', EXTRA), 1, 3);
    REFUSED(pv_1059_number_of(0, 1, 'C', EXTRA), PV_KIND, 0);
    REFUSED(pv_1059_number_of(UINT32_MAX, 1, 'C', EXTRA), PV_KIND, 0);
    REFUSED(pv_1059_signal_of(257, 0, EXTRA), PV_KIND, 0);
}

static size_t entries_of(uint32_t system)
{
    size_t found = 0;
    for (uint32_t band = 0; band < 16; band++) {
        for (uint32_t letter = 0; letter < 128; letter++) {
            CHECK_EQ(pv_number_of(system, band, letter, EXTRA), PV_ACCEPTED);
            found += area_u64(&extra)[PV_AT_NUMBER_FOUND];
        }
    }
    return found;
}

static void order_of_signals(void)
{
    ACCEPTED(pv_signal_order(PV_GPS, 1, 'C', 1, 'P', EXTRA), SIGNED(-1));
    ACCEPTED(pv_signal_order(PV_GPS, 1, 'P', 1, 'C', EXTRA), 1);
    ACCEPTED(pv_signal_order(PV_GPS, 1, 'S', 5, 'I', EXTRA), 1);
    ACCEPTED(pv_signal_order(PV_GPS, 5, 'I', 1, 'S', EXTRA), SIGNED(-1));
    ACCEPTED(pv_signal_order(PV_GPS, 1, 'X', 2, 'D', EXTRA), SIGNED(-1));
    ACCEPTED(pv_signal_order(PV_GPS, 0, 0, 1, 'X', EXTRA), 1);
    ACCEPTED(pv_signal_order(PV_GPS, 2, 'D', 2, 'E', EXTRA), SIGNED(-1));
    ACCEPTED(pv_signal_order(PV_GPS, 3, 'A', 2, 'E', EXTRA), 1);
    ACCEPTED(pv_signal_order(PV_GPS, 2, 'D', 2, 'D', EXTRA), 0);
    ACCEPTED(pv_signal_order(PV_GPS, 1, 'C', 1, 'C', EXTRA), 0);
    ACCEPTED(pv_signal_order(PV_GPS, 257, 'C', 1, 'C', EXTRA), 1);
    ACCEPTED(pv_signal_order(PV_GPS, 257, 'C', 256, 'D', EXTRA), 1);
    ACCEPTED(pv_signal_order(PV_GPS, 256, UINT32_MAX, UINT32_MAX, 0, EXTRA), SIGNED(-1));
    ACCEPTED(pv_signal_order(PV_GPS, 7, 256, 7, 255, EXTRA), 1);
    ACCEPTED(pv_signal_order(PV_BDS, 2, 'X', 1, 'D', EXTRA), SIGNED(-1));
    ACCEPTED(pv_signal_order(7, 2, 'C', 1, 'P', EXTRA), 1);
}

static void signal_tables(void)
{
    static const size_t counts[] = { 15, 4, 19, 4, 13, 16, 2, 0 };
    numbers_to_signals();
    names_of_1059();
    area_lend(&extra, 64, 0);
    for (uint32_t system = 0; system < 8; system++)
        CHECK_EQ(entries_of(system), counts[system]);
    order_of_signals();
}

/* ---- Comparing. ---- */

static void comparing(void)
{
    LEND(data, 0xD3, 0, 0, 0x47, 0xEA, 0x4B);
    LEND(piece, 0xD3, 0, 0, 0x47, 0xEA, 0x4B);
    ACCEPTED(pv_differing(DATA, piece.bytes, piece.size, EXTRA), 0, 0);
    piece.bytes[1] = 4;
    ACCEPTED(pv_differing(DATA, piece.bytes, piece.size, EXTRA), 1, 1);
    piece.bytes[4] ^= 0x80;
    ACCEPTED(pv_differing(DATA, piece.bytes, piece.size, EXTRA), 1, 4);
    piece.bytes[0] = 0;
    piece.bytes[5] = 0;
    ACCEPTED(pv_differing(DATA, piece.bytes, piece.size, EXTRA), 0, 6);
    REFUSED(pv_differing(DATA, piece.bytes, 5, EXTRA), PV_SIZE, 0);
    REFUSED(pv_differing(data.bytes, 5, piece.bytes, piece.size, EXTRA), PV_SIZE, 0);
    REFUSED(pv_differing(NULL, 0, piece.bytes, 1, EXTRA), PV_SIZE, 0);
    ACCEPTED(pv_differing(NULL, 0, NULL, 0, EXTRA), 0, 0);
    CHECK(area_same(&data));
    CHECK(area_same(&piece));

    area_lend(&data, 65536, 0x5A);
    area_lend(&piece, 65536, 0x5A);
    piece.bytes[0] ^= 1;
    piece.bytes[65535] ^= 1;
    ACCEPTED(pv_differing(DATA, piece.bytes, piece.size, EXTRA), 0, 65536);
}

/* ---- What became of a byte. ---- */

/* A false D3, two bytes that are not D3, the empty frame, and a D3 that waits. */
static void fate_of_a_byte(void)
{
    LEND(piece, 0xD3, 0, 0, 0xD3, 0, 0, 0x47, 0xEA, 0x4B, 0xD3, 0);
    ACCEPTED(pv_why(piece.bytes, piece.size, 0, EXTRA), PV_WHY_BAD_CHECK, 0, 0, 0xD30000, 0x47EA4B);
    ACCEPTED(pv_why(piece.bytes, piece.size, 1, EXTRA), PV_WHY_NOT_D3, 1);
    ACCEPTED(pv_why(piece.bytes, piece.size, 2, EXTRA), PV_WHY_NOT_D3, 2);
    for (size_t place = 3; place < 9; place++)
        ACCEPTED(pv_why(piece.bytes, piece.size, place, EXTRA), PV_WHY_FRAME, 3, 6);
    ACCEPTED(pv_why(piece.bytes, piece.size, 9, EXTRA), PV_WHY_HELD, 9, 2);
    ACCEPTED(pv_why(piece.bytes, piece.size, 10, EXTRA), PV_WHY_HELD, 9, 2);
    REFUSED(pv_why(piece.bytes, piece.size, 11, EXTRA), PV_SIZE, 0);
    REFUSED(pv_why(piece.bytes, piece.size, SIZE_MAX, EXTRA), PV_SIZE, 0);
    REFUSED(pv_why(NULL, 0, 0, EXTRA), PV_SIZE, 0);
    CHECK(area_same(&piece));

    area_lend(&piece, 65536, 0x5A);
    ACCEPTED(pv_why(piece.bytes, piece.size, 65535, EXTRA), PV_WHY_NOT_D3, 65535);
    area_lend(&piece, 65537, 0x5A);
    REFUSED(pv_why(piece.bytes, piece.size, 0, EXTRA), PV_SIZE, 0);
}

/* The smallest damage that the checksum lets through: both strings end in their checksum and differ within 25 bits. */
static void damage_that_slips_through(void)
{
    const uint8_t zeros[] = { 0, 0, 0, 0 }, polynomial[] = { 0x01, 0x86, 0x4C, 0xFB };
    CHECK_EQ(pv_crc24q(zeros, 1), 0);
    CHECK_EQ(pv_crc24q(polynomial, 1), 0x864CFB);
    ready();
    ACCEPTED(pv_differing(zeros, 4, polynomial, 4, EXTRA), 0, 4);
}

/* ---- Settings blocks: numbers in `biases`, priorities in `signals`. ---- */

#define SETTINGS area_u16(&biases), biases.size / 2, signals.bytes, signals.size

static void lend_settings(size_t n)
{
    area_lend(&biases, 2 * n, 0x11);
    area_lend(&signals, n, 0x22);
}

static void set_entry(size_t k, unsigned number, unsigned priority)
{
    area_u16(&biases)[k] = (uint16_t)number;
    signals.bytes[k] = (uint8_t)priority;
}

/* Puts the checksum of the first 509 bytes behind them. */
static void seal(void)
{
    uint32_t sum = pv_crc24q(data.bytes, 509);
    data.bytes[509] = (uint8_t)(sum >> 16);
    data.bytes[510] = (uint8_t)(sum >> 8);
    data.bytes[511] = (uint8_t)sum;
}

static void write_block(uint32_t edition, uint32_t index)
{
    area_lend(&data, 514, 0x77);
    ACCEPTED(pv_settings_write(edition, index, SETTINGS, DATA, EXTRA), 512);
    CHECK(data.bytes[512] == 0x77 && data.bytes[513] == 0x77);
}

static void settings_layout(void)
{
    lend_settings(2);
    set_entry(0, 1005, 3);
    set_entry(1, 4095, 7);
    write_block(1, 0x0102);
    HAS(data, 1, 2, 1, 2, 0x03, 0xED, 0x0F, 0xFF, 0, 0);
    CHECK_EQ(pv_crc24q(data.bytes, 512), 0);
    lend_settings(64);
    ACCEPTED(pv_settings_read(data.bytes, 512, 1, 0x0102, SETTINGS, EXTRA), 2, 1);
    CHECK(area_u16(&biases)[0] == 1005 && area_u16(&biases)[1] == 4095 && area_u16(&biases)[2] == 0x1111);
    CHECK(signals.bytes[0] == 0 && signals.bytes[1] == 0 && signals.bytes[2] == 0x22);

    lend_settings(2);
    set_entry(0, 1005, 3);
    set_entry(1, 4095, 7);
    write_block(2, 0xFFFF);
    HAS(data, 0xFF, 0xFF, 2, 2, 0x03, 0xED, 3, 0x0F, 0xFF, 7, 0, 0);
    lend_settings(64);
    REFUSED(pv_settings_read(data.bytes, 512, 1, 0xFFFF, SETTINGS, EXTRA), PV_KIND, 0);
    ACCEPTED(pv_settings_read(data.bytes, 512, 2, 0xFFFF, SETTINGS, EXTRA), 2, 2);
    CHECK(area_u16(&biases)[1] == 4095 && signals.bytes[0] == 3 && signals.bytes[1] == 7 && signals.bytes[2] == 0x22);
}

static void settings_write_refusals(void)
{
    lend_settings(65);
    area_lend(&data, 511, 0);
    set_entry(3, 4096, 0);
    REFUSED(pv_settings_write(0, 65536, SETTINGS, DATA, EXTRA), PV_KIND, 0);
    REFUSED(pv_settings_write(3, 65536, SETTINGS, DATA, EXTRA), PV_KIND, 0);
    REFUSED(pv_settings_write(1, 65536, SETTINGS, DATA, EXTRA), PV_SIZE, 0);
    area_lend(&signals, 64, 0);
    REFUSED(pv_settings_write(1, 65536, SETTINGS, DATA, EXTRA), PV_SIZE, 0);
    lend_settings(64);
    for (size_t k = 0; k < 64; k++)
        set_entry(k, 4095, 200);
    set_entry(9, 4096, 0);
    REFUSED(pv_settings_write(1, 65536, SETTINGS, DATA, EXTRA), PV_RANGE, 0);
    REFUSED(pv_settings_write(1, 65535, SETTINGS, DATA, EXTRA), PV_RANGE, 9);
    REFUSED(pv_settings_write(2, 65535, SETTINGS, DATA, EXTRA), PV_RANGE, 0);
    set_entry(9, 4095, 0);
    REFUSED(pv_settings_write(1, 65535, SETTINGS, DATA, EXTRA), PV_ROOM, 512);
    area_lend(&data, 512, 0);
    ACCEPTED(pv_settings_write(1, 65535, SETTINGS, DATA, EXTRA), 512);
    lend_settings(0);
    ACCEPTED(pv_settings_write(2, 0, NULL, 0, NULL, 0, DATA, EXTRA), 512);
}

static void settings_read_refusals(void)
{
    lend_settings(3);
    for (size_t k = 0; k < 3; k++)
        set_entry(k, 1000 + (unsigned)k, (unsigned)k);
    write_block(2, 7);
    area_lend(&piece, 512, 0);
    memcpy(piece.bytes, data.bytes, 512);
    area_lend(&data, 512, 0);
    memcpy(data.bytes, piece.bytes, 512);
    lend_settings(64);
    REFUSED(pv_settings_read(data.bytes, 511, 1, 8, SETTINGS, EXTRA), PV_SIZE, 0);
    data.bytes[5] ^= 1;
    uint32_t sent = (uint32_t)data.bytes[509] << 16 | (uint32_t)data.bytes[510] << 8 | data.bytes[511];
    ready();
    CHECK_EQ(pv_settings_read(DATA, 1, 8, SETTINGS, EXTRA), PV_BAD_CHECK);
    extra_is((const uint64_t[]){ sent, pv_crc24q(data.bytes, 509) }, 2, "both sums", __LINE__);
    nothing_written("a bad check", __LINE__);
    data.bytes[5] ^= 1;
    REFUSED(pv_settings_read(DATA, 1, 8, SETTINGS, EXTRA), PV_KIND, 0);
    REFUSED(pv_settings_read(DATA, 3, 7, SETTINGS, EXTRA), PV_KIND, 0);
    REFUSED(pv_settings_read(DATA, 2, 8, SETTINGS, EXTRA), PV_RANGE, 0);
    REFUSED(pv_settings_read(DATA, 2, 65536 + 7, SETTINGS, EXTRA), PV_RANGE, 0);
    data.bytes[508] = 1;
    data.bytes[4 + 3 + 2] = 8;
    seal();
    REFUSED(pv_settings_read(DATA, 2, 7, SETTINGS, EXTRA), PV_RANGE, 1);
    data.bytes[4 + 3 + 2] = 7;
    data.bytes[4 + 6] = 0x10;
    seal();
    REFUSED(pv_settings_read(DATA, 2, 7, SETTINGS, EXTRA), PV_RANGE, 2);
    data.bytes[4 + 6] = 0x0F;
    seal();
    REFUSED(pv_settings_read(DATA, 2, 7, SETTINGS, EXTRA), PV_RANGE, 0);
    data.bytes[508] = 0;
    data.bytes[3] = 65;
    seal();
    REFUSED(pv_settings_read(DATA, 2, 7, SETTINGS, EXTRA), PV_RANGE, 0);
    area_lend(&data, 512, 0);
    REFUSED(pv_settings_read(DATA, 1, 0, SETTINGS, EXTRA), PV_KIND, 0);
    REFUSED(pv_settings_read(DATA, 2, 0, SETTINGS, EXTRA), PV_KIND, 0);
}

/* Lists of another length than 64: nothing is written, extra included. */
static void settings_fixed_lists(void)
{
    area_lend(&data, 512, 0);
    for (size_t n = 63; n <= 65; n++) {
        lend_settings(64);
        area_lend(n == 64 ? &signals : &biases, n == 64 ? 63 : 2 * n, 0);
        ready();
        CHECK_EQ(pv_settings_read(DATA, 2, 0, SETTINGS, EXTRA), PV_SIZE);
        nothing_written("lists of another length", __LINE__);
        CHECK(area_same(&extra));
    }
}

static void settings(void)
{
    settings_layout();
    settings_write_refusals();
    settings_read_refusals();
    settings_fixed_lists();
}

/* ---- The bias cache: entries in `data`. ---- */

#define ENTRIES area_entries(&data), data.size / sizeof(struct pv_cache_entry)

static void lend_entries(size_t n)
{
    area_lend(&data, n * sizeof(struct pv_cache_entry), 0);
}

/* Two providers with the same satellite and signal: each finds its own. */
static void two_providers(void)
{
    lend_entries(2);
    ACCEPTED(pv_cache_store(ENTRIES, 1, 0, 5, 0, 3, -100, EXTRA), 0);
    ACCEPTED(pv_cache_store(ENTRIES, 2, 0, 5, 0, 4, 8191, EXTRA), 0);
    ACCEPTED(pv_cache_lookup(ENTRIES, 1, 0, 5, 0, EXTRA), 3, SIGNED(-100));
    ACCEPTED(pv_cache_lookup(ENTRIES, 2, 0, 5, 0, EXTRA), 4, 8191);
    REFUSED(pv_cache_lookup(ENTRIES, 3, 0, 5, 0, EXTRA), PV_ABSENT, 0);
    REFUSED(pv_cache_lookup(ENTRIES, 1, 1, 5, 0, EXTRA), PV_ABSENT, 0);
    REFUSED(pv_cache_store(ENTRIES, 1, 1, 5, 0, 0, 0, EXTRA), PV_FULL, 0);
    ACCEPTED(pv_cache_store(ENTRIES, 1, 0, 5, 0, 7, -8192, EXTRA), 0);
    ACCEPTED(pv_cache_lookup(ENTRIES, 1, 0, 5, 0, EXTRA), 7, SIGNED(-8192));
    ACCEPTED(pv_cache_lookup(ENTRIES, 2, 0, 5, 0, EXTRA), 4, 8191);
    ACCEPTED(pv_cache_remove(ENTRIES, 1, 0, 5, 0, EXTRA), 0);
    HAS(data, 0, 0, 0, 0, 0, 0, 0, 0, 0, 0, 0, 0, 0, 0);
    REFUSED(pv_cache_remove(ENTRIES, 1, 0, 5, 0, EXTRA), PV_ABSENT, 0);
    ACCEPTED(pv_cache_store(ENTRIES, 1, 1, 5, 0, 0, 0, EXTRA), 0);
    CHECK(area_entries(&data)[0].in_use == 1 && area_entries(&data)[0].solution == 1);
}

/* A key twice: the first place counts, and removing it shows the second. */
static void a_key_twice(void)
{
    lend_entries(4);
    struct pv_cache_entry *entries = area_entries(&data);
    entries[1] = (struct pv_cache_entry){ 9, 7, 1, 2, 3, 4, 50 };
    entries[3] = (struct pv_cache_entry){ 1, 7, 1, 2, 3, 5, 60 };
    ACCEPTED(pv_cache_lookup(ENTRIES, 7, 1, 2, 3, EXTRA), 4, 50);
    ACCEPTED(pv_cache_store(ENTRIES, 7, 1, 2, 3, 6, 70, EXTRA), 0);
    CHECK(entries[1].in_use == 1 && entries[1].bias == 70 && entries[3].bias == 60 && entries[0].in_use == 0);
    ACCEPTED(pv_cache_remove(ENTRIES, 7, 1, 2, 3, EXTRA), 0);
    ACCEPTED(pv_cache_lookup(ENTRIES, 7, 1, 2, 3, EXTRA), 5, 60);
}

static void cache_refusals(void)
{
    lend_entries(513);
    REFUSED(pv_cache_store(ENTRIES, 65536, 0, 0, 0, 0, 0, EXTRA), PV_SIZE, 0);
    REFUSED(pv_cache_remove(ENTRIES, 65536, 0, 0, 0, EXTRA), PV_SIZE, 0);
    REFUSED(pv_cache_lookup(ENTRIES, 65536, 0, 0, 0, EXTRA), PV_SIZE, 0);
    lend_entries(0);
    const uint32_t bad[][5] = { { 65536, 0, 0, 0, 0 }, { 0, 16, 0, 0, 0 }, { 0, 0, 64, 0, 0 }, { 0, 0, 0, 32, 0 } };
    for (size_t i = 0; i < sizeof bad / sizeof bad[0]; i++) {
        REFUSED(pv_cache_store(ENTRIES, bad[i][0], bad[i][1], bad[i][2], bad[i][3], 0, 0, EXTRA), PV_RANGE, 0);
        REFUSED(pv_cache_remove(ENTRIES, bad[i][0], bad[i][1], bad[i][2], bad[i][3], EXTRA), PV_RANGE, 0);
        REFUSED(pv_cache_lookup(ENTRIES, bad[i][0], bad[i][1], bad[i][2], bad[i][3], EXTRA), PV_RANGE, 0);
    }
    REFUSED(pv_cache_store(ENTRIES, 0, 0, 0, 0, 16, 0, EXTRA), PV_RANGE, 0);
    REFUSED(pv_cache_store(ENTRIES, 0, 0, 0, 0, 15, 8192, EXTRA), PV_RANGE, 0);
    REFUSED(pv_cache_store(ENTRIES, 0, 0, 0, 0, 15, -8193, EXTRA), PV_RANGE, 0);
    REFUSED(pv_cache_store(ENTRIES, 0, 0, 0, 0, 15, INT32_MIN, EXTRA), PV_RANGE, 0);
    REFUSED(pv_cache_store(ENTRIES, 65535, 15, 63, 31, 15, 8191, EXTRA), PV_FULL, 0);
    lend_entries(512);
    for (uint32_t i = 0; i < 512; i++)
        ACCEPTED(pv_cache_store(ENTRIES, i, 15, 63, 31, 15, (int32_t)i - 256, EXTRA), 0);
    REFUSED(pv_cache_store(ENTRIES, 512, 15, 63, 31, 15, 0, EXTRA), PV_FULL, 0);
    for (uint32_t i = 0; i < 512; i++)
        ACCEPTED(pv_cache_lookup(ENTRIES, i, 15, 63, 31, EXTRA), 15, SIGNED((int32_t)i - 256));
}

static void cache(void)
{
    two_providers();
    a_key_twice();
    cache_refusals();
}

/* ---- The extra area of another size. ---- */

#define CALLS 25

static uint32_t call_number(unsigned call, uint64_t *numbers, size_t n)
{
    switch (call) {
    case 0: return pv_field_read_unsigned(DATA, 0, 8, numbers, n);
    case 1: return pv_field_read_twos(DATA, 0, 8, numbers, n);
    case 2: return pv_field_read_signmag(DATA, 0, 8, numbers, n);
    case 3: return pv_field_write_unsigned(DATA, 0, 8, 1, numbers, n);
    case 4: return pv_field_write_twos(DATA, 0, 8, 1, numbers, n);
    case 5: return pv_field_write_signmag(DATA, 0, 8, 1, numbers, n);
    case 6: return pv_frame_check(DATA, numbers, n);
    case 7: return pv_frame_write(DATA, OUT, numbers, n);
    case 8: return pv_feed(held.bytes, held.size, 3, 3, 1, piece.bytes, piece.size, OUT, numbers, n);
    case 9: return pv_1059_read(DATA, 0, LISTS_1059, numbers, n);
    case 10: return pv_1059_write(1, DATA, 0, LISTS_1059, numbers, n);
    case 11: return pv_1230_read(DATA, 0, LISTS_1230, numbers, n);
    case 12: return pv_1230_write(DATA, 0, LISTS_1230, numbers, n);
    case 13: return pv_signal_of(0, 2, numbers, n);
    case 14: return pv_number_of(0, 1, 'C', numbers, n);
    case 15: return pv_signal_order(0, 1, 'C', 1, 'P', numbers, n);
    case 16: return pv_differing(DATA, DATA, numbers, n);
    case 17: return pv_1059_signal_of(1, 2, numbers, n);
    case 18: return pv_1059_number_of(1, 1, 'C', numbers, n);
    case 19: return pv_why(DATA, 0, numbers, n);
    case 20: return pv_settings_write(1, 0, NULL, 0, NULL, 0, OUT, numbers, n);
    case 21: return pv_cache_store(area_entries(&data), 2, 0, 0, 0, 0, 0, 0, numbers, n);
    case 22: return pv_cache_lookup(area_entries(&data), 2, 0, 0, 0, 0, numbers, n);
    case 23: return pv_close(held.bytes, held.size, 3, 3, 1, OUT, numbers, n);
    default: return pv_cache_remove(area_entries(&data), 2, 0, 0, 0, 0, numbers, n);
    }
}

/* Areas on which every call above is accepted or refused for itself, so that only the size of extra differs. */
static void extra_of_another_size(void)
{
    static const size_t sizes[] = { 0, 1, 7, 9, 16, 4096 };
    area_lend(&data, 40, 0);
    area_lend(&out, 2000, 0x12);
    area_lend(&held, PV_HELD_SIZE, 0);
    LEND(piece, 0xD3, 0, 0, 0x47, 0xEA, 0x4B);
    lend_1059(1);
    signals.bytes[0] = 2;
    for (unsigned call = 0; call < CALLS; call++) {
        for (size_t i = 0; i < sizeof sizes / sizeof sizes[0]; i++) {
            ready();
            area_lend(&extra, sizes[i] * 8, 0xEE);
            CHECK_EQ(call_number(call, area_u64(&extra), sizes[i]), PV_SIZE);
            nothing_written("extra of another size", __LINE__);
            CHECK(area_same(&extra));
        }
        CHECK_EQ(call_number(call, NULL, 0), PV_SIZE);
        nothing_written("no extra", __LINE__);
    }
    /* The same calls with the right size write all of it. */
    for (unsigned call = 0; call < CALLS; call++) {
        ready();
        uint32_t got = call_number(call, EXTRA);
        CHECK(got == PV_ACCEPTED || got == PV_NO_PREAMBLE);
        for (size_t i = 0; i < PV_EXTRA_SIZE; i++)
            CHECK(area_u64(&extra)[i] != UINT64_C(0xEEEEEEEEEEEEEEEE));
    }
}

/* The library is that of the header, and the header's two ways to say its version agree. */
static void version(void)
{
    char text[20];
    CHECK_EQ(pv_version(), PV_VERSION);
    snprintf(text, sizeof text, "%u.%u.%u", PV_VERSION / 1000000, PV_VERSION / 1000 % 1000, PV_VERSION % 1000);
    CHECK(strcmp(text, PV_VERSION_TEXT) == 0);
}

static void refusal_names(void)
{
    CHECK(strcmp(pv_refusal_name(PV_ACCEPTED), "Accepted") == 0);
    CHECK(strcmp(pv_refusal_name(PV_SHORT), "Short") == 0);
    CHECK(strcmp(pv_refusal_name(PV_TOO_MANY), "TooMany") == 0);
    CHECK(strcmp(pv_refusal_name(PV_SIZE), "Size") == 0);
    CHECK(strcmp(pv_refusal_name(PV_INCOMPLETE), "Incomplete") == 0);
    CHECK(strcmp(pv_refusal_name(PV_NO_PREAMBLE), "NoPreamble") == 0);
    CHECK(strcmp(pv_refusal_name(PV_KIND), "Kind") == 0);
    CHECK(strcmp(pv_refusal_name(PV_BAD_CHECK), "BadCheck") == 0);
    CHECK(strcmp(pv_refusal_name(PV_FULL), "Full") == 0);
    CHECK(strcmp(pv_refusal_name(PV_ABSENT), "Absent") == 0);
    CHECK(strcmp(pv_refusal_name(17), "Unknown") == 0);
    CHECK(strcmp(pv_refusal_name(UINT32_MAX), "Unknown") == 0);
}

int main(void)
{
    data = area_new(70000);
    out = area_new(4000);
    held = area_new(4000);
    piece = area_new(70000);
    satellites = area_new(4000);
    signals = area_new(4000);
    biases = area_new(8000);
    extra = area_new(40000);
    for (size_t i = 0; i < sizeof lent / sizeof lent[0]; i++)
        area_lend(lent[i], 0, 0);

    example_1_to_3();
    example_4_and_5();
    example_6_and_7();
    example_8_and_9();
    published_checksums();
    fields();
    frames();
    feeding();
    blocks_1059();
    read_1230();
    write_1230_refusals();
    write_1230_every_mask();
    metres();
    signal_tables();
    comparing();
    fate_of_a_byte();
    damage_that_slips_through();
    settings();
    cache();
    extra_of_another_size();
    refusal_names();
    version();
    return checks_result("calls");
}
