/*
 * A bounded random run of every function against the plain reference: the same call on two sets of areas must give the
 * same return value, the same areas and the same extra. The seed is fixed, so every run makes the same calls.
 *
 * Usage: test_random [ROUNDS]
 */
#include "test.h"

#include "random.h"
#include "signals.h"
#include "streams.h"
#include "ubx.h"

/* ---- Random numbers. ---- */

/* A number from 0 to limit - 1. */
static size_t below(size_t limit)
{
    return (size_t)(random64() >> 11) % limit;
}

static int one_in(size_t n)
{
    return below(n) == 0;
}

static uint64_t pick_of(const uint64_t *from, size_t n)
{
    return from[below(n)];
}

#define PICK(...) pick_of((const uint64_t[]){ __VA_ARGS__ }, sizeof((const uint64_t[]){ __VA_ARGS__ }) / 8)

/* ---- Areas in pairs: one for the library, one for the reference. ---- */

struct pair {
    struct area ours, theirs;
};

static struct pair data, out, held, piece, satellites, signals, biases, extra;
static struct pair *const pairs[] = { &data, &out, &held, &piece, &satellites, &signals, &biases, &extra };

static unsigned long calls_made;

static void lend(struct pair *pair, size_t size)
{
    area_lend(&pair->ours, size, 0);
    area_lend(&pair->theirs, size, 0);
}

static void fill(struct pair *pair, const uint8_t *bytes)
{
    if (pair->ours.size == 0)
        return;
    memcpy(pair->ours.bytes, bytes, pair->ours.size);
    memcpy(pair->theirs.bytes, bytes, pair->ours.size);
}

static void fill_random(struct pair *pair)
{
    for (size_t i = 0; i < pair->ours.size; i++)
        pair->ours.bytes[i] = pair->theirs.bytes[i] = (uint8_t)random64();
}

static void lend_random(struct pair *pair, size_t size)
{
    lend(pair, size);
    fill_random(pair);
}

static void set_byte(struct pair *pair, size_t i, uint64_t byte)
{
    pair->ours.bytes[i] = pair->theirs.bytes[i] = (uint8_t)byte;
}

static void set_bias(size_t i, int64_t bias)
{
    area_i16(&biases.ours)[i] = area_i16(&biases.theirs)[i] = (int16_t)bias;
}

/* An extra area full of rubbish; once in a while of another size. */
static void lend_extra(void)
{
    lend_random(&extra, 8 * (one_in(200) ? below(20) : PV_EXTRA_SIZE));
}

static int same(const struct pair *pair)
{
    if (pair->ours.size > 0 && memcmp(pair->ours.bytes, pair->theirs.bytes, pair->ours.size) != 0)
        return 0;
    return area_guard_same(&pair->ours) && area_guard_same(&pair->theirs);
}

static void compare(const char *name, uint32_t ours, uint32_t theirs)
{
    calls_made++;
    check_equal(ours, theirs, name, __FILE__, __LINE__);
    for (size_t i = 0; i < sizeof pairs / sizeof pairs[0]; i++)
        check_equal(!same(pairs[i]), 0, name, __FILE__, __LINE__);
}

#define OURS(pair) (pair).ours.bytes, (pair).ours.size
#define THEIRS(pair) (pair).theirs.bytes, (pair).theirs.size
#define OUR_EXTRA area_u64(&extra.ours), extra.ours.size / 8
#define THEIR_EXTRA area_u64(&extra.theirs), extra.theirs.size / 8
#define OUR_BIASES area_i16(&biases.ours), biases.ours.size / 2
#define THEIR_BIASES area_i16(&biases.theirs), biases.theirs.size / 2

/* ---- Checksum and fields. ---- */

static size_t random_length(void)
{
    if (one_in(4))
        return below(1200);
    if (one_in(20))
        return PICK(1022, 1023, 1024, 1025, 1029, 3000);
    return below(24);
}

static void try_crc(void)
{
    lend_random(&data, random_length());
    compare("pv_crc24q", pv_crc24q(OURS(data)), ref_crc24q(THEIRS(data)));
}

static size_t random_width(void)
{
    return one_in(12) ? PICK(0, 65, 66, 128, 256, SIZE_MAX, SIZE_MAX - 63, (size_t)1 << 32) : 1 + below(64);
}

/* A start that is mostly in the data, often near its end, and sometimes far away. */
static size_t random_start(size_t data_len, size_t width)
{
    size_t bits = data_len * 8;
    if (one_in(10))
        return PICK(SIZE_MAX, SIZE_MAX - 1, SIZE_MAX - 63, SIZE_MAX - 64, SIZE_MAX / 2 + 1, SIZE_MAX / 8, SIZE_MAX / 8 + 1, 65535);
    if (one_in(3) && bits >= width)
        return bits - width + below(3) - (bits > width && one_in(2));
    return below(bits + 9);
}

static void try_field_read(void)
{
    size_t width = random_width();
    lend_random(&data, random_length());
    lend_extra();
    size_t start = random_start(data.ours.size, width);
    switch (below(3)) {
    case 0:
        compare("pv_field_read_unsigned", pv_field_read_unsigned(OURS(data), start, width, OUR_EXTRA),
                ref_field_read_unsigned(THEIRS(data), start, width, THEIR_EXTRA));
        break;
    case 1:
        compare("pv_field_read_twos", pv_field_read_twos(OURS(data), start, width, OUR_EXTRA),
                ref_field_read_twos(THEIRS(data), start, width, THEIR_EXTRA));
        break;
    default:
        compare("pv_field_read_signmag", pv_field_read_signmag(OURS(data), start, width, OUR_EXTRA),
                ref_field_read_signmag(THEIRS(data), start, width, THEIR_EXTRA));
    }
}

/* A number near the ends of the ranges of a width, or anywhere. */
static uint64_t random_value(size_t width)
{
    uint64_t power = width >= 1 && width <= 63 ? (uint64_t)1 << width : 0;
    uint64_t value = random64();
    if (one_in(3))
        value = PICK(power, power / 2, 0 - power / 2, 0, (uint64_t)1 << 63) + below(3) - 1;
    else if (one_in(6) || power == 0)
        return value;
    else
        value &= power - 1;
    return one_in(2) ? value : 0 - value;
}

static void try_field_write(void)
{
    size_t width = random_width();
    uint64_t value = random_value(width);
    lend_random(&data, random_length());
    lend_extra();
    size_t start = random_start(data.ours.size, width);
    switch (below(3)) {
    case 0:
        compare("pv_field_write_unsigned", pv_field_write_unsigned(OURS(data), start, width, value, OUR_EXTRA),
                ref_field_write_unsigned(THEIRS(data), start, width, value, THEIR_EXTRA));
        break;
    case 1:
        compare("pv_field_write_twos", pv_field_write_twos(OURS(data), start, width, (int64_t)value, OUR_EXTRA),
                ref_field_write_twos(THEIRS(data), start, width, (int64_t)value, THEIR_EXTRA));
        break;
    default:
        compare("pv_field_write_signmag", pv_field_write_signmag(OURS(data), start, width, (int64_t)value, OUR_EXTRA),
                ref_field_write_signmag(THEIRS(data), start, width, (int64_t)value, THEIR_EXTRA));
    }
}

/* ---- Frames. ---- */

static size_t random_data_length(void)
{
    if (one_in(8))
        return PICK(0, 1, 2, 3, 1021, 1022, 1023);
    return one_in(6) ? below(1024) : below(60);
}

/* Puts a good frame of random data at `to`, its reserved bits random once in a while; gives its length. */
static size_t put_frame(uint8_t *to, size_t n)
{
    to[0] = 0xD3;
    to[1] = (uint8_t)((one_in(4) ? below(64) << 2 : 0) | n >> 8);
    to[2] = (uint8_t)n;
    for (size_t i = 0; i < n; i++)
        to[3 + i] = (uint8_t)(one_in(40) ? 0xD3 : random64());
    uint32_t sum = ref_crc24q(to, n + 3);
    to[n + 3] = (uint8_t)(sum >> 16);
    to[n + 4] = (uint8_t)(sum >> 8);
    to[n + 5] = (uint8_t)sum;
    return n + 6;
}

static void damage(uint8_t *bytes, size_t n)
{
    bytes[below(n)] ^= (uint8_t)(1 << below(8));
}

static void try_frame_check(void)
{
    uint8_t frame[PV_FRAME_MAX + 8];
    size_t n = put_frame(frame, random_data_length());
    if (one_in(3))
        damage(frame, n);
    size_t behind = one_in(2) ? below(8) : 0;
    for (size_t i = 0; i < behind; i++)
        frame[n + i] = (uint8_t)random64();
    n += behind;
    if (one_in(4))
        n = one_in(2) ? below(n + 1) : n - below(n < 9 ? n : 9);
    lend(&data, n);
    fill(&data, frame);
    lend_extra();
    compare("pv_frame_check", pv_frame_check(OURS(data), OUR_EXTRA), ref_frame_check(THEIRS(data), THEIR_EXTRA));
}

static void try_frame_write(void)
{
    lend_random(&data, one_in(30) ? PICK(1023, 1024, 1025) : random_data_length());
    size_t room = data.ours.size + 6;
    lend_random(&out, one_in(3) ? below(room + 1) : room - 1 + below(4));
    lend_extra();
    compare("pv_frame_write", pv_frame_write(OURS(data), OURS(out), OUR_EXTRA),
            ref_frame_write(THEIRS(data), THEIRS(out), THEIR_EXTRA));
}

/* ---- Comparing. ---- */

static void try_differing(void)
{
    lend_random(&data, random_length());
    lend(&out, data.ours.size);
    fill(&out, data.ours.bytes);
    for (size_t changes = below(4); changes > 0 && out.ours.size > 0; changes--)
        set_byte(&out, below(out.ours.size), random64() & 0xFF);
    if (one_in(10))
        lend_random(&out, random_length());
    lend_extra();
    compare("pv_differing", pv_differing(OURS(data), OURS(out), OUR_EXTRA),
            ref_differing(THEIRS(data), THEIRS(out), THEIR_EXTRA));
}

/* ---- Settings blocks: numbers in `biases`, priorities in `signals`. ---- */

#define OUR_SETTINGS area_u16(&biases.ours), biases.ours.size / 2, OURS(signals)
#define THEIR_SETTINGS area_u16(&biases.theirs), biases.theirs.size / 2, THEIRS(signals)

static void random_settings(size_t n)
{
    lend_random(&biases, 2 * n);
    lend_random(&signals, n);
    for (size_t k = 0; k < n; k++) {
        if (one_in(60))
            continue;
        set_byte(&biases, 2 * k + 1, random64() & 0x0F);
        set_byte(&signals, k, random64() & 7);
    }
}

static void try_settings_write(void)
{
    random_settings(one_in(20) ? PICK(63, 64, 65, 200) : below(65));
    if (one_in(20))
        lend_random(&signals, below(66));
    lend_random(&out, one_in(10) ? below(512) : 512 + below(4));
    lend_extra();
    uint32_t edition = (uint32_t)(one_in(15) ? random64() : 1 + below(2));
    uint32_t index = (uint32_t)(one_in(15) ? PICK(65535, 65536, 0xFFFFFFFF) : below(65536));
    compare("pv_settings_write", pv_settings_write(edition, index, OUR_SETTINGS, OURS(out), OUR_EXTRA),
            ref_settings_write(edition, index, THEIR_SETTINGS, THEIRS(out), THEIR_EXTRA));
}

/* A block that was written, in some rounds changed and sealed again. */
static void try_settings_read(void)
{
    uint64_t numbers[PV_EXTRA_SIZE];
    uint32_t edition = (uint32_t)(1 + below(2)), index = (uint32_t)below(300);
    random_settings(below(65));
    lend(&data, PV_SETTINGS_SIZE);
    uint8_t block[PV_SETTINGS_SIZE] = { 0 };
    ref_settings_write(edition, index, THEIR_SETTINGS, block, sizeof block, numbers, PV_EXTRA_SIZE);
    for (size_t changes = one_in(2) ? below(4) : 0; changes > 0; changes--)
        block[one_in(2) ? below(8) : below(509)] = (uint8_t)random64();
    uint32_t sum = ref_crc24q(block, 509) ^ (one_in(10) ? 1u << below(24) : 0);
    block[509] = (uint8_t)(sum >> 16);
    block[510] = (uint8_t)(sum >> 8);
    block[511] = (uint8_t)sum;
    fill(&data, block);
    size_t n = one_in(30) ? below(80) : PV_SETTINGS_MAX;
    lend_random(&biases, 2 * n);
    lend_random(&signals, one_in(30) ? below(80) : n);
    lend_extra();
    uint32_t reader = (uint32_t)(one_in(15) ? random64() : 1 + below(2));
    uint32_t expected = one_in(20) ? index + 1 : index;
    compare("pv_settings_read", pv_settings_read(OURS(data), reader, expected, OUR_SETTINGS, OUR_EXTRA),
            ref_settings_read(THEIRS(data), reader, expected, THEIR_SETTINGS, THEIR_EXTRA));
}

/* ---- The bias cache: entries in `data`. ---- */

#define ENTRY sizeof(struct pv_cache_entry)
#define OUR_ENTRIES area_entries(&data.ours), data.ours.size / ENTRY
#define THEIR_ENTRIES area_entries(&data.theirs), data.theirs.size / ENTRY

/* Entries over few keys, some of them free, some in use by an odd number, some keys twice. */
static void random_entries(size_t n)
{
    lend_random(&data, n * ENTRY);
    for (size_t i = 0; i < n; i++) {
        if (one_in(30))
            continue;
        const uint16_t numbers[] = { (uint16_t)(one_in(3) ? 0 : one_in(20) ? random64() : 1), (uint16_t)below(3),
                                     (uint16_t)below(2), (uint16_t)below(3), (uint16_t)below(2) };
        for (size_t k = 0; k < 2 * sizeof numbers / sizeof numbers[0]; k++)
            set_byte(&data, i * ENTRY + k, ((const uint8_t *)numbers)[k]);
    }
}

static uint32_t random_number(size_t few, uint64_t limit)
{
    return (uint32_t)(one_in(40) ? PICK(limit - 1, limit, 0xFFFFFFFF, 65536) : below(few));
}

static void try_cache(void)
{
    random_entries(one_in(40) ? PICK(511, 512, 513, 600) : below(12));
    lend_extra();
    uint32_t provider = random_number(3, 65536), solution = random_number(2, 16);
    uint32_t satellite = random_number(3, 64), signal = random_number(2, 32), iod = random_number(16, 16);
    int32_t bias = (int32_t)(one_in(20) ? (int64_t)PICK(0, 8191, 8192, 0xFFFFDFFF, 0x80000000) : (int64_t)below(16384) - 8192);
    switch (below(3)) {
    case 0:
        compare("pv_cache_store", pv_cache_store(OUR_ENTRIES, provider, solution, satellite, signal, iod, bias, OUR_EXTRA),
                ref_cache_store(THEIR_ENTRIES, provider, solution, satellite, signal, iod, bias, THEIR_EXTRA));
        break;
    case 1:
        compare("pv_cache_remove", pv_cache_remove(OUR_ENTRIES, provider, solution, satellite, signal, OUR_EXTRA),
                ref_cache_remove(THEIR_ENTRIES, provider, solution, satellite, signal, THEIR_EXTRA));
        break;
    default:
        compare("pv_cache_lookup", pv_cache_lookup(OUR_ENTRIES, provider, solution, satellite, signal, OUR_EXTRA),
                ref_cache_lookup(THEIR_ENTRIES, provider, solution, satellite, signal, THEIR_EXTRA));
    }
}

/* ---- Feeding. ---- */

#define STREAM_MAX 13000

static uint8_t stream[STREAM_MAX];

/* A UBX frame that is good, damaged or cut, B5 alone or in a run, or B5 62 and any length. */
static size_t put_ubx_part(uint8_t *to)
{
    /* At most 1,100 bytes of payload, and so some that are too long. */
    size_t n = put_ubx(to, one_in(12) ? PICK(0, 1, 1020, 1021, 1022, 1023, 1100) : below(one_in(4) ? 400 : 20));
    switch (below(6)) {
    case 0:
        damage(to, n);
        return n;
    case 1:
        return below(n);
    case 2:
        n = one_in(20) ? below(1100) : below(5);
        memset(to, 0xB5, n);
        return n;
    case 3:
        return 6;
    default:
        return n;
    }
}

/* One part of a stream: a good frame, a damaged or a cut one, noise, a run of D3, a false start, or a part of UBX. */
static size_t put_part(uint8_t *to)
{
    size_t n;
    if (one_in(3))
        return put_ubx_part(to);
    switch (below(8)) {
    case 0:
        n = put_frame(to, random_data_length());
        damage(to, n);
        return n;
    case 1:
        return below(put_frame(to, random_data_length()));
    case 2:
        n = below(80);
        for (size_t i = 0; i < n; i++)
            to[i] = (uint8_t)random64();
        return n;
    case 3:
        n = one_in(20) ? below(1100) : below(12);
        memset(to, 0xD3, n);
        return n;
    case 4:
        to[0] = 0xD3;
        to[1] = (uint8_t)(one_in(2) ? 0 : below(256));
        to[2] = (uint8_t)random64();
        return 3;
    default:
        return put_frame(to, random_data_length());
    }
}

static size_t random_stream(void)
{
    size_t n = 0;
    size_t limit = one_in(4) ? 8000 : 1500;
    while (n < limit)
        n += put_part(stream + n);
    return n;
}

static uint32_t feed_both(size_t held_count, uint64_t taken, uint32_t mode)
{
    lend_extra();
    uint32_t got = pv_feed(OURS(held), held_count, taken, mode, OURS(piece), OURS(out), OUR_EXTRA);
    compare("pv_feed", got, ref_feed(THEIRS(held), held_count, taken, mode, THEIRS(piece), THEIRS(out), THEIR_EXTRA));
    return extra.ours.size == 8 * PV_EXTRA_SIZE ? got : PV_SIZE;
}

/* Closes what is held, until Done or a refusal. */
static void close_both(size_t held_count, uint64_t taken, uint32_t mode)
{
    for (;;) {
        lend_extra();
        uint32_t got = pv_close(OURS(held), held_count, taken, mode, OURS(out), OUR_EXTRA);
        compare("pv_close", got, ref_close(THEIRS(held), held_count, taken, mode, THEIRS(out), THEIR_EXTRA));
        if (got != PV_ACCEPTED || area_u64(&extra.ours)[PV_AT_FED_IS_FRAME] != PV_FRAME)
            return;
        held_count = area_u64(&extra.ours)[PV_AT_FED_HELD_COUNT];
        taken = area_u64(&extra.ours)[PV_AT_FED_ALL_TAKEN];
    }
}

static void try_feed_refusals(size_t held_count)
{
    size_t held_len = one_in(4) ? PICK(0, 1, 1028, 1030) : PV_HELD_SIZE;
    lend_random(&held, held_len);
    lend_random(&out, one_in(3) ? PICK(0, 1, 1028) : PV_FRAME_MAX);
    lend(&piece, one_in(8) ? PICK(65536, 65537, 65600) : below(9));
    uint64_t most = PV_TAKEN_MAX;
    uint64_t taken = one_in(2) ? held_count + below(9) : PICK(0, 1, 1028, most - 65536, most - 8, most, most + 1, UINT64_MAX);
    if (one_in(3))
        held_count = PICK(1030, 1031, SIZE_MAX, (size_t)1 << 32);
    uint32_t mode = (uint32_t)(one_in(3) ? PICK(2, 3, UINT32_MAX) : below(2));
    feed_both(held_count, taken, mode);
    if (one_in(2))
        close_both(held_count, taken, mode);
}

/* Held bytes that no run of the scanner would leave: any bytes, any count. */
static void try_strange_held(void)
{
    size_t n = random_stream();
    size_t held_count = one_in(4) ? PICK(0, 1, 5, 6, 1028, 1029) : below(1030);
    lend(&held, PV_HELD_SIZE);
    fill(&held, stream + below(n - PV_HELD_SIZE));
    lend(&piece, one_in(2) ? below(40) : below(n));
    fill(&piece, stream);
    lend_random(&out, PV_FRAME_MAX + below(5));
    uint64_t taken = held_count + (one_in(2) ? 0 : below(100000));
    uint32_t mode = (uint32_t)below(2);
    if (one_in(2))
        close_both(held_count, taken, mode);
    else
        feed_both(held_count, taken, mode);
}

/* What became of a byte of a recording. */
static void try_why(void)
{
    size_t n = random_stream();
    lend(&piece, one_in(3) ? below(60) : below(n));
    fill(&piece, stream);
    for (int tries = 0; tries < 8; tries++) {
        size_t place = one_in(20) ? PICK(piece.ours.size, SIZE_MAX, (size_t)1 << 32) : below(piece.ours.size + 1);
        lend_extra();
        compare("pv_why", pv_why(OURS(piece), place, OUR_EXTRA), ref_why(THEIRS(piece), place, THEIR_EXTRA));
    }
}

static size_t piece_length(size_t kind)
{
    return kind == 0 ? 1 : kind == 1 ? 1 + below(10) : kind == 2 ? below(200) : kind == 3 ? 1460 : STREAM_MAX;
}

/*
 * Feeds a whole stream in pieces of one kind, each until More, and holds the outcome to the scan of the whole stream. A
 * call whose extra area has another size is refused, and made again.
 */
static void try_stream(void)
{
    struct outcome outcome = { 0, 0, 0, 0, 0 };
    size_t n = random_stream();
    size_t kind = below(5);
    size_t place = 0;
    size_t held_count = 0;
    uint32_t mode = (uint32_t)below(2);
    lend_random(&held, PV_HELD_SIZE);
    lend_random(&out, PV_FRAME_MAX);
    while (place < n) {
        size_t want = piece_length(kind);
        size_t end = want < n - place ? place + want : n;
        for (;;) {
            lend(&piece, end - place);
            fill(&piece, stream + place);
            if (feed_both(held_count, place, mode) != PV_ACCEPTED)
                continue;
            const uint64_t *numbers = area_u64(&extra.ours);
            held_count = numbers[PV_AT_FED_HELD_COUNT];
            place += numbers[PV_AT_FED_TAKEN];
            outcome.skipped += numbers[PV_AT_FED_SKIPPED];
            if (numbers[PV_AT_FED_IS_FRAME] != PV_FRAME)
                break;
            add_frame(&outcome, numbers[PV_AT_FED_PLACE], out.ours.bytes, numbers[PV_AT_FED_FRAME_LENGTH]);
        }
        CHECK_EQ(outcome.frame_bytes + outcome.skipped + held_count, place);
    }
    outcome.held = held_count;
    struct outcome expected = whole_stream_scan(mode, stream, n);
    CHECK(memcmp(&outcome, &expected, sizeof outcome) == 0);
}

static void try_feed(void)
{
    if (one_in(3))
        try_feed_refusals(below(1030));
    else if (one_in(3))
        try_strange_held();
    else if (one_in(8))
        try_stream();
}

/* ---- Bias blocks. ---- */

static void lend_lists(size_t n, int with_satellites)
{
    int odd = one_in(40);
    if (with_satellites)
        lend_random(&satellites, odd ? below(n + 3) : n);
    lend_random(&signals, odd ? below(n + 3) : n);
    lend_random(&biases, 2 * (odd ? below(n + 3) : n));
}

/* Puts a number into a field of both data areas, where it fits. */
static void put_number(size_t start, size_t width, uint64_t number)
{
    uint64_t numbers[PV_EXTRA_SIZE];
    ref_field_write_unsigned(OURS(data), start, width, number, numbers, PV_EXTRA_SIZE);
    ref_field_write_unsigned(THEIRS(data), start, width, number, numbers, PV_EXTRA_SIZE);
}

/* Puts small counts into the block, so that it often fits: random bits alone seldom do. */
static void tame_1059(size_t start)
{
    size_t satellite_count = below(one_in(4) ? 30 : 4);
    size_t place = start + 6;
    put_number(start, 6, satellite_count);
    for (size_t i = 0; i < satellite_count && place < data.ours.size * 8; i++) {
        size_t count = below(one_in(3) ? 32 : 4);
        put_number(place + 6, 5, count);
        place += 11 + 19 * count;
    }
}

static void try_1059_read(void)
{
    lend_random(&data, one_in(30) ? PICK(1023, 1024) : one_in(2) ? below(1024) : below(60));
    size_t start = random_start(data.ours.size, 6);
    if (one_in(2))
        start = below(20);
    if (!one_in(3) && start < 9000)
        tame_1059(start);
    lend_lists(one_in(2) ? 422 : below(60), 1);
    lend_extra();
    compare("pv_1059_read",
            pv_1059_read(OURS(data), start, OURS(satellites), OURS(signals), OUR_BIASES, OUR_EXTRA),
            ref_1059_read(THEIRS(data), start, THEIRS(satellites), THEIRS(signals), THEIR_BIASES, THEIR_EXTRA));
}

/* Records that are mostly legal, over a few or over all satellites, mostly without a satellite and signal twice. */
static void random_records(void)
{
    size_t spread = PICK(1, 2, 5, 20, 63, 64);
    int faulty = one_in(6);
    for (size_t i = 0; i < satellites.ours.size; i++)
        set_byte(&satellites, i, faulty && one_in(20) ? below(256) : below(spread));
    uint8_t next[256] = { 0 };
    int distinct = !one_in(4);
    for (size_t i = 0; i < signals.ours.size; i++) {
        uint64_t one = distinct && i < satellites.ours.size ? next[satellites.ours.bytes[i]]++ % 16u : below(16);
        set_byte(&signals, i, faulty && one_in(20) ? below(40) : edition_2[one].number);
    }
    for (size_t i = 0; i < biases.ours.size / 2; i++)
        set_bias(i, (int64_t)below(16384) - 8192 + (faulty && one_in(20) ? 8192 : 0));
}

/* Mostly 2, which has every signal of the records. */
static uint32_t random_edition(void)
{
    return one_in(30) ? (uint32_t)random64() : one_in(30) ? (uint32_t)below(4) : one_in(8) ? 1 : 2;
}

static void try_1059_write(void)
{
    lend_random(&data, one_in(60) ? PICK(1024, 1030) : one_in(2) ? below(1024) : PV_DATA_MAX);
    size_t n = one_in(60) ? PICK(1952, 1953, 1954, 2000) : one_in(3) ? below(450) : below(40);
    lend_lists(n, 1);
    random_records();
    size_t start = one_in(2) ? below(20) : random_start(data.ours.size, 6 + 30 * n);
    uint32_t edition = random_edition();
    lend_extra();
    compare("pv_1059_write",
            pv_1059_write(edition, OURS(data), start, OURS(satellites), OURS(signals), OUR_BIASES, OUR_EXTRA),
            ref_1059_write(edition, THEIRS(data), start, THEIRS(satellites), THEIRS(signals), THEIR_BIASES, THEIR_EXTRA));
}

static void try_1230_read(void)
{
    lend_random(&data, one_in(30) ? PICK(1023, 1024) : below(16));
    size_t start = random_start(data.ours.size, one_in(2) ? 4 : 36);
    lend_lists(below(7), 0);
    lend_extra();
    compare("pv_1230_read", pv_1230_read(OURS(data), start, OURS(signals), OUR_BIASES, OUR_EXTRA),
            ref_1230_read(THEIRS(data), start, THEIRS(signals), THEIR_BIASES, THEIR_EXTRA));
}

static void try_1230_write(void)
{
    lend_random(&data, one_in(30) ? PICK(1023, 1024) : below(16));
    lend_lists(below(6), 0);
    for (size_t i = 0; i < signals.ours.size; i++)
        set_byte(&signals, i, one_in(12) ? below(12) : signals_1230[below(4)]);
    size_t start = random_start(data.ours.size, 4 + 16 * signals.ours.size);
    lend_extra();
    compare("pv_1230_write", pv_1230_write(OURS(data), start, OURS(signals), OUR_BIASES, OUR_EXTRA),
            ref_1230_write(THEIRS(data), start, THEIRS(signals), THEIR_BIASES, THEIR_EXTRA));
}

/* ---- Signal tables. ---- */

static uint32_t random_band(void)
{
    return (uint32_t)(one_in(20) ? random64() : below(10));
}

static uint32_t random_letter(void)
{
    return (uint32_t)(one_in(20) ? random64() : 'A' + below(26));
}

static void try_signals(void)
{
    uint32_t system = (uint32_t)(one_in(30) ? random64() : below(8));
    uint32_t number = (uint32_t)(one_in(30) ? random64() : below(40));
    uint32_t band_a = random_band(), letter_a = random_letter(), band_b = random_band(), letter_b = random_letter();
    lend_extra();
    uint32_t edition = one_in(2) ? 1 : random_edition();
    compare("pv_1059_signal_of", pv_1059_signal_of(edition, number, OUR_EXTRA),
            ref_1059_signal_of(edition, number, THEIR_EXTRA));
    lend_extra();
    compare("pv_1059_number_of", pv_1059_number_of(edition, band_a, letter_a, OUR_EXTRA),
            ref_1059_number_of(edition, band_a, letter_a, THEIR_EXTRA));
    lend_extra();
    compare("pv_signal_of", pv_signal_of(system, number, OUR_EXTRA), ref_signal_of(system, number, THEIR_EXTRA));
    lend_extra();
    compare("pv_number_of", pv_number_of(system, band_a, letter_a, OUR_EXTRA),
            ref_number_of(system, band_a, letter_a, THEIR_EXTRA));
    lend_extra();
    compare("pv_signal_order", pv_signal_order(system, band_a, letter_a, band_b, letter_b, OUR_EXTRA),
            ref_signal_order(system, band_a, letter_a, band_b, letter_b, THEIR_EXTRA));
}

/* ---- The run. ---- */

static void (*const tries[])(void) = {
    try_crc, try_field_read, try_field_read, try_field_write, try_field_write, try_frame_check, try_frame_write,
    try_differing, try_why, try_settings_read, try_settings_write, try_cache,
    try_feed, try_1059_read, try_1059_write, try_1230_read, try_1230_write, try_signals,
};

int main(int argc, char **argv)
{
    unsigned long rounds = argc > 1 ? strtoul(argv[1], NULL, 10) : 200000;
    for (size_t i = 0; i < sizeof pairs / sizeof pairs[0]; i++) {
        pairs[i]->ours = area_new(70000);
        pairs[i]->theirs = area_new(70000);
        lend(pairs[i], 0);
    }
    for (unsigned long i = 0; i < rounds; i++)
        tries[below(sizeof tries / sizeof tries[0])]();
    printf("random: %lu calls against the reference\n", calls_made);
    return checks_result("random");
}
