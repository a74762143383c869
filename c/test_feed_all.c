/*
 * pv_feed_all against pv_feed: over sizes of pieces from 1 to 2,200 bytes, both modes, recordings in random cuts and
 * hostile streams, with lists of 1, 2, some and many places, both find the same frames, skip the same bytes and hold the
 * same; each call is held to the plain reference, every lent byte of it. And the order of its refusals, which write
 * nothing.
 *
 * Usage: test_feed_all TIMES [FILE..]   where TIMES says how many random streams, and from 100 on every size is tried
 */
#include "test.h"

#include "random.h"
#include "reference.h"
#include "ubx.h"

static uint8_t stream[PV_PIECE_MAX + 2 * PV_FRAME_MAX];
static size_t stream_len;

static size_t below(size_t limit)
{
    return (size_t)(random64() % limit);
}

/* ---- What came out of a stream. ---- */

struct outcome {
    uint64_t frames, sum, skipped, taken, held_count;
    uint8_t held[PV_HELD_SIZE];
};

static void add(uint64_t *sum, uint64_t number)
{
    *sum = (*sum ^ number) * 0x100000001B3;
}

static void add_frame(struct outcome *outcome, uint64_t place, uint64_t kind, const uint8_t *frame, size_t n)
{
    outcome->frames++;
    add(&outcome->sum, place);
    add(&outcome->sum, kind);
    for (size_t i = 0; i < n; i++)
        add(&outcome->sum, frame[i]);
}

static void keep_scanner(struct outcome *outcome, const struct pv_scanner *scanner)
{
    outcome->taken = scanner->taken;
    outcome->held_count = scanner->held_count;
    memcpy(outcome->held, scanner->held, scanner->held_count);
}

/* How a stream is cut: pieces of one size, or of any size up to it. */
struct cut {
    size_t size;
    int random;
};

static size_t next_piece(struct cut cut, size_t left)
{
    size_t n = cut.random ? below(cut.size + 1) : cut.size;
    return n < left ? n : left;
}

static void fresh(struct pv_scanner *scanner, uint32_t mode)
{
    pv_scanner_init(scanner);
    scanner->mode = mode;
}

/* Piece after piece to pv_feed, each until PV_MORE. */
static void by_one(struct outcome *outcome, uint32_t mode, struct cut cut)
{
    static struct pv_scanner scanner;
    static uint8_t frame[PV_FRAME_MAX];
    struct pv_fed fed = { 0, 0, 0, 0, 0, 0 };
    memset(outcome, 0, sizeof *outcome);
    fresh(&scanner, mode);
    for (size_t at = 0; at < stream_len;) {
        size_t end = at + next_piece(cut, stream_len - at);
        do {
            CHECK_EQ(pv_scanner_feed(&scanner, stream + at, end - at, frame, sizeof frame, &fed), PV_ACCEPTED);
            if (fed.is_frame)
                add_frame(outcome, fed.place, (uint64_t)fed.kind, frame, fed.frame_len);
            outcome->skipped += fed.skipped;
            at += fed.taken;
        } while (fed.is_frame);
    }
    keep_scanner(outcome, &scanner);
}

/* ---- Calls that are held to the reference. ---- */

struct twice {
    struct area ours, theirs;
};

static struct twice held, seam, starts, lengths, kinds, extra;
static struct area piece;
static struct twice *const areas[] = { &held, &seam, &starts, &lengths, &kinds, &extra };

static void lend(struct twice *area, size_t size)
{
    area_lend(&area->ours, size, 0);
    area_lend(&area->theirs, size, 0);
    for (size_t i = 0; i < size; i++)
        area->ours.bytes[i] = area->theirs.bytes[i] = (uint8_t)random64();
    area_keep(&area->ours);
}

static void lend_lists(size_t places)
{
    lend(&starts, 4 * places);
    lend(&lengths, 4 * places);
    lend(&kinds, places);
}

static uint32_t *area_u32(const struct area *area)
{
    return (uint32_t *)(void *)area->bytes;
}

/* The call on the areas as they are lent, and the same of the reference. */
static uint32_t both(size_t held_count, uint64_t taken, uint32_t mode)
{
    uint32_t got = pv_feed_all(held.ours.bytes, held.ours.size, held_count, taken, mode, piece.bytes, piece.size,
                               seam.ours.bytes, seam.ours.size, area_u32(&starts.ours), starts.ours.size / 4,
                               area_u32(&lengths.ours), lengths.ours.size / 4, kinds.ours.bytes, kinds.ours.size,
                               area_u64(&extra.ours), extra.ours.size / 8);
    uint32_t expected = ref_feed_all(held.theirs.bytes, held.theirs.size, held_count, taken, mode, piece.bytes, piece.size,
                                     seam.theirs.bytes, seam.theirs.size, area_u32(&starts.theirs),
                                     starts.theirs.size / 4, area_u32(&lengths.theirs), lengths.theirs.size / 4,
                                     kinds.theirs.bytes, kinds.theirs.size, area_u64(&extra.theirs),
                                     extra.theirs.size / 8);
    CHECK_EQ(got, expected);
    for (size_t i = 0; i < sizeof areas / sizeof areas[0]; i++) {
        CHECK(memcmp(areas[i]->ours.bytes, areas[i]->theirs.bytes, areas[i]->ours.size) == 0);
        CHECK(area_guard_same(&areas[i]->ours));
    }
    return got;
}

/* The frames that the last call listed, read as the header says. */
static void add_listed(struct outcome *outcome, size_t held_before)
{
    const uint64_t *numbers = area_u64(&extra.ours);
    for (size_t i = 0; i < numbers[PV_AT_ALL_COUNT]; i++) {
        size_t start = area_u32(&starts.ours)[i];
        const uint8_t *from = start < held_before ? seam.ours.bytes + start : piece.bytes + (start - held_before);
        add_frame(outcome, numbers[PV_AT_ALL_PLACE] + start, kinds.ours.bytes[i], from, area_u32(&lengths.ours)[i]);
    }
}

/* Piece after piece to pv_feed_all with lists of so many places, each as long as the lists are full. */
static void by_lists(struct outcome *outcome, uint32_t mode, struct cut cut, size_t places)
{
    size_t held_count = 0;
    uint64_t full = 0;
    memset(outcome, 0, sizeof *outcome);
    lend(&held, PV_HELD_SIZE);
    lend(&seam, PV_SEAM_SIZE);
    lend_lists(places);
    lend(&extra, 8 * PV_EXTRA_SIZE);
    const uint64_t *numbers = area_u64(&extra.ours);
    for (size_t at = 0; at < stream_len;) {
        size_t end = at + next_piece(cut, stream_len - at);
        do {
            area_lend(&piece, end - at, 0);
            memcpy(piece.bytes, stream + at, end - at);
            if (both(held_count, at, mode) != PV_ACCEPTED)
                return;
            add_listed(outcome, held_count);
            full = numbers[PV_AT_ALL_FULL];
            CHECK_EQ(full, numbers[PV_AT_ALL_COUNT] == places);
            CHECK(full || numbers[PV_AT_ALL_TAKEN] == end - at);
            held_count = numbers[PV_AT_ALL_HELD_COUNT];
            outcome->skipped += numbers[PV_AT_ALL_SKIPPED];
            at += numbers[PV_AT_ALL_TAKEN];
            CHECK_EQ(numbers[PV_AT_ALL_ALL_TAKEN], at);
        } while (full);
    }
    outcome->taken = stream_len;
    outcome->held_count = held_count;
    memcpy(outcome->held, held.ours.bytes, held_count);
}

static void compare(struct cut cut, size_t places)
{
    static struct outcome one, lists;
    for (uint32_t mode = 0; mode < 2; mode++) {
        by_one(&one, mode, cut);
        by_lists(&lists, mode, cut, places);
        CHECK(memcmp(&one, &lists, sizeof one) == 0);
    }
}

/* ---- Streams. ---- */

static size_t put_frame(uint8_t *to, size_t n)
{
    uint64_t numbers[PV_EXTRA_SIZE];
    uint8_t data[PV_DATA_MAX];
    for (size_t i = 0; i < n; i++)
        data[i] = (uint8_t)random64();
    CHECK_EQ(ref_frame_write(data, n, to, n + 6, numbers, PV_EXTRA_SIZE), PV_ACCEPTED);
    return n + 6;
}

/* Frames of both kinds, short and long, with noise, damage and false starts between. */
static void mixed_stream(size_t limit)
{
    stream_len = 0;
    while (stream_len < limit) {
        uint8_t *to = stream + stream_len;
        size_t n = below(12) == 0 ? PV_DATA_MAX - below(3) : below(40);
        switch (below(8)) {
        case 0:
            stream_len += below(put_frame(to, n) + 1);
            break;
        case 1:
            n = put_frame(to, n);
            to[below(n)] ^= 4;
            stream_len += n;
            break;
        case 2:
            n = below(12);
            memset(to, below(2) ? 0xD3 : 0xB5, n);
            stream_len += n;
            break;
        case 3:
            memcpy(to, "\xD3\x00\x80", 3);
            stream_len += 3;
            break;
        case 4:
            stream_len += put_ubx(to, n < 1022 ? n : 1021);
            break;
        default:
            stream_len += put_frame(to, n);
        }
    }
}

static void repeat(const char *bytes, size_t n, size_t limit)
{
    for (stream_len = 0; stream_len < limit; stream_len++)
        stream[stream_len] = (uint8_t)bytes[stream_len % n];
}

static const size_t list_places[] = { 1, 2, 7, PV_ALL_MAX };

static void many_piece_sizes(size_t times)
{
    mixed_stream(4000);
    for (size_t size = 1; size <= 2200; size += times >= 100 ? 1 : size < 20 ? 5 : 170 - times)
        compare((struct cut){ size, 0 }, list_places[size % 4]);
    compare((struct cut){ PV_PIECE_MAX, 0 }, 1);
    compare((struct cut){ PV_PIECE_MAX, 0 }, PV_ALL_MAX);
}

static void hostile_streams(size_t len)
{
    static const struct {
        const char *bytes;
        size_t n;
    } patterns[] = {
        { "\xD3", 1 },
        { "\xD3\x03\xFF", 3 },
        { "\xB5\x62\x01\x07\xFD\x03", 6 },
        { "\xB5", 1 },
        { "\xD3\x00\x00\x47\xEA\x4B", 6 },
        { "\xD3\xD3\x00\x00\x47\xEA\x4B", 7 },
        { "\xD3\x00\x00\x47\xEA\x4B\xD3\x00\x40", 9 },
    };
    for (size_t i = 0; i < sizeof patterns / sizeof patterns[0]; i++)
        for (size_t k = 0; k < 4; k++) {
            repeat(patterns[i].bytes, patterns[i].n, len);
            compare((struct cut){ 1, 0 }, list_places[k]);
            compare((struct cut){ 1 + below(1500), 0 }, list_places[k]);
            compare((struct cut){ 900, 1 }, list_places[k]);
            compare((struct cut){ PV_PIECE_MAX, 0 }, list_places[k]);
        }
}

/* The longest piece of the shortest frames, behind as many held bytes as there can be: lists of PV_ALL_MAX are not full. */
static void never_full(void)
{
    repeat("\xD3\x00\x00\x47\xEA\x4B", 6, PV_PIECE_MAX + PV_HELD_SIZE);
    lend(&held, PV_HELD_SIZE);
    memcpy(held.ours.bytes, stream, PV_HELD_SIZE);
    memcpy(held.theirs.bytes, stream, PV_HELD_SIZE);
    lend(&seam, PV_SEAM_SIZE);
    lend_lists(PV_ALL_MAX);
    lend(&extra, 8 * PV_EXTRA_SIZE);
    area_lend(&piece, PV_PIECE_MAX, 0);
    memcpy(piece.bytes, stream + PV_HELD_SIZE, PV_PIECE_MAX);
    CHECK_EQ(both(PV_HELD_SIZE, PV_HELD_SIZE, PV_RTCM_ONLY), PV_ACCEPTED);
    CHECK_EQ(area_u64(&extra.ours)[PV_AT_ALL_COUNT], PV_ALL_MAX - 1);
    CHECK_EQ(area_u64(&extra.ours)[PV_AT_ALL_FULL], 0);
}

static void random_streams(size_t times)
{
    for (size_t i = 0; i < times; i++) {
        mixed_stream(500 + below(6000));
        compare((struct cut){ 1 + below(3000), 1 }, 1 + below(12));
    }
}

/* Held bytes that no run of a scanner leaves: any bytes, any count. */
static void strange_held(size_t times)
{
    for (size_t i = 0; i < times; i++) {
        mixed_stream(3000);
        size_t count = below(PV_HELD_SIZE + 1);
        lend(&held, PV_HELD_SIZE);
        memcpy(held.ours.bytes, stream, PV_HELD_SIZE);
        memcpy(held.theirs.bytes, stream, PV_HELD_SIZE);
        lend(&seam, PV_SEAM_SIZE);
        lend_lists(1 + below(9));
        lend(&extra, 8 * PV_EXTRA_SIZE);
        size_t n = below(1800);
        area_lend(&piece, n, 0);
        memcpy(piece.bytes, stream + count, n);
        both(count, count + below(1000), (uint32_t)below(2));
    }
}

/* ---- Refusals. ---- */

/* A call with one number of each that may be wrong: what it refuses, and that it writes nothing but `extra`. */
struct sizes {
    size_t extra, held, seam, count;
    uint64_t taken;
    uint32_t mode;
    size_t piece, starts, lengths, kinds;
};

static const struct sizes good = { 8, PV_HELD_SIZE, PV_SEAM_SIZE, 5, 5, 0, 100, 3, 3, 3 };

static void refuses(struct sizes s, uint32_t refusal, uint64_t carried, int writes_extra)
{
    lend(&extra, 8 * s.extra);
    lend(&held, s.held);
    lend(&seam, s.seam);
    lend(&starts, 4 * s.starts);
    lend(&lengths, 4 * s.lengths);
    lend(&kinds, s.kinds);
    area_lend(&piece, s.piece, 0xD3);
    CHECK_EQ(both(s.count, s.taken, s.mode), refusal);
    for (size_t i = 0; i < sizeof areas / sizeof areas[0]; i++)
        CHECK(area_same(&areas[i]->ours) || (areas[i] == &extra && writes_extra));
    if (writes_extra)
        for (size_t i = 0; i < PV_EXTRA_SIZE; i++)
            CHECK_EQ(area_u64(&extra.ours)[i], i == 0 ? carried : 0);
}

/* From the last refusal to the first, each with all later ones wrong too. */
static void refusals(void)
{
    struct sizes s = good;
    s.starts = s.lengths = s.kinds = 0;
    refuses(s, PV_ROOM, 1, 1);
    s.kinds = 4;
    refuses(s, PV_SIZE, 0, 1);
    s.lengths = 2;
    refuses(s, PV_SIZE, 0, 1);
    s.taken = PV_TAKEN_MAX - 99;
    refuses(s, PV_SIZE, 0, 1);
    s.piece = PV_PIECE_MAX + 1;
    refuses(s, PV_SIZE, 0, 1);
    s.mode = 2;
    refuses(s, PV_STATE, 0, 1);
    s.taken = PV_TAKEN_MAX + 1;
    refuses(s, PV_STATE, 0, 1);
    s.taken = 4;
    refuses(s, PV_STATE, 0, 1);
    s.count = PV_HELD_SIZE + 1;
    refuses(s, PV_STATE, 0, 1);
    s.seam = PV_SEAM_SIZE - 1;
    refuses(s, PV_SIZE, 0, 0);
    s.held = PV_HELD_SIZE + 1;
    refuses(s, PV_SIZE, 0, 0);
    s.extra = 7;
    refuses(s, PV_SIZE, 0, 0);
    s = good;
    s.lengths = 4;
    refuses(s, PV_SIZE, 0, 1);
    s = good;
    s.kinds = 2;
    refuses(s, PV_SIZE, 0, 1);
    s = good;
    s.taken = PV_TAKEN_MAX - 100;
    lend(&extra, 64);
    lend(&held, s.held);
    lend(&seam, s.seam);
    lend_lists(3);
    area_lend(&piece, 100, 0x11);
    memset(held.ours.bytes, 0, 5);
    memset(held.theirs.bytes, 0, 5);
    CHECK_EQ(both(s.count, s.taken, s.mode), PV_ACCEPTED);
    CHECK_EQ(area_u64(&extra.ours)[PV_AT_ALL_ALL_TAKEN], PV_TAKEN_MAX);
}

/* ---- What the header adds. ---- */

static void by_header(void)
{
    static struct pv_scanner scanner = PV_SCANNER_FRESH_BOTH;
    static uint32_t from[5], many[5];
    static uint8_t sorts[5];
    static struct pv_lists lists = { from, many, sorts, 5, { 0 } };
    static struct outcome found, one;
    struct pv_fed_all fed = { 0, 0, 0, 0, 0, 0 };
    mixed_stream(9000);
    by_one(&one, PV_RTCM_AND_UBX, (struct cut){ 700, 0 });
    memset(&found, 0, sizeof found);
    for (size_t at = 0; at < stream_len;) {
        size_t end = at + next_piece((struct cut){ 700, 0 }, stream_len - at);
        do {
            CHECK_EQ(pv_scanner_feed_all(&scanner, stream + at, end - at, &lists, &fed), PV_ACCEPTED);
            for (size_t i = 0; i < fed.count; i++)
                add_frame(&found, fed.place + from[i], sorts[i], pv_listed_frame(&lists, &fed, stream + at, i), many[i]);
            found.skipped += fed.skipped;
            at += fed.taken;
        } while (fed.is_full);
    }
    keep_scanner(&found, &scanner);
    CHECK(memcmp(&found, &one, sizeof one) == 0);
    scanner.mode = 7;
    CHECK_EQ(pv_scanner_feed_all(&scanner, stream, 1, &lists, &fed), PV_STATE);
}

static int recording(const char *path)
{
    FILE *file = fopen(path, "rb");
    if (file == NULL)
        return -1;
    stream_len = fread(stream, 1, PV_PIECE_MAX, file);
    fclose(file);
    for (size_t k = 0; k < 4; k++) {
        compare((struct cut){ PV_PIECE_MAX, 0 }, list_places[k]);
        compare((struct cut){ 1460, 0 }, list_places[k]);
        compare((struct cut){ 1 + below(5000), 1 }, list_places[k]);
    }
    return 0;
}

int main(int argc, char **argv)
{
    for (size_t i = 0; i < sizeof areas / sizeof areas[0]; i++) {
        areas[i]->ours = area_new(4 * PV_ALL_MAX + 64);
        areas[i]->theirs = area_new(4 * PV_ALL_MAX + 64);
    }
    piece = area_new(PV_PIECE_MAX + 64);
    size_t times = argc > 1 ? strtoul(argv[1], NULL, 10) : 100;
    refusals();
    by_header();
    never_full();
    strange_held(20 * times);
    random_streams(times);
    hostile_streams(times >= 5 ? 3500 : 700);
    many_piece_sizes(times);
    for (int i = 2; i < argc; i++) {
        size_t n = strlen(argv[i]);
        if (n > 4 && strcmp(argv[i] + n - 4, ".tsv") == 0)
            continue;
        if (recording(argv[i]) != 0) {
            fprintf(stderr, "test_feed_all: %s cannot be read\n", argv[i]);
            return 2;
        }
    }
    return checks_result("test_feed_all");
}
