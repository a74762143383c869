/*
 * Streams in which nearly every byte starts a candidate: fed in pieces, their frames, the bytes skipped and the bytes held
 * are those of the plain reference's scan of the whole stream. Good frames stand among the false starts, also where the
 * library's windows begin and end, and where pieces do.
 */
#include "test.h"

#include "random.h"
#include "streams.h"
#include "ubx.h"

#define STREAM_MAX 12000

static uint8_t stream[STREAM_MAX];

static struct outcome fed_in(size_t piece, uint32_t mode, size_t n)
{
    static uint8_t held[PV_HELD_SIZE], out[PV_FRAME_MAX];
    struct outcome outcome = { 0, 0, 0, 0, 0 };
    uint64_t extra[PV_EXTRA_SIZE];
    size_t place = 0;
    while (place < n) {
        size_t end = piece < n - place ? place + piece : n;
        do {
            CHECK_EQ(pv_feed(held, sizeof held, outcome.held, place, mode, stream + place, end - place, out, sizeof out, extra,
                             PV_EXTRA_SIZE),
                     PV_ACCEPTED);
            place += extra[PV_AT_FED_TAKEN];
            outcome.held = extra[PV_AT_FED_HELD_COUNT];
            outcome.skipped += extra[PV_AT_FED_SKIPPED];
            if (extra[PV_AT_FED_IS_FRAME] == PV_FRAME)
                add_frame(&outcome, extra[PV_AT_FED_PLACE], out, extra[PV_AT_FED_FRAME_LENGTH]);
        } while (extra[PV_AT_FED_IS_FRAME] == PV_FRAME);
    }
    return outcome;
}

static void try_mode(uint32_t mode, const size_t *pieces, size_t count, size_t n)
{
    struct outcome expected = whole_stream_scan(mode, stream, n);
    for (size_t i = 0; i < count; i++) {
        struct outcome got = fed_in(pieces[i], mode, n);
        CHECK_EQ(got.sum, expected.sum);
        CHECK_EQ(got.frames, expected.frames);
        CHECK_EQ(got.skipped, expected.skipped);
        CHECK_EQ(got.held, expected.held);
    }
}

static void try_pieces(uint32_t modes, const size_t *pieces, size_t count, size_t n)
{
    for (uint32_t mode = 0; mode < modes; mode++)
        try_mode(mode, pieces, count, n);
}

static void repeat(const uint8_t *pattern, size_t len, size_t n)
{
    for (size_t i = 0; i < n; i++)
        stream[i] = pattern[i % len];
}

static size_t put_frame(uint8_t *to, size_t data_len, uint8_t with)
{
    uint8_t data[PV_DATA_MAX];
    uint64_t extra[PV_EXTRA_SIZE];
    memset(data, with, data_len);
    ref_frame_write(data, data_len, to, data_len + PV_FRAME_MIN, extra, PV_EXTRA_SIZE);
    return data_len + PV_FRAME_MIN;
}

/* False starts alone, of the longest and the shortest candidates and between. */
static void try_false_starts(void)
{
    static const uint8_t patterns[][4] = { { 0xD3, 0xD3, 0xD3, 0xD3 }, { 0xD3, 0x03, 0xFF, 0xD3 }, { 0xD3, 0x00, 0x00, 0x00 },
                                           { 0xD3, 0xD3, 0x00, 0x40 }, { 0xD3, 0x02, 0xB5, 0x62 },
                                           { 0xB5, 0x62, 0x03, 0xB5 }, { 0xB5, 0x62, 0x00, 0xB5 } };
    static const size_t pieces[] = { 97, 1460, 4096, PV_PIECE_MAX };
    for (size_t i = 0; i < 7; i++) {
        repeat(patterns[i], i == 1 || i > 4 ? 3 : 4, STREAM_MAX);
        try_pieces(2, pieces, 4, STREAM_MAX);
    }
}

/*
 * One good frame in a run of D3. The library's first window there begins at place 66 and has 1,536 bytes, the next begins
 * 1,028 bytes before its end and has 4,096.
 */
static void try_edges(void)
{
    static const size_t lengths[] = { 0, PV_DATA_MAX };
    static const size_t edges[] = { 574, 1602, 4670 };
    static const size_t pieces[] = { 1000, PV_PIECE_MAX };
    static const uint8_t preamble[] = { 0xD3 };
    for (size_t l = 0; l < 2; l++)
        for (size_t e = 0; e < 3; e++)
            for (size_t off = 0; off < 3; off++)
                for (size_t ends = 0; ends < 2; ends++) {
                    size_t frame_len = lengths[l] + PV_FRAME_MIN, place = edges[e] + off - 1;
                    if (ends && place < frame_len)
                        continue;
                    repeat(preamble, 1, 6200);
                    put_frame(stream + (ends ? place - frame_len : place), lengths[l], 0xD3);
                    try_pieces(1, pieces, 2, 6200);
                }
}

/*
 * In mode 1, one good UBX frame in a run of false UBX starts. The library's first window of their sums begins at the first
 * start behind some 65 that failed, the next less than 1,029 bytes before its end, 4,096 bytes on.
 */
static void try_ubx_edges(void)
{
    static const uint8_t starts[] = { 0xB5, 0x62, 0x03 };
    static const size_t lengths[] = { 0, 1021 };
    static const size_t pieces[] = { 1, 7, 1000, 4096, PV_PIECE_MAX };
    for (size_t l = 0; l < 2; l++)
        for (size_t place = 160; place < 5200; place += place % 3 == 1 ? 401 : 1) {
            repeat(starts, 3, 6600);
            put_ubx(stream + place, lengths[l]);
            try_mode(1, pieces + (place % 3 ? 2 : 0), place % 3 ? 3 : 5, 6600);
        }
}

/* D3, B5 62, small lengths and good frames of both kinds in any order, cut anywhere. */
static void try_mix(void)
{
    size_t n = 0, pieces[] = { 1 + random64() % 3000, PV_PIECE_MAX };
    while (n < STREAM_MAX - PV_FRAME_MAX - 188) {
        uint64_t kind = random64() % 11;
        if (kind == 8) {
            stream[n++] = 0xB5;
            stream[n++] = 0x62;
            stream[n++] = (uint8_t)(random64() % 4);
        } else if (kind == 9) {
            for (size_t i = 1 + random64() % 60; i > 0; i--) {
                stream[n++] = 0xB5;
                stream[n++] = 0x62;
                stream[n++] = (uint8_t)(random64() % 4);
            }
        } else if (kind == 10) {
            n += put_ubx(stream + n, random64() % 16 == 0 ? random64() % 1022 : random64() % 20);
        } else if (kind < 4) {
            stream[n++] = 0xD3;
        } else if (kind < 6) {
            stream[n++] = 0xD3;
            stream[n++] = (uint8_t)(random64() % 4);
            stream[n++] = (uint8_t)random64();
        } else if (kind == 6) {
            for (size_t i = 1 + random64() % 60; i > 0; i--)
                stream[n++] = 0xD3;
        } else {
            n += put_frame(stream + n, random64() % 16 == 0 ? random64() % (PV_DATA_MAX + 1) : random64() % 20, 0xD3);
        }
    }
    try_pieces(2, pieces, 2, n);
}

/* Usage: test_hostile STREAMS: so many random streams beside the fixed ones. */
int main(int argc, char **argv)
{
    try_false_starts();
    try_edges();
    try_ubx_edges();
    for (long k = argc > 1 ? atol(argv[1]) : 0; k > 0; k--)
        try_mix();
    return checks_result("hostile");
}
