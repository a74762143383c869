/*
 * The recorded answers of rtcm-rs, asked of the library again: differential/README.md has the format of the file.
 *
 * Usage: test_answers FILE
 */
#include "test.h"

#define LONGEST 4096 /* Bytes of the longest record. */

/* What is left of a record. */
static uint8_t record[LONGEST];
static size_t at, record_len;

static uint64_t extra[PV_EXTRA_SIZE];

static uint64_t number(size_t bytes)
{
    uint64_t value = 0;
    for (size_t i = 0; i < bytes && at < record_len; i++)
        value = value << 8 | record[at++];
    return value;
}

/* So many bytes of the record; nothing where it does not have them. */
static uint8_t *bytes(size_t len)
{
    CHECK(len <= record_len - at);
    uint8_t *here = record + at;
    at = len <= record_len - at ? at + len : record_len;
    return here;
}

/* An area of a copy's own, so that a call may write to it. */
static size_t area(uint8_t *copy)
{
    size_t len = number(2);
    const uint8_t *there = bytes(len);
    memcpy(copy, there, len <= LONGEST ? len : 0);
    return len;
}

/* Whether the call was accepted, as the record says; else it was refused as the record says. */
/* In a record NoPreamble and BadCheck are one, as they are in the Rust. */
static bool accepted(uint32_t refusal)
{
    uint64_t there = number(1);
    CHECK_EQ(refusal == PV_BAD_CHECK ? PV_NO_PREAMBLE : refusal, there);
    if (there == PV_ACCEPTED)
        return true;
    uint64_t carried = number(2);
    if (there == PV_SHORT || there == PV_ROOM)
        CHECK_EQ(extra[PV_AT_CARRIED], carried);
    return false;
}

static void check_frame(void)
{
    uint8_t frame[LONGEST];
    size_t len = area(frame);
    if (!accepted(pv_frame_check(frame, len, extra, PV_EXTRA_SIZE)))
        return;
    CHECK_EQ(extra[PV_AT_FRAME_LENGTH], number(2));
    CHECK_EQ(extra[PV_AT_FRAME_DATA_LENGTH], number(2));
    CHECK_EQ(extra[PV_AT_FRAME_HAS_NUMBER], number(1));
    CHECK_EQ(extra[PV_AT_FRAME_NUMBER], number(2));
    CHECK_EQ(extra[PV_AT_FRAME_CHECKSUM], number(3));
}

/* A stream fed in pieces of seven bytes. */
static void scan_stream(void)
{
    uint8_t stream[LONGEST], frame[PV_FRAME_MAX];
    size_t len = area(stream), taken = 0, place = 0, frames = number(2);
    struct pv_scanner scanner = PV_SCANNER_FRESH;
    struct pv_fed fed = { 0 };
    do {
        size_t piece = len - taken < 7 ? len - taken : 7;
        CHECK_EQ(pv_scanner_feed(&scanner, stream + taken, piece, frame, sizeof frame, &fed), PV_ACCEPTED);
        taken += fed.taken;
        place += fed.skipped;
        if (!fed.is_frame)
            continue;
        CHECK_EQ(place, number(2));
        CHECK_EQ(fed.place, place);
        CHECK_EQ(fed.frame_len, number(2));
        CHECK(memcmp(frame, stream + place, fed.frame_len) == 0);
        place += fed.frame_len;
        frames--;
    } while (fed.is_frame || taken < len);
    CHECK_EQ(frames, 0);
    CHECK_EQ(place, number(2));
    CHECK_EQ(scanner.held_count, len - place);
    CHECK(memcmp(scanner.held, stream + place, scanner.held_count) == 0);
}

static void read_field(unsigned reading)
{
    uint8_t data[LONGEST];
    size_t start = number(2), width = number(1), len = area(data);
    uint32_t refusal = reading == 0   ? pv_field_read_unsigned(data, len, start, width, extra, PV_EXTRA_SIZE)
                       : reading == 1 ? pv_field_read_twos(data, len, start, width, extra, PV_EXTRA_SIZE)
                                      : pv_field_read_signmag(data, len, start, width, extra, PV_EXTRA_SIZE);
    if (accepted(refusal))
        CHECK_EQ(extra[PV_AT_FIELD_VALUE], number(8));
}

/* What a write left: what the record says, or the data as they were. */
static void check_left(uint32_t refusal, const uint8_t *data, size_t len, const uint8_t *before)
{
    if (!accepted(refusal)) {
        CHECK(memcmp(data, before, len) == 0);
        return;
    }
    CHECK_EQ(extra[PV_AT_FIELD_END], number(2));
    CHECK(memcmp(data, bytes(len), len) == 0);
}

static void write_field(unsigned reading)
{
    uint8_t data[LONGEST];
    size_t start = number(2), width = number(1);
    uint64_t value = number(8);
    size_t len = area(data);
    const uint8_t *before = record + at - len;
    int64_t as_signed = (int64_t)value;
    uint32_t refusal = reading == 0   ? pv_field_write_unsigned(data, len, start, width, value, extra, PV_EXTRA_SIZE)
                       : reading == 1 ? pv_field_write_twos(data, len, start, width, as_signed, extra, PV_EXTRA_SIZE)
                                      : pv_field_write_signmag(data, len, start, width, as_signed, extra, PV_EXTRA_SIZE);
    check_left(refusal, data, len, before);
}

static uint8_t satellites[PV_1059_READ_MAX], signals[PV_1059_READ_MAX];
static int16_t biases[PV_1059_READ_MAX];

#define PLACES PV_1059_READ_MAX

static void read_block(bool is_1059)
{
    uint8_t data[LONGEST];
    size_t start = number(2), len = area(data);
    uint32_t refusal = is_1059 ? pv_1059_read(data, len, start, satellites, PLACES, signals, PLACES, biases, PLACES, extra,
                                              PV_EXTRA_SIZE)
                               : pv_1230_read(data, len, start, signals, PLACES, biases, PLACES, extra, PV_EXTRA_SIZE);
    if (!accepted(refusal))
        return;
    uint64_t records = number(2);
    CHECK_EQ(extra[PV_AT_READ_RECORDS], records);
    CHECK_EQ(extra[PV_AT_READ_END], number(2));
    for (uint64_t i = 0; i < records && i < PLACES; i++) {
        uint64_t satellite = number(1);
        CHECK_EQ(is_1059 ? satellites[i] : 0, satellite);
        CHECK_EQ(signals[i], number(1));
        CHECK_EQ((uint16_t)biases[i], number(2));
    }
}

/* The first of n records with the satellite and the signal of an earlier one, or n. The Rust writes such a list. */
static size_t first_repeat(size_t n)
{
    for (size_t i = 0; i < n; i++)
        for (size_t j = 0; j < i; j++)
            if (satellites[j] == satellites[i] && signals[j] == signals[i])
                return i;
    return n;
}

static void write_block(bool is_1059)
{
    uint8_t data[LONGEST];
    size_t start = number(2), n = number(2);
    for (size_t i = 0; i < n && i < PLACES; i++) {
        satellites[i] = (uint8_t)number(1);
        signals[i] = (uint8_t)number(1);
        biases[i] = (int16_t)(uint16_t)number(2);
    }
    size_t len = area(data);
    const uint8_t *before = record + at - len;
    uint32_t refusal = is_1059 ? pv_1059_write(1, data, len, start, satellites, n, signals, n, biases, n, extra, PV_EXTRA_SIZE)
                               : pv_1230_write(data, len, start, signals, n, biases, n, extra, PV_EXTRA_SIZE);
    size_t repeat = is_1059 ? first_repeat(n) : n;
    if (repeat < n) {
        CHECK_EQ(refusal, PV_DUPLICATE);
        CHECK_EQ(extra[PV_AT_CARRIED], repeat);
        CHECK(memcmp(data, before, len) == 0);
        CHECK_EQ(number(1), PV_ACCEPTED);
        bytes(2 + len);
        return;
    }
    check_left(refusal, data, len, before);
}

static void ask_table(unsigned kind)
{
    uint32_t asked[5];
    unsigned many = kind == 0x0d ? 2 : kind == 0x0e ? 3 : 5;
    for (unsigned i = 0; i < many; i++)
        asked[i] = (uint32_t)number(1);
    if (kind == 0x0d) {
        CHECK_EQ(pv_signal_of(asked[0], asked[1], extra, PV_EXTRA_SIZE), PV_ACCEPTED);
        CHECK_EQ(extra[PV_AT_SIGNAL_FOUND], number(1));
        CHECK_EQ(extra[PV_AT_SIGNAL_BAND], number(1));
        CHECK_EQ(extra[PV_AT_SIGNAL_LETTER], number(1));
    } else if (kind == 0x0e) {
        CHECK_EQ(pv_number_of(asked[0], asked[1], asked[2], extra, PV_EXTRA_SIZE), PV_ACCEPTED);
        CHECK_EQ(extra[PV_AT_NUMBER_FOUND], number(1));
        CHECK_EQ(extra[PV_AT_NUMBER], number(1));
    } else {
        CHECK_EQ(pv_signal_order(asked[0], asked[1], asked[2], asked[3], asked[4], extra, PV_EXTRA_SIZE), PV_ACCEPTED);
        CHECK_EQ(extra[PV_AT_ORDER] + 1, number(1));
    }
}

static void check_metres(bool is_1059)
{
    int16_t raw = (int16_t)(uint16_t)number(2);
    float metres = is_1059 ? pv_1059_metres(raw) : pv_1230_metres(raw);
    uint32_t bits;
    memcpy(&bits, &metres, sizeof bits);
    CHECK_EQ(bits, number(4));
}

/* Asks what the record asks. A record of an unknown kind fails. */
static void ask(unsigned kind)
{
    switch (kind) {
    case 0x01: check_frame(); break;
    case 0x02: scan_stream(); break;
    case 0x03: case 0x04: case 0x05: read_field(kind - 0x03); break;
    case 0x06: case 0x07: case 0x08: write_field(kind - 0x06); break;
    case 0x09: read_block(true); break;
    case 0x0a: write_block(true); break;
    case 0x0b: read_block(false); break;
    case 0x0c: write_block(false); break;
    case 0x0d: case 0x0e: case 0x0f: ask_table(kind); break;
    case 0x10: check_metres(true); break;
    case 0x11: check_metres(false); break;
    default: check_equal(1, 0, "a record of a known kind", __FILE__, __LINE__);
    }
}

/* Reads a line into the record. Says whether there is one; a line that is no record fails. */
static bool next_record(FILE *file)
{
    static char line[2 * LONGEST + 2];
    if (fgets(line, sizeof line, file) == NULL)
        return false;
    size_t digits = strcspn(line, "\n");
    CHECK(digits % 2 == 0 && digits > 0 && line[digits] == '\n');
    record_len = digits / 2;
    at = 0;
    for (size_t i = 0; i < record_len; i++) {
        unsigned byte = 0;
        CHECK_EQ(sscanf(line + 2 * i, "%2x", &byte), 1);
        record[i] = (uint8_t)byte;
    }
    return true;
}

int main(int argc, char **argv)
{
    FILE *file = argc == 2 ? fopen(argv[1], "r") : NULL;
    if (file == NULL) {
        fprintf(stderr, "usage: test_answers FILE\n");
        return 2;
    }
    uint64_t records = 0, last = 0;
    while (next_record(file)) {
        unsigned kind = (unsigned)number(1);
        CHECK_EQ(last, 0);
        if (kind == 0x00) {
            last = number(4);
        } else {
            ask(kind);
            records++;
        }
        CHECK_EQ(at, record_len);
    }
    fclose(file);
    CHECK(records > 0);
    CHECK_EQ(records, last);
    printf("answers: %" PRIu64 " recorded answers of rtcm-rs\n", records);
    return checks_result("answers");
}
