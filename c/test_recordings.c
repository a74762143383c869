/*
 * Real recordings, scanned whole by repeated frame checks and in pieces of 1, 7, 1,460 and 65,536 bytes: the counts are
 * known, whatever the cut. The bias blocks in them are read, held to what another program decoded, and written back;
 * whole messages 1230 are written back byte for byte. Each recording, broken off at random places and with a false start
 * near its end, is fed in random pieces and closed, in both modes: frames and sum are those of the plain reference.
 *
 * Usage: test_recordings FILE..   where a FILE is known by its last name
 */
#include "test.h"

#include "random.h"
#include "reference.h"
#include "signals.h"

struct recording {
    const char *name;
    size_t bytes, frames, skipped, held;
};

static const struct recording recordings[] = {
    { "rtcm3-1.bin", 36723, 67, 708, 0 },
    { "rtcm3-3.bin", 26348, 200, 56, 0 },
    { "rtcm3.bndm.bin", 11400, 100, 34, 0 },
    { "rtcm3.bin", 72, 2, 2, 0 },
    { "ublox-f9p-rtcm.bin", 5737, 15, 3949, 0 },
    { "testglo.rtcm3", 57931, 429, 58, 0 },
};

/* The bias blocks of message 1059 in rtcm3-1.bin start here: its header is that of an old draft. */
#define BLOCK_1059_START 42
#define BLOCK_1230_START 28

static uint8_t stream[65536];
static size_t stream_len;

static int read_file(const char *path)
{
    FILE *file = fopen(path, "rb");
    if (file == NULL)
        return -1;
    stream_len = fread(stream, 1, sizeof stream, file);
    int more = fgetc(file) != EOF;
    fclose(file);
    return more ? -1 : 0;
}

static const char *last_name(const char *path)
{
    const char *slash = strrchr(path, '/');
    return slash == NULL ? path : slash + 1;
}

/* The whole-stream scan, by a frame check at each D3. */
static struct recording scan_whole(void)
{
    struct recording found = { "", stream_len, 0, 0, 0 };
    uint64_t extra[PV_EXTRA_SIZE];
    size_t place = 0;
    while (place < stream_len) {
        uint32_t refusal = pv_frame_check(stream + place, stream_len - place, extra, PV_EXTRA_SIZE);
        if (stream[place] == 0xD3 && refusal == PV_INCOMPLETE)
            break;
        found.frames += refusal == PV_ACCEPTED;
        found.skipped += refusal != PV_ACCEPTED;
        place += refusal == PV_ACCEPTED ? extra[PV_AT_FRAME_LENGTH] : 1;
    }
    found.held = stream_len - place;
    return found;
}

/* Called for each frame, with its place in the stream. */
typedef void frame_visitor(const uint8_t *frame, size_t place);

static struct recording scan_in_pieces(size_t piece_len, frame_visitor *visit)
{
    struct recording found = { "", 0, 0, 0, 0 };
    struct pv_scanner scanner = PV_SCANNER_FRESH;
    struct pv_fed fed = { 0, 0, 0, 0, 0, 0 };
    uint8_t frame[PV_FRAME_MAX] = { 0 };
    size_t given_out = 0;
    while (found.bytes < stream_len) {
        size_t end = stream_len - found.bytes < piece_len ? stream_len : found.bytes + piece_len;
        do {
            CHECK_EQ(pv_scanner_feed(&scanner, stream + found.bytes, end - found.bytes, frame, sizeof frame, &fed), 0);
            found.bytes += fed.taken;
            found.skipped += fed.skipped;
            CHECK_EQ(fed.place, fed.is_frame ? given_out + found.skipped : 0);
            CHECK_EQ(scanner.taken, found.bytes);
            if (fed.is_frame && visit != NULL)
                visit(frame, fed.place);
            found.frames += (size_t)fed.is_frame;
            given_out += fed.frame_len;
        } while (fed.is_frame);
    }
    found.held = scanner.held_count;
    return found;
}

/* ---- Bias blocks. ---- */

static FILE *decoded; /* Place of the frame, satellite, signal, raw bias of each 1059 record; or null. */
static size_t messages_1059, records_1059, messages_1230, biases_1230;

static uint64_t number_of(const uint8_t *frame, size_t *data_len)
{
    uint64_t extra[PV_EXTRA_SIZE];
    CHECK_EQ(pv_frame_check(frame, PV_FRAME_MAX, extra, PV_EXTRA_SIZE), PV_ACCEPTED);
    *data_len = extra[PV_AT_FRAME_DATA_LENGTH];
    return extra[PV_AT_FRAME_NUMBER];
}

static void hold_to_decoded(size_t place, unsigned satellite, unsigned signal, int bias)
{
    size_t place_there = 0;
    unsigned satellite_there = 0, signal_there = 0;
    int bias_there = 0;
    CHECK_EQ(fscanf(decoded, "%zu %u %u %d", &place_there, &satellite_there, &signal_there, &bias_there), 4);
    CHECK_EQ(place, place_there);
    CHECK_EQ(satellite, satellite_there);
    CHECK_EQ(signal, signal_there);
    CHECK_EQ(bias, bias_there);
}

/* The data of a frame with every bit of the block turned: writing the block back must give the data. */
static void turn_block(uint8_t *copy, const uint8_t *data, size_t data_len, uint64_t start, uint64_t end)
{
    memcpy(copy, data, data_len);
    for (uint64_t bit = start; bit < end; bit++)
        copy[bit / 8] ^= (uint8_t)(0x80 >> bit % 8);
}

/* Writes the records as a whole message behind a header, and reads it back. */
static void whole_1059(const uint8_t *satellites, const uint8_t *signals, const int16_t *biases, size_t n)
{
    static uint8_t data[PV_DATA_MAX], satellites_again[PV_1059_READ_MAX], signals_again[PV_1059_READ_MAX];
    static int16_t biases_again[PV_1059_READ_MAX];
    const struct pv_1059_header header = { 345600, 2, 1, 15, 258, 1 };
    struct pv_1059_header again = { 0, 0, 0, 0, 0, 0 };
    uint64_t extra[PV_EXTRA_SIZE];
    CHECK_EQ(pv_1059_message_put(1, data, sizeof data, &header, satellites, n, signals, n, biases, n, extra, PV_EXTRA_SIZE),
             PV_ACCEPTED);
    uint64_t end = extra[PV_AT_WRITTEN_END];
    CHECK_EQ(pv_1059_message_get(data, sizeof data, &again, satellites_again, PV_1059_READ_MAX, signals_again,
                                 PV_1059_READ_MAX, biases_again, PV_1059_READ_MAX, extra, PV_EXTRA_SIZE), PV_ACCEPTED);
    CHECK_EQ(extra[PV_AT_READ_RECORDS], n);
    CHECK_EQ(extra[PV_AT_READ_END], end);
    CHECK(memcmp(&header, &again, sizeof header) == 0);
    CHECK(memcmp(satellites, satellites_again, n) == 0 && memcmp(signals, signals_again, n) == 0);
    CHECK(memcmp(biases, biases_again, n * sizeof biases[0]) == 0);
}

/* Reads the block, holds it to what is known, and writes it back to the same bits. */
static void visit_1059(const uint8_t *frame, size_t data_len, size_t place)
{
    uint8_t satellites[PV_1059_READ_MAX], signals[PV_1059_READ_MAX], copy[PV_DATA_MAX];
    int16_t biases[PV_1059_READ_MAX];
    uint64_t extra[PV_EXTRA_SIZE];
    CHECK_EQ(pv_1059_read(frame + 3, data_len, BLOCK_1059_START, satellites, PV_1059_READ_MAX, signals, PV_1059_READ_MAX,
                          biases, PV_1059_READ_MAX, extra, PV_EXTRA_SIZE), PV_ACCEPTED);
    size_t n = extra[PV_AT_READ_RECORDS];
    uint64_t end = extra[PV_AT_READ_END];
    for (size_t i = 0; i < n; i++)
        hold_to_decoded(place, satellites[i], signals[i], biases[i]);
    for (size_t i = 1; i < n; i++)
        CHECK(satellites[i - 1] <= satellites[i]);
    messages_1059++;
    records_1059 += n;
    turn_block(copy, frame + 3, data_len, BLOCK_1059_START, end);
    CHECK_EQ(pv_1059_write(1, copy, data_len, BLOCK_1059_START, satellites, n, signals, n, biases, n, extra, PV_EXTRA_SIZE),
             PV_ACCEPTED);
    CHECK_EQ(extra[PV_AT_WRITTEN_END], end);
    CHECK(memcmp(copy, frame + 3, data_len) == 0);
    whole_1059(satellites, signals, biases, n);
}

/* Reads the whole message, and writes it back into zeros to the same bytes. */
static void whole_1230(const uint8_t *data, size_t data_len)
{
    uint8_t signals[PV_1230_MAX], copy[PV_DATA_MAX] = { 0 };
    int16_t biases[PV_1230_MAX];
    struct pv_1230_header header = { 0, 0, 0 };
    uint64_t extra[PV_EXTRA_SIZE];
    CHECK_EQ(pv_1230_message_get(data, data_len, &header, signals, PV_1230_MAX, biases, PV_1230_MAX, extra, PV_EXTRA_SIZE),
             PV_ACCEPTED);
    size_t n = extra[PV_AT_READ_RECORDS];
    CHECK_EQ((extra[PV_AT_READ_END] + 7) / 8, data_len);
    CHECK_EQ(pv_1230_message_put(copy, data_len, &header, signals, n, biases, n, extra, PV_EXTRA_SIZE), PV_ACCEPTED);
    CHECK(memcmp(copy, data, data_len) == 0);
}

static void visit_1230(const uint8_t *frame, size_t data_len)
{
    uint8_t signals[PV_1230_MAX], copy[PV_DATA_MAX];
    int16_t biases[PV_1230_MAX];
    uint64_t extra[PV_EXTRA_SIZE];
    CHECK_EQ(pv_1230_read(frame + 3, data_len, BLOCK_1230_START, signals, PV_1230_MAX, biases, PV_1230_MAX, extra,
                          PV_EXTRA_SIZE), PV_ACCEPTED);
    size_t n = extra[PV_AT_READ_RECORDS];
    messages_1230++;
    biases_1230 += n;
    turn_block(copy, frame + 3, data_len, BLOCK_1230_START, extra[PV_AT_READ_END]);
    CHECK_EQ(pv_1230_write(copy, data_len, BLOCK_1230_START, signals, n, biases, n, extra, PV_EXTRA_SIZE), PV_ACCEPTED);
    CHECK(memcmp(copy, frame + 3, data_len) == 0);
    CHECK(n == 0 || n == PV_1230_MAX);
    whole_1230(frame + 3, data_len);
    for (size_t i = 0; i < n; i++) {
        CHECK_EQ(signals[i], signals_1230[i]);
        CHECK_EQ(biases[i], -3597);
    }
}

static void visit_frame(const uint8_t *frame, size_t place)
{
    size_t data_len = 0;
    uint64_t number = number_of(frame, &data_len);
    CHECK(memcmp(frame, stream + place, data_len + 6) == 0);
    if (number == 1059 && decoded != NULL)
        visit_1059(frame, data_len, place);
    if (number == 1230)
        visit_1230(frame, data_len);
}

/* ---- The run. ---- */

static void hold_to_known(struct recording found, const struct recording *known)
{
    CHECK_EQ(found.bytes, known->bytes);
    CHECK_EQ(found.frames, known->frames);
    CHECK_EQ(found.skipped, known->skipped);
    CHECK_EQ(found.held, known->held);
}

static void scan_recording(const struct recording *known)
{
    static const size_t cuts[] = { 1, 7, 1460, 65536 };
    hold_to_known(scan_whole(), known);
    for (size_t i = 0; i < sizeof cuts / sizeof cuts[0]; i++)
        hold_to_known(scan_in_pieces(cuts[i], i == 0 ? visit_frame : NULL), known);
}

static void open_decoded(const char *path)
{
    char line[100];
    decoded = fopen(path, "r");
    CHECK(decoded != NULL && fgets(line, sizeof line, decoded) != NULL);
}

/* The recording of a receiver that mixes UBX in: how many frames of each kind, and all other bytes, in pieces. */
static void scan_both_kinds(size_t piece_len)
{
    struct pv_scanner scanner = PV_SCANNER_FRESH_BOTH;
    struct pv_fed fed = { 0, 0, 0, 0, 0, 0 };
    uint8_t frame[PV_FRAME_MAX] = { 0 };
    size_t at = 0, kinds[2] = { 0, 0 }, framed = 0, skipped = 0;
    while (at < stream_len) {
        size_t end = stream_len - at < piece_len ? stream_len : at + piece_len;
        do {
            CHECK_EQ(pv_scanner_feed(&scanner, stream + at, end - at, frame, sizeof frame, &fed), PV_ACCEPTED);
            at += fed.taken;
            skipped += fed.skipped;
            if (!fed.is_frame)
                continue;
            CHECK(memcmp(frame, stream + fed.place, fed.frame_len) == 0);
            kinds[fed.kind]++;
            framed += fed.frame_len;
        } while (fed.is_frame);
    }
    CHECK_EQ(kinds[PV_RTCM], 15);
    CHECK_EQ(kinds[PV_UBX], 14);
    CHECK_EQ(framed + skipped + scanner.held_count, stream_len);
    do {
        CHECK_EQ(pv_scanner_close(&scanner, frame, sizeof frame, &fed), PV_ACCEPTED);
        skipped += fed.skipped;
        framed += fed.frame_len;
        CHECK(memcmp(frame, stream + fed.place, fed.frame_len) == 0);
    } while (fed.is_frame);
    CHECK_EQ(framed + skipped, stream_len);
    CHECK(scanner.held_count == 0 && scanner.taken == 0 && scanner.mode == PV_RTCM_AND_UBX);
}

/* ---- Closing. ---- */

typedef uint32_t feeder(uint8_t *held, size_t held_len, size_t held_count, uint64_t taken, uint32_t mode,
                        const uint8_t *piece, size_t piece_len, uint8_t *out, size_t out_len,
                        uint64_t *extra, size_t extra_len);
typedef uint32_t closer(uint8_t *held, size_t held_len, size_t held_count, uint64_t taken, uint32_t mode,
                        uint8_t *out, size_t out_len, uint64_t *extra, size_t extra_len);

/* What a recording gives that is fed and then closed: its frames, how many were fed, and the bytes given up. */
struct salvaged {
    size_t frames, fed, framed, given_up;
    uint64_t places[1024];
    size_t lengths[1024];
};

/* One call's answer: its frame, if it has one, is the recording's own bytes at its place. */
static void note(struct salvaged *found, const uint8_t *recording, const uint8_t *frame, const uint64_t *extra)
{
    found->given_up += extra[PV_AT_FED_SKIPPED];
    if (extra[PV_AT_FED_IS_FRAME] != PV_FRAME)
        return;
    size_t length = extra[PV_AT_FED_FRAME_LENGTH];
    CHECK(found->frames < 1024);
    CHECK(memcmp(frame, recording + extra[PV_AT_FED_PLACE], length) == 0);
    found->places[found->frames] = extra[PV_AT_FED_PLACE];
    found->lengths[found->frames] = length;
    found->frames++;
    found->framed += length;
}

/* Feeds a recording in pieces of at most so many bytes, closes it, and holds the sum. */
static void salvage(struct salvaged *found, feeder *feed, closer *close, const uint8_t *recording, size_t len,
                    uint32_t mode, size_t most)
{
    uint8_t held[PV_HELD_SIZE] = { 0 }, frame[PV_FRAME_MAX] = { 0 };
    uint64_t extra[PV_EXTRA_SIZE] = { 0 }, taken = 0;
    size_t count = 0;
    memset(found, 0, sizeof *found);
    while (taken < len) {
        size_t piece = len - taken < most ? len - taken : (size_t)(random64() % most) + 1;
        size_t end = taken + piece;
        do {
            CHECK_EQ(feed(held, sizeof held, count, taken, mode, recording + taken, end - taken, frame, sizeof frame,
                          extra, PV_EXTRA_SIZE), PV_ACCEPTED);
            note(found, recording, frame, extra);
            count = extra[PV_AT_FED_HELD_COUNT];
            taken = extra[PV_AT_FED_ALL_TAKEN];
        } while (extra[PV_AT_FED_IS_FRAME] == PV_FRAME);
    }
    CHECK_EQ(found->framed + found->given_up + count, len);
    found->fed = found->frames;
    do {
        CHECK_EQ(close(held, sizeof held, count, taken, mode, frame, sizeof frame, extra, PV_EXTRA_SIZE), PV_ACCEPTED);
        note(found, recording, frame, extra);
        count = extra[PV_AT_FED_HELD_COUNT];
        taken = extra[PV_AT_FED_ALL_TAKEN];
    } while (extra[PV_AT_FED_IS_FRAME] == PV_FRAME);
    CHECK_EQ(count, 0);
    CHECK_EQ(taken, 0);
    CHECK_EQ(found->framed + found->given_up, len);
}

/* Breaks the recording off at a place, puts a false start before it, and salvages it in random pieces; counts what
 * closing found. */
static size_t salvage_broken_off(size_t len, uint32_t mode)
{
    static uint8_t copy[sizeof stream];
    static struct salvaged ours, theirs;
    memcpy(copy, stream, len);
    if (len > PV_FRAME_MAX) {
        size_t at = len - 4 - (size_t)(random64() % 1020);
        memcpy(copy + at, "\xD3\x03\xFF", 3);
    }
    salvage(&theirs, ref_feed, ref_close, copy, len, mode, PV_PIECE_MAX);
    salvage(&ours, pv_feed, pv_close, copy, len, mode, (size_t)(random64() % 3000) + 1);
    CHECK_EQ(ours.frames, theirs.frames);
    CHECK_EQ(ours.given_up, theirs.given_up);
    CHECK(memcmp(ours.places, theirs.places, sizeof ours.places) == 0);
    CHECK(memcmp(ours.lengths, theirs.lengths, sizeof ours.lengths) == 0);
    return ours.frames - ours.fed;
}

static size_t salvage_recording(void)
{
    size_t salvaged = salvage_broken_off(stream_len, PV_RTCM_ONLY);
    for (uint32_t round = 0; round < 12; round++)
        salvaged += salvage_broken_off((size_t)(random64() % (stream_len + 1)), round % 2);
    return salvaged;
}

int main(int argc, char **argv)
{
    size_t scanned = 0, salvaged = 0;
    for (int a = 1; a < argc; a++)
        if (strcmp(last_name(argv[a]), "rtcm3-1.1059.tsv") == 0)
            open_decoded(argv[a]);
    for (int a = 1; a < argc; a++) {
        for (size_t i = 0; i < sizeof recordings / sizeof recordings[0]; i++) {
            if (strcmp(last_name(argv[a]), recordings[i].name) != 0)
                continue;
            CHECK_EQ(read_file(argv[a]), 0);
            scan_recording(&recordings[i]);
            salvaged += salvage_recording();
            scanned++;
            if (strcmp(recordings[i].name, "ublox-f9p-rtcm.bin") == 0)
                for (size_t n = 1; n <= 65536; n = n * 13 + 1)
                    scan_both_kinds(n);
        }
    }
    CHECK_EQ(scanned, sizeof recordings / sizeof recordings[0]);
    CHECK(salvaged > 20);
    CHECK_EQ(messages_1059, 34);
    CHECK_EQ(records_1059, 3162);
    CHECK_EQ(messages_1230, 9);
    CHECK_EQ(biases_1230, 28);
    printf("recordings: %zu scanned, %zu records of 1059, %zu messages of 1230 with %zu biases\n", scanned, records_1059,
           messages_1230, biases_1230);
    if (decoded != NULL)
        fclose(decoded);
    return checks_result("recordings");
}
