/* What a C programmer would write for speed: see plain.h. */
#include "plain.h"

#include <string.h>

#include "peerivolt.h"

#ifdef PLAIN_TABLE
#define PLAIN(name) table_##name
#else
#define PLAIN(name) plain_##name
#endif

/* ---- Answers. ---- */

static uint32_t answer(uint64_t *extra, uint32_t refusal, uint64_t first, uint64_t second)
{
    memset(extra, 0, PV_EXTRA_SIZE * sizeof *extra);
    extra[0] = first;
    extra[1] = second;
    return refusal;
}

/* ---- Checksum. ---- */

#ifdef PLAIN_TABLE

static uint32_t crc_table[256];

static void fill_crc_table(void)
{
    for (uint32_t byte = 0; byte < 256; byte++) {
        uint32_t sum = byte << 16;
        for (int bit = 0; bit < 8; bit++)
            sum = sum << 1 ^ (0x1864CFB & (0 - (sum >> 23)));
        crc_table[byte] = sum;
    }
}

uint32_t PLAIN(crc24q)(const uint8_t *bytes, size_t bytes_len)
{
    if (crc_table[1] == 0)
        fill_crc_table();
    uint32_t sum = 0;
    for (size_t i = 0; i < bytes_len; i++)
        sum = (sum << 8 & 0xFFFFFF) ^ crc_table[sum >> 16 ^ bytes[i]];
    return sum;
}

#else

uint32_t PLAIN(crc24q)(const uint8_t *bytes, size_t bytes_len)
{
    uint32_t sum = 0;
    for (size_t i = 0; i < bytes_len; i++) {
        sum ^= (uint32_t)bytes[i] << 16;
        for (int bit = 0; bit < 8; bit++)
            sum = sum << 1 ^ (0x1864CFB & (0 - (sum >> 23)));
    }
    return sum;
}

/* ---- What the limits are measured against. ---- */

size_t plain_find_preamble(const uint8_t *bytes, size_t bytes_len)
{
    size_t i = 0;
    while (i < bytes_len && bytes[i] != 0xD3)
        i++;
    return i;
}

uint32_t plain_empty_call(uint8_t *held, size_t held_len, size_t held_count, uint64_t taken, uint32_t mode,
                          const uint8_t *piece, size_t piece_len, uint8_t *out, size_t out_len, uint64_t *extra,
                          size_t extra_len)
{
    (void)held, (void)held_len, (void)held_count, (void)taken, (void)mode, (void)piece, (void)piece_len;
    (void)out, (void)out_len, (void)extra, (void)extra_len;
    return PV_ACCEPTED;
}

uint32_t plain_cache_lookup(const struct pv_cache_entry *entries, size_t entries_len, uint32_t provider, uint32_t solution,
                            uint32_t satellite, uint32_t signal, uint64_t *extra, size_t extra_len)
{
    if (extra_len != PV_EXTRA_SIZE || entries_len > PV_CACHE_MAX)
        return PV_SIZE;
    memset(extra, 0, PV_EXTRA_SIZE * sizeof *extra);
    if (provider > 65535 || solution > 15 || satellite > 63 || signal > 31)
        return PV_RANGE;
    for (size_t i = 0; i < entries_len; i++) {
        const struct pv_cache_entry *entry = &entries[i];
        if (entry->in_use && entry->provider == provider && entry->solution == solution &&
            entry->satellite == satellite && entry->signal == signal) {
            extra[PV_AT_CACHE_IOD] = entry->iod;
            extra[PV_AT_CACHE_BIAS] = (uint64_t)(int64_t)entry->bias;
            return PV_ACCEPTED;
        }
    }
    return PV_ABSENT;
}

#endif

/* ---- Fields. ---- */

static int fits_in(size_t data_len, size_t start, size_t bits)
{
    return start <= data_len * 8 && bits <= data_len * 8 - start;
}

static uint64_t get_bits(const uint8_t *data, size_t start, size_t width)
{
    const uint8_t *byte = data + start / 8;
    size_t got = 8 - start % 8;
    uint64_t value = *byte++ & 0xFFu >> start % 8;
    if (got >= width)
        return value >> (got - width);
    for (; got + 8 <= width; got += 8)
        value = value << 8 | *byte++;
    size_t rest = width - got;
    return rest == 0 ? value : value << rest | *byte >> (8 - rest);
}

static void put_bits(uint8_t *data, size_t start, size_t width, uint64_t value)
{
    uint8_t *byte = data + start / 8;
    size_t room = 8 - start % 8;
    while (width > 0) {
        size_t now = width < room ? width : room;
        unsigned mask = ((1u << now) - 1) << (room - now);
        unsigned bits = (unsigned)(value >> (width - now)) << (room - now);
        *byte = (uint8_t)((*byte & ~mask) | (bits & mask));
        byte++;
        width -= now;
        room = 8;
    }
}

/* The refusal of a field that does not fit, and how many of its bits are missing. */
static uint32_t cut(uint64_t *extra, size_t data_len, size_t start, size_t width)
{
    return answer(extra, PV_SHORT, start, start >= data_len * 8 ? width : start + width - data_len * 8);
}

uint32_t PLAIN(field_read_unsigned)(const uint8_t *data, size_t data_len, size_t start, size_t width,
                                    uint64_t *extra, size_t extra_len)
{
    if (extra_len != PV_EXTRA_SIZE)
        return PV_SIZE;
    if (data_len > PV_DATA_MAX)
        return answer(extra, PV_SIZE, 0, 0);
    if (width == 0 || width > 64)
        return answer(extra, PV_WIDTH, 0, 0);
    if (!fits_in(data_len, start, width))
        return cut(extra, data_len, start, width);
    return answer(extra, PV_ACCEPTED, get_bits(data, start, width), 0);
}

uint32_t PLAIN(field_write_unsigned)(uint8_t *data, size_t data_len, size_t start, size_t width, uint64_t value,
                                     uint64_t *extra, size_t extra_len)
{
    if (extra_len != PV_EXTRA_SIZE)
        return PV_SIZE;
    if (data_len > PV_DATA_MAX)
        return answer(extra, PV_SIZE, 0, 0);
    if (width == 0 || width > 64)
        return answer(extra, PV_WIDTH, 0, 0);
    if (width < 64 && value >> width != 0)
        return answer(extra, PV_RANGE, 0, 0);
    if (!fits_in(data_len, start, width))
        return answer(extra, PV_ROOM, width, 0);
    put_bits(data, start, width, value);
    return answer(extra, PV_ACCEPTED, start + width, 0);
}

/* ---- One frame. ---- */

static size_t declared_length(const uint8_t *bytes)
{
    return (size_t)(bytes[1] & 3) << 8 | bytes[2];
}

static uint32_t sent_checksum(const uint8_t *end)
{
    return (uint32_t)end[0] << 16 | (uint32_t)end[1] << 8 | end[2];
}

uint32_t PLAIN(frame_check)(const uint8_t *bytes, size_t bytes_len, uint64_t *extra, size_t extra_len)
{
    if (extra_len != PV_EXTRA_SIZE)
        return PV_SIZE;
    if (bytes_len < PV_FRAME_MIN)
        return answer(extra, PV_INCOMPLETE, 0, 0);
    if (bytes[0] != 0xD3)
        return answer(extra, PV_NO_PREAMBLE, 0, 0);
    size_t length = declared_length(bytes);
    if (bytes_len < length + PV_FRAME_MIN)
        return answer(extra, PV_INCOMPLETE, 0, 0);
    uint32_t sum = PLAIN(crc24q)(bytes, length + 3);
    if (sum != sent_checksum(bytes + length + 3))
        return answer(extra, PV_BAD_CHECK, sent_checksum(bytes + length + 3), sum);
    answer(extra, PV_ACCEPTED, length + PV_FRAME_MIN, length);
    if (length >= 2) {
        extra[PV_AT_FRAME_HAS_NUMBER] = 1;
        extra[PV_AT_FRAME_NUMBER] = (uint64_t)bytes[3] << 4 | bytes[4] >> 4;
    }
    extra[PV_AT_FRAME_CHECKSUM] = sum;
    return PV_ACCEPTED;
}

uint32_t PLAIN(frame_write)(const uint8_t *data, size_t data_len, uint8_t *out, size_t out_len,
                            uint64_t *extra, size_t extra_len)
{
    if (extra_len != PV_EXTRA_SIZE)
        return PV_SIZE;
    if (data_len > PV_DATA_MAX)
        return answer(extra, PV_SIZE, 0, 0);
    if (out_len < data_len + PV_FRAME_MIN)
        return answer(extra, PV_ROOM, data_len + PV_FRAME_MIN, 0);
    out[0] = 0xD3;
    out[1] = (uint8_t)(data_len >> 8);
    out[2] = (uint8_t)data_len;
    if (data_len > 0)
        memcpy(out + 3, data, data_len);
    uint32_t sum = PLAIN(crc24q)(out, data_len + 3);
    out[data_len + 3] = (uint8_t)(sum >> 16);
    out[data_len + 4] = (uint8_t)(sum >> 8);
    out[data_len + 5] = (uint8_t)sum;
    return answer(extra, PV_ACCEPTED, data_len + PV_FRAME_MIN, 0);
}

/* ---- Scanning. ---- */

/*
 * One call over the held bytes followed by the piece. While the front lies in the held bytes, what the candidate still
 * needs is joined to them in a window; from there on candidates are judged where they lie in the piece.
 */
struct call {
    uint8_t *held;
    size_t held_count;
    const uint8_t *piece;
    size_t piece_len;
    size_t front; /* Place of the first byte that is neither skipped nor in a frame. */
    size_t seen;  /* Place behind the furthest byte that had to be seen. */
};

static uint32_t fed(const struct call *call, uint64_t *extra, size_t skipped, size_t held_count, size_t frame_len)
{
    memset(extra, 0, PV_EXTRA_SIZE * sizeof *extra);
    extra[PV_AT_FED_IS_FRAME] = frame_len > 0;
    extra[PV_AT_FED_TAKEN] = call->seen - call->held_count;
    extra[PV_AT_FED_SKIPPED] = skipped;
    extra[PV_AT_FED_HELD_COUNT] = held_count;
    extra[PV_AT_FED_FRAME_LENGTH] = frame_len;
    return PV_ACCEPTED;
}

/* Copies n bytes of the held bytes followed by the piece, from a place on. The held bytes may be the target. */
static void copy_from(const struct call *call, size_t place, size_t n, uint8_t *to)
{
    if (place < call->held_count) {
        size_t now = call->held_count - place < n ? call->held_count - place : n;
        if (to != call->held + place)
            memmove(to, call->held + place, now);
        to += now;
        place += now;
        n -= now;
    }
    if (n > 0)
        memcpy(to, call->piece + (place - call->held_count), n);
}

static uint8_t byte_at(const struct call *call, size_t place)
{
    return place < call->held_count ? call->held[place] : call->piece[place - call->held_count];
}

/* Moves the front to the next D3, or to the end. */
static void skip_to_preamble(struct call *call)
{
    while (call->front < call->held_count && call->held[call->front] != 0xD3)
        call->front++;
    if (call->front >= call->held_count) {
        size_t from = call->front - call->held_count;
        const uint8_t *found = from < call->piece_len ? memchr(call->piece + from, 0xD3, call->piece_len - from) : NULL;
        call->front = call->held_count + (found != NULL ? (size_t)(found - call->piece) : call->piece_len);
    }
    if (call->seen < call->front)
        call->seen = call->front;
}

static int checksum_is_right(const struct call *call, size_t frame_len)
{
    uint8_t window[PV_FRAME_MAX];
    const uint8_t *frame = window;
    if (call->front >= call->held_count)
        frame = call->piece + (call->front - call->held_count);
    else if (call->front + frame_len <= call->held_count)
        frame = call->held + call->front;
    else
        copy_from(call, call->front, frame_len, window);
    return PLAIN(crc24q)(frame, frame_len - 3) == sent_checksum(frame + frame_len - 3);
}

/* The length of the next good frame, which then starts at the front; 0 if there is none yet. */
static size_t find_frame(struct call *call)
{
    size_t total = call->held_count + call->piece_len;
    for (;;) {
        skip_to_preamble(call);
        size_t need = PV_FRAME_MIN;
        if (total - call->front >= need)
            need += (size_t)(byte_at(call, call->front + 1) & 3) << 8 | byte_at(call, call->front + 2);
        if (total - call->front < need) {
            call->seen = total;
            return 0;
        }
        if (call->seen < call->front + need)
            call->seen = call->front + need;
        if (checksum_is_right(call, need))
            return need;
        call->front++;
    }
}

/* RTCM alone: a program that is measured against the scanner for RTCM only. */
uint32_t PLAIN(feed)(uint8_t *held, size_t held_len, size_t held_count, uint64_t taken, uint32_t mode,
                     const uint8_t *piece, size_t piece_len, uint8_t *out, size_t out_len, uint64_t *extra,
                     size_t extra_len)
{
    if (extra_len != PV_EXTRA_SIZE || held_len != PV_HELD_SIZE)
        return PV_SIZE;
    if (held_count > PV_HELD_SIZE || held_count > taken || taken > PV_TAKEN_MAX || mode != PV_RTCM_ONLY)
        return answer(extra, PV_STATE, 0, 0);
    if (piece_len > PV_PIECE_MAX || taken + piece_len > PV_TAKEN_MAX)
        return answer(extra, PV_SIZE, 0, 0);
    if (out_len < PV_FRAME_MAX)
        return answer(extra, PV_ROOM, PV_FRAME_MAX, 0);
    struct call call = { held, held_count, piece, piece_len, 0, held_count };
    size_t frame_len = find_frame(&call);
    size_t rest = call.front + frame_len;
    copy_from(&call, call.front, frame_len, out);
    copy_from(&call, rest, call.seen - rest, held);
    fed(&call, extra, call.front, call.seen - rest, frame_len);
    extra[PV_AT_FED_PLACE] = frame_len > 0 ? taken - held_count + call.front : 0;
    extra[PV_AT_FED_ALL_TAKEN] = taken + extra[PV_AT_FED_TAKEN];
    return PV_ACCEPTED;
}

/* ---- The 1059 block. ---- */

/* Moves *place to the first field that does not fit, where the biases from it on do not, and gives the field's width. */
static size_t short_width(size_t data_len, size_t *place)
{
    while (fits_in(data_len, *place, 19))
        *place += 19;
    if (!fits_in(data_len, *place, 5))
        return 5;
    *place += 5;
    return 14;
}

/* Walks over a block. Gives the width of the field that does not fit, with its place in *end; or 0 with the records and
   the bit behind the block. */
static size_t measure_1059(const uint8_t *data, size_t data_len, size_t start, size_t *records, size_t *end)
{
    *end = start;
    *records = 0;
    if (!fits_in(data_len, start, 6))
        return 6;
    size_t satellites = get_bits(data, start, 6);
    *end += 6;
    for (; satellites > 0; satellites--) {
        if (!fits_in(data_len, *end, 6))
            return 6;
        if (!fits_in(data_len, *end, 11)) {
            *end += 6;
            return 5;
        }
        size_t biases = get_bits(data, *end + 6, 5);
        *end += 11;
        if (!fits_in(data_len, *end, 19 * biases))
            return short_width(data_len, end);
        *records += biases;
        *end += 19 * biases;
    }
    return 0;
}

uint32_t PLAIN(1059_read)(const uint8_t *data, size_t data_len, size_t start, uint8_t *satellites,
                          size_t satellites_len, uint8_t *signals, size_t signals_len, int16_t *biases,
                          size_t biases_len, uint64_t *extra, size_t extra_len)
{
    if (extra_len != PV_EXTRA_SIZE)
        return PV_SIZE;
    if (data_len > PV_DATA_MAX || satellites_len != signals_len || satellites_len != biases_len)
        return answer(extra, PV_SIZE, 0, 0);
    size_t records, end;
    size_t width = measure_1059(data, data_len, start, &records, &end);
    if (width != 0)
        return cut(extra, data_len, end, width);
    if (satellites_len < records)
        return answer(extra, PV_ROOM, records, 0);
    size_t place = start + 6;
    for (size_t i = 0; i < records;) {
        uint64_t head = get_bits(data, place, 11);
        place += 11;
        for (size_t left = head & 31; left > 0; left--, i++, place += 19) {
            uint64_t record = get_bits(data, place, 19);
            satellites[i] = (uint8_t)(head >> 5);
            signals[i] = (uint8_t)(record >> 14);
            biases[i] = (int16_t)((int32_t)((uint32_t)record << 18) >> 18);
        }
    }
    return answer(extra, PV_ACCEPTED, records, end);
}

/* Edition 1: signals 0, 1, 2, 5 to 11, 14 and 15. Edition 2: 0 to 15. */
static int is_1059_signal(uint32_t edition, unsigned signal)
{
    return signal < 16 && ((edition == 1 ? 0xCFE7u : 0xFFFFu) >> signal & 1);
}

static uint32_t fault_1059(uint32_t edition, unsigned satellite, unsigned signal, int bias)
{
    if (satellite > 63)
        return PV_SATELLITE;
    if (!is_1059_signal(edition, signal))
        return PV_SIGNAL;
    return bias < -8192 || bias > 8191 ? PV_RANGE : PV_ACCEPTED;
}

/* The satellites of a list: how many records each has, and how many satellites there are. */
struct tally {
    uint16_t of[64];
    size_t different;
};

static int too_many(struct tally *tally)
{
    tally->different = 0;
    for (int satellite = 0; satellite < 64; satellite++) {
        if (tally->of[satellite] > 31)
            return satellite;
        tally->different += tally->of[satellite] > 0;
    }
    return tally->different == 64 ? 64 : -1;
}

/* Writes the records in one pass, each to the place that the records before it leave. */
static void put_1059(uint8_t *data, size_t start, const struct tally *tally, const uint8_t *satellites,
                     const uint8_t *signals, const int16_t *biases, size_t count)
{
    size_t places[64];
    put_bits(data, start, 6, tally->different);
    size_t place = start + 6;
    for (size_t satellite = 0; satellite < 64; satellite++) {
        if (tally->of[satellite] == 0)
            continue;
        put_bits(data, place, 11, satellite << 5 | tally->of[satellite]);
        places[satellite] = place + 11;
        place += 11 + (size_t)19 * tally->of[satellite];
    }
    for (size_t i = 0; i < count; i++) {
        put_bits(data, places[satellites[i]], 19, (uint64_t)signals[i] << 14 | (biases[i] & 0x3FFF));
        places[satellites[i]] += 19;
    }
}

uint32_t PLAIN(1059_write)(uint32_t edition, uint8_t *data, size_t data_len, size_t start, const uint8_t *satellites,
                           size_t satellites_len, const uint8_t *signals, size_t signals_len, const int16_t *biases,
                           size_t biases_len, uint64_t *extra, size_t extra_len)
{
    if (extra_len != PV_EXTRA_SIZE)
        return PV_SIZE;
    if (edition != 1 && edition != 2)
        return answer(extra, PV_KIND, 0, 0);
    size_t count = satellites_len;
    if (data_len > PV_DATA_MAX || count != signals_len || count != biases_len || count > PV_1059_WRITE_MAX)
        return answer(extra, PV_SIZE, 0, 0);
    struct tally tally = { { 0 }, 0 };
    uint32_t seen[64] = { 0 };
    size_t repeat = count;
    for (size_t i = 0; i < count; i++) {
        uint32_t fault = fault_1059(edition, satellites[i], signals[i], biases[i]);
        if (fault != PV_ACCEPTED)
            return answer(extra, fault, i, 0);
        tally.of[satellites[i]]++;
        if (repeat == count && (seen[satellites[i]] >> signals[i] & 1))
            repeat = i;
        seen[satellites[i]] |= 1u << signals[i];
    }
    int over = too_many(&tally);
    if (over >= 0)
        return answer(extra, PV_TOO_MANY, (uint64_t)over, 0);
    if (repeat < count)
        return answer(extra, PV_DUPLICATE, repeat, 0);
    size_t bits = 6 + 11 * tally.different + 19 * count;
    if (!fits_in(data_len, start, bits))
        return answer(extra, PV_ROOM, bits, 0);
    put_1059(data, start, &tally, satellites, signals, biases, count);
    return answer(extra, PV_ACCEPTED, start + bits, 0);
}

/* ---- The 1230 block. ---- */

static const uint8_t mask_signals[4] = { 2, 3, 8, 9 };

uint32_t PLAIN(1230_read)(const uint8_t *data, size_t data_len, size_t start, uint8_t *signals, size_t signals_len,
                          int16_t *biases, size_t biases_len, uint64_t *extra, size_t extra_len)
{
    if (extra_len != PV_EXTRA_SIZE)
        return PV_SIZE;
    if (data_len > PV_DATA_MAX || signals_len != biases_len)
        return answer(extra, PV_SIZE, 0, 0);
    if (!fits_in(data_len, start, 4))
        return cut(extra, data_len, start, 4);
    unsigned mask = (unsigned)get_bits(data, start, 4);
    size_t records = (mask & 1) + (mask >> 1 & 1) + (mask >> 2 & 1) + (mask >> 3);
    size_t place = start + 4;
    for (size_t i = 0; i < records; i++)
        if (!fits_in(data_len, place + 16 * i, 16))
            return cut(extra, data_len, place + 16 * i, 16);
    if (signals_len < records)
        return answer(extra, PV_ROOM, records, 0);
    size_t i = 0;
    for (unsigned m = 0; m < 4; m++) {
        if (!(mask & 8u >> m))
            continue;
        signals[i] = mask_signals[m];
        biases[i++] = (int16_t)get_bits(data, place, 16);
        place += 16;
    }
    return answer(extra, PV_ACCEPTED, records, place);
}

static int mask_place(uint8_t signal)
{
    for (int m = 0; m < 4; m++)
        if (mask_signals[m] == signal)
            return m;
    return -1;
}

uint32_t PLAIN(1230_write)(uint8_t *data, size_t data_len, size_t start, const uint8_t *signals, size_t signals_len,
                           const int16_t *biases, size_t biases_len, uint64_t *extra, size_t extra_len)
{
    if (extra_len != PV_EXTRA_SIZE)
        return PV_SIZE;
    if (data_len > PV_DATA_MAX || signals_len != biases_len || signals_len > PV_1230_MAX)
        return answer(extra, PV_SIZE, 0, 0);
    uint16_t of[4] = { 0, 0, 0, 0 };
    unsigned mask = 0;
    size_t repeat = signals_len;
    for (size_t i = 0; i < signals_len; i++) {
        int m = mask_place(signals[i]);
        if (m < 0)
            return answer(extra, PV_SIGNAL, i, 0);
        if (repeat == signals_len && mask & 8u >> m)
            repeat = i;
        mask |= 8u >> m;
        of[m] = (uint16_t)biases[i];
    }
    if (repeat < signals_len)
        return answer(extra, PV_DUPLICATE, repeat, 0);
    size_t bits = 4 + 16 * signals_len;
    if (!fits_in(data_len, start, bits))
        return answer(extra, PV_ROOM, bits, 0);
    put_bits(data, start, 4, mask);
    size_t place = start + 4;
    for (unsigned m = 0; m < 4; m++) {
        if (!(mask & 8u >> m))
            continue;
        put_bits(data, place, 16, of[m]);
        place += 16;
    }
    return answer(extra, PV_ACCEPTED, start + bits, 0);
}
