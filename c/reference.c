/* The plain reference: see reference.h. Every refusal stands in the order in which the rules name it. */
#include "reference.h"

#include <string.h>

#include "peerivolt.h"
#include "signals.h"

/* ---- Answers. ---- */

static void clear(uint64_t *extra)
{
    for (size_t i = 0; i < PV_EXTRA_SIZE; i++)
        extra[i] = 0;
}

/* A refusal that carries a number, or 0 for nothing. */
static uint32_t refuse(uint64_t *extra, uint32_t number, uint64_t carried)
{
    clear(extra);
    extra[0] = carried;
    return number;
}

/* A refusal that carries two numbers. */
static uint32_t refuse_two(uint64_t *extra, uint32_t number, uint64_t carried, uint64_t carried_too)
{
    refuse(extra, number, carried);
    extra[1] = carried_too;
    return number;
}

/* A field that does not fit: its start, and how many of its bits lie behind the data, or all where it starts there. */
static uint32_t refuse_short(uint64_t *extra, size_t data_len, size_t start, size_t width)
{
    size_t end = data_len * 8;
    return refuse_two(extra, PV_SHORT, start, start >= end ? width : start + width - end);
}

static uint32_t accept_one(uint64_t *extra, uint64_t first)
{
    clear(extra);
    extra[0] = first;
    return PV_ACCEPTED;
}

static uint32_t accept_two(uint64_t *extra, uint64_t first, uint64_t second)
{
    clear(extra);
    extra[0] = first;
    extra[1] = second;
    return PV_ACCEPTED;
}

/* ---- Bits. ---- */

static unsigned bit_at(const uint8_t *data, size_t place)
{
    return data[place / 8] >> (7 - place % 8) & 1;
}

static void set_bit(uint8_t *data, size_t place, unsigned bit)
{
    uint8_t mask = (uint8_t)(0x80 >> place % 8);
    data[place / 8] = (uint8_t)(bit ? data[place / 8] | mask : data[place / 8] & ~mask);
}

static uint64_t get_field(const uint8_t *data, size_t start, size_t width)
{
    uint64_t value = 0;
    for (size_t i = 0; i < width; i++)
        value = value << 1 | bit_at(data, start + i);
    return value;
}

static void put_field(uint8_t *data, size_t start, size_t width, uint64_t value)
{
    for (size_t i = 0; i < width; i++)
        set_bit(data, start + i, value >> (width - 1 - i) & 1);
}

/* Whether `bits` bits from `start` on lie in the data; any start is allowed. */
static int fits_in(size_t data_len, size_t start, size_t bits)
{
    return start <= data_len * 8 && bits <= data_len * 8 - start;
}

/* The number that a field holds in two's complement, as 64 bits. */
static uint64_t as_twos(uint64_t field, size_t width)
{
    int negative = field >> (width - 1) & 1;
    for (size_t i = width; negative && i < 64; i++)
        field |= (uint64_t)1 << i;
    return field;
}

/* The number that a field holds as sign and magnitude, as 64 bits in two's complement. */
static uint64_t as_signmag(uint64_t field, size_t width)
{
    uint64_t sign = (uint64_t)1 << (width - 1);
    return field & sign ? 0 - (field & (sign - 1)) : field;
}

static int fits_unsigned(uint64_t value, size_t width)
{
    return width == 64 || value < (uint64_t)1 << width;
}

static int fits_twos(int64_t value, size_t width)
{
    int64_t limit = width == 64 ? INT64_MAX : ((int64_t)1 << (width - 1)) - 1;
    return -limit - 1 <= value && value <= limit;
}

static int fits_signmag(int64_t value, size_t width)
{
    int64_t limit = width == 64 ? INT64_MAX : ((int64_t)1 << (width - 1)) - 1;
    return -limit <= value && value <= limit;
}

/* ---- Checksum. ---- */

uint32_t ref_crc24q(const uint8_t *bytes, size_t bytes_len)
{
    uint32_t sum = 0;
    for (size_t place = 0; place < bytes_len * 8; place++) {
        unsigned out = (sum >> 23 & 1) ^ bit_at(bytes, place);
        sum = sum << 1 & 0xFFFFFF;
        if (out)
            sum ^= 0x864CFB;
    }
    return sum;
}

/* ---- Fields. ---- */

enum reading { UNSIGNED, TWOS, SIGNMAG };

static uint32_t read_field(enum reading reading, const uint8_t *data, size_t data_len, size_t start, size_t width,
                           uint64_t *extra, size_t extra_len)
{
    if (extra_len != PV_EXTRA_SIZE)
        return PV_SIZE;
    if (data_len > PV_DATA_MAX)
        return refuse(extra, PV_SIZE, 0);
    if (width == 0 || width > 64)
        return refuse(extra, PV_WIDTH, 0);
    if (!fits_in(data_len, start, width))
        return refuse_short(extra, data_len, start, width);
    uint64_t field = get_field(data, start, width);
    if (reading == TWOS)
        field = as_twos(field, width);
    if (reading == SIGNMAG)
        field = as_signmag(field, width);
    return accept_one(extra, field);
}

uint32_t ref_field_read_unsigned(const uint8_t *data, size_t data_len, size_t start, size_t width,
                                 uint64_t *extra, size_t extra_len)
{
    return read_field(UNSIGNED, data, data_len, start, width, extra, extra_len);
}

uint32_t ref_field_read_twos(const uint8_t *data, size_t data_len, size_t start, size_t width,
                             uint64_t *extra, size_t extra_len)
{
    return read_field(TWOS, data, data_len, start, width, extra, extra_len);
}

uint32_t ref_field_read_signmag(const uint8_t *data, size_t data_len, size_t start, size_t width,
                                uint64_t *extra, size_t extra_len)
{
    return read_field(SIGNMAG, data, data_len, start, width, extra, extra_len);
}

static int fits_width(enum reading reading, uint64_t value, size_t width)
{
    if (reading == UNSIGNED)
        return fits_unsigned(value, width);
    if (reading == TWOS)
        return fits_twos((int64_t)value, width);
    return fits_signmag((int64_t)value, width);
}

/* The bits of a number that fits: two's complement as they are, sign and magnitude put together. */
static uint64_t field_of(enum reading reading, uint64_t value, size_t width)
{
    if (reading == SIGNMAG && (int64_t)value < 0)
        return (uint64_t)1 << (width - 1) | (0 - value);
    return value;
}

static uint32_t write_field(enum reading reading, uint8_t *data, size_t data_len, size_t start, size_t width,
                            uint64_t value, uint64_t *extra, size_t extra_len)
{
    if (extra_len != PV_EXTRA_SIZE)
        return PV_SIZE;
    if (data_len > PV_DATA_MAX)
        return refuse(extra, PV_SIZE, 0);
    if (width == 0 || width > 64)
        return refuse(extra, PV_WIDTH, 0);
    if (!fits_width(reading, value, width))
        return refuse(extra, PV_RANGE, 0);
    if (!fits_in(data_len, start, width))
        return refuse(extra, PV_ROOM, width);
    put_field(data, start, width, field_of(reading, value, width));
    return accept_one(extra, start + width);
}

uint32_t ref_field_write_unsigned(uint8_t *data, size_t data_len, size_t start, size_t width, uint64_t value,
                                  uint64_t *extra, size_t extra_len)
{
    return write_field(UNSIGNED, data, data_len, start, width, value, extra, extra_len);
}

uint32_t ref_field_write_twos(uint8_t *data, size_t data_len, size_t start, size_t width, int64_t value,
                              uint64_t *extra, size_t extra_len)
{
    return write_field(TWOS, data, data_len, start, width, (uint64_t)value, extra, extra_len);
}

uint32_t ref_field_write_signmag(uint8_t *data, size_t data_len, size_t start, size_t width, int64_t value,
                                 uint64_t *extra, size_t extra_len)
{
    return write_field(SIGNMAG, data, data_len, start, width, (uint64_t)value, extra, extra_len);
}

/* ---- One frame. ---- */

static size_t declared_length(const uint8_t *bytes)
{
    return (size_t)get_field(bytes, 14, 10);
}

/* 0 and nothing else where the bytes begin with a good frame, else the refusal. */
static uint32_t judge_frame(const uint8_t *bytes, size_t bytes_len)
{
    if (bytes_len < PV_FRAME_MIN)
        return PV_INCOMPLETE;
    if (bytes[0] != 0xD3)
        return PV_NO_PREAMBLE;
    size_t length = declared_length(bytes);
    if (bytes_len < length + PV_FRAME_MIN)
        return PV_INCOMPLETE;
    if (ref_crc24q(bytes, length + 3) != get_field(bytes + length + 3, 0, 24))
        return PV_BAD_CHECK;
    return PV_ACCEPTED;
}

uint32_t ref_frame_check(const uint8_t *bytes, size_t bytes_len, uint64_t *extra, size_t extra_len)
{
    if (extra_len != PV_EXTRA_SIZE)
        return PV_SIZE;
    uint32_t refusal = judge_frame(bytes, bytes_len);
    if (refusal == PV_INCOMPLETE || refusal == PV_NO_PREAMBLE)
        return refuse(extra, refusal, 0);
    size_t length = declared_length(bytes);
    if (refusal == PV_BAD_CHECK)
        return refuse_two(extra, refusal, get_field(bytes + length + 3, 0, 24), ref_crc24q(bytes, length + 3));
    clear(extra);
    extra[PV_AT_FRAME_LENGTH] = length + PV_FRAME_MIN;
    extra[PV_AT_FRAME_DATA_LENGTH] = length;
    extra[PV_AT_FRAME_HAS_NUMBER] = length >= 2;
    extra[PV_AT_FRAME_NUMBER] = length >= 2 ? get_field(bytes, 24, 12) : 0;
    extra[PV_AT_FRAME_CHECKSUM] = ref_crc24q(bytes, length + 3);
    return PV_ACCEPTED;
}

uint32_t ref_frame_write(const uint8_t *data, size_t data_len, uint8_t *out, size_t out_len,
                         uint64_t *extra, size_t extra_len)
{
    if (extra_len != PV_EXTRA_SIZE)
        return PV_SIZE;
    if (data_len > PV_DATA_MAX)
        return refuse(extra, PV_SIZE, 0);
    if (out_len < data_len + PV_FRAME_MIN)
        return refuse(extra, PV_ROOM, data_len + PV_FRAME_MIN);
    out[0] = 0xD3;
    put_field(out, 8, 6, 0);
    put_field(out, 14, 10, data_len);
    for (size_t i = 0; i < data_len; i++)
        out[3 + i] = data[i];
    put_field(out + 3 + data_len, 0, 24, ref_crc24q(out, data_len + 3));
    return accept_one(extra, data_len + PV_FRAME_MIN);
}

/* ---- What was sent against what was received. ---- */

uint32_t ref_differing(const uint8_t *sent, size_t sent_len, const uint8_t *received, size_t received_len,
                       uint64_t *extra, size_t extra_len)
{
    if (extra_len != PV_EXTRA_SIZE)
        return PV_SIZE;
    if (sent_len != received_len)
        return refuse(extra, PV_SIZE, 0);
    size_t first = 0, behind = 0;
    for (size_t i = 0; i < received_len; i++) {
        if (sent[i] == received[i])
            continue;
        if (behind == 0)
            first = i;
        behind = i + 1;
    }
    return accept_two(extra, first, behind - first);
}

/* ---- Settings blocks. ---- */

static int bad_entry(unsigned edition, unsigned number, unsigned priority)
{
    return number > 4095 || (edition == 2 && priority > 7);
}

/* The number and the priority of entry k of a block. */
static unsigned number_at(const uint8_t *block, size_t k)
{
    size_t at = 4 + k * (block[2] == 1 ? 2 : 3);
    return (unsigned)block[at] << 8 | block[at + 1];
}

static unsigned priority_at(const uint8_t *block, size_t k)
{
    return block[2] == 1 ? 0 : block[4 + k * 3 + 2];
}

/* Whether the bytes behind the entries of a block are zeros. */
static int is_filled(const uint8_t *block)
{
    for (size_t i = 4 + block[3] * (block[2] == 1 ? 2u : 3u); i < 509; i++)
        if (block[i] != 0)
            return 0;
    return 1;
}

static uint32_t judge_settings(const uint8_t *block, size_t block_len, uint32_t reader, uint32_t index, uint64_t *extra)
{
    if (block_len != PV_SETTINGS_SIZE)
        return refuse(extra, PV_SIZE, 0);
    uint32_t sent = (uint32_t)get_field(block, 509 * 8, 24), computed = ref_crc24q(block, 509);
    if (sent != computed) {
        refuse(extra, PV_BAD_CHECK, sent);
        extra[1] = computed;
        return PV_BAD_CHECK;
    }
    if (reader < 1 || reader > 2 || block[2] < 1 || block[2] > reader)
        return refuse(extra, PV_KIND, 0);
    if (get_field(block, 0, 16) != index || block[3] > PV_SETTINGS_MAX)
        return refuse(extra, PV_RANGE, 0);
    for (size_t k = 0; k < block[3]; k++)
        if (bad_entry(block[2], number_at(block, k), priority_at(block, k)))
            return refuse(extra, PV_RANGE, k);
    return is_filled(block) ? accept_two(extra, block[3], block[2]) : refuse(extra, PV_RANGE, 0);
}

uint32_t ref_settings_read(const uint8_t *block, size_t block_len, uint32_t reader_edition, uint32_t index,
                           uint16_t *numbers, size_t numbers_len, uint8_t *priorities, size_t priorities_len,
                           uint64_t *extra, size_t extra_len)
{
    if (extra_len != PV_EXTRA_SIZE || numbers_len != PV_SETTINGS_MAX || priorities_len != PV_SETTINGS_MAX)
        return PV_SIZE;
    uint32_t refusal = judge_settings(block, block_len, reader_edition, index, extra);
    for (size_t k = 0; refusal == PV_ACCEPTED && k < block[3]; k++) {
        numbers[k] = (uint16_t)number_at(block, k);
        priorities[k] = (uint8_t)priority_at(block, k);
    }
    return refusal;
}

uint32_t ref_settings_write(uint32_t edition, uint32_t index, const uint16_t *numbers, size_t numbers_len,
                            const uint8_t *priorities, size_t priorities_len, uint8_t *out, size_t out_len,
                            uint64_t *extra, size_t extra_len)
{
    if (extra_len != PV_EXTRA_SIZE)
        return PV_SIZE;
    if (edition != 1 && edition != 2)
        return refuse(extra, PV_KIND, 0);
    if (numbers_len != priorities_len || numbers_len > PV_SETTINGS_MAX)
        return refuse(extra, PV_SIZE, 0);
    if (index > 65535)
        return refuse(extra, PV_RANGE, 0);
    for (size_t k = 0; k < numbers_len; k++)
        if (bad_entry(edition, numbers[k], priorities[k]))
            return refuse(extra, PV_RANGE, k);
    if (out_len < PV_SETTINGS_SIZE)
        return refuse(extra, PV_ROOM, PV_SETTINGS_SIZE);
    size_t at = 4;
    memset(out, 0, PV_SETTINGS_SIZE);
    put_field(out, 0, 16, index);
    out[2] = (uint8_t)edition;
    out[3] = (uint8_t)numbers_len;
    for (size_t k = 0; k < numbers_len; k++) {
        put_field(out, at * 8, 16, numbers[k]);
        if (edition == 2)
            out[at + 2] = priorities[k];
        at += edition == 1 ? 2 : 3;
    }
    put_field(out, 509 * 8, 24, ref_crc24q(out, 509));
    return accept_one(extra, PV_SETTINGS_SIZE);
}

/* ---- The bias cache. ---- */

static int key_fits(uint32_t provider, uint32_t solution, uint32_t satellite, uint32_t signal)
{
    return provider < 65536 && solution < 16 && satellite < 64 && signal < 32;
}

/* The first entry with the key, or the number of entries. */
static size_t place_of(const struct pv_cache_entry *entries, size_t n, uint32_t provider, uint32_t solution,
                       uint32_t satellite, uint32_t signal)
{
    for (size_t i = 0; i < n; i++)
        if (entries[i].in_use != 0 && entries[i].provider == provider && entries[i].solution == solution &&
            entries[i].satellite == satellite && entries[i].signal == signal)
            return i;
    return n;
}

uint32_t ref_cache_store(struct pv_cache_entry *entries, size_t entries_len, uint32_t provider, uint32_t solution,
                         uint32_t satellite, uint32_t signal, uint32_t iod, int32_t bias,
                         uint64_t *extra, size_t extra_len)
{
    if (extra_len != PV_EXTRA_SIZE)
        return PV_SIZE;
    if (entries_len > PV_CACHE_MAX)
        return refuse(extra, PV_SIZE, 0);
    if (!key_fits(provider, solution, satellite, signal) || iod > 15 || bias < -8192 || bias > 8191)
        return refuse(extra, PV_RANGE, 0);
    size_t at = place_of(entries, entries_len, provider, solution, satellite, signal);
    for (size_t i = 0; at == entries_len && i < entries_len; i++)
        if (entries[i].in_use == 0)
            at = i;
    if (at == entries_len)
        return refuse(extra, PV_FULL, 0);
    entries[at] = (struct pv_cache_entry){ 1,
                                           (uint16_t)provider,
                                           (uint16_t)solution,
                                           (uint16_t)satellite,
                                           (uint16_t)signal,
                                           (uint16_t)iod,
                                           (int16_t)bias };
    clear(extra);
    return PV_ACCEPTED;
}

/* Where the entry of a key stands, or why there is none. */
static uint32_t find(const struct pv_cache_entry *entries, size_t entries_len, uint32_t provider, uint32_t solution,
                     uint32_t satellite, uint32_t signal, uint64_t *extra, size_t extra_len, size_t *at)
{
    if (extra_len != PV_EXTRA_SIZE)
        return PV_SIZE;
    if (entries_len > PV_CACHE_MAX)
        return refuse(extra, PV_SIZE, 0);
    if (!key_fits(provider, solution, satellite, signal))
        return refuse(extra, PV_RANGE, 0);
    *at = place_of(entries, entries_len, provider, solution, satellite, signal);
    if (*at == entries_len)
        return refuse(extra, PV_ABSENT, 0);
    return PV_ACCEPTED;
}

uint32_t ref_cache_remove(struct pv_cache_entry *entries, size_t entries_len, uint32_t provider, uint32_t solution,
                          uint32_t satellite, uint32_t signal, uint64_t *extra, size_t extra_len)
{
    size_t at = 0;
    uint32_t answer = find(entries, entries_len, provider, solution, satellite, signal, extra, extra_len, &at);
    if (answer != PV_ACCEPTED)
        return answer;
    memset(&entries[at], 0, sizeof entries[at]);
    clear(extra);
    return PV_ACCEPTED;
}

uint32_t ref_cache_lookup(const struct pv_cache_entry *entries, size_t entries_len, uint32_t provider, uint32_t solution,
                          uint32_t satellite, uint32_t signal, uint64_t *extra, size_t extra_len)
{
    size_t at = 0;
    uint32_t answer = find(entries, entries_len, provider, solution, satellite, signal, extra, extra_len, &at);
    if (answer != PV_ACCEPTED)
        return answer;
    return accept_two(extra, entries[at].iod, (uint64_t)(int64_t)entries[at].bias);
}

/* ---- Scanning. ---- */

/* The UBX frame that the bytes begin with: 0, PV_BAD_CHECK or PV_INCOMPLETE, by the public description. */
static uint32_t judge_ubx(const uint8_t *bytes, size_t bytes_len)
{
    if (bytes_len < 2)
        return PV_INCOMPLETE;
    if (bytes[1] != 0x62)
        return PV_BAD_CHECK;
    if (bytes_len < 6)
        return PV_INCOMPLETE;
    size_t payload = bytes[4] + 256 * (size_t)bytes[5];
    if (payload > PV_UBX_PAYLOAD_MAX)
        return PV_BAD_CHECK;
    if (bytes_len < payload + 8)
        return PV_INCOMPLETE;
    unsigned a = 0, b = 0;
    for (size_t i = 0; i < payload + 4; i++) {
        a = (a + bytes[2 + i]) % 256;
        b = (b + a) % 256;
    }
    return a == bytes[payload + 6] && b == bytes[payload + 7] ? PV_ACCEPTED : PV_BAD_CHECK;
}

/* What the first byte starts in a mode: a frame (then its length), another refusal, or PV_INCOMPLETE. */
static uint32_t judge_front(uint32_t mode, const uint8_t *bytes, size_t bytes_len, size_t *frame_len)
{
    uint32_t refusal = PV_NO_PREAMBLE;
    if (bytes[0] == 0xD3) {
        refusal = judge_frame(bytes, bytes_len);
        if (refusal == PV_ACCEPTED)
            *frame_len = declared_length(bytes) + PV_FRAME_MIN;
    } else if (bytes[0] == 0xB5 && mode == PV_RTCM_AND_UBX) {
        refusal = judge_ubx(bytes, bytes_len);
        if (refusal == PV_ACCEPTED)
            *frame_len = bytes[4] + 256 * (size_t)bytes[5] + 8;
    }
    return refusal;
}

enum ref_fate ref_scan(uint32_t mode, const uint8_t *stream, size_t stream_len, size_t place, size_t *frame_len)
{
    if (place >= stream_len)
        return REF_HELD;
    uint32_t refusal = judge_front(mode, stream + place, stream_len - place, frame_len);
    return refusal == PV_ACCEPTED ? REF_FRAME : refusal == PV_INCOMPLETE ? REF_HELD : REF_SKIPPED;
}

uint32_t ref_why(const uint8_t *recording, size_t recording_len, size_t place, uint64_t *extra, size_t extra_len)
{
    if (extra_len != PV_EXTRA_SIZE)
        return PV_SIZE;
    if (recording_len > PV_PIECE_MAX || place >= recording_len)
        return refuse(extra, PV_SIZE, 0);
    size_t at = 0, frame_len = 0;
    enum ref_fate fate = ref_scan(0, recording, recording_len, at, &frame_len);
    while (fate != REF_HELD && at + (fate == REF_FRAME ? frame_len : 1) <= place) {
        at += fate == REF_FRAME ? frame_len : 1;
        fate = ref_scan(0, recording, recording_len, at, &frame_len);
    }
    clear(extra);
    extra[PV_AT_WHY_PLACE] = at;
    if (fate == REF_FRAME) {
        extra[PV_AT_WHY] = PV_WHY_FRAME;
        extra[PV_AT_WHY_LENGTH] = frame_len;
    } else if (fate == REF_HELD) {
        extra[PV_AT_WHY] = PV_WHY_HELD;
        extra[PV_AT_WHY_LENGTH] = recording_len - at;
    } else if (recording[at] != 0xD3) {
        extra[PV_AT_WHY] = PV_WHY_NOT_D3;
    } else {
        size_t length = declared_length(recording + at);
        extra[PV_AT_WHY] = PV_WHY_BAD_CHECK;
        extra[PV_AT_WHY_SENT] = get_field(recording + at + length + 3, 0, 24);
        extra[PV_AT_WHY_COMPUTED] = ref_crc24q(recording + at, length + 3);
    }
    return PV_ACCEPTED;
}

/* The held bytes while a call runs. */
struct holding {
    uint8_t bytes[PV_HELD_SIZE];
    size_t count;
};

static void remove_front(struct holding *holding, size_t n)
{
    holding->count -= n;
    memmove(holding->bytes, holding->bytes + n, holding->count);
}

/* What one call does. */
struct ref_call {
    size_t taken, skipped, frame_len;
};

/* The call itself, worded as the rules word it. Leaves a frame length of 0 for More. */
static void feed_bytes(uint32_t mode, struct holding *holding, const uint8_t *piece, size_t piece_len, uint8_t *out,
                       struct ref_call *call)
{
    for (;;) {
        uint32_t refusal = PV_INCOMPLETE;
        if (holding->count > 0)
            refusal = judge_front(mode, holding->bytes, holding->count, &call->frame_len);
        if (refusal == PV_ACCEPTED)
            break;
        if (refusal == PV_INCOMPLETE) {
            if (call->taken == piece_len)
                return;
            holding->bytes[holding->count++] = piece[call->taken++];
        } else {
            remove_front(holding, 1);
            call->skipped += 1;
        }
    }
    memcpy(out, holding->bytes, call->frame_len);
    remove_front(holding, call->frame_len);
}

uint32_t ref_feed(uint8_t *held, size_t held_len, size_t held_count, uint64_t taken, uint32_t mode,
                  const uint8_t *piece, size_t piece_len, uint8_t *out, size_t out_len,
                  uint64_t *extra, size_t extra_len)
{
    if (extra_len != PV_EXTRA_SIZE)
        return PV_SIZE;
    if (held_len != PV_HELD_SIZE)
        return PV_SIZE;
    if (held_count > PV_HELD_SIZE || held_count > taken || taken > PV_TAKEN_MAX || mode > PV_RTCM_AND_UBX)
        return refuse(extra, PV_STATE, 0);
    if (piece_len > PV_PIECE_MAX || taken + piece_len > PV_TAKEN_MAX)
        return refuse(extra, PV_SIZE, 0);
    if (out_len < PV_FRAME_MAX)
        return refuse(extra, PV_ROOM, PV_FRAME_MAX);
    struct holding holding;
    struct ref_call call = { 0, 0, 0 };
    memcpy(holding.bytes, held, held_count);
    holding.count = held_count;
    feed_bytes(mode, &holding, piece, piece_len, out, &call);
    memcpy(held, holding.bytes, holding.count);
    clear(extra);
    extra[PV_AT_FED_TAKEN] = call.taken;
    extra[PV_AT_FED_SKIPPED] = call.skipped;
    extra[PV_AT_FED_HELD_COUNT] = holding.count;
    extra[PV_AT_FED_ALL_TAKEN] = taken + call.taken;
    if (call.frame_len == 0)
        return PV_ACCEPTED;
    extra[PV_AT_FED_IS_FRAME] = PV_FRAME;
    extra[PV_AT_FED_FRAME_LENGTH] = call.frame_len;
    extra[PV_AT_FED_PLACE] = taken - held_count + call.skipped;
    extra[PV_AT_FED_KIND] = out[0] == 0xB5 ? PV_UBX : PV_RTCM;
    return PV_ACCEPTED;
}

/* The frames of the held bytes and the piece, copied together, place by place. */
uint32_t ref_feed_all(uint8_t *held, size_t held_len, size_t held_count, uint64_t taken, uint32_t mode,
                      const uint8_t *piece, size_t piece_len, uint8_t *seam, size_t seam_len,
                      uint32_t *starts, size_t starts_len, uint32_t *lengths, size_t lengths_len,
                      uint8_t *kinds, size_t kinds_len, uint64_t *extra, size_t extra_len)
{
    static uint8_t joined[PV_HELD_SIZE + PV_PIECE_MAX];
    if (extra_len != PV_EXTRA_SIZE || held_len != PV_HELD_SIZE || seam_len != PV_SEAM_SIZE)
        return PV_SIZE;
    if (held_count > PV_HELD_SIZE || held_count > taken || taken > PV_TAKEN_MAX || mode > PV_RTCM_AND_UBX)
        return refuse(extra, PV_STATE, 0);
    if (piece_len > PV_PIECE_MAX || taken + piece_len > PV_TAKEN_MAX || lengths_len != starts_len || kinds_len != starts_len)
        return refuse(extra, PV_SIZE, 0);
    if (starts_len == 0)
        return refuse(extra, PV_ROOM, 1);
    memcpy(joined, held, held_count);
    if (piece_len > 0)
        memcpy(joined + held_count, piece, piece_len);
    size_t all = held_count + piece_len, at = 0, count = 0, skipped = 0, frame_len = 0;
    enum ref_fate fate = REF_SKIPPED;
    while (count < starts_len && (fate = ref_scan(mode, joined, all, at, &frame_len)) != REF_HELD) {
        if (fate == REF_SKIPPED) {
            at++;
            skipped++;
            continue;
        }
        if (at < held_count)
            memcpy(seam + at, joined + at, frame_len);
        starts[count] = (uint32_t)at;
        lengths[count] = (uint32_t)frame_len;
        kinds[count] = joined[at] == 0xB5 ? PV_UBX : PV_RTCM;
        at += frame_len;
        count++;
    }
    int full = count == starts_len;
    size_t seen = !full ? all : at < held_count ? held_count : at;
    memcpy(held, joined + at, seen - at);
    clear(extra);
    extra[PV_AT_ALL_COUNT] = count;
    extra[PV_AT_ALL_TAKEN] = seen - held_count;
    extra[PV_AT_ALL_SKIPPED] = skipped;
    extra[PV_AT_ALL_HELD_COUNT] = seen - at;
    extra[PV_AT_ALL_FULL] = (uint64_t)full;
    extra[PV_AT_ALL_PLACE] = taken - held_count;
    extra[PV_AT_ALL_ALL_TAKEN] = taken + seen - held_count;
    return PV_ACCEPTED;
}

/* A byte at the front that starts no whole good frame is given up, whatever it waits for. */
uint32_t ref_close(uint8_t *held, size_t held_len, size_t held_count, uint64_t taken, uint32_t mode,
                   uint8_t *out, size_t out_len, uint64_t *extra, size_t extra_len)
{
    if (extra_len != PV_EXTRA_SIZE || held_len != PV_HELD_SIZE)
        return PV_SIZE;
    if (held_count > PV_HELD_SIZE || held_count > taken || taken > PV_TAKEN_MAX || mode > PV_RTCM_AND_UBX)
        return refuse(extra, PV_STATE, 0);
    if (out_len < PV_FRAME_MAX)
        return refuse(extra, PV_ROOM, PV_FRAME_MAX);
    size_t at = 0, frame_len = 0;
    while (at < held_count && judge_front(mode, held + at, held_count - at, &frame_len) != PV_ACCEPTED)
        at++;
    clear(extra);
    extra[PV_AT_FED_SKIPPED] = at;
    if (at == held_count)
        return PV_ACCEPTED;
    memcpy(out, held + at, frame_len);
    memmove(held, held + at + frame_len, held_count - at - frame_len);
    extra[PV_AT_FED_IS_FRAME] = PV_FRAME;
    extra[PV_AT_FED_HELD_COUNT] = held_count - at - frame_len;
    extra[PV_AT_FED_FRAME_LENGTH] = frame_len;
    extra[PV_AT_FED_PLACE] = taken - held_count + at;
    extra[PV_AT_FED_ALL_TAKEN] = taken;
    extra[PV_AT_FED_KIND] = out[0] == 0xB5 ? PV_UBX : PV_RTCM;
    return PV_ACCEPTED;
}

/* ---- Reading of blocks, field after field. ---- */

struct cursor {
    const uint8_t *data;
    size_t data_len;
    size_t place;
    int is_short; /* Once set, `place` is where the field that did not fit starts, */
    size_t width; /* and `width` is how many bits it has. */
};

static uint64_t next_field(struct cursor *cursor, size_t width)
{
    if (cursor->is_short)
        return 0;
    if (!fits_in(cursor->data_len, cursor->place, width)) {
        cursor->is_short = 1;
        cursor->width = width;
        return 0;
    }
    uint64_t value = get_field(cursor->data, cursor->place, width);
    cursor->place += width;
    return value;
}

/* The records of a block before they are handed out: a block has at most 422. */
struct records {
    size_t count;
    uint8_t satellites[PV_1059_READ_MAX];
    uint8_t signals[PV_1059_READ_MAX];
    int16_t biases[PV_1059_READ_MAX];
};

static void add_record(struct records *records, uint64_t satellite, uint64_t signal, uint64_t bias)
{
    records->satellites[records->count] = (uint8_t)satellite;
    records->signals[records->count] = (uint8_t)signal;
    records->biases[records->count] = (int16_t)(int64_t)bias;
    records->count += 1;
}

static void read_satellite(struct cursor *cursor, struct records *records)
{
    uint64_t satellite = next_field(cursor, 6);
    uint64_t biases = next_field(cursor, 5);
    for (uint64_t i = 0; i < biases && !cursor->is_short; i++) {
        uint64_t signal = next_field(cursor, 5);
        uint64_t bias = next_field(cursor, 14);
        if (!cursor->is_short)
            add_record(records, satellite, signal, as_twos(bias, 14));
    }
}

uint32_t ref_1059_read(const uint8_t *data, size_t data_len, size_t start, uint8_t *satellites, size_t satellites_len,
                       uint8_t *signals, size_t signals_len, int16_t *biases, size_t biases_len,
                       uint64_t *extra, size_t extra_len)
{
    if (extra_len != PV_EXTRA_SIZE)
        return PV_SIZE;
    if (data_len > PV_DATA_MAX || satellites_len != signals_len || satellites_len != biases_len)
        return refuse(extra, PV_SIZE, 0);
    struct cursor cursor = { data, data_len, start, 0, 0 };
    struct records records = { .count = 0 };
    uint64_t satellite_count = next_field(&cursor, 6);
    for (uint64_t i = 0; i < satellite_count && !cursor.is_short; i++)
        read_satellite(&cursor, &records);
    if (cursor.is_short)
        return refuse_short(extra, data_len, cursor.place, cursor.width);
    if (satellites_len < records.count)
        return refuse(extra, PV_ROOM, records.count);
    for (size_t i = 0; i < records.count; i++) {
        satellites[i] = records.satellites[i];
        signals[i] = records.signals[i];
        biases[i] = records.biases[i];
    }
    return accept_two(extra, records.count, cursor.place);
}

uint32_t ref_1230_read(const uint8_t *data, size_t data_len, size_t start, uint8_t *signals, size_t signals_len,
                       int16_t *biases, size_t biases_len, uint64_t *extra, size_t extra_len)
{
    if (extra_len != PV_EXTRA_SIZE)
        return PV_SIZE;
    if (data_len > PV_DATA_MAX || signals_len != biases_len)
        return refuse(extra, PV_SIZE, 0);
    struct cursor cursor = { data, data_len, start, 0, 0 };
    struct records records = { .count = 0 };
    uint64_t mask = next_field(&cursor, 4);
    for (size_t i = 0; i < 4 && !cursor.is_short; i++) {
        if (!(mask >> (3 - i) & 1))
            continue;
        uint64_t bias = next_field(&cursor, 16);
        if (!cursor.is_short)
            add_record(&records, 0, signals_1230[i], as_twos(bias, 16));
    }
    if (cursor.is_short)
        return refuse_short(extra, data_len, cursor.place, cursor.width);
    if (signals_len < records.count)
        return refuse(extra, PV_ROOM, records.count);
    for (size_t i = 0; i < records.count; i++) {
        signals[i] = records.signals[i];
        biases[i] = records.biases[i];
    }
    return accept_two(extra, records.count, cursor.place);
}

/* ---- Writing of blocks. ---- */

static int is_edition(uint32_t edition)
{
    return edition == 1 || edition == 2;
}

static const struct signal *by_number_in(struct table table, uint32_t number)
{
    for (size_t i = 0; i < table.count; i++)
        if (table.entries[i].number == number)
            return table.entries + i;
    return NULL;
}

static uint32_t fault_of_1059(uint32_t edition, uint8_t satellite, uint8_t signal, int16_t bias)
{
    if (satellite > 63)
        return PV_SATELLITE;
    if (by_number_in(editions_1059[edition], signal) == NULL)
        return PV_SIGNAL;
    if (!fits_twos(bias, 14))
        return PV_RANGE;
    return PV_ACCEPTED;
}

static size_t count_of(const uint8_t *list, size_t list_len, unsigned number)
{
    size_t count = 0;
    for (size_t i = 0; i < list_len; i++)
        count += list[i] == number;
    return count;
}

static size_t different_satellites(const uint8_t *satellites, size_t satellites_len)
{
    size_t different = 0;
    for (unsigned satellite = 0; satellite < 64; satellite++)
        different += count_of(satellites, satellites_len, satellite) > 0;
    return different;
}

/* The lowest satellite with over 31 biases; else 64 if there are 64 different satellites; else -1. */
static int too_many(const uint8_t *satellites, size_t satellites_len)
{
    for (unsigned satellite = 0; satellite < 64; satellite++)
        if (count_of(satellites, satellites_len, satellite) > 31)
            return (int)satellite;
    return different_satellites(satellites, satellites_len) == 64 ? 64 : -1;
}

static size_t put_satellite(uint8_t *data, size_t place, unsigned satellite, const uint8_t *satellites,
                            const uint8_t *signals, const int16_t *biases, size_t count)
{
    put_field(data, place, 6, satellite);
    put_field(data, place + 6, 5, count_of(satellites, count, satellite));
    place += 11;
    for (size_t i = 0; i < count; i++) {
        if (satellites[i] != satellite)
            continue;
        put_field(data, place, 5, signals[i]);
        put_field(data, place + 5, 14, (uint64_t)biases[i]);
        place += 19;
    }
    return place;
}

uint32_t ref_1059_write(uint32_t edition, uint8_t *data, size_t data_len, size_t start, const uint8_t *satellites,
                        size_t satellites_len, const uint8_t *signals, size_t signals_len, const int16_t *biases,
                        size_t biases_len, uint64_t *extra, size_t extra_len)
{
    if (extra_len != PV_EXTRA_SIZE)
        return PV_SIZE;
    if (!is_edition(edition))
        return refuse(extra, PV_KIND, 0);
    size_t count = satellites_len;
    if (data_len > PV_DATA_MAX || count != signals_len || count != biases_len || count > PV_1059_WRITE_MAX)
        return refuse(extra, PV_SIZE, 0);
    for (size_t i = 0; i < count; i++) {
        uint32_t fault = fault_of_1059(edition, satellites[i], signals[i], biases[i]);
        if (fault != PV_ACCEPTED)
            return refuse(extra, fault, i);
    }
    int over = too_many(satellites, count);
    if (over >= 0)
        return refuse(extra, PV_TOO_MANY, (uint64_t)over);
    for (size_t i = 0; i < count; i++)
        for (size_t j = 0; j < i; j++)
            if (satellites[j] == satellites[i] && signals[j] == signals[i])
                return refuse(extra, PV_DUPLICATE, i);
    size_t different = different_satellites(satellites, count);
    size_t bits = 6 + 11 * different + 19 * count;
    if (!fits_in(data_len, start, bits))
        return refuse(extra, PV_ROOM, bits);
    put_field(data, start, 6, different);
    size_t place = start + 6;
    for (unsigned satellite = 0; satellite < 64; satellite++)
        if (count_of(satellites, count, satellite) > 0)
            place = put_satellite(data, place, satellite, satellites, signals, biases, count);
    return accept_one(extra, place);
}

static int is_1230_signal(uint8_t signal)
{
    return count_of(signals_1230, 4, signal) > 0;
}

uint32_t ref_1230_write(uint8_t *data, size_t data_len, size_t start, const uint8_t *signals, size_t signals_len,
                        const int16_t *biases, size_t biases_len, uint64_t *extra, size_t extra_len)
{
    if (extra_len != PV_EXTRA_SIZE)
        return PV_SIZE;
    if (data_len > PV_DATA_MAX || signals_len != biases_len || signals_len > PV_1230_MAX)
        return refuse(extra, PV_SIZE, 0);
    for (size_t i = 0; i < signals_len; i++)
        if (!is_1230_signal(signals[i]))
            return refuse(extra, PV_SIGNAL, i);
    for (size_t i = 0; i < signals_len; i++)
        if (count_of(signals, i, signals[i]) > 0)
            return refuse(extra, PV_DUPLICATE, i);
    size_t bits = 4 + 16 * signals_len;
    if (!fits_in(data_len, start, bits))
        return refuse(extra, PV_ROOM, bits);
    size_t place = start + 4;
    for (size_t m = 0; m < 4; m++) {
        set_bit(data, start + m, count_of(signals, signals_len, signals_1230[m]) > 0);
        for (size_t i = 0; i < signals_len; i++) {
            if (signals[i] != signals_1230[m])
                continue;
            put_field(data, place, 16, (uint64_t)biases[i]);
            place += 16;
        }
    }
    return accept_one(extra, place);
}

/* ---- Whole messages: a front of numbers, and the block behind it. ---- */

/* The numbers before the block, and how many bits each has; the first is the message number. */
struct front {
    size_t count;
    size_t widths[7];
    uint64_t numbers[7];
};

/* Reads the front of the message whose number stands in it; 0, or a refusal. */
static uint32_t read_front(const uint8_t *data, size_t data_len, struct front *front, uint64_t *extra)
{
    struct cursor cursor = { data, data_len, 0, 0, 0 };
    for (size_t k = 0; k < front->count; k++) {
        uint64_t number = next_field(&cursor, front->widths[k]);
        if (cursor.is_short)
            return refuse_short(extra, data_len, cursor.place, cursor.width);
        if (k == 0 && number != front->numbers[0])
            return refuse(extra, PV_KIND, 0);
        front->numbers[k] = number;
    }
    return PV_ACCEPTED;
}

static int front_fits(const struct front *front)
{
    for (size_t k = 0; k < front->count; k++)
        if (!fits_unsigned(front->numbers[k], front->widths[k]))
            return 0;
    return 1;
}

/* Finishes an answer of the block's writer: the front goes before the block, or into what Room carries. */
static uint32_t finish_front(uint8_t *data, const struct front *front, uint32_t refusal, uint64_t *extra)
{
    size_t place = 0;
    for (size_t k = 0; k < front->count; place += front->widths[k++])
        if (refusal == PV_ACCEPTED)
            put_field(data, place, front->widths[k], front->numbers[k]);
    if (refusal == PV_ROOM)
        extra[PV_AT_CARRIED] += place;
    return refusal;
}

/* The header's numbers behind the count and the end bit. */
static uint32_t tell_front(const struct front *front, uint32_t refusal, uint64_t *extra)
{
    for (size_t k = 1; k < front->count && refusal == PV_ACCEPTED; k++)
        extra[1 + k] = front->numbers[k];
    return refusal;
}

uint32_t ref_1059_message_read(const uint8_t *data, size_t data_len, uint8_t *satellites, size_t satellites_len,
                               uint8_t *signals, size_t signals_len, int16_t *biases, size_t biases_len,
                               uint64_t *extra, size_t extra_len)
{
    struct front front = { 7, { 12, 20, 4, 1, 4, 16, 4 }, { 1059 } };
    if (extra_len != PV_EXTRA_SIZE)
        return PV_SIZE;
    if (data_len > PV_DATA_MAX || satellites_len != signals_len || satellites_len != biases_len)
        return refuse(extra, PV_SIZE, 0);
    uint32_t refusal = read_front(data, data_len, &front, extra);
    if (refusal != PV_ACCEPTED)
        return refusal;
    return tell_front(&front, ref_1059_read(data, data_len, 61, satellites, satellites_len, signals, signals_len, biases,
                                            biases_len, extra, extra_len),
                      extra);
}

uint32_t ref_1059_message_write(uint32_t edition, uint8_t *data, size_t data_len, uint32_t epoch, uint32_t interval,
                                uint32_t multiple, uint32_t iod, uint32_t provider, uint32_t solution,
                                const uint8_t *satellites, size_t satellites_len, const uint8_t *signals,
                                size_t signals_len, const int16_t *biases, size_t biases_len,
                                uint64_t *extra, size_t extra_len)
{
    const struct front front = { 7,
                                 { 12, 20, 4, 1, 4, 16, 4 },
                                 { 1059, epoch, interval, multiple, iod, provider, solution } };
    if (extra_len != PV_EXTRA_SIZE)
        return PV_SIZE;
    if (!is_edition(edition))
        return refuse(extra, PV_KIND, 0);
    size_t count = satellites_len;
    if (data_len > PV_DATA_MAX || count != signals_len || count != biases_len || count > PV_1059_WRITE_MAX)
        return refuse(extra, PV_SIZE, 0);
    if (!front_fits(&front))
        return refuse(extra, PV_RANGE, 0);
    return finish_front(data, &front, ref_1059_write(edition, data, data_len, 61, satellites, satellites_len, signals,
                                                     signals_len, biases, biases_len, extra, extra_len),
                        extra);
}

uint32_t ref_1230_message_read(const uint8_t *data, size_t data_len, uint8_t *signals, size_t signals_len,
                               int16_t *biases, size_t biases_len, uint64_t *extra, size_t extra_len)
{
    struct front front = { 4, { 12, 12, 1, 3 }, { 1230 } };
    if (extra_len != PV_EXTRA_SIZE)
        return PV_SIZE;
    if (data_len > PV_DATA_MAX || signals_len != biases_len)
        return refuse(extra, PV_SIZE, 0);
    uint32_t refusal = read_front(data, data_len, &front, extra);
    if (refusal != PV_ACCEPTED)
        return refusal;
    return tell_front(&front, ref_1230_read(data, data_len, 28, signals, signals_len, biases, biases_len, extra, extra_len),
                      extra);
}

uint32_t ref_1230_message_write(uint8_t *data, size_t data_len, uint32_t station, uint32_t indicator, uint32_t reserved,
                                const uint8_t *signals, size_t signals_len, const int16_t *biases, size_t biases_len,
                                uint64_t *extra, size_t extra_len)
{
    const struct front front = { 4, { 12, 12, 1, 3 }, { 1230, station, indicator, reserved } };
    if (extra_len != PV_EXTRA_SIZE)
        return PV_SIZE;
    if (data_len > PV_DATA_MAX || signals_len != biases_len || signals_len > PV_1230_MAX)
        return refuse(extra, PV_SIZE, 0);
    if (!front_fits(&front))
        return refuse(extra, PV_RANGE, 0);
    return finish_front(data, &front, ref_1230_write(data, data_len, 28, signals, signals_len, biases, biases_len, extra,
                                                     extra_len),
                        extra);
}

/* ---- Metres. ---- */

float ref_1059_metres(int16_t raw)
{
    return (float)raw * 0.01f;
}

float ref_1230_metres(int16_t raw)
{
    return (float)raw * 0.02f;
}

/* ---- Message 1001. ---- */

uint32_t ref_1001_read(const uint8_t *data, size_t data_len, uint8_t *satellites, size_t satellites_len, uint8_t *codes,
                       size_t codes_len, uint32_t *pseudoranges, size_t pseudoranges_len, int32_t *phases,
                       size_t phases_len, uint8_t *locks, size_t locks_len, uint64_t *extra, size_t extra_len)
{
    if (extra_len != PV_EXTRA_SIZE)
        return PV_SIZE;
    if (data_len > PV_DATA_MAX || satellites_len != codes_len || satellites_len != pseudoranges_len ||
        satellites_len != phases_len || satellites_len != locks_len)
        return refuse(extra, PV_SIZE, 0);
    struct cursor cursor = { data, data_len, 0, 0, 0 };
    uint64_t number = next_field(&cursor, 12);
    if (cursor.is_short)
        return refuse_short(extra, data_len, cursor.place, cursor.width);
    if (number != 1001)
        return refuse(extra, PV_KIND, 0);
    uint64_t station = next_field(&cursor, 12), epoch = next_field(&cursor, 30), synchronous = next_field(&cursor, 1);
    uint64_t count = next_field(&cursor, 5), smoothing = next_field(&cursor, 1), interval = next_field(&cursor, 3);
    uint64_t rows[31][5];
    for (size_t i = 0; i < count && !cursor.is_short; i++) {
        rows[i][0] = next_field(&cursor, 6);
        rows[i][1] = next_field(&cursor, 1);
        rows[i][2] = next_field(&cursor, 24);
        rows[i][3] = as_twos(next_field(&cursor, 20), 20);
        rows[i][4] = next_field(&cursor, 7);
    }
    if (cursor.is_short)
        return refuse_short(extra, data_len, cursor.place, cursor.width);
    if (satellites_len < count)
        return refuse(extra, PV_ROOM, count);
    for (size_t i = 0; i < count; i++) {
        satellites[i] = (uint8_t)rows[i][0];
        codes[i] = (uint8_t)rows[i][1];
        pseudoranges[i] = (uint32_t)rows[i][2];
        phases[i] = (int32_t)(int64_t)rows[i][3];
        locks[i] = (uint8_t)rows[i][4];
    }
    accept_two(extra, count, cursor.place);
    extra[2] = station;
    extra[3] = epoch;
    extra[4] = synchronous;
    extra[5] = smoothing;
    extra[6] = interval;
    return PV_ACCEPTED;
}

uint32_t ref_1001_write(uint8_t *data, size_t data_len, uint32_t station, uint32_t epoch, uint32_t synchronous,
                        uint32_t smoothing, uint32_t interval, const uint8_t *satellites, size_t satellites_len,
                        const uint8_t *codes, size_t codes_len, const uint32_t *pseudoranges, size_t pseudoranges_len,
                        const int32_t *phases, size_t phases_len, const uint8_t *locks, size_t locks_len,
                        uint64_t *extra, size_t extra_len)
{
    const uint64_t front[] = { 1001, station, epoch, synchronous, satellites_len, smoothing, interval };
    const size_t widths[] = { 12, 12, 30, 1, 5, 1, 3 };
    if (extra_len != PV_EXTRA_SIZE)
        return PV_SIZE;
    if (data_len > PV_DATA_MAX || satellites_len != codes_len || satellites_len != pseudoranges_len ||
        satellites_len != phases_len || satellites_len != locks_len)
        return refuse(extra, PV_SIZE, 0);
    for (size_t k = 0; k < 7; k++)
        if (k != 4 && !fits_unsigned(front[k], widths[k]))
            return refuse(extra, PV_RANGE, 0);
    for (size_t i = 0; i < satellites_len; i++) {
        if (satellites[i] > 63)
            return refuse(extra, PV_SATELLITE, i);
        if (codes[i] > 1 || pseudoranges[i] > 0xFFFFFF || !fits_twos(phases[i], 20) || locks[i] > 127)
            return refuse(extra, PV_RANGE, i);
    }
    if (satellites_len > 31)
        return refuse(extra, PV_TOO_MANY, 32);
    if (!fits_in(data_len, 0, 64 + 58 * satellites_len))
        return refuse(extra, PV_ROOM, 64 + 58 * satellites_len);
    size_t place = 0;
    for (size_t k = 0; k < 7; place += widths[k++])
        put_field(data, place, widths[k], front[k]);
    for (size_t i = 0; i < satellites_len; i++, place += 58) {
        put_field(data, place, 6, satellites[i]);
        put_field(data, place + 6, 1, codes[i]);
        put_field(data, place + 7, 24, pseudoranges[i]);
        put_field(data, place + 31, 20, (uint64_t)(int64_t)phases[i] & 0xFFFFF);
        put_field(data, place + 51, 7, locks[i]);
    }
    return accept_one(extra, place);
}

/* 0 absent, 1 a count, 2 metres; the count, or the bits of the double. */
static uint32_t measured(uint64_t *extra, size_t extra_len, uint64_t kind, uint64_t count, double metres)
{
    if (extra_len != PV_EXTRA_SIZE)
        return PV_SIZE;
    if (kind == 2)
        memcpy(&count, &metres, sizeof count);
    return accept_two(extra, kind, count);
}

uint32_t ref_1001_pseudorange(uint32_t raw, uint64_t *extra, size_t extra_len)
{
    return measured(extra, extra_len, raw == 0xFFFFFF ? 0 : 2, 0, (double)raw * 0.02);
}

uint32_t ref_1001_phase(int32_t raw, uint64_t *extra, size_t extra_len)
{
    return measured(extra, extra_len, raw == -0x80000 ? 0 : 2, 0, (double)raw * 0.0005);
}

uint32_t ref_1001_lock(uint32_t raw, uint64_t *extra, size_t extra_len)
{
    return measured(extra, extra_len, 1, raw, 0);
}

/* ---- Signal tables. ---- */

static struct table table_of(uint32_t system)
{
    static const struct table empty = { NULL, 0 };
    return system < sizeof tables / sizeof tables[0] ? tables[system] : empty;
}

static const struct signal *by_number(uint32_t system, uint32_t number)
{
    return by_number_in(table_of(system), number);
}

static const struct signal *by_name_in(struct table table, uint32_t band, uint32_t letter)
{
    for (size_t i = 0; i < table.count; i++)
        if (table.entries[i].band == band && table.entries[i].letter == letter)
            return table.entries + i;
    return NULL;
}

static const struct signal *by_name(uint32_t system, uint32_t band, uint32_t letter)
{
    return by_name_in(table_of(system), band, letter);
}

static uint32_t tell_signal(const struct signal *signal, uint64_t *extra)
{
    clear(extra);
    if (signal != NULL) {
        extra[PV_AT_SIGNAL_FOUND] = 1;
        extra[PV_AT_SIGNAL_BAND] = signal->band;
        extra[PV_AT_SIGNAL_LETTER] = signal->letter;
    }
    return PV_ACCEPTED;
}

static uint32_t tell_number(const struct signal *signal, uint64_t *extra)
{
    clear(extra);
    if (signal != NULL) {
        extra[PV_AT_NUMBER_FOUND] = 1;
        extra[PV_AT_NUMBER] = signal->number;
    }
    return PV_ACCEPTED;
}

uint32_t ref_signal_of(uint32_t system, uint32_t number, uint64_t *extra, size_t extra_len)
{
    return extra_len != PV_EXTRA_SIZE ? PV_SIZE : tell_signal(by_number(system, number), extra);
}

uint32_t ref_number_of(uint32_t system, uint32_t band, uint32_t letter, uint64_t *extra, size_t extra_len)
{
    return extra_len != PV_EXTRA_SIZE ? PV_SIZE : tell_number(by_name(system, band, letter), extra);
}

uint32_t ref_1059_signal_of(uint32_t edition, uint32_t number, uint64_t *extra, size_t extra_len)
{
    if (extra_len != PV_EXTRA_SIZE)
        return PV_SIZE;
    if (!is_edition(edition))
        return refuse(extra, PV_KIND, 0);
    return tell_signal(by_number_in(editions_1059[edition], number), extra);
}

uint32_t ref_1059_number_of(uint32_t edition, uint32_t band, uint32_t letter, uint64_t *extra, size_t extra_len)
{
    if (extra_len != PV_EXTRA_SIZE)
        return PV_SIZE;
    if (!is_edition(edition))
        return refuse(extra, PV_KIND, 0);
    return tell_number(by_name_in(editions_1059[edition], band, letter), extra);
}

static int64_t compare(uint32_t a, uint32_t b)
{
    return a < b ? -1 : a > b ? 1 : 0;
}

uint32_t ref_signal_order(uint32_t system, uint32_t band_a, uint32_t letter_a, uint32_t band_b, uint32_t letter_b,
                          uint64_t *extra, size_t extra_len)
{
    if (extra_len != PV_EXTRA_SIZE)
        return PV_SIZE;
    const struct signal *a = by_name(system, band_a, letter_a);
    const struct signal *b = by_name(system, band_b, letter_b);
    int64_t order;
    if (a != NULL && b != NULL)
        order = compare(a->number, b->number);
    else if (a != NULL)
        order = -1;
    else if (b != NULL)
        order = 1;
    else
        order = band_a != band_b ? compare(band_a, band_b) : compare(letter_a, letter_b);
    return accept_one(extra, (uint64_t)order);
}
