/*
 * The names of peerivolt.h over the plain reference (or, with STAND_IN_PLAIN, over the plain C program where it has the
 * function), so that the tests can be tried without the library itself. Never installed.
 */
#include "peerivolt.h"
#include "plain.h"
#include "reference.h"

#ifdef STAND_IN_PLAIN
#define EITHER(name) table_##name
#else
#define EITHER(name) ref_##name
#endif

uint32_t pv_version(void)
{
    return PV_VERSION;
}

uint32_t pv_crc24q(const uint8_t *bytes, size_t bytes_len)
{
    return EITHER(crc24q)(bytes, bytes_len);
}

uint32_t pv_field_read_unsigned(const uint8_t *data, size_t data_len, size_t start, size_t width,
                                uint64_t *extra, size_t extra_len)
{
    return EITHER(field_read_unsigned)(data, data_len, start, width, extra, extra_len);
}

uint32_t pv_field_read_twos(const uint8_t *data, size_t data_len, size_t start, size_t width,
                            uint64_t *extra, size_t extra_len)
{
    return ref_field_read_twos(data, data_len, start, width, extra, extra_len);
}

uint32_t pv_field_read_signmag(const uint8_t *data, size_t data_len, size_t start, size_t width,
                               uint64_t *extra, size_t extra_len)
{
    return ref_field_read_signmag(data, data_len, start, width, extra, extra_len);
}

uint32_t pv_field_write_unsigned(uint8_t *data, size_t data_len, size_t start, size_t width, uint64_t value,
                                 uint64_t *extra, size_t extra_len)
{
    return EITHER(field_write_unsigned)(data, data_len, start, width, value, extra, extra_len);
}

uint32_t pv_field_write_twos(uint8_t *data, size_t data_len, size_t start, size_t width, int64_t value,
                             uint64_t *extra, size_t extra_len)
{
    return ref_field_write_twos(data, data_len, start, width, value, extra, extra_len);
}

uint32_t pv_field_write_signmag(uint8_t *data, size_t data_len, size_t start, size_t width, int64_t value,
                                uint64_t *extra, size_t extra_len)
{
    return ref_field_write_signmag(data, data_len, start, width, value, extra, extra_len);
}

uint32_t pv_differing(const uint8_t *sent, size_t sent_len, const uint8_t *received, size_t received_len,
                      uint64_t *extra, size_t extra_len)
{
    return ref_differing(sent, sent_len, received, received_len, extra, extra_len);
}

uint32_t pv_1001_read(const uint8_t *data, size_t data_len, uint8_t *satellites, size_t satellites_len, uint8_t *codes,
                      size_t codes_len, uint32_t *pseudoranges, size_t pseudoranges_len, int32_t *phases,
                      size_t phases_len, uint8_t *locks, size_t locks_len, uint64_t *extra, size_t extra_len)
{
    return ref_1001_read(data, data_len, satellites, satellites_len, codes, codes_len, pseudoranges, pseudoranges_len,
                         phases, phases_len, locks, locks_len, extra, extra_len);
}

uint32_t pv_1001_write(uint8_t *data, size_t data_len, uint32_t station, uint32_t epoch, uint32_t synchronous,
                       uint32_t smoothing, uint32_t interval, const uint8_t *satellites, size_t satellites_len,
                       const uint8_t *codes, size_t codes_len, const uint32_t *pseudoranges, size_t pseudoranges_len,
                       const int32_t *phases, size_t phases_len, const uint8_t *locks, size_t locks_len,
                       uint64_t *extra, size_t extra_len)
{
    return ref_1001_write(data, data_len, station, epoch, synchronous, smoothing, interval, satellites, satellites_len,
                          codes, codes_len, pseudoranges, pseudoranges_len, phases, phases_len, locks, locks_len, extra,
                          extra_len);
}

uint32_t pv_1001_pseudorange(uint32_t raw, uint64_t *extra, size_t extra_len)
{
    return ref_1001_pseudorange(raw, extra, extra_len);
}

uint32_t pv_1001_phase(int32_t raw, uint64_t *extra, size_t extra_len)
{
    return ref_1001_phase(raw, extra, extra_len);
}

uint32_t pv_1001_lock(uint32_t raw, uint64_t *extra, size_t extra_len)
{
    return ref_1001_lock(raw, extra, extra_len);
}

uint32_t pv_why(const uint8_t *recording, size_t recording_len, size_t place, uint64_t *extra, size_t extra_len)
{
    return ref_why(recording, recording_len, place, extra, extra_len);
}

uint32_t pv_settings_read(const uint8_t *block, size_t block_len, uint32_t reader_edition, uint32_t index,
                          uint16_t *numbers, size_t numbers_len, uint8_t *priorities, size_t priorities_len,
                          uint64_t *extra, size_t extra_len)
{
    return ref_settings_read(block, block_len, reader_edition, index, numbers, numbers_len, priorities, priorities_len,
                             extra, extra_len);
}

uint32_t pv_settings_write(uint32_t edition, uint32_t index, const uint16_t *numbers, size_t numbers_len,
                           const uint8_t *priorities, size_t priorities_len, uint8_t *out, size_t out_len,
                           uint64_t *extra, size_t extra_len)
{
    return ref_settings_write(edition, index, numbers, numbers_len, priorities, priorities_len, out, out_len, extra,
                              extra_len);
}

uint32_t pv_cache_store(struct pv_cache_entry *entries, size_t entries_len, uint32_t provider, uint32_t solution,
                        uint32_t satellite, uint32_t signal, uint32_t iod, int32_t bias,
                        uint64_t *extra, size_t extra_len)
{
    return ref_cache_store(entries, entries_len, provider, solution, satellite, signal, iod, bias, extra, extra_len);
}

uint32_t pv_cache_remove(struct pv_cache_entry *entries, size_t entries_len, uint32_t provider, uint32_t solution,
                         uint32_t satellite, uint32_t signal, uint64_t *extra, size_t extra_len)
{
    return ref_cache_remove(entries, entries_len, provider, solution, satellite, signal, extra, extra_len);
}

uint32_t pv_cache_lookup(const struct pv_cache_entry *entries, size_t entries_len, uint32_t provider, uint32_t solution,
                         uint32_t satellite, uint32_t signal, uint64_t *extra, size_t extra_len)
{
    return ref_cache_lookup(entries, entries_len, provider, solution, satellite, signal, extra, extra_len);
}

uint32_t pv_frame_check(const uint8_t *bytes, size_t bytes_len, uint64_t *extra, size_t extra_len)
{
    return EITHER(frame_check)(bytes, bytes_len, extra, extra_len);
}

uint32_t pv_frame_write(const uint8_t *data, size_t data_len, uint8_t *out, size_t out_len,
                        uint64_t *extra, size_t extra_len)
{
    return EITHER(frame_write)(data, data_len, out, out_len, extra, extra_len);
}

uint32_t pv_feed(uint8_t *held, size_t held_len, size_t held_count, uint64_t taken, uint32_t mode,
                 const uint8_t *piece, size_t piece_len, uint8_t *out, size_t out_len, uint64_t *extra, size_t extra_len)
{
    return ref_feed(held, held_len, held_count, taken, mode, piece, piece_len, out, out_len, extra, extra_len);
}

uint32_t pv_feed_all(uint8_t *held, size_t held_len, size_t held_count, uint64_t taken, uint32_t mode,
                     const uint8_t *piece, size_t piece_len, uint8_t *seam, size_t seam_len,
                     uint32_t *starts, size_t starts_len, uint32_t *lengths, size_t lengths_len,
                     uint8_t *kinds, size_t kinds_len, uint64_t *extra, size_t extra_len)
{
    return ref_feed_all(held, held_len, held_count, taken, mode, piece, piece_len, seam, seam_len, starts, starts_len,
                        lengths, lengths_len, kinds, kinds_len, extra, extra_len);
}

uint32_t pv_close(uint8_t *held, size_t held_len, size_t held_count, uint64_t taken, uint32_t mode,
                  uint8_t *out, size_t out_len, uint64_t *extra, size_t extra_len)
{
    return ref_close(held, held_len, held_count, taken, mode, out, out_len, extra, extra_len);
}

uint32_t pv_1059_read(const uint8_t *data, size_t data_len, size_t start, uint8_t *satellites, size_t satellites_len,
                      uint8_t *signals, size_t signals_len, int16_t *biases, size_t biases_len,
                      uint64_t *extra, size_t extra_len)
{
    return EITHER(1059_read)(data, data_len, start, satellites, satellites_len, signals, signals_len,
                             biases, biases_len, extra, extra_len);
}

uint32_t pv_1059_write(uint32_t edition, uint8_t *data, size_t data_len, size_t start, const uint8_t *satellites,
                       size_t satellites_len, const uint8_t *signals, size_t signals_len, const int16_t *biases,
                       size_t biases_len, uint64_t *extra, size_t extra_len)
{
    return EITHER(1059_write)(edition, data, data_len, start, satellites, satellites_len, signals, signals_len,
                              biases, biases_len, extra, extra_len);
}

uint32_t pv_1059_message_read(const uint8_t *data, size_t data_len, uint8_t *satellites, size_t satellites_len,
                              uint8_t *signals, size_t signals_len, int16_t *biases, size_t biases_len,
                              uint64_t *extra, size_t extra_len)
{
    return ref_1059_message_read(data, data_len, satellites, satellites_len, signals, signals_len, biases, biases_len,
                                 extra, extra_len);
}

uint32_t pv_1059_message_write(uint32_t edition, uint8_t *data, size_t data_len, uint32_t epoch, uint32_t interval,
                               uint32_t multiple, uint32_t iod, uint32_t provider, uint32_t solution,
                               const uint8_t *satellites, size_t satellites_len, const uint8_t *signals,
                               size_t signals_len, const int16_t *biases, size_t biases_len,
                               uint64_t *extra, size_t extra_len)
{
    return ref_1059_message_write(edition, data, data_len, epoch, interval, multiple, iod, provider, solution, satellites,
                                  satellites_len, signals, signals_len, biases, biases_len, extra, extra_len);
}

uint32_t pv_1230_message_read(const uint8_t *data, size_t data_len, uint8_t *signals, size_t signals_len,
                              int16_t *biases, size_t biases_len, uint64_t *extra, size_t extra_len)
{
    return ref_1230_message_read(data, data_len, signals, signals_len, biases, biases_len, extra, extra_len);
}

uint32_t pv_1230_message_write(uint8_t *data, size_t data_len, uint32_t station, uint32_t indicator, uint32_t reserved,
                               const uint8_t *signals, size_t signals_len, const int16_t *biases, size_t biases_len,
                               uint64_t *extra, size_t extra_len)
{
    return ref_1230_message_write(data, data_len, station, indicator, reserved, signals, signals_len, biases, biases_len,
                                  extra, extra_len);
}

float pv_1059_metres(int16_t raw)
{
    return ref_1059_metres(raw);
}

uint32_t pv_1230_read(const uint8_t *data, size_t data_len, size_t start, uint8_t *signals, size_t signals_len,
                      int16_t *biases, size_t biases_len, uint64_t *extra, size_t extra_len)
{
    return EITHER(1230_read)(data, data_len, start, signals, signals_len, biases, biases_len, extra, extra_len);
}

uint32_t pv_1230_write(uint8_t *data, size_t data_len, size_t start, const uint8_t *signals, size_t signals_len,
                       const int16_t *biases, size_t biases_len, uint64_t *extra, size_t extra_len)
{
    return EITHER(1230_write)(data, data_len, start, signals, signals_len, biases, biases_len, extra, extra_len);
}

float pv_1230_metres(int16_t raw)
{
    return ref_1230_metres(raw);
}

uint32_t pv_1059_signal_of(uint32_t edition, uint32_t number, uint64_t *extra, size_t extra_len)
{
    return ref_1059_signal_of(edition, number, extra, extra_len);
}

uint32_t pv_1059_number_of(uint32_t edition, uint32_t band, uint32_t letter, uint64_t *extra, size_t extra_len)
{
    return ref_1059_number_of(edition, band, letter, extra, extra_len);
}

uint32_t pv_signal_of(uint32_t system, uint32_t number, uint64_t *extra, size_t extra_len)
{
    return ref_signal_of(system, number, extra, extra_len);
}

uint32_t pv_number_of(uint32_t system, uint32_t band, uint32_t letter, uint64_t *extra, size_t extra_len)
{
    return ref_number_of(system, band, letter, extra, extra_len);
}

uint32_t pv_signal_order(uint32_t system, uint32_t band_a, uint32_t letter_a, uint32_t band_b, uint32_t letter_b,
                         uint64_t *extra, size_t extra_len)
{
    return ref_signal_order(system, band_a, letter_a, band_b, letter_b, extra, extra_len);
}
