/*
 * A plain reference of every function of peerivolt.h, for tests only. It has the same parameters and answers under names
 * that begin with ref_. It is written to be read beside the rules: bit by bit, byte by byte, and slow.
 */
#ifndef PEERIVOLT_REFERENCE_H
#define PEERIVOLT_REFERENCE_H

#include <stddef.h>
#include <stdint.h>

uint32_t ref_crc24q(const uint8_t *bytes, size_t bytes_len);

uint32_t ref_field_read_unsigned(const uint8_t *data, size_t data_len, size_t start, size_t width,
                                 uint64_t *extra, size_t extra_len);
uint32_t ref_field_read_twos(const uint8_t *data, size_t data_len, size_t start, size_t width,
                             uint64_t *extra, size_t extra_len);
uint32_t ref_field_read_signmag(const uint8_t *data, size_t data_len, size_t start, size_t width,
                                uint64_t *extra, size_t extra_len);
uint32_t ref_field_write_unsigned(uint8_t *data, size_t data_len, size_t start, size_t width, uint64_t value,
                                  uint64_t *extra, size_t extra_len);
uint32_t ref_field_write_twos(uint8_t *data, size_t data_len, size_t start, size_t width, int64_t value,
                              uint64_t *extra, size_t extra_len);
uint32_t ref_field_write_signmag(uint8_t *data, size_t data_len, size_t start, size_t width, int64_t value,
                                 uint64_t *extra, size_t extra_len);

uint32_t ref_frame_check(const uint8_t *bytes, size_t bytes_len, uint64_t *extra, size_t extra_len);
uint32_t ref_frame_write(const uint8_t *data, size_t data_len, uint8_t *out, size_t out_len,
                         uint64_t *extra, size_t extra_len);

uint32_t ref_differing(const uint8_t *sent, size_t sent_len, const uint8_t *received, size_t received_len,
                       uint64_t *extra, size_t extra_len);

uint32_t ref_settings_read(const uint8_t *block, size_t block_len, uint32_t reader_edition, uint32_t index,
                           uint16_t *numbers, size_t numbers_len, uint8_t *priorities, size_t priorities_len,
                           uint64_t *extra, size_t extra_len);
uint32_t ref_settings_write(uint32_t edition, uint32_t index, const uint16_t *numbers, size_t numbers_len,
                            const uint8_t *priorities, size_t priorities_len, uint8_t *out, size_t out_len,
                            uint64_t *extra, size_t extra_len);

struct pv_cache_entry;
uint32_t ref_cache_store(struct pv_cache_entry *entries, size_t entries_len, uint32_t provider, uint32_t solution,
                         uint32_t satellite, uint32_t signal, uint32_t iod, int32_t bias,
                         uint64_t *extra, size_t extra_len);
uint32_t ref_cache_remove(struct pv_cache_entry *entries, size_t entries_len, uint32_t provider, uint32_t solution,
                          uint32_t satellite, uint32_t signal, uint64_t *extra, size_t extra_len);
uint32_t ref_cache_lookup(const struct pv_cache_entry *entries, size_t entries_len, uint32_t provider, uint32_t solution,
                          uint32_t satellite, uint32_t signal, uint64_t *extra, size_t extra_len);

uint32_t ref_feed(uint8_t *held, size_t held_len, size_t held_count, uint64_t taken, uint32_t mode,
                  const uint8_t *piece, size_t piece_len, uint8_t *out, size_t out_len,
                  uint64_t *extra, size_t extra_len);
uint32_t ref_feed_all(uint8_t *held, size_t held_len, size_t held_count, uint64_t taken, uint32_t mode,
                      const uint8_t *piece, size_t piece_len, uint8_t *seam, size_t seam_len,
                      uint32_t *starts, size_t starts_len, uint32_t *lengths, size_t lengths_len,
                      uint8_t *kinds, size_t kinds_len, uint64_t *extra, size_t extra_len);
uint32_t ref_close(uint8_t *held, size_t held_len, size_t held_count, uint64_t taken, uint32_t mode,
                   uint8_t *out, size_t out_len, uint64_t *extra, size_t extra_len);

uint32_t ref_1059_read(const uint8_t *data, size_t data_len, size_t start, uint8_t *satellites, size_t satellites_len,
                       uint8_t *signals, size_t signals_len, int16_t *biases, size_t biases_len,
                       uint64_t *extra, size_t extra_len);
uint32_t ref_1059_write(uint32_t edition, uint8_t *data, size_t data_len, size_t start, const uint8_t *satellites,
                        size_t satellites_len, const uint8_t *signals, size_t signals_len, const int16_t *biases,
                        size_t biases_len, uint64_t *extra, size_t extra_len);
float ref_1059_metres(int16_t raw);

uint32_t ref_1230_read(const uint8_t *data, size_t data_len, size_t start, uint8_t *signals, size_t signals_len,
                       int16_t *biases, size_t biases_len, uint64_t *extra, size_t extra_len);
uint32_t ref_1230_write(uint8_t *data, size_t data_len, size_t start, const uint8_t *signals, size_t signals_len,
                        const int16_t *biases, size_t biases_len, uint64_t *extra, size_t extra_len);
float ref_1230_metres(int16_t raw);

uint32_t ref_1059_signal_of(uint32_t edition, uint32_t number, uint64_t *extra, size_t extra_len);
uint32_t ref_1059_number_of(uint32_t edition, uint32_t band, uint32_t letter, uint64_t *extra, size_t extra_len);

uint32_t ref_1059_message_read(const uint8_t *data, size_t data_len, uint8_t *satellites, size_t satellites_len,
                               uint8_t *signals, size_t signals_len, int16_t *biases, size_t biases_len,
                               uint64_t *extra, size_t extra_len);
uint32_t ref_1059_message_write(uint32_t edition, uint8_t *data, size_t data_len, uint32_t epoch, uint32_t interval,
                                uint32_t multiple, uint32_t iod, uint32_t provider, uint32_t solution,
                                const uint8_t *satellites, size_t satellites_len, const uint8_t *signals,
                                size_t signals_len, const int16_t *biases, size_t biases_len,
                                uint64_t *extra, size_t extra_len);
uint32_t ref_1230_message_read(const uint8_t *data, size_t data_len, uint8_t *signals, size_t signals_len,
                               int16_t *biases, size_t biases_len, uint64_t *extra, size_t extra_len);
uint32_t ref_1230_message_write(uint8_t *data, size_t data_len, uint32_t station, uint32_t indicator, uint32_t reserved,
                                const uint8_t *signals, size_t signals_len, const int16_t *biases, size_t biases_len,
                                uint64_t *extra, size_t extra_len);

uint32_t ref_1001_read(const uint8_t *data, size_t data_len, uint8_t *satellites, size_t satellites_len, uint8_t *codes,
                       size_t codes_len, uint32_t *pseudoranges, size_t pseudoranges_len, int32_t *phases,
                       size_t phases_len, uint8_t *locks, size_t locks_len, uint64_t *extra, size_t extra_len);
uint32_t ref_1001_write(uint8_t *data, size_t data_len, uint32_t station, uint32_t epoch, uint32_t synchronous,
                        uint32_t smoothing, uint32_t interval, const uint8_t *satellites, size_t satellites_len,
                        const uint8_t *codes, size_t codes_len, const uint32_t *pseudoranges, size_t pseudoranges_len,
                        const int32_t *phases, size_t phases_len, const uint8_t *locks, size_t locks_len,
                        uint64_t *extra, size_t extra_len);
uint32_t ref_1001_pseudorange(uint32_t raw, uint64_t *extra, size_t extra_len);
uint32_t ref_1001_phase(int32_t raw, uint64_t *extra, size_t extra_len);
uint32_t ref_1001_lock(uint32_t raw, uint64_t *extra, size_t extra_len);

uint32_t ref_signal_of(uint32_t system, uint32_t number, uint64_t *extra, size_t extra_len);
uint32_t ref_number_of(uint32_t system, uint32_t band, uint32_t letter, uint64_t *extra, size_t extra_len);
uint32_t ref_signal_order(uint32_t system, uint32_t band_a, uint32_t letter_a, uint32_t band_b, uint32_t letter_b,
                          uint64_t *extra, size_t extra_len);

/* What the scan of a whole stream says of one byte of it. */
enum ref_fate { REF_SKIPPED, REF_FRAME, REF_HELD };

/*
 * The scan of a whole stream of any length. From `place` on: a byte to skip, a frame of *frame_len bytes, or the start of
 * the bytes that are held.
 */
enum ref_fate ref_scan(uint32_t mode, const uint8_t *stream, size_t stream_len, size_t place, size_t *frame_len);

uint32_t ref_why(const uint8_t *recording, size_t recording_len, size_t place, uint64_t *extra, size_t extra_len);

#endif
