/*
 * A straightforward and efficient C program for what the benchmark measures, with the parameters and answers of
 * peerivolt.h. It is compiled twice: as plain_.. with a bitwise checksum, and as table_.. with a checksum by a table of
 * 256 numbers (PLAIN_TABLE).
 */
#ifndef PEERIVOLT_PLAIN_H
#define PEERIVOLT_PLAIN_H

#include <stddef.h>
#include <stdint.h>

#define PLAIN_DECLARE(prefix)                                                                                          \
    uint32_t prefix##_crc24q(const uint8_t *bytes, size_t bytes_len);                                                  \
    uint32_t prefix##_field_read_unsigned(const uint8_t *data, size_t data_len, size_t start, size_t width,            \
                                          uint64_t *extra, size_t extra_len);                                          \
    uint32_t prefix##_field_write_unsigned(uint8_t *data, size_t data_len, size_t start, size_t width,                 \
                                           uint64_t value, uint64_t *extra, size_t extra_len);                         \
    uint32_t prefix##_frame_check(const uint8_t *bytes, size_t bytes_len, uint64_t *extra, size_t extra_len);          \
    uint32_t prefix##_frame_write(const uint8_t *data, size_t data_len, uint8_t *out, size_t out_len,                  \
                                  uint64_t *extra, size_t extra_len);                                                  \
    uint32_t prefix##_feed(uint8_t *held, size_t held_len, size_t held_count, uint64_t taken, uint32_t mode,           \
                           const uint8_t *piece, size_t piece_len, uint8_t *out, size_t out_len, uint64_t *extra,      \
                           size_t extra_len);                                                                          \
    uint32_t prefix##_1059_read(const uint8_t *data, size_t data_len, size_t start, uint8_t *satellites,               \
                                size_t satellites_len, uint8_t *signals, size_t signals_len, int16_t *biases,          \
                                size_t biases_len, uint64_t *extra, size_t extra_len);                                 \
    uint32_t prefix##_1059_write(uint32_t edition, uint8_t *data, size_t data_len, size_t start,                       \
                                 const uint8_t *satellites, size_t satellites_len, const uint8_t *signals, size_t signals_len,                    \
                                 const int16_t *biases, size_t biases_len, uint64_t *extra, size_t extra_len);         \
    uint32_t prefix##_1230_read(const uint8_t *data, size_t data_len, size_t start, uint8_t *signals,                  \
                                size_t signals_len, int16_t *biases, size_t biases_len, uint64_t *extra,               \
                                size_t extra_len);                                                                     \
    uint32_t prefix##_1230_write(uint8_t *data, size_t data_len, size_t start, const uint8_t *signals,                 \
                                 size_t signals_len, const int16_t *biases, size_t biases_len, uint64_t *extra,        \
                                 size_t extra_len);

PLAIN_DECLARE(plain)
PLAIN_DECLARE(table)

/* The loop over bytes that are not D3: the place of the first D3, or the length. */
size_t plain_find_preamble(const uint8_t *bytes, size_t bytes_len);

/* A plain walk along a bias cache, with the parameters of pv_cache_lookup. */
struct pv_cache_entry;
uint32_t plain_cache_lookup(const struct pv_cache_entry *entries, size_t entries_len, uint32_t provider, uint32_t solution,
                            uint32_t satellite, uint32_t signal, uint64_t *extra, size_t extra_len);

/* A call with the parameters of feeding that does nothing. */
uint32_t plain_empty_call(uint8_t *held, size_t held_len, size_t held_count, uint64_t taken, uint32_t mode,
                          const uint8_t *piece, size_t piece_len, uint8_t *out, size_t out_len, uint64_t *extra,
                          size_t extra_len);

#endif
