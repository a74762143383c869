/*
 * rtcm-rs 0.11.0 behind C names, for the benchmark: librtcm_rust.a, built by `cargo build --release -p rtcm-c`.
 * Inputs must be such that the crate does not panic. An area is a pointer and a length in elements.
 * The checksum is that of the stand-in for the crate crc-any.
 */
#ifndef RTCM_RUST_H
#define RTCM_RUST_H

#include <stddef.h>
#include <stdint.h>

/* A field in the crate's smallest unsigned type for the width (1 to 64): its value, and the end bit after a write. */
uint64_t rs_field_read(const uint8_t *data, size_t len, size_t start, size_t width);
size_t rs_field_write(uint8_t *data, size_t len, size_t start, size_t width, uint64_t value);

/* MessageFrame::new: the frame's length, or 0. */
size_t rs_frame_check(const uint8_t *bytes, size_t len);

/* MsgFrameIter over a whole stream: the number of frames. */
size_t rs_scan(const uint8_t *bytes, size_t len);

/* The blocks' decode: the number of records. */
size_t rs_1059_read(const uint8_t *data, size_t len, size_t start);
size_t rs_1230_read(const uint8_t *data, size_t len, size_t start);

/* The crate's own lists (at most 390 and 4 records, signals in the table), and the blocks' encode: the end bit. */
struct rs_1059_list;
struct rs_1059_list *rs_1059_list_new(const uint8_t *satellites, const uint8_t *signals, const int16_t *biases,
                                      size_t len);
size_t rs_1059_write(uint8_t *data, size_t len, size_t start, const struct rs_1059_list *list);
void rs_1059_list_free(struct rs_1059_list *list);

struct rs_1230_list;
struct rs_1230_list *rs_1230_list_new(const uint8_t *signals, const int16_t *biases, size_t len);
size_t rs_1230_write(uint8_t *data, size_t len, size_t start, const struct rs_1230_list *list);
void rs_1230_list_free(struct rs_1230_list *list);

#endif
