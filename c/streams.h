/* What came out of a stream, as the tests over streams count it. Include it behind test.h. */
#ifndef PEERIVOLT_STREAMS_H
#define PEERIVOLT_STREAMS_H

#include "reference.h"

/* What came out of a stream: kept as a checksum of the frames and their places in order, and counts. */
struct outcome {
    uint64_t frames, frame_bytes, sum, skipped, held;
};

static inline void add_frame(struct outcome *outcome, uint64_t place, const uint8_t *frame, size_t n)
{
    outcome->frames++;
    outcome->frame_bytes += n;
    outcome->sum = (outcome->sum ^ place) * 0x100000001B3;
    for (size_t i = 0; i < n; i++)
        outcome->sum = (outcome->sum ^ frame[i]) * 0x100000001B3;
}

/* The plain reference's scan of the whole stream. */
static inline struct outcome whole_stream_scan(uint32_t mode, const uint8_t *stream, size_t n)
{
    struct outcome outcome = { 0, 0, 0, 0, 0 };
    size_t place = 0;
    for (;;) {
        size_t frame_len = 1;
        enum ref_fate fate = ref_scan(mode, stream, n, place, &frame_len);
        if (fate == REF_HELD)
            break;
        if (fate == REF_FRAME)
            add_frame(&outcome, place, stream + place, frame_len);
        else
            outcome.skipped++;
        place += frame_len;
    }
    outcome.held = n - place;
    return outcome;
}

#endif
