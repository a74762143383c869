/*
 * RTKLIB's part of the benchmark: its checksum, and its framing, which takes one byte a call. A frame that is whole goes
 * to a decoder that does nothing, so that framing alone is measured. Without WITH_RTKLIB nothing of it is linked, and no
 * row has a side of it.
 */
#include "bench.h"

#ifdef WITH_RTKLIB

#include "rtklib.h"

int decode_rtcm3(rtcm_t *rtcm);
int decode_rtcm3(rtcm_t *rtcm)
{
    (void)rtcm;
    return 1;
}

static struct answers rtklib_checksum(const struct library *library, const void *input, size_t times)
{
    const struct bytes *bytes = input;
    struct answers sum = { 0, 0 };
    (void)library;
    while (times-- > 0)
        sum.common += rtk_crc24q(bytes->at, (int)bytes->len);
    return sum;
}

static struct answers rtklib_scan(const struct library *library, const void *input, size_t times)
{
    static rtcm_t rtcm;
    const struct feeding *feeding = input;
    struct answers sum = { 0, 0 };
    (void)library;
    while (times-- > 0) {
        rtcm.nbyte = 0;
        for (size_t i = 0; i < feeding->stream.len; i++)
            sum.common += (uint64_t)input_rtcm3(&rtcm, feeding->stream.at[i]);
    }
    return sum;
}

const struct rtklib_works rtklib_works = { rtklib_checksum, rtklib_scan };

#else

const struct rtklib_works rtklib_works = { NULL, NULL };

#endif
