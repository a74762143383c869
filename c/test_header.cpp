// The header from C++: it compiles with all warnings as errors, links as C, and its inline functions run.
#include "peerivolt.h"

#include <cstddef>
#include <cstdint>
#include <cstdio>
#include <cstring>
#include <vector>

namespace {

using Bytes = std::vector<std::uint8_t>;

// The frames of a stream that comes in pieces of a length.
std::vector<Bytes> frames_of(const Bytes &stream, std::size_t piece_len)
{
    std::vector<Bytes> frames;
    pv_scanner scanner = PV_SCANNER_FRESH;
    std::uint8_t out[PV_FRAME_MAX];
    for (std::size_t place = 0; place < stream.size();) {
        std::size_t end = stream.size() - place < piece_len ? stream.size() : place + piece_len;
        pv_fed fed;
        do {
            if (pv_scanner_feed(&scanner, stream.data() + place, end - place, out, sizeof out, &fed) != PV_ACCEPTED)
                return {};
            place += fed.taken;
            if (fed.is_frame)
                frames.emplace_back(out, out + fed.frame_len);
        } while (fed.is_frame);
    }
    pv_scanner_reset(&scanner);
    pv_scanner_init(&scanner);
    return frames;
}

} // namespace

int main()
{
    const Bytes frame = {0xD3, 0, 0, 0x47, 0xEA, 0x4B};
    Bytes stream = {1, 2, 3};
    stream.insert(stream.end(), frame.begin(), frame.end());
    stream.push_back(0xD3);
    stream.insert(stream.end(), frame.begin(), frame.end());
    stream.insert(stream.end(), 1024, 0);
    int failed = 0;
    for (std::size_t piece_len : {1u, 2u, 5u, 100u, 65536u}) {
        std::vector<Bytes> frames = frames_of(stream, piece_len);
        if (frames.size() != 2 || frames[0] != frame || frames[1] != frame)
            failed++;
    }
    if (std::strcmp(pv_refusal_name(PV_ROOM), "Room") != 0)
        failed++;
    std::printf("C++: 6 checks, %d failed\n", failed);
    return failed == 0 ? 0 : 1;
}
