/*
 * For the test of the relay: writes the good frames of standard input to standard output by the reference's scan of the
 * whole stream, and the counts of frames, skipped and held bytes to standard error.
 *
 * Usage: expected [MESSAGE NUMBER]
 */
#include <stdio.h>
#include <stdlib.h>

#include "reference.h"

static uint8_t stream[1 << 24];

int main(int argc, char **argv)
{
    long only = argc > 1 ? strtol(argv[1], NULL, 10) : -1;
    size_t n = fread(stream, 1, sizeof stream, stdin);
    size_t place = 0, frames = 0, skipped = 0;
    for (;;) {
        size_t length = 1;
        enum ref_fate fate = ref_scan(0, stream, n, place, &length);
        if (fate == REF_HELD)
            break;
        if (fate == REF_SKIPPED)
            skipped++;
        if (fate == REF_FRAME) {
            long number = length < 8 ? -1 : stream[place + 3] << 4 | stream[place + 4] >> 4;
            frames++;
            if (only < 0 || number == only)
                fwrite(stream + place, 1, length, stdout);
        }
        place += length;
    }
    fprintf(stderr, "%zu %zu %zu\n", frames, skipped, n - place);
    return fflush(stdout) == 0 ? 0 : 1;
}
