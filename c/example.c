/* Prints the length of each good frame on standard input, when it has arrived. */
#include <peerivolt.h>
#include <stdio.h>
#include <unistd.h>

int main(void)
{
    struct pv_scanner scanner = PV_SCANNER_FRESH;
    struct pv_fed fed;
    uint8_t piece[4096], frame[PV_FRAME_MAX];
    setvbuf(stdout, NULL, _IOLBF, 0);
    for (ssize_t n; (n = read(STDIN_FILENO, piece, sizeof piece)) > 0;)
        for (size_t at = 0; !pv_scanner_feed(&scanner, piece + at, (size_t)n - at, frame, sizeof frame, &fed) && fed.is_frame;
             at += fed.taken)
            printf("%zu\n", fed.frame_len);
}
