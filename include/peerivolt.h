/*
 * peerivolt.h: RTCM 3 frames, a scanner over pieces of a stream, bit fields, and messages 1059 and 1230 with their bias blocks.
 *
 * The shortest useful program reads pieces, feeds them and gets whole frames:
 *
 *     struct pv_scanner scanner = PV_SCANNER_FRESH;
 *     struct pv_fed fed;
 *     uint8_t frame[PV_FRAME_MAX];
 *     ... for every piece that arrives:
 *     do {
 *         if (pv_scanner_feed(&scanner, piece, piece_len, frame, sizeof frame, &fed) != PV_ACCEPTED) ...
 *         piece += fed.taken;
 *         piece_len -= fed.taken;
 *         if (fed.is_frame) use(frame, fed.frame_len);
 *     } while (fed.is_frame);
 *
 * AREAS. An area is a pointer and then its length, counted in elements (not in bytes). A null pointer with length 0 is
 * an empty area. Otherwise the pointer is aligned for its type and the area is as long as its length says. No two areas
 * of one call may overlap, not even where one is only read.
 *
 * ANSWERS. A call returns 0 (PV_ACCEPTED) or the number of a refusal. A refused call writes nothing into any area but
 * `extra`, so a refused call can be repeated. The refusals of a function are tested in the order in which its comment
 * lists them, and it refuses on no other ground.
 *
 * EXTRA. The rest of an answer goes into `extra`, an area of exactly PV_EXTRA_SIZE (8) numbers. Its length is tested
 * before all else: any other length is PV_SIZE, and then nothing at all is written, `extra` included. Otherwise every
 * call writes all 8 numbers: those that its comment names (PV_AT_.. are their places), and 0 in the other places. After
 * a refusal extra[PV_AT_CARRIED] is what the refusal carries, or 0 where it carries nothing, and the rest is 0. A signed
 * number in `extra` is its 64-bit two's complement: cast it to int64_t.
 *
 * THREADS. No function keeps anything between calls, allocates, blocks or sets errno. Calls on areas that no other
 * thread uses at the time may run at once.
 */
#ifndef PEERIVOLT_H
#define PEERIVOLT_H

#include <stddef.h>
#include <stdint.h>

#ifdef __cplusplus
extern "C" {
#endif

/* ---- Version. ---- */

/*
 * The version of this header: the major number times 1,000,000, plus the minor one times 1,000, plus the patch. A program
 * that is linked with the library of this header finds pv_version() == PV_VERSION.
 */
#define PV_VERSION 2000u
#define PV_VERSION_TEXT "0.2.0"

/* The version of the library itself. Refuses nothing. */
uint32_t pv_version(void);

/* ---- Refusals: what a call returns, and what the refusal carries in extra[PV_AT_CARRIED]. ---- */

#define PV_ACCEPTED 0u    /* Not refused. */
#define PV_SHORT 1u       /* A field does not fit in the data. Carries the bit where the field starts, and how many of its bits are missing. */
#define PV_WIDTH 2u       /* A width of 0 or above 64. */
#define PV_RANGE 3u       /* A number does not fit its width. Carries the index of the record, or 0 for a single field. */
#define PV_SIGNAL 4u      /* A signal to be written is not in the table. Carries the index of the record. */
#define PV_SATELLITE 5u   /* A satellite above 63. Carries the index of the record. */
#define PV_TOO_MANY 6u    /* 64 different satellites, or over 31 biases of one. Carries the lowest satellite over 31, else 64. */
#define PV_DUPLICATE 7u   /* A 1230 signal, or a 1059 satellite and signal, twice. Carries the index of the first repeat. */
#define PV_ROOM 8u        /* A lent output is too small. Carries what would have been needed; each function says in what. */
#define PV_SIZE 9u        /* An input above its limit, lists of unequal length, or an area of fixed size with another size. */
#define PV_NO_PREAMBLE 10u /* The first byte is not D3. */
#define PV_STATE 11u      /* A scanner's held count above 1,029 or above its bytes taken, over 2^48 taken, or a mode that there is not. */
#define PV_INCOMPLETE 12u /* The bytes end before the frame does: more bytes may make it whole. */
#define PV_KIND 13u       /* Another message number, or another edition, than the call takes. */
#define PV_BAD_CHECK 14u  /* The checksum differs. Carries the one sent, and in extra[PV_AT_CARRIED_TOO] the one computed. */
#define PV_FULL 15u       /* No entry has the key, and none is free. */
#define PV_ABSENT 16u     /* No entry has the key. */

/* The name of a refusal, as in "Short"; "Accepted" for 0 and "Unknown" for a number that is no refusal. Never null. */
static inline const char *pv_refusal_name(uint32_t number)
{
    static const char *const names[] = {
        "Accepted", "Short", "Width", "Range", "Signal", "Satellite", "TooMany",
        "Duplicate", "Room", "Size", "NoPreamble", "State", "Incomplete", "Kind", "BadCheck", "Full", "Absent",
    };
    return number < sizeof names / sizeof names[0] ? names[number] : "Unknown";
}

/* ---- Sizes. ---- */

#define PV_EXTRA_SIZE 8      /* Numbers in an extra area, exactly. */
#define PV_HELD_SIZE 1029    /* Bytes in the held area of a scanner, exactly. */
#define PV_FRAME_MIN 6       /* Bytes in the shortest frame: three before the data and three behind. */
#define PV_SEAM_SIZE 2058    /* Bytes in the seam that pv_feed_all copies frames to, exactly. */
#define PV_ALL_MAX 11095     /* Places in lists that are never full: no piece behind held bytes has as many frames. */
#define PV_FRAME_MAX 1029    /* Bytes in the longest frame, and the least output that feeding accepts. */
#define PV_DATA_MAX 1023     /* Bytes in the longest data area. */
#define PV_PIECE_MAX 65536   /* Bytes in the longest piece that one feeding call accepts. */
#define PV_TAKEN_MAX 281474976710656 /* Bytes in the longest stream that a scanner takes: 2^48. */
#define PV_UBX_PAYLOAD_MAX 1021 /* Bytes in the longest UBX payload that a scanner hands out. */
#define PV_1059_READ_MAX 422 /* Records that always suffice for reading a 1059 block. */
#define PV_1059_WRITE_MAX 1953 /* Records in the longest list that a 1059 block is written from. */
#define PV_1230_MAX 4        /* Records in the longest 1230 block, in reading and in writing. */
#define PV_1001_MAX 31       /* Observations in the longest message 1001, in reading and in writing. */
#define PV_CACHE_MAX 512     /* Entries in the longest list of a bias cache. */
#define PV_SETTINGS_SIZE 512 /* Bytes in a settings block, exactly. */
#define PV_SETTINGS_MAX 64   /* Numbers in a settings block at most, and places in the lists that it is read into, exactly. */

/* ---- Where the block starts in the data of a whole message: the bits of the header before it. ---- */

#define PV_1059_BLOCK_START 61
#define PV_1230_BLOCK_START 28

/* ---- Places in the extra area. ---- */

#define PV_AT_CARRIED 0     /* After any refusal. */
#define PV_AT_CARRIED_TOO 1 /* After a refusal that carries two numbers: PV_SHORT, PV_BAD_CHECK. */

#define PV_AT_FIELD_VALUE 0 /* Field read: the value. */
#define PV_AT_FIELD_END 0   /* Field written: the bit behind the field. */

#define PV_AT_FRAME_LENGTH 0      /* Frame check and framing: L + 6. */
#define PV_AT_FRAME_DATA_LENGTH 1 /* Frame check: L. The data are bytes 3 to 3 + L - 1 of the frame. */
#define PV_AT_FRAME_HAS_NUMBER 2  /* Frame check: 1 if there is a message number, else 0. */
#define PV_AT_FRAME_NUMBER 3      /* Frame check: the message number, or 0. */
#define PV_AT_FRAME_CHECKSUM 4    /* Frame check: the checksum. */

#define PV_AT_FED_IS_FRAME 0     /* Feeding: PV_MORE or PV_FRAME; closing: PV_DONE or PV_FRAME. */
#define PV_AT_FED_TAKEN 1        /* Feeding: bytes of the piece taken. */
#define PV_AT_FED_SKIPPED 2      /* Feeding: bytes skipped in this call. */
#define PV_AT_FED_HELD_COUNT 3   /* Feeding: the held count from now on. */
#define PV_AT_FED_FRAME_LENGTH 4 /* Feeding: bytes of the frame in the output, or 0. */
#define PV_AT_FED_PLACE 5        /* Feeding: the stream place of the frame's first byte, or 0. */
#define PV_AT_FED_ALL_TAKEN 6    /* Feeding: bytes taken since fresh, from now on. */
#define PV_AT_FED_KIND 7         /* Feeding: PV_RTCM or PV_UBX; PV_RTCM also where there is no frame. */

#define PV_AT_ALL_COUNT 0      /* All frames: how many are listed. */
#define PV_AT_ALL_TAKEN 1      /* All frames: bytes of the piece taken. */
#define PV_AT_ALL_SKIPPED 2    /* All frames: bytes skipped in this call. */
#define PV_AT_ALL_HELD_COUNT 3 /* All frames: the held count from now on. */
#define PV_AT_ALL_FULL 4       /* All frames: 1 if the lists are full, else 0. */
#define PV_AT_ALL_PLACE 5      /* All frames: the stream place that starts[i] = 0 stands for. */
#define PV_AT_ALL_ALL_TAKEN 6  /* All frames: bytes taken since fresh, from now on. */

#define PV_AT_WHY 0          /* What became of a byte: PV_WHY_FRAME, PV_WHY_NOT_D3, PV_WHY_BAD_CHECK or PV_WHY_HELD. */
#define PV_AT_WHY_PLACE 1    /* The place of the frame, of the byte itself, or of the unfinished candidate. */
#define PV_AT_WHY_LENGTH 2   /* Bytes of the frame, or from the candidate to the end; else 0. */
#define PV_AT_WHY_SENT 3     /* PV_WHY_BAD_CHECK: the checksum sent; else 0. */
#define PV_AT_WHY_COMPUTED 4 /* PV_WHY_BAD_CHECK: the checksum computed; else 0. */
#define PV_WHY_FRAME 0       /* The byte is part of a frame. */
#define PV_WHY_NOT_D3 1      /* It was skipped: it is not D3. */
#define PV_WHY_BAD_CHECK 2   /* It was skipped: a D3 whose checksum is wrong. */
#define PV_WHY_HELD 3        /* It is held: an unfinished candidate waits for more bytes. */

#define PV_AT_READ_RECORDS 0 /* Block read: how many records. */
#define PV_AT_READ_END 1     /* Block read: the bit behind the block. */
#define PV_AT_WRITTEN_END 0  /* Block written: the bit behind the block. */

#define PV_AT_1059_EPOCH 2    /* Message 1059 read: the GPS epoch time in s, */
#define PV_AT_1059_INTERVAL 3 /* the update interval, */
#define PV_AT_1059_MULTIPLE 4 /* the multiple message flag, */
#define PV_AT_1059_IOD 5      /* the issue of data, */
#define PV_AT_1059_PROVIDER 6 /* the provider, */
#define PV_AT_1059_SOLUTION 7 /* the solution. */

#define PV_AT_1230_STATION 2   /* Message 1230 read: the reference station, */
#define PV_AT_1230_INDICATOR 3 /* the bias indicator, */
#define PV_AT_1230_RESERVED 4  /* the three reserved bits. */

#define PV_AT_1001_STATION 2     /* Message 1001 read: the reference station, */
#define PV_AT_1001_EPOCH 3       /* the GPS epoch time in ms, */
#define PV_AT_1001_SYNCHRONOUS 4 /* the synchronous GNSS flag, */
#define PV_AT_1001_SMOOTHING 5   /* the divergence-free smoothing flag, */
#define PV_AT_1001_INTERVAL 6    /* the smoothing interval. */

#define PV_AT_MEASURED_KIND 0  /* Raw number of message 1001: what it measures, */
#define PV_AT_MEASURED_VALUE 1 /* the count, or the 64 bits of the double. */
#define PV_MEASURED_ABSENT 0
#define PV_MEASURED_COUNT 1
#define PV_MEASURED_METRES 2

#define PV_AT_SIGNAL_FOUND 0  /* Number to signal: 1 if the table has the number, else 0. */
#define PV_AT_SIGNAL_BAND 1   /* Number to signal: the band, as in 1 of 1C. */
#define PV_AT_SIGNAL_LETTER 2 /* Number to signal: the letter's ASCII code, as in C of 1C. */
#define PV_AT_NUMBER_FOUND 0  /* Signal to number: 1 if the table has the signal, else 0. */
#define PV_AT_NUMBER 1        /* Signal to number: the number. */
#define PV_AT_ORDER 0         /* Order of signals: -1, 0 or 1. */

#define PV_AT_DIFFERING_START 0 /* Comparing: the first byte that differs, or 0. */
#define PV_AT_DIFFERING_COUNT 1 /* Comparing: how many bytes from there to the last that differs, or 0. */

#define PV_AT_SETTINGS_COUNT 0   /* Settings read: how many numbers. */
#define PV_AT_SETTINGS_EDITION 1 /* Settings read: the edition of the block. */
#define PV_AT_SETTINGS_BYTES 0   /* Settings written: the bytes of the block, 512. */

#define PV_AT_CACHE_IOD 0  /* Cache lookup: the IOD. */
#define PV_AT_CACHE_BIAS 1 /* Cache lookup: the raw bias, as int64_t. */

/* What feeding answers at PV_AT_FED_IS_FRAME. */
#define PV_MORE 0  /* The whole piece was taken, and there is no frame yet. */
#define PV_FRAME 1 /* A frame was handed out. */
#define PV_DONE 0  /* Closing: nothing is held any more. */

/* The kinds of frames, at PV_AT_FED_KIND. */
#define PV_RTCM 0
#define PV_UBX 1

/* What a scanner is opened for: its mode. */
#define PV_RTCM_ONLY 0u
#define PV_RTCM_AND_UBX 1u

/* ---- Checksum. ---- */

/*
 * The CRC-24Q of the bytes: polynomial 864CFB hex, start 0, most significant bit first, no final change. Of no bytes it
 * is 0. Takes any length and never refuses.
 */
uint32_t pv_crc24q(const uint8_t *bytes, size_t bytes_len);

/* ---- Bit fields. ---- */

/*
 * Read the field of `width` bits from bit `start` on, most significant bit first; bit 0 is the top bit of byte 0. As an
 * unsigned number, in two's complement, or as sign and magnitude, where the top bit is the sign and minus zero reads as
 * 0. Any start is allowed, also far past the end.
 *
 * Refuses, in this order: PV_SIZE (data above 1,023 bytes), PV_WIDTH, PV_SHORT (carries `start`, and how many bits are
 * missing: from the field's end back to the data's end, or to the field's start if that lies past it).
 * Answers: [PV_AT_FIELD_VALUE] the value; for the signed readings as int64_t.
 */
uint32_t pv_field_read_unsigned(const uint8_t *data, size_t data_len, size_t start, size_t width,
                                uint64_t *extra, size_t extra_len);
uint32_t pv_field_read_twos(const uint8_t *data, size_t data_len, size_t start, size_t width,
                            uint64_t *extra, size_t extra_len);
uint32_t pv_field_read_signmag(const uint8_t *data, size_t data_len, size_t start, size_t width,
                               uint64_t *extra, size_t extra_len);

/*
 * Write a number into the `width` bits from bit `start` on and change no other bit. What fits w bits: unsigned, 0 to
 * 2^w - 1; two's complement, -2^(w-1) to 2^(w-1) - 1; sign and magnitude, -(2^(w-1) - 1) to 2^(w-1) - 1.
 *
 * Refuses, in this order: PV_SIZE (data above 1,023 bytes), PV_WIDTH, PV_RANGE (carries 0), PV_ROOM (the field reaches
 * past the data; carries `width`).
 * Answers: [PV_AT_FIELD_END] the bit behind the field.
 */
uint32_t pv_field_write_unsigned(uint8_t *data, size_t data_len, size_t start, size_t width, uint64_t value,
                                 uint64_t *extra, size_t extra_len);
uint32_t pv_field_write_twos(uint8_t *data, size_t data_len, size_t start, size_t width, int64_t value,
                             uint64_t *extra, size_t extra_len);
uint32_t pv_field_write_signmag(uint8_t *data, size_t data_len, size_t start, size_t width, int64_t value,
                                uint64_t *extra, size_t extra_len);

/* ---- One frame. ---- */

/*
 * Checks whether the bytes begin with a whole and undamaged frame: D3; six reserved bits, which are ignored; a length L
 * of ten bits; L data bytes; the checksum of the first L + 3 bytes in three bytes, highest first. Takes any length;
 * bytes after the frame are ignored.
 *
 * Refuses, in this order: PV_INCOMPLETE (fewer than 6 bytes, whatever they are), PV_NO_PREAMBLE (the first byte is not
 * D3), PV_INCOMPLETE (fewer than L + 6 bytes), PV_BAD_CHECK (the checksum differs; carries the one sent in
 * [PV_AT_CARRIED] and the one computed in [PV_AT_CARRIED_TOO]).
 * Answers: [PV_AT_FRAME_LENGTH] L + 6; [PV_AT_FRAME_DATA_LENGTH] L, the data starting at byte 3;
 * [PV_AT_FRAME_HAS_NUMBER] 1 if L is at least 2, else 0; [PV_AT_FRAME_NUMBER] the first 12 data bits, or 0;
 * [PV_AT_FRAME_CHECKSUM] the checksum.
 */
uint32_t pv_frame_check(const uint8_t *bytes, size_t bytes_len, uint64_t *extra, size_t extra_len);

/*
 * Writes the frame of the data, its reserved bits 0, to the start of the output; later output bytes stay as they are.
 *
 * Refuses, in this order: PV_SIZE (data above 1,023 bytes), PV_ROOM (output below data_len + 6 bytes; carries that).
 * Answers: [PV_AT_FRAME_LENGTH] data_len + 6.
 */
uint32_t pv_frame_write(const uint8_t *data, size_t data_len, uint8_t *out, size_t out_len,
                        uint64_t *extra, size_t extra_len);

/* ---- What was sent against what was received. ---- */

/*
 * Compares a received frame with the sent one, byte by byte; any two areas of one length will do, whatever they hold.
 *
 * Refuses: PV_SIZE (the lengths are unequal).
 * Answers: [PV_AT_DIFFERING_START] the first byte that differs; [PV_AT_DIFFERING_COUNT] how many bytes from there to the
 * last that differs, both included. Both are 0 if the areas are equal.
 */
uint32_t pv_differing(const uint8_t *sent, size_t sent_len, const uint8_t *received, size_t received_len,
                      uint64_t *extra, size_t extra_len);

/* ---- Scanning a stream that comes in pieces. ---- */

/*
 * Feeds a piece of the stream to a scanner and hands out at most one frame. A scanner is its held bytes, an area of
 * exactly 1,029 bytes, and three numbers: how many of the bytes are held, how many bytes it took since it was fresh, and
 * its mode, PV_RTCM_ONLY or PV_RTCM_AND_UBX. A fresh scanner has a held count of 0 and has taken 0; setting both to 0
 * resets it, and the mode stays. Most programs use pv_scanner_feed below, which keeps all of it together.
 *
 * A frame's place is where its first byte stands in the stream, counted from 0 at the first byte taken since fresh.
 *
 * In PV_RTCM_AND_UBX the scanner hands out UBX frames too: B5 62, class, id, the payload's length in two bytes, low byte
 * first, the payload, and two sums. The leftmost frame comes first. A B5 is skipped as soon as another byte than 62
 * follows it, its length is above PV_UBX_PAYLOAD_MAX, or its sums are wrong. Receivers send longer UBX messages too: their
 * bytes are skipped. A UBX candidate that waits for bytes holds back the frames behind it, as a D3 does.
 *
 * The scanner skips each byte that starts no frame, one at a time: after a bad checksum it skips that one D3 and not the
 * declared length, so a good frame inside the damage is found. How the stream is cut into pieces makes no difference.
 *
 * The answer is PV_FRAME, with the frame at the start of `out` and later output bytes kept; or PV_MORE, with nothing
 * written to `out` and the whole piece taken. Both return 0. After PV_FRAME call again with the untaken rest of the
 * piece, piece + taken, and go on, also with an empty rest, until PV_MORE.
 *
 * What surprises:
 * - Taken is the furthest byte that had to be seen, not the end of the frame. Where a false D3 announced a long frame,
 *   bytes behind the good frame are taken with it and are held.
 * - So an empty piece can hand out a frame: it was held already. After the last piece, too, go on until PV_MORE.
 * - One call may skip more bytes than it takes, since held bytes are skipped too.
 * - Held bytes need not begin with D3 after PV_FRAME; the next call skips what is wrong with them. After PV_MORE they
 *   are empty or begin with a D3 whose frame is not yet whole.
 * - A D3 is decided once the 1,028 bytes after it have been taken, often sooner. Until then frames behind it wait.
 * - From fresh, bytes taken equal bytes in frames plus bytes skipped plus bytes held.
 *
 * Refuses, in this order: PV_SIZE (held_len is not 1,029; like a wrong extra_len this writes nothing at all, `extra`
 * included), PV_STATE (held_count above 1,029 or above `taken`, `taken` above 2^48, `mode` above 1), PV_SIZE (piece above
 * 65,536 bytes, or `taken` with the piece above 2^48), PV_ROOM (output below 1,029 bytes, also where no frame would come;
 * carries 1,029). Keep the old numbers after a refusal.
 * Answers: [PV_AT_FED_IS_FRAME] PV_MORE or PV_FRAME; [PV_AT_FED_TAKEN]; [PV_AT_FED_SKIPPED]; [PV_AT_FED_HELD_COUNT] and
 * [PV_AT_FED_ALL_TAKEN] the numbers to pass to the next call; [PV_AT_FED_FRAME_LENGTH]; [PV_AT_FED_PLACE];
 * [PV_AT_FED_KIND]. The held area past the held count stays as it was.
 */
uint32_t pv_feed(uint8_t *held, size_t held_len, size_t held_count, uint64_t taken, uint32_t mode,
                 const uint8_t *piece, size_t piece_len, uint8_t *out, size_t out_len,
                 uint64_t *extra, size_t extra_len);

/*
 * Feeds a piece to a scanner and lists its frames, all of them in one call. The scanner is that of pv_feed; the two calls
 * may be mixed, and find the same frames, at the same places, skip the same bytes and hold the same.
 *
 * Frame i starts at starts[i], has lengths[i] bytes and is of kinds[i], PV_RTCM or PV_UBX. Starts are counted from the
 * first byte that was held before the call, or from the piece's first byte if none was: frame i stands at stream place
 * extra[PV_AT_ALL_PLACE] + starts[i]. The bytes of a frame are not copied but lie where they are:
 *
 *     starts[i] >= held_count     in the piece, at piece + (starts[i] - held_count), where held_count is the one before
 *     starts[i] < held_count      in the seam, at seam + starts[i]: the frame began in the held bytes, and was put together
 *
 * The seam is an area of exactly 2,058 bytes that a program may lend again and again; it has to last until the frames were
 * looked at, as the piece has. Other bytes of it, and later places of the lists, stay as they were.
 *
 * With fewer frames than the lists have places the whole piece is taken, and more bytes are needed. Where the lists are
 * full, scanning stops right behind the last frame: call again with the untaken rest of the piece, piece + taken, also if
 * that is empty. There may or may not be more frames then. A frame has at least 6 bytes, so lists of PV_ALL_MAX (11,095)
 * places are never full.
 *
 * Skipped are the bytes before the last frame of full lists, else before the bytes then held, that are in no frame.
 *
 * Refuses, in this order: PV_SIZE (held_len is not 1,029 or seam_len not 2,058; like a wrong extra_len this writes nothing
 * at all, `extra` included), PV_STATE as pv_feed does, PV_SIZE (piece above 65,536 bytes, `taken` with the piece above
 * 2^48, or lists of unequal length), PV_ROOM (lists of no place; carries 1). Keep the old numbers after a refusal.
 * Answers: [PV_AT_ALL_COUNT]; [PV_AT_ALL_TAKEN]; [PV_AT_ALL_SKIPPED]; [PV_AT_ALL_HELD_COUNT] and [PV_AT_ALL_ALL_TAKEN] the
 * numbers to pass to the next call; [PV_AT_ALL_FULL]; [PV_AT_ALL_PLACE].
 */
uint32_t pv_feed_all(uint8_t *held, size_t held_len, size_t held_count, uint64_t taken, uint32_t mode,
                     const uint8_t *piece, size_t piece_len, uint8_t *seam, size_t seam_len,
                     uint32_t *starts, size_t starts_len, uint32_t *lengths, size_t lengths_len,
                     uint8_t *kinds, size_t kinds_len, uint64_t *extra, size_t extra_len);

/*
 * Closes a recording: hands out at most one frame of the bytes that a scanner still holds once no more bytes come. A false
 * D3 near the end of a recording hides the good frames behind it, since it waits for bytes that never come. Here nothing
 * waits: a candidate that is unfinished is skipped by one byte, and the search goes on behind it.
 *
 * The answer is PV_FRAME, as in feeding; or PV_DONE, with nothing written to `out`: then nothing is held, and the numbers
 * to pass on are those of a fresh scanner of the same mode. Both return 0. Call it again until PV_DONE.
 *
 * Over a recording that is fed and then closed, bytes taken equal bytes in frames plus bytes skipped, where skipped also
 * counts the bytes given up in closing. What follows is another recording: its places start at 0.
 *
 * Refuses, in this order: PV_SIZE (held_len is not 1,029; like a wrong extra_len this writes nothing at all), PV_STATE and
 * PV_ROOM as pv_feed does.
 * Answers, at the places of pv_feed's: [PV_AT_FED_IS_FRAME] PV_DONE or PV_FRAME; [PV_AT_FED_TAKEN] 0; [PV_AT_FED_SKIPPED];
 * [PV_AT_FED_HELD_COUNT] and [PV_AT_FED_ALL_TAKEN] the numbers to pass to the next call; [PV_AT_FED_FRAME_LENGTH];
 * [PV_AT_FED_PLACE]; [PV_AT_FED_KIND].
 */
uint32_t pv_close(uint8_t *held, size_t held_len, size_t held_count, uint64_t taken, uint32_t mode,
                  uint8_t *out, size_t out_len, uint64_t *extra, size_t extra_len);

/* ---- Why a byte of a recording was dropped. ---- */

/*
 * Says what became of one byte of a recording, as the scan of the whole recording for RTCM frames has it: it is part of a
 * frame; it was skipped, because it is not D3 or because it is a D3 whose checksum was wrong; or it is held at the end,
 * from an unfinished candidate on.
 *
 * Refuses: PV_SIZE (a recording above 65,536 bytes, or a place at or past its end).
 * Answers: [PV_AT_WHY] PV_WHY_FRAME, PV_WHY_NOT_D3, PV_WHY_BAD_CHECK or PV_WHY_HELD; [PV_AT_WHY_PLACE] where the frame
 * or the candidate starts, else the place itself; [PV_AT_WHY_LENGTH] the bytes of the frame, or from the candidate to the
 * end, else 0; [PV_AT_WHY_SENT] and [PV_AT_WHY_COMPUTED] both checksums of PV_WHY_BAD_CHECK, else 0.
 */
uint32_t pv_why(const uint8_t *recording, size_t recording_len, size_t place, uint64_t *extra, size_t extra_len);

/* ---- The bias block of message 1059 (GPS code biases). ---- */

/*
 * Reads a block from bit `start` of the data on: a satellite count (6 bits); for each satellite its number (6) and its
 * bias count (5); for each bias its signal (5) and the bias (14, two's complement, in 0.01 m). Record i is satellites[i],
 * signals[i], biases[i]. The records come in the order of the stream; later places of the lists stay as they are. Lists
 * of PV_1059_READ_MAX (422) always suffice, and longer ones are accepted. In the data of a message 1059 the block starts
 * at bit PV_1059_BLOCK_START (61), behind the header.
 *
 * A reserved signal is kept as its number with its bias: a signal that is read need not be one that can be written.
 *
 * Refuses, in this order: PV_SIZE (data above 1,023 bytes, or lists of unequal length), PV_SHORT (carries the bit where
 * the first field that does not fit starts, and how many of its bits are missing), PV_ROOM (more records in the block
 * than places in the lists; carries how many records there are). The whole block is read first, so PV_SHORT wins over
 * PV_ROOM.
 * Answers: [PV_AT_READ_RECORDS] the number of records; [PV_AT_READ_END] the bit behind the block.
 */
uint32_t pv_1059_read(const uint8_t *data, size_t data_len, size_t start, uint8_t *satellites, size_t satellites_len,
                      uint8_t *signals, size_t signals_len, int16_t *biases, size_t biases_len,
                      uint64_t *extra, size_t extra_len);

/*
 * Writes the block of at most 1,953 records, in any order, from bit `start` of the data on. Bits outside the block stay
 * as they are. Satellites go out ascending, the records of one satellite in the order of the list. The caller chooses the edition of the signals. Edition 1: 0 1C, 1 1P, 2 1W, 5 2C, 6 2D, 7 2S, 8 2L, 9 2X,
 * 10 2P, 11 2W, 14 5I, 15 5Q; the rest are reserved. Edition 2 adds 3 1Y, 4 1M, 12 2Y, 13 2M. What edition 1 accepts,
 * edition 2 writes to the same bits. Reading takes no edition.
 *
 * Refuses, in this order: PV_KIND (an edition other than 1 and 2); PV_SIZE (data above 1,023 bytes, lists of unequal
 * length or above 1,953); then the first faulty record and, for it, PV_SATELLITE (above 63), PV_SIGNAL (not a signal of
 * the edition), PV_RANGE (bias outside -8192 to 8191), each
 * carrying its index; PV_TOO_MANY (over 31 biases of one satellite: carries the lowest such satellite; else 64 different
 * satellites: carries 64); PV_DUPLICATE (a satellite and signal twice; carries the index of the first record that repeats
 * an earlier one; reading keeps both); PV_ROOM (the block reaches past the data; carries the bits of the whole block). An empty list
 * is a block of 6 bits.
 * Answers: [PV_AT_WRITTEN_END] the bit behind the block.
 */
uint32_t pv_1059_write(uint32_t edition, uint8_t *data, size_t data_len, size_t start, const uint8_t *satellites,
                       size_t satellites_len, const uint8_t *signals, size_t signals_len, const int16_t *biases,
                       size_t biases_len, uint64_t *extra, size_t extra_len);

/*
 * The signal that a number stands for in an edition of the 1059 signals, 1 or 2. Refuses PV_KIND (any other edition).
 * Answers: [PV_AT_SIGNAL_FOUND] 1 if it is in the edition's table, else 0; [PV_AT_SIGNAL_BAND]; [PV_AT_SIGNAL_LETTER].
 */
uint32_t pv_1059_signal_of(uint32_t edition, uint32_t number, uint64_t *extra, size_t extra_len);

/*
 * The number of a signal in an edition of the 1059 signals, as in 2, 1, 'Y'. A band or a letter above 255 is in no table.
 * Refuses PV_KIND (an edition other than 1 and 2).
 * Answers: [PV_AT_NUMBER_FOUND] 1 if it is in the edition's table, else 0; [PV_AT_NUMBER] the number.
 */
uint32_t pv_1059_number_of(uint32_t edition, uint32_t band, uint32_t letter, uint64_t *extra, size_t extra_len);

/* A raw 1059 bias in metres: the number as a float times 0.01f, rounded once. */
float pv_1059_metres(int16_t raw);

/* ---- The bias block of message 1230 (GLONASS code-phase biases). ---- */

/*
 * Reads a block from bit `start` of the data on: a mask (4 bits, from the top 1C, 1P, 2C, 2P), then 16 bits two's
 * complement in 0.02 m for each set bit. A record's signal is its number in the table of PV_GLO: 2, 3, 8 or 9, and not
 * its place in the mask. Records come in mask order; later places of the lists stay as they are. In the data of a message
 * 1230 the block starts at bit PV_1230_BLOCK_START (28), behind the header.
 *
 * Refuses, in this order: PV_SIZE (data above 1,023 bytes, or lists of unequal length), PV_SHORT (carries the bit where
 * the first field that does not fit starts, and how many of its bits are missing), PV_ROOM (carries how many records
 * there are).
 * Answers: [PV_AT_READ_RECORDS] the number of records, 0 to 4; [PV_AT_READ_END] the bit behind the block.
 */
uint32_t pv_1230_read(const uint8_t *data, size_t data_len, size_t start, uint8_t *signals, size_t signals_len,
                      int16_t *biases, size_t biases_len, uint64_t *extra, size_t extra_len);

/*
 * Writes the block of at most 4 records from bit `start` of the data on, in mask order whatever order the list has. Bits
 * outside the block stay as they are.
 *
 * Refuses, in this order: PV_SIZE (data above 1,023 bytes, lists of unequal length or above 4), PV_SIGNAL (the first
 * signal other than 2, 3, 8, 9; carries its index), PV_DUPLICATE (carries the index of the first record that repeats an
 * earlier signal), PV_ROOM (the block reaches past the data; carries the bits of the whole block). An empty list is a
 * block of 4 bits.
 * Answers: [PV_AT_WRITTEN_END] the bit behind the block.
 */
uint32_t pv_1230_write(uint8_t *data, size_t data_len, size_t start, const uint8_t *signals, size_t signals_len,
                       const int16_t *biases, size_t biases_len, uint64_t *extra, size_t extra_len);

/* A raw 1230 bias in metres: the number as a float times 0.02f, rounded once. Its unit is not that of 1059. */
float pv_1230_metres(int16_t raw);

/* ---- Whole messages 1059 and 1230: number, header and bias block. ---- */

/*
 * Reads a whole message 1059 from bit 0 of the data on: the number 1059 (12 bits), epoch (20), update interval (4),
 * multiple message flag (1), IOD (4), provider (16), solution (4); then the block, as pv_1059_read has it from bit
 * PV_1059_BLOCK_START (61) on.
 *
 * Refuses, in this order: PV_SIZE (data above 1,023 bytes, or lists of unequal length); PV_SHORT of the number, PV_KIND
 * (another number), PV_SHORT of a later field (carries the bit where it starts, and how many of its bits are missing);
 * PV_ROOM (more records than places; carries how many there are).
 * Answers: [PV_AT_READ_RECORDS] the number of records; [PV_AT_READ_END] the bit behind the message; [PV_AT_1059_EPOCH]
 * and on: the header.
 */
uint32_t pv_1059_message_read(const uint8_t *data, size_t data_len, uint8_t *satellites, size_t satellites_len,
                              uint8_t *signals, size_t signals_len, int16_t *biases, size_t biases_len,
                              uint64_t *extra, size_t extra_len);

/*
 * Writes a whole message 1059 from bit 0 of the data on, its records as pv_1059_write does. Bits behind the message stay
 * as they are.
 *
 * Refuses, in this order: PV_KIND (an edition other than 1 and 2); PV_SIZE (data above 1,023 bytes, lists of unequal
 * length or above 1,953); PV_RANGE (a number of the header does not fit its field; carries 0); then what pv_1059_write
 * refuses of its records; PV_ROOM (carries the bits of the whole message).
 * Answers: [PV_AT_WRITTEN_END] the bit behind the message.
 */
uint32_t pv_1059_message_write(uint32_t edition, uint8_t *data, size_t data_len, uint32_t epoch, uint32_t interval,
                               uint32_t multiple, uint32_t iod, uint32_t provider, uint32_t solution,
                               const uint8_t *satellites, size_t satellites_len, const uint8_t *signals,
                               size_t signals_len, const int16_t *biases, size_t biases_len,
                               uint64_t *extra, size_t extra_len);

/*
 * Reads a whole message 1230 from bit 0 of the data on: the number 1230 (12 bits), reference station (12), bias indicator
 * (1), reserved bits (3), which are kept as they are; then the block, as pv_1230_read has it from bit PV_1230_BLOCK_START
 * (28) on.
 *
 * Refuses, in this order: PV_SIZE (data above 1,023 bytes, or lists of unequal length); PV_SHORT of the number, PV_KIND
 * (another number), PV_SHORT of a later field (carries the bit where it starts, and how many of its bits are missing);
 * PV_ROOM (more records than places; carries how many there are).
 * Answers: [PV_AT_READ_RECORDS] the number of records; [PV_AT_READ_END] the bit behind the message; [PV_AT_1230_STATION]
 * and on: the header.
 */
uint32_t pv_1230_message_read(const uint8_t *data, size_t data_len, uint8_t *signals, size_t signals_len,
                              int16_t *biases, size_t biases_len, uint64_t *extra, size_t extra_len);

/*
 * Writes a whole message 1230 from bit 0 of the data on, its records as pv_1230_write does. Bits behind the message stay
 * as they are.
 *
 * Refuses, in this order: PV_SIZE (data above 1,023 bytes, lists of unequal length or above 4); PV_RANGE (a number of the
 * header does not fit its field; carries 0); then what pv_1230_write refuses of its records; PV_ROOM (carries the bits of
 * the whole message).
 * Answers: [PV_AT_WRITTEN_END] the bit behind the message.
 */
uint32_t pv_1230_message_write(uint8_t *data, size_t data_len, uint32_t station, uint32_t indicator, uint32_t reserved,
                               const uint8_t *signals, size_t signals_len, const int16_t *biases, size_t biases_len,
                               uint64_t *extra, size_t extra_len);

/* What stands between the number and the block of message 1059. */
struct pv_1059_header {
    uint32_t epoch;    /* 20 bits: seconds of the GPS week. */
    uint32_t interval; /* 4 bits: the update interval. */
    uint32_t multiple; /* 1 bit: 1 if more messages of this epoch follow. */
    uint32_t iod;      /* 4 bits: the issue of data. */
    uint32_t provider; /* 16 bits. */
    uint32_t solution; /* 4 bits. */
};

/* What stands between the number and the block of message 1230. */
struct pv_1230_header {
    uint32_t station;   /* 12 bits: the reference station. */
    uint32_t indicator; /* 1 bit: the code-phase bias indicator. */
    uint32_t reserved;  /* 3 bits, kept as read. */
};

/*
 * The four calls with the header in a struct: the same answers and refusals, in the same order. A header that is read into
 * changes only where 0 is returned.
 */
static inline uint32_t pv_1059_message_get(const uint8_t *data, size_t data_len, struct pv_1059_header *header,
                                           uint8_t *satellites, size_t satellites_len, uint8_t *signals,
                                           size_t signals_len, int16_t *biases, size_t biases_len,
                                           uint64_t *extra, size_t extra_len)
{
    uint32_t refusal = pv_1059_message_read(data, data_len, satellites, satellites_len, signals, signals_len, biases,
                                            biases_len, extra, extra_len);
    if (refusal != PV_ACCEPTED)
        return refusal;
    header->epoch = (uint32_t)extra[PV_AT_1059_EPOCH];
    header->interval = (uint32_t)extra[PV_AT_1059_INTERVAL];
    header->multiple = (uint32_t)extra[PV_AT_1059_MULTIPLE];
    header->iod = (uint32_t)extra[PV_AT_1059_IOD];
    header->provider = (uint32_t)extra[PV_AT_1059_PROVIDER];
    header->solution = (uint32_t)extra[PV_AT_1059_SOLUTION];
    return PV_ACCEPTED;
}

static inline uint32_t pv_1059_message_put(uint32_t edition, uint8_t *data, size_t data_len,
                                           const struct pv_1059_header *header, const uint8_t *satellites,
                                           size_t satellites_len, const uint8_t *signals, size_t signals_len,
                                           const int16_t *biases, size_t biases_len,
                                           uint64_t *extra, size_t extra_len)
{
    return pv_1059_message_write(edition, data, data_len, header->epoch, header->interval, header->multiple, header->iod,
                                 header->provider, header->solution, satellites, satellites_len, signals, signals_len,
                                 biases, biases_len, extra, extra_len);
}

static inline uint32_t pv_1230_message_get(const uint8_t *data, size_t data_len, struct pv_1230_header *header,
                                           uint8_t *signals, size_t signals_len, int16_t *biases, size_t biases_len,
                                           uint64_t *extra, size_t extra_len)
{
    uint32_t refusal = pv_1230_message_read(data, data_len, signals, signals_len, biases, biases_len, extra, extra_len);
    if (refusal != PV_ACCEPTED)
        return refusal;
    header->station = (uint32_t)extra[PV_AT_1230_STATION];
    header->indicator = (uint32_t)extra[PV_AT_1230_INDICATOR];
    header->reserved = (uint32_t)extra[PV_AT_1230_RESERVED];
    return PV_ACCEPTED;
}

static inline uint32_t pv_1230_message_put(uint8_t *data, size_t data_len, const struct pv_1230_header *header,
                                           const uint8_t *signals, size_t signals_len, const int16_t *biases,
                                           size_t biases_len, uint64_t *extra, size_t extra_len)
{
    return pv_1230_message_write(data, data_len, header->station, header->indicator, header->reserved, signals,
                                 signals_len, biases, biases_len, extra, extra_len);
}

/* ---- Message 1001 (GPS L1 observations). ---- */

/*
 * Reads a whole message from bit 0 of the data on: the number 1001 (12 bits), station (12), epoch in ms (30), synchronous
 * flag (1), how many observations (5), smoothing flag (1), smoothing interval (3); for each observation the satellite (6),
 * code indicator (1), pseudorange (24), phase range less pseudorange (20, two's complement), lock time indicator (7).
 * Observation i is number i of the five lists, as raw numbers; later places stay as they are. Lists of PV_1001_MAX (31)
 * always suffice.
 *
 * Refuses, in this order: PV_SIZE (data above 1,023 bytes, or lists of unequal length); PV_SHORT of the number, PV_KIND
 * (another number), PV_SHORT of a later field (carries the bit where it starts, and how many of its bits are missing);
 * PV_ROOM (more observations than places; carries how many there are).
 * Answers: [PV_AT_READ_RECORDS] the number of observations; [PV_AT_READ_END] the bit behind the message;
 * [PV_AT_1001_STATION] and on: the header.
 */
uint32_t pv_1001_read(const uint8_t *data, size_t data_len, uint8_t *satellites, size_t satellites_len, uint8_t *codes,
                      size_t codes_len, uint32_t *pseudoranges, size_t pseudoranges_len, int32_t *phases,
                      size_t phases_len, uint8_t *locks, size_t locks_len, uint64_t *extra, size_t extra_len);

/*
 * Writes a whole message from bit 0 of the data on. Bits behind it stay as they are. The count is that of the lists.
 *
 * Refuses, in this order: PV_SIZE (data above 1,023 bytes, or lists of unequal length); PV_RANGE (a number of the header
 * that does not fit its field; carries 0); then the first faulty observation and, for it, PV_SATELLITE (above 63),
 * PV_RANGE (another number that does not fit its field), each carrying its index; PV_TOO_MANY (over 31 observations;
 * carries 32); PV_ROOM (carries the bits of the whole message).
 * Answers: [PV_AT_WRITTEN_END] the bit behind the message.
 */
uint32_t pv_1001_write(uint8_t *data, size_t data_len, uint32_t station, uint32_t epoch, uint32_t synchronous,
                       uint32_t smoothing, uint32_t interval, const uint8_t *satellites, size_t satellites_len,
                       const uint8_t *codes, size_t codes_len, const uint32_t *pseudoranges, size_t pseudoranges_len,
                       const int32_t *phases, size_t phases_len, const uint8_t *locks, size_t locks_len,
                       uint64_t *extra, size_t extra_len);

/*
 * What a raw number measures. [PV_AT_MEASURED_KIND] is PV_MEASURED_ABSENT, PV_MEASURED_COUNT or PV_MEASURED_METRES;
 * [PV_AT_MEASURED_VALUE] is the count, or the 64 bits of a double: the raw number as a double times the unit, rounded
 * once. A pseudorange is in 0.02 m, and FFFFFF hex is absent; a phase range is in 0.0005 m, and -80000 hex is absent; a
 * lock time indicator is a count. These calls refuse nothing but the size of `extra`.
 */
uint32_t pv_1001_pseudorange(uint32_t raw, uint64_t *extra, size_t extra_len);
uint32_t pv_1001_phase(int32_t raw, uint64_t *extra, size_t extra_len);
uint32_t pv_1001_lock(uint32_t raw, uint64_t *extra, size_t extra_len);

/* ---- Settings blocks. ---- */

/*
 * A settings block keeps up to 64 message numbers, each 0 to 4,095, in 512 bytes with a checksum of their own, so that
 * they outlive a software update: bytes 0 and 1 the index of the block, high byte first; byte 2 the edition; byte 3 the
 * count; the numbers, two bytes each, high byte first; zeros; the CRC-24Q of bytes 0 to 508 in the last three. Edition 2
 * gives each number a third byte, a priority 0 to 7.
 *
 * Reads the block that the caller expects to have this index. A reader of edition 1 reads blocks of edition 1; one of
 * edition 2 reads both, with priorities 0 for edition 1. The numbers are written to the first places of the lists; later
 * places stay. Both lists have exactly 64 places, which is tested after `extra` and before all else: another length is
 * PV_SIZE, and then nothing at all is written.
 *
 * Refuses, in this order: PV_SIZE (the block has not 512 bytes), PV_BAD_CHECK (carries both checksums), PV_KIND (an
 * edition that the reader does not read, and any reader but 1 and 2; so also a block of zeros), PV_RANGE (another index,
 * or a count above 64; carries 0), PV_RANGE (carries the index of the first bad number or priority), PV_RANGE (a byte
 * behind the numbers is not 0; carries 0).
 * Answers: [PV_AT_SETTINGS_COUNT] how many numbers; [PV_AT_SETTINGS_EDITION] the block's edition.
 */
uint32_t pv_settings_read(const uint8_t *block, size_t block_len, uint32_t reader_edition, uint32_t index,
                          uint16_t *numbers, size_t numbers_len, uint8_t *priorities, size_t priorities_len,
                          uint64_t *extra, size_t extra_len);

/*
 * Writes the block of this index and edition to the start of the output; later output bytes stay. Edition 1 does not
 * look at the priorities, but their list is as long as that of the numbers.
 *
 * Refuses, in this order: PV_KIND (an edition other than 1 and 2), PV_SIZE (lists of unequal length or above 64),
 * PV_RANGE (an index above 65,535; carries 0), PV_RANGE (carries the index of the first bad number or priority),
 * PV_ROOM (output below 512 bytes; carries 512).
 * Answers: [PV_AT_SETTINGS_BYTES] 512.
 */
uint32_t pv_settings_write(uint32_t edition, uint32_t index, const uint16_t *numbers, size_t numbers_len,
                           const uint8_t *priorities, size_t priorities_len, uint8_t *out, size_t out_len,
                           uint64_t *extra, size_t extra_len);

/* ---- The bias cache. ---- */

/*
 * An entry of a bias cache. `in_use` 0 is free, whatever the other numbers are; any other number is in use. A list whose
 * bytes are all 0 is an empty cache.
 */
struct pv_cache_entry {
    uint16_t in_use, provider, solution, satellite, signal, iod;
    int16_t bias;
};

/*
 * A cache is a list of at most 512 entries that the caller keeps. The key of an entry is provider, solution, satellite
 * and signal together: what one provider stores, another never sees. Room is the one thing that providers share. Where a
 * list holds a key twice, the first place counts.
 *
 * Store replaces the entry with the same key, or takes the first free one, and writes 1 and the six numbers. Remove frees
 * the first entry with the key: seven zeros; a freed entry is used again. Lookup finds the entry with the whole key.
 *
 * Each refuses, in this order: PV_SIZE (more than 512 entries), PV_RANGE (a number outside its message field: provider 16
 * bits, solution 4, satellite 6, signal 5, iod 4, bias 14 bits of two's complement; carries 0), then
 * store PV_FULL (exactly if neither the key nor a free entry is there), remove and lookup PV_ABSENT.
 * Lookup answers: [PV_AT_CACHE_IOD]; [PV_AT_CACHE_BIAS], as int64_t. Store and remove answer nothing.
 */
uint32_t pv_cache_store(struct pv_cache_entry *entries, size_t entries_len, uint32_t provider, uint32_t solution,
                        uint32_t satellite, uint32_t signal, uint32_t iod, int32_t bias,
                        uint64_t *extra, size_t extra_len);
uint32_t pv_cache_remove(struct pv_cache_entry *entries, size_t entries_len, uint32_t provider, uint32_t solution,
                         uint32_t satellite, uint32_t signal, uint64_t *extra, size_t extra_len);
uint32_t pv_cache_lookup(const struct pv_cache_entry *entries, size_t entries_len, uint32_t provider, uint32_t solution,
                         uint32_t satellite, uint32_t signal, uint64_t *extra, size_t extra_len);

/* ---- Signal tables. ---- */

/* The systems. Any other number is a system with an empty table. */
#define PV_GPS 0u
#define PV_GLO 1u
#define PV_GAL 2u
#define PV_SBAS 3u
#define PV_QZSS 4u
#define PV_BDS 5u
#define PV_NAVIC 6u

/*
 * The signal that a number stands for in a system's table. These are the signal numbers of the MSM messages and of 1230;
 * 1059 numbers its signals otherwise. Refuses nothing but a wrong extra_len.
 * Answers: [PV_AT_SIGNAL_FOUND] 1 if it is in the table, else 0; [PV_AT_SIGNAL_BAND]; [PV_AT_SIGNAL_LETTER].
 */
uint32_t pv_signal_of(uint32_t system, uint32_t number, uint64_t *extra, size_t extra_len);

/*
 * The number of a signal in a system's table, as in PV_GPS, 1, 'C'. A band or a letter above 255 is in no table. Refuses
 * nothing but a wrong extra_len.
 * Answers: [PV_AT_NUMBER_FOUND] 1 if it is in the table, else 0; [PV_AT_NUMBER] the number.
 */
uint32_t pv_number_of(uint32_t system, uint32_t band, uint32_t letter, uint64_t *extra, size_t extra_len);

/*
 * How signal a stands to signal b in the order of a system: those in the table by number, before all others; the others
 * by band and then by letter, each compared as a number, also above 255. Refuses nothing but a wrong extra_len.
 * Answers: [PV_AT_ORDER], as int64_t, -1 if a comes first, 0 if they are the same, 1 if b comes first.
 */
uint32_t pv_signal_order(uint32_t system, uint32_t band_a, uint32_t letter_a, uint32_t band_b, uint32_t letter_b,
                         uint64_t *extra, size_t extra_len);

/* ---- A scanner that keeps its held bytes and its numbers together. ---- */

/*
 * The caller has it in its own memory, so its layout is a part of the interface: a library whose scanner has another
 * layout has another shared object name.
 */
struct pv_scanner {
    uint8_t held[PV_HELD_SIZE];
    size_t held_count;
    uint64_t taken; /* Bytes taken since fresh. */
    uint32_t mode;  /* PV_RTCM_ONLY or PV_RTCM_AND_UBX. */
};

/* What an accepted call of pv_scanner_feed answers. */
struct pv_fed {
    int is_frame;     /* 1: a frame is at the start of the output. 0: more bytes are needed. */
    size_t taken;     /* Bytes of the piece taken: the next call gets piece + taken. */
    size_t skipped;   /* Bytes skipped in this call, held ones included. */
    size_t frame_len; /* Bytes of the frame, or 0. */
    uint64_t place;   /* The stream place of the frame's first byte, or 0. */
    int kind;         /* PV_RTCM or PV_UBX. */
};

/* Initialises a scanner where it is defined, for RTCM only or for both kinds: struct pv_scanner s = PV_SCANNER_FRESH; */
#define PV_SCANNER_FRESH { { 0 }, 0, 0, PV_RTCM_ONLY }
#define PV_SCANNER_FRESH_BOTH { { 0 }, 0, 0, PV_RTCM_AND_UBX }

/* Makes a fresh scanner for RTCM only in memory that may hold anything; set its mode then for both kinds. */
static inline void pv_scanner_init(struct pv_scanner *scanner)
{
    size_t i;
    for (i = 0; i < PV_HELD_SIZE; i++)
        scanner->held[i] = 0;
    scanner->held_count = 0;
    scanner->taken = 0;
    scanner->mode = PV_RTCM_ONLY;
}

/*
 * Forgets the held bytes, as after a lost connection: what comes next is the start of another stream, at place 0. The mode
 * stays.
 */
static inline void pv_scanner_reset(struct pv_scanner *scanner)
{
    scanner->held_count = 0;
    scanner->taken = 0;
}

/*
 * pv_feed on a scanner: the same answers and refusals, in the same order. The scanner and *fed change only where 0 is
 * returned. The piece and the output must not lie in the scanner or overlap each other.
 */
static inline uint32_t pv_scanner_feed(struct pv_scanner *scanner, const uint8_t *piece, size_t piece_len,
                                       uint8_t *out, size_t out_len, struct pv_fed *fed)
{
    uint64_t extra[PV_EXTRA_SIZE];
    uint32_t refusal = pv_feed(scanner->held, PV_HELD_SIZE, scanner->held_count, scanner->taken, scanner->mode,
                               piece, piece_len, out, out_len, extra, PV_EXTRA_SIZE);
    if (refusal != PV_ACCEPTED)
        return refusal;
    scanner->held_count = extra[PV_AT_FED_HELD_COUNT];
    scanner->taken = extra[PV_AT_FED_ALL_TAKEN];
    fed->is_frame = extra[PV_AT_FED_IS_FRAME] == PV_FRAME;
    fed->taken = extra[PV_AT_FED_TAKEN];
    fed->skipped = extra[PV_AT_FED_SKIPPED];
    fed->frame_len = extra[PV_AT_FED_FRAME_LENGTH];
    fed->place = extra[PV_AT_FED_PLACE];
    fed->kind = (int)extra[PV_AT_FED_KIND];
    return PV_ACCEPTED;
}

/* Lists for pv_scanner_feed_all, and the seam: the caller's own memory, lent to each call. */
struct pv_lists {
    uint32_t *starts, *lengths;
    uint8_t *kinds;
    size_t places; /* Of each of the three lists. */
    uint8_t seam[PV_SEAM_SIZE];
};

/* What an accepted call of pv_scanner_feed_all answers. */
struct pv_fed_all {
    size_t count;      /* How many frames are listed. */
    size_t taken;      /* Bytes of the piece taken. */
    size_t skipped;    /* Bytes skipped in this call, held ones included. */
    size_t held_before; /* The held count before the call: frames that start below it lie in the seam. */
    uint64_t place;    /* The stream place that a start of 0 stands for. */
    int is_full;       /* 1: call again with piece + taken. 0: the whole piece is taken. */
};

/*
 * pv_feed_all on a scanner: the same answers and refusals, in the same order. The scanner and *fed change only where 0 is
 * returned.
 */
static inline uint32_t pv_scanner_feed_all(struct pv_scanner *scanner, const uint8_t *piece, size_t piece_len,
                                           struct pv_lists *lists, struct pv_fed_all *fed)
{
    uint64_t extra[PV_EXTRA_SIZE];
    uint32_t refusal = pv_feed_all(scanner->held, PV_HELD_SIZE, scanner->held_count, scanner->taken, scanner->mode,
                                   piece, piece_len, lists->seam, PV_SEAM_SIZE, lists->starts, lists->places,
                                   lists->lengths, lists->places, lists->kinds, lists->places, extra, PV_EXTRA_SIZE);
    if (refusal != PV_ACCEPTED)
        return refusal;
    fed->held_before = scanner->held_count;
    scanner->held_count = extra[PV_AT_ALL_HELD_COUNT];
    scanner->taken = extra[PV_AT_ALL_ALL_TAKEN];
    fed->count = extra[PV_AT_ALL_COUNT];
    fed->taken = extra[PV_AT_ALL_TAKEN];
    fed->skipped = extra[PV_AT_ALL_SKIPPED];
    fed->place = extra[PV_AT_ALL_PLACE];
    fed->is_full = extra[PV_AT_ALL_FULL] == 1;
    return PV_ACCEPTED;
}

/* The bytes of frame i of a call of pv_scanner_feed_all on this piece: lists->lengths[i] of them, in the piece or the seam. */
static inline const uint8_t *pv_listed_frame(const struct pv_lists *lists, const struct pv_fed_all *fed,
                                             const uint8_t *piece, size_t i)
{
    size_t start = lists->starts[i];
    return start < fed->held_before ? lists->seam + start : piece + (start - fed->held_before);
}

/*
 * pv_close on a scanner: the same answers and refusals, in the same order. Call it until fed->is_frame is 0; the scanner is
 * fresh then, and its mode stays. fed->taken is 0.
 */
static inline uint32_t pv_scanner_close(struct pv_scanner *scanner, uint8_t *out, size_t out_len, struct pv_fed *fed)
{
    uint64_t extra[PV_EXTRA_SIZE];
    uint32_t refusal = pv_close(scanner->held, PV_HELD_SIZE, scanner->held_count, scanner->taken, scanner->mode,
                                out, out_len, extra, PV_EXTRA_SIZE);
    if (refusal != PV_ACCEPTED)
        return refusal;
    scanner->held_count = extra[PV_AT_FED_HELD_COUNT];
    scanner->taken = extra[PV_AT_FED_ALL_TAKEN];
    fed->is_frame = extra[PV_AT_FED_IS_FRAME] == PV_FRAME;
    fed->taken = 0;
    fed->skipped = extra[PV_AT_FED_SKIPPED];
    fed->frame_len = extra[PV_AT_FED_FRAME_LENGTH];
    fed->place = extra[PV_AT_FED_PLACE];
    fed->kind = (int)extra[PV_AT_FED_KIND];
    return PV_ACCEPTED;
}

#ifdef __cplusplus
}
#endif

#endif
