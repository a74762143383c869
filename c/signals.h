/*
 * The signal tables, for the reference and the tests: each stands here and nowhere else in this folder. The library has
 * its own, which the tests hold to these.
 */
#ifndef PEERIVOLT_SIGNALS_H
#define PEERIVOLT_SIGNALS_H

#include <stddef.h>
#include <stdint.h>

/* The glo numbers of the 1230 signals, in mask order. */
static const uint8_t signals_1230[4] = { 2, 3, 8, 9 };

/* ---- The tables of the systems, by number. ---- */

struct signal {
    uint32_t number;
    uint32_t band;
    uint32_t letter;
};

static const struct signal gps[] = {
    { 2, 1, 'C' }, { 3, 1, 'P' }, { 4, 1, 'W' }, { 8, 2, 'C' }, { 9, 2, 'P' },
    { 10, 2, 'W' }, { 15, 2, 'S' }, { 16, 2, 'L' }, { 17, 2, 'X' }, { 22, 5, 'I' },
    { 23, 5, 'Q' }, { 24, 5, 'X' }, { 30, 1, 'S' }, { 31, 1, 'L' }, { 32, 1, 'X' },
};
static const struct signal glo[] = { { 2, 1, 'C' }, { 3, 1, 'P' }, { 8, 2, 'C' }, { 9, 2, 'P' } };
static const struct signal gal[] = {
    { 2, 1, 'C' }, { 3, 1, 'A' }, { 4, 1, 'B' }, { 5, 1, 'X' }, { 6, 1, 'Z' },
    { 8, 6, 'C' }, { 9, 6, 'A' }, { 10, 6, 'B' }, { 11, 6, 'X' }, { 12, 6, 'Z' },
    { 14, 7, 'I' }, { 15, 7, 'Q' }, { 16, 7, 'X' }, { 18, 8, 'I' }, { 19, 8, 'Q' },
    { 20, 8, 'X' }, { 22, 5, 'I' }, { 23, 5, 'Q' }, { 24, 5, 'X' },
};
static const struct signal sbas[] = { { 2, 1, 'C' }, { 22, 5, 'I' }, { 23, 5, 'Q' }, { 24, 5, 'X' } };
static const struct signal qzss[] = {
    { 2, 1, 'C' }, { 9, 6, 'S' }, { 10, 6, 'L' }, { 11, 6, 'X' }, { 15, 2, 'S' },
    { 16, 2, 'L' }, { 17, 2, 'X' }, { 22, 5, 'I' }, { 23, 5, 'Q' }, { 24, 5, 'X' },
    { 30, 1, 'S' }, { 31, 1, 'L' }, { 32, 1, 'X' },
};
static const struct signal bds[] = {
    { 2, 2, 'I' }, { 3, 2, 'Q' }, { 4, 2, 'X' }, { 8, 6, 'I' }, { 9, 6, 'Q' }, { 10, 6, 'X' },
    { 14, 7, 'I' }, { 15, 7, 'Q' }, { 16, 7, 'X' }, { 22, 5, 'D' }, { 23, 5, 'P' }, { 24, 5, 'X' },
    { 25, 7, 'D' }, { 30, 1, 'D' }, { 31, 1, 'P' }, { 32, 1, 'X' },
};
static const struct signal navic[] = { { 8, 9, 'A' }, { 22, 5, 'A' } };

struct table {
    const struct signal *entries;
    size_t count;
};

#define TABLE(entries) { entries, sizeof entries / sizeof entries[0] }
static const struct table tables[] = {
    TABLE(gps), TABLE(glo), TABLE(gal), TABLE(sbas), TABLE(qzss), TABLE(bds), TABLE(navic),
};

/* ---- The 1059 signals, by edition. There is no edition 0. ---- */

static const struct signal edition_1[] = {
    { 0, 1, 'C' }, { 1, 1, 'P' }, { 2, 1, 'W' }, { 5, 2, 'C' }, { 6, 2, 'D' }, { 7, 2, 'S' },
    { 8, 2, 'L' }, { 9, 2, 'X' }, { 10, 2, 'P' }, { 11, 2, 'W' }, { 14, 5, 'I' }, { 15, 5, 'Q' },
};
static const struct signal edition_2[] = {
    { 0, 1, 'C' }, { 1, 1, 'P' }, { 2, 1, 'W' }, { 3, 1, 'Y' }, { 4, 1, 'M' }, { 5, 2, 'C' },
    { 6, 2, 'D' }, { 7, 2, 'S' }, { 8, 2, 'L' }, { 9, 2, 'X' }, { 10, 2, 'P' }, { 11, 2, 'W' },
    { 12, 2, 'Y' }, { 13, 2, 'M' }, { 14, 5, 'I' }, { 15, 5, 'Q' },
};
static const struct table editions_1059[] = { { NULL, 0 }, TABLE(edition_1), TABLE(edition_2) };

#endif
