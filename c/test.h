/*
 * What the tests share: checks that count themselves, and areas that notice when a call leaves them. An area ends at a
 * page that may not be touched, so a read or a write behind it stops the program; a pattern stands before it.
 * Include this file first.
 */
#ifndef PEERIVOLT_TEST_H
#define PEERIVOLT_TEST_H

#ifndef _DEFAULT_SOURCE
#define _DEFAULT_SOURCE /* For MAP_ANONYMOUS. */
#endif

#include <inttypes.h>
#include <stdbool.h>
#include <stddef.h>
#include <stdint.h>
#include <stdio.h>
#include <stdlib.h>
#include <string.h>
#include <sys/mman.h>
#include <unistd.h>

#include "peerivolt.h"

/* ---- Checks. ---- */

static unsigned long checks_made;
static unsigned long checks_failed;

static inline void check_equal(uint64_t got, uint64_t expected, const char *what, const char *file, int line)
{
    checks_made++;
    if (got == expected)
        return;
    checks_failed++;
    if (checks_failed <= 20)
        fprintf(stderr, "%s:%d: %s is %" PRIu64 " (%" PRIX64 " hex), expected %" PRIu64 " (%" PRIX64 " hex)\n", file, line,
                what, got, got, expected, expected);
}

#define CHECK_EQ(got, expected) check_equal((uint64_t)(got), (uint64_t)(expected), #got, __FILE__, __LINE__)
#define CHECK(condition) check_equal(!(condition), 0, "not (" #condition ")", __FILE__, __LINE__)

/* Prints how many checks were made, and gives the exit status. */
static inline int checks_result(const char *name)
{
    printf("%s: %lu checks, %lu failed\n", name, checks_made, checks_failed);
    return checks_failed == 0 ? 0 : 1;
}

/* ---- Areas. ---- */

#define AREA_GUARD 32 /* Bytes of pattern before an area. */

struct area {
    uint8_t *bytes; /* What is lent: it ends where the forbidden page begins. */
    size_t size;    /* In bytes. */
    uint8_t *end;
    uint8_t *kept; /* A copy of guard and area, made by area_keep. */
    size_t capacity;
};

static inline struct area area_new(size_t capacity)
{
    struct area area;
    size_t page = (size_t)sysconf(_SC_PAGESIZE);
    size_t pages = (capacity + AREA_GUARD + page - 1) / page * page;
    uint8_t *map = mmap(NULL, pages + page, PROT_READ | PROT_WRITE, MAP_PRIVATE | MAP_ANONYMOUS, -1, 0);
    uint8_t *kept = malloc(pages);
    if (map == MAP_FAILED || kept == NULL || mprotect(map + pages, page, PROT_NONE) != 0) {
        perror("area_new");
        exit(2);
    }
    memset(kept, 0, pages);
    area.end = map + pages;
    area.bytes = area.end;
    area.size = 0;
    area.kept = kept;
    area.capacity = pages - AREA_GUARD;
    return area;
}

/* Keeps a copy of the guard and the area as they are now. */
static inline void area_keep(struct area *area)
{
    memcpy(area->kept, area->bytes - AREA_GUARD, area->size + AREA_GUARD);
}

/* Lends the last `size` bytes, all of them `fill`, and keeps a copy. */
static inline uint8_t *area_lend(struct area *area, size_t size, uint8_t fill)
{
    if (size > area->capacity) {
        fprintf(stderr, "area_lend: %zu bytes are more than %zu\n", size, area->capacity);
        exit(2);
    }
    area->size = size;
    area->bytes = area->end - size;
    memset(area->bytes - AREA_GUARD, 0xA5, AREA_GUARD);
    memset(area->bytes, fill, size);
    area_keep(area);
    return area->bytes;
}

/* Whether guard and area are as they were when they were kept. */
static inline bool area_same(const struct area *area)
{
    return memcmp(area->kept, area->bytes - AREA_GUARD, area->size + AREA_GUARD) == 0;
}

static inline bool area_guard_same(const struct area *area)
{
    return memcmp(area->kept, area->bytes - AREA_GUARD, AREA_GUARD) == 0;
}

static inline uint64_t *area_u64(const struct area *area)
{
    return (uint64_t *)(void *)area->bytes;
}

static inline struct pv_cache_entry *area_entries(const struct area *area)
{
    return (struct pv_cache_entry *)(void *)area->bytes;
}

static inline uint16_t *area_u16(const struct area *area)
{
    return (uint16_t *)(void *)area->bytes;
}

static inline int16_t *area_i16(const struct area *area)
{
    return (int16_t *)(void *)area->bytes;
}

#endif
