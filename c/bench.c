/*
 * The benchmark: the library against a plain C program (plain.c, at -O2) and, where it is linked, against the Rust, on
 * the same input, by the same driver, in one run. Every row takes its samples in turns and prints medians and their
 * ratio; before it is timed, all sides must give the same answers. Two plain programs stand beside each other: one with
 * a bitwise checksum, one with a table.
 */
#define _GNU_SOURCE
#include <stdio.h>
#include <stdlib.h>
#include <time.h>

#include "bench.h"
#include "plain.h"

#define ROUNDS 15
bool comparing;
static bool all_met = true;

#define SAMPLE_NS 400000.0 /* The least that one sample lasts, for the quickest side. */

const struct library libraries[LIBRARIES] = {
    { pv_crc24q, pv_field_read_unsigned, pv_field_write_unsigned, pv_frame_check, pv_feed, pv_1059_read, pv_1059_write,
      pv_1230_read, pv_1230_write },
    { plain_crc24q, plain_field_read_unsigned, plain_field_write_unsigned, plain_frame_check, plain_feed,
      plain_1059_read, plain_1059_write, plain_1230_read, plain_1230_write },
    { table_crc24q, table_field_read_unsigned, table_field_write_unsigned, table_frame_check, table_feed,
      table_1059_read, table_1059_write, table_1230_read, table_1230_write },
};

/* ---- Measuring in turns. ---- */

static volatile uint64_t sink; /* Answers go here, so that no call can be left out. */

/* Processor time of this process, so that other work on the machine counts as little as it can. */
static double now_ns(void)
{
    struct timespec now;
    clock_gettime(CLOCK_PROCESS_CPUTIME_ID, &now);
    return (double)now.tv_sec * 1e9 + (double)now.tv_nsec;
}

static double sample(const struct side *side, size_t times)
{
    double before = now_ns();
    struct answers answers = side->work(side->library, side->input, times);
    sink = answers.common + answers.rest;
    return now_ns() - before;
}

static int by_size(const void *a, const void *b)
{
    double x = *(const double *)a, y = *(const double *)b;
    return (x > y) - (x < y);
}

/* How often the work is done in one sample, so that the quickest side lasts long enough. */
static size_t times_for(const struct side *sides, size_t n)
{
    size_t times = 1;
    for (size_t i = 0; i < n; i++)
        while (sample(&sides[i], times) < SAMPLE_NS)
            times *= 2;
    return times;
}

void measure(const struct side *sides, size_t n, double *medians)
{
    double samples[SIDES][ROUNDS];
    size_t times = times_for(sides, n);
    for (size_t round = 0; round < ROUNDS; round++)
        for (size_t i = 0; i < n; i++)
            samples[(i + round) % n][round] = sample(&sides[(i + round) % n], times);
    for (size_t i = 0; i < n; i++) {
        qsort(samples[i], ROUNDS, sizeof samples[i][0], by_size);
        medians[i] = samples[i][ROUNDS / 2] / (double)times;
    }
}

/* ---- The table. ---- */

static void print_head(void)
{
    printf("Medians of %d rounds of processor time, sides in turns; ratio: ours to that side. Feeding in ns per byte, 1059 per\n"
           "record, the rest per call. plain: bitwise checksum; table: checksum by a table of 256 numbers; rust: its checksum\n"
           "is that of a stand-in for the crate crc-any, also by a table; rtklib: its framing alone, one byte a call; - where\n"
           "a side has no counterpart.\n", ROUNDS);
    if (rust_works.scan == NULL)
        printf("The Rust is not linked into this run: its column has - throughout.\n");
    if (rtklib_works.scan == NULL)
        printf("RTKLIB is not linked into this run: its column has - throughout.\n");
    printf("\n%-20s %9s %9s %6s %9s %6s %9s %6s %9s %6s\n", "row", "ours ns", "plain ns", "ratio", "table ns", "ratio",
           "rust ns", "ratio", "rtklib ns", "ratio");
}

/* Ends the program unless all sides answer the same and leave every lent area the same, in what each of them gives. */
void check_answers(const char *name, const struct side *sides, size_t n)
{
    comparing = true;
    struct answers ours = sides[0].work(sides[0].library, sides[0].input, 1);
    for (size_t i = 1; i < n; i++) {
        struct answers other = sides[i].work(sides[i].library, sides[i].input, 1);
        if (ours.common != other.common || (i < LIBRARIES && ours.rest != other.rest)) {
            printf("%s: side %zu gives other answers than ours\n", name, i);
            exit(1);
        }
    }
    comparing = false;
}

struct cost row(const char *name, a_work *work, a_work *rust, a_work *rtklib, const void *input, double per)
{
    a_work *const works[SIDES] = { work, work, work, rust, rtklib };
    struct side sides[SIDES];
    double ns[SIDES];
    struct cost cost = { 0 };
    size_t n = 0;
    for (size_t i = 0; i < SIDES; i++)
        if (works[i] != NULL)
            sides[n++] = (struct side){ works[i], i < LIBRARIES ? &libraries[i] : NULL, input };
    check_answers(name, sides, n);
    measure(sides, n, ns);
    cost.ns = ns[0] / per;
    printf("%-20s %9.2f", name, cost.ns);
    for (size_t i = 1, at = 1; i < SIDES; i++) {
        if (works[i] == NULL) {
            printf(" %9s %6s", "-", "-");
            continue;
        }
        cost.to[i] = ns[0] / ns[at];
        printf(" %9.2f %6.2f", ns[at++] / per, cost.to[i]);
    }
    printf("\n");
    fflush(stdout);
    return cost;
}

void print_limit(const char *what, double got, const char *unit, double limit, bool at_most)
{
    bool met = at_most ? got <= limit : got >= limit;
    all_met = all_met && met;
    printf("%-56s %8.2f%s (%s %.2f): %s\n", what, got, unit, at_most ? "at most" : "at least", limit, met ? "met" : "NOT met");
}

/* Our speed against a side's; no limit where the side is not there. */
static void print_speed(const char *what, struct cost cost, size_t side, double limit)
{
    if (cost.to[side] > 0)
        print_limit(what, 1 / cost.to[side], " times", limit, false);
}

int main(void)
{
    struct bytes clean = clean_stream(100000);
    print_head();
    struct small_costs small = rows_of_small_calls();
    struct cost fed = rows_of_streams(clean);
    struct block_costs costs = rows_of_blocks();

    printf("\nLimits\n");
    print_speed("speed of the checksum of 6 bytes, to a table in C", small.of_6, TABLE, 0.9);
    print_speed("speed of the checksum of 20 bytes, to a table in C", small.of_20, TABLE, 0.9);
    print_speed("speed of the checksum of 100 bytes, to a table in C", small.of_100, TABLE, 4);
    print_speed("speed of the checksum of 1,026 bytes, to a table in C", small.of_1026, TABLE, 8);
    print_speed("speed over a clean stream, to a scan by a table in C", fed, TABLE, 5);
    print_speed("speed over a clean stream, to RTKLIB's framing", fed, RTKLIB, 8);
    limits_of_scanning();
    limits_of_false_starts();
    limits_of_all_frames(clean);
    print_limit("reading 1059, for each of 400 records", costs.read.ns, " ns", 12, true);
    print_limit("the same, to the plain program", costs.read.to[PLAIN], " times", 1, true);
    print_limit("writing 1059, for each of 400 records", costs.write.ns, " ns", 40, true);
    print_limit("the same, to the plain program", costs.write.to[PLAIN], " times", 1, true);
    print_limit("reading 1230, to the plain program", costs.read_1230, " times", 1.1, true);
    print_limit("writing 1230, to the plain program", costs.write_1230, " times", 1.1, true);
    print_limit("writing a field, to the plain program", small.write, " times", 1, true);
    limits_of_messages();
    limit_of_cache();
    print_memory();
    free(clean.at);
    return all_met ? 0 : 1;
}
