/* SPDX-License-Identifier: Apache-2.0 */
/* How long vortex_measure takes for the least, the greatest and the nulls of 10 million numbers, beside a plain loop, and
   vortex_prune for a million zones of three columns under one comparison and under 16; in processor time. */
#define _POSIX_C_SOURCE 199309L
#include "vortex.h"
#include <stdio.h>
#include <stdlib.h>
#include <string.h>
#include <time.h>

enum { ROWS = 10000000, ZONES = 1000000, COLUMNS = 3 };

static double now(void) {
    struct timespec t;
    clock_gettime(CLOCK_PROCESS_CPUTIME_ID, &t);
    return (double)t.tv_sec + (double)t.tv_nsec * 1e-9;
}

static int measuring(void) {
    int64_t *numbers = malloc(ROWS * sizeof *numbers);
    if (!numbers) return 1;
    uint64_t dice = 88172645463325252u;
    for (size_t i = 0; i < ROWS; i++) {
        dice ^= dice << 13, dice ^= dice >> 7, dice ^= dice << 17;
        numbers[i] = (int64_t)dice;
    }
    vortex_values column = {.kind = VORTEX_I64, .rows = ROWS, .values = (const uint8_t *)numbers, .values_len = ROWS * 8};
    const uint8_t stats[3] = {VORTEX_MIN, VORTEX_MAX, VORTEX_NULL_COUNT};
    uint8_t known[3], values[24];
    uint64_t ends[3];
    size_t len;
    vortex_fault fault;
    double start = now();
    uint8_t status = vortex_measure(&column, stats, 3, known, 3, ends, 3, values, 24, &len, &fault);
    double measured = now() - start;
    start = now();
    int64_t least = numbers[0], greatest = numbers[0];
    for (size_t i = 1; i < ROWS; i++) {
        if (numbers[i] < least) least = numbers[i];
        if (numbers[i] > greatest) greatest = numbers[i];
    }
    double plain = now() - start;
    printf("status %d: %.2f ns a row; a plain loop %.2f ns a row (%lld to %lld)\n", status, measured * 1e9 / ROWS,
           plain * 1e9 / ROWS, (long long)least, (long long)greatest);
    free(numbers);
    return status;
}

/* A predicate, and of how many zones it is asked. */
struct asked {
    const char *name, *predicate;
    size_t zones;
};

/* Whether a is one of so many numbers from 0 to 200,000, by turns of so many places. */
static char *list(size_t count, size_t turn) {
    char *text = malloc(count * 40), *end = text;
    if (!text) exit(1);
    for (size_t i = 1; i < count; i++) end += sprintf(end, "or ");
    for (size_t i = 0; i < count; i++) end += sprintf(end, "eq col a lit i64 %zu ", i * turn % count * (200000 / count));
    return text;
}

/* Prunes several times, and tells the least time a zone. */
static uint8_t timed(const struct asked *asked, const vortex_field *scope, const uint64_t *rows, vortex_statistic *stats, uint8_t *answers) {
    vortex_fault fault;
    double least = 1e9;
    uint8_t status = VORTEX_OK;
    for (size_t i = 0; i < 3 * COLUMNS; i++) stats[i].known_len = asked->zones, stats[i].values_len = asked->zones * 8;
    for (size_t run = 0; run < (strlen(asked->predicate) > 10000 ? 3 : 15) && status == VORTEX_OK; run++) {
        double start = now();
        status = vortex_prune(scope, COLUMNS, rows, asked->zones, stats, 3 * COLUMNS, (const uint8_t *)asked->predicate,
                              strlen(asked->predicate), 0, answers, asked->zones, &fault);
        double took = now() - start;
        if (took < least) least = took;
    }
    size_t skipped = 0;
    for (size_t z = 0; z < asked->zones; z++) skipped += answers[z] == VORTEX_SKIP;
    printf("status %d: pruned under %s in %.1f ns a zone; %zu of %zu are skipped\n", status, asked->name,
           least * 1e9 / (double)asked->zones, skipped, asked->zones);
    return status;
}

/* The values of zone z lie from z to z + 100 in each column. */
static int pruning(void) {
    const uint8_t numbers[COLUMNS] = {VORTEX_MIN, VORTEX_MAX, VORTEX_NULL_COUNT};
    vortex_field scope[COLUMNS] = {{.name = (const uint8_t *)"a", .name_len = 1, .kind = VORTEX_I64},
                                   {.name = (const uint8_t *)"b", .name_len = 1, .kind = VORTEX_I64},
                                   {.name = (const uint8_t *)"c", .name_len = 1, .kind = VORTEX_I64}};
    uint64_t *rows = malloc(ZONES * sizeof *rows);
    int64_t *bounds = malloc(3 * ZONES * sizeof *bounds);
    uint8_t *known = malloc(ZONES), *answers = malloc(ZONES);
    if (!rows || !bounds || !known || !answers) return 1;
    memset(known, VORTEX_EXACT, ZONES);
    for (size_t z = 0; z < ZONES; z++)
        rows[z] = 1000, bounds[z] = (int64_t)z, bounds[ZONES + z] = (int64_t)z + 100, bounds[2 * ZONES + z] = 0;
    vortex_statistic stats[3 * COLUMNS];
    for (size_t i = 0; i < 3 * COLUMNS; i++)
        stats[i] = (vortex_statistic){.column = i / 3, .stat = numbers[i % 3], .known = known, .known_len = ZONES,
                                      .values = (const uint8_t *)(bounds + i % 3 * ZONES), .values_len = ZONES * 8};
    char sixteen[1024] = "";
    for (size_t i = 0; i < 16; i++) {
        char leaf[64];
        snprintf(leaf, sizeof leaf, "%sgt col %c lit i64 %d ", i < 15 ? "and " : "", 'a' + (char)(i % 3), i < 15 ? -1 : 999900);
        strcat(sixteen, leaf);
    }
    const struct asked asked[] = {
        {"one comparison", "gt col a lit i64 999900", ZONES},   {"16 comparisons", sixteen, ZONES},
        {"100 values in order", list(100, 1), ZONES / 5},       {"100 values out of order", list(100, 37), ZONES / 5},
        {"10,000 values in order", list(10000, 1), ZONES / 5}, {"10,000 values out of order", list(10000, 3701), ZONES / 5},
    };
    for (size_t i = 0; i < sizeof asked / sizeof *asked; i++) {
        uint8_t status = timed(&asked[i], scope, rows, stats, answers);
        if (status) return status;
    }
    for (size_t i = 2; i < sizeof asked / sizeof *asked; i++) free((void *)asked[i].predicate);
    free(rows), free(bounds), free(known), free(answers);
    return 0;
}

int main(void) {
    int status = measuring();
    return status ? status : pruning();
}
