/* SPDX-License-Identifier: Apache-2.0 */
/* Keeps the statistics of a table's chunks, and later reads only the chunks that they don't rule out. */
#include "vortex.h"
#include <stdio.h>
#include <stdlib.h>
#include <string.h>

enum { CHUNKS = 4, ROWS = 3 };

/* Temperatures in four chunks. */
static const int64_t table[CHUNKS][ROWS] = {{12, 15, 11}, {18, 25, 22}, {24, 28, 21}, {9, 4, 10}};

/* What is kept of the chunks: how many rows each has, its least and greatest value, and how many are null. */
static const uint8_t wanted[3] = {VORTEX_MIN, VORTEX_MAX, VORTEX_NULL_COUNT};
static uint64_t rows[CHUNKS];
static uint8_t known[3][CHUNKS];
static int64_t kept[3][CHUNKS];

static void fail(const char *what, uint8_t status, const vortex_fault *fault) {
    fprintf(stderr, "%s: status %d, row %zu, statistic %zu\n", what, status, fault->row, fault->entry);
    exit(1);
}

static void measure(size_t chunk) {
    vortex_values column = {.kind = VORTEX_I64, .nullable = 1, .rows = ROWS, .values = (const uint8_t *)table[chunk],
                            .values_len = sizeof table[chunk]};
    uint8_t how[3], bytes[3 * 8];
    uint64_t ends[3];
    size_t len;
    vortex_fault fault;
    uint8_t status = vortex_measure(&column, wanted, 3, how, 3, ends, 3, bytes, sizeof bytes, &len, &fault);
    if (status != VORTEX_OK) fail("measure", status, &fault);
    rows[chunk] = ROWS;
    for (size_t i = 0; i < 3; i++) {
        known[i][chunk] = how[i];
        memcpy(&kept[i][chunk], bytes + 8 * i, 8);
    }
}

/* What to do with each chunk under a predicate, by what is kept. */
static void prune(const char *predicate, uint8_t *answers) {
    const vortex_field scope[1] = {{.name = (const uint8_t *)"t", .name_len = 1, .kind = VORTEX_I64, .nullable = 1}};
    vortex_statistic stats[3];
    for (size_t i = 0; i < 3; i++)
        stats[i] = (vortex_statistic){.stat = wanted[i], .known = known[i], .known_len = CHUNKS,
                                      .values = (const uint8_t *)kept[i], .values_len = sizeof kept[i]};
    vortex_fault fault;
    uint8_t status = vortex_prune(scope, 1, rows, CHUNKS, stats, 3, (const uint8_t *)predicate, strlen(predicate),
                                  0, answers, CHUNKS, &fault);
    if (status != VORTEX_OK) fail("prune", status, &fault);
}

/* Reads a chunk: its temperatures from 20 to 29. All of them if each is known to be. */
static void read(size_t chunk, int whole) {
    printf("chunk %zu%s:", chunk, whole ? ", whole" : "");
    for (size_t row = 0; row < ROWS; row++)
        if (whole || (table[chunk][row] >= 20 && table[chunk][row] <= 29)) printf(" %lld", (long long)table[chunk][row]);
    printf("\n");
}

int main(void) {
    /* A writer keeps the statistics of each chunk. */
    for (size_t chunk = 0; chunk < CHUNKS; chunk++) measure(chunk);
    /* A reader that wants temperatures from 20 to 29 leaves the chunks unread that hold none. */
    uint8_t answers[CHUNKS];
    prune("between <= <= col t lit i64 20 lit i64 29", answers);
    for (size_t chunk = 0; chunk < CHUNKS; chunk++)
        if (answers[chunk] == VORTEX_SKIP)
            printf("chunk %zu: left unread\n", chunk);
        else
            read(chunk, answers[chunk] == VORTEX_WHOLE);
    return 0;
}
