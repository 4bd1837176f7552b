/* SPDX-License-Identifier: Apache-2.0 */
/*
 * Each call over arrays of which each byte and each length, and numbers of which each, is changed in turn: it answers by a
 * status that it may answer by, leaves the arrays as they were where it refuses, and ends.
 *
 * Every array is lent as a copy of exactly as many bytes as its length says, so that valgrind and the address sanitizer see
 * what is read or written behind it.
 */
#define _POSIX_C_SOURCE 200809L
#include "vortex.h"
#include <assert.h>
#include <stdio.h>
#include <stdlib.h>
#include <string.h>
#include <unistd.h>

/* An array that a call reads: its bytes, and the pointer and the length by which it is lent. */
typedef struct input {
    const void *bytes;
    size_t count, width;
    void *pointer;
    size_t *len;
} input;

/* An array that a call writes. */
typedef struct output {
    size_t count, width;
    void *pointer;
    size_t *len;
} output;

/* A number that a call is handed by itself or in a struct. */
typedef struct number {
    void *place;
    size_t width;
} number;

/* A call with all that it is handed, and the statuses that it may return, a bit each. */
typedef struct call {
    const char *name;
    uint8_t (*make)(void);
    uint32_t statuses;
    input inputs[20];
    output outputs[3];
    number numbers[24];
    /* The place of the output whose length the call tells. */
    int len_of;
} call;

/* What is changed: `byte` of an array gets a value, or its length another one; an array of no place is none. */
typedef struct change {
    const void *array;
    size_t byte, count;
    uint8_t value;
    int is_length;
} change;

#define BIT(status) (UINT32_C(1) << (status))
#define NONE ((const change){0})

static vortex_fault fault;
static size_t len;
static uint32_t seen;
static unsigned long calls;

static const uint8_t FILL = 0x5a;

static uint8_t make_run(void);

/* A copy of an array as it is changed; the elements behind its end are zeros. One without elements is null in each second call. */
static void *lent(const input *it, const change *what, size_t *count) {
    int is_it = what->array == it;
    *count = is_it && what->is_length ? what->count : it->count;
    size_t size = *count * it->width, old = it->count * it->width;
    if (!size && calls % 2) return NULL;
    uint8_t *copy = malloc(size);
    assert(copy || !size);
    for (size_t i = 0; i < size; i++) copy[i] = i < old ? ((const uint8_t *)it->bytes)[i] : 0;
    if (is_it && !what->is_length) copy[what->byte] = what->value;
    return copy;
}

static void *filled(const output *it, const change *what, size_t *count) {
    *count = what->array == it ? what->count : it->count;
    void *array = malloc(*count * it->width);
    assert(array || !*count);
    if (array) memset(array, FILL, *count * it->width);
    return array;
}

static int is_filled(const void *bytes, size_t size) {
    for (size_t i = 0; i < size; i++)
        if (((const uint8_t *)bytes)[i] != FILL) return 0;
    return 1;
}

/* Whether a refusal left the outputs as they were. An answer of vortex_run may have three statuses. */
static int kept(const call *of, void *const *written, uint8_t status) {
    if (status == VORTEX_OK || status == VORTEX_NO_ANSWER || (of->make == make_run && status == VORTEX_BAD_LINE)) return 1;
    for (size_t i = 0; i < 3 && of->outputs[i].width; i++)
        if (!is_filled(written[i], *of->outputs[i].len * of->outputs[i].width)) return 0;
    return 1;
}

static void fail(const call *of, const change *what, uint8_t status, const char *why) {
    fprintf(stderr, "%s: status %d: %s (%s %zu, value %d)\n", of->name, status, why, what->is_length ? "length" : "byte",
            what->is_length ? what->count : what->byte, what->value);
    abort();
}

/* Makes the call with one change, on copies. */
static uint8_t try(call *of, change what) {
    void *read[20] = {0}, *written[3] = {0};
    for (size_t i = 0; i < 20 && of->inputs[i].width; i++) {
        read[i] = lent(&of->inputs[i], &what, of->inputs[i].len);
        memcpy(of->inputs[i].pointer, &read[i], sizeof read[i]);
    }
    for (size_t i = 0; i < 3 && of->outputs[i].width; i++) {
        written[i] = filled(&of->outputs[i], &what, of->outputs[i].len);
        memcpy(of->outputs[i].pointer, &written[i], sizeof written[i]);
    }
    memset(&fault, FILL, sizeof fault);
    len = 0;
    alarm(60);
    uint8_t status = of->make();
    alarm(0);
    calls++, seen |= BIT(status);
    if (status > VORTEX_MISFIT || !(of->statuses & BIT(status))) fail(of, &what, status, "no status of this call");
    if (status == VORTEX_OK && !is_filled(&fault, sizeof fault)) fail(of, &what, status, "an answer has a fault");
    if (status == VORTEX_OK && of->len_of && len > *of->outputs[of->len_of].len) fail(of, &what, status, "more is written than has room");
    if (status == VORTEX_TOO_SHORT && len <= *of->outputs[of->len_of].len) fail(of, &what, status, "it isn't too short");
    if (!kept(of, written, status)) fail(of, &what, status, "an array was written");
    for (size_t i = 0; i < 20; i++) free(read[i]);
    for (size_t i = 0; i < 3; i++) free(written[i]);
    return status;
}

static void change_bytes(call *of, const input *it) {
    for (size_t byte = 0; byte < it->count * it->width; byte++) {
        uint8_t old = ((const uint8_t *)it->bytes)[byte];
        for (int bit = 0; bit < 8; bit++) try(of, (change){.array = it, .byte = byte, .value = (uint8_t)(old ^ 1 << bit)});
        for (int value = 0; value < 4; value++)
            try(of, (change){.array = it, .byte = byte, .value = (const uint8_t[]){0, 127, 255, ' '}[value]});
    }
}

static void change_length(call *of, const void *array, size_t count) {
    const size_t counts[] = {0, 1, count ? count - 1 : 0, count + 1, count + 2, 2 * count, 3 * count + 64};
    for (size_t i = 0; i < sizeof counts / sizeof *counts; i++)
        try(of, (change){.array = array, .is_length = 1, .count = counts[i]});
}

/* Each value of a number of one byte, and values of a wider one that lie near the ends of its range or near it. */
static void change_number(call *of, const number *it) {
    uint64_t old = 0;
    memcpy(&old, it->place, it->width);
    if (it->width == 1)
        for (int value = 0; value < 256; value++) *(uint8_t *)it->place = (uint8_t)value, try(of, NONE);
    for (int bit = 0; bit < 64 && it->width == 8; bit++) {
        const uint64_t values[] = {old ^ (UINT64_C(1) << bit), (UINT64_C(1) << bit) - 1, -(UINT64_C(1) << bit), old + bit, old - bit};
        for (size_t i = 0; i < sizeof values / sizeof *values; i++) memcpy(it->place, &values[i], 8), try(of, NONE);
    }
    memcpy(it->place, &old, it->width);
}

/* Changes all that a call is handed. Unchanged it answers `first`, and changed by each of the statuses that it may have. */
static void mutate(call *of, uint8_t first) {
    seen = 0;
    uint8_t status = try(of, NONE);
    if (status != first) fail(of, &NONE, status, "it is another status than that of the arrays as they are");
    for (size_t i = 0; i < 20 && of->inputs[i].width; i++) {
        change_bytes(of, &of->inputs[i]);
        change_length(of, &of->inputs[i], of->inputs[i].count);
    }
    for (size_t i = 0; i < 3 && of->outputs[i].width; i++) change_length(of, &of->outputs[i], of->outputs[i].count);
    for (size_t i = 0; i < 24 && of->numbers[i].width; i++) change_number(of, &of->numbers[i]);
    assert(try(of, NONE) == first);
    if (seen != of->statuses) fprintf(stderr, "%s: statuses %x are met, of %x\n", of->name, (unsigned)seen, (unsigned)of->statuses);
    assert(seen == of->statuses);
}

/* What the calls are handed. */
static vortex_values column;
static vortex_arrow_values arrow;
static vortex_statistic left[3], right[3];
static vortex_field scope[2];
static uint8_t *known, *bytes, *answers, kind, nullable, flags;
static vortex_span *unread;
static uint64_t *ends, rows_of_zone;
static const uint8_t *wanted, *text;
static const uint64_t *zone_rows;
static size_t known_len, ends_len, bytes_len, answers_len, wanted_len, text_len, zone_rows_len, zones, zone, unread_len;

static uint8_t make_measure(void) {
    return vortex_measure(&column, wanted, wanted_len, known, known_len, ends, ends_len, bytes, bytes_len, &len, &fault);
}

static uint8_t make_measure_arrow(void) {
    return vortex_measure_arrow(&arrow, wanted, wanted_len, known, known_len, ends, ends_len, bytes, bytes_len, &len, &fault);
}

static uint8_t make_check_arrow(void) { return vortex_check_arrow(&arrow, rows_of_zone, left, 1, zone, &fault); }

static uint8_t make_check(void) { return vortex_check(&column, rows_of_zone, left, 2, zone, &fault); }

static uint8_t make_merge(void) {
    return vortex_merge(kind, nullable, zones, left, 2, right, 2, known, known_len, ends, ends_len, bytes, bytes_len, &len, &fault);
}

static uint8_t make_merge_zones(void) {
    return vortex_merge_zones(kind, nullable, zones, left, 2, known, known_len, ends, ends_len, bytes, bytes_len, &len, &fault);
}

static uint8_t make_prune(void) {
    return vortex_prune(scope, 2, zone_rows, zone_rows_len, left, 3, text, text_len, flags, answers, answers_len, &fault);
}

static uint8_t make_prune_sql(void) {
    return vortex_prune_sql(scope, 2, zone_rows, zone_rows_len, left, 3, text, text_len, flags, answers, answers_len, unread, unread_len,
                            &len, &fault);
}

static uint8_t make_run(void) { return vortex_run(text, text_len, bytes, bytes_len, &len); }

#define VALUES(it, in, n) {.bytes = in, .count = n, .width = 1, .pointer = &(it).values, .len = &(it).values_len}
#define ENDS(it, in, n) {.bytes = in, .count = n, .width = 8, .pointer = &(it).ends, .len = &(it).ends_len}
#define NULLS(in, n) {.bytes = in, .count = n, .width = 1, .pointer = &column.nulls, .len = &column.nulls_len}
#define KNOWN(it, in, n) {.bytes = in, .count = n, .width = 1, .pointer = &(it).known, .len = &(it).known_len}
#define COLUMN_NUMBERS {&column.kind, 1}, {&column.nullable, 1}, {&column.rows, 8}, {&column.size, 8}, {&column.start, 8}
#define VALIDITY(in, n) {.bytes = in, .count = n, .width = 1, .pointer = &arrow.validity, .len = &arrow.validity_len}
#define OFFSETS(in, n) {.bytes = in, .count = n, .width = 1, .pointer = &arrow.offsets, .len = &arrow.offsets_len}
#define ARROW_NUMBERS \
    {&arrow.kind, 1}, {&arrow.nullable, 1}, {&arrow.offset_width, 1}, {&arrow.rows, 8}, {&arrow.offset, 8}, {&arrow.size, 8}
#define STAT_NUMBERS(it) {&(it).column, 8}, {&(it).stat, 1}, {&(it).start, 8}
#define FIELD_NUMBERS(it) {&(it).kind, 1}, {&(it).nullable, 1}, {&(it).unit, 1}, {&(it).precision, 1}, {&(it).scale, 1}
#define OUTPUTS(stats, room) \
    {{stats, 1, &known, &known_len}, {stats, 8, &ends, &ends_len}, {room, 1, &bytes, &bytes_len}}
#define WANTED(in, n) {.bytes = in, .count = n, .width = 1, .pointer = &wanted, .len = &wanted_len}
#define MEASURE_STATUSES \
    (BIT(VORTEX_OK) | BIT(VORTEX_TOO_SHORT) | BIT(VORTEX_BAD_KIND) | BIT(VORTEX_BAD_STAT) | BIT(VORTEX_BAD_LENGTH))

#define MERGE_STATUSES \
    (BIT(VORTEX_OK) | BIT(VORTEX_TOO_SHORT) | BIT(VORTEX_BAD_KIND) | BIT(VORTEX_BAD_STAT) | BIT(VORTEX_BAD_KNOWN) | \
     BIT(VORTEX_BAD_LENGTH) | BIT(VORTEX_BAD_ENDS) | BIT(VORTEX_BAD_VALUE))

static void measure_numbers(void) {
    static const int16_t numbers[3] = {-300, 7, 4095};
    column = (vortex_values){.kind = VORTEX_I16, .nullable = 1, .rows = 3, .size = 6};
    call of = {"measure numbers", make_measure, MEASURE_STATUSES | BIT(VORTEX_BAD_NULL),
               {VALUES(column, numbers, 6), NULLS("\0\1\0", 3), ENDS(column, NULL, 0), WANTED("\0\1\2\3\4\5\6\7", 8)},
               OUTPUTS(8, 31), {COLUMN_NUMBERS}, 2};
    mutate(&of, VORTEX_OK);
}

static void measure_texts(void) {
    static const uint64_t text_ends[4] = {4, 6, 6, 9};
    column = (vortex_values){.kind = VORTEX_UTF8, .nullable = 1, .rows = 4, .size = 77, .start = 1};
    call of = {"measure texts", make_measure,
               MEASURE_STATUSES | BIT(VORTEX_BAD_NULL) | BIT(VORTEX_BAD_ENDS) | BIT(VORTEX_BAD_VALUE),
               {VALUES(column, "?bee\xc3\xa9" "abc", 9), NULLS("\0\0\1\0", 4), ENDS(column, text_ends, 4), WANTED("\3\4\6\7\1\2\0", 7)},
               OUTPUTS(7, 32), {COLUMN_NUMBERS}, 2};
    mutate(&of, VORTEX_OK);
}

static void measure_truths_and_bytes(void) {
    column = (vortex_values){.kind = VORTEX_BOOL, .rows = 3, .size = 3};
    call truths = {"measure truths", make_measure, MEASURE_STATUSES | BIT(VORTEX_BAD_VALUE),
                   {VALUES(column, "\1\0\1", 3), WANTED("\3\4\5\6\0\1\2", 7)}, OUTPUTS(7, 21), {COLUMN_NUMBERS}, 2};
    mutate(&truths, VORTEX_OK);
    static const uint64_t byte_ends[2] = {0, 3};
    column = (vortex_values){.kind = VORTEX_BINARY, .rows = 2};
    call binary = {"measure bytes", make_measure, MEASURE_STATUSES | BIT(VORTEX_BAD_ENDS) | BIT(VORTEX_BAD_VALUE),
                   {VALUES(column, "\xff\0a", 3), ENDS(column, byte_ends, 2), WANTED("\3\4", 2)}, OUTPUTS(2, 3),
                   {COLUMN_NUMBERS}, 2};
    mutate(&binary, VORTEX_OK);
}

/* Any number of rows of a column of nulls is measured at once. */
static void measure_nulls(void) {
    column = (vortex_values){.kind = VORTEX_NULL, .rows = 3};
    call of = {"measure nulls", make_measure, MEASURE_STATUSES, {WANTED("\6\0\7\1\2", 5)}, OUTPUTS(5, 19), {COLUMN_NUMBERS}, 2};
    mutate(&of, VORTEX_OK);
}

static void measure_arrow_numbers(void) {
    static const int16_t numbers[5] = {9, -300, 7, 4095, 8};
    arrow = (vortex_arrow_values){.kind = VORTEX_I16, .nullable = 1, .offset_width = 4, .rows = 3, .offset = 1, .size = 6};
    call of = {"measure numbers of Arrow", make_measure_arrow,
               MEASURE_STATUSES | BIT(VORTEX_BAD_NULL) | BIT(VORTEX_BAD_ENDS),
               {VALUES(arrow, numbers, 10), VALIDITY("\x0b\xff", 2), OFFSETS("\0\0\0\0\1\0\0\0\2\0\0\0\1\0\0\0\2\0\0\0", 20),
                WANTED("\0\1\2\3\4\6\7", 7)},
               OUTPUTS(7, 23), {ARROW_NUMBERS}, 2};
    mutate(&of, VORTEX_OK);
}

static void measure_arrow_texts(void) {
    static const int32_t short_offsets[6] = {7, 1, 4, 6, 6, 9};
    static const int64_t long_offsets[6] = {7, 1, 4, 6, 6, 9};
    for (int wide = 0; wide <= 1; wide++) {
        arrow = (vortex_arrow_values){.kind = VORTEX_UTF8, .nullable = 1, .offset_width = wide ? 8 : 4, .rows = 4, .offset = 1, .size = 77};
        call of = {"measure texts of Arrow", make_measure_arrow,
                   MEASURE_STATUSES | BIT(VORTEX_BAD_NULL) | BIT(VORTEX_BAD_ENDS) | BIT(VORTEX_BAD_VALUE),
                   {VALUES(arrow, "?bee\xc3\xa9" "abc", 9), VALIDITY("\x16", 1),
                    OFFSETS(wide ? (const void *)long_offsets : short_offsets, wide ? 48 : 24), WANTED("\3\4\6\7\1\2\0", 7)},
                   OUTPUTS(7, 32), {ARROW_NUMBERS}, 2};
        mutate(&of, VORTEX_OK);
    }
}

static void measure_arrow_truths(void) {
    arrow = (vortex_arrow_values){.kind = VORTEX_BOOL, .nullable = 1, .rows = 3, .offset = 7, .size = 3};
    call of = {"measure truths of Arrow", make_measure_arrow, MEASURE_STATUSES | BIT(VORTEX_BAD_NULL),
               {VALUES(arrow, "\x80\x02", 2), VALIDITY("\xff\x02", 2), WANTED("\3\4\6\0\1\2", 6)}, OUTPUTS(6, 13), {ARROW_NUMBERS}, 2};
    mutate(&of, VORTEX_OK);
}

static void check_arrow_texts(void) {
    static const int32_t offsets[3] = {0, 3, 6};
    static const uint64_t least_ends[2] = {4, 5};
    arrow = (vortex_arrow_values){.kind = VORTEX_UTF8, .nullable = 1, .offset_width = 4, .rows = 2};
    left[0] = (vortex_statistic){.stat = VORTEX_MIN, .start = 1};
    rows_of_zone = 2, zone = 0;
    call of = {"check texts of Arrow", make_check_arrow,
               (MERGE_STATUSES & ~BIT(VORTEX_TOO_SHORT)) | BIT(VORTEX_UNTRUE),
               {VALUES(arrow, "abcabd", 6), OFFSETS(offsets, 12), VALIDITY("\3", 1), KNOWN(left[0], "\1\2", 2),
                VALUES(left[0], "?abca", 5), ENDS(left[0], least_ends, 2)},
               {{0}}, {ARROW_NUMBERS, STAT_NUMBERS(left[0]), {&rows_of_zone, 8}, {&zone, 8}}, 0};
    mutate(&of, VORTEX_OK);
}

static void check_texts(void) {
    static const uint64_t column_ends[2] = {3, 6}, least_ends[2] = {4, 5}, null_counts[2] = {0, 5};
    column = (vortex_values){.kind = VORTEX_UTF8, .nullable = 1, .rows = 2};
    left[0] = (vortex_statistic){.stat = VORTEX_MIN, .start = 1};
    left[1] = (vortex_statistic){.stat = VORTEX_NULL_COUNT};
    rows_of_zone = 2, zone = 0;
    call of = {"check", make_check,
               (MERGE_STATUSES & ~BIT(VORTEX_TOO_SHORT)) | BIT(VORTEX_UNTRUE),
               {VALUES(column, "abcabd", 6), ENDS(column, column_ends, 2), NULLS("\0\0", 2), KNOWN(left[0], "\1\2", 2),
                VALUES(left[0], "?abca", 5), ENDS(left[0], least_ends, 2), KNOWN(left[1], "\1\2", 2),
                VALUES(left[1], null_counts, 16), ENDS(left[1], NULL, 0)},
               {{0}}, {COLUMN_NUMBERS, STAT_NUMBERS(left[0]), STAT_NUMBERS(left[1]), {&rows_of_zone, 8}, {&zone, 8}}, 0};
    mutate(&of, VORTEX_OK);
}

static void merge_tables(void) {
    static const uint64_t left_ends[2] = {4, 6}, right_ends[2] = {1, 3}, left_nulls[2] = {1, 5}, right_nulls[2] = {2, 7};
    kind = VORTEX_UTF8, nullable = 1, zones = 2;
    left[0] = (vortex_statistic){.stat = VORTEX_MIN, .start = 1};
    right[0] = (vortex_statistic){.stat = VORTEX_MIN};
    left[1] = right[1] = (vortex_statistic){.stat = VORTEX_NULL_COUNT};
    call of = {"merge", make_merge, MERGE_STATUSES,
               {KNOWN(left[0], "\1\1", 2), VALUES(left[0], "?beeab", 6), ENDS(left[0], left_ends, 2), KNOWN(left[1], "\1\2", 2),
                VALUES(left[1], left_nulls, 16), KNOWN(right[0], "\1\2", 2), VALUES(right[0], "caa", 3),
                ENDS(right[0], right_ends, 2), KNOWN(right[1], "\1\0", 2), VALUES(right[1], right_nulls, 16)},
               OUTPUTS(4, 21),
               {{&kind, 1}, {&nullable, 1}, {&zones, 8}, STAT_NUMBERS(left[0]), STAT_NUMBERS(left[1]), STAT_NUMBERS(right[0]),
                STAT_NUMBERS(right[1])}, 2};
    mutate(&of, VORTEX_OK);
}

static void merge_a_table(void) {
    static const uint64_t text_ends[3] = {4, 6, 7}, nulls[3] = {1, 5, 0};
    kind = VORTEX_UTF8, nullable = 1, zones = 3;
    left[0] = (vortex_statistic){.stat = VORTEX_MAX, .start = 1};
    left[1] = (vortex_statistic){.stat = VORTEX_NULL_COUNT};
    call of = {"merge zones", make_merge_zones, MERGE_STATUSES,
               {KNOWN(left[0], "\1\2\1", 3), VALUES(left[0], "?bee\xc3\xa9" "a", 7), ENDS(left[0], text_ends, 3),
                KNOWN(left[1], "\1\2\1", 3), VALUES(left[1], nulls, 24)},
               OUTPUTS(2, 10), {{&kind, 1}, {&nullable, 1}, {&zones, 8}, STAT_NUMBERS(left[0]), STAT_NUMBERS(left[1])}, 2};
    mutate(&of, VORTEX_OK);
}

#define NAME(it, in) {.bytes = in, .count = sizeof in - 1, .width = 1, .pointer = &(it).name, .len = &(it).name_len}
#define TEXT(in) {.bytes = in, .count = sizeof in - 1, .width = 1, .pointer = &text, .len = &text_len}

static void prune_a_table(void) {
    static const char predicate[] = "or and gt col a lit i32 12 between < <= col a col a lit i32? null not ilike col bc lit utf8 \"b\\\"_%\"";
    static const uint64_t rows[3] = {4, 0, 7}, nulls[3] = {0, 4, 4}, text_ends[3] = {2, 3, 6};
    static const int32_t least[3] = {-5, 10, 20};
    scope[0] = (vortex_field){.kind = VORTEX_I32};
    scope[1] = (vortex_field){.kind = VORTEX_UTF8, .nullable = 1};
    left[0] = (vortex_statistic){.column = 0, .stat = VORTEX_MIN};
    left[1] = (vortex_statistic){.column = 1, .stat = VORTEX_NULL_COUNT};
    left[2] = (vortex_statistic){.column = 1, .stat = VORTEX_MAX, .start = 1};
    call of = {"prune", make_prune,
               (MERGE_STATUSES & ~BIT(VORTEX_TOO_SHORT)) | BIT(VORTEX_BAD_LINE) | BIT(VORTEX_BAD_COLUMN) | BIT(VORTEX_BAD_NAME) |
                   BIT(VORTEX_BAD_FLAG),
               {NAME(scope[0], "a"), NAME(scope[1], "bc"), TEXT(predicate),
                {.bytes = rows, .count = 3, .width = 8, .pointer = &zone_rows, .len = &zone_rows_len},
                KNOWN(left[0], "\1\2\0", 3), VALUES(left[0], least, 12), KNOWN(left[1], "\1\1\1", 3), VALUES(left[1], nulls, 24),
                KNOWN(left[2], "\1\0\1", 3), VALUES(left[2], "?cxbee", 6), ENDS(left[2], text_ends, 3), ENDS(left[0], NULL, 0)},
               {{3, 1, &answers, &answers_len}},
               {FIELD_NUMBERS(scope[0]), FIELD_NUMBERS(scope[1]), STAT_NUMBERS(left[0]),
                STAT_NUMBERS(left[1]), STAT_NUMBERS(left[2]), {&flags, 1}}, 0};
    for (flags = 0; flags <= VORTEX_NORMALIZE; flags++) mutate(&of, VORTEX_OK);
    flags = 0;
}

static void prune_by_sql(void) {
    static const char condition[] = "a > 12 AND NOT lower(bc) = 'x' OR bc LIKE 'b%' IS TRUE";
    static const uint64_t rows[3] = {4, 0, 7}, nulls[3] = {0, 4, 4}, text_ends[3] = {2, 3, 6};
    static const int32_t least[3] = {-5, 10, 20};
    scope[0] = (vortex_field){.kind = VORTEX_I32};
    scope[1] = (vortex_field){.kind = VORTEX_UTF8, .nullable = 1};
    left[0] = (vortex_statistic){.column = 0, .stat = VORTEX_MIN};
    left[1] = (vortex_statistic){.column = 1, .stat = VORTEX_NULL_COUNT};
    left[2] = (vortex_statistic){.column = 1, .stat = VORTEX_MAX, .start = 1};
    call of = {"prune by SQL", make_prune_sql,
               MERGE_STATUSES | BIT(VORTEX_BAD_COLUMN) | BIT(VORTEX_BAD_NAME) | BIT(VORTEX_BAD_FLAG) | BIT(VORTEX_BAD_SQL) |
                   BIT(VORTEX_MISFIT),
               {NAME(scope[0], "a"), NAME(scope[1], "bc"), TEXT(condition),
                {.bytes = rows, .count = 3, .width = 8, .pointer = &zone_rows, .len = &zone_rows_len},
                KNOWN(left[0], "\1\2\0", 3), VALUES(left[0], least, 12), KNOWN(left[1], "\1\1\1", 3), VALUES(left[1], nulls, 24),
                KNOWN(left[2], "\1\0\1", 3), VALUES(left[2], "?cxbee", 6), ENDS(left[2], text_ends, 3), ENDS(left[0], NULL, 0)},
               {{3, 1, &answers, &answers_len}, {1, sizeof(vortex_span), &unread, &unread_len}},
               {FIELD_NUMBERS(scope[0]), FIELD_NUMBERS(scope[1]), STAT_NUMBERS(left[0]),
                STAT_NUMBERS(left[1]), STAT_NUMBERS(left[2]), {&flags, 1}}, 1};
    for (flags = 0; flags <= VORTEX_LAST_NAME; flags += VORTEX_LAST_NAME) mutate(&of, VORTEX_OK);
    flags = 0;
}

/* Columns of dates and of decimals. */
static void prune_logical_by_sql(void) {
    static const char condition[] = "d >= DATE '1970-01-13' AND p BETWEEN 1.5 AND 2e0 OR f(d) = 1";
    static const uint64_t rows[3] = {4, 0, 7};
    static const int32_t days[3] = {-5, 10, 20};
    static const int64_t cents[3] = {150, 199, 201};
    scope[0] = (vortex_field){.kind = VORTEX_DATE};
    scope[1] = (vortex_field){.kind = VORTEX_DECIMAL, .nullable = 1, .precision = 9, .scale = 2};
    left[0] = (vortex_statistic){.column = 0, .stat = VORTEX_MIN};
    left[1] = (vortex_statistic){.column = 1, .stat = VORTEX_MIN};
    left[2] = (vortex_statistic){.column = 1, .stat = VORTEX_MAX};
    call of = {"prune logical types by SQL", make_prune_sql,
               (MERGE_STATUSES & ~BIT(VORTEX_BAD_ENDS) & ~BIT(VORTEX_BAD_VALUE)) | BIT(VORTEX_BAD_COLUMN) | BIT(VORTEX_BAD_NAME) | BIT(VORTEX_BAD_FLAG) | BIT(VORTEX_BAD_SQL) |
                   BIT(VORTEX_MISFIT),
               {NAME(scope[0], "d"), NAME(scope[1], "p"), TEXT(condition),
                {.bytes = rows, .count = 3, .width = 8, .pointer = &zone_rows, .len = &zone_rows_len},
                KNOWN(left[0], "\1\2\0", 3), VALUES(left[0], days, 12), KNOWN(left[1], "\1\1\1", 3), VALUES(left[1], cents, 24),
                KNOWN(left[2], "\1\0\1", 3), VALUES(left[2], cents, 24), ENDS(left[2], NULL, 0), ENDS(left[0], NULL, 0)},
               {{3, 1, &answers, &answers_len}, {1, sizeof(vortex_span), &unread, &unread_len}},
               {FIELD_NUMBERS(scope[0]), FIELD_NUMBERS(scope[1]), STAT_NUMBERS(left[0]), STAT_NUMBERS(left[1]), STAT_NUMBERS(left[2]),
                {&flags, 1}}, 1};
    mutate(&of, VORTEX_OK);
}

static void run_texts(void) {
    static const char scan[] = "column a i64?\npart\nstat a max exact 10\nrow 10\npart\nrow 20\nwhere gt col a lit i64 10\n";
    call answered = {"run", make_run, BIT(VORTEX_OK) | BIT(VORTEX_BAD_LINE) | BIT(VORTEX_TOO_SHORT), {TEXT(scan)},
                     {{64, 1, &bytes, &bytes_len}}, {{0}}, 0};
    mutate(&answered, VORTEX_OK);
    static const char number[] = "column a i64\npart\nrow 10\nwhere col a\n";
    call unanswered = {"run a number", make_run, BIT(VORTEX_NO_ANSWER) | BIT(VORTEX_BAD_LINE) | BIT(VORTEX_TOO_SHORT), {TEXT(number)},
                       {{64, 1, &bytes, &bytes_len}}, {{0}}, 0};
    mutate(&unanswered, VORTEX_NO_ANSWER);
}

int main(void) {
    measure_numbers();
    measure_texts();
    measure_truths_and_bytes();
    measure_nulls();
    measure_arrow_numbers();
    measure_arrow_texts();
    measure_arrow_truths();
    check_texts();
    check_arrow_texts();
    merge_tables();
    merge_a_table();
    prune_a_table();
    prune_by_sql();
    prune_logical_by_sql();
    run_texts();
    printf("mutations: %lu calls over changed arrays are answered by a status\n", calls);
    return 0;
}
