/* SPDX-License-Identifier: Apache-2.0 */
/* Every field of the header's structs, their sizes and offsets, and every status, as the library has them. */
#include "vortex.h"
#include <assert.h>
#include <stdio.h>
#include <string.h>

static vortex_fault fault;
static uint8_t known[16], bytes[256];
static uint64_t ends[16];
static size_t len;

static const uint8_t every_stat[8] = {VORTEX_IS_CONSTANT, VORTEX_IS_SORTED,  VORTEX_IS_STRICT_SORTED,
                                      VORTEX_MAX,         VORTEX_MIN,        VORTEX_SUM,
                                      VORTEX_NULL_COUNT,  VORTEX_UNCOMPRESSED_SIZE_IN_BYTES};

static uint8_t measure(const vortex_values *column, const uint8_t *stats, size_t count) {
    return vortex_measure(column, stats, count, known, count, ends, count, bytes, sizeof bytes, &len, &fault);
}

/* The layout of the structs on a machine of 64 bits, field by field. */
static void layout(void) {
    _Static_assert(sizeof(vortex_fault) == 24 && offsetof(vortex_fault, row) == 0 && offsetof(vortex_fault, column) == 8 &&
                       offsetof(vortex_fault, entry) == 16, "vortex_fault");
    _Static_assert(sizeof(vortex_values) == 80 && offsetof(vortex_values, kind) == 0 && offsetof(vortex_values, nullable) == 1 &&
                       offsetof(vortex_values, rows) == 8 && offsetof(vortex_values, size) == 16 &&
                       offsetof(vortex_values, start) == 24 && offsetof(vortex_values, values) == 32 &&
                       offsetof(vortex_values, values_len) == 40 && offsetof(vortex_values, ends) == 48 &&
                       offsetof(vortex_values, ends_len) == 56 && offsetof(vortex_values, nulls) == 64 &&
                       offsetof(vortex_values, nulls_len) == 72, "vortex_values");
    _Static_assert(sizeof(vortex_arrow_values) == 80 && offsetof(vortex_arrow_values, kind) == 0 &&
                       offsetof(vortex_arrow_values, nullable) == 1 && offsetof(vortex_arrow_values, offset_width) == 2 &&
                       offsetof(vortex_arrow_values, rows) == 8 && offsetof(vortex_arrow_values, offset) == 16 &&
                       offsetof(vortex_arrow_values, size) == 24 && offsetof(vortex_arrow_values, validity) == 32 &&
                       offsetof(vortex_arrow_values, validity_len) == 40 && offsetof(vortex_arrow_values, values) == 48 &&
                       offsetof(vortex_arrow_values, values_len) == 56 && offsetof(vortex_arrow_values, offsets) == 64 &&
                       offsetof(vortex_arrow_values, offsets_len) == 72, "vortex_arrow_values");
    _Static_assert(sizeof(vortex_statistic) == 72 && offsetof(vortex_statistic, column) == 0 &&
                       offsetof(vortex_statistic, stat) == 8 && offsetof(vortex_statistic, start) == 16 &&
                       offsetof(vortex_statistic, known) == 24 && offsetof(vortex_statistic, known_len) == 32 &&
                       offsetof(vortex_statistic, values) == 40 && offsetof(vortex_statistic, values_len) == 48 &&
                       offsetof(vortex_statistic, ends) == 56 && offsetof(vortex_statistic, ends_len) == 64, "vortex_statistic");
    _Static_assert(sizeof(vortex_field) == 24 && offsetof(vortex_field, name) == 0 && offsetof(vortex_field, name_len) == 8 &&
                       offsetof(vortex_field, kind) == 16 && offsetof(vortex_field, nullable) == 17 &&
                       offsetof(vortex_field, unit) == 18 && offsetof(vortex_field, precision) == 19 &&
                       offsetof(vortex_field, scale) == 20, "vortex_field");
    _Static_assert(sizeof(vortex_span) == 16 && offsetof(vortex_span, start) == 0 && offsetof(vortex_span, end) == 8, "vortex_span");
}

/* The least and the greatest of the two numbers, whatever the type. */
static void numbers(uint8_t kind, size_t width, const void *values, const void *least, const void *greatest) {
    const uint8_t stats[2] = {VORTEX_MIN, VORTEX_MAX};
    vortex_values column = {.kind = kind, .rows = 2, .values = values, .values_len = 2 * width};
    assert(measure(&column, stats, 2) == VORTEX_OK && len == 2 * width);
    assert(known[0] == VORTEX_EXACT && known[1] == VORTEX_EXACT && ends[0] == width && ends[1] == 2 * width);
    assert(memcmp(bytes, least, width) == 0 && memcmp(bytes + width, greatest, width) == 0);
}

static void every_number(void) {
    numbers(VORTEX_U8, 1, (uint8_t[]){255, 7}, &(uint8_t){7}, &(uint8_t){255});
    numbers(VORTEX_U16, 2, (uint16_t[]){65535, 258}, &(uint16_t){258}, &(uint16_t){65535});
    numbers(VORTEX_U32, 4, (uint32_t[]){4294967295u, 66051}, &(uint32_t){66051}, &(uint32_t){4294967295u});
    numbers(VORTEX_U64, 8, (uint64_t[]){UINT64_MAX, 283686952306183}, &(uint64_t){283686952306183}, &(uint64_t){UINT64_MAX});
    numbers(VORTEX_I8, 1, (int8_t[]){127, -128}, &(int8_t){-128}, &(int8_t){127});
    numbers(VORTEX_I16, 2, (int16_t[]){-2, -32768}, &(int16_t){-32768}, &(int16_t){-2});
    numbers(VORTEX_I32, 4, (int32_t[]){5, INT32_MIN}, &(int32_t){INT32_MIN}, &(int32_t){5});
    numbers(VORTEX_I64, 8, (int64_t[]){INT64_MAX, INT64_MIN}, &(int64_t){INT64_MIN}, &(int64_t){INT64_MAX});
    numbers(VORTEX_BOOL, 1, (uint8_t[]){1, 0}, &(uint8_t){0}, &(uint8_t){1});
    numbers(VORTEX_DATE, 4, (int32_t[]){5, INT32_MIN}, &(int32_t){INT32_MIN}, &(int32_t){5});
    for (uint8_t kind = VORTEX_TIME; kind <= VORTEX_DECIMAL; kind++)
        numbers(kind, 8, (int64_t[]){INT64_MAX, INT64_MIN}, &(int64_t){INT64_MIN}, &(int64_t){INT64_MAX});
}

/* Every field of a column counts: rows, size, start, values, ends and nulls. */
static void every_field(void) {
    const uint64_t text_ends[4] = {4, 4, 7, 9};
    const uint8_t nulls[4] = {0, 0, 0, 1};
    vortex_values column = {.kind = VORTEX_UTF8, .nullable = 1, .rows = 4, .size = 77, .start = 1,
                            .values = (const uint8_t *)"?beeabc??", .values_len = 9, .ends = text_ends, .ends_len = 4,
                            .nulls = nulls, .nulls_len = 4};
    const uint8_t stats[4] = {VORTEX_MIN, VORTEX_MAX, VORTEX_NULL_COUNT, VORTEX_UNCOMPRESSED_SIZE_IN_BYTES};
    assert(measure(&column, stats, 4) == VORTEX_OK && len == 19);
    assert(ends[0] == 0 && ends[1] == 3 && ends[2] == 11 && ends[3] == 19);
    assert(memcmp(bytes, "bee", 3) == 0 && bytes[3] == 1 && bytes[11] == 77);
    column.kind = VORTEX_BINARY;
    column.rows = column.ends_len = column.nulls_len = 1;
    assert(measure(&column, stats, 2) == VORTEX_OK && len == 6 && memcmp(bytes, "beebee", 6) == 0);
    column.rows = column.ends_len = column.nulls_len = 0;
    assert(measure(&column, stats, 2) == VORTEX_OK && len == 0 && known[0] == VORTEX_ABSENT);
    vortex_values nothing = {.kind = VORTEX_NULL, .rows = 3};
    assert(measure(&nothing, stats + 2, 1) == VORTEX_OK && len == 8 && bytes[0] == 3);
    /* No time is taken for each row where no array has it. */
    nothing.rows = SIZE_MAX;
    assert(measure(&nothing, stats + 2, 1) == VORTEX_OK && len == 8 && bytes[0] == 255 && bytes[7] == 255);
}

static void refused(uint8_t status, uint8_t wanted, size_t row, size_t entry) {
    if (status != wanted || fault.row != row || fault.column != 0 || fault.entry != entry)
        fprintf(stderr, "status %d instead of %d, row %zu, column %zu, entry %zu\n", status, wanted, fault.row, fault.column,
                fault.entry);
    assert(status == wanted && fault.row == row && fault.column == 0 && fault.entry == entry);
}

/* An array that has an element more than there are rows is refused, and so is one that has one less. */
static void every_length(vortex_values good) {
    static const uint64_t some_ends[3] = {1, 2, 3};
    const uint8_t stats[1] = {VORTEX_NULL_COUNT};
    good.ends = some_ends, good.nulls = (const uint8_t *)"\0\0", good.nulls_len = 2;
    assert(measure(&good, stats, 1) == VORTEX_OK);
    for (int step = -1; step <= 1; step += 2) {
        vortex_values bad = good;
        bad.values_len = (size_t)(4 + step);
        refused(measure(&bad, stats, 1), VORTEX_BAD_LENGTH, 0, 0);
        bad = good, bad.nulls_len = (size_t)(2 + step);
        refused(measure(&bad, stats, 1), VORTEX_BAD_LENGTH, 0, 0);
        bad = good, bad.rows = (size_t)(2 + step);
        refused(measure(&bad, stats, 1), VORTEX_BAD_LENGTH, 0, 0);
        bad = good, bad.kind = VORTEX_UTF8, bad.ends_len = (size_t)(2 + step);
        refused(measure(&bad, stats, 1), VORTEX_BAD_LENGTH, 0, 0);
    }
    good.ends_len = 1;
    refused(measure(&good, stats, 1), VORTEX_BAD_LENGTH, 0, 0);
    /* The heap may go on behind its last end. */
    good.kind = VORTEX_UTF8, good.ends_len = 2, good.values_len = 3;
    assert(measure(&good, stats, 1) == VORTEX_OK);
    vortex_values nulls = {.kind = VORTEX_NULL, .rows = 2, .values = good.values, .values_len = 1};
    refused(measure(&nulls, stats, 1), VORTEX_BAD_LENGTH, 0, 0);
}

static void every_refusal(void) {
    vortex_values good = {.kind = VORTEX_I16, .nullable = 1, .rows = 2, .values = (const uint8_t *)"abcd", .values_len = 4};
    vortex_values bad = good;
    bad.kind = 17;
    refused(measure(&bad, every_stat, 8), VORTEX_BAD_KIND, 0, 0);
    bad.kind = VORTEX_I16, bad.nullable = 2;
    refused(measure(&bad, every_stat, 8), VORTEX_BAD_KIND, 0, 0);
    bad.nullable = 0, bad.nulls = (const uint8_t *)"\0\1", bad.nulls_len = 2;
    refused(measure(&bad, every_stat, 8), VORTEX_BAD_NULL, 1, 0);
    bad = good, bad.kind = VORTEX_BOOL, bad.values_len = 2;
    refused(measure(&bad, every_stat, 8), VORTEX_BAD_VALUE, 0, 0);
    bad.kind = VORTEX_UTF8;
    refused(measure(&bad, (const uint8_t[]){VORTEX_MIN, VORTEX_SUM}, 2), VORTEX_BAD_STAT, 0, 1);
    refused(measure(&bad, (const uint8_t[]){VORTEX_MIN, 9}, 2), VORTEX_BAD_STAT, 0, 1);
    refused(measure(&bad, every_stat, 1), VORTEX_BAD_LENGTH, 0, 0);
    const uint64_t text_ends[2] = {2, 5};
    bad.ends = text_ends, bad.ends_len = 2;
    refused(measure(&bad, every_stat, 1), VORTEX_BAD_ENDS, 1, 0);
    bad.values = (const uint8_t *)"ab\xffz!", bad.values_len = 5;
    refused(measure(&bad, every_stat, 1), VORTEX_BAD_VALUE, 1, 0);
    every_length(good);
    known[0] = 99, ends[0] = 99, bytes[0] = 99;
    assert(vortex_measure(&good, every_stat, 8, known, 8, ends, 8, bytes, 30, &len, &fault) == VORTEX_TOO_SHORT && len == 31);
    assert(known[0] == 99 && ends[0] == 99 && bytes[0] == 99);
    assert(vortex_measure(&good, every_stat, 8, known, 7, ends, 8, bytes, 256, &len, &fault) == VORTEX_BAD_LENGTH);
    assert(known[0] == 99 && ends[0] == 99 && bytes[0] == 99);
}

/* ---- columns in Arrow's layout */

static uint8_t measure_arrow(const vortex_arrow_values *column, const uint8_t *stats, size_t count) {
    return vortex_measure_arrow(column, stats, count, known, count, ends, count, bytes, sizeof bytes, &len, &fault);
}

static const uint8_t least_greatest_nulls[4] = {VORTEX_MIN, VORTEX_MAX, VORTEX_NULL_COUNT, VORTEX_UNCOMPRESSED_SIZE_IN_BYTES};

/* Numbers behind two places, the last of them null, whose bits begin in the middle of a byte and end in the next one. */
static void arrow_numbers(void) {
    const int16_t numbers[9] = {9, 9, -300, 7, 4095, 1, 2, 3, -9999};
    vortex_arrow_values column = {.kind = VORTEX_I16, .nullable = 1, .rows = 7, .offset = 2, .size = 33,
                                  .validity = (const uint8_t *)"\xfc\xfe", .validity_len = 2, .values = (const uint8_t *)numbers,
                                  .values_len = 18};
    assert(measure_arrow(&column, least_greatest_nulls, 4) == VORTEX_OK && len == 20);
    assert(memcmp(bytes, &(int16_t){-300}, 2) == 0 && memcmp(bytes + 2, &(int16_t){4095}, 2) == 0 && bytes[4] == 1 && bytes[12] == 33);
    /* No bitmap, and a buffer that goes on. */
    column.validity = NULL, column.validity_len = 0, column.rows = 2;
    assert(measure_arrow(&column, least_greatest_nulls, 3) == VORTEX_OK && bytes[4] == 0);
    assert(memcmp(bytes, &(int16_t){-300}, 2) == 0 && memcmp(bytes + 2, &(int16_t){7}, 2) == 0);
    column.values_len = 7;
    refused(measure_arrow(&column, least_greatest_nulls, 3), VORTEX_BAD_LENGTH, 0, 0);
    column.values_len = 8, column.validity = (const uint8_t *)"\xfb", column.validity_len = 1, column.nullable = 0;
    refused(measure_arrow(&column, least_greatest_nulls, 3), VORTEX_BAD_NULL, 0, 0);
    column.nullable = 1, column.offset = 7;
    refused(measure_arrow(&column, least_greatest_nulls, 3), VORTEX_BAD_LENGTH, 0, 0);
    column.rows = 0, column.offset = SIZE_MAX;
    assert(measure_arrow(&column, least_greatest_nulls, 3) == VORTEX_OK && known[0] == VORTEX_ABSENT);
    column.rows = 1;
    refused(measure_arrow(&column, least_greatest_nulls, 3), VORTEX_BAD_LENGTH, 0, 0);
    refused(measure_arrow(&column, (const uint8_t[]){VORTEX_MIN, 9}, 2), VORTEX_BAD_STAT, 0, 1);
    column.kind = 17;
    refused(measure_arrow(&column, least_greatest_nulls, 3), VORTEX_BAD_KIND, 0, 0);
}

/* Truths of which each has a bit, behind seven places. */
static void arrow_truths(void) {
    vortex_arrow_values column = {.kind = VORTEX_BOOL, .nullable = 1, .rows = 3, .offset = 7, .values = (const uint8_t *)"\x80\x03",
                                  .values_len = 2};
    const uint8_t stats[3] = {VORTEX_MIN, VORTEX_SUM, VORTEX_NULL_COUNT};
    assert(measure_arrow(&column, stats, 3) == VORTEX_OK && bytes[0] == 1 && bytes[1] == 3 && bytes[9] == 0);
    column.values = (const uint8_t *)"\x7f\xfe";
    assert(measure_arrow(&column, stats, 3) == VORTEX_OK && bytes[0] == 0 && bytes[1] == 1 && bytes[9] == 0);
    column.validity = (const uint8_t *)"\x00\x03", column.validity_len = 2;
    assert(measure_arrow(&column, stats, 3) == VORTEX_OK && bytes[0] == 0 && bytes[1] == 1 && bytes[9] == 1);
    column.values_len = 1;
    refused(measure_arrow(&column, stats, 3), VORTEX_BAD_LENGTH, 0, 0);
    vortex_arrow_values nothing = {.kind = VORTEX_NULL, .rows = SIZE_MAX, .offset = SIZE_MAX};
    assert(measure_arrow(&nothing, stats + 2, 1) == VORTEX_OK && bytes[0] == 255 && bytes[7] == 255);
}

/* Texts and bytes between offsets of 4 and of 8 bytes; what stands below a null may be no text. */
static void arrow_texts(void) {
    const int32_t short_offsets[5] = {1, 4, 5, 7, 7};
    const int64_t long_offsets[5] = {1, 4, 5, 7, 7};
    vortex_arrow_values column = {.kind = VORTEX_UTF8, .nullable = 1, .offset_width = 4, .rows = 3, .offset = 0, .size = 5,
                                  .validity = (const uint8_t *)"\x05", .validity_len = 1, .values = (const uint8_t *)"?bee\xffzz",
                                  .values_len = 7, .offsets = (const uint8_t *)short_offsets, .offsets_len = 20};
    for (int wide = 0; wide <= 1; wide++) {
        assert(measure_arrow(&column, least_greatest_nulls, 4) == VORTEX_OK && len == 21);
        assert(memcmp(bytes, "beezz\1", 6) == 0 && bytes[13] == 5);
        column.offset = 2, column.rows = 2;
        assert(measure_arrow(&column, least_greatest_nulls, 3) == VORTEX_OK && len == 12 && memcmp(bytes, "zzzz\1", 5) == 0);
        column.rows = 3;
        refused(measure_arrow(&column, least_greatest_nulls, 3), VORTEX_BAD_LENGTH, 0, 0);
        column.offset = 0, column.validity_len = 0;
        refused(measure_arrow(&column, least_greatest_nulls, 3), VORTEX_BAD_VALUE, 1, 0);
        column.values_len = 6;
        refused(measure_arrow(&column, least_greatest_nulls, 3), VORTEX_BAD_ENDS, 2, 0);
        column.values_len = 7, column.validity_len = 1;
        column.offset_width = 8, column.offsets = (const uint8_t *)long_offsets, column.offsets_len = 40;
    }
    const int32_t descending[4] = {1, 4, 3, 7}, negative[3] = {0, -1, 1};
    column.offset_width = 4, column.offsets = (const uint8_t *)descending, column.offsets_len = 16;
    refused(measure_arrow(&column, least_greatest_nulls, 3), VORTEX_BAD_ENDS, 1, 0);
    column.kind = VORTEX_BINARY, column.rows = 2, column.offsets = (const uint8_t *)negative, column.offsets_len = 12;
    refused(measure_arrow(&column, least_greatest_nulls, 3), VORTEX_BAD_ENDS, 0, 0);
    column.offset_width = 5;
    refused(measure_arrow(&column, least_greatest_nulls, 3), VORTEX_BAD_KIND, 0, 0);
    known[0] = 99, ends[0] = 99, bytes[0] = 99;
    column.offset_width = 4, column.offsets = (const uint8_t *)short_offsets, column.offsets_len = 20;
    assert(vortex_measure_arrow(&column, least_greatest_nulls, 1, known, 1, ends, 1, bytes, 2, &len, &fault) == VORTEX_TOO_SHORT && len == 3);
    assert(vortex_measure_arrow(&column, least_greatest_nulls, 1, known, 2, ends, 1, bytes, 9, &len, &fault) == VORTEX_BAD_LENGTH);
    assert(known[0] == 99 && ends[0] == 99 && bytes[0] == 99);
    /* Without rows there may be no buffers. */
    vortex_arrow_values none = {.kind = VORTEX_UTF8, .nullable = 1, .offset_width = 4};
    assert(measure_arrow(&none, least_greatest_nulls, 3) == VORTEX_OK && len == 8 && known[0] == VORTEX_ABSENT);
}

static void arrow_check(void) {
    const int32_t offsets[3] = {1, 3, 5};
    vortex_arrow_values column = {.kind = VORTEX_UTF8, .nullable = 1, .offset_width = 4, .rows = 2, .validity = (const uint8_t *)"\1",
                                  .validity_len = 1, .values = (const uint8_t *)"?ab\xff\xff", .values_len = 5,
                                  .offsets = (const uint8_t *)offsets, .offsets_len = 12};
    const uint64_t least_end = 2;
    vortex_statistic least = {.stat = VORTEX_MIN, .known = (const uint8_t *)"\1", .known_len = 1, .values = (const uint8_t *)"ab",
                              .values_len = 2, .ends = &least_end, .ends_len = 1};
    assert(vortex_check_arrow(&column, 2, &least, 1, 0, &fault) == VORTEX_OK);
    refused(vortex_check_arrow(&column, 3, &least, 1, 0, &fault), VORTEX_UNTRUE, 0, 1);
    least.values = (const uint8_t *)"aa";
    refused(vortex_check_arrow(&column, 2, &least, 1, 0, &fault), VORTEX_UNTRUE, 0, 0);
    column.validity = (const uint8_t *)"\3";
    refused(vortex_check_arrow(&column, 2, &least, 1, 0, &fault), VORTEX_BAD_VALUE, 1, 0);
    column.offset_width = 0;
    refused(vortex_check_arrow(&column, 2, &least, 1, 0, &fault), VORTEX_BAD_KIND, 0, 0);
}

/* Every field of a statistic counts, and a call about a zone looks at that zone alone. */
static void every_statistic(void) {
    const uint64_t column_ends[2] = {3, 6}, least_ends[3] = {4, 5, 5};
    vortex_values column = {.kind = VORTEX_UTF8, .rows = 2, .values = (const uint8_t *)"abcabd", .values_len = 6,
                            .ends = column_ends, .ends_len = 2};
    const uint8_t known[2] = {VORTEX_EXACT, VORTEX_INEXACT};
    const uint64_t null_counts[3] = {0, 5, 5};
    vortex_statistic stats[2] = {
        {.stat = VORTEX_MIN, .start = 1, .known = known, .known_len = 2, .values = (const uint8_t *)"?abca", .values_len = 5,
         .ends = least_ends, .ends_len = 2},
        {.stat = VORTEX_NULL_COUNT, .known = known, .known_len = 2, .values = (const uint8_t *)null_counts, .values_len = 16},
    };
#define CHECK(rows, zone) vortex_check(&column, rows, stats, 2, zone, &fault)
    assert(CHECK(2, 0) == VORTEX_OK);
    assert(CHECK(2, 1) == VORTEX_OK);
    refused(CHECK(1, 0), VORTEX_UNTRUE, 0, 2);
    refused(CHECK(3, 1), VORTEX_UNTRUE, 0, 2);
    refused(CHECK(UINT64_MAX, 1), VORTEX_UNTRUE, 0, 2);
    stats[0].stat = VORTEX_MAX;
    refused(CHECK(2, 0), VORTEX_UNTRUE, 0, 0);
    stats[0].stat = VORTEX_MIN, stats[0].start = 0;
    refused(CHECK(2, 0), VORTEX_UNTRUE, 0, 0);
    stats[0].start = 5;
    refused(CHECK(2, 0), VORTEX_BAD_ENDS, 0, 0);
    stats[0].start = 1, stats[1].known = (const uint8_t *)"\1\3";
    refused(CHECK(2, 1), VORTEX_BAD_KNOWN, 1, 1);
    stats[1].known = known;
    for (int step = -1; step <= 1; step += 2) {
        stats[1].values_len = (size_t)(16 + step);
        refused(CHECK(2, 1), VORTEX_BAD_LENGTH, 1, 1);
        stats[1].values_len = 16, stats[0].ends_len = (size_t)(2 + step);
        refused(CHECK(2, 1), VORTEX_BAD_LENGTH, 1, 0);
        stats[0].ends_len = 2;
    }
    refused(CHECK(2, 2), VORTEX_BAD_LENGTH, 2, 0);
    stats[1].stat = VORTEX_SUM;
    refused(CHECK(2, 0), VORTEX_BAD_STAT, 0, 1);
    assert(vortex_check(&column, 2, NULL, 0, 7, &fault) == VORTEX_OK);
    refused(vortex_check(&column, 0, NULL, 0, 7, &fault), VORTEX_UNTRUE, 0, 0);
#undef CHECK
}

/* Two tables of texts and counts, of two zones each. */
typedef struct sides {
    vortex_statistic left[2], right[2];
} sides;

static sides two_tables(void) {
    static const uint64_t left_ends[2] = {4, 6}, right_ends[2] = {1, 3}, left_nulls[2] = {1, 5}, right_nulls[2] = {2, 7};
    return (sides){
        {{.stat = VORTEX_MIN, .start = 1, .known = (const uint8_t *)"\1\1", .known_len = 2, .values = (const uint8_t *)"?beeab",
          .values_len = 6, .ends = left_ends, .ends_len = 2},
         {.stat = VORTEX_NULL_COUNT, .known = (const uint8_t *)"\1\2", .known_len = 2, .values = (const uint8_t *)left_nulls,
          .values_len = 16}},
        {{.stat = VORTEX_MIN, .known = (const uint8_t *)"\1\2", .known_len = 2, .values = (const uint8_t *)"caa", .values_len = 3,
          .ends = right_ends, .ends_len = 2},
         {.stat = VORTEX_NULL_COUNT, .known = (const uint8_t *)"\1\0", .known_len = 2, .values = (const uint8_t *)right_nulls,
          .values_len = 16}},
    };
}

#define MERGE(zones, stats) \
    vortex_merge(VORTEX_UTF8, 1, zones, it.left, stats, it.right, stats, known, 2 * (stats), ends, 2 * (stats), bytes, sizeof bytes, \
                 &len, &fault)

/* The tables are merged zone by zone, and the arrays that are written are as long as is said. */
static void every_merge(void) {
    sides it = two_tables();
    assert(MERGE(2, 2) == VORTEX_OK && len == 21);
    assert(memcmp(known, "\1\2\1\0", 4) == 0 && ends[0] == 3 && ends[1] == 5 && ends[2] == 13 && ends[3] == 21);
    assert(memcmp(bytes, "beeaa\3\0\0\0\0\0\0\0", 13) == 0);
    assert(MERGE(0, 0) == VORTEX_OK && len == 0);
    known[0] = 99, ends[0] = 99, bytes[0] = 99;
    assert(vortex_merge(17, 1, 2, it.left, 2, it.right, 2, known, 4, ends, 4, bytes, sizeof bytes, &len, &fault) == VORTEX_BAD_KIND);
    refused(vortex_merge(VORTEX_UTF8, 1, 2, it.left, 2, it.right, 1, known, 4, ends, 4, bytes, sizeof bytes, &len, &fault),
            VORTEX_BAD_LENGTH, 0, 1);
    assert(vortex_merge(VORTEX_UTF8, 1, 2, it.left, 2, it.right, 2, known, 3, ends, 4, bytes, sizeof bytes, &len, &fault) ==
           VORTEX_BAD_LENGTH);
    assert(vortex_merge(VORTEX_UTF8, 1, 2, it.left, 2, it.right, 2, known, 4, ends, 4, bytes, 20, &len, &fault) == VORTEX_TOO_SHORT &&
           len == 21);
    assert(known[0] == 99 && ends[0] == 99 && bytes[0] == 99);
}

/* Every field of a statistic counts. */
static void every_refused_merge(void) {
    sides it = two_tables();
    known[0] = 99, ends[0] = 99, bytes[0] = 99;
    refused(MERGE(3, 2), VORTEX_BAD_LENGTH, 0, 0);
    refused(MERGE(1, 2), VORTEX_BAD_LENGTH, 0, 0);
    it.right[1].stat = VORTEX_SUM;
    refused(MERGE(2, 2), VORTEX_BAD_STAT, 0, 1);
    it.left[1].stat = VORTEX_SUM;
    refused(MERGE(2, 2), VORTEX_BAD_STAT, 0, 1);
    it.left[1].stat = it.right[1].stat = VORTEX_NULL_COUNT, it.right[1].known = (const uint8_t *)"\1\3";
    assert(MERGE(2, 2) == VORTEX_BAD_KNOWN && fault.row == 1 && fault.column == 1 && fault.entry == 1);
    for (int step = -1; step <= 1; step += 2) {
        it.right[1].known_len = (size_t)(2 + step);
        assert(MERGE(2, 2) == VORTEX_BAD_LENGTH && fault.row == 0 && fault.column == 1 && fault.entry == 1);
    }
    it.right[1].known_len = 2, it.right[1].known = (const uint8_t *)"\1\0", it.left[0].start = 5;
    refused(MERGE(2, 2), VORTEX_BAD_ENDS, 0, 0);
    it.left[0].start = 1, it.left[0].values = (const uint8_t *)"?\xff..ab";
    refused(MERGE(2, 2), VORTEX_BAD_VALUE, 0, 0);
    assert(known[0] == 99 && ends[0] == 99 && bytes[0] == 99);
}

/* A table of three zones merged to one; each statistic is what merging the zones in turn leaves. */
static void every_zone_merged(void) {
    const uint64_t text_ends[3] = {4, 6, 7}, nulls[3] = {1, 5, 7};
    vortex_statistic stats[2] = {
        {.stat = VORTEX_MAX, .start = 1, .known = (const uint8_t *)"\1\2\1", .known_len = 3, .values = (const uint8_t *)"?beezza",
         .values_len = 7, .ends = text_ends, .ends_len = 3},
        {.stat = VORTEX_NULL_COUNT, .known = (const uint8_t *)"\1\1\1", .known_len = 3, .values = (const uint8_t *)nulls, .values_len = 24},
    };
#define MERGE_ZONES(zones, room) vortex_merge_zones(VORTEX_UTF8, 1, zones, stats, 2, known, 2, ends, 2, bytes, room, &len, &fault)
    assert(MERGE_ZONES(3, sizeof bytes) == VORTEX_OK && len == 10);
    assert(known[0] == VORTEX_INEXACT && known[1] == VORTEX_EXACT && ends[0] == 2 && ends[1] == 10);
    assert(memcmp(bytes, "zz\15\0\0\0\0\0\0\0", 10) == 0);
    known[0] = 99, ends[0] = 99, bytes[0] = 99;
    assert(MERGE_ZONES(3, 9) == VORTEX_TOO_SHORT && len == 10);
    refused(MERGE_ZONES(2, 10), VORTEX_BAD_LENGTH, 0, 0);
    refused(MERGE_ZONES(4, 10), VORTEX_BAD_LENGTH, 0, 0);
    stats[1].known = (const uint8_t *)"\1\1\3";
    refused(MERGE_ZONES(3, 10), VORTEX_BAD_KNOWN, 2, 1);
    stats[1].stat = VORTEX_SUM;
    refused(MERGE_ZONES(3, 10), VORTEX_BAD_STAT, 0, 1);
    assert(known[0] == 99 && ends[0] == 99 && bytes[0] == 99);
    vortex_statistic none[2] = {{.stat = VORTEX_MAX}, {.stat = VORTEX_NULL_COUNT}};
    assert(vortex_merge_zones(VORTEX_UTF8, 1, 0, none, 2, known, 2, ends, 2, bytes, 8, &len, &fault) == VORTEX_OK && len == 8);
    assert(known[0] == VORTEX_ABSENT && known[1] == VORTEX_ABSENT && ends[0] == 0 && ends[1] == 8);
#undef MERGE_ZONES
}

static uint8_t answers[4];

static uint8_t prune(const vortex_field *scope, size_t columns, const uint64_t *rows, size_t zones, const vortex_statistic *stats,
                     size_t count, const char *predicate, uint8_t flags) {
    return vortex_prune(scope, columns, rows, zones, stats, count, (const uint8_t *)predicate, strlen(predicate), flags, answers,
                        zones, &fault);
}

/* A table of three zones and two columns. */
typedef struct table {
    vortex_field scope[2];
    vortex_statistic stats[5];
} table;

static const uint64_t zone_rows[3] = {4, 4, 7}, zone_nulls[3] = {0, 4, 4}, no_nulls[3] = {0, 0, 0}, zone_ends[4] = {2, 3, 6, 6};
static const int32_t zone_least[3] = {-5, 10, 20}, zone_greatest[4] = {5, 15, 30, 30};

static table zones_told(void) {
    return (table){
        {{.name = (const uint8_t *)"ab", .name_len = 1, .kind = VORTEX_I32, .nullable = 0},
         {.name = (const uint8_t *)"b", .name_len = 1, .kind = VORTEX_UTF8, .nullable = 1}},
        {{.column = 0, .stat = VORTEX_MIN, .known = (const uint8_t *)"\1\1\2", .known_len = 3, .values = (const uint8_t *)zone_least,
          .values_len = 12},
         {.column = 0, .stat = VORTEX_MAX, .known = (const uint8_t *)"\1\2\0", .known_len = 3, .values = (const uint8_t *)zone_greatest,
          .values_len = 12},
         {.column = 1, .stat = VORTEX_NULL_COUNT, .known = (const uint8_t *)"\1\1\1", .known_len = 3,
          .values = (const uint8_t *)zone_nulls, .values_len = 24},
         {.column = 1, .stat = VORTEX_MAX, .start = 1, .known = (const uint8_t *)"\1\0\1", .known_len = 3,
          .values = (const uint8_t *)"?cxbee", .values_len = 6, .ends = zone_ends, .ends_len = 3},
         {.column = 0, .stat = VORTEX_NULL_COUNT, .known = (const uint8_t *)"\1\1\1\1", .known_len = 3,
          .values = (const uint8_t *)no_nulls, .values_len = 24}},
    };
}

#define PRUNE(predicate, flags) prune(it.scope, 2, zone_rows, 3, it.stats, 5, predicate, flags)
#define ANSWERS(a, b, c) assert(answers[0] == (a) && answers[1] == (b) && answers[2] == (c))

/* Every field of a column of a scope, of a zone and of a statistic counts, and each answer is given. */
static void every_pruning(void) {
    table it = zones_told();
    assert(PRUNE("gt col a lit i32 9", 0) == VORTEX_OK);
    ANSWERS(VORTEX_SKIP, VORTEX_WHOLE, VORTEX_WHOLE);
    assert(PRUNE("gt col a lit i32 10", 0) == VORTEX_OK);
    ANSWERS(VORTEX_SKIP, VORTEX_READ, VORTEX_WHOLE);
    assert(PRUNE("lt col a lit i32 6", 0) == VORTEX_OK);
    ANSWERS(VORTEX_WHOLE, VORTEX_SKIP, VORTEX_SKIP);
    assert(PRUNE("isnull col b", 0) == VORTEX_OK);
    ANSWERS(VORTEX_SKIP, VORTEX_WHOLE, VORTEX_READ);
    /* All rows of zone 1 are null. */
    assert(PRUNE("gt col b lit utf8 \"bz\"", 0) == VORTEX_OK);
    ANSWERS(VORTEX_READ, VORTEX_SKIP, VORTEX_SKIP);
    assert(PRUNE("gt col b lit utf8 \"c\n\"", 0) == VORTEX_OK);
    ANSWERS(VORTEX_SKIP, VORTEX_SKIP, VORTEX_SKIP);
    assert(PRUNE("gt col b lit utf8 \"b\n\"", 0) == VORTEX_OK);
    ANSWERS(VORTEX_READ, VORTEX_SKIP, VORTEX_READ);
    /* No value is both, whatever is known of a zone. */
    assert(PRUNE("and gt col a lit i32 12 lt col a lit i32 12", 0) == VORTEX_OK);
    ANSWERS(VORTEX_SKIP, VORTEX_SKIP, VORTEX_SKIP);
    assert(PRUNE("and gt col a lit i32 12 lt col a lit i32 12", VORTEX_NORMALIZE) == VORTEX_OK);
    ANSWERS(VORTEX_SKIP, VORTEX_SKIP, VORTEX_SKIP);
    assert(prune(it.scope, 2, NULL, 0, NULL, 0, "isnull col b", 0) == VORTEX_OK);
}

/* A table that is cut into zones is pruned as it is whole. */
static void every_shard(void) {
    table it = zones_told();
    const char *predicate = "or gt col a lit i32 12 gt col b lit utf8 \"bz\"";
    assert(PRUNE(predicate, 0) == VORTEX_OK);
    for (size_t zone = 0; zone < 3; zone++) {
        table shard = it;
        uint8_t alone;
        for (size_t i = 0; i < 5; i++) {
            size_t width = i < 2 ? 4 : 8;
            shard.stats[i].known += zone, shard.stats[i].known_len = 1;
            if (i != 3)
                shard.stats[i].values += zone * width, shard.stats[i].values_len = width;
            else
                shard.stats[i].start = zone ? zone_ends[zone - 1] : 1, shard.stats[i].ends += zone, shard.stats[i].ends_len = 1;
        }
        assert(vortex_prune(shard.scope, 2, zone_rows + zone, 1, shard.stats, 5, (const uint8_t *)predicate, strlen(predicate), 0,
                            &alone, 1, &fault) == VORTEX_OK);
        assert(alone == answers[zone]);
    }
}

/* Flags, lengths, scopes and predicates that are none; the answers stay as they were. */
static void every_bad_question(void) {
    table it = zones_told();
    memset(answers, 9, sizeof answers);
    refused(PRUNE("isnull col b", 2), VORTEX_BAD_FLAG, 0, 0);
    refused(vortex_prune(it.scope, 2, zone_rows, 3, it.stats, 4, (const uint8_t *)"isnull col b", 12, 0, answers, 4, &fault),
            VORTEX_BAD_LENGTH, 0, 0);
    refused(PRUNE("isnull col c", 0), VORTEX_BAD_LINE, 0, 0);
    refused(PRUNE("", 0), VORTEX_BAD_LINE, 0, 0);
    refused(PRUNE("isnull col b \xff", 0), VORTEX_BAD_LINE, 0, 0);
    refused(prune(it.scope, 0, zone_rows, 3, it.stats, 4, "lit bool true", 0), VORTEX_BAD_LINE, 0, 0);
    refused(PRUNE("col a", 0), VORTEX_NOT_A_PREDICATE, 0, 0);
    refused(PRUNE("col a", VORTEX_NORMALIZE), VORTEX_NOT_A_PREDICATE, 0, 0);
    it.scope[1].name = (const uint8_t *)"a";
    assert(PRUNE("isnull col a", 0) == VORTEX_BAD_NAME && fault.row == 0 && fault.column == 1 && fault.entry == 0);
    it.scope[1].name = (const uint8_t *)"1";
    assert(PRUNE("isnull col a", 0) == VORTEX_BAD_NAME && fault.column == 1);
    it.scope[1].name_len = 0;
    assert(PRUNE("isnull col a", 0) == VORTEX_BAD_NAME && fault.column == 1);
    it.scope[1].name = (const uint8_t *)"b", it.scope[1].name_len = 1, it.scope[1].kind = 17;
    assert(PRUNE("isnull col a", 0) == VORTEX_BAD_KIND && fault.column == 1);
    it.scope[1].kind = VORTEX_BINARY, it.scope[1].unit = VORTEX_SECONDS;
    assert(PRUNE("isnull col a", 0) == VORTEX_BAD_KIND && fault.column == 1);
    it.scope[1].unit = 0, it.scope[1].kind = VORTEX_DATE;
    assert(PRUNE("isnull col a", 0) == VORTEX_BAD_KIND && fault.column == 1);
    it.scope[1].kind = VORTEX_UTF8, it.scope[1].nullable = 2;
    assert(PRUNE("isnull col a", 0) == VORTEX_BAD_KIND && fault.column == 1);
    ANSWERS(9, 9, 9);
}

/* Statistics that are none; the answers stay as they were. */
static void every_bad_statistic(void) {
    table it = zones_told();
    memset(answers, 9, sizeof answers);
    it.stats[3].column = 2;
    refused(PRUNE("isnull col b", 0), VORTEX_BAD_COLUMN, 0, 3);
    it.stats[3].column = 1, it.stats[3].stat = VORTEX_SUM;
    refused(PRUNE("isnull col b", 0), VORTEX_BAD_STAT, 0, 3);
    it.stats[3].stat = VORTEX_MAX, it.stats[3].known = (const uint8_t *)"\1\0\3";
    assert(PRUNE("isnull col b", 0) == VORTEX_BAD_KNOWN && fault.row == 2 && fault.column == 1 && fault.entry == 3);
    it.stats[3].known = (const uint8_t *)"\1\0\1";
    for (int step = -1; step <= 1; step += 2) {
        it.stats[1].values_len = (size_t)(12 + step);
        refused(PRUNE("isnull col b", 0), VORTEX_BAD_LENGTH, 0, 1);
        it.stats[1].values_len = 12, it.stats[3].ends_len = (size_t)(3 + step);
        refused(PRUNE("isnull col b", 0), VORTEX_BAD_LENGTH, 0, 3);
        it.stats[3].ends_len = 3, it.stats[4].known_len = (size_t)(3 + step);
        refused(PRUNE("isnull col b", 0), VORTEX_BAD_LENGTH, 0, 4);
        it.stats[4].known_len = 3;
    }
    it.stats[3].start = 3;
    assert(PRUNE("isnull col b", 0) == VORTEX_BAD_ENDS && fault.row == 0 && fault.column == 1 && fault.entry == 3);
    it.stats[3].start = 1, it.stats[3].values = (const uint8_t *)"?\xffxbee";
    assert(PRUNE("isnull col b", 0) == VORTEX_BAD_VALUE && fault.row == 0 && fault.column == 1 && fault.entry == 3);
    ANSWERS(9, 9, 9);
}

/* SQL */

static vortex_span unread[4];

static uint8_t prune_sql(const table *it, const char *text, uint8_t flags, size_t room) {
    len = 77;
    return vortex_prune_sql(it->scope, 2, zone_rows, 3, it->stats, 5, (const uint8_t *)text, strlen(text), flags, answers, 3, unread, room,
                            &len, &fault);
}

#define SQL(text) prune_sql(&it, text, 0, 4)

/* Each answer is given, and each place of what isn't read. */
static void every_condition(void) {
    table it = zones_told();
    memset(unread, 9, sizeof unread);
    assert(SQL("a > 9") == VORTEX_OK && len == 0);
    ANSWERS(VORTEX_SKIP, VORTEX_WHOLE, VORTEX_WHOLE);
    assert(SQL("10 >= a") == VORTEX_OK && len == 0);
    ANSWERS(VORTEX_WHOLE, VORTEX_READ, VORTEX_SKIP);
    assert(SQL("a NOT BETWEEN 6 AND 16") == VORTEX_OK);
    ANSWERS(VORTEX_WHOLE, VORTEX_SKIP, VORTEX_WHOLE);
    assert(SQL("b IS NULL OR b LIKE 'd%'") == VORTEX_OK && len == 0);
    ANSWERS(VORTEX_SKIP, VORTEX_WHOLE, VORTEX_READ);
    assert(SQL("a > 9.5 AND (lower(b) = 'x' OR c IS NULL)") == VORTEX_OK && len == 2);
    ANSWERS(VORTEX_SKIP, VORTEX_READ, VORTEX_READ);
    assert(unread[0].start == 13 && unread[0].end == 27 && unread[1].start == 31 && unread[1].end == 40);
    assert(prune_sql(&it, "t.a > 9", 0, 4) == VORTEX_OK && len == 1 && unread[0].start == 0 && unread[0].end == 7);
    ANSWERS(VORTEX_READ, VORTEX_READ, VORTEX_READ);
    assert(prune_sql(&it, "t.a > 9", VORTEX_LAST_NAME, 4) == VORTEX_OK && len == 0);
    ANSWERS(VORTEX_SKIP, VORTEX_WHOLE, VORTEX_WHOLE);
    /* Exactly as much room as there are places, and none where there are none. */
    assert(prune_sql(&it, "f(a) AND g(a)", 0, 2) == VORTEX_OK && len == 2 && unread[1].start == 9 && unread[1].end == 13);
    assert(vortex_prune_sql(it.scope, 2, zone_rows, 3, NULL, 0, (const uint8_t *)"1 = 2", 5, 0, answers, 3, NULL, 0, &len, &fault) == VORTEX_OK);
    ANSWERS(VORTEX_SKIP, VORTEX_SKIP, VORTEX_SKIP);
    assert(vortex_prune_sql(it.scope, 2, NULL, 0, NULL, 0, (const uint8_t *)"a > 1", 5, 0, NULL, 0, NULL, 0, &len, &fault) == VORTEX_OK);
}

/* The answers for two zones of a column of whole numbers of 64 bits, 100 to 199 and 200 to 299. */
static void logical(vortex_field field, const char *text, uint8_t first, uint8_t second) {
    static const int64_t least[2] = {100, 200}, greatest[2] = {199, 299};
    field.name = (const uint8_t *)"a", field.name_len = 1;
    const vortex_statistic stats[2] = {
        {.stat = VORTEX_MIN, .known = (const uint8_t *)"\1\1", .known_len = 2, .values = (const uint8_t *)least, .values_len = 16},
        {.stat = VORTEX_MAX, .known = (const uint8_t *)"\1\1", .known_len = 2, .values = (const uint8_t *)greatest, .values_len = 16}};
    memset(answers, 9, sizeof answers);
    assert(vortex_prune_sql(&field, 1, zone_rows, 2, stats, 2, (const uint8_t *)text, strlen(text), 0, answers, 2, unread, 4, &len, &fault) == VORTEX_OK);
    assert(len == 0 && answers[0] == first && answers[1] == second);
}

#define TIMED(kind_, unit_) ((vortex_field){.kind = (kind_), .unit = (unit_)})
#define DECIMALS(precision_, scale_) ((vortex_field){.kind = VORTEX_DECIMAL, .precision = (precision_), .scale = (scale_)})

/* Columns of each logical type compare by what their numbers stand for. */
static void every_logical_kind(void) {
    table it = zones_told();
    it.scope[0].kind = VORTEX_DATE;
    assert(SQL("a >= DATE '1970-01-11' AND a < '1970-01-22'") == VORTEX_OK && len == 0);
    ANSWERS(VORTEX_SKIP, VORTEX_WHOLE, VORTEX_READ);
    logical(TIMED(VORTEX_TIME, VORTEX_SECONDS), "a < TIME '00:03:20'", VORTEX_READ, VORTEX_SKIP);
    logical(TIMED(VORTEX_TIME, VORTEX_MILLISECONDS), "a < TIME '00:00:00.2'", VORTEX_READ, VORTEX_SKIP);
    logical(TIMED(VORTEX_TIME, VORTEX_MICROSECONDS), "a < '00:00:00.0002'", VORTEX_READ, VORTEX_SKIP);
    logical(TIMED(VORTEX_TIME, VORTEX_NANOSECONDS), "a < '00:00:00.0000002'", VORTEX_READ, VORTEX_SKIP);
    logical(TIMED(VORTEX_TIMESTAMP, VORTEX_SECONDS), "a < TIMESTAMP '1970-01-01 00:03:20'", VORTEX_READ, VORTEX_SKIP);
    logical(TIMED(VORTEX_TIMESTAMP_TZ, VORTEX_SECONDS), "a < TIMESTAMPTZ '1970-01-01 01:03:20+01'", VORTEX_READ, VORTEX_SKIP);
    logical(DECIMALS(9, 2), "a < 2", VORTEX_READ, VORTEX_SKIP);
    logical(DECIMALS(18, 0), "a < 1.5e2", VORTEX_READ, VORTEX_SKIP);
    const vortex_field refused_fields[] = {
        {.kind = 17},
        {.kind = VORTEX_I64, .unit = VORTEX_SECONDS},
        {.kind = VORTEX_I64, .precision = 1},
        {.kind = VORTEX_I64, .scale = 1},
        {.kind = VORTEX_DATE, .unit = VORTEX_SECONDS},
        {.kind = VORTEX_TIME},
        {.kind = VORTEX_TIMESTAMP, .unit = 5},
        {.kind = VORTEX_TIMESTAMP_TZ, .unit = VORTEX_SECONDS, .scale = 1},
        {.kind = VORTEX_DECIMAL},
        {.kind = VORTEX_DECIMAL, .precision = 19},
        {.kind = VORTEX_DECIMAL, .precision = 9, .scale = 39},
        {.kind = VORTEX_DECIMAL, .unit = VORTEX_SECONDS, .precision = 9}};
    it = zones_told();
    for (size_t i = 0; i < sizeof refused_fields / sizeof *refused_fields; i++) {
        vortex_field field = refused_fields[i];
        field.name = (const uint8_t *)"b", field.name_len = 1;
        it.scope[1] = field;
        assert(SQL("a > 3") == VORTEX_BAD_KIND && fault.column == 1 && len == 77);
    }
}

/* A text that is refused from one byte on up to another, or none, and for a reason by its number. */
static void no_condition(const char *text, uint8_t status, size_t start, size_t end, size_t why) {
    table it = zones_told();
    uint8_t found = SQL(text);
    int is_told = found == status && fault.entry == start && fault.row == end && fault.column == why && len == 77;
    if (!is_told) fprintf(stderr, "%s: status %d, bytes %zu to %zu, %zu\n", text, found, fault.entry, fault.row, fault.column);
    assert(is_told);
}

/* Texts that are no condition, and too little room; the arrays stay as they were. */
static void every_bad_condition(void) {
    table it = zones_told();
    memset(answers, 9, sizeof answers);
    memset(unread, 9, sizeof unread);
    no_condition("a > > 3", VORTEX_BAD_SQL, 4, 0, VORTEX_UNEXPECTED);
    no_condition("", VORTEX_BAD_SQL, 0, 0, VORTEX_UNEXPECTED);
    no_condition("b = 'x", VORTEX_BAD_SQL, 4, 0, VORTEX_UNCLOSED);
    no_condition("a > 3 /* x */", VORTEX_BAD_SQL, 6, 0, VORTEX_COMMENT);
    no_condition("b = E'x'", VORTEX_BAD_SQL, 4, 0, VORTEX_PREFIXED);
    no_condition("a = $1", VORTEX_BAD_SQL, 4, 0, VORTEX_DOLLAR);
    no_condition("a > 3AND b = 'x'", VORTEX_BAD_SQL, 4, 0, VORTEX_GLUED);
    no_condition("b = 'x' 'y'", VORTEX_BAD_SQL, 8, 0, VORTEX_ADJACENT);
    no_condition("a > 1 OR b = '\xff'", VORTEX_BAD_SQL, 14, 0, VORTEX_NO_UTF8);
    no_condition("a > 1 OR b = 3 OR a = 'x'", VORTEX_MISFIT, 9, 14, 0);
    it.scope[0].kind = VORTEX_DATE;
    assert(SQL("b = 'x' OR a > 3") == VORTEX_MISFIT && fault.entry == 11 && fault.row == 16 && len == 77);
    it.scope[0].kind = VORTEX_I32;
    char deep[202] = {0};
    memset(deep, '(', 201);
    assert(SQL(deep) == VORTEX_TOO_DEEP && fault.entry > 60 && fault.entry < 70 && fault.row == 0 && fault.column == 0);
    assert(prune_sql(&it, "f(a) AND g(a)", 0, 1) == VORTEX_TOO_SHORT && len == 2);
    assert(prune_sql(&it, "a > 3", 1, 4) == VORTEX_BAD_FLAG && len == 77);
    assert(vortex_prune_sql(it.scope, 2, zone_rows, 3, it.stats, 5, (const uint8_t *)"a > 3", 5, 0, answers, 2, unread, 4, &len, &fault)
           == VORTEX_BAD_LENGTH);
    assert(vortex_prune_sql(it.scope, 0, zone_rows, 3, NULL, 0, (const uint8_t *)"1 = 1", 5, 0, answers, 3, unread, 4, &len, &fault)
           == VORTEX_BAD_LENGTH);
    it.stats[3].column = 2;
    assert(SQL("f(a) > 3") == VORTEX_BAD_COLUMN && fault.entry == 3 && fault.row == 0 && len == 77);
    assert(prune_sql(&it, "f(a) > 3", 0, 0) == VORTEX_TOO_SHORT && len == 1);
    ANSWERS(9, 9, 9);
    for (size_t i = 0; i < sizeof unread; i++) assert(((const uint8_t *)unread)[i] == 9);
}

static void program(void) {
    const char *text = "column a i64?\npart\nstat a max exact 10\nrow 10\npart\nrow 20\nwhere gt col a lit i64 10\n";
    uint8_t output[32];
    memset(output, '?', sizeof output);
    assert(vortex_run((const uint8_t *)text, strlen(text), output, 18, &len) == VORTEX_TOO_SHORT && len == 19 && output[0] == '?');
    assert(vortex_run((const uint8_t *)text, strlen(text), output, 32, &len) == VORTEX_OK && len == 19);
    assert(memcmp(output, "skipped 0\nrows 1:0\n?", 20) == 0);
    assert(vortex_run(NULL, 0, output, 32, &len) == VORTEX_BAD_LINE && memcmp(output, "line 1: bad\n", 12) == 0);
    assert(vortex_run(NULL, 0, NULL, 0, &len) == VORTEX_TOO_SHORT && len == 12);
}

int main(void) {
    layout();
    assert(vortex_version() == VORTEX_VERSION && VORTEX_VERSION == 0x000300);
    every_number();
    every_field();
    every_refusal();
    arrow_numbers();
    arrow_truths();
    arrow_texts();
    arrow_check();
    every_statistic();
    every_merge();
    every_refused_merge();
    every_zone_merged();
    every_pruning();
    every_shard();
    every_bad_question();
    every_bad_statistic();
    every_condition();
    every_logical_kind();
    every_bad_condition();
    program();
    puts("round trip: each field, type and status is as the header says");
    return 0;
}
