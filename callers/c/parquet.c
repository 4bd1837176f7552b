/* SPDX-License-Identifier: Apache-2.0 */
/*
 * The calls over footers of Parquet files: the row groups and the pages of small files by conditions, what each refusal leaves,
 * and each byte of the footer, of the page indexes and of a condition set to each value, which is an answer or a status that
 * the header names.
 *
 * Every array is lent as a copy of exactly as many bytes as its length says, so that valgrind and the address sanitizer see
 * what is read or written behind it. With a path, it tells how long pruning takes a file by its footer.
 */
#define _POSIX_C_SOURCE 200809L
#include "vortex.h"
#include <assert.h>
#include <stdbool.h>
#include <stdio.h>
#include <stdlib.h>
#include <string.h>
#include <time.h>

/* The columns `a` (INT64), `s` (STRING), `u` (UINT_32) and `f` (DOUBLE), in row groups of 3 and of 2 rows. */
static const uint8_t file[452] = {
    21, 4, 25, 92, 72, 6, 115, 99, 104, 101, 109, 97, 21, 8, 0, 21, 4, 37, 2, 24, 1, 97, 0, 21, 12, 37, 0, 24, 1,
    115, 37, 0, 76, 28, 0, 0, 0, 21, 2, 37, 2, 24, 1, 117, 37, 26, 76, 172, 19, 32, 18, 0, 0, 0, 21, 10, 37, 2, 24,
    1, 102, 0, 22, 10, 25, 44, 25, 76, 38, 8, 28, 21, 4, 25, 37, 0, 6, 25, 24, 1, 97, 21, 0, 22, 20, 22, 198, 1, 22,
    198, 1, 38, 8, 60, 54, 2, 40, 8, 9, 0, 0, 0, 0, 0, 0, 0, 24, 8, 255, 255, 255, 255, 255, 255, 255, 255, 17, 0,
    25, 28, 21, 0, 21, 0, 21, 2, 0, 0, 0, 38, 8, 28, 21, 12, 25, 37, 0, 6, 25, 24, 1, 115, 21, 0, 22, 20, 22, 198, 1,
    22, 198, 1, 38, 8, 60, 88, 1, 120, 24, 1, 98, 0, 25, 28, 21, 0, 21, 0, 21, 2, 0, 0, 0, 38, 8, 28, 21, 2, 25, 37,
    0, 6, 25, 24, 1, 117, 21, 0, 22, 20, 22, 198, 1, 22, 198, 1, 38, 8, 60, 24, 4, 5, 0, 0, 0, 0, 25, 28, 21, 0, 21,
    0, 21, 2, 0, 0, 0, 38, 8, 28, 21, 10, 25, 37, 0, 6, 25, 24, 1, 102, 21, 0, 22, 20, 22, 198, 1, 22, 198, 1, 38, 8,
    73, 28, 21, 0, 21, 0, 21, 2, 0, 0, 0, 22, 176, 9, 22, 6, 38, 8, 22, 216, 4, 0, 25, 76, 38, 8, 28, 21, 4, 25, 37,
    0, 6, 25, 24, 1, 97, 21, 0, 22, 20, 22, 198, 1, 22, 198, 1, 38, 8, 73, 28, 21, 0, 21, 0, 21, 2, 0, 0, 0, 38, 8,
    0, 38, 8, 28, 21, 2, 25, 37, 0, 6, 25, 24, 1, 117, 21, 0, 22, 20, 22, 198, 1, 22, 198, 1, 38, 8, 60, 88, 4, 255,
    255, 255, 255, 0, 25, 28, 21, 0, 21, 0, 21, 2, 0, 0, 0, 38, 8, 28, 21, 10, 25, 37, 0, 6, 25, 24, 1, 102, 21, 0,
    22, 20, 22, 198, 1, 22, 198, 1, 38, 8, 73, 28, 21, 0, 21, 0, 21, 2, 0, 0, 0, 22, 3, 22, 4, 38, 8, 22, 1, 0, 25,
    28, 24, 3, 107, 101, 121, 24, 5, 118, 97, 108, 117, 101, 0, 24, 18, 97, 32, 119, 114, 105, 116, 101, 114, 32,
    102, 111, 114, 32, 116, 101, 115, 116, 115, 25, 76, 28, 0, 0, 28, 0, 0, 28, 0, 0, 28, 0, 0, 0, 188, 1, 0, 0, 80,
    65, 82, 49
};

enum { GROUPS = 2, ROOM = 8, FOOTER = 444 };

/* What a call is handed to be written. */
typedef struct told {
    vortex_row_group groups[ROOM];
    vortex_span unread[ROOM];
    size_t groups_found, unread_found;
    vortex_fault fault;
} told;

static told fresh(void) {
    told it;
    memset(&it, 0xa5, sizeof it);
    return it;
}

/* A copy of so many bytes, or a null pointer of none. */
static uint8_t *lent(const void *bytes, size_t count) {
    if (!count) return NULL;
    uint8_t *copy = malloc(count);
    assert(copy);
    memcpy(copy, bytes, count);
    return copy;
}

static uint8_t pruned(const uint8_t *footer, size_t footer_len, const char *text, size_t text_len, uint8_t flags, size_t room,
                      size_t unread_room, told *it) {
    uint8_t *bytes = lent(footer, footer_len), *condition = lent(text, text_len);
    uint8_t status = vortex_parquet_prune(bytes, footer_len, condition, text_len, flags, it->groups, room, it->unread,
                                          unread_room, &it->groups_found, &it->unread_found, &it->fault);
    free(bytes);
    free(condition);
    return status;
}

static uint8_t asked(const char *text, told *it) {
    return pruned(file, FOOTER, text, strlen(text), 0, ROOM, ROOM, it);
}

static void expect(const char *text, uint8_t first, uint8_t second, size_t unread) {
    told it = fresh(), old = fresh();
    assert(asked(text, &it) == VORTEX_OK);
    assert(it.groups_found == GROUPS && it.unread_found == unread);
    assert(it.groups[0].rows == 3 && it.groups[0].size == 300 && it.groups[0].answer == first);
    assert(it.groups[1].rows == 2 && it.groups[1].size == 0 && it.groups[1].answer == second);
    assert(!memcmp(it.groups + GROUPS, old.groups + GROUPS, sizeof old.groups - GROUPS * sizeof *old.groups));
    assert(!memcmp(it.unread + unread, old.unread + unread, sizeof old.unread - unread * sizeof *old.unread));
    assert(!memcmp(&it.fault, &old.fault, sizeof old.fault));
}

/* A refusal leaves all but the place as it was. */
static void expect_refused(uint8_t status, uint8_t wanted, const told *it, size_t entry, size_t row, size_t column) {
    told old = fresh();
    assert(status == wanted);
    assert(!memcmp(it, &old, offsetof(told, fault)));
    assert(it->fault.entry == entry && it->fault.row == row && it->fault.column == column);
}

static void conditions(void) {
    expect("a > 9", VORTEX_SKIP, VORTEX_READ, 0);
    expect("a > 8", VORTEX_READ, VORTEX_READ, 0);
    expect("f > 8 AND a > 9", VORTEX_SKIP, VORTEX_READ, 1);
    expect("f > 8", VORTEX_READ, VORTEX_READ, 1);
    expect("1 = 1", VORTEX_WHOLE, VORTEX_WHOLE, 0);
    expect("1 = 0", VORTEX_SKIP, VORTEX_SKIP, 0);
    told it = fresh();
    assert(asked("a > 9 OR lower(s) = 'x'", &it) == VORTEX_OK);
    assert(it.unread_found == 1 && it.unread[0].start == 9 && it.unread[0].end == 23);
}

static void refusals(void) {
    told it = fresh();
    expect_refused(asked("a > 'x'", &it), VORTEX_MISFIT, &it, 0, 7, 0);
    it = fresh();
    expect_refused(asked("a >", &it), VORTEX_BAD_SQL, &it, 3, 0, 0);
    it = fresh();
    expect_refused(pruned(file, FOOTER, "a > 9", 5, 1, ROOM, ROOM, &it), VORTEX_BAD_FLAG, &it, 0, 0, 0);
    it = fresh();
    expect_refused(pruned(file, 0, "a > 9", 5, 0, ROOM, ROOM, &it), VORTEX_BAD_FOOTER, &it, 0, 0, VORTEX_SHORT);
    it = fresh();
    expect_refused(pruned(file, FOOTER, "\xff", 1, 0, ROOM, ROOM, &it), VORTEX_BAD_SQL, &it, 0, 0, 7);
    for (size_t room = 0; room < GROUPS; room++) {
        it = fresh();
        told old = fresh();
        assert(pruned(file, FOOTER, "f > 8", 5, 0, room, 0, &it) == VORTEX_TOO_SHORT);
        assert(it.groups_found == GROUPS && it.unread_found == 1);
        assert(!memcmp(&it, &old, offsetof(told, groups_found)));
        assert(!memcmp(&it.fault, &old.fault, sizeof old.fault));
    }
}

static void lengths(void) {
    size_t length = 7;
    vortex_fault fault = {1, 2, 3};
    assert(vortex_parquet_footer(file + FOOTER, 8, &length, &fault) == VORTEX_OK && length == FOOTER && fault.entry == 3);
    static const uint8_t encrypted[8] = {1, 0, 0, 0, 'P', 'A', 'R', 'E'};
    length = 7;
    assert(vortex_parquet_footer(encrypted, 8, &length, &fault) == VORTEX_BAD_FOOTER);
    assert(length == 7 && fault.column == VORTEX_ENCRYPTED && !fault.row && !fault.entry);
    assert(vortex_parquet_footer(file, 8, &length, &fault) == VORTEX_BAD_FOOTER && fault.column == VORTEX_NOT_PARQUET);
    assert(vortex_parquet_footer(NULL, 0, &length, &fault) == VORTEX_BAD_FOOTER && length == 7);
}

/* Each byte set to each value: an answer, or a status that tells of the footer or of the text. */
static void mutations(void) {
    static const char text[] = "a > 9 AND s LIKE 'b%' OR u IN (1, 2)";
    uint8_t footer[FOOTER];
    char condition[sizeof text];
    unsigned long answers = 0, refusals = 0;
    for (size_t place = 0; place < FOOTER; place++)
        for (unsigned value = 0; value < 256; value++) {
            memcpy(footer, file, FOOTER);
            footer[place] = (uint8_t)value;
            told it = fresh(), old = fresh();
            uint8_t status = pruned(footer, FOOTER, text, strlen(text), 0, ROOM, ROOM, &it);
            assert(status == VORTEX_OK || status == VORTEX_TOO_SHORT || status == VORTEX_BAD_FOOTER || status == VORTEX_NOT_READ ||
                   status == VORTEX_MISFIT);
            if (status == VORTEX_OK) answers++;
            else {
                refusals++;
                assert(!memcmp(it.groups, old.groups, sizeof old.groups) && !memcmp(it.unread, old.unread, sizeof old.unread));
            }
        }
    for (size_t length = 0; length < FOOTER; length++) {
        told it = fresh();
        uint8_t status = pruned(file, length, text, strlen(text), 0, ROOM, ROOM, &it);
        assert(status == VORTEX_BAD_FOOTER);
    }
    for (size_t place = 0; place + 1 < sizeof text; place++)
        for (unsigned value = 0; value < 256; value++) {
            memcpy(condition, text, sizeof text);
            condition[place] = (char)value;
            told it = fresh();
            uint8_t status = pruned(file, FOOTER, condition, strlen(text), 0, ROOM, ROOM, &it);
            assert(status == VORTEX_OK || status == VORTEX_BAD_SQL || status == VORTEX_MISFIT || status == VORTEX_NOT_READ);
        }
    printf("parquet: %lu footers with a byte changed are answered, and %lu refused by name\n", answers, refusals);
}

/*
 * The end of a file from its byte 200 on. A row group of 8 rows has the column `s` (STRING) in pages of 3, 2 and 3 rows, `a` to
 * `c` without nulls, nulls alone, and `d` to `f`, and the column `q` (INT32) in pages of 4 and 4, 1 to 4 with a null and 5
 * without one; one of 4 rows has 7 to 9 in `q` and no indexes. Behind the indexes stands the footer.
 */
static const uint8_t paged[232] = {
    25, 49, 2, 1, 2, 25, 56, 1, 97, 1, 122, 1, 100, 25, 56, 1, 99, 1, 121, 1, 102, 21, 2, 25, 54, 0, 4, 1, 0, 25,
    60, 22, 8, 21, 20, 22, 0, 0, 22, 28, 21, 10, 22, 6, 0, 22, 38, 21, 12, 22, 10, 0, 0, 25, 33, 2, 2, 25, 40, 4, 1,
    0, 0, 0, 4, 5, 0, 0, 0, 25, 40, 4, 4, 0, 0, 0, 4, 5, 0, 0, 0, 21, 0, 25, 38, 2, 0, 0, 25, 44, 22, 100, 21, 20,
    22, 0, 0, 22, 120, 21, 10, 22, 8, 0, 0, 21, 4, 25, 60, 72, 1, 109, 21, 4, 0, 21, 12, 37, 2, 24, 1, 115, 37, 0,
    0, 21, 2, 37, 2, 24, 1, 113, 0, 22, 24, 25, 44, 25, 44, 38, 8, 28, 21, 12, 0, 22, 202, 3, 21, 48, 22, 144, 3,
    21, 58, 0, 38, 8, 28, 21, 2, 0, 22, 192, 4, 21, 34, 22, 250, 3, 21, 70, 0, 22, 200, 1, 22, 16, 0, 25, 44, 38, 8,
    28, 21, 12, 0, 0, 38, 8, 28, 21, 2, 188, 88, 4, 9, 0, 0, 0, 24, 4, 7, 0, 0, 0, 0, 0, 0, 22, 200, 1, 22, 8, 0,
    57, 44, 28, 0, 0, 28, 0, 0, 0, 119, 0, 0, 0, 80, 65, 82, 49
};

enum { INDEXES = 105, PAGED_FOOTER = 119, BEGIN = 200 };

/* What a call about pages is handed to be written. */
typedef struct told_pages {
    vortex_row_range ranges[ROOM];
    vortex_span unread[ROOM];
    size_t ranges_found, unread_found;
    vortex_fault fault;
} told_pages;

static told_pages fresh_pages(void) {
    told_pages it;
    memset(&it, 0xa5, sizeof it);
    return it;
}

static uint8_t pruned_pages(const uint8_t *whole, size_t tail_len, uint64_t begin, const char *text, uint8_t flags, size_t room,
                            size_t unread_room, told_pages *it) {
    uint8_t *footer = lent(whole + INDEXES, PAGED_FOOTER), *tail = lent(whole, tail_len), *condition = lent(text, strlen(text));
    uint8_t status = vortex_parquet_prune_pages(footer, PAGED_FOOTER, tail, tail_len, begin, condition, strlen(text), flags,
                                                it->ranges, room, it->unread, unread_room, &it->ranges_found,
                                                &it->unread_found, &it->fault);
    free(footer);
    free(tail);
    free(condition);
    return status;
}

/* The rows and the answers of the stretches, as letters: `0:0-4R` are four rows of the first row group that are to be read. */
static void expect_pages(size_t tail_len, uint64_t begin, const char *text, const char *wanted, size_t unread) {
    told_pages it = fresh_pages(), old = fresh_pages();
    assert(pruned_pages(paged, tail_len, begin, text, 0, ROOM, ROOM, &it) == VORTEX_OK);
    char found[256] = "";
    for (size_t place = 0; place < it.ranges_found; place++) {
        const vortex_row_range *range = it.ranges + place;
        snprintf(found + strlen(found), sizeof found - strlen(found), "%s%zu:%u-%u%c", place ? " " : "", range->group,
                 (unsigned)range->first, (unsigned)range->end, "RSW"[range->answer]);
    }
    assert(!strcmp(found, wanted));
    assert(it.unread_found == unread);
    assert(!memcmp(it.ranges + it.ranges_found, old.ranges + it.ranges_found, (ROOM - it.ranges_found) * sizeof *old.ranges));
    assert(!memcmp(it.unread + unread, old.unread + unread, (ROOM - unread) * sizeof *old.unread));
    assert(!memcmp(&it.fault, &old.fault, sizeof old.fault));
}

static void pages(void) {
    expect_pages(sizeof paged, BEGIN, "q > 4", "0:0-4S 0:4-8W 1:0-4R", 0);
    expect_pages(INDEXES, BEGIN, "s = 'b'", "0:0-3R 0:3-5S 0:5-8S 1:0-4R", 0);
    expect_pages(INDEXES, BEGIN, "s IS NULL AND lower(s) = 'x'", "0:0-3S 0:3-5R 0:5-8R 1:0-4R", 1);
    expect_pages(INDEXES, BEGIN, "s = 'b' AND q < 5", "0:0-3R 0:3-4S 0:4-5S 0:5-8S 1:0-4S", 0);
    /* Without the indexes each row group is one page. */
    expect_pages(0, 0, "q < 7", "0:0-8R 1:0-4S", 0);
    /* Indexes that are cut off are none. */
    expect_pages(52, BEGIN, "s = 'b'", "0:0-8R 1:0-4R", 0);
    expect_pages(53, BEGIN, "s = 'b'", "0:0-3R 0:3-5S 0:5-8S 1:0-4R", 0);
}

static void refused_pages(void) {
    told_pages it = fresh_pages(), old = fresh_pages();
    assert(pruned_pages(paged, INDEXES, BEGIN + 1, "q > 4", 0, ROOM, ROOM, &it) == VORTEX_BAD_FOOTER);
    assert(it.fault.column == VORTEX_PAGES && !it.fault.row && !it.fault.entry);
    assert(!memcmp(&it, &old, offsetof(told_pages, fault)));
    it = fresh_pages();
    assert(pruned_pages(paged, INDEXES, BEGIN + 1, "q > 'x'", 1, ROOM, ROOM, &it) == VORTEX_BAD_FLAG);
    it = fresh_pages();
    assert(pruned_pages(paged, INDEXES, BEGIN + 1, "q > 'x'", 0, ROOM, ROOM, &it) == VORTEX_MISFIT);
    assert(it.fault.entry == 0 && it.fault.row == 7 && !memcmp(&it, &old, offsetof(told_pages, fault)));
    for (size_t room = 0; room < 4; room++) {
        it = fresh_pages();
        assert(pruned_pages(paged, INDEXES, BEGIN, "s = 'b' OR f(s)", 0, room, room & 1, &it) == VORTEX_TOO_SHORT);
        assert(it.ranges_found == 4 && it.unread_found == 1);
        assert(!memcmp(&it, &old, offsetof(told_pages, ranges_found)) && !memcmp(&it.fault, &old.fault, sizeof old.fault));
    }
    it = fresh_pages();
    assert(pruned_pages(paged, INDEXES, BEGIN, "s = 'b' OR f(s)", 0, 4, 0, &it) == VORTEX_TOO_SHORT);
    assert(pruned_pages(paged, INDEXES, BEGIN, "s = 'b' OR f(s)", 0, 4, 1, &it) == VORTEX_OK);
}

static uint8_t begun(const uint8_t *footer, size_t footer_len, uint64_t *begin, vortex_fault *fault) {
    uint8_t *bytes = lent(footer, footer_len);
    uint8_t status = vortex_parquet_indexes(bytes, footer_len, begin, fault);
    free(bytes);
    return status;
}

/* The first index of a file, of one without indexes, and of a footer with each byte set to each value. */
static void indexes(void) {
    uint64_t begin = 7;
    vortex_fault fault = {1, 2, 3};
    assert(begun(paged + INDEXES, PAGED_FOOTER, &begin, &fault) == VORTEX_OK && begin == BEGIN);
    assert(begun(file, FOOTER, &begin, &fault) == VORTEX_OK && begin == UINT64_MAX);
    assert(fault.row == 1 && fault.column == 2 && fault.entry == 3);
    begin = 7;
    for (size_t length = 0; length < PAGED_FOOTER; length++) {
        assert(begun(paged + INDEXES, length, &begin, &fault) == VORTEX_BAD_FOOTER && begin == 7);
        assert(fault.column < VORTEX_PAGES && !fault.row && !fault.entry);
    }
    unsigned long answers = 0, refusals = 0;
    for (size_t place = 0; place < PAGED_FOOTER; place++)
        for (unsigned value = 0; value < 256; value++) {
            uint8_t changed[PAGED_FOOTER];
            memcpy(changed, paged + INDEXES, PAGED_FOOTER);
            changed[place] = (uint8_t)value;
            begin = 7;
            uint8_t status = begun(changed, PAGED_FOOTER, &begin, &fault);
            assert(status == VORTEX_OK || (status == VORTEX_BAD_FOOTER && begin == 7 && fault.column < VORTEX_PAGES));
            if (status == VORTEX_OK) answers++;
            else refusals++;
        }
    printf("parquet: the first index of %lu footers with a byte changed is told, and %lu are refused by name\n", answers, refusals);
}

/* The stretches that are told are all rows of each row group, one behind the other. */
static void expect_all_rows(const told_pages *it) {
    static const uint64_t rows[] = {8, 4};
    size_t group = 0;
    uint64_t from = 0;
    for (size_t place = 0; place < it->ranges_found; place++) {
        const vortex_row_range *range = it->ranges + place;
        assert(range->group == group && range->first == from && range->end > from && range->answer <= VORTEX_WHOLE);
        from = range->end;
        if (from == rows[group]) group++, from = 0;
    }
    assert(group == 2 && from == 0);
}

/* Each byte of the indexes set to each value: an answer about all rows, or a fault of the pages. */
static void changed_pages(void) {
    unsigned long answers = 0, refusals = 0;
    for (size_t place = 0; place < INDEXES; place++)
        for (unsigned value = 0; value < 256; value++) {
            uint8_t changed[sizeof paged];
            memcpy(changed, paged, sizeof paged);
            changed[place] = (uint8_t)value;
            told_pages it = fresh_pages(), old = fresh_pages();
            uint8_t status = pruned_pages(changed, INDEXES, BEGIN, "s = 'b' AND q > 3", 0, ROOM, ROOM, &it);
            assert(status == VORTEX_OK || status == VORTEX_BAD_FOOTER);
            if (status == VORTEX_OK) answers++, expect_all_rows(&it);
            else refusals++, assert(!memcmp(&it, &old, offsetof(told_pages, fault)));
        }
    printf("parquet: %lu page indexes with a byte changed are answered, and %lu refused by name\n", answers, refusals);
}

/* What a call about data pages is handed to be written. */
typedef struct told_data {
    vortex_data_page pages[ROOM];
    size_t pages_found;
    vortex_fault fault;
} told_data;

static told_data fresh_data(void) {
    told_data it;
    memset(&it, 0xa5, sizeof it);
    return it;
}

static uint8_t told_of(const uint8_t *whole, size_t footer_len, size_t tail_len, uint64_t begin, size_t room, told_data *it) {
    uint8_t *footer = lent(whole + INDEXES, footer_len), *tail = lent(whole, tail_len);
    uint8_t status = vortex_parquet_data_pages(footer, footer_len, tail, tail_len, begin, it->pages, room, &it->pages_found,
                                               &it->fault);
    free(footer);
    free(tail);
    return status;
}

/* The pages of both columns of the first row group; the second one has no indexes. */
static const vortex_data_page data[] = {
    {0, 0, 0, 3, 4, 10}, {0, 0, 3, 5, 14, 5}, {0, 0, 5, 8, 19, 6}, {0, 1, 0, 4, 50, 10}, {0, 1, 4, 8, 60, 5},
};

enum { PAGES = sizeof data / sizeof *data };

static void data_pages(void) {
    told_data it = fresh_data(), old = fresh_data();
    assert(told_of(paged, PAGED_FOOTER, INDEXES, BEGIN, ROOM, &it) == VORTEX_OK);
    assert(it.pages_found == PAGES && !memcmp(it.pages, data, sizeof data));
    assert(!memcmp(it.pages + PAGES, old.pages + PAGES, sizeof old.pages - sizeof data));
    assert(!memcmp(&it.fault, &old.fault, sizeof old.fault));
    /* The bytes behind the offset index of the first column are cut off: it has its pages, and the second column none. */
    it = fresh_data();
    assert(told_of(paged, PAGED_FOOTER, 53, BEGIN, ROOM, &it) == VORTEX_OK && it.pages_found == 3);
    assert(!memcmp(it.pages, data, 3 * sizeof *data) && !memcmp(it.pages + 3, old.pages + 3, (ROOM - 3) * sizeof *data));
    it = fresh_data();
    assert(told_of(paged, PAGED_FOOTER, 0, 0, ROOM, &it) == VORTEX_OK && it.pages_found == 0);
    for (size_t room = 0; room < PAGES; room++) {
        it = fresh_data();
        assert(told_of(paged, PAGED_FOOTER, INDEXES, BEGIN, room, &it) == VORTEX_TOO_SHORT && it.pages_found == PAGES);
        assert(!memcmp(&it, &old, offsetof(told_data, pages_found)) && !memcmp(&it.fault, &old.fault, sizeof old.fault));
    }
    for (size_t length = 0; length < PAGED_FOOTER; length++) {
        it = fresh_data();
        assert(told_of(paged, length, INDEXES, BEGIN, ROOM, &it) == VORTEX_BAD_FOOTER);
        assert(!memcmp(&it, &old, offsetof(told_data, fault)) && it.fault.column < VORTEX_PAGES);
    }
}

/* Each byte of the indexes set to each value: pages that stand one behind the other, or a fault. */
static void changed_data_pages(void) {
    unsigned long answers = 0, refusals = 0;
    for (size_t place = 0; place < INDEXES; place++)
        for (unsigned value = 0; value < 256; value++) {
            uint8_t changed[sizeof paged];
            memcpy(changed, paged, sizeof paged);
            changed[place] = (uint8_t)value;
            told_data it = fresh_data(), old = fresh_data();
            uint8_t status = told_of(changed, PAGED_FOOTER, INDEXES, BEGIN, ROOM, &it);
            assert(status == VORTEX_OK || status == VORTEX_BAD_FOOTER);
            if (status != VORTEX_OK) {
                refusals++;
                assert(!memcmp(&it, &old, offsetof(told_data, fault)));
                continue;
            }
            answers++;
            for (size_t page = 0; page < it.pages_found; page++) {
                bool first = !page || it.pages[page].column != it.pages[page - 1].column;
                assert(it.pages[page].first == (first ? 0 : it.pages[page - 1].end) && it.pages[page].end <= 8);
                assert(it.pages[page].first < it.pages[page].end);
            }
        }
    printf("parquet: the data pages of %lu page indexes with a byte changed are told, and %lu refused by name\n", answers, refusals);
}

static double now(void) {
    struct timespec t;
    clock_gettime(CLOCK_PROCESS_CPUTIME_ID, &t);
    return (double)t.tv_sec + (double)t.tv_nsec * 1e-9;
}

/* The processor time of a condition over a file, the least of five times. */
static int timed(const char *path, const char *text) {
    FILE *stream = fopen(path, "rb");
    if (!stream || fseek(stream, -8, SEEK_END)) return 1;
    uint8_t tail[8];
    size_t length = 0, found, unread;
    vortex_fault fault;
    if (fread(tail, 1, 8, stream) != 8 || vortex_parquet_footer(tail, 8, &length, &fault)) return 1;
    uint8_t *footer = malloc(length);
    size_t room = length / 5 + 1;
    vortex_row_group *groups = malloc(room * sizeof *groups);
    if (!footer || !groups || fseek(stream, -8 - (long)length, SEEK_END) || fread(footer, 1, length, stream) != length) return 1;
    double least = 1e9;
    for (int turn = 0; turn < 5; turn++) {
        double start = now();
        uint8_t status = vortex_parquet_prune(footer, length, (const uint8_t *)text, strlen(text), 0, groups, room, NULL, 0, &found,
                                              &unread, &fault);
        double taken = now() - start;
        if (status) return printf("status %u, column %zu\n", status, fault.column), 1;
        if (taken < least) least = taken;
    }
    size_t skipped = 0;
    for (size_t place = 0; place < found; place++) skipped += groups[place].answer == VORTEX_SKIP;
    printf("%zu row groups, %zu bytes, %zu skipped: %.3f s\n", found, length, skipped, least);
    free(groups);
    free(footer);
    fclose(stream);
    return 0;
}

int main(int count, char **words) {
    if (count == 3) return timed(words[1], words[2]);
    conditions();
    refusals();
    lengths();
    mutations();
    indexes();
    pages();
    refused_pages();
    changed_pages();
    data_pages();
    changed_data_pages();
    return 0;
}
