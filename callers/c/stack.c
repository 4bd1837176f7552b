/* SPDX-License-Identifier: Apache-2.0 */
/* Every call but vortex_run on a thread of 256 KiB: predicates of each form as deep as they may be, deeper, and chains; and
   conditions in SQL. */
#define _POSIX_C_SOURCE 200809L
#include "vortex.h"
#include <assert.h>
#include <pthread.h>
#include <stdio.h>
#include <stdlib.h>
#include <string.h>
#include <time.h>

/* The whole stack of a thread: the thread's own storage and the frames up to the call are on it too. */
enum { STACK = 256 * 1024, MANY = 100000 };

/* A text that grows. */
typedef struct text {
    char *bytes;
    size_t len, room;
} text;

static void add(text *to, const char *words) {
    size_t len = strlen(words);
    if (to->len + len + 1 > to->room) {
        to->room = 2 * (to->len + len + 1);
        to->bytes = realloc(to->bytes, to->room);
        assert(to->bytes);
    }
    memcpy(to->bytes + to->len, words, len + 1);
    to->len += len;
}

/* Two ways in turn in which a predicate grows by a level: what stands before and what stands behind the operand. */
typedef struct form {
    const char *name, *before[2], *after[2];
} form;

#define LEAF "gt col n lit i64 1 "
#define LIKE "like col s lit utf8 \"%a_b%\" "
static const form forms[] = {
    {"not", {"not ", "not "}, {"", ""}},
    {"isnull", {"isnull ", "isnull "}, {"", ""}},
    {"notnull and isnull", {"notnull ", "isnull "}, {"", ""}},
    {"a comparison's left side", {"eq ", "ne "}, {"lit bool true ", "lit bool? null "}},
    {"a comparison's right side", {"lt lit bool true ", "ge lit bool false "}, {"", ""}},
    {"isnull of a comparison", {"isnull ", "eq "}, {"", "notnull col t "}},
    {"between's first operand", {"between < <= ", "between <= < "}, {"lit bool false lit bool true ", "col t col t "}},
    {"between's second operand", {"between <= <= col t ", "between < < col t "}, {"lit bool true ", "col t "}},
    {"between's third operand", {"between <= < lit bool true col t ", "between < <= col t lit bool true "}, {"", ""}},
    {"and, or to the right", {"and " LEAF, "or " LIKE}, {"", ""}},
    {"and, or to the left", {"and ", "or "}, {LEAF, LIKE}},
    {"and, or to both sides", {"and " LIKE, "or "}, {"", LEAF}},
    {"not of or", {"not ", "or " LEAF}, {"", ""}},
    {"not of and", {"and ", "not "}, {LIKE, ""}},
    {"isnull of and", {"isnull ", "and " LEAF}, {"", ""}},
};
enum { FORMS = sizeof forms / sizeof *forms };

/* The predicate of a form that has so many levels, of which the innermost condition is one. */
static text nested(const form *of, size_t levels) {
    text found = {0};
    for (size_t i = 1; i < levels; i++) add(&found, of->before[i % 2]);
    add(&found, "notnull col t ");
    for (size_t i = levels - 1; i > 0; i--) add(&found, of->after[i % 2]);
    return found;
}

/* Two zones of three columns: numbers from 0 to 9 and from 5 to 14, truths of which nothing is known, and texts. */
static const vortex_field scope[3] = {{.name = (const uint8_t *)"n", .name_len = 1, .kind = VORTEX_I64, .nullable = 1},
                                      {.name = (const uint8_t *)"t", .name_len = 1, .kind = VORTEX_BOOL, .nullable = 1},
                                      {.name = (const uint8_t *)"s", .name_len = 1, .kind = VORTEX_UTF8, .nullable = 1}};
static const uint64_t rows[2] = {10, 10}, text_ends[2] = {1, 2};
static const int64_t least[2] = {0, 5}, greatest[2] = {9, 14}, nulls[2] = {0, 0};
static const vortex_statistic stats[5] = {
    {.column = 0, .stat = VORTEX_MIN, .known = (const uint8_t *)"\1\1", .known_len = 2, .values = (const uint8_t *)least, .values_len = 16},
    {.column = 0, .stat = VORTEX_MAX, .known = (const uint8_t *)"\1\1", .known_len = 2, .values = (const uint8_t *)greatest, .values_len = 16},
    {.column = 0, .stat = VORTEX_NULL_COUNT, .known = (const uint8_t *)"\1\1", .known_len = 2, .values = (const uint8_t *)nulls, .values_len = 16},
    {.column = 2, .stat = VORTEX_MIN, .known = (const uint8_t *)"\1\1", .known_len = 2, .values = (const uint8_t *)"ab", .values_len = 2,
     .ends = text_ends, .ends_len = 2},
    {.column = 2, .stat = VORTEX_MAX, .known = (const uint8_t *)"\1\1", .known_len = 2, .values = (const uint8_t *)"ab", .values_len = 2,
     .ends = text_ends, .ends_len = 2},
};

/* A call of vortex_prune or vortex_prune_sql, what it has answered, and the place that it told of a refusal. */
typedef struct question {
    const text *predicate;
    size_t place;
    uint8_t flags, status, answers[2];
} question;

static void *prune(void *given) {
    question *asked = given;
    vortex_fault fault;
    asked->status = vortex_prune(scope, 3, rows, 2, stats, 5, (const uint8_t *)asked->predicate->bytes, asked->predicate->len,
                                 asked->flags, asked->answers, 2, &fault);
    return NULL;
}

static void on_a_small_stack(void *(*call)(void *), void *given) {
    pthread_attr_t attributes;
    pthread_t thread;
    assert(pthread_attr_init(&attributes) == 0 && pthread_attr_setstacksize(&attributes, STACK) == 0);
    assert(pthread_create(&thread, &attributes, call, given) == 0 && pthread_join(thread, NULL) == 0);
    assert(pthread_attr_destroy(&attributes) == 0);
}

static question asked(const text *predicate, uint8_t flags) {
    question question = {.predicate = predicate, .flags = flags, .status = 99, .answers = {9, 9}};
    on_a_small_stack(prune, &question);
    if (question.status == VORTEX_OK)
        assert(question.answers[0] <= VORTEX_WHOLE && question.answers[1] <= VORTEX_WHOLE);
    else
        assert(question.answers[0] == 9 && question.answers[1] == 9);
    return question;
}

/* Whether a predicate of so many levels is answered as it has to be, however many its normal form has. */
static int is_told(size_t levels, uint8_t status) {
    return status == (levels > VORTEX_MAX_DEPTH ? VORTEX_TOO_DEEP : VORTEX_OK);
}

/* Each form is answered up to the greatest depth and refused behind it. */
static void every_form(void) {
    const size_t depths[] = {1, 2, 3, 64, VORTEX_MAX_DEPTH - 1, VORTEX_MAX_DEPTH, VORTEX_MAX_DEPTH + 1, 1400, 4094, MANY};
    for (size_t i = 0; i < FORMS; i++)
        for (size_t d = 0; d < sizeof depths / sizeof *depths; d++)
            for (uint8_t flags = 0; flags <= VORTEX_NORMALIZE; flags++) {
                text predicate = nested(&forms[i], depths[d]);
                uint8_t status = asked(&predicate, flags).status;
                int told = is_told(depths[d], status);
                if (!told) fprintf(stderr, "%s, %zu levels, flags %d: status %d\n", forms[i].name, depths[d], flags, status);
                assert(told);
                free(predicate.bytes);
            }
}

/* Forms in a random turn, as deep as they may be. */
static void forms_in_turn(void) {
    uint64_t dice = 88172645463325252u;
    for (size_t trial = 0; trial < 500; trial++) {
        uint8_t turns[VORTEX_MAX_DEPTH];
        text predicate = {0};
        for (size_t i = 1; i < VORTEX_MAX_DEPTH; i++) {
            dice ^= dice << 13, dice ^= dice >> 7, dice ^= dice << 17;
            turns[i] = (uint8_t)(dice % (2 * FORMS));
            add(&predicate, forms[turns[i] / 2].before[turns[i] % 2]);
        }
        add(&predicate, "notnull col t ");
        for (size_t i = VORTEX_MAX_DEPTH - 1; i > 0; i--) add(&predicate, forms[turns[i] / 2].after[turns[i] % 2]);
        assert(asked(&predicate, 0).status == VORTEX_OK);
        free(predicate.bytes);
    }
}

/* A chain of one connective isn't deep, whatever its shape. Of each 1,000 items one rules out zone 0. */
static void every_chain(void) {
    const char *const items[2] = {"ge col n lit i64 0 ", "gt col n lit i64 9 "};
    for (size_t shape = 0; shape < 6; shape++) {
        const char *word = shape < 3 ? "and " : "or ";
        text chain = {0};
        for (size_t i = 0; i + 1 < MANY; i++) {
            add(&chain, word);
            if (shape % 3 == 1 || (shape % 3 == 2 && i % 2)) add(&chain, items[i % 1000 == 7]);
        }
        size_t behind = shape % 3 == 0 ? MANY : shape % 3 == 1 ? 1 : MANY - (MANY - 1) / 2;
        for (size_t i = 0; i < behind; i++) add(&chain, items[i % 1000 == 8]);
        for (uint8_t flags = 0; flags <= VORTEX_NORMALIZE; flags++) {
            question found = asked(&chain, flags);
            assert(found.status == VORTEX_OK);
            assert(found.answers[0] == (shape < 3 ? VORTEX_SKIP : VORTEX_WHOLE));
            assert(found.answers[1] == (shape < 3 ? VORTEX_READ : VORTEX_WHOLE));
        }
        free(chain.bytes);
    }
}

/* Deep texts that are no expression are refused too. */
static void every_torso(void) {
    const char *const words[] = {"not ", "and ", "isnull ", "eq ", "between < < ", "like ", "and col t ", "or not "};
    for (size_t i = 0; i < sizeof words / sizeof *words; i++) {
        text torso = {0};
        for (size_t j = 0; j < MANY; j++) add(&torso, words[i]);
        uint8_t status = asked(&torso, 0).status;
        assert(status == VORTEX_BAD_LINE || status == VORTEX_TOO_DEEP);
        add(&torso, "lit u8 300");
        status = asked(&torso, 0).status;
        assert(status == VORTEX_BAD_LINE || status == VORTEX_TOO_DEEP);
        free(torso.bytes);
    }
}

/* Conditions in SQL */

static void *prune_sql(void *given) {
    question *asked = given;
    size_t count;
    vortex_fault fault = {0};
    vortex_span unread[1];
    asked->status = vortex_prune_sql(scope, 3, rows, 2, stats, 5, (const uint8_t *)asked->predicate->bytes, asked->predicate->len, 0,
                                     asked->answers, 2, unread, 1, &count, &fault);
    asked->place = fault.entry;
    return NULL;
}

/* The status of a call by a text that is a front, a middle and a back so many times, and a word in between. */
static question asked_sql(const char *front, size_t times, const char *middle, const char *back) {
    text condition = {0};
    for (size_t i = 0; i < times; i++) add(&condition, front);
    add(&condition, middle);
    for (size_t i = 0; i < times && *back; i++) add(&condition, back);
    question question = {.predicate = &condition, .status = 99, .answers = {9, 9}};
    on_a_small_stack(prune_sql, &question);
    free(condition.bytes);
    return question;
}

static void answered_sql(const char *front, size_t times, const char *middle, const char *back, uint8_t first, uint8_t second) {
    question found = asked_sql(front, times, middle, back);
    int is_told = found.status == VORTEX_OK && found.answers[0] == first && found.answers[1] == second;
    if (!is_told) fprintf(stderr, "%s%s: status %d, answers %d and %d\n", front, middle, found.status, found.answers[0], found.answers[1]);
    assert(is_told);
}

/* A list of many values, none of which stands in zone 0. */
static void every_list(void) {
    text list = {0};
    add(&list, "n IN (20");
    for (size_t i = 0; i < MANY; i++) add(&list, i % 1000 == 7 ? ", 10" : ", 11");
    add(&list, ")");
    question question = {.predicate = &list, .status = 99, .answers = {9, 9}};
    on_a_small_stack(prune_sql, &question);
    assert(question.status == VORTEX_OK && question.answers[0] == VORTEX_SKIP && question.answers[1] == VORTEX_READ);
    free(list.bytes);
}

/* As deep as a text may nest, deeper, and chains and lists of many items, which aren't deep. */
static void every_condition(void) {
    answered_sql("(", 60, "n > 9", ")", VORTEX_SKIP, VORTEX_READ);
    answered_sql("NOT ", 60, "n > 9", "", VORTEX_SKIP, VORTEX_READ);
    /* Zone 1 has the text `b` alone, by its bounds. */
    answered_sql("NOT (", 30, "n > 9 AND s LIKE '%a_b%'", ")", VORTEX_SKIP, VORTEX_SKIP);
    answered_sql("NOT (", 30, "n > 9 AND s LIKE '%b%'", ")", VORTEX_SKIP, VORTEX_READ);
    assert(asked_sql("(", 60, "n > 9", " IS TRUE)").status == VORTEX_OK);
    answered_sql("(n >= 0 AND ", 60, "n > 9", ")", VORTEX_SKIP, VORTEX_READ);
    answered_sql("(n < 0 OR ", 60, "n > 9", ")", VORTEX_SKIP, VORTEX_READ);
    answered_sql("n >= 0 AND ", MANY, "n > 9", "", VORTEX_SKIP, VORTEX_READ);
    answered_sql("n < 0 OR ", MANY, "n > 9", "", VORTEX_SKIP, VORTEX_READ);
    const char *const deep[][2] = {{"(", ")"}, {"NOT ", ""}, {"NOT (", ")"}, {"(n > 0 OR ", ")"}, {"n IN (1, ", ")"}, {"CASE ", "END "}};
    const size_t depths[] = {64, 65, 66, 1000, MANY};
    for (size_t i = 0; i < sizeof deep / sizeof *deep; i++)
        for (size_t d = 0; d < sizeof depths / sizeof *depths; d++) {
            question found = asked_sql(deep[i][0], depths[d], "n > 9", deep[i][1]);
            assert(found.status == VORTEX_OK || found.status == VORTEX_BAD_SQL || found.status == VORTEX_TOO_DEEP);
            assert(found.status == VORTEX_OK || (found.answers[0] == 9 && found.answers[1] == 9));
        }
    const char *const torsos[] = {"(", "n > 0 AND ", "'", "n IN (", "-", "t.", "\"", "x'", "CASE ", "f("};
    for (size_t i = 0; i < sizeof torsos / sizeof *torsos; i++) {
        uint8_t status = asked_sql(torsos[i], MANY - 1, "", "").status;
        assert(status == VORTEX_BAD_SQL || status == VORTEX_TOO_DEEP);
    }
}

/* The seconds that a text of so many bytes takes, a front and then one piece again and again, which is refused at a place. */
static double refused_in(const char *front, const char *piece, size_t bytes, uint8_t wanted) {
    text condition = {0};
    add(&condition, front);
    while (condition.len < bytes) add(&condition, piece);
    question question = {.predicate = &condition, .status = 99, .answers = {9, 9}};
    clock_t began = clock();
    on_a_small_stack(prune_sql, &question);
    double seconds = (double)(clock() - began) / CLOCKS_PER_SEC;
    assert(question.status == wanted && question.answers[0] == 9 && question.answers[1] == 9);
    assert(question.place <= condition.len);
    free(condition.bytes);
    return seconds;
}

/* Texts of 16 MB that are no condition: four times the bytes take less than eight times as long. */
static void every_long_text(void) {
    const struct { const char *front, *piece; uint8_t status; } rows[] = {
        {"", "(", VORTEX_TOO_DEEP}, {"", "NOT ", VORTEX_TOO_DEEP}, {"", "n > 0 AND ", VORTEX_BAD_SQL}, {"", "f(", VORTEX_BAD_SQL},
        {"s = '", "not closed ", VORTEX_BAD_SQL}, {"s = '", "doubled '' ", VORTEX_BAD_SQL},
    };
    for (size_t i = 0; i < sizeof rows / sizeof *rows; i++) {
        double quick = refused_in(rows[i].front, rows[i].piece, 4000000, rows[i].status);
        assert(refused_in(rows[i].front, rows[i].piece, 16000000, rows[i].status) < 8 * quick + 0.5);
    }
}

/* The calls about columns and tables, with many rows and many zones. */
static void *other_calls(void *given) {
    (void)given;
    static uint64_t ends[MANY], merged_ends[MANY];
    static uint8_t heap[MANY], known[MANY], merged_known[MANY], values[2 * MANY], validity[MANY / 8 + 1];
    static int32_t offsets[MANY + 1];
    const uint8_t wanted[4] = {VORTEX_MIN, VORTEX_MAX, VORTEX_NULL_COUNT, VORTEX_IS_SORTED};
    for (size_t i = 0; i < MANY; i++) ends[i] = i + 1, heap[i] = (uint8_t)('a' + i % 26), known[i] = VORTEX_EXACT;
    for (size_t i = 0; i < MANY; i++) offsets[i + 1] = (int32_t)(i + 1), validity[i / 8] = 255;
    vortex_values column = {.kind = VORTEX_UTF8, .rows = MANY, .values = heap, .values_len = MANY, .ends = ends, .ends_len = MANY};
    const vortex_arrow_values arrow = {.kind = VORTEX_UTF8, .offset_width = 4, .rows = MANY, .validity = validity,
                                       .validity_len = sizeof validity, .values = heap, .values_len = MANY,
                                       .offsets = (const uint8_t *)offsets, .offsets_len = sizeof offsets};
    const vortex_statistic table = {.stat = VORTEX_MAX, .known = known, .known_len = MANY, .values = heap, .values_len = MANY,
                                    .ends = ends, .ends_len = MANY};
    size_t len;
    vortex_fault fault;
    assert(vortex_version() == VORTEX_VERSION);
    assert(vortex_measure(&column, wanted, 4, merged_known, 4, merged_ends, 4, values, sizeof values, &len, &fault) == VORTEX_OK);
    assert(vortex_measure_arrow(&arrow, wanted, 4, merged_known, 4, merged_ends, 4, values, sizeof values, &len, &fault) == VORTEX_OK);
    assert(vortex_check(&column, MANY, &table, 1, 25, &fault) == VORTEX_OK);
    assert(vortex_check_arrow(&arrow, MANY, &table, 1, 25, &fault) == VORTEX_OK);
    assert(vortex_merge(VORTEX_UTF8, 0, MANY, &table, 1, &table, 1, merged_known, MANY, merged_ends, MANY, values, sizeof values, &len,
                        &fault) == VORTEX_OK && len == MANY);
    assert(vortex_merge_zones(VORTEX_UTF8, 0, MANY, &table, 1, merged_known, 1, merged_ends, 1, values, sizeof values, &len,
                              &fault) == VORTEX_OK && len == 1 && values[0] == 'z');
    return NULL;
}

int main(void) {
    every_form();
    forms_in_turn();
    every_chain();
    every_torso();
    every_condition();
    every_list();
    every_long_text();
    on_a_small_stack(other_calls, NULL);
    puts("stack: each call fits into 256 KiB, and a deeper predicate is refused");
    return 0;
}
