/* SPDX-License-Identifier: Apache-2.0 */
/*
 * Fuzzing beside a model. The bytes of an input choose zones of a few rows, statistics that are true of them, and a
 * predicate. A zone that vortex_prune skips has no row that satisfies the predicate by the model here, which evaluates it
 * row by row; of a whole zone each row does. So it is of vortex_prune_sql and the predicate in SQL. Other inputs go to
 * vortex_run, vortex_prune and vortex_prune_sql as they are, which answer by a status and leave the arrays of a refused call
 * as they were. vortex_measure and vortex_merge_zones are compared with
 * the model's own statistics.
 *
 * checks/fuzz.sh builds it with libFuzzer. With -DREPLAY it is a program that runs the files of its arguments.
 */
#include "vortex.h"
#include <stdio.h>
#include <stdlib.h>
#include <string.h>

enum { ZONES = 3, ROWS = 5, COLUMNS = 4, NODES = 64, DEPTH = 4, STATS = 3, ROOM = 8192 };

/* The values of a column and of an expression are numbers, truths or texts. */
enum family { NUMBER, TRUTH, TEXT };

typedef struct cell {
    int is_null, number;
    const char *text;
} cell;

enum operation { COLUMN, LITERAL, COMPARE, AND, OR, NOT, BETWEEN, IS_NULL, NOT_NULL, LIKE };

/* A node of a predicate: its operands by their places, what it holds, and which of its forms it is. */
typedef struct node {
    enum operation operation;
    enum family family;
    int operands[3], form;
    cell value;
} node;

typedef struct choices {
    const uint8_t *at, *end;
} choices;

typedef struct predicate {
    node nodes[NODES];
    int len;
} predicate;

typedef struct zone {
    cell rows[ROWS][COLUMNS];
    size_t len;
} zone;

static const enum family FAMILIES[COLUMNS] = {NUMBER, NUMBER, TRUTH, TEXT};
static const char *const NAMES[COLUMNS] = {"a", "b", "t", "s"};
static const int NUMBERS[] = {-128, -127, -1, 0, 1, 2, 126, 127};
static const char *const TEXTS[] = {"", "A", "a", "aa", "ab", "b", "z", "\xc3\xa9", "\xf4\x8f\xbf\xbf"};
static const char *const PATTERNS[] = {"%", "a", "a%", "ab%%", "_b", "%b", "a_%", "\\%", "\xc3\xa9%", "A%", "_", "", "%a%"};
static const char *const COMPARISONS[] = {"eq", "ne", "lt", "le", "gt", "ge"};
static const char *const LIKES[] = {"like", "notlike", "ilike", "notilike"};

#define COUNT_OF(xs) ((unsigned)(sizeof(xs) / sizeof *(xs)))

static void fail(const char *why, const char *text) {
    fprintf(stderr, "fuzz: %s: %s\n", why, text);
    abort();
}

/* The next choice of so many; the first one where the input has ended. */
static unsigned choose(choices *from, unsigned count) { return from->at == from->end ? 0 : *from->at++ % count; }

static cell any_cell(choices *from, enum family family) {
    cell found = {.is_null = choose(from, 4) == 1, .text = ""};
    if (family == NUMBER) found.number = NUMBERS[choose(from, COUNT_OF(NUMBERS))];
    if (family == TRUTH) found.number = (int)choose(from, 2);
    if (family == TEXT) found.text = TEXTS[choose(from, COUNT_OF(TEXTS))];
    return found;
}

static int order(enum family family, cell a, cell b) {
    return family == TEXT ? strcmp(a.text, b.text) : (a.number > b.number) - (a.number < b.number);
}

/* Predicates */

static int any_node(choices *from, predicate *to, enum family family, int depth);

static int new_node(predicate *to, enum operation operation, enum family family, int form) {
    if (to->len == NODES) fail("a predicate has too many nodes", "");
    to->nodes[to->len] = (node){.operation = operation, .family = family, .form = form};
    return to->len++;
}

static int any_leaf(choices *from, predicate *to, enum family family) {
    unsigned form = choose(from, 3);
    if (form < 2) {
        int place = family == NUMBER ? (int)form : family == TRUTH ? 2 : 3;
        return new_node(to, COLUMN, family, place);
    }
    int made = new_node(to, LITERAL, family, 0);
    to->nodes[made].value = any_cell(from, family);
    return made;
}

static void fill_operands(choices *from, predicate *to, int place, enum family family, int count, int depth) {
    for (int i = 0; i < count; i++) {
        int made = any_node(from, to, family, depth);
        to->nodes[place].operands[i] = made;
    }
}

static int any_truth(choices *from, predicate *to, int depth) {
    enum operation operation = (enum operation)(COMPARE + choose(from, 8));
    enum family family = operation == AND || operation == OR || operation == NOT ? TRUTH
        : operation == LIKE                                                     ? TEXT
                                                                                : (enum family)choose(from, 3);
    int form = operation == LIKE ? (int)choose(from, 4) : operation == COMPARE ? (int)choose(from, 6) : (int)choose(from, 4);
    int made = new_node(to, operation, family, form);
    int count = operation == BETWEEN ? 3 : operation == NOT || operation == IS_NULL || operation == NOT_NULL ? 1 : 2;
    if (operation != LIKE) {
        fill_operands(from, to, made, family, count, depth - 1);
        return made;
    }
    fill_operands(from, to, made, TEXT, 1, 0);
    int pattern = new_node(to, LITERAL, TEXT, 0);
    to->nodes[pattern].value = (cell){.is_null = choose(from, 9) == 1, .text = PATTERNS[choose(from, COUNT_OF(PATTERNS))]};
    to->nodes[made].operands[1] = pattern;
    return made;
}

/* A node and those below it. Near the end of the room, and at depth 0, it is a leaf. */
static int any_node(choices *from, predicate *to, enum family family, int depth) {
    int is_leaf = family != TRUTH || depth <= 0 || to->len > NODES - 5 * (depth + 1) || choose(from, 4) == 3;
    return is_leaf ? any_leaf(from, to, family) : any_truth(from, to, depth);
}

/* The truth of a comparison by its form, and null where an operand is. */
static cell compared(int form, enum family family, cell a, cell b) {
    int by = order(family, a, b);
    const int truths[] = {by == 0, by != 0, by < 0, by <= 0, by > 0, by >= 0};
    return (cell){.is_null = a.is_null || b.is_null, .number = truths[form], .text = ""};
}

static cell both(cell a, cell b) {
    int is_false = (!a.is_null && !a.number) || (!b.is_null && !b.number);
    return (cell){.is_null = !is_false && (a.is_null || b.is_null), .number = !is_false, .text = ""};
}

static cell negated(cell a) { return (cell){.is_null = a.is_null, .number = !a.number, .text = ""}; }

static size_t width_of(const char *text) {
    size_t width = 1;
    while (((unsigned char)text[width] & 0xc0) == 0x80) width++;
    return width;
}

static int lower(char c) { return c >= 'A' && c <= 'Z' ? c + 32 : c; }

static int matches(const char *text, const char *pattern, int ignores_case) {
    if (!*pattern) return !*text;
    if (*pattern == '%') return matches(text, pattern + 1, ignores_case) || (*text && matches(text + width_of(text), pattern, ignores_case));
    if (*pattern == '_') return *text && matches(text + width_of(text), pattern + 1, ignores_case);
    if (*pattern == '\\' && pattern[1]) pattern++;
    int is_same = ignores_case ? lower(*text) == lower(*pattern) : *text == *pattern;
    return *text && is_same && matches(text + 1, pattern + 1, ignores_case);
}

static cell liked(int form, cell text, cell pattern) {
    int found = matches(text.text, pattern.text, form >= 2);
    return (cell){.is_null = text.is_null || pattern.is_null, .number = form % 2 ? !found : found, .text = ""};
}

static cell evaluated(const predicate *of, int place, const cell *row) {
    const node *it = &of->nodes[place];
    cell xs[3] = {{0, 0, ""}, {0, 0, ""}, {0, 0, ""}};
    int count = it->operation <= LITERAL ? 0 : it->operation == BETWEEN ? 3 : it->operation == NOT || it->operation == IS_NULL || it->operation == NOT_NULL ? 1 : 2;
    for (int i = 0; i < count; i++) xs[i] = evaluated(of, it->operands[i], row);
    switch (it->operation) {
    case COLUMN: return row[it->form];
    case LITERAL: return it->value;
    case COMPARE: return compared(it->form, it->family, xs[0], xs[1]);
    case AND: return both(xs[0], xs[1]);
    case OR: return negated(both(negated(xs[0]), negated(xs[1])));
    case NOT: return negated(xs[0]);
    case BETWEEN: return both(compared(2 + it->form % 2, it->family, xs[1], xs[0]), compared(2 + it->form / 2, it->family, xs[0], xs[2]));
    case IS_NULL: return (cell){.number = xs[0].is_null, .text = ""};
    case NOT_NULL: return (cell){.number = !xs[0].is_null, .text = ""};
    case LIKE: return liked(it->form, xs[0], xs[1]);
    }
    return xs[0];
}

/* Writes text at the end of a text, and a backslash of a quoted word twice. */
static void write_text(char *to, const char *text, int is_quoted) {
    size_t len = strlen(to);
    for (; *text && len + 2 < ROOM; text++) {
        if (is_quoted && *text == '\\') to[len++] = '\\';
        to[len++] = *text;
    }
    to[len] = 0;
}

static void write_literal(char *to, enum family family, cell value) {
    static const char *const types[] = {"lit i8? ", "lit bool? ", "lit utf8? "};
    char number[16];
    snprintf(number, sizeof number, "%d", value.number);
    write_text(to, types[family], 0);
    if (value.is_null) {
        write_text(to, "null ", 0);
    } else if (family == TEXT) {
        write_text(to, "\"", 0), write_text(to, value.text, 1), write_text(to, "\" ", 0);
    } else {
        write_text(to, family == NUMBER ? number : value.number ? "true" : "false", 0), write_text(to, " ", 0);
    }
}

static void write_node(char *to, const predicate *of, int place) {
    static const char *const ends[] = {"between < < ", "between <= < ", "between < <= ", "between <= <= "};
    const node *it = &of->nodes[place];
    const char *const words[] = {"col ", "", COMPARISONS[it->form % 6], "and ", "or ", "not ", ends[it->form % 4], "isnull ", "notnull ", LIKES[it->form % 4]};
    if (it->operation == LITERAL) {
        write_literal(to, it->family, it->value);
        return;
    }
    write_text(to, words[it->operation], 0);
    if (it->operation == COLUMN) write_text(to, NAMES[it->form], 0);
    if (it->operation == COLUMN || it->operation == COMPARE || it->operation == LIKE) write_text(to, " ", 0);
    int count = it->operation == COLUMN ? 0 : it->operation == BETWEEN ? 3 : it->operation == NOT || it->operation == IS_NULL || it->operation == NOT_NULL ? 1 : 2;
    for (int i = 0; i < count; i++) write_node(to, of, it->operands[i]);
}

/* SQL */

static void write_sql(char *to, const predicate *of, int place);

static void write_sql_literal(char *to, enum family family, cell value) {
    char number[16];
    snprintf(number, sizeof number, "%d", value.number);
    if (value.is_null || family != TEXT)
        write_text(to, value.is_null ? "NULL" : family == NUMBER ? number : value.number ? "TRUE" : "FALSE", 0);
    else
        write_text(to, "'", 0), write_text(to, value.text, 0), write_text(to, "'", 0);
}

/* An operand, of which other conditions stand in parentheses. */
static void write_sql_operand(char *to, const predicate *of, int place) {
    int is_leaf = of->nodes[place].operation <= LITERAL;
    if (!is_leaf) write_text(to, "(", 0);
    write_sql(to, of, place);
    if (!is_leaf) write_text(to, ")", 0);
}

static void write_sql_pair(char *to, const predicate *of, int left, const char *between, int right) {
    write_sql_operand(to, of, left), write_text(to, between, 0), write_sql_operand(to, of, right);
}

static void write_sql(char *to, const predicate *of, int place) {
    static const char *const signs[] = {" = ", " <> ", " < ", " <= ", " > ", " >= "};
    static const char *const likes[] = {" LIKE ", " NOT LIKE ", " ILIKE ", " NOT ILIKE "};
    const node *it = &of->nodes[place];
    const int *xs = it->operands;
    switch (it->operation) {
    case COLUMN: write_text(to, NAMES[it->form], 0); break;
    case LITERAL: write_sql_literal(to, it->family, it->value); break;
    case COMPARE: write_sql_pair(to, of, xs[0], signs[it->form], xs[1]); break;
    case AND: write_sql_pair(to, of, xs[0], " AND ", xs[1]); break;
    case OR: write_sql_pair(to, of, xs[0], " OR ", xs[1]); break;
    case NOT: write_text(to, "NOT ", 0), write_sql_operand(to, of, xs[0]); break;
    case BETWEEN:
        if (it->form == 3) {
            write_sql_pair(to, of, xs[0], " BETWEEN ", xs[1]), write_text(to, " AND ", 0), write_sql_operand(to, of, xs[2]);
            break;
        }
        write_sql_pair(to, of, xs[1], signs[2 + it->form % 2], xs[0]), write_text(to, " AND ", 0);
        write_sql_pair(to, of, xs[0], signs[2 + it->form / 2], xs[2]);
        break;
    case IS_NULL: write_sql_operand(to, of, xs[0]), write_text(to, " IS NULL", 0); break;
    case NOT_NULL: write_sql_operand(to, of, xs[0]), write_text(to, " IS NOT NULL", 0); break;
    case LIKE: write_sql_pair(to, of, xs[0], likes[it->form], xs[1]); break;
    }
}

/* Whether each comparison is of columns and literals. */
static int is_flat(const predicate *of) {
    for (int i = 0; i < of->len; i++) {
        const node *it = &of->nodes[i];
        int count = it->operation == COMPARE ? 2 : it->operation == BETWEEN ? 3 : 0;
        for (int k = 0; k < count; k++)
            if (of->nodes[it->operands[k]].operation > LITERAL) return 0;
    }
    return 1;
}

/* Statistics */

/* A statistic of each zone as the calls take it. */
typedef struct arrays {
    uint8_t known[ZONES], values[ZONES * 8];
    uint64_t ends[ZONES];
    size_t len;
} arrays;

static size_t nulls_of(const zone *it, int column) {
    size_t found = 0;
    for (size_t r = 0; r < it->len; r++) found += (size_t)it->rows[r][column].is_null;
    return found;
}

/* The least value of a column, or the greatest, if it has one. */
static const cell *end_of(const zone *it, int column, int is_max) {
    const cell *found = NULL;
    for (size_t r = 0; r < it->len; r++) {
        const cell *own = &it->rows[r][column];
        int by = own->is_null ? 0 : found ? order(FAMILIES[column], *own, *found) : is_max ? 1 : -1;
        if (is_max ? by > 0 : by < 0) found = own;
    }
    return found;
}

/* A bound that needn't be reached: a value at the end's other side, or the end itself. */
static cell loosened(choices *from, enum family family, cell end, int is_max) {
    cell other = any_cell(from, family);
    int by = order(family, other, end);
    return (is_max ? by > 0 : by < 0) ? other : end;
}

static void put_value(arrays *to, size_t z, enum family family, cell value) {
    size_t width = family == TEXT ? strlen(value.text) : 1;
    if (family == TEXT) memcpy(to->values + to->len, value.text, width);
    else to->values[to->len] = (uint8_t)value.number;
    to->len += width;
    to->ends[z] = to->len;
}

static void put_end(choices *from, arrays *to, size_t z, const zone *of, int column, int is_max) {
    const cell *end = end_of(of, column, is_max);
    to->known[z] = (uint8_t)(end ? choose(from, 3) : VORTEX_ABSENT);
    cell value = {0, 0, ""};
    if (to->known[z] == VORTEX_EXACT) value = *end;
    if (to->known[z] == VORTEX_INEXACT) value = loosened(from, FAMILIES[column], *end, is_max);
    put_value(to, z, FAMILIES[column], value);
}

static void put_nulls(choices *from, arrays *to, size_t z, const zone *of, int column) {
    uint64_t count = nulls_of(of, column);
    to->known[z] = (uint8_t)choose(from, 3);
    if (to->known[z] == VORTEX_INEXACT) count += choose(from, 3);
    memcpy(to->values + 8 * z, &count, 8);
    to->len = 8 * (z + 1);
}

static vortex_statistic lent(const arrays *it, size_t column, uint8_t stat, size_t zones, int has_ends) {
    return (vortex_statistic){.column = column, .stat = stat, .known = it->known, .known_len = zones, .values = it->values,
                              .values_len = it->len, .ends = has_ends ? it->ends : NULL, .ends_len = has_ends ? zones : 0};
}

static void make_statistics(choices *from, const zone *zones, size_t len, arrays *rooms, vortex_statistic *to) {
    for (int c = 0; c < COLUMNS; c++)
        for (int k = 0; k < STATS; k++) {
            arrays *room = &rooms[c * STATS + k];
            memset(room, 0, sizeof *room);
            for (size_t z = 0; z < len; z++)
                if (k == 2) put_nulls(from, room, z, &zones[z], c);
                else put_end(from, room, z, &zones[z], c, k);
            uint8_t stat = k == 2 ? VORTEX_NULL_COUNT : k ? VORTEX_MAX : VORTEX_MIN;
            to[c * STATS + k] = lent(room, (size_t)c, stat, len, k < 2 && FAMILIES[c] == TEXT);
        }
}

static void make_zones(choices *from, zone *to, size_t len) {
    for (size_t z = 0; z < len; z++) {
        to[z].len = choose(from, ROWS + 1);
        for (size_t r = 0; r < to[z].len; r++)
            for (int c = 0; c < COLUMNS; c++) to[z].rows[r][c] = any_cell(from, FAMILIES[c]);
    }
}

/* The calls */

static const uint8_t KINDS[COLUMNS] = {VORTEX_I8, VORTEX_I8, VORTEX_BOOL, VORTEX_UTF8};

static uint8_t pruned(const zone *zones, size_t len, const vortex_statistic *stats, const uint8_t *text, size_t text_len, uint8_t flags, uint8_t *answers) {
    vortex_field scope[COLUMNS];
    uint64_t rows[ZONES] = {0};
    for (int c = 0; c < COLUMNS; c++) scope[c] = (vortex_field){.name = (const uint8_t *)NAMES[c], .name_len = 1, .kind = KINDS[c], .nullable = 1};
    for (size_t z = 0; z < len; z++) rows[z] = zones[z].len;
    vortex_fault fault;
    return vortex_prune(scope, COLUMNS, rows, len, stats, COLUMNS * STATS, text, text_len, flags, answers, len, &fault);
}

static uint8_t pruned_by_sql(const zone *zones, size_t len, const vortex_statistic *stats, const char *text, size_t text_len, uint8_t *answers,
                             vortex_span *unread, size_t *count) {
    vortex_field scope[COLUMNS];
    uint64_t rows[ZONES] = {0};
    for (int c = 0; c < COLUMNS; c++) scope[c] = (vortex_field){.name = (const uint8_t *)NAMES[c], .name_len = 1, .kind = KINDS[c], .nullable = 1};
    for (size_t z = 0; z < len; z++) rows[z] = zones[z].len;
    vortex_fault fault = {0};
    uint8_t status = vortex_prune_sql(scope, COLUMNS, rows, len, stats, COLUMNS * STATS, (const uint8_t *)text, text_len, 0, answers, len,
                                      unread, NODES, count, &fault);
    int has_place = status == VORTEX_BAD_SQL || status == VORTEX_MISFIT || status == VORTEX_TOO_DEEP;
    if (has_place && (fault.entry > text_len || fault.row > text_len)) fail("a fault is outside of the text", "vortex_prune_sql");
    size_t end = 0;
    for (size_t i = 0; status == VORTEX_OK && i < *count; i++) {
        if (unread[i].start < end || unread[i].end <= unread[i].start || unread[i].end > text_len) fail("a place is none", "vortex_prune_sql");
        end = unread[i].end;
    }
    return status;
}

static void look_at(uint8_t answer, const zone *it, const predicate *of, const char *text) {
    for (size_t r = 0; r < it->len; r++) {
        cell truth = evaluated(of, 0, it->rows[r]);
        int satisfies = !truth.is_null && truth.number;
        if (answer == VORTEX_SKIP && satisfies) fail("a wanted row is skipped", text);
        if (answer == VORTEX_WHOLE && !satisfies) fail("a row of a whole zone isn't wanted", text);
    }
}

/* Prunes zones of rows that are known. */
static void prune_known(choices *from) {
    static zone zones[ZONES];
    static arrays rooms[COLUMNS * STATS];
    static char text[ROOM];
    predicate made = {.len = 0};
    vortex_statistic stats[COLUMNS * STATS];
    uint8_t answers[ZONES] = {0};
    size_t len = 1 + choose(from, ZONES);
    uint8_t flags = (uint8_t)choose(from, 2);
    any_truth(from, &made, DEPTH);
    make_zones(from, zones, len);
    make_statistics(from, zones, len, rooms, stats);
    text[0] = 0;
    write_node(text, &made, 0);
    size_t text_len = strlen(text) - 1;
    text[text_len] = 0;
    uint8_t status = pruned(zones, len, stats, (const uint8_t *)text, text_len, flags, answers);
    if (status != VORTEX_OK) fail("a predicate is refused", text);
    for (size_t z = 0; z < len; z++) look_at(answers[z], &zones[z], &made, text);
}

/* Prunes zones of rows that are known by a condition in SQL. Where each comparison is of columns and literals it is read. */
static void prune_known_by_sql(choices *from) {
    static zone zones[ZONES];
    static arrays rooms[COLUMNS * STATS];
    static char text[ROOM];
    predicate made = {.len = 0};
    vortex_statistic stats[COLUMNS * STATS];
    vortex_span unread[NODES];
    uint8_t answers[ZONES] = {0};
    size_t len = 1 + choose(from, ZONES), count = 0;
    any_truth(from, &made, DEPTH);
    make_zones(from, zones, len);
    make_statistics(from, zones, len, rooms, stats);
    text[0] = 0;
    write_sql(text, &made, 0);
    uint8_t status = pruned_by_sql(zones, len, stats, text, strlen(text), answers, unread, &count);
    if (status != VORTEX_OK && is_flat(&made)) fail("a condition is refused", text);
    for (size_t z = 0; status == VORTEX_OK && z < len; z++) look_at(answers[z], &zones[z], &made, text);
}

/* Prunes by a text that may be no condition in SQL. */
static void prune_any_by_sql(choices *from) {
    static zone zones[1];
    static arrays rooms[COLUMNS * STATS];
    vortex_statistic stats[COLUMNS * STATS];
    vortex_span unread[NODES];
    uint8_t answers[1] = {0x5a};
    size_t count = 0x5a;
    make_zones(from, zones, 1);
    make_statistics(from, zones, 1, rooms, stats);
    uint8_t status = pruned_by_sql(zones, 1, stats, (const char *)from->at, (size_t)(from->end - from->at), answers, unread, &count);
    int is_refusal = status == VORTEX_BAD_SQL || status == VORTEX_MISFIT || status == VORTEX_TOO_DEEP;
    if (status != VORTEX_OK && status != VORTEX_TOO_SHORT && !is_refusal) fail("a text has a status of its own", "vortex_prune_sql");
    if (status != VORTEX_OK && answers[0] != 0x5a) fail("a refusal wrote an answer", "vortex_prune_sql");
    if (is_refusal && count != 0x5a) fail("a refusal told a count", "vortex_prune_sql");
}

/* Prunes by a text that may be no predicate. */
static void prune_any(choices *from) {
    static zone zones[1];
    static arrays rooms[COLUMNS * STATS];
    vortex_statistic stats[COLUMNS * STATS];
    uint8_t answers[1] = {0x5a};
    make_zones(from, zones, 1);
    make_statistics(from, zones, 1, rooms, stats);
    uint8_t status = pruned(zones, 1, stats, from->at, (size_t)(from->end - from->at), 0, answers);
    int is_refusal = status == VORTEX_BAD_LINE || status == VORTEX_NOT_A_PREDICATE || status == VORTEX_TOO_DEEP;
    if (status != VORTEX_OK && !is_refusal) fail("a text has a status of its own", "vortex_prune");
    if (is_refusal && answers[0] != 0x5a) fail("a refusal wrote an answer", "vortex_prune");
}

static void run_any(choices *from) {
    static uint8_t output[ROOM];
    size_t len = 0;
    uint8_t status = vortex_run(from->at, (size_t)(from->end - from->at), output, sizeof output, &len);
    if (status > VORTEX_TOO_SHORT) fail("a text has a status of its own", "vortex_run");
    if (status != VORTEX_TOO_SHORT && len > sizeof output) fail("more is written than has room", "vortex_run");
}

/* One measured statistic of numbers, from what vortex_measure has written. */
static int is_measured(uint8_t known, const uint8_t *value, const cell *end) {
    return end ? known == VORTEX_EXACT && *(const int8_t *)value == end->number : known == VORTEX_ABSENT;
}

/* Measures numbers in Arrow's layout behind some places: what was measured of them in the library's own arrays. */
static void measure_placed(size_t before, size_t rows, const uint8_t *bytes, const uint8_t *nulls, const uint8_t *told, size_t told_len) {
    static const uint8_t wanted[] = {VORTEX_MIN, VORTEX_MAX, VORTEX_NULL_COUNT};
    uint8_t placed[ROWS + 16] = {0}, validity[ROWS / 8 + 3] = {0}, known[3], values[64];
    uint64_t ends[3];
    size_t len = 0;
    for (size_t r = 0, at = before; r < rows; r++, at++) placed[at] = bytes[r], validity[at / 8] |= (uint8_t)(!nulls[r] << at % 8);
    const vortex_arrow_values column = {.kind = VORTEX_I8, .nullable = 1, .rows = rows, .offset = before, .validity = validity,
                                        .validity_len = sizeof validity, .values = placed, .values_len = sizeof placed};
    vortex_fault fault;
    uint8_t status = vortex_measure_arrow(&column, wanted, 3, known, 3, ends, 3, values, sizeof values, &len, &fault);
    if (status != VORTEX_OK) fail("a column is refused", "vortex_measure_arrow");
    if (len != told_len || memcmp(values, told, len) != 0) fail("a statistic isn't that of vortex_measure", "vortex_measure_arrow");
}

/* Measures a column of numbers. */
static void measure_known(choices *from) {
    static const uint8_t wanted[] = {VORTEX_MIN, VORTEX_MAX, VORTEX_NULL_COUNT};
    static zone it;
    uint8_t bytes[ROWS], nulls[ROWS], known[3], values[64];
    uint64_t ends[3], count;
    size_t len = 0;
    make_zones(from, &it, 1);
    for (size_t r = 0; r < it.len; r++) bytes[r] = (uint8_t)it.rows[r][0].number, nulls[r] = (uint8_t)it.rows[r][0].is_null;
    vortex_values column = {VORTEX_I8, 1, it.len, 0, 0, bytes, it.len, NULL, 0, nulls, it.len};
    vortex_fault fault;
    uint8_t status = vortex_measure(&column, wanted, 3, known, 3, ends, 3, values, sizeof values, &len, &fault);
    if (status != VORTEX_OK) fail("a column is refused", "vortex_measure");
    memcpy(&count, values + ends[1], 8);
    int is_right = is_measured(known[0], values, end_of(&it, 0, 0)) && is_measured(known[1], values + ends[0], end_of(&it, 0, 1));
    if (!is_right || known[2] != VORTEX_EXACT || count != nulls_of(&it, 0)) fail("a statistic isn't that of the model", "vortex_measure");
    measure_placed(choose(from, 16), it.len, bytes, nulls, values, len);
}

/* Merges the bounds of zones: a merged bound is known where each zone's is, and lies at or beyond all of them. */
static void merge_known(choices *from) {
    static const uint8_t wanted[] = {VORTEX_MIN, VORTEX_MAX, VORTEX_NULL_COUNT};
    static zone zones[ZONES];
    static arrays rooms[COLUMNS * STATS];
    vortex_statistic stats[COLUMNS * STATS];
    uint8_t known[STATS], values[128];
    uint64_t ends[STATS];
    size_t len = 0, count = 1 + choose(from, ZONES);
    make_zones(from, zones, count);
    make_statistics(from, zones, count, rooms, stats);
    vortex_fault fault;
    uint8_t status = vortex_merge_zones(VORTEX_I8, 1, count, stats, STATS, known, STATS, ends, STATS, values, sizeof values, &len, &fault);
    if (status != VORTEX_OK) fail("a table is refused", "vortex_merge_zones");
    for (size_t k = 0; k < 2; k++)
        for (size_t z = 0; z < count && known[k] != VORTEX_ABSENT; z++) {
            int own = (int8_t)values[k ? ends[k - 1] : 0];
            const cell *end = end_of(&zones[z], 0, (int)k);
            if (end && (wanted[k] == VORTEX_MAX ? own < end->number : own > end->number)) fail("a merged bound is within its zones", "vortex_merge_zones");
        }
}

int LLVMFuzzerTestOneInput(const uint8_t *data, size_t size);

int LLVMFuzzerTestOneInput(const uint8_t *data, size_t size) {
    choices from = {data, data + size};
    switch (choose(&from, 8)) {
    case 0: prune_any(&from); break;
    case 1: run_any(&from); break;
    case 2: measure_known(&from); break;
    case 3: merge_known(&from); break;
    case 4: prune_any_by_sql(&from); break;
    case 5: prune_known_by_sql(&from); break;
    default: prune_known(&from);
    }
    return 0;
}

#ifdef REPLAY
int main(int count, char **names) {
    static uint8_t data[1 << 20];
    for (int i = 1; i < count; i++) {
        FILE *file = fopen(names[i], "rb");
        if (!file) return perror(names[i]), 1;
        LLVMFuzzerTestOneInput(data, fread(data, 1, sizeof data, file));
        fclose(file);
    }
    printf("fuzz: %d inputs answered as the model has it\n", count - 1);
    return 0;
}
#endif
