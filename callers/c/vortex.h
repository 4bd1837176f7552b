/* SPDX-License-Identifier: Apache-2.0 */
/*
 * The proved library from C: crates/vortex_ffi.
 *
 * Link with callers/out/libvortex_ffi.a or libvortex_ffi.so, which checks/callers.sh builds. They need malloc, realloc
 * and free of the C library and nothing else.
 *
 * Who owns what. Every array is the caller's. A call reads the arrays that it is handed, writes the ones that are not
 * const, and keeps nothing: no handle, no state, nothing to free. No array that is written may overlap another one of the
 * same call.
 *
 * Pointers. An array is a pointer and a number of elements, and the pointer of an array without elements may be null.
 * Every other pointer is never null: a vortex_values, `len` and `fault`, which each call writes, and the elements of an
 * array. A pointer to a number or a struct is aligned as its type asks.
 *
 * Lengths. An array has exactly as many elements as are said of it, one for each row or zone, and is refused with
 * VORTEX_BAD_LENGTH where it has more or fewer. The heap of texts and bytes alone may go on behind the last end.
 *
 * Stack. Every call but vortex_run takes at most 256 KiB of stack. vortex_run takes up to 4 MiB for the deepest predicate
 * of the program's language, which has 4,096 words.
 *
 * Statuses. A call returns one of the codes of vortex_status. VORTEX_OK is an answer. After every other one the arrays
 * of the caller are as they were, and where a vortex_fault was handed in it says which row or zone, which column and
 * which statistic was meant, or which bytes of a text; a place that has no part in it is 0. A vortex_fault is written on a refusal alone.
 *
 * Threads. Calls may run side by side, as long as no array that one of them writes is used by another one. No call may
 * come from a signal handler, or from the forked child of a process with threads.
 *
 * Types. A column has a kind of values, and is nullable or not: a null is a value of a nullable type alone, and of
 * VORTEX_NULL, which has no other one.
 *
 * Values stand one behind the other, without padding: numbers in little-endian order and in the width of their type, a
 * truth in one byte, 0 or 1. A null, or a statistic that isn't known, takes the same room, and its bytes aren't read.
 * Texts (UTF-8) and bytes stand in one heap, and `ends` says where each of them ends in it: value i runs from ends[i - 1]
 * to ends[i], the first one from `start`, which is mostly 0. So the offsets of an Arrow array serve as `ends` from their
 * second element on, with the first as `start`. For other types `ends` is empty. A column of VORTEX_NULL has no values.
 *
 * Dates, times, timestamps and decimals are whole numbers: VORTEX_DATE and the kinds behind it say what they stand for, and a
 * condition in SQL compares them by that. Floating numbers and UUIDs are mapped onto the kinds of numbers and bytes, each in
 * its own order: docs/TYPES.md says how, and what bounds of other writers mean.
 *
 * Arrow. vortex_measure_arrow and vortex_check_arrow take the buffers of an Arrow array as they are: bits of validity and
 * truths, offsets of 32 or 64 bits, and the places before a slice.
 *
 * Statistics. Each has a number, vortex_stat. Its value is of the column's own kind (VORTEX_MAX, VORTEX_MIN), a truth
 * (VORTEX_IS_CONSTANT, VORTEX_IS_SORTED, VORTEX_IS_STRICT_SORTED), a count of 64 bits without a sign (VORTEX_NULL_COUNT,
 * VORTEX_UNCOMPRESSED_SIZE_IN_BYTES) or a sum (VORTEX_SUM): 64 bits, with a sign for columns of numbers with one, and
 * without one for the others and for truths. Columns of texts, bytes and nulls have no sum, those of nulls no greatest
 * and no least value. No type of today has VORTEX_NAN_COUNT. A byte says how a value is known: VORTEX_ABSENT not at all,
 * VORTEX_EXACT exactly, VORTEX_INEXACT as a bound: an inexact greatest value or count is at least the true one, an inexact
 * least value is at most the true one, and of the others an inexact value says nothing.
 */
#ifndef VORTEX_H
#define VORTEX_H

#include <stddef.h>
#include <stdint.h>

#ifdef __cplusplus
extern "C" {
#endif

/* What a call returns. */
enum vortex_status {
    VORTEX_OK = 0,              /* the call has answered */
    VORTEX_NO_ANSWER = 1,       /* vortex_run: there is no scan, and the output says why in a word */
    VORTEX_BAD_LINE = 2,        /* vortex_run: the output says which line is bad; vortex_prune: the predicate is no
                                   expression over these columns */
    VORTEX_TOO_SHORT = 3,       /* `output`, `values` or `unread` is too short: *len says how long it has to be */
    VORTEX_NO_MEMORY = 4,       /* memory was refused */
    VORTEX_BAD_KIND = 5,        /* a kind above VORTEX_DECIMAL, a `nullable` above 1, a unit or digits that aren't those of the
                                   kind, or offsets of neither 4 nor 8 bytes: which column; vortex_prune: a kind above
                                   VORTEX_BINARY */
    VORTEX_BAD_STAT = 6,        /* no statistic's number, or the column's type has no such statistic: which statistic */
    VORTEX_BAD_KNOWN = 7,       /* a byte above VORTEX_INEXACT says how a value is known: which zone and statistic */
    VORTEX_BAD_LENGTH = 8,      /* an array is too short or too long: which column or statistic */
    VORTEX_BAD_ENDS = 9,        /* a text begins behind its end, or ends behind the heap: which row, or zone and statistic */
    VORTEX_BAD_VALUE = 10,      /* a text isn't UTF-8, or a truth is above 1: which row, or zone and statistic */
    VORTEX_BAD_NULL = 11,       /* a null in a column that isn't nullable: which row */
    VORTEX_UNTRUE = 12,         /* vortex_check: the first statistic that isn't true of the values */
    VORTEX_BAD_COLUMN = 13,     /* vortex_prune: a statistic of a column that isn't there: which statistic */
    VORTEX_BAD_NAME = 14,       /* vortex_prune: a name that is none, or a name twice: which column */
    VORTEX_NOT_A_PREDICATE = 15, /* vortex_prune: the expression isn't of type bool */
    VORTEX_BAD_FLAG = 16,       /* vortex_prune, vortex_prune_sql: a flag that isn't known */
    VORTEX_TOO_DEEP = 17,       /* vortex_prune: the predicate has more than VORTEX_MAX_DEPTH levels; vortex_prune_sql: the
                                   text nests too deep: which byte */
    VORTEX_BAD_SQL = 18,        /* vortex_prune_sql: the text is no condition: which byte, and a vortex_sql_fault */
    VORTEX_MISFIT = 19,         /* vortex_prune_sql: the types of a test don't fit: which bytes */
    VORTEX_BAD_FOOTER = 20,     /* vortex_parquet_footer, vortex_parquet_prune, vortex_parquet_indexes,
                                   vortex_parquet_prune_pages, vortex_parquet_data_pages: the bytes are no footer, or
                                   no page indexes: a vortex_parquet_fault */
    VORTEX_NOT_READ = 21        /* vortex_parquet_prune, vortex_parquet_prune_pages: a test names a column of which no test
                                   could be meant: which bytes, and a vortex_not_read */
};

/* Why bytes are no footer of a Parquet file: fault->column of VORTEX_BAD_FOOTER. */
enum vortex_parquet_fault {
    VORTEX_NOT_PARQUET = 0,   /* the bytes don't end in PAR1 */
    VORTEX_ENCRYPTED = 1,     /* they end in PARE */
    VORTEX_FOOTER_LENGTH = 2, /* the footer is longer than the file, which a caller sees who knows the file's size */
    VORTEX_SHORT = 3,         /* a value passes the end */
    VORTEX_VARINT = 4,        /* a number doesn't fit 64 bits, or has more than ten bytes */
    VORTEX_NEGATIVE = 5,      /* a number is below 0 that may not be */
    VORTEX_FIELD_ID = 6,      /* an identifier of a field doesn't fit 15 bits */
    VORTEX_KIND = 7,          /* a code stands for no kind of values */
    VORTEX_LENGTH = 8,        /* a list claims more items than bytes are left */
    VORTEX_DEPTH = 9,         /* values nest deeper than 32 levels */
    VORTEX_MISSING = 10,      /* a row group has no number of rows, a column no name, or a page no offset, size or first row */
    VORTEX_SCHEMA = 11,       /* the schema is no tree */
    VORTEX_COLUMNS = 12,      /* a row group has another number of columns than the schema has leaf columns */
    VORTEX_NO_VALUE = 13,     /* a bound is no value of its column's type */
    VORTEX_PAGES = 14         /* the pages of a column chunk are none of its rows */
};

/* Why no test of a column could be meant: fault->column of VORTEX_NOT_READ. */
enum vortex_not_read {
    VORTEX_NESTED = 0,   /* it has columns below it */
    VORTEX_REPEATED = 1, /* it has a list of values a row */
    VORTEX_DUPLICATE = 2 /* it is one of several of its name */
};

/* Why a text is no condition in SQL: fault->column of VORTEX_BAD_SQL. */
enum vortex_sql_fault {
    VORTEX_UNEXPECTED = 0, /* no rule reads the word or sign there, or the text ends too soon */
    VORTEX_UNCLOSED = 1,   /* a quote that begins there isn't closed */
    VORTEX_COMMENT = 2,    /* a comment begins there */
    VORTEX_PREFIXED = 3,   /* a word stands right before a quote, as in E'..' */
    VORTEX_DOLLAR = 4,     /* a dollar sign outside quotes */
    VORTEX_GLUED = 5,      /* a number runs into a letter, a dot or a quote */
    VORTEX_ADJACENT = 6,   /* a text stands right behind another one */
    VORTEX_NO_UTF8 = 7     /* the text isn't UTF-8 from there on */
};

/* The version of this header: the major number times 65,536, the minor one times 256, and the patch. */
#define VORTEX_VERSION 0x000300u

/*
 * How many levels a predicate of vortex_prune may have. A column and a literal have none, each other node one more than
 * its deepest operand. A chain of AND, or of OR, is joined in halves whatever its shape, so 100,000 items take 17 levels.
 * A text that is no expression may be refused as too deep, too. A normal form of the predicate that has more levels takes
 * no part in pruning.
 */
#define VORTEX_MAX_DEPTH 128

/* The kinds of values. Those from VORTEX_DATE on are numbers with a sign, of 32 bits for dates and of 64 for the others. */
enum vortex_kind {
    VORTEX_NULL = 0,
    VORTEX_BOOL = 1,
    VORTEX_U8 = 2,
    VORTEX_U16 = 3,
    VORTEX_U32 = 4,
    VORTEX_U64 = 5,
    VORTEX_I8 = 6,
    VORTEX_I16 = 7,
    VORTEX_I32 = 8,
    VORTEX_I64 = 9,
    VORTEX_UTF8 = 10,
    VORTEX_BINARY = 11,
    VORTEX_DATE = 12,         /* days since 1970-01-01 */
    VORTEX_TIME = 13,         /* units since midnight */
    VORTEX_TIMESTAMP = 14,    /* units since 1970-01-01 00:00:00 on the same clock */
    VORTEX_TIMESTAMP_TZ = 15, /* units since 1970-01-01 00:00:00 UTC */
    VORTEX_DECIMAL = 16       /* units of the last digit */
};

/* The units of times and timestamps. */
enum vortex_unit {
    VORTEX_SECONDS = 1,
    VORTEX_MILLISECONDS = 2,
    VORTEX_MICROSECONDS = 3,
    VORTEX_NANOSECONDS = 4
};

/* The numbers of the statistics. */
enum vortex_stat {
    VORTEX_IS_CONSTANT = 0,
    VORTEX_IS_SORTED = 1,
    VORTEX_IS_STRICT_SORTED = 2,
    VORTEX_MAX = 3,
    VORTEX_MIN = 4,
    VORTEX_SUM = 5,
    VORTEX_NULL_COUNT = 6,
    VORTEX_UNCOMPRESSED_SIZE_IN_BYTES = 7,
    VORTEX_NAN_COUNT = 8
};

/* How a statistic's value is known. */
enum vortex_known { VORTEX_ABSENT = 0, VORTEX_EXACT = 1, VORTEX_INEXACT = 2 };

/* What is to be done with a zone. */
enum vortex_answer {
    VORTEX_READ = 0, /* read it: rows of it may satisfy the predicate, and others may not */
    VORTEX_SKIP = 1, /* no row of it satisfies the predicate */
    VORTEX_WHOLE = 2 /* every row of it satisfies the predicate */
};

/* Flags of vortex_prune. */
enum vortex_flag { VORTEX_NORMALIZE = 1 /* taken and without effect: each call prunes by the normal form, too */ };

/* Flags of vortex_prune_sql. */
enum vortex_sql_flag { VORTEX_LAST_NAME = 2 /* a name of several parts, as t.a, is the column of its last part */ };

/* Where a call was refused. */
typedef struct vortex_fault {
    size_t row;    /* the row of a column of values, or the zone of a table; of VORTEX_MISFIT the byte behind the test */
    size_t column; /* the column; of vortex_merge 0 for the left table and 1 for the right one; of VORTEX_BAD_SQL why */
    size_t entry;  /* the statistic, by its place among those that were handed in; of VORTEX_BAD_SQL, VORTEX_MISFIT and
                      VORTEX_TOO_DEEP of vortex_prune_sql the byte of the text at which what is refused begins */
} vortex_fault;

/* The bytes of a text from where a test begins up to where it ends. */
typedef struct vortex_span {
    size_t start; /* its first byte */
    size_t end;   /* the byte behind its last one */
} vortex_span;

/* A row group of a Parquet file. */
typedef struct vortex_row_group {
    uint64_t rows;  /* how many rows it has */
    uint64_t size;  /* how many bytes its column chunks take in the file, or 0 where the footer doesn't tell */
    uint8_t answer; /* a vortex_answer */
} vortex_row_group;

/* Rows of a row group of a Parquet file, one behind the other. */
typedef struct vortex_row_range {
    size_t group;   /* the row group, by its place in the file */
    uint64_t first; /* the first of the rows, counted from the first of the row group */
    uint64_t end;   /* the row behind the last of them */
    uint8_t answer; /* a vortex_answer */
} vortex_row_range;

/* A data page of a Parquet file. */
typedef struct vortex_data_page {
    size_t group;    /* its row group, by the place in the file */
    size_t column;   /* its column, by the place among all leaf columns of the schema */
    uint64_t first;  /* its first row, counted from the first of the row group */
    uint64_t end;    /* the row behind its last one */
    uint64_t offset; /* the byte of the file at which it begins */
    uint64_t size;   /* how many bytes it takes in the file, with its header */
} vortex_data_page;

/* The values of a column. */
typedef struct vortex_values {
    uint8_t kind;          /* a vortex_kind */
    uint8_t nullable;      /* 0 or 1 */
    size_t rows;           /* the number of values */
    uint64_t size;         /* the declared size in bytes, which VORTEX_UNCOMPRESSED_SIZE_IN_BYTES tells */
    uint64_t start;        /* where the first text or bytes begin in `values`; 0 for other types */
    const uint8_t *values; /* rows times the width of the type in bytes, or the heap */
    size_t values_len;
    const uint64_t *ends; /* an end for each row, or nothing */
    size_t ends_len;
    const uint8_t *nulls; /* a byte for each row: 0 for a value, else null; or nothing where no row is null */
    size_t nulls_len;
} vortex_values;

/*
 * The values of a column in Arrow's layout. Row i stands at place offset + i of each buffer: at that bit of `validity` and of
 * truths, the lowest bit of a byte first, at that number, or between that offset and the next one. A buffer may go on behind
 * the last row, as a padded or sliced one does. An offset is a signed number, in little-endian order; none is negative.
 *
 * Of VORTEX_NULL no buffer is looked at, and without rows none has to be there. The buffers need no alignment.
 */
typedef struct vortex_arrow_values {
    uint8_t kind;            /* a vortex_kind */
    uint8_t nullable;        /* 0 or 1 */
    uint8_t offset_width;    /* 4 or 8, the bytes of an offset of texts and bytes; not looked at for other kinds */
    size_t rows;             /* the number of values: ArrowArray.length */
    size_t offset;           /* how many places stand before the first row: ArrowArray.offset */
    uint64_t size;           /* the declared size in bytes, which VORTEX_UNCOMPRESSED_SIZE_IN_BYTES tells */
    const uint8_t *validity; /* a bit for each place: 1 for a value, 0 for null; or nothing where no row is null */
    size_t validity_len;     /* in bytes, as each length of a buffer */
    const uint8_t *values;   /* of truths a bit for each place, of numbers the width of the type, of texts and bytes their data */
    size_t values_len;
    const uint8_t *offsets; /* an offset for each place of texts and bytes and one more; not looked at for other kinds */
    size_t offsets_len;
} vortex_arrow_values;

/* One statistic of one column in each zone of a table. What isn't handed in is absent. */
typedef struct vortex_statistic {
    size_t column;        /* the column's place in the scope; 0 where a call is about one column */
    uint8_t stat;         /* a vortex_stat */
    uint64_t start;       /* where the first text or bytes begin in `values`; 0 for other types */
    const uint8_t *known; /* a vortex_known for each zone */
    size_t known_len;
    const uint8_t *values; /* zones times the width of the statistic's type in bytes, or the heap */
    size_t values_len;
    const uint64_t *ends; /* an end for each zone, or nothing */
    size_t ends_len;
} vortex_statistic;

/* A column of a scope. */
typedef struct vortex_field {
    const uint8_t *name; /* an ASCII letter or _, then ASCII letters, digits or _; 64 bytes at most */
    size_t name_len;
    uint8_t kind;      /* a vortex_kind; of vortex_prune at most VORTEX_BINARY */
    uint8_t nullable;  /* 0 or 1 */
    uint8_t unit;      /* a vortex_unit of VORTEX_TIME, VORTEX_TIMESTAMP and VORTEX_TIMESTAMP_TZ; 0 of other kinds */
    uint8_t precision; /* of VORTEX_DECIMAL how many digits, 1 to 18; 0 of other kinds */
    uint8_t scale;     /* of VORTEX_DECIMAL how many of them stand behind the point, at most 38; 0 of other kinds */
} vortex_field;

/* The version of the library, as VORTEX_VERSION of its header. */
uint32_t vortex_version(void);

/*
 * Answers a text as the program does (docs/LANGUAGE.md): the answer stands at the front of `output`, and *len is its
 * length. VORTEX_OK, VORTEX_NO_ANSWER and VORTEX_BAD_LINE each come with an answer; with VORTEX_TOO_SHORT `output` is as
 * it was, and *len is how long it has to be. Where memory was refused the answer is "memory", or a front of it.
 */
uint8_t vortex_run(const uint8_t *input, size_t input_len, uint8_t *output, size_t output_len, size_t *len);

/*
 * The statistics of a column of values: of each of the `stats` (a vortex_stat each) in order
 *   known[i]    VORTEX_EXACT, or VORTEX_ABSENT where the column has none: there is no least and no greatest of no values,
 *               and no sum that leaves 64 bits;
 *   ends[i]     where its value ends in `values`; it begins where the one before ends, the first at 0.
 * So entry i is what a table of one zone holds. `known` and `ends` have as many elements as `stats`. *len is how many
 * bytes of `values` are written, or with VORTEX_TOO_SHORT how many there have to be: at most 64 and two values.
 */
uint8_t vortex_measure(const vortex_values *column, const uint8_t *stats, size_t stats_len, uint8_t *known,
                       size_t known_len, uint64_t *ends, size_t ends_len, uint8_t *values, size_t values_len, size_t *len,
                       vortex_fault *fault);

/*
 * The statistics of a column of values in Arrow's layout: what vortex_measure answers of the same values. Of several faults
 * the first is told, in this order: the kind, the numbers of the statistics, a buffer that is too short for the rows
 * (VORTEX_BAD_LENGTH), a text that descends, ends behind the data or has a negative offset, whether its row is null or not
 * (VORTEX_BAD_ENDS), and the first row that is no value: a null in a column that isn't nullable (VORTEX_BAD_NULL), or a text
 * that isn't UTF-8 (VORTEX_BAD_VALUE). What stands below a null is not read but for its offsets. While it runs a call takes
 * up to nine bytes a row more than vortex_measure.
 */
uint8_t vortex_measure_arrow(const vortex_arrow_values *column, const uint8_t *stats, size_t stats_len, uint8_t *known,
                             size_t known_len, uint64_t *ends, size_t ends_len, uint8_t *values, size_t values_len,
                             size_t *len, vortex_fault *fault);

/*
 * The statistics of chunks of a column, each of them a chunk of `left` followed by the chunk of `right` at the same
 * place. Both have the same statistics in the same order, of a column of this kind, over so many zones; of two of the same
 * number the later counts. Where they aren't the same VORTEX_BAD_LENGTH or VORTEX_BAD_STAT tells the first place. The merged statistic i in zone z is at place i * zones + z of
 *   known       how it is known;
 *   ends        where its value ends in `values`; it begins where the one before ends, the first at 0.
 * So the statistic i of the next table has known + i * zones and ends + i * zones; of types with a width its values begin
 * at the end before ends[i * zones] (0 for the first); of texts and bytes its heap is all of `values`, and `start` is that
 * end. `known` and `ends` have stats times zones elements. *len as in vortex_measure: never more than the lengths of the
 * values of both sides together. The rows of two chunks add up, which is the caller's to do. A call takes 504 bytes of
 * memory a zone while it runs, and what it answers.
 */
uint8_t vortex_merge(uint8_t kind, uint8_t nullable, size_t zones, const vortex_statistic *left, size_t left_len,
                     const vortex_statistic *right, size_t right_len, uint8_t *known, size_t known_len, uint64_t *ends,
                     size_t ends_len, uint8_t *values, size_t values_len, size_t *len, vortex_fault *fault);

/*
 * The statistics of all zones of a table, one behind the other, as those of one chunk: what vortex_merge answers where
 * each zone in turn is merged to those before it. Statistic i is at place i of `known` and `ends`, as in vortex_measure;
 * both have as many elements as `stats`. Of no zones each statistic is VORTEX_ABSENT. A refusal tells what vortex_merge
 * tells of its left table. *len as in vortex_measure: never more than 64 and two of the table's longest values.
 */
uint8_t vortex_merge_zones(uint8_t kind, uint8_t nullable, size_t zones, const vortex_statistic *stats, size_t stats_len,
                           uint8_t *known, size_t known_len, uint64_t *ends, size_t ends_len, uint8_t *values,
                           size_t values_len, size_t *len, vortex_fault *fault);

/*
 * Whether what a table says of a zone is true of a column's values: VORTEX_OK if the zone has as many `rows` as the
 * column and each of the statistics is true, and else VORTEX_UNTRUE, with the place of the first statistic that isn't
 * true in fault->entry, or `stats_len` where the rows differ. The arrays of a statistic have as many elements as one another.
 */
uint8_t vortex_check(const vortex_values *column, uint64_t rows, const vortex_statistic *stats, size_t stats_len,
                     size_t zone, vortex_fault *fault);

/* Answers as vortex_check, of a column in Arrow's layout. Its faults are those of vortex_measure_arrow. */
uint8_t vortex_check_arrow(const vortex_arrow_values *column, uint64_t rows, const vortex_statistic *stats, size_t stats_len,
                           size_t zone, vortex_fault *fault);

/*
 * What to do with each zone under a predicate: a vortex_answer for each of them in `answers`. The zones have so many
 * `rows`, and the statistics are of the columns of the scope. The predicate is an expression as a `where` line of
 * docs/LANGUAGE.md has it, without the word `where`: "gt col a lit i64 10". Of whatever rows the statistics are true, no
 * row of a zone that is skipped satisfies the predicate, and each row of a zone that is whole does. Pruning goes by the
 * predicate as it is, by its normal form, and by tests of its truth that see columns of nulls alone. A table may be cut
 * into pieces that are pruned apart, in threads of their own, with the same answers. `answers` has an element for each of
 * the `rows`, or VORTEX_BAD_LENGTH is returned. Of several faults the first is told, in this order: the flags, the length
 * of `answers`, the scope, the predicate, the columns, numbers and lengths of the statistics, and the statistics' values
 * zone by zone. While it runs a call takes a byte a zone, and some 500 bytes for each column of a batch of zones.
 */
uint8_t vortex_prune(const vortex_field *scope, size_t scope_len, const uint64_t *rows, size_t rows_len,
                     const vortex_statistic *stats, size_t stats_len, const uint8_t *predicate, size_t predicate_len,
                     uint8_t flags, uint8_t *answers, size_t answers_len, vortex_fault *fault);

/*
 * What to do with each zone under a condition in SQL, as it stands behind WHERE: "qty > 9000 AND name LIKE 'pre%'".
 * docs/SQL.md says what is read and how. Tests that aren't read, as lower(city) = 'rome' or one of a column that the scope
 * hasn't, may mean anything: of whatever rows the statistics are true, and whatever those tests say of them, no row of a
 * zone that is skipped satisfies the condition, and each row of a zone that is whole does. The rest of the condition prunes
 * as in vortex_prune, and the rows, the statistics and `answers` are as there.
 *
 * Columns of the kinds from VORTEX_DATE on compare by what their numbers stand for: with typed literals, as DATE '2026-01-02',
 * with texts beside them, and decimals with numbers. A number beside a date is a misfit.
 *
 * `unread` has the places of the tests that weren't read at its front, ascending; what stands behind them stays as it was.
 * *len is how many there are, or with VORTEX_TOO_SHORT how many `unread` has to have room for: never more than text_len.
 * *len is written with VORTEX_OK and VORTEX_TOO_SHORT alone. `text` needs no 0 at its end.
 *
 * Of several faults the first is told, in this order: the flags, the length of `answers`, the scope, which has a column at
 * least, or VORTEX_BAD_LENGTH is returned; the text (VORTEX_BAD_SQL, VORTEX_TOO_DEEP, VORTEX_MISFIT); too little room in
 * `unread`; and the statistics as in vortex_prune. A call takes memory by the length of the text, and else as vortex_prune.
 */
uint8_t vortex_prune_sql(const vortex_field *scope, size_t scope_len, const uint64_t *rows, size_t rows_len,
                         const vortex_statistic *stats, size_t stats_len, const uint8_t *text, size_t text_len,
                         uint8_t flags, uint8_t *answers, size_t answers_len, vortex_span *unread, size_t unread_len,
                         size_t *len, vortex_fault *fault);

/*
 * How many bytes the footer of a Parquet file has, by the file's last eight bytes, before which it stands. So a reader
 * fetches eight bytes, and then *length bytes; a file that is shorter than *length + 8 bytes is cut off. *length is written
 * with VORTEX_OK alone.
 */
uint8_t vortex_parquet_footer(const uint8_t *tail, size_t tail_len, size_t *length, vortex_fault *fault);

/*
 * What to do with each row group of a Parquet file under a condition in SQL (see vortex_prune_sql), by the file's footer
 * alone: its bytes without the length and the mark behind them. docs/PARQUET.md says which columns and statistics are read.
 * If the statistics are true of the rows, no row of a row group that is skipped satisfies the condition, and each row of one
 * that is whole does, whatever the tests mean that weren't read, as those of a column that the file hasn't, or of one whose
 * order isn't known. Dates, times, timestamps, decimals and floats are compared by what their numbers stand for; > and >= of
 * a float aren't read, since nothing says what they mean of NaN. A test that names a nested or repeated column, or one of
 * several of its name, is VORTEX_NOT_READ. The statistics of those columns alone are read that the condition names.
 *
 * `groups` has the row groups at its front, in the file's order, and `unread` the places of the tests that weren't read,
 * ascending; what stands behind them stays as it was. *groups_found and *unread_found are how many there are, or with
 * VORTEX_TOO_SHORT for how many there has to be room: at most footer_len / 5 and text_len. Both are written with VORTEX_OK
 * and VORTEX_TOO_SHORT alone. `flags` are those of vortex_prune_sql.
 *
 * Of several faults the first is told, in this order: the flags, the footer but for its row groups, the text, too little room,
 * and the row groups.
 */
uint8_t vortex_parquet_prune(const uint8_t *footer, size_t footer_len, const uint8_t *text, size_t text_len, uint8_t flags,
                             vortex_row_group *groups, size_t groups_len, vortex_span *unread, size_t unread_len,
                             size_t *groups_found, size_t *unread_found, vortex_fault *fault);

/*
 * Tells in *begin at which byte of a Parquet file its first page index begins, by the file's footer: the least offset of a
 * column index or an offset index that the footer names for any column chunk, or UINT64_MAX where it names none. A reader
 * fetches the bytes from there up to the footer for vortex_parquet_prune_pages; an offset that isn't before the footer is that
 * of no index. *begin is written with VORTEX_OK alone. Of several faults the first is told: those of the footer but for its
 * row groups, and of these in their order.
 */
uint8_t vortex_parquet_indexes(const uint8_t *footer, size_t footer_len, uint64_t *begin, vortex_fault *fault);

/*
 * What to do with the rows of a Parquet file under a condition in SQL, by its page indexes. `tail` has the bytes of the file
 * from the byte `tail_begin` on, as far as the caller has them; the indexes stand right before the footer, and
 * vortex_parquet_indexes tells where. A column chunk whose indexes aren't among these bytes is one page with the statistics of the footer, so with a
 * `tail_len` of 0 the answer is that of the row groups. The footer, the text and `flags` are those of vortex_parquet_prune.
 *
 * Each row group is cut where a page of a column ends that the condition names. `ranges` has the stretches between at its
 * front, which are all rows of each row group, in the file's order. If the statistics of the pages are true of the rows, no row
 * of a stretch that is skipped satisfies the condition, and each row of one that is whole does, whatever the tests mean that
 * weren't read; `unread` has the places of these. What stands behind stays as it was. *ranges_found and *unread_found are how
 * many there are, or with VORTEX_TOO_SHORT for how many there has to be room. Both are written with VORTEX_OK and
 * VORTEX_TOO_SHORT alone.
 *
 * Of several faults the first is told, in this order: the flags, the footer but for its row groups, the text, the row groups
 * and the pages of the named columns, and too little room.
 */
uint8_t vortex_parquet_prune_pages(const uint8_t *footer, size_t footer_len, const uint8_t *tail, size_t tail_len,
                                   uint64_t tail_begin, const uint8_t *text, size_t text_len, uint8_t flags,
                                   vortex_row_range *ranges, size_t ranges_len, vortex_span *unread, size_t unread_len,
                                   size_t *ranges_found, size_t *unread_found, vortex_fault *fault);

/*
 * The data pages of a Parquet file with the rows and the bytes of each, by the offset indexes among the bytes of `tail`, which
 * are those of vortex_parquet_prune_pages. A page whose rows are all skipped needn't be read, and its `size` is saved.
 *
 * `pages` has at its front the pages of each column chunk whose offset index is among these bytes, of all columns: row group by
 * row group, in each column by column, and in each by their rows. What stands behind stays as it was. *pages_found is how many
 * there are, or with VORTEX_TOO_SHORT for how many there has to be room. It is written with VORTEX_OK and VORTEX_TOO_SHORT
 * alone. Of several faults the first is told, in this order: the footer but for its row groups, the row groups and their offset
 * indexes, and too little room.
 */
uint8_t vortex_parquet_data_pages(const uint8_t *footer, size_t footer_len, const uint8_t *tail, size_t tail_len,
                                  uint64_t tail_begin, vortex_data_page *pages, size_t pages_len, size_t *pages_found,
                                  vortex_fault *fault);

#ifdef __cplusplus
}
#endif
#endif
