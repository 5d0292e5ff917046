/*
 * chomphurek.h: the release bench for message handlers compiled to GIL, for C99 and C++.
 *
 * Four calls: check a text, run it on sixteen inputs, explore every order in which it can go, and say which of the
 * explored rows a list of inputs falls in. docs/LAYOUT.md draws the tables whose numbers are named here.
 *
 * What holds for every call:
 *
 *   Buffers    A buffer is a pointer and its length in bytes. NULL is allowed where the length is 0. No alignment is
 *              needed. A buffer lent to be written (answer, table, pool) must overlap no other buffer of the call, and
 *              nothing else may use it, or write the text or the inputs, until the call returns. Both are the caller's
 *              duty: the call cannot see it. No pointer is kept after the call.
 *   Words      A word is 32 bits, stored as four bytes, lowest first, on every machine: chomphurek_word reads one.
 *              A word that holds nothing is zero.
 *   Lengths    A buffer longer than needed keeps its surplus as it was; a shorter one is refused and untouched.
 *   Refusals   A refusal is a number from 1 to 10, the first that applies in the order of their numbers. After 1 to 8
 *              the lent memory is untouched; after 9 and 10 the needed part of table and pool is all zero.
 *   Threads    There is no state between or beside calls. Calls may run at once in several threads, as long as no buffer
 *              that one of them writes is used by another; a text and an input list may be shared.
 *   Stack      A call needs at most CHOMPHUREK_STACK_BYTES of stack, allocates nothing and does no input or output.
 */
#ifndef CHOMPHUREK_H
#define CHOMPHUREK_H

#include <stddef.h>
#include <stdint.h>

#ifdef __cplusplus
extern "C" {
#endif

/* ------------------------------------------------------------------------------------------------ lengths and limits */

/* The lengths needed, in bytes. The input list must be exactly so long; the others may be longer. */
#define CHOMPHUREK_TABLE_BYTES 65600 /* a heading and 64 rows */
#define CHOMPHUREK_POOL_BYTES 40960  /* 2,048 terms */
#define CHOMPHUREK_ANSWER_BYTES 1024 /* one row */
#define CHOMPHUREK_INPUTS_BYTES 64   /* sixteen words */

/* What a call accepts. */
#define CHOMPHUREK_MAX_TEXT_BYTES 16384
#define CHOMPHUREK_MAX_STEPS 1024 /* explore and place take at least 1, the plain run also 0 */
#define CHOMPHUREK_MAX_BRANCHES 16

/* What a text may have. */
#define CHOMPHUREK_MAX_PROCEDURES 16
#define CHOMPHUREK_MAX_COMMANDS 512 /* in all */
#define CHOMPHUREK_MAX_VARIABLES 16 /* in a procedure, its parameter included */
#define CHOMPHUREK_MAX_PROPERTIES 32

/* What an exploration, and what one path, may have. */
#define CHOMPHUREK_MAX_ROWS 64
#define CHOMPHUREK_MAX_TERMS 2048
#define CHOMPHUREK_MAX_FRAMES 8
#define CHOMPHUREK_MAX_INPUTS 16
#define CHOMPHUREK_MAX_LOCATIONS 16
#define CHOMPHUREK_MAX_CELLS 32

/* A thread that calls needs this much stack. The calls take under 200,000 bytes on the heaviest texts of tests/c, which
   measure it and fail where a call takes more than is said here. */
#define CHOMPHUREK_STACK_BYTES 262144

/* ---------------------------------------------------------------------------------------------- what a call returns */

/* check gives CHOMPHUREK_OK or 3 to 8; plain run CHOMPHUREK_OK or 1 to 8; explore CHOMPHUREK_OK or 1 to 10; place
   CHOMPHUREK_PLACED and more, or 1 to 10. Refusals up to 18 are kept for later calls. */
enum chomphurek_result {
    CHOMPHUREK_OK = 0,
    CHOMPHUREK_REFUSED_BUDGET = 1,       /* steps or branches out of range */
    CHOMPHUREK_REFUSED_BUFFER = 2,       /* a lent buffer is too short, or the input list is not 64 bytes */
    CHOMPHUREK_REFUSED_TEXT_LENGTH = 3,  /* text longer than 16,384 bytes */
    CHOMPHUREK_REFUSED_FORM = 4,         /* the text is no GIL */
    CHOMPHUREK_REFUSED_COUNTS = 5,       /* too many procedures, commands, variables or properties */
    CHOMPHUREK_REFUSED_NAMES = 6,        /* a procedure twice, one called that is not there, or no main */
    CHOMPHUREK_REFUSED_JUMP = 7,         /* a jump out of its procedure */
    CHOMPHUREK_REFUSED_LAST_COMMAND = 8, /* a procedure that does not end in return, fail or vanish */
    CHOMPHUREK_REFUSED_ROWS = 9,         /* a 65th row */
    CHOMPHUREK_REFUSED_TERMS = 10,       /* a 2,049th term */
    CHOMPHUREK_PLACED = 256              /* place: 256 + k, the inputs fall in row k, 0 to 63 */
};

/* ---------------------------------------------------------------------------------------------------- the four calls */

/* Whether a text is accepted. */
uint32_t chomphurek_check(const uint8_t *text, size_t text_len);

/* Runs a text on sixteen inputs for at most `steps` commands. The answer is a row without conditions. */
uint32_t chomphurek_plain_run(const uint8_t *text, size_t text_len, const uint8_t *inputs, size_t inputs_len,
                              uint32_t steps, uint8_t *answer, size_t answer_len);

/* Explores a text: every path, each at most `steps` commands and `branches` conditions long, as a row of the table.
   The rows refer to terms by their place in the pool. */
uint32_t chomphurek_explore(const uint8_t *text, size_t text_len, uint32_t steps, uint32_t branches, uint8_t *table,
                            size_t table_len, uint8_t *pool, size_t pool_len);

/* Explores as above, into the same table and pool, and says which row the inputs fall in: the only one whose conditions
   they meet. */
uint32_t chomphurek_place(const uint8_t *text, size_t text_len, const uint8_t *inputs, size_t inputs_len, uint32_t steps,
                          uint32_t branches, uint8_t *table, size_t table_len, uint8_t *pool, size_t pool_len);

/* ------------------------------------------------------------------------------- table and pool: places, in words */

/* The table is a heading and then rows; the pool is terms, in the order made. */
enum chomphurek_table {
    CHOMPHUREK_TABLE_ROW_COUNT = 0,  /* word of the heading: number of rows */
    CHOMPHUREK_TABLE_TERM_COUNT = 1, /* word of the heading: number of terms in the pool */
    CHOMPHUREK_HEADING_WORDS = 16,   /* row k begins at word CHOMPHUREK_HEADING_WORDS + k * CHOMPHUREK_ROW_WORDS */
    CHOMPHUREK_ROW_WORDS = 256,
    CHOMPHUREK_TERM_WORDS = 5,      /* term t begins at word t * CHOMPHUREK_TERM_WORDS of the pool */
    CHOMPHUREK_VALUE_WORDS = 2,     /* a tag and a word */
    CHOMPHUREK_CONDITION_WORDS = 2, /* the term's place in the pool, and the truth it must have */
    CHOMPHUREK_CELL_WORDS = 4       /* location, property, and a value */
};

/* A row, and the plain run's answer. */
enum chomphurek_row {
    CHOMPHUREK_ROW_OUTCOME = 0,
    CHOMPHUREK_ROW_VALUE = 1, /* two words. returned, failed: a value; error, cut: 0 and the number; vanished: 0 and 0 */
    CHOMPHUREK_ROW_STEPS = 3,
    CHOMPHUREK_ROW_PROCEDURE = 4, /* by its place in the text, from 0 */
    CHOMPHUREK_ROW_COMMAND = 5,   /* from 0 in its procedure: the one that ended the path; for a cut the next one */
    CHOMPHUREK_ROW_INPUT_COUNT = 6,
    CHOMPHUREK_ROW_CONDITION_COUNT = 7,
    CHOMPHUREK_ROW_VARIABLE_COUNT = 8,
    CHOMPHUREK_ROW_CELL_COUNT = 9,
    CHOMPHUREK_ROW_CONDITIONS = 16, /* up to 16, in the order taken */
    CHOMPHUREK_ROW_VARIABLES = 48,  /* up to 16 values, in order of first appearance, the parameter first */
    CHOMPHUREK_ROW_CELLS = 80,      /* up to 32, in order of location and then property */
    CHOMPHUREK_ROW_KEPT = 208       /* 48 words that are zero today */
};

/* A term of the pool. */
enum chomphurek_term {
    CHOMPHUREK_TERM_KIND = 0,
    CHOMPHUREK_TERM_FIRST = 1, /* a value; for an input #k the number k */
    CHOMPHUREK_TERM_SECOND = 3 /* a value; zero for an input and for not */
};

/* A cell: its location k of $k, its property by its first place in the text from 0, and its value. */
enum chomphurek_cell {
    CHOMPHUREK_CELL_LOCATION = 0,
    CHOMPHUREK_CELL_PROPERTY = 1,
    CHOMPHUREK_CELL_VALUE = 2
};

/* A condition. */
enum chomphurek_condition {
    CHOMPHUREK_CONDITION_TERM = 0,
    CHOMPHUREK_CONDITION_TRUTH = 1 /* 1 true, 0 false */
};

/* --------------------------------------------------------------------------------------------- the codes in the words */

enum chomphurek_outcome {
    CHOMPHUREK_RETURNED = 1,
    CHOMPHUREK_FAILED = 2,
    CHOMPHUREK_VANISHED = 3,
    CHOMPHUREK_ERROR = 4,
    CHOMPHUREK_CUT = 5
};

/* Why a path was cut; the plain run's is always for steps. */
enum chomphurek_cut_reason {
    CHOMPHUREK_CUT_STEPS = 1,
    CHOMPHUREK_CUT_BRANCHES = 2
};

enum chomphurek_error_number {
    CHOMPHUREK_ERROR_UNBOUND = 1,   /* variable not bound */
    CHOMPHUREK_ERROR_SORT = 2,      /* wrong sort */
    CHOMPHUREK_ERROR_NO_CELL = 3,   /* no such cell */
    CHOMPHUREK_ERROR_FRAMES = 4,    /* a ninth frame */
    CHOMPHUREK_ERROR_INPUTS = 5,    /* a seventeenth input */
    CHOMPHUREK_ERROR_LOCATIONS = 6, /* a seventeenth location */
    CHOMPHUREK_ERROR_CELLS = 7      /* a thirty-third cell */
};

/* The first word of a value says what the second one is. The plain run's answer has neither kind of term. */
enum chomphurek_tag {
    CHOMPHUREK_TAG_NOTHING = 0,     /* 0: a variable that is not bound */
    CHOMPHUREK_TAG_NUMBER = 1,      /* the number */
    CHOMPHUREK_TAG_BOOLEAN = 2,     /* 0 false, 1 true */
    CHOMPHUREK_TAG_LOCATION = 3,    /* k of $k, 0 to 15 */
    CHOMPHUREK_TAG_NUMBER_TERM = 4, /* its place in the pool, 0 to 2,047 */
    CHOMPHUREK_TAG_BOOLEAN_TERM = 5 /* its place in the pool, 0 to 2,047 */
};

enum chomphurek_term_kind {
    CHOMPHUREK_KIND_INPUT = 1, /* #k, k from 0 on each path */
    CHOMPHUREK_KIND_NOT = 2,
    CHOMPHUREK_KIND_PLUS = 3,
    CHOMPHUREK_KIND_MINUS = 4,
    CHOMPHUREK_KIND_EQUAL = 5,
    CHOMPHUREK_KIND_LESS = 6,
    CHOMPHUREK_KIND_AND = 7,
    CHOMPHUREK_KIND_OR = 8
};

/* ------------------------------------------------------------------------------------------------------ reading words */

/* Word `index` of a buffer. */
static inline uint32_t chomphurek_word(const uint8_t *bytes, size_t index)
{
    const uint8_t *at = bytes + 4 * index;
    return (uint32_t)at[0] | (uint32_t)at[1] << 8 | (uint32_t)at[2] << 16 | (uint32_t)at[3] << 24;
}

/* Row `row` of a table, 0 to 63: the first of its 1,024 bytes. */
static inline const uint8_t *chomphurek_row_at(const uint8_t *table, size_t row)
{
    return table + 4 * ((size_t)CHOMPHUREK_HEADING_WORDS + row * (size_t)CHOMPHUREK_ROW_WORDS);
}

/* Term `term` of a pool, 0 to 2,047: the first of its 20 bytes. */
static inline const uint8_t *chomphurek_term_at(const uint8_t *pool, size_t term)
{
    return pool + 4 * (term * (size_t)CHOMPHUREK_TERM_WORDS);
}

#ifdef __cplusplus
}
#endif

#endif
