/*
 * expected.h: rows and terms as the tests write them down, and as bytes. Written from docs/LAYOUT.md with the numbers of
 * its tables, and not with those of the header, so that a wrong number there is seen.
 */
#ifndef EXPECTED_H
#define EXPECTED_H

#include "harness.h"

struct value {
    uint32_t tag, word;
};

#define NOTHING {0, 0}
#define NUMBER(n) {1, (n)}
#define BOOLEAN(b) {2, (b)}
#define LOCATION(k) {3, (k)}
#define NUMBER_TERM(t) {4, (t)}
#define BOOLEAN_TERM(t) {5, (t)}

/* the second word of an error or a cut, whose tag is 0 */
#define CODE(n) {0, (n)}

struct term {
    uint32_t kind;
    struct value first, second;
};

enum { INPUT = 1, NOT = 2, PLUS = 3, MINUS = 4, EQUAL = 5, LESS = 6, AND = 7, OR = 8 };

#define INPUT_TERM(k) {INPUT, NUMBER(k), NOTHING}

struct condition {
    uint32_t term, truth;
};

struct cell {
    uint32_t location, property;
    struct value value;
};

enum { RETURNED = 1, FAILED = 2, VANISHED = 3, ERROR = 4, CUT = 5 };
enum { FOR_STEPS = 1, FOR_BRANCHES = 2 };

struct row {
    uint32_t outcome;
    struct value value;
    uint32_t steps, procedure, command, inputs;
    uint32_t condition_count, variable_count, cell_count;
    struct condition conditions[16];
    struct value variables[16];
    struct cell cells[32];
};

#define CONDITIONS(n, ...) .condition_count = (n), .conditions = {__VA_ARGS__}
#define VARIABLES(n, ...) .variable_count = (n), .variables = {__VA_ARGS__}
#define CELLS(n, ...) .cell_count = (n), .cells = {__VA_ARGS__}

struct rows {
    const struct row *at;
    size_t count;
};

struct terms {
    const struct term *at;
    size_t count;
};

#define ROWS(array) ((struct rows){(array), sizeof(array) / sizeof *(array)})
#define TERMS(array) ((struct terms){(array), sizeof(array) / sizeof *(array)})
#define NO_TERMS ((struct terms){NULL, 0})

/* Table and pool are exactly these rows and terms, and the surplus is kept. */
void expect_tables(struct room table, struct room pool, struct rows rows, struct terms terms);

/* Exploring `text` succeeds with exactly these rows and terms. */
void explores(struct bytes text, uint32_t steps, uint32_t branches, struct rows rows, struct terms terms);

/* The plain run of `text` succeeds with exactly this answer. */
void runs(struct bytes text, struct bytes inputs, uint32_t steps, struct row row);

#endif
