/* expected.c: see expected.h. */
#include "expected.h"

#include <stdlib.h>

enum { ROW_WORDS = 256, TERM_WORDS = 5, HEADING_WORDS = 16 };
enum { TABLE_BYTES = 64 + 64 * 1024, POOL_BYTES = 2048 * 20, ANSWER_BYTES = 1024 };

static void put(uint8_t *bytes, size_t word, uint32_t n)
{
    for (size_t k = 0; k < 4; k++) {
        bytes[4 * word + k] = (uint8_t)(n >> 8 * k);
    }
}

static void put_value(uint8_t *bytes, size_t word, struct value value)
{
    put(bytes, word, value.tag);
    put(bytes, word + 1, value.word);
}

static void put_term(uint8_t *bytes, const struct term *term)
{
    put(bytes, 0, term->kind);
    put_value(bytes, 1, term->first);
    put_value(bytes, 3, term->second);
}

static void put_row(uint8_t *bytes, const struct row *row)
{
    put(bytes, 0, row->outcome);
    put_value(bytes, 1, row->value);
    put(bytes, 3, row->steps);
    put(bytes, 4, row->procedure);
    put(bytes, 5, row->command);
    put(bytes, 6, row->inputs);
    put(bytes, 7, row->condition_count);
    put(bytes, 8, row->variable_count);
    put(bytes, 9, row->cell_count);
    for (size_t k = 0; k < row->condition_count; k++) {
        put(bytes, 16 + 2 * k, row->conditions[k].term);
        put(bytes, 16 + 2 * k + 1, row->conditions[k].truth);
    }
    for (size_t k = 0; k < row->variable_count; k++) {
        put_value(bytes, 48 + 2 * k, row->variables[k]);
    }
    for (size_t k = 0; k < row->cell_count; k++) {
        put(bytes, 80 + 4 * k, row->cells[k].location);
        put(bytes, 80 + 4 * k + 1, row->cells[k].property);
        put_value(bytes, 80 + 4 * k + 2, row->cells[k].value);
    }
}

/* A buffer of words is the one expected; a difference is told by its word. */
static void expect_words(const char *what, struct room room, const uint8_t *expected, size_t needed)
{
    for (size_t k = 0; k < needed / 4; k++) {
        uint32_t got = chomphurek_word(room.at, k), wanted = chomphurek_word(expected, k);
        if (got != wanted) {
            fail("%s: word %lu is %lu, expected %lu", what, (unsigned long)k, (unsigned long)got, (unsigned long)wanted);
        }
    }
    expect_bytes(what, room, expected, needed);
}

void expect_tables(struct room table, struct room pool, struct rows rows, struct terms terms)
{
    uint8_t *table_expected = calloc(TABLE_BYTES, 1);
    uint8_t *pool_expected = calloc(POOL_BYTES, 1);

    put(table_expected, 0, (uint32_t)rows.count);
    put(table_expected, 1, (uint32_t)terms.count);
    for (size_t k = 0; k < rows.count; k++) {
        put_row(table_expected + 4 * (HEADING_WORDS + ROW_WORDS * k), &rows.at[k]);
    }
    for (size_t k = 0; k < terms.count; k++) {
        put_term(pool_expected + 4 * TERM_WORDS * k, &terms.at[k]);
    }
    expect_words("the pool", pool, pool_expected, POOL_BYTES);
    expect_words("the table", table, table_expected, TABLE_BYTES);
}

void explores(struct bytes text, uint32_t steps, uint32_t branches, struct rows rows, struct terms terms)
{
    struct room table = room_of(TABLE_BYTES), pool = room_of(POOL_BYTES);

    expect_number("explore", explore(text, steps, branches, table, pool), 0);
    expect_tables(table, pool, rows, terms);
}

void runs(struct bytes text, struct bytes inputs, uint32_t steps, struct row row)
{
    struct room answer = room_of(ANSWER_BYTES);
    uint8_t *expected = calloc(ANSWER_BYTES, 1);

    put_row(expected, &row);
    expect_number("plain run", plain_run(text, inputs, steps, answer), 0);
    expect_words("the answer", answer, expected, ANSWER_BYTES);
}
