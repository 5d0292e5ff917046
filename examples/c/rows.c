/*
 * rows.c: explores the handler on standard input and prints its terms and rows.
 *
 *     gcc -std=c99 -Iinclude examples/c/rows.c "$(machine/archive)" -o rows
 *     ./rows < examples/withdraw-by-queue.gil
 *
 * A term is printed once, by its name t0, t1, .. and with its operands by theirs: written out as a tree, `a := (a + a)`
 * would double in length each time it is executed.
 */
#include <inttypes.h>
#include <stdio.h>

#include "chomphurek.h"

static void print_value(const uint8_t *bytes, size_t word)
{
    uint32_t tag = chomphurek_word(bytes, word);
    uint32_t held = chomphurek_word(bytes, word + 1);

    switch (tag) {
    case CHOMPHUREK_TAG_NUMBER: printf("%" PRIu32, held); break;
    case CHOMPHUREK_TAG_BOOLEAN: printf(held ? "true" : "false"); break;
    case CHOMPHUREK_TAG_LOCATION: printf("$%" PRIu32, held); break;
    case CHOMPHUREK_TAG_NUMBER_TERM:
    case CHOMPHUREK_TAG_BOOLEAN_TERM: printf("t%" PRIu32, held); break;
    default: printf("unbound"); break;
    }
}

static void print_term(const uint8_t *term)
{
    static const char *const operators[] = {
        [CHOMPHUREK_KIND_PLUS] = "+", [CHOMPHUREK_KIND_MINUS] = "-", [CHOMPHUREK_KIND_EQUAL] = "=",
        [CHOMPHUREK_KIND_LESS] = "<", [CHOMPHUREK_KIND_AND] = "and", [CHOMPHUREK_KIND_OR] = "or",
    };
    uint32_t kind = chomphurek_word(term, CHOMPHUREK_TERM_KIND);

    if (kind == CHOMPHUREK_KIND_INPUT) {
        printf("#%" PRIu32, chomphurek_word(term, CHOMPHUREK_TERM_FIRST + 1));
    } else if (kind == CHOMPHUREK_KIND_NOT) {
        printf("not ");
        print_value(term, CHOMPHUREK_TERM_FIRST);
    } else {
        printf("(");
        print_value(term, CHOMPHUREK_TERM_FIRST);
        printf(" %s ", operators[kind]);
        print_value(term, CHOMPHUREK_TERM_SECOND);
        printf(")");
    }
}

static void print_outcome(const uint8_t *row)
{
    uint32_t detail = chomphurek_word(row, CHOMPHUREK_ROW_VALUE + 1);

    switch (chomphurek_word(row, CHOMPHUREK_ROW_OUTCOME)) {
    case CHOMPHUREK_RETURNED:
        printf("returned ");
        print_value(row, CHOMPHUREK_ROW_VALUE);
        break;
    case CHOMPHUREK_FAILED:
        printf("failed ");
        print_value(row, CHOMPHUREK_ROW_VALUE);
        break;
    case CHOMPHUREK_VANISHED: printf("vanished"); break;
    case CHOMPHUREK_ERROR: printf("error %" PRIu32, detail); break;
    case CHOMPHUREK_CUT: printf("cut for %s", detail == CHOMPHUREK_CUT_STEPS ? "steps" : "branches"); break;
    }
}

static void print_conditions(const uint8_t *row)
{
    uint32_t count = chomphurek_word(row, CHOMPHUREK_ROW_CONDITION_COUNT);

    printf("    when:");
    for (uint32_t k = 0; k < count; k++) {
        size_t at = CHOMPHUREK_ROW_CONDITIONS + CHOMPHUREK_CONDITION_WORDS * k;
        const char *negation = chomphurek_word(row, at + CHOMPHUREK_CONDITION_TRUTH) ? "" : "not ";
        printf("%s %st%" PRIu32, k ? ";" : "", negation, chomphurek_word(row, at + CHOMPHUREK_CONDITION_TERM));
    }
    printf(count ? "\n" : " true\n");
}

static void print_variables(const uint8_t *row)
{
    uint32_t count = chomphurek_word(row, CHOMPHUREK_ROW_VARIABLE_COUNT);

    printf("    variables:");
    for (uint32_t k = 0; k < count; k++) {
        printf(" ");
        print_value(row, CHOMPHUREK_ROW_VARIABLES + CHOMPHUREK_VALUE_WORDS * k);
    }
    printf("\n");
}

static void print_cells(const uint8_t *row)
{
    uint32_t count = chomphurek_word(row, CHOMPHUREK_ROW_CELL_COUNT);

    for (uint32_t k = 0; k < count; k++) {
        size_t at = CHOMPHUREK_ROW_CELLS + CHOMPHUREK_CELL_WORDS * k;
        printf("    cell: $%" PRIu32 ", property %" PRIu32 " = ", chomphurek_word(row, at + CHOMPHUREK_CELL_LOCATION),
               chomphurek_word(row, at + CHOMPHUREK_CELL_PROPERTY));
        print_value(row, at + CHOMPHUREK_CELL_VALUE);
        printf("\n");
    }
}

static void print_row(const uint8_t *table, uint32_t number)
{
    const uint8_t *row = chomphurek_row_at(table, number);

    printf("row %" PRIu32 ": ", number);
    print_outcome(row);
    printf(", %" PRIu32 " steps, procedure %" PRIu32 " command %" PRIu32 ", %" PRIu32 " inputs read\n",
           chomphurek_word(row, CHOMPHUREK_ROW_STEPS), chomphurek_word(row, CHOMPHUREK_ROW_PROCEDURE),
           chomphurek_word(row, CHOMPHUREK_ROW_COMMAND), chomphurek_word(row, CHOMPHUREK_ROW_INPUT_COUNT));
    print_conditions(row);
    print_variables(row);
    print_cells(row);
}

int main(void)
{
    /* One byte more than a text may have, so that a longer one is seen to be longer. */
    static uint8_t text[CHOMPHUREK_MAX_TEXT_BYTES + 1];
    static uint8_t table[CHOMPHUREK_TABLE_BYTES];
    static uint8_t pool[CHOMPHUREK_POOL_BYTES];
    size_t length = fread(text, 1, sizeof text, stdin);
    uint32_t result = chomphurek_explore(text, length, CHOMPHUREK_MAX_STEPS, CHOMPHUREK_MAX_BRANCHES, table,
                                         sizeof table, pool, sizeof pool);

    if (result != CHOMPHUREK_OK) {
        printf("refused: %" PRIu32 "\n", result);
        return 1;
    }
    uint32_t terms = chomphurek_word(table, CHOMPHUREK_TABLE_TERM_COUNT);
    uint32_t rows = chomphurek_word(table, CHOMPHUREK_TABLE_ROW_COUNT);

    for (uint32_t k = 0; k < terms; k++) {
        printf("t%" PRIu32 " = ", k);
        print_term(chomphurek_term_at(pool, k));
        printf("\n");
    }
    for (uint32_t k = 0; k < rows; k++) {
        print_row(table, k);
    }
    return 0;
}
