/* memory.c: buffers that are just long enough, longer, not aligned, or not there; and the numbers of the header. */
#include "expected.h"

#include <string.h>

enum { TABLE = 65600, POOL = 40960, ANSWER = 1024 };

/* A handler that writes into every part of a row: two rows, one condition each, a cell. */
static struct bytes handler(void)
{
    return text_of("main(x){ o := uSym_0; s := iSym_0; k := mutate([o, \"seq\", s]); ifgoto (s < 9) 5; return s; fail o; }");
}

static struct rows handler_rows(void)
{
    static const struct row rows[] = {
        {.outcome = FAILED, .value = LOCATION(0), .steps = 5, .command = 5, .inputs = 1, CONDITIONS(1, {1, 1}),
         VARIABLES(4, NUMBER(0), LOCATION(0), NUMBER_TERM(0), BOOLEAN(1)), CELLS(1, {0, 0, NUMBER_TERM(0)})},
        {.outcome = RETURNED, .value = NUMBER_TERM(0), .steps = 5, .command = 4, .inputs = 1, CONDITIONS(1, {1, 0}),
         VARIABLES(4, NUMBER(0), LOCATION(0), NUMBER_TERM(0), BOOLEAN(1)), CELLS(1, {0, 0, NUMBER_TERM(0)})},
    };

    return ROWS(rows);
}

static struct terms handler_terms(void)
{
    static const struct term terms[] = {INPUT_TERM(0), {LESS, NUMBER_TERM(0), NUMBER(9)}};

    return TERMS(terms);
}

/* Explore, place and plain run with these buffers, each before the call as it was made. */
static void explore_into(struct bytes text, struct room table, struct room pool)
{
    expect_number("explore", explore(text, 1024, 16, table, pool), 0);
    expect_tables(table, pool, handler_rows(), handler_terms());
}

static void place_into(struct bytes text, struct bytes inputs, struct room table, struct room pool)
{
    expect_number("place", place(text, inputs, 1024, 16, table, pool), 256 + 1);
    expect_tables(table, pool, handler_rows(), handler_terms());
}

static void run_into(struct bytes text, struct bytes inputs, struct room answer)
{
    struct room exact = room_of(ANSWER);

    expect_number("plain run", plain_run(text, INPUTS(67305985), 1024, exact), 0);
    expect_number("the returned number", chomphurek_word(exact.at, 2), 67305985);
    expect_number("plain run", plain_run(text, inputs, 1024, answer), 0);
    expect_bytes("the answer", answer, exact.at, ANSWER);
}

static void exact_lengths(void)
{
    explore_into(handler(), room_of(TABLE), room_of(POOL));
    place_into(handler(), INPUTS(67305985), room_of(TABLE), room_of(POOL));
    run_into(handler(), INPUTS(67305985), room_of(ANSWER));
}

static void longer_buffers_keep_their_surplus(void)
{
    static const size_t surplus[] = {1, 2, 3, 4, 1024, 100000};

    for (size_t k = 0; k < sizeof surplus / sizeof *surplus; k++) {
        explore_into(handler(), room_of(TABLE + surplus[k]), room_of(POOL));
        explore_into(handler(), room_of(TABLE), room_of(POOL + surplus[k]));
        place_into(handler(), INPUTS(67305985), room_of(TABLE + surplus[k]), room_of(POOL + surplus[k]));
        run_into(handler(), INPUTS(67305985), room_of(ANSWER + surplus[k]));
    }
}

/* 67305985 is 0x04030201, so that each byte of the first input tells its place. */
static void unaligned_buffers(void)
{
    for (size_t offset = 1; offset < 4; offset++) {
        struct bytes text = unaligned(handler(), offset), inputs = unaligned(INPUTS(67305985), offset);
        explore_into(text, room_unaligned(TABLE, offset), room_unaligned(POOL, 4 - offset));
        place_into(text, inputs, room_unaligned(TABLE, offset), room_unaligned(POOL, offset));
        run_into(text, inputs, room_unaligned(ANSWER, offset));
    }
}

/* What stood in the buffers before does not show: a table written over another is as if written on its own. */
static void buffers_used_again(void)
{
    struct bytes forks = text_of("main(x){ a := iSym_0; ifgoto (a < 5) 0; o := uSym_0; x := mutate([o, \"p\", a]); return a; }");
    struct room table = room_of(TABLE), pool = room_of(POOL);

    expect_number("explore", explore(forks, 1024, 16, table, pool), 0);
    explore_into(handler(), table, pool);
    expect_number("explore", explore(forks, 1024, 16, table, pool), 0);
    place_into(handler(), INPUTS(67305985), table, pool);
}

static void null_with_length_0(void)
{
    struct room table = room_of(TABLE), pool = room_of(POOL), answer = room_of(ANSWER);

    expect_number("check", check(no_bytes), 4);
    expect_number("plain run of no text", plain_run(no_bytes, INPUTS(0), 1024, answer), 4);
    expect_number("plain run without inputs", plain_run(handler(), no_bytes, 1024, answer), 2);
    expect_number("plain run without an answer", plain_run(handler(), INPUTS(0), 1024, no_room), 2);
    expect_number("plain run of nothing", plain_run(no_bytes, no_bytes, 0, no_room), 2);
    expect_number("explore of no text", explore(no_bytes, 1024, 16, table, pool), 4);
    expect_number("explore without a table", explore(handler(), 1024, 16, no_room, pool), 2);
    expect_number("explore without a pool", explore(handler(), 1024, 16, table, no_room), 2);
    expect_number("explore of nothing", explore(no_bytes, 1, 0, no_room, no_room), 2);
    expect_number("place of no text", place(no_bytes, INPUTS(0), 1024, 16, table, pool), 4);
    expect_number("place without inputs", place(handler(), no_bytes, 1024, 16, table, pool), 2);
    expect_number("place without a table", place(handler(), INPUTS(0), 1024, 16, no_room, pool), 2);
    expect_number("place without a pool", place(handler(), INPUTS(0), 1024, 16, table, no_room), 2);
    expect_number("place of nothing", place(no_bytes, no_bytes, 1, 0, no_room, no_room), 2);
    expect_untouched("the table", table);
    expect_untouched("the pool", pool);
    expect_untouched("the answer", answer);
}

/* The constants of the header against document 01 and docs/LAYOUT.md, in their order. */
static void numbers_of_the_header(void)
{
    static const struct {
        const char *name;
        uint32_t got, expected;
    } numbers[] = {
#define IS(name, number) {#name, CHOMPHUREK_##name, number}
        IS(TABLE_BYTES, TABLE), IS(POOL_BYTES, POOL), IS(ANSWER_BYTES, ANSWER), IS(INPUTS_BYTES, 64),
        IS(MAX_TEXT_BYTES, 16384), IS(MAX_STEPS, 1024), IS(MAX_BRANCHES, 16), IS(MAX_PROCEDURES, 16),
        IS(MAX_COMMANDS, 512), IS(MAX_VARIABLES, 16), IS(MAX_PROPERTIES, 32), IS(MAX_ROWS, 64), IS(MAX_TERMS, 2048),
        IS(MAX_FRAMES, 8), IS(MAX_INPUTS, 16), IS(MAX_LOCATIONS, 16), IS(MAX_CELLS, 32),
        IS(OK, 0), IS(REFUSED_BUDGET, 1), IS(REFUSED_BUFFER, 2), IS(REFUSED_TEXT_LENGTH, 3), IS(REFUSED_FORM, 4),
        IS(REFUSED_COUNTS, 5), IS(REFUSED_NAMES, 6), IS(REFUSED_JUMP, 7), IS(REFUSED_LAST_COMMAND, 8),
        IS(REFUSED_ROWS, 9), IS(REFUSED_TERMS, 10), IS(PLACED, 256),
        IS(TABLE_ROW_COUNT, 0), IS(TABLE_TERM_COUNT, 1), IS(HEADING_WORDS, 16), IS(ROW_WORDS, 256), IS(TERM_WORDS, 5),
        IS(VALUE_WORDS, 2), IS(CONDITION_WORDS, 2), IS(CELL_WORDS, 4),
        IS(ROW_OUTCOME, 0), IS(ROW_VALUE, 1), IS(ROW_STEPS, 3), IS(ROW_PROCEDURE, 4), IS(ROW_COMMAND, 5),
        IS(ROW_INPUT_COUNT, 6), IS(ROW_CONDITION_COUNT, 7), IS(ROW_VARIABLE_COUNT, 8), IS(ROW_CELL_COUNT, 9),
        IS(ROW_CONDITIONS, 16), IS(ROW_VARIABLES, 48), IS(ROW_CELLS, 80), IS(ROW_KEPT, 208),
        IS(TERM_KIND, 0), IS(TERM_FIRST, 1), IS(TERM_SECOND, 3), IS(CONDITION_TERM, 0), IS(CONDITION_TRUTH, 1),
        IS(CELL_LOCATION, 0), IS(CELL_PROPERTY, 1), IS(CELL_VALUE, 2),
        IS(RETURNED, 1), IS(FAILED, 2), IS(VANISHED, 3), IS(ERROR, 4), IS(CUT, 5), IS(CUT_STEPS, 1), IS(CUT_BRANCHES, 2),
        IS(ERROR_UNBOUND, 1), IS(ERROR_SORT, 2), IS(ERROR_NO_CELL, 3), IS(ERROR_FRAMES, 4), IS(ERROR_INPUTS, 5),
        IS(ERROR_LOCATIONS, 6), IS(ERROR_CELLS, 7),
        IS(TAG_NOTHING, 0), IS(TAG_NUMBER, 1), IS(TAG_BOOLEAN, 2), IS(TAG_LOCATION, 3), IS(TAG_NUMBER_TERM, 4),
        IS(TAG_BOOLEAN_TERM, 5), IS(KIND_INPUT, 1), IS(KIND_NOT, 2), IS(KIND_PLUS, 3), IS(KIND_MINUS, 4),
        IS(KIND_EQUAL, 5), IS(KIND_LESS, 6), IS(KIND_AND, 7), IS(KIND_OR, 8),
#undef IS
    };
    static const uint8_t bytes[1100] = {[4] = 1, [5] = 2, [6] = 3, [7] = 255, [20] = 8, [64] = 6, [64 + 1024] = 7};

    for (size_t k = 0; k < sizeof numbers / sizeof *numbers; k++) {
        expect_number(numbers[k].name, numbers[k].got, numbers[k].expected);
    }
    expect_number("word 1", chomphurek_word(bytes, 1), 4278387201u);
    expect_number("the first word of row 0", chomphurek_word(chomphurek_row_at(bytes, 0), 0), 6);
    expect_number("the first word of row 1", chomphurek_word(chomphurek_row_at(bytes, 1), 0), 7);
    expect_number("the first word of term 1", chomphurek_word(chomphurek_term_at(bytes, 1), 0), 8);
}

const struct test memory_tests[] = {
    {"exact lengths", exact_lengths},
    {"longer buffers keep their surplus", longer_buffers_keep_their_surplus},
    {"unaligned buffers", unaligned_buffers},
    {"buffers used again", buffers_used_again},
    {"NULL with length 0", null_with_length_0},
    {"the numbers of the header", numbers_of_the_header},
    {NULL, NULL},
};
