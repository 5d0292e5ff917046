/* place.c: the row that a list of inputs falls in, worked out on paper; and what the pages of examples/ say in numbers. */
#include "expected.h"

#include <stdio.h>

enum { TABLE = 65600, POOL = 40960 };

/* The inputs fall in row `row`; table and pool are as explore writes them. */
static void falls(struct bytes text, struct bytes inputs, uint32_t branches, uint32_t row)
{
    struct room table = room_of(TABLE), pool = room_of(POOL), table_of_place = room_of(TABLE), pool_of_place = room_of(POOL);

    expect_number("explore", explore(text, 1024, branches, table, pool), 0);
    expect_number("place", place(text, inputs, 1024, branches, table_of_place, pool_of_place), 256 + row);
    expect_bytes("place's table", table_of_place, table.at, TABLE);
    expect_bytes("place's pool", pool_of_place, pool.at, POOL);
}

static struct bytes text_a(void)
{
    return text_of("main(x){ s := iSym_0; w := iSym_1; ifgoto (s < w) 5; r := 1; return r; fail w; }");
}

static void row_0(void)
{
    falls(text_a(), INPUTS(3, 8), 16, 0);
    falls(text_a(), INPUTS(0, 1), 16, 0);
    falls(text_a(), INPUTS(4294967294, 4294967295), 16, 0);
}

/* Inputs that the path does not read change nothing. */
static void the_last_row(void)
{
    falls(text_a(), INPUTS(5, 5), 16, 1);
    falls(text_a(), INPUTS(5, 5, 1, 2, 3, 4, 5, 6, 7, 8, 9, 10, 11, 12, 13, 4294967295), 16, 1);
    falls(text_a(), INPUTS(4294967295, 0), 16, 1);
}

/* Six forks: input k below 5 takes the true side, and each false side at depth k adds 32, 16, 8, 4, 2 or 1. */
static void one_of_64_rows(void)
{
    struct bytes text = text_of("main(x){ a := iSym_0; ifgoto (a < 5) 2; a := iSym_0; ifgoto (a < 5) 4; a := iSym_0; "
                                "ifgoto (a < 5) 6; a := iSym_0; ifgoto (a < 5) 8; a := iSym_0; ifgoto (a < 5) 10; "
                                "a := iSym_0; ifgoto (a < 5) 12; return 0; }");

    falls(text, INPUTS(0, 1, 2, 3, 4, 4), 16, 0);
    falls(text, INPUTS(5, 6, 7, 8, 9, 4294967295), 16, 63);
    falls(text, INPUTS(5, 0, 0, 0, 0, 0), 16, 32);
    falls(text, INPUTS(0, 5, 0, 5, 0, 5), 16, 21);
}

/* Example 9 with 15 branches: row 0 is cut at the sixteenth jump, row 15 - k leaves in round k. */
static void a_row_cut_for_branches(void)
{
    struct bytes text = text_of("main(x){ a := iSym_0; ifgoto (a < 5) 0; return a; }");

    falls(text, INPUTS(0), 15, 0);
    falls(text, INPUTS(4, 4, 4, 4, 4, 4, 4, 4, 4, 4, 4, 4, 4, 4, 4, 99), 15, 0);
    falls(text, INPUTS(4, 4, 4, 4, 4, 4, 4, 4, 4, 4, 4, 4, 4, 4, 99), 15, 1);
    falls(text, INPUTS(0, 0, 7), 15, 13);
    falls(text, INPUTS(5), 15, 15);
    falls(text, INPUTS(0), 0, 0);
    falls(text, INPUTS(5), 0, 0);
}

/* The path goes round for ever, and is cut after 1,024 steps if #0 is not 7: row 1, the last. */
static void a_row_cut_for_steps(void)
{
    struct bytes text = text_of("main(x){ a := iSym_0; ifgoto (a = 7) 4; x := (x + 1); ifgoto true 2; vanish; }");

    falls(text, INPUTS(7), 16, 0);
    falls(text, INPUTS(6), 16, 1);
    falls(text_of("main(x){ x := (x + 1); ifgoto true 0; vanish; }"), INPUTS(1), 16, 0);
}

/* Only the greatest number is not below its successor, and only 0 not above its predecessor. */
static void sums_that_wrap_round(void)
{
    struct bytes text = text_of("main(x){ a := iSym_0; ifgoto ((a + 1) < a) 4; ifgoto ((a - 1) < a) 5; return 0; fail a; "
                                "vanish; }");

    falls(text, INPUTS(4294967295), 16, 0);
    falls(text, INPUTS(4294967294), 16, 1);
    falls(text, INPUTS(1), 16, 1);
    falls(text, INPUTS(0), 16, 2);
}

/* (a = b), both, either and neither, on terms. The true side of a jump comes first. */
static void every_operator(void)
{
    struct bytes text = text_of("main(x){ a := iSym_0; b := iSym_0; e := (a = b); l := (a < b); ifgoto (e or l) 7; "
                                "ifgoto not (not e and (b < a)) 8; return 0; return 1; return 2; }");

    falls(text, INPUTS(4, 4), 16, 0);
    falls(text, INPUTS(3, 4), 16, 0);
    falls(text, INPUTS(5, 4), 16, 2);
}

/* ------------------------------------------------------------------------------- the worked handlers of examples/ */

static struct bytes handler(const char *name)
{
    static uint8_t text[CHOMPHUREK_MAX_TEXT_BYTES];
    char path[64];
    FILE *file;
    size_t length;

    snprintf(path, sizeof path, "examples/%s.gil", name);
    file = fopen(path, "rb");
    if (file == NULL) {
        fail("%s cannot be read; the tests run in the root of the repository", path);
    }
    length = fread(text, 1, sizeof text, file);
    fclose(file);
    return bytes_of(text, length);
}

/* What the pages in examples/ say of single lists of inputs. */
static void worked_handlers(void)
{
    static const struct {
        const char *handler;
        uint32_t inputs[4], row;
    } lists[] = {
        {"withdraw-by-queue", {9, 0}, 0},
        {"withdraw-by-queue", {9, 1}, 1},
        {"withdraw-by-sequence", {8, 7, 0}, 0},
        {"withdraw-by-sequence", {8, 7, 1}, 4},
        {"withdraw-by-sequence", {7, 7, 0}, 2},
        {"withdraw-by-sequence", {7, 7, 1}, 3},
        {"withdraw-by-sequence", {4294967295, 0, 0}, 0},
        {"withdraw-by-sequence", {4294967295, 0, 1}, 4},
        {"mac-mobility", {9, 7, 4, 8}, 0},
        {"mac-mobility", {9, 7, 4, 7}, 2},
        {"mac-mobility", {4, 7, 9, 7}, 3},
        {"mac-mobility", {4, 7, 4, 7}, 3},
        {"mac-mobility", {9, 4294967295, 4, 0}, 1},
        {"sequence-wrap", {4294967295, 0}, 0},
        {"sequence-wrap", {4294967294, 0}, 1},
        {"sequence-wrap", {0, 1}, 2},
        {"sequence-wrap", {4294967295, 1}, 3},
        {"is-newer", {4294967295, 0}, 1},
        {"is-newer", {4294967295, 1}, 5},
        {"is-newer", {0, 0}, 1},
        {"is-newer", {0, 1}, 5},
        {"duplicate-add", {0, 0}, 0},
        {"duplicate-add", {0, 1}, 1},
        {"duplicate-add", {1, 0}, 2},
        {"duplicate-add", {1, 1}, 3},
        {"late-add", {9, 0, 4}, 0},
        {"late-add", {9, 1}, 1},
        {"late-add", {9, 2}, 2},
        {"receive-loop", {0, 0, 0}, 0},
        {"receive-loop", {0, 0, 2}, 2},
        {"receive-loop", {0, 1}, 3},
        {"receive-loop", {0, 9}, 4},
        {"receive-loop", {4294967295}, 6},
    };

    for (size_t k = 0; k < sizeof lists / sizeof *lists; k++) {
        falls(handler(lists[k].handler), inputs_of(lists[k].inputs, 4), 16, lists[k].row);
    }
}

/* The pages count rows and terms. */
static void terms_of_the_worked_handlers(void)
{
    static const struct {
        const char *handler;
        uint32_t rows, terms;
    } counts[] = {{"withdraw-by-queue", 2, 3}, {"withdraw-by-sequence", 6, 9}, {"mac-mobility", 4, 7},
                  {"sequence-wrap", 4, 7},     {"is-newer", 6, 10},           {"duplicate-add", 4, 6},
                  {"late-add", 3, 5},          {"receive-loop", 7, 9}};

    for (size_t k = 0; k < sizeof counts / sizeof *counts; k++) {
        struct room table = room_of(TABLE), pool = room_of(POOL);

        expect_number("explore", explore(handler(counts[k].handler), 1024, 16, table, pool), 0);
        expect_number(counts[k].handler, chomphurek_word(table.at, 0), counts[k].rows);
        expect_number(counts[k].handler, chomphurek_word(table.at, 1), counts[k].terms);
    }
}

const struct test place_tests[] = {
    {"place in row 0", row_0},
    {"place in the last row", the_last_row},
    {"place in one of 64 rows", one_of_64_rows},
    {"place in a row cut for branches", a_row_cut_for_branches},
    {"place in a row cut for steps", a_row_cut_for_steps},
    {"place of sums that wrap round", sums_that_wrap_round},
    {"place over every operator", every_operator},
    {"place in the worked handlers", worked_handlers},
    {"rows and terms of the worked handlers", terms_of_the_worked_handlers},
    {NULL, NULL},
};
