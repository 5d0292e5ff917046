/*
 * examples.c: the examples of document 01, and a few more commands, each with its whole table, pool or answer. The expected
 * words are worked out on paper from document 01 and docs/LAYOUT.md.
 */
#include "expected.h"

static struct bytes body(const char *commands)
{
    static struct text text;

    text.length = 0;
    append(&text, "main(x){ %s }", commands);
    return bytes_of_text(&text);
}

/* ---------------------------------------------------------------------------------------- the starred examples, 1 to 8 */

static struct bytes text_a(void)
{
    return body("s := iSym_0; w := iSym_1; ifgoto (s < w) 5; r := 1; return r; fail w;");
}

static void example_1_explored(void)
{
    static const struct term terms[] = {INPUT_TERM(0), INPUT_TERM(1), {LESS, NUMBER_TERM(0), NUMBER_TERM(1)}};
    static const struct row rows[] = {
        {.outcome = FAILED, .value = NUMBER_TERM(1), .steps = 4, .command = 5, .inputs = 2,
         CONDITIONS(1, {2, 1}), VARIABLES(4, NUMBER(0), NUMBER_TERM(0), NUMBER_TERM(1), NOTHING)},
        {.outcome = RETURNED, .value = NUMBER(1), .steps = 5, .command = 4, .inputs = 2,
         CONDITIONS(1, {2, 0}), VARIABLES(4, NUMBER(0), NUMBER_TERM(0), NUMBER_TERM(1), NUMBER(1))},
    };

    explores(text_a(), 1024, 16, ROWS(rows), TERMS(terms));
}

static void example_1_run(void)
{
    runs(text_a(), INPUTS(3, 8), 1024, (struct row){
        .outcome = FAILED, .value = NUMBER(8), .steps = 4, .command = 5, .inputs = 2,
        VARIABLES(4, NUMBER(0), NUMBER(3), NUMBER(8), NOTHING)});
    runs(text_a(), INPUTS(5, 5), 1024, (struct row){
        .outcome = RETURNED, .value = NUMBER(1), .steps = 5, .command = 4, .inputs = 2,
        VARIABLES(4, NUMBER(0), NUMBER(5), NUMBER(5), NUMBER(1))});
}

static void example_2(void)
{
    static const struct term terms[] = {INPUT_TERM(0), {PLUS, NUMBER_TERM(0), NUMBER(1)}};
    static const struct row rows[] = {{.outcome = RETURNED, .value = NUMBER_TERM(1), .steps = 2, .command = 1, .inputs = 1,
                                       VARIABLES(2, NUMBER(0), NUMBER_TERM(0))}};
    struct bytes text = body("a := iSym_0; return (a + 1);");

    explores(text, 1024, 16, ROWS(rows), TERMS(terms));
    runs(text, INPUTS(4294967295), 1024, (struct row){
        .outcome = RETURNED, .value = NUMBER(0), .steps = 2, .command = 1, .inputs = 1,
        VARIABLES(2, NUMBER(0), NUMBER(4294967295))});
}

static void example_3(void)
{
    static const struct term terms[] = {INPUT_TERM(0)};
    static const struct row rows[] = {{.outcome = RETURNED, .value = NUMBER_TERM(0), .steps = 3, .command = 2, .inputs = 1,
                                       VARIABLES(2, NUMBER(0), NUMBER_TERM(0))}};
    struct bytes text = body("a := iSym_0; ifgoto (a = true) 3; return a; fail a;");

    explores(text, 1024, 16, ROWS(rows), TERMS(terms));
    runs(text, INPUTS(9), 1024, (struct row){.outcome = RETURNED, .value = NUMBER(9), .steps = 3, .command = 2,
                                             .inputs = 1, VARIABLES(2, NUMBER(0), NUMBER(9))});
}

/* 512 rounds of two commands: the 1,024th step is the jump, and command 0 is next. */
static void example_4(void)
{
    static const struct row rows[] = {
        {.outcome = CUT, .value = CODE(FOR_STEPS), .steps = 1024, .command = 0, VARIABLES(1, NUMBER(512))}};
    struct bytes text = body("x := (x + 1); ifgoto true 0; vanish;");

    explores(text, 1024, 16, ROWS(rows), NO_TERMS);
    runs(text, INPUTS(0), 1024, rows[0]);
}

static void example_5(void)
{
    static const struct row rows[] = {{.outcome = RETURNED, .value = NUMBER(9), .steps = 6, .command = 5,
                                       VARIABLES(4, NUMBER(0), LOCATION(0), BOOLEAN(1), NUMBER(9)),
                                       CELLS(1, {0, 0, NUMBER(9)})}};
    struct bytes text = body("o := uSym_0; a := mutate([o, \"mac\", 7]); a := dispose(o); a := mutate([o, \"mac\", 9]); "
                             "b := lookup([o, \"mac\"]); return b;");

    explores(text, 1024, 16, ROWS(rows), NO_TERMS);
    runs(text, INPUTS(0), 1024, rows[0]);
}

static void example_6(void)
{
    static const struct row rows[] = {{.outcome = ERROR, .value = CODE(3), .steps = 2, .command = 1,
                                       VARIABLES(3, NUMBER(0), LOCATION(0), NOTHING)}};
    struct bytes text = body("o := uSym_0; b := lookup([o, \"mac\"]); return b;");

    explores(text, 1024, 16, ROWS(rows), NO_TERMS);
    runs(text, INPUTS(0), 1024, rows[0]);
}

static void example_7(void)
{
    static const struct row unbound[] = {
        {.outcome = ERROR, .value = CODE(1), .steps = 1, VARIABLES(3, NUMBER(0), NOTHING, NOTHING)}};
    static const struct row sort[] = {
        {.outcome = ERROR, .value = CODE(2), .steps = 1, VARIABLES(2, NUMBER(0), NOTHING)}};

    explores(body("a := b; vanish;"), 1024, 16, ROWS(unbound), NO_TERMS);
    runs(body("a := b; vanish;"), INPUTS(0), 1024, unbound[0]);
    explores(body("a := (1 + true); vanish;"), 1024, 16, ROWS(sort), NO_TERMS);
    runs(body("a := (1 + true); vanish;"), INPUTS(0), 1024, sort[0]);
}

static void example_8(void)
{
    static const struct row rows[] = {{.outcome = VANISHED, .steps = 1, VARIABLES(1, NUMBER(0))}};

    explores(body("vanish;"), 1024, 16, ROWS(rows), NO_TERMS);
    explores(body("vanish;"), 1, 0, ROWS(rows), NO_TERMS);
    runs(body("vanish;"), INPUTS(0), 1, rows[0]);
    runs(body("vanish;"), INPUTS(0), 0,
         (struct row){.outcome = CUT, .value = CODE(FOR_STEPS), VARIABLES(1, NUMBER(0))});
}

/* --------------------------------------------------------------------------------------------- the examples 9, 10 and 11 */

/* Example 9 makes #k and (#k < 5) in round k, the terms 2k and 2k + 1. */
static struct terms loop_terms(void)
{
    static struct term terms[32];

    for (uint32_t k = 0; k < 16; k++) {
        terms[2 * k] = (struct term)INPUT_TERM(k);
        terms[2 * k + 1] = (struct term){LESS, NUMBER_TERM(2 * k), NUMBER(5)};
    }
    return TERMS(terms);
}

/* The path that stays in the loop `rounds` times: so many conditions that must be true. */
static struct row loop_row(uint32_t rounds)
{
    struct row row = {.condition_count = rounds, VARIABLES(2, NUMBER(0))};

    for (uint32_t k = 0; k < rounds; k++) {
        row.conditions[k] = (struct condition){2 * k + 1, 1};
    }
    return row;
}

/* The path that leaves the loop in round `round`, and returns that round's input. */
static struct row leaving_row(uint32_t round)
{
    struct row row = loop_row(round);

    row.outcome = RETURNED;
    row.value = row.variables[1] = (struct value)NUMBER_TERM(2 * round);
    row.conditions[row.condition_count++] = (struct condition){2 * round + 1, 0};
    row.steps = 2 * round + 3;
    row.command = 2;
    row.inputs = round + 1;
    return row;
}

static struct bytes loop_text(void)
{
    return body("a := iSym_0; ifgoto (a < 5) 0; return a;");
}

/* Row 0 asks for a seventeenth input, its 33rd step; row 17 - k leaves in round k - 1. */
static void example_9(void)
{
    struct row rows[17];

    rows[0] = loop_row(16);
    rows[0].outcome = ERROR;
    rows[0].value = (struct value)CODE(5);
    rows[0].steps = 33;
    rows[0].command = 0;
    rows[0].inputs = 16;
    rows[0].variables[1] = (struct value)NUMBER_TERM(30);
    for (uint32_t k = 1; k < 17; k++) {
        rows[k] = leaving_row(16 - k);
    }
    explores(loop_text(), 1024, 16, ROWS(rows), loop_terms());
}

/* Row 0 has 15 conditions at its sixteenth jump; the input and the term of that jump were made, and it is no step. */
static void example_9_fifteen_branches(void)
{
    struct row rows[16];

    rows[0] = loop_row(15);
    rows[0].outcome = CUT;
    rows[0].value = (struct value)CODE(FOR_BRANCHES);
    rows[0].steps = 31;
    rows[0].command = 1;
    rows[0].inputs = 16;
    rows[0].variables[1] = (struct value)NUMBER_TERM(30);
    for (uint32_t k = 1; k < 16; k++) {
        rows[k] = leaving_row(15 - k);
    }
    explores(loop_text(), 1024, 15, ROWS(rows), loop_terms());
}

/* Forks that end nothing: at depth k a fork makes #k and (#k < 5), then come all forks below its true side, then those
   below its false side. `place` is the number of forks before this one; the number of forks so far is returned. */
static uint32_t put_forks(struct row *rows, struct term *terms, uint32_t depth, uint32_t place)
{
    if (depth == 6) {
        return place;
    }
    uint32_t half = 1u << (5 - depth), input = 2 * place;

    terms[input] = (struct term)INPUT_TERM(depth);
    terms[input + 1] = (struct term){LESS, NUMBER_TERM(input), NUMBER(5)};
    for (uint32_t k = 0; k < 2 * half; k++) {
        rows[k].conditions[depth] = (struct condition){input + 1, k < half};
        rows[k].variables[1] = (struct value)NUMBER_TERM(input);
    }
    return put_forks(rows + half, terms, depth + 1, put_forks(rows, terms, depth + 1, place + 1));
}

static void example_10(void)
{
    static struct row rows[64];
    static struct term terms[126];
    struct text text = {.length = 0};

    append(&text, "main(x){ ");
    for (int k = 0; k < 6; k++) {
        append(&text, "a := iSym_0; ifgoto (a < 5) %d; ", 2 * k + 2);
    }
    append(&text, "return 0; }");
    for (size_t k = 0; k < 64; k++) {
        rows[k] = (struct row){.outcome = RETURNED, .value = NUMBER(0), .steps = 13, .command = 12, .inputs = 6,
                               .condition_count = 6, VARIABLES(2, NUMBER(0))};
    }
    expect_number("the number of forks", put_forks(rows, terms, 0, 0), 63);
    explores(bytes_of_text(&text), 1024, 16, ROWS(rows), TERMS(terms));
}

/* Puts the four terms of `a := ((((a + a) + a) + a) + a)`, with a the term before them, at `place`. */
static void put_sums(struct term *terms, uint32_t place)
{
    struct value a = NUMBER_TERM(place - 1);

    for (uint32_t k = 0; k < 4; k++) {
        terms[place + k] = (struct term){PLUS, NUMBER_TERM(place - 1 + k), a};
    }
}

/* 1,023 steps: the input, 511 sums of four terms, 511 jumps; then the sum is next. */
static void example_11(void)
{
    static struct term terms[2045];
    static const struct row rows[] = {{.outcome = CUT, .value = CODE(FOR_STEPS), .steps = 1023, .command = 1, .inputs = 1,
                                       VARIABLES(2, NUMBER(0), NUMBER_TERM(2044))}};

    terms[0] = (struct term)INPUT_TERM(0);
    for (uint32_t place = 1; place < 2045; place += 4) {
        put_sums(terms, place);
    }
    explores(body("a := iSym_0; a := ((((a + a) + a) + a) + a); ifgoto true 1; vanish;"), 1023, 16, ROWS(rows),
             TERMS(terms));
}

/* As example 11, with four terms before the loop: 4 + 511 * 4 = 2,048, and no more. The 1,024th step is the jump. */
static void a_full_pool(void)
{
    static struct term terms[2048];
    static const struct row rows[] = {{.outcome = CUT, .value = CODE(FOR_STEPS), .steps = 1024, .command = 2, .inputs = 1,
                                       VARIABLES(2, NUMBER(0), NUMBER_TERM(2047))}};

    terms[0] = (struct term)INPUT_TERM(0);
    for (uint32_t k = 1; k < 4; k++) {
        terms[k] = (struct term){PLUS, NUMBER_TERM(k - 1), NUMBER_TERM(0)};
    }
    for (uint32_t place = 4; place < 2048; place += 4) {
        put_sums(terms, place);
    }
    explores(body("a := iSym_0; a := (((a + a) + a) + a); a := ((((a + a) + a) + a) + a); ifgoto true 2; vanish;"), 1024,
             16, ROWS(rows), TERMS(terms));
}

/* --------------------------------------------------------------------------------------------------------- more commands */

static void every_kind_of_term(void)
{
    static const struct term terms[] = {
        INPUT_TERM(0),
        {PLUS, NUMBER_TERM(0), NUMBER(1)},
        {MINUS, NUMBER_TERM(0), NUMBER_TERM(1)},
        {EQUAL, NUMBER_TERM(0), NUMBER_TERM(2)},
        {LESS, NUMBER_TERM(2), NUMBER(2)},
        {AND, BOOLEAN_TERM(3), BOOLEAN_TERM(4)},
        {OR, BOOLEAN_TERM(5), BOOLEAN(1)},
        {NOT, BOOLEAN_TERM(6), NOTHING},
    };
    static const struct row rows[] = {
        {.outcome = RETURNED, .value = BOOLEAN_TERM(7), .steps = 9, .command = 8, .inputs = 1,
         VARIABLES(9, NUMBER(0), NUMBER_TERM(0), NUMBER_TERM(1), NUMBER_TERM(2), BOOLEAN_TERM(3), BOOLEAN_TERM(4),
                   BOOLEAN_TERM(5), BOOLEAN_TERM(6), BOOLEAN_TERM(7))}};

    explores(body("a := iSym_0; b := (a + 1); c := (a - b); d := (a = c); e := (c < 2); f := (d and e); "
                  "g := (f or true); h := not g; return h;"),
             1024, 16, ROWS(rows), TERMS(terms));
}

/* Whatever could be known of an operator on a term, it makes one, each time; but `=` on two sorts is false and makes none. */
static void nothing_is_simplified_or_shared(void)
{
    static const struct term terms[] = {
        INPUT_TERM(0),
        {EQUAL, NUMBER_TERM(0), NUMBER_TERM(0)},
        {AND, BOOLEAN(0), BOOLEAN_TERM(1)},
        {OR, BOOLEAN_TERM(1), BOOLEAN(1)},
        {MINUS, NUMBER_TERM(0), NUMBER_TERM(0)},
        {PLUS, NUMBER(0), NUMBER_TERM(0)},
        {EQUAL, NUMBER_TERM(0), NUMBER_TERM(0)},
        {NOT, BOOLEAN_TERM(1), NOTHING},
        {NOT, BOOLEAN_TERM(7), NOTHING},
    };
    static const struct row rows[] = {
        {.outcome = RETURNED, .value = BOOLEAN_TERM(2), .steps = 11, .command = 10, .inputs = 1,
         VARIABLES(11, NUMBER(0), NUMBER_TERM(0), BOOLEAN_TERM(1), BOOLEAN_TERM(2), BOOLEAN_TERM(3), NUMBER_TERM(4),
                   NUMBER_TERM(5), BOOLEAN_TERM(6), BOOLEAN_TERM(8), BOOLEAN(0), BOOLEAN(0))}};

    explores(body("a := iSym_0; b := (a = a); c := (false and b); d := (b or true); e := (a - a); f := (0 + a); "
                  "g := (a = a); h := not not b; i := (b = 1); j := (e = false); return c;"),
             1024, 16, ROWS(rows), TERMS(terms));
}

/* "b" is property 0 as it stands first; $0 comes before $1. Disposing $0 leaves the one cell of $1, in the first place. */
static void cells_in_order(void)
{
    static const char commands[] = "o := uSym_0; p := uSym_0; a := mutate([p, \"b\", 1]); a := mutate([o, \"c\", 2]); "
                                   "a := mutate([o, \"b\", 3]);";
    static const struct row filled[] = {{.outcome = VANISHED, .steps = 6, .command = 5,
                                         VARIABLES(4, NUMBER(0), LOCATION(0), LOCATION(1), BOOLEAN(1)),
                                         CELLS(3, {0, 0, NUMBER(3)}, {0, 1, NUMBER(2)}, {1, 0, NUMBER(1)})}};
    static const struct row disposed[] = {{.outcome = VANISHED, .steps = 7, .command = 6,
                                           VARIABLES(4, NUMBER(0), LOCATION(0), LOCATION(1), BOOLEAN(1)),
                                           CELLS(1, {1, 0, NUMBER(1)})}};
    struct text text = {.length = 0};

    append(&text, "%s vanish;", commands);
    explores(body(text.at), 1024, 16, ROWS(filled), NO_TERMS);
    text.length = 0;
    append(&text, "%s a := dispose(o); vanish;", commands);
    explores(body(text.at), 1024, 16, ROWS(disposed), NO_TERMS);
}

/* A return goes on after the call; a fail in a called procedure ends the run there. Procedures are numbered as they stand. */
static void called_procedures(void)
{
    static const struct row returned[] = {
        {.outcome = VANISHED, .steps = 3, .procedure = 1, .command = 1, VARIABLES(2, NUMBER(0), BOOLEAN(1))}};
    static const struct row failed[] = {
        {.outcome = FAILED, .value = NUMBER(4), .steps = 2, .procedure = 0, .command = 0, VARIABLES(1, NUMBER(4))}};
    static const struct row sort[] = {
        {.outcome = ERROR, .value = CODE(2), .steps = 2, .procedure = 1, .command = 0,
         VARIABLES(2, NUMBER(7), NOTHING)}};

    explores(text_of("f(y){ return (y = 4); } main(x){ v := f((x + 4)); vanish; }"), 1024, 16, ROWS(returned), NO_TERMS);
    explores(text_of("f(y){ fail y; } main(x){ v := f((x + 4)); vanish; }"), 1024, 16, ROWS(failed), NO_TERMS);
    explores(text_of("main(x){ v := f(7); return v; } f(y){ z := lookup([y, \"p\"]); return z; }"), 1024, 16, ROWS(sort),
             NO_TERMS);
}

/* In the second call `z` is not bound, though it was in the first one, whose frame had the same place. */
static void a_fresh_frame(void)
{
    static const struct row rows[] = {{.outcome = ERROR, .value = CODE(1), .steps = 7, .procedure = 1, .command = 3,
                                       VARIABLES(2, NUMBER(1), NOTHING)}};

    explores(text_of("main(x){ v := f(0); v := f(1); vanish; } f(y){ ifgoto (y = 1) 3; z := 7; return z; return z; }"), 1024,
             16, ROWS(rows), NO_TERMS);
}

/* By first place in the text, though it is in a command that is not reached: a target before its operands. */
static void variables_in_order(void)
{
    static const struct row rows[] = {
        {.outcome = VANISHED, .steps = 5, .command = 5, VARIABLES(4, NUMBER(0), NUMBER(4), NUMBER(5), NUMBER(3))}};

    explores(body("ifgoto true 2; a := mutate([d, \"p\", c]); c := 3; d := 5; a := 4; vanish;"), 1024, 16, ROWS(rows),
             NO_TERMS);
}

/* Seven calls open the frames 2 to 8; the eighth errs, and is a step. */
static void a_ninth_frame(void)
{
    static const struct row rows[] = {{.outcome = ERROR, .value = CODE(4), .steps = 8, VARIABLES(1, NUMBER(0))}};

    explores(body("x := main(x); return x;"), 1024, 16, ROWS(rows), NO_TERMS);
}

/* Sixteen rounds of two commands give $0 to $15. */
static void a_seventeenth_location(void)
{
    static const struct row rows[] = {
        {.outcome = ERROR, .value = CODE(6), .steps = 33, VARIABLES(2, NUMBER(0), LOCATION(15))}};

    explores(body("o := uSym_0; ifgoto true 0; vanish;"), 1024, 16, ROWS(rows), NO_TERMS);
}

/* A location that was disposed is not given again. */
static void a_location_after_dispose(void)
{
    static const struct row rows[] = {{.outcome = RETURNED, .value = LOCATION(1), .steps = 4, .command = 3,
                                       VARIABLES(4, NUMBER(0), LOCATION(0), BOOLEAN(1), LOCATION(1))}};

    explores(body("o := uSym_0; a := dispose(o); p := uSym_0; return p;"), 1024, 16, ROWS(rows), NO_TERMS);
}

/* Sixteen rounds of five commands fill all 32 cells; one that is there may still be written. */
static void a_full_memory_written_again(void)
{
    struct row rows[] = {{.outcome = VANISHED, .steps = 83, .command = 7,
                          VARIABLES(4, NUMBER(0), NUMBER(0), LOCATION(15), BOOLEAN(1)), .cell_count = 32}};

    for (uint32_t k = 0; k < 32; k++) {
        rows[0].cells[k] = (struct cell){k / 2, k % 2, NUMBER(16 - k / 2)};
    }
    rows[0].cells[31].value.word = 7;
    explores(body("n := 16; o := uSym_0; a := mutate([o, \"p\", n]); a := mutate([o, \"q\", n]); n := (n - 1); "
                  "ifgoto (0 < n) 1; a := mutate([o, \"q\", 7]); vanish;"),
             1024, 16, ROWS(rows), NO_TERMS);
}

/* Ten rounds of five commands fill 30 cells; $10 gets two, and its third is the 33rd, at step 54. */
static void a_thirty_third_cell(void)
{
    struct row rows[] = {{.outcome = ERROR, .value = CODE(7), .steps = 54, .command = 3,
                          VARIABLES(3, NUMBER(0), LOCATION(10), BOOLEAN(1)), .cell_count = 32}};

    for (uint32_t k = 0; k < 32; k++) {
        rows[0].cells[k] = (struct cell){k / 3, k % 3, NUMBER(k % 3 + 1)};
    }
    explores(body("o := uSym_0; a := mutate([o, \"p\", 1]); a := mutate([o, \"q\", 2]); a := mutate([o, \"r\", 3]); "
                  "ifgoto true 0; vanish;"),
             1024, 16, ROWS(rows), NO_TERMS);
}

/* Both operands in full, the left one first, then their sorts, at each operator from the inside out; at a command each
   operand in full and then its own sorts. `b` is never bound. */
static void which_error_comes_first(void)
{
    static const struct {
        const char *command;
        uint32_t error;
    } commands[] = {
        {"a := (false and b)", 1},
        {"a := (true or b)", 1},
        {"a := (true + b)", 1},
        {"a := (b + true)", 1},
        {"a := ((1 + true) + b)", 2},
        {"a := (b + (1 + true))", 1},
        {"a := not 1", 2},
        {"a := (true < false)", 2},
        {"a := (1 and true)", 2},
        {"a := (false and 1)", 2},
        {"a := lookup([1, \"p\"])", 2},
        {"a := lookup([b, \"p\"])", 1},
        {"a := mutate([1, \"p\", b])", 1},
        {"a := mutate([(1 + true), \"p\", b])", 2},
        {"a := mutate([1, \"p\", 1])", 2},
        {"a := dispose(true)", 2},
        {"a := main(b)", 1},
        {"ifgoto 1 0", 2},
        {"ifgoto b 0", 1},
        {"return b", 1},
        {"fail (1 + true)", 2},
    };

    for (size_t k = 0; k < sizeof commands / sizeof *commands; k++) {
        struct room answer = room_of(CHOMPHUREK_ANSWER_BYTES);
        struct text text = {.length = 0};

        append(&text, "%s; vanish;", commands[k].command);
        expect_number(commands[k].command, plain_run(body(text.at), INPUTS(0), 1024, answer), 0);
        expect_number(commands[k].command, chomphurek_word(answer.at, 0), ERROR);
        expect_number(commands[k].command, chomphurek_word(answer.at, 2), commands[k].error);
        expect_number(commands[k].command, chomphurek_word(answer.at, 3), 1);
    }
}

/* A cut run stands at the next command: the callee's first after a call, the one after the call after a return. */
static void where_a_cut_run_stands(void)
{
    struct bytes text = text_of("main(x){ v := f(1); vanish; } f(y){ return y; }");

    runs(text, INPUTS(0), 0, (struct row){.outcome = CUT, .value = CODE(FOR_STEPS), .steps = 0, .procedure = 0,
                                          .command = 0, VARIABLES(2, NUMBER(0), NOTHING)});
    runs(text, INPUTS(0), 1, (struct row){.outcome = CUT, .value = CODE(FOR_STEPS), .steps = 1, .procedure = 1,
                                          .command = 0, VARIABLES(1, NUMBER(1))});
    runs(text, INPUTS(0), 2, (struct row){.outcome = CUT, .value = CODE(FOR_STEPS), .steps = 2, .procedure = 0,
                                          .command = 1, VARIABLES(2, NUMBER(0), NUMBER(1))});
    runs(text, INPUTS(0), 3, (struct row){.outcome = VANISHED, .steps = 3, .procedure = 0, .command = 1,
                                          VARIABLES(2, NUMBER(0), NUMBER(1))});
}

/* Without branches: a jump on a boolean term is cut, and is no step though its term is made; one on a number term is
   error 2. Without a step left nothing is evaluated. */
static void jumps_without_branches(void)
{
    static const struct term terms[] = {INPUT_TERM(0), {LESS, NUMBER_TERM(0), NUMBER(1)}};
    static const struct terms only_the_input = {terms, 1};
    static const struct row for_branches[] = {{.outcome = CUT, .value = CODE(FOR_BRANCHES), .steps = 1, .command = 1,
                                               .inputs = 1, VARIABLES(2, NUMBER(0), NUMBER_TERM(0))}};
    static const struct row for_steps[] = {{.outcome = CUT, .value = CODE(FOR_STEPS), .steps = 1, .command = 1,
                                            .inputs = 1, VARIABLES(2, NUMBER(0), NUMBER_TERM(0))}};
    static const struct row sort[] = {{.outcome = ERROR, .value = CODE(2), .steps = 2, .command = 1, .inputs = 1,
                                       VARIABLES(2, NUMBER(0), NUMBER_TERM(0))}};
    struct bytes jump = body("a := iSym_0; ifgoto (a < 1) 0; vanish;");

    explores(jump, 1024, 0, ROWS(for_branches), TERMS(terms));
    explores(jump, 1, 0, ROWS(for_steps), only_the_input);
    explores(body("a := iSym_0; ifgoto a 0; vanish;"), 1024, 0, ROWS(sort), only_the_input);
}

const struct test examples_tests[] = {
    {"example 1, explored", example_1_explored},
    {"example 1, run", example_1_run},
    {"example 2", example_2},
    {"example 3", example_3},
    {"example 4", example_4},
    {"example 5", example_5},
    {"example 6", example_6},
    {"example 7", example_7},
    {"example 8", example_8},
    {"example 9", example_9},
    {"example 9, fifteen branches", example_9_fifteen_branches},
    {"example 10", example_10},
    {"example 11", example_11},
    {"a full pool", a_full_pool},
    {"every kind of term", every_kind_of_term},
    {"nothing is simplified or shared", nothing_is_simplified_or_shared},
    {"cells in order", cells_in_order},
    {"called procedures", called_procedures},
    {"a fresh frame", a_fresh_frame},
    {"variables in order", variables_in_order},
    {"a ninth frame", a_ninth_frame},
    {"a seventeenth location", a_seventeenth_location},
    {"a location after dispose", a_location_after_dispose},
    {"a full memory written again", a_full_memory_written_again},
    {"a thirty-third cell", a_thirty_third_cell},
    {"which error comes first", which_error_comes_first},
    {"where a cut run stands", where_a_cut_run_stands},
    {"jumps without branches", jumps_without_branches},
    {NULL, NULL},
};
