/* refusals.c: the refusals 1 to 10 in their order, what is just accepted, and the lent memory afterwards. */
#include "harness.h"

#include <stdio.h>
#include <string.h>

enum { TABLE = 65600, POOL = 40960, ANSWER = 1024, LIST = 64 };

static const char right_text[] = "main(x){ vanish; }";

static struct bytes sixteen(void)
{
    return bytes_filled(7, LIST);
}

/* One call of explore and one of place are refused so, with everything untouched. */
static void tables_refused(uint32_t number, struct bytes text, struct bytes inputs, uint32_t steps, uint32_t branches,
                           struct room table, struct room pool)
{
    expect_number("explore", explore(text, steps, branches, table, pool), number);
    expect_number("place", place(text, inputs, steps, branches, table, pool), number);
    expect_untouched("the table", table);
    expect_untouched("the pool", pool);
}

static void run_refused(uint32_t number, struct bytes text, struct bytes inputs, uint32_t steps, struct room answer)
{
    expect_number("plain run", plain_run(text, inputs, steps, answer), number);
    expect_untouched("the answer", answer);
}

/* All four calls refuse the text so, 3 to 8, with everything untouched. */
static void refused(uint32_t number, struct bytes text)
{
    expect_number("check", check(text), number);
    run_refused(number, text, sixteen(), 1024, room_of(ANSWER));
    tables_refused(number, text, sixteen(), 1024, 16, room_of(TABLE), room_of(POOL));
}

/* All four calls accept the text, and write. */
static void accepted(struct bytes text)
{
    struct room answer = room_of(ANSWER), table = room_of(TABLE), pool = room_of(POOL);

    expect_number("check", check(text), 0);
    expect_number("plain run", plain_run(text, sixteen(), 1024, answer), 0);
    expect_number("explore", explore(text, 1024, 16, table, pool), 0);
    expect_number("place of a text with one row", place(text, sixteen(), 1024, 16, table, pool), 256);
    expect_surplus_kept("the answer", answer, ANSWER);
    expect_surplus_kept("the table", table, TABLE);
    expect_surplus_kept("the pool", pool, POOL);
}

static void refused_body(uint32_t number, const char *commands)
{
    struct text text = {.length = 0};

    append(&text, "main(x){ %s }", commands);
    if (check(bytes_of_text(&text)) != number) {
        fail("check of `%s` is %lu, expected %lu", commands, (unsigned long)check(bytes_of_text(&text)),
             (unsigned long)number);
    }
    refused(number, bytes_of_text(&text));
}

static void accepted_body(const char *commands)
{
    struct text text = {.length = 0};

    append(&text, "main(x){ %s }", commands);
    if (check(bytes_of_text(&text)) != 0) {
        fail("`%s` is refused by %lu", commands, (unsigned long)check(bytes_of_text(&text)));
    }
    accepted(bytes_of_text(&text));
}

/* ------------------------------------------------------------------------------------------------------------- 1 and 2 */

static void budgets(void)
{
    static const uint32_t wrong[][2] = {{0, 16}, {1025, 16}, {4294967295, 16}, {65536 + 1, 0}, {1024, 17}, {1, 4294967295},
                                        {1, 256}, {0, 17}};
    struct bytes text = text_of(right_text);
    struct room table = room_of(TABLE), pool = room_of(POOL), answer = room_of(ANSWER);

    for (size_t k = 0; k < sizeof wrong / sizeof *wrong; k++) {
        tables_refused(1, text, sixteen(), wrong[k][0], wrong[k][1], table, pool);
    }
    run_refused(1, text, sixteen(), 1025, answer);
    run_refused(1, text, sixteen(), 4294967295, answer);
    expect_number("explore with the least", explore(text, 1, 0, table, pool), 0);
    expect_number("explore with the most", explore(text, 1024, 16, table, pool), 0);
    expect_number("plain run with the least", plain_run(text, sixteen(), 0, answer), 0);
    expect_number("plain run with the most", plain_run(text, sixteen(), 1024, answer), 0);
}

static void budgets_come_before_lengths(void)
{
    struct bytes text = bytes_filled('x', 16385);

    tables_refused(1, text, no_bytes, 0, 16, no_room, no_room);
    tables_refused(1, text, bytes_filled(0, 63), 1, 17, room_of(TABLE - 1), room_of(POOL - 1));
    run_refused(1, text, bytes_filled(0, 65), 1025, room_of(ANSWER - 1));
}

static void short_buffers(void)
{
    struct bytes text = text_of(right_text);

    tables_refused(2, text, sixteen(), 1024, 16, room_of(TABLE - 1), room_of(POOL));
    tables_refused(2, text, sixteen(), 1024, 16, room_of(TABLE), room_of(POOL - 1));
    tables_refused(2, text, sixteen(), 1024, 16, room_of(POOL), room_of(TABLE));
    tables_refused(2, text, sixteen(), 1024, 16, room_of(0), room_of(POOL));
    run_refused(2, text, sixteen(), 1024, room_of(ANSWER - 1));
    run_refused(2, text, sixteen(), 0, room_of(0));
}

static void input_lists_of_another_length(void)
{
    static const size_t lengths[] = {0, 1, 16, 60, 63, 65, 68, 128, 4096};
    struct bytes text = text_of(right_text);
    struct room table = room_of(TABLE), pool = room_of(POOL), answer = room_of(ANSWER);

    for (size_t k = 0; k < sizeof lengths / sizeof *lengths; k++) {
        struct bytes inputs = bytes_filled(0, lengths[k]);
        expect_number("place", place(text, inputs, 1024, 16, table, pool), 2);
        expect_untouched("the table", table);
        expect_untouched("the pool", pool);
        run_refused(2, text, inputs, 1024, answer);
    }
}

static void lengths_come_before_the_text(void)
{
    struct bytes text = bytes_filled('x', 16385);

    tables_refused(2, text, sixteen(), 1024, 16, room_of(TABLE - 1), room_of(POOL));
    tables_refused(2, no_bytes, sixteen(), 1024, 16, room_of(TABLE), room_of(POOL - 1));
    run_refused(2, text, bytes_filled(0, 63), 1024, room_of(ANSWER));
    run_refused(2, text_of("f(x){ vanish; }"), sixteen(), 1024, room_of(ANSWER - 1));
}

/* --------------------------------------------------------------------------------------------------------------- 3 and 4 */

/* The right text and spaces, `length` bytes in all. */
static struct bytes padded(size_t length)
{
    struct text text = {.length = 0};

    append(&text, "%-*s", (int)length, right_text);
    return bytes_of_text(&text);
}

static void long_texts(void)
{
    accepted(padded(16384));
    refused(3, padded(16385));
    refused(3, bytes_filled('x', 16385));
    refused(4, bytes_filled('x', 16384));
    refused(3, bytes_filled(0, 100000));
}

static void faulty_texts(void)
{
    static const char *const texts[] = {
        " \t\r\n", "main", "main(x)", "main(x){", "main(x){}", "main(x){;}", "main(x){vanish}", "main(x){vanish;;}",
        "main(x){vanish;};", "main{vanish;}", "main(){vanish;}", "main(x,y){vanish;}", "main(1){vanish;}",
        "main(true){vanish;}", "not(x){vanish;}", "uSym_0(x){vanish;}", "main(x){vanish;} x", "(x){vanish;}",
        "main(x){vanish;}\v", "\fmain(x){vanish;}", "main(x){vanish;}\x7f", "main(x){vanish;}\x80", "// main(x){vanish;}",
        "a2345678901234567(x){vanish;}", "_a(x){vanish;}",
    };

    refused(4, no_bytes);
    for (size_t k = 0; k < sizeof texts / sizeof *texts; k++) {
        if (check(text_of(texts[k])) != 4) {
            fail("`%s` is not refused by 4", texts[k]);
        }
        refused(4, text_of(texts[k]));
    }
    refused(4, bytes_of("main(x){vanish;}\0", 17));
    refused(4, bytes_of("main(x){\0vanish;}", 17));
}

static void faulty_commands(void)
{
    static const char *const commands[] = {
        "return;", "return (x);", "return(x);", "return not(x);", "return (not x);", "returnx;", "vanish x;", "fail;",
        "return -1;", "return (x - -1);", "return (x * 1);", "return (x + 1;", "return x + 1;", "return (x + 1 + 1);",
        "return 01;", "return 00;", "return 4294967296;", "return 42949672950;", "return 18446744073709551616;",
        "return 5a;", "return _a;", "return a2345678901234567;",
        "x : = 1; vanish;", "x = 1; vanish;", "x := ; vanish;", "true := 1; vanish;", "1 := 1; vanish;",
        "ifgoto true5; vanish;", "ifgoto true x; vanish;", "ifgoto true; vanish;", "ifgoto true 4294967296; vanish;",
        "x := uSym_256; vanish;", "x := uSym_00; vanish;", "x := iSym_; vanish;", "x := iSym_ 0; vanish;",
        "x := iSym_1x; vanish;", "return uSym_0;", "x := main(); vanish;", "x := main((x)); vanish;",
        "x := main(1, 2); vanish;", "return main(x);", "x := lookup(x); vanish;", "x := lookup([x]); vanish;",
        "x := lookup([x, p]); vanish;", "x := lookup([x, \"\"]); vanish;", "x := lookup([x, \"a-b\"]); vanish;",
        "x := lookup([x, \"a2345678901234567\"]); vanish;", "x := lookup([x, \"p]); vanish;", "x := lookup([x, \" p\"]); vanish;",
        "x := mutate([x, \"p\"]); vanish;", "x := dispose([x]); vanish;", "lookup([x, \"p\"]); vanish;",
        "return not not not not not not not not x;", "return ((((((((x + 1) + 1) + 1) + 1) + 1) + 1) + 1) + 1);",
    };

    for (size_t k = 0; k < sizeof commands / sizeof *commands; k++) {
        refused_body(4, commands[k]);
    }
}

/* Each has one row, as no jump is on a term. */
static void right_commands(void)
{
    static const char *const commands[] = {
        "vanish;", "vanish ;", "\tvanish\r\n;\r\n", "return 0;", "return 4294967295;", "return(x+1);", "x:=1;return x;",
        "return(x-1);", "return not(x=1);", "return((x=1)and(x=2));", "return (not true and false);", "ifgoto(x<0)1;vanish;",
        "nottrue := 1; return nottrue;", "True := 1; return True;", "uSym := 1; return uSym;", "iSym0 := 1; vanish;",
        "a_ := 1; vanish;", "a23456789012345_ := 1; vanish;", "main := x; return main;", "x := uSym_255; vanish;",
        "x := iSym_0; return x;", "x := lookup([x, \"_\"]); vanish;", "x := lookup([x,\"00\"]);vanish;",
        "x := mutate([x, \"ifgoto\", x]); vanish;", "x := dispose(x); vanish;", "x := dispose((x+1)); vanish;",
        "x := lookup([x, \"a234567890123456\"]); vanish;", "return not not not not not not not x;",
        "return (((((((x + 1) + 1) + 1) + 1) + 1) + 1) + 1);", "return (1 + (1 + (1 + (1 + (1 + (1 + (1 + x)))))));",
    };

    for (size_t k = 0; k < sizeof commands / sizeof *commands; k++) {
        accepted_body(commands[k]);
    }
}

/* ------------------------------------------------------------------------------------------------------------------- 5 */

static struct bytes procedures(int count, const char *last)
{
    struct text text = {.length = 0};

    append(&text, "%s", right_text);
    for (int k = 1; k < count; k++) {
        append(&text, " f%d(x){ vanish; }", k);
    }
    append(&text, "%s", last);
    return bytes_of_text(&text);
}

static void too_many_procedures(void)
{
    struct text same = {.length = 0};

    accepted(procedures(16, ""));
    refused(5, procedures(17, ""));
    refused(4, procedures(17, ";"));
    for (int k = 0; k < 16; k++) {
        append(&same, "%s", right_text);
    }
    refused(6, bytes_of_text(&same));
    append(&same, "%s", right_text);
    refused(5, bytes_of_text(&same));
}

/* Two procedures; `count` commands in all. */
static struct bytes commands(int count)
{
    struct text text = {.length = 0};

    append(&text, "f(x){ vanish; } main(x){ ");
    for (int k = 0; k < count - 2; k++) {
        append(&text, "x := 1; ");
    }
    append(&text, "vanish; }");
    return bytes_of_text(&text);
}

static void too_many_commands(void)
{
    accepted(commands(512));
    refused(5, commands(513));
}

/* The parameter, `count - 2` targets, and one that is only read, in a command never reached. */
static struct bytes variables(int count)
{
    struct text text = {.length = 0};

    append(&text, "f(y){ vanish; } main(x){ vanish; ");
    for (int k = 0; k < count - 2; k++) {
        append(&text, "v%d := x; ", k);
    }
    append(&text, "return y; }");
    return bytes_of_text(&text);
}

static void too_many_variables(void)
{
    accepted(variables(16));
    refused(5, variables(17));
}

static struct bytes properties(int count)
{
    struct text text = {.length = 0};

    append(&text, "main(x){ x := lookup([x, \"p0\"]); vanish; } f(x){ ");
    for (int k = 0; k < count; k++) {
        append(&text, "x := mutate([x, \"p%d\", 0]); ", k);
    }
    append(&text, "vanish; }");
    return bytes_of_text(&text);
}

static void too_many_properties(void)
{
    accepted(properties(32));
    refused(5, properties(33));
}

/* ------------------------------------------------------------------------------------------------------------- 6, 7 and 8 */

static void names(void)
{
    refused(6, text_of("f(x){ vanish; }"));
    refused(6, text_of("Main(x){ vanish; }"));
    refused(6, text_of("main(x){ vanish; } main(x){ vanish; }"));
    refused(6, text_of("f(x){ vanish; } main(x){ vanish; } f(y){ fail y; }"));
    refused_body(6, "vanish; x := f(x); vanish;");
    refused_body(6, "x := uSym(0); vanish;");
    accepted(text_of("main(x){ x := f(x); vanish; } f(f){ return f; }"));
}

static void names_come_before_jumps(void)
{
    refused(6, text_of("f(x){ ifgoto true 1; }"));
    refused_body(6, "ifgoto true 9; x := f(x); ifgoto true 0;");
}

static void jumps(void)
{
    refused_body(7, "ifgoto true 1;");
    refused_body(7, "vanish; ifgoto false 3; vanish;");
    refused_body(7, "ifgoto true 4294967295; vanish;");
    refused_body(7, "ifgoto true 65536; vanish;");
    refused(7, text_of("main(x){ vanish; vanish; vanish; } f(x){ ifgoto true 2; vanish; }"));
    accepted_body("ifgoto true 1; vanish;");
    accepted_body("vanish; ifgoto true 0; vanish;");
}

static void last_commands(void)
{
    refused_body(8, "ifgoto true 0;");
    refused_body(8, "x := 1;");
    refused_body(8, "vanish; x := main(x);");
    refused_body(8, "vanish; x := uSym_0;");
    refused_body(8, "vanish; x := dispose(x);");
    refused(8, text_of("main(x){ vanish; } f(x){ ifgoto true 0; }"));
    accepted_body("return x;");
    accepted_body("fail x;");
}

/* ------------------------------------------------------------------------------------------------------------- 9 and 10 */

/* Explore and place refuse so, and the needed part is zero; the buffers are `surplus` longer. */
static void zeroed(uint32_t number, struct bytes text, uint32_t steps, size_t surplus)
{
    struct room table = room_of(TABLE + surplus), pool = room_of(POOL + surplus);

    expect_number("explore", explore(text, steps, 16, table, pool), number);
    expect_zero("the table", table, TABLE);
    expect_zero("the pool", pool, POOL);
    table = room_of(TABLE + surplus);
    pool = room_of(POOL + surplus);
    expect_number("place", place(text, sixteen(), steps, 16, table, pool), number);
    expect_zero("the table", table, TABLE);
    expect_zero("the pool", pool, POOL);
}

/* `count` times a fresh input and a jump on it to the next command: twice as many rows each time. */
static struct bytes forks(int count)
{
    struct text text = {.length = 0};

    append(&text, "main(x){ ");
    for (int k = 0; k < count; k++) {
        append(&text, "a := iSym_0; ifgoto (a < 5) %d; ", 2 * k + 2);
    }
    append(&text, "return 0; }");
    return bytes_of_text(&text);
}

static void too_many_rows(void)
{
    struct room answer = room_of(ANSWER);

    zeroed(9, forks(7), 1024, 0);
    zeroed(9, forks(7), 1024, 77);
    expect_number("check", check(forks(7)), 0);
    expect_number("plain run", plain_run(forks(7), sixteen(), 1024, answer), 0);
    expect_number("explore of 64 rows", explore(forks(6), 1024, 16, room_of(TABLE), room_of(POOL)), 0);
}

/* Example 11: 1 + 4 * 512 terms at 1,024 steps. */
static void too_many_terms(void)
{
    struct bytes text = text_of("main(x){ a := iSym_0; a := ((((a + a) + a) + a) + a); ifgoto true 1; vanish; }");

    zeroed(10, text, 1024, 0);
    zeroed(10, text, 1024, 77);
    expect_number("explore with a step less", explore(text, 1023, 16, room_of(TABLE), room_of(POOL)), 0);
}

/* A sum of `leaves` b's, a power of two: one term less than that. */
static void append_sum(struct text *text, int leaves)
{
    if (leaves == 1) {
        append(text, "b");
        return;
    }
    append(text, "(");
    append_sum(text, leaves / 2);
    append(text, "+");
    append_sum(text, leaves / 2);
    append(text, ")");
}

/* The true side of the first fork finishes 64 rows. Its false side, which waits until then, makes terms up to the 2,048th,
   2 + 126 + 15 * (127 + 1), and comes to `last`. */
static struct bytes full_rows_and_terms(const char *last)
{
    struct text text = {.length = 0};

    append(&text, "main(x){ b := iSym_0; ifgoto (b < 5) 8; c := 15; a := ");
    append_sum(&text, 128);
    append(&text, "; a := (b + b); c := (c - 1); ifgoto (0 < c) 3; %s; ", last);
    for (int k = 0; k < 6; k++) {
        append(&text, "a := iSym_0; ifgoto (a < 5) %d; ", 2 * k + 10);
    }
    append(&text, "return 0; }");
    return bytes_of_text(&text);
}

/* 64 rows are not yet too many while a branch waits; a command makes its terms before it finishes a row, also one that
   errs after it. */
static void rows_or_terms_whichever_comes_first(void)
{
    zeroed(9, full_rows_and_terms("return b"), 1024, 0);
    zeroed(10, full_rows_and_terms("return (b + 1)"), 1024, 0);
    zeroed(9, full_rows_and_terms("return (b + true)"), 1024, 0);
    zeroed(10, full_rows_and_terms("return ((b + 1) + true)"), 1024, 0);
    zeroed(10, full_rows_and_terms("b := iSym_0"), 1024, 0);
}

const struct test refusals_tests[] = {
    {"refusal 1: budgets", budgets},
    {"refusal 1 before 2", budgets_come_before_lengths},
    {"refusal 2: short buffers", short_buffers},
    {"refusal 2: input lists of another length", input_lists_of_another_length},
    {"refusal 2 before 3 to 8", lengths_come_before_the_text},
    {"refusal 3: long texts", long_texts},
    {"refusal 4: faulty texts", faulty_texts},
    {"refusal 4: faulty commands", faulty_commands},
    {"no refusal: right commands", right_commands},
    {"refusal 5: procedures", too_many_procedures},
    {"refusal 5: commands", too_many_commands},
    {"refusal 5: variables", too_many_variables},
    {"refusal 5: properties", too_many_properties},
    {"refusal 6: names", names},
    {"refusal 6 before 7", names_come_before_jumps},
    {"refusal 7: jumps", jumps},
    {"refusal 8: last commands", last_commands},
    {"refusal 9: rows", too_many_rows},
    {"refusal 10: terms", too_many_terms},
    {"refusal 9 or 10, whichever comes first", rows_or_terms_whichever_comes_first},
    {NULL, NULL},
};
