/* threads.c: calls that run at once, and the stack that a call takes. */
#include "harness.h"

#include <pthread.h>
#include <stdio.h>
#include <string.h>
#include <sys/mman.h>

enum { TABLE = 65600, POOL = 40960, ANSWER = 1024 };

/* One text, and what explore, place and plain run gave for it. */
struct job {
    struct bytes text, inputs;
    struct room table, pool, answer;
    uint32_t explored, placed, ran;
};

static struct job job_of(struct bytes text)
{
    return (struct job){.text = text, .inputs = INPUTS(1, 2, 3, 4, 5, 6, 7, 8), .table = room_of(TABLE),
                        .pool = room_of(POOL), .answer = room_of(ANSWER)};
}

static void *do_job(void *argument)
{
    struct job *job = argument;

    job->explored = explore(job->text, 1024, 16, job->table, job->pool);
    job->placed = place(job->text, job->inputs, 1024, 16, job->table, job->pool);
    job->ran = plain_run(job->text, job->inputs, 1024, job->answer);
    return NULL;
}

static void *do_job_often(void *argument)
{
    for (int k = 0; k < 20; k++) {
        do_job(argument);
    }
    return NULL;
}

/* Forks in each of eight frames, sixteen in all, with the deepest expressions there are; then a ninth frame is asked for. */
static struct bytes deep_text(void)
{
    return text_of("main(x){ a := iSym_0; ifgoto (a < 1) 3; vanish; b := iSym_0; ifgoto not not not not not not (b < 5) 6; "
                   "vanish; a := (((((((a + b) + b) + b) + b) + b) + b) + b); "
                   "x := main((a - (a - (a - (a - (a - (a - (a - b)))))))); return x; }");
}

/* As long as a text may be: 512 commands with deep expressions, and spaces. */
static struct bytes long_text(void)
{
    struct text text = {.length = 0};

    append(&text, "main(x){ ");
    for (int k = 0; k < 511; k++) {
        append(&text, "x:=(((1+x)+x)+x); ");
    }
    append(&text, "vanish;");
    append(&text, "%*s", (int)(16384 - text.length), "}");
    return bytes_of_text(&text);
}

static struct bytes looping_text(void)
{
    return text_of("main(x){ a := iSym_0; ifgoto (a < 5) 0; return a; }");
}

/* ------------------------------------------------------------------------------------------------------------ at once */

/* Two of the threads share a text. */
static void calls_at_once(void)
{
    struct bytes deep = deep_text();
    struct bytes texts[4] = {deep, looping_text(), deep, long_text()};
    struct job jobs[4];
    pthread_t threads[4];

    for (int k = 0; k < 4; k++) {
        jobs[k] = job_of(texts[k]);
        if (pthread_create(&threads[k], NULL, do_job_often, &jobs[k]) != 0) {
            fail("a thread could not be started");
        }
    }
    for (int k = 0; k < 4; k++) {
        struct job alone = job_of(texts[k]);

        pthread_join(threads[k], NULL);
        do_job(&alone);
        expect_number("explore", jobs[k].explored, 0);
        expect_number("place", jobs[k].placed, alone.placed);
        expect_number("plain run", jobs[k].ran, 0);
        expect_bytes("the table", jobs[k].table, alone.table.at, TABLE);
        expect_bytes("the pool", jobs[k].pool, alone.pool.at, POOL);
        expect_bytes("the answer", jobs[k].answer, alone.answer.at, ANSWER);
    }
}

/* ----------------------------------------------------------------------------------------------------------- the stack */

enum { ROOMY_STACK = 8 << 20, UNUSED = 0xA5 };

static void *do_nothing(void *argument)
{
    return argument;
}

/* How many bytes of its stack a thread wrote. */
static size_t stack_written(void *(*work)(void *), void *argument)
{
    uint8_t *stack = mmap(NULL, ROOMY_STACK, PROT_READ | PROT_WRITE, MAP_PRIVATE | MAP_ANONYMOUS, -1, 0);
    pthread_attr_t attributes;
    pthread_t thread;
    size_t unused = 0;

    if (stack == MAP_FAILED) {
        fail("there is no memory for a stack");
    }
    memset(stack, UNUSED, ROOMY_STACK);
    pthread_attr_init(&attributes);
    if (pthread_attr_setstack(&attributes, stack, ROOMY_STACK) != 0
        || pthread_create(&thread, &attributes, work, argument) != 0) {
        fail("a thread could not be started");
    }
    pthread_join(thread, NULL);
    while (unused < ROOMY_STACK && stack[unused] == UNUSED) {
        unused++;
    }
    munmap(stack, ROOMY_STACK);
    return ROOMY_STACK - unused;
}

/* The most stack that the calls took on the heaviest texts. */
size_t stack_taken(void)
{
    struct job jobs[] = {job_of(deep_text()), job_of(long_text()), job_of(looping_text())};
    size_t idle = stack_written(do_nothing, NULL), most = 0;

    for (size_t k = 0; k < sizeof jobs / sizeof *jobs; k++) {
        size_t written = stack_written(do_job, &jobs[k]);
        most = written > most ? written : most;
    }
    return most - idle;
}

static void the_stack_named_is_enough(void)
{
    size_t taken = stack_taken();

    if (taken > CHOMPHUREK_STACK_BYTES) {
        fail("a call took %lu bytes of stack, and the header says %lu", (unsigned long)taken,
             (unsigned long)CHOMPHUREK_STACK_BYTES);
    }
}

const struct test threads_tests[] = {
    {"calls at once", calls_at_once},
    {"the stack named is enough", the_stack_named_is_enough},
    {NULL, NULL},
};
