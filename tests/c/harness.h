/*
 * harness.h: tests, each in a process of its own, and the memory lent to the calls.
 *
 * Memory lent to be read ends where an unreadable page begins and cannot be written; memory lent to be written stands
 * between guard bytes and is filled with a pattern, so that "untouched" can be told from "zero" and from "moved".
 */
#ifndef HARNESS_H
#define HARNESS_H

#include <stddef.h>
#include <stdint.h>

#include "chomphurek.h"

/* ---------------------------------------------------------------------------------------------------------- tests */

struct test {
    const char *name;
    void (*run)(void);
};

/* The tests of one file; the last has no name. */
extern const struct test examples_tests[];
extern const struct test memory_tests[];
extern const struct test place_tests[];
extern const struct test refusals_tests[];
extern const struct test threads_tests[];

/* The most stack that the calls took on the heaviest texts, in bytes (threads.c). */
size_t stack_taken(void);

/* The name of the test that runs. */
extern const char *running;

/* Ends the running test as failed, with one line that says why. */
void fail(const char *format, ...) __attribute__((format(printf, 1, 2), noreturn));

/* `what` must be `expected`. */
void expect_number(const char *what, uint32_t got, uint32_t expected);

/* --------------------------------------------------------------------------------------------- memory lent to be read */

struct bytes {
    const uint8_t *at;
    size_t length;
};

extern const struct bytes no_bytes; /* NULL, 0 */

struct bytes bytes_of(const void *from, size_t length);
struct bytes text_of(const char *text);

/* The same byte `length` times. */
struct bytes bytes_filled(uint8_t byte, size_t length);

/* A copy `offset` bytes past a place where any word could stand. */
struct bytes unaligned(struct bytes bytes, size_t offset);

/* An input list: the words given, and then 0 up to sixteen. */
struct bytes inputs_of(const uint32_t *words, size_t count);

/* The words of an input list, written out: INPUTS(3, 8) */
#define INPUTS(...) \
    inputs_of((const uint32_t[]){__VA_ARGS__}, sizeof((const uint32_t[]){__VA_ARGS__}) / sizeof(uint32_t))

/* A text put together in pieces. It begins as {.length = 0}. */
struct text {
    char at[2 * CHOMPHUREK_MAX_TEXT_BYTES];
    size_t length;
};

void append(struct text *text, const char *format, ...) __attribute__((format(printf, 2, 3)));
struct bytes bytes_of_text(const struct text *text);

/* ------------------------------------------------------------------------------------------ memory lent to be written */

struct room {
    uint8_t *at;
    size_t length;
};

extern const struct room no_room; /* NULL, 0 */

struct room room_of(size_t length);

/* Room `offset` bytes past a place where any word could stand. */
struct room room_unaligned(size_t length, size_t offset);

/* Nothing was written, in it or around it. */
void expect_untouched(const char *what, struct room room);

/* Nothing was written behind its first `needed` bytes, or around it. */
void expect_surplus_kept(const char *what, struct room room, size_t needed);

/* Its first `needed` bytes are zero, and nothing was written behind or around them. */
void expect_zero(const char *what, struct room room, size_t needed);

/* Its first `needed` bytes are those given, and nothing was written behind or around them. */
void expect_bytes(const char *what, struct room room, const uint8_t *expected, size_t needed);

/* ------------------------------------------------------------------------------------------------------------ calls */

uint32_t check(struct bytes text);
uint32_t plain_run(struct bytes text, struct bytes inputs, uint32_t steps, struct room answer);
uint32_t explore(struct bytes text, uint32_t steps, uint32_t branches, struct room table, struct room pool);
uint32_t place(struct bytes text, struct bytes inputs, uint32_t steps, uint32_t branches, struct room table,
               struct room pool);

#endif
