/* harness.c: see harness.h. Nothing is given back: a test is a process. */
#include "harness.h"

#include <stdarg.h>
#include <stdio.h>
#include <stdlib.h>
#include <string.h>
#include <sys/mman.h>
#include <unistd.h>

/* ---------------------------------------------------------------------------------------------------------- failing */

const char *running = "";

void fail(const char *format, ...)
{
    va_list arguments;

    printf("FAILED %s: ", running);
    va_start(arguments, format);
    vprintf(format, arguments);
    va_end(arguments);
    printf("\n");
    fflush(stdout);
    _exit(1);
}

void expect_number(const char *what, uint32_t got, uint32_t expected)
{
    if (got != expected) {
        fail("%s is %lu, expected %lu", what, (unsigned long)got, (unsigned long)expected);
    }
}

/* --------------------------------------------------------------------------------------------- memory lent to be read */

const struct bytes no_bytes = {NULL, 0};

/* A copy that ends `slack` bytes before an unreadable page, and that nobody can write. */
static struct bytes fenced(const void *from, size_t length, size_t slack)
{
    size_t page = (size_t)sysconf(_SC_PAGESIZE);
    size_t held = (length + slack + page - 1) / page * page;
    uint8_t *pages = mmap(NULL, held + page, PROT_READ | PROT_WRITE, MAP_PRIVATE | MAP_ANONYMOUS, -1, 0);

    if (pages == MAP_FAILED || mprotect(pages + held, page, PROT_NONE) != 0) {
        fail("there is no memory for the test");
    }
    uint8_t *at = pages + held - slack - length;
    if (length > 0) {
        memcpy(at, from, length);
        mprotect(pages, held, PROT_READ);
    }
    return (struct bytes){at, length};
}

struct bytes bytes_of(const void *from, size_t length)
{
    return fenced(from, length, 0);
}

struct bytes text_of(const char *text)
{
    return bytes_of(text, strlen(text));
}

struct bytes bytes_filled(uint8_t byte, size_t length)
{
    uint8_t *filled = malloc(length);

    memset(filled, byte, length);
    return bytes_of(filled, length);
}

struct bytes unaligned(struct bytes bytes, size_t offset)
{
    size_t slack = 0;

    while ((bytes.length + slack + offset) % 8 != 0) {
        slack++;
    }
    return fenced(bytes.at, bytes.length, slack);
}

struct bytes inputs_of(const uint32_t *words, size_t count)
{
    uint8_t list[CHOMPHUREK_INPUTS_BYTES] = {0};

    for (size_t k = 0; k < 4 * count; k++) {
        list[k] = (uint8_t)(words[k / 4] >> 8 * (k % 4));
    }
    return bytes_of(list, sizeof list);
}

void append(struct text *text, const char *format, ...)
{
    size_t room = sizeof text->at - text->length;
    va_list arguments;

    va_start(arguments, format);
    int written = vsnprintf(text->at + text->length, room, format, arguments);
    va_end(arguments);
    if (written < 0 || (size_t)written >= room) {
        fail("the test's own text is too long");
    }
    text->length += (size_t)written;
}

struct bytes bytes_of_text(const struct text *text)
{
    return bytes_of(text->at, text->length);
}

/* ------------------------------------------------------------------------------------------ memory lent to be written */

enum { GUARD = 64 };

const struct room no_room = {NULL, 0};

/* What stands in a room, and in the guard bytes around it, before a call: never zero, and at each place another than at
   the next. */
static uint8_t pattern(size_t place)
{
    return (uint8_t)(1 + place % 251);
}

struct room room_unaligned(size_t length, size_t offset)
{
    size_t held = GUARD + length + GUARD;
    uint8_t *memory = malloc(held + offset);

    if (memory == NULL) {
        fail("there is no memory for the test");
    }
    memory += offset;
    for (size_t k = 0; k < held; k++) {
        memory[k] = pattern(k);
    }
    return (struct room){memory + GUARD, length};
}

struct room room_of(size_t length)
{
    return room_unaligned(length, 0);
}

/* The bytes from `first` on, up to `end`, counted from the first guard byte, are as before the call. */
static void expect_pattern(const char *what, struct room room, size_t first, size_t end)
{
    const uint8_t *memory = room.at - GUARD;

    for (size_t k = first; k < end; k++) {
        if (memory[k] != pattern(k)) {
            fail("%s of %lu bytes: byte %ld was written", what, (unsigned long)room.length, (long)k - GUARD);
        }
    }
}

void expect_surplus_kept(const char *what, struct room room, size_t needed)
{
    expect_pattern(what, room, 0, GUARD);
    expect_pattern(what, room, GUARD + needed, GUARD + room.length + GUARD);
}

void expect_untouched(const char *what, struct room room)
{
    if (room.at != NULL) {
        expect_surplus_kept(what, room, 0);
    }
}

void expect_bytes(const char *what, struct room room, const uint8_t *expected, size_t needed)
{
    for (size_t k = 0; k < needed; k++) {
        if (room.at[k] != expected[k]) {
            fail("%s: byte %lu is %u, expected %u", what, (unsigned long)k, room.at[k], expected[k]);
        }
    }
    expect_surplus_kept(what, room, needed);
}

void expect_zero(const char *what, struct room room, size_t needed)
{
    expect_bytes(what, room, calloc(needed, 1), needed);
}

/* ------------------------------------------------------------------------------------------------------------ calls */

uint32_t check(struct bytes text)
{
    return chomphurek_check(text.at, text.length);
}

uint32_t plain_run(struct bytes text, struct bytes inputs, uint32_t steps, struct room answer)
{
    return chomphurek_plain_run(text.at, text.length, inputs.at, inputs.length, steps, answer.at, answer.length);
}

uint32_t explore(struct bytes text, uint32_t steps, uint32_t branches, struct room table, struct room pool)
{
    return chomphurek_explore(text.at, text.length, steps, branches, table.at, table.length, pool.at, pool.length);
}

uint32_t place(struct bytes text, struct bytes inputs, uint32_t steps, uint32_t branches, struct room table,
               struct room pool)
{
    return chomphurek_place(text.at, text.length, inputs.at, inputs.length, steps, branches, table.at, table.length,
                            pool.at, pool.length);
}
