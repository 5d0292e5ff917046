/*
 * runner.c: runs every test in a process of its own. One line for each that fails; the last line is 'N passed, M failed'.
 * With the argument --stack it prints, and does no more, how much stack the calls take.
 */
#include "harness.h"

#include <stdio.h>
#include <string.h>
#include <sys/wait.h>
#include <unistd.h>

static const struct test *const files[] = {examples_tests, refusals_tests, memory_tests, place_tests, threads_tests};

/* Whether the test passes. A test that fails has said so; one that crashed has not. */
static int passes(const struct test *test)
{
    int status = 0;
    pid_t child;

    fflush(stdout);
    child = fork();
    if (child == 0) {
        running = test->name;
        test->run();
        _exit(0);
    }
    if (child < 0 || waitpid(child, &status, 0) != child) {
        printf("FAILED %s: the test could not be started\n", test->name);
        return 0;
    }
    if (WIFSIGNALED(status)) {
        printf("FAILED %s: crashed with signal %d\n", test->name, WTERMSIG(status));
    } else if (WEXITSTATUS(status) > 1) {
        printf("FAILED %s: ended with status %d\n", test->name, WEXITSTATUS(status));
    }
    return WIFEXITED(status) && WEXITSTATUS(status) == 0;
}

int main(int argc, char **argv)
{
    int passed = 0, failed = 0;

    if (argc == 2 && strcmp(argv[1], "--stack") == 0) {
        printf("%lu bytes of stack\n", (unsigned long)stack_taken());
        return 0;
    }
    for (size_t file = 0; file < sizeof files / sizeof *files; file++) {
        for (const struct test *test = files[file]; test->name != NULL; test++) {
            *(passes(test) ? &passed : &failed) += 1;
        }
    }
    printf("%d passed, %d failed\n", passed, failed);
    return failed == 0 ? 0 : 1;
}
