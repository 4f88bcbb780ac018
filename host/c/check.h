/* Counts checks of the C tests: CHECK(what holds), and a line for each that fails. */
#ifndef CHECK_H
#define CHECK_H

#include <stdio.h>

static int passed, failed;

static void check(int line, int holds)
{
    if (holds) {
        passed++;
    } else {
        failed++;
        printf("line %d fails\n", line);
    }
}

#define CHECK(holds) check(__LINE__, (holds))

/* Prints the counts; the exit status. */
static int finish(void)
{
    printf("%d passed, %d failed\n", passed, failed);
    return failed != 0;
}

#endif
