/* Shared by the C tests, as C11 and as C++17: the worked sheet of the scope paper, and the count of what was tried. */
#include <stdio.h>
#include <stdlib.h>
#include <string.h>

static const char worked_sheet[] =
    "I,0,0,5\nI,0,1,3\nI,0,2,8\nI,0,3,1\nT,0\nD,0,2\nM,0\nT,1\n";
static const char worked_answers[] =
    "0,0,5,0,0\n0,1,3,0,0\n0,2,8,0,0\n0,3,1,0,0\n0,3,1,1,0\n0,0,2,0,1\n0,0,2,0,0\n12,0,0,0,0\n";

static int tried, failed;

static void expect(const char *what, int holds) {
    tried++;
    if (!holds) {
        failed++;
        printf("wrong: %s\n", what);
    }
}

/* Prints the counts, and returns the exit status. */
static int finish(const char *name) {
    printf("%s: %d tried, %d failed\n", name, tried, failed);
    return failed == 0 ? EXIT_SUCCESS : EXIT_FAILURE;
}
