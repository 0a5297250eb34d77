/* Checks are counted; one that does not hold is printed. */
#include <stdio.h>

static unsigned long checks, failures;

static void check(int holds, const char *what, int line)
{
    checks++;
    if (!holds) {
        failures++;
        printf("FAILED at line %d: %s\n", line, what);
    }
}

#define CHECK(condition) check((condition) ? 1 : 0, #condition, __LINE__)
