/* failing.h: allocations that fail on demand, and what a program expects. A program of one file includes it, and is linked with
 * --wrap=malloc,--wrap=realloc. */
#ifndef FAILING_H
#define FAILING_H

#include <stdbool.h>
#include <stdio.h>
#include <stdlib.h>

/* How many more allocations succeed; none fails while it is negative. */
static long left = -1;

void *__real_malloc(size_t size);
void *__real_realloc(void *at, size_t size);

static bool fails(void) {
    return left >= 0 && left-- == 0;
}

void *__wrap_malloc(size_t size) {
    return fails() ? NULL : __real_malloc(size);
}

void *__wrap_realloc(void *at, size_t size) {
    return fails() ? NULL : __real_realloc(at, size);
}

/* Ends the program where it doesn't hold. */
static void expect(bool holds, const char *what) {
    if (!holds) {
        fprintf(stderr, "not so: %s\n", what);
        exit(1);
    }
}

#endif
