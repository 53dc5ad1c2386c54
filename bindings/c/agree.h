/* What handles.c and solver.c have alike: numbers at random, and calls that are counted and must agree. */
#ifndef AGREE_H
#define AGREE_H

#include <stdio.h>
#include <stdlib.h>

static unsigned long long state, calls;

static unsigned draw(unsigned below) {
    state = state * 6364136223846793005u + 1442695040888963407u;
    return (unsigned)(state >> 33) % below;
}

static void check(int is_so, const char *what, int line) {
    calls++;
    if (is_so)
        return;
    printf("failed: %s in line %d, after %llu calls\n", what, line, calls);
    exit(1);
}
#define AGREE(call, expected) check((call) == (expected), #call, __LINE__)

/* The first word is how many rounds there are, and the second what the numbers begin with. */
static unsigned long rounds_of(int count, char **words) {
    state = count > 2 ? strtoull(words[2], NULL, 10) : 1;
    return count > 1 ? strtoul(words[1], NULL, 10) : 300;
}

#endif
