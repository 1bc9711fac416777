/* A tally of answers as a receive loop in C keeps it: ends with 0 only where every count is as it must be. It is C++ as well.
 *
 *   .ci/archive tally && cc -Iinclude samples/tally.c target/staticlib/libtally.a -o target/tally && target/tally
 */
#include <stdio.h>

#include "tally.h"

#define MOST 4294967295u

static int failures = 0;

static void expect(int holds, const char *what) {
    if (!holds) {
        printf("%s is wrong\n", what);
        failures++;
    }
}

/* Whether the tally has this count at one answer and `other` at all others. */
static int is(const struct tally *tally, size_t answer, uint32_t count, uint32_t other) {
    size_t i;
    for (i = 0; i < TALLY_ANSWERS; i++)
        if (tally->counts[i] != (i == answer ? count : other)) return 0;
    return 1;
}

static struct tally all(uint32_t count) {
    struct tally tally;
    size_t i;
    for (i = 0; i < TALLY_ANSWERS; i++) tally.counts[i] = count;
    return tally;
}

int main(void) {
    /* 2^32 + 3 and its like are no small numbers */
    const size_t above[] = {32, 33, 255, 256, (size_t)1 << 32, ((size_t)1 << 32) + 3, ((size_t)1 << 32) + 31, (size_t)-32, (size_t)-1};
    size_t i;
    for (i = 0; i < TALLY_ANSWERS; i++) {
        struct tally tally = all(5), full = all(MOST - 1);
        count_answer(&tally, i);
        expect(is(&tally, i, 6, 5), "a count");
        count_answer(&full, i);
        expect(is(&full, i, MOST, MOST - 1), "the last count");
        count_answer(&full, i);
        expect(is(&full, i, MOST, MOST - 1), "a count that stops");
    }
    for (i = 0; i < sizeof above / sizeof above[0]; i++) {
        struct tally tally = all(7);
        count_answer(&tally, above[i]);
        expect(is(&tally, TALLY_ANSWERS, 0, 7), "an answer above 31");
    }
    if (failures == 0) puts("the tally's counts hold");
    return failures != 0;
}
