/* A tally of answers by number for a receive loop in C or C++: link target/staticlib/libtally.a, which .ci/archive tally builds.
 *
 * The loop owns the tally and lends it; the pointer is not null, and the tally overlaps nothing else that the call could see.
 */
#ifndef FEZQALYR_TALLY_H
#define FEZQALYR_TALLY_H

#include <stddef.h>
#include <stdint.h>

#ifdef __cplusplus
extern "C" {
#endif

enum tally_most {
    TALLY_ANSWERS = 32
};

/* A count for each of the answers 0 (accepted) to 31. */
struct tally {
    uint32_t counts[TALLY_ANSWERS];
};

/* One more answer of that number. A count stops at 4,294,967,295; any number above 31, up to the greatest, changes nothing. */
void count_answer(struct tally *tally, size_t answer);

#ifdef __cplusplus
}
#endif

#endif
