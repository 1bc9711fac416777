/* The calls of the gateway whose receive loop is C (or C++): link libgateway.a, which .ci/archive gateway builds to target/staticlib, and
 * `./deliver` with this header to a folder of its own. The library stands alone; it asks memcpy and memset of the C library, nothing else.
 *
 * Words and messages have one byte for each bit, 0 or 1. With n = 2^m places and k message bits, the sum of the binomials of m over 0 to r, the
 * lengths asked are
 *
 *   call                    input         output
 *   gateway_encode          k, message    n
 *   gateway_decode          n, word       n        of the profile
 *   gateway_read_message    n, word       k
 *
 *   profile     0     1     2     3     4
 *   m, r      5,1   6,2   7,2   8,2   8,3
 *   n          32    64   128   256   256
 *   k           6    22    29    37    93
 *
 * Every call gets an answer, whatever the numbers, lengths and contents: 0, or one refusal, which leaves the output as it was. The input is
 * never written, and nothing is kept between two calls, so that calls from several threads do not meet.
 *
 * What no contract can check, and the caller keeps to:
 *   - no pointer is null, also where its length is 0;
 *   - each pointer is valid for its length;
 *   - the output overlaps the input nowhere.
 *
 * Stack: gateway_decode holds its own working numbers there, in all 11,264 bytes at most; the other calls take 2,560. (Measured on x86-64 with the C
 * library's memcpy and memset, not proved.)
 */
#ifndef FEZQALYR_GATEWAY_H
#define FEZQALYR_GATEWAY_H

#include <stddef.h>
#include <stdint.h>

#define GATEWAY_VERSION "1.0"

#ifdef __cplusplus
extern "C" {
#endif

/* The lengths that are enough for every m, and for every profile. */
enum gateway_most {
    GATEWAY_MOST_PLACES = 1024,
    GATEWAY_PROFILES = 5,
    GATEWAY_PROFILE_PLACES = 256,
    GATEWAY_PROFILE_BITS = 93
};

/* Refusals by number. The order of checking is, in gateway_encode 1, 2, 5, 6, 8; in gateway_read_message 1, 2, 5, 6, 8, 13; in gateway_decode
 * 14, 5, 6, 8, then what the noise made of the block. */
enum gateway_refusals {
    GATEWAY_ACCEPTED = 0,
    /* the calling program's */
    GATEWAY_EXPONENT = 1,       /* m outside 1 to 10 */
    GATEWAY_ORDER = 2,          /* r above m */
    GATEWAY_INPUT_LENGTH = 5,
    GATEWAY_OUTPUT_LENGTH = 6,
    GATEWAY_PROFILE = 14,       /* above 4 */
    /* of whoever made the bytes */
    GATEWAY_BAD_BYTE = 8,       /* a byte above 1; the answer names the lowest place that holds one */
    GATEWAY_NOT_CODEWORD = 13,  /* the message reader's word is none; no word that gateway_decode gives */
    /* the noise's */
    GATEWAY_TIE = 9,            /* two codewords are equally near; profile 0 alone */
    GATEWAY_FLIPPING = 10,      /* places still flip after four rounds */
    GATEWAY_UNSETTLED = 11      /* the block settled on no codeword */
};

/* The codeword of a message. */
uint64_t gateway_encode(size_t m, size_t r, const uint8_t *message, size_t message_len, uint8_t *out, size_t out_len);

/* The codeword of a received block, by profile. */
uint64_t gateway_decode(size_t profile, const uint8_t *word, size_t word_len, uint8_t *out, size_t out_len);

/* The message of a codeword. */
uint64_t gateway_read_message(size_t m, size_t r, const uint8_t *word, size_t word_len, uint8_t *out, size_t out_len);

/* An answer has five numbers, lowest first: refusal or 0 in 8 bits, rounds in 8, leaf count in 24, mended places in 12, place in 12. A number
 * that a call has not is 0. */

/* One of the refusals, or 0. */
static inline unsigned gateway_refusal(uint64_t answer) {
    return (unsigned)(answer & 255);
}

/* The rounds made by a decoding. */
static inline unsigned gateway_rounds(uint64_t answer) {
    return (unsigned)(answer >> 8 & 255);
}

/* The readings at order 1 of a decoding, of all rounds and every depth. */
static inline uint32_t gateway_leaves(uint64_t answer) {
    return (uint32_t)(answer >> 16 & 16777215);
}

/* The number of places where the accepted word differs from the received one; 0 with a refusal. */
static inline unsigned gateway_mended(uint64_t answer) {
    return (unsigned)(answer >> 40 & 4095);
}

/* With GATEWAY_BAD_BYTE, the lowest place of the input that holds a byte above 1 (an index of the message in gateway_encode); 0 with any other
 * answer. */
static inline unsigned gateway_place(uint64_t answer) {
    return (unsigned)(answer >> 52);
}

#ifdef __cplusplus
}
#endif

#endif
