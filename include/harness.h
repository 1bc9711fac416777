/* The calls of the core for C and C++: link target/staticlib/libharness.a, which .ci/archive harness builds.
 *
 * A slice is a pointer and a length. No contract can check these, so the caller keeps to them:
 *   - no pointer is null, also where its length is 0;
 *   - each pointer is valid for its length, and aligned for its type;
 *   - an output or an area overlaps no other buffer of the call.
 * Everything else may be anything: any sizes, limits and contents get a result or one numbered refusal, and a refusal leaves the output as it was.
 *
 * Words and messages have one byte for each bit, 0 or 1. With n = 2^m and k the sum of the binomials of m over 0 to r, the lengths asked are
 *
 *   call                 input        output   area
 *   rm_encode            k, message   n
 *   rm_read_message      n, word      k
 *   rm_is_codeword       n, word
 *   rm_decode            n, word      n        8 n or more
 *   rm_decode_profile    n, word      n        8 n or more
 *   rm_gap               n, word               8 n or more
 *   rm_decode_table      n, word      n        8 n or more   n of the table's entry
 *   rm_decode_made       n, word      n        8 n or more   n of the table's entry
 *   rm_record            any          n                      n of the record's profile
 *   rm_decode_array      n, array     n        8 x the longer of row and column, or more; n = 2^(row_m + column_m), exponents 1 to 6
 *   rm_load_block                     n                      n of the profile
 *   rm_street                         n        8 n or more   n of the profile; any log
 *
 * rm_decode_confidences and rm_decode_confidences_profile ask the lengths of rm_decode and rm_decode_profile; their input is n values.
 *
 *   profile     0     1     2     3     4
 *   m, r      5,1   6,2   7,2   8,2   8,3
 *   n          32    64   128   256   256
 *   k           6    22    29    37    93
 *   8 n       256   512  1024  2048  2048
 *
 * The area may hold anything before a call. It is as it was after refusals 1 to 8, 14, 18 to 24 and 27, and where a street
 * sent no block, and all zero after every other answer. It may start anywhere that an int32_t may; on 64 bytes it is cleared fastest.
 *
 * A table file is the letters WMT, the bytes 0 and 1, a count of 1 to 32, and for each entry m (3 to 10), r (0 to m), rounds (1 to 16) in one
 * byte each and the leaf limit (1 to 1,000,000) in four, senior byte first; nothing after the last. Entries are numbered from 0.
 */
#ifndef FEZQALYR_HARNESS_H
#define FEZQALYR_HARNESS_H

#include <stddef.h>
#include <stdint.h>

#ifdef __cplusplus
extern "C" {
#endif

/* The lengths that are enough for every m, and for every array. */
enum rm_most {
    RM_MOST_PLACES = 1024,
    RM_MOST_AREA = 8192,
    RM_MOST_ARRAY_PLACES = 4096,
    RM_MOST_ARRAY_AREA = 512
};

/* Refusals by number, in the order of checking, except that 12 comes before 9, 10 and 11, 17 before 11, and 18 in the place of 8. */
enum rm_refusals {
    RM_ACCEPTED = 0,
    /* the calling program's */
    RM_EXPONENT = 1,        /* m outside 1 to 10 */
    RM_ORDER = 2,           /* r above m */
    RM_ROUND_LIMIT = 3,     /* outside 1 to 16 */
    RM_LEAF_LIMIT = 4,      /* outside 1 to 1,000,000 */
    RM_INPUT_LENGTH = 5,
    RM_OUTPUT_LENGTH = 6,
    RM_AREA_LENGTH = 7,
    /* of whoever made the bytes */
    RM_BAD_BYTE = 8,        /* a byte above 1; the answer names the lowest place that holds one */
    /* the noise's */
    RM_TIE = 9,             /* two codewords are equally near */
    RM_FLIPPING = 10,       /* places still flip at the round limit */
    RM_UNSETTLED = 11,      /* the block settled on no codeword */
    RM_TOO_MANY_LEAVES = 12, /* the leaf limit is too small; none of the five profiles can meet it */
    RM_NOT_CODEWORD = 13,   /* the message reader's word is none */
    RM_PROFILE = 14,        /* above 4; of a table, not below its count, above 31, or an entry outside the limits; tested first, in place of 1 to 4 */
    /* of whoever wrote the capture; 15 in listings alone */
    RM_HEADER = 15,
    RM_TRUNCATED = 16,      /* the capture ends inside a record */
    /* in the calls for confidences alone */
    RM_ERASED = 17,         /* a place ends with value 0 after the last round; the answer names the lowest */
    RM_OUT_OF_RANGE = 18,   /* a value outside -2,047 to 2,047; the answer names the lowest place that holds one */
    /* of whoever wrote the table file */
    RM_TABLE_FILE = 19,     /* mark, version, count or length wrong */
    RM_TABLE_ENTRY = 20,    /* an entry outside the limits; the answer names the first */
    /* in rm_load_block and rm_street */
    RM_LOAD_START = 21,     /* a state of 0 */
    RM_WRONG_PLACES = 22,   /* more wrong places asked than n */
    /* in rm_street alone */
    RM_METERS = 23,         /* outside 1 to 256 */
    RM_RETRIES = 24,        /* above 15 */
    /* in rm_tallies alone */
    RM_UNKNOWN_NAME = 25,   /* no tally has that name, when returning or dropping */
    RM_NAMES_FULL = 26,     /* sixteen other names are held, when saving */
    /* in rm_decode_array alone */
    RM_ARRAY_EXPONENT = 27, /* an exponent above 6, tested after 1 */
    RM_NOT_ARRAY = 28       /* some row or column is no codeword at the end */
};

/* An answer has five numbers, lowest first: refusal or 0 in 8 bits, rounds in 8, leaf count in 24, mended places in 12, place in 12. */

/* One of the refusals, or 0. */
static inline unsigned rm_refusal(uint64_t answer) {
    return (unsigned)(answer & 255);
}

/* The rounds made by a decoding; of rm_is_codeword 1 where the word is a codeword. */
static inline unsigned rm_rounds(uint64_t answer) {
    return (unsigned)(answer >> 8 & 255);
}

/* The readings at order 1, of all rounds and every depth; of rm_gap the gap. */
static inline uint32_t rm_leaves(uint64_t answer) {
    return (uint32_t)(answer >> 16 & 16777215);
}

/* The number of places where the accepted word differs from the received one; 0 with a refusal. */
static inline unsigned rm_mended(uint64_t answer) {
    return (unsigned)(answer >> 40 & 4095);
}

/* With refusal 8, the lowest place of the input that holds a byte above 1 (an index of the message in rm_encode); with 17 and 18, the lowest
 * place whose value ends as 0, or is outside the range; with 20, the first entry outside the limits; 0 with any other answer. */
static inline unsigned rm_place(uint64_t answer) {
    return (unsigned)(answer >> 52);
}

uint64_t rm_encode(size_t m, size_t r, const uint8_t *message, size_t message_len, uint8_t *out, size_t out_len);

uint64_t rm_read_message(size_t m, size_t r, const uint8_t *word, size_t word_len, uint8_t *out, size_t out_len);

uint64_t rm_is_codeword(size_t m, size_t r, const uint8_t *word, size_t word_len);

uint64_t rm_decode(size_t m, size_t r, size_t rounds, size_t leaves, const uint8_t *word, size_t word_len,
                   uint8_t *out, size_t out_len, int32_t *area, size_t area_len);

uint64_t rm_decode_profile(size_t profile, const uint8_t *word, size_t word_len,
                           uint8_t *out, size_t out_len, int32_t *area, size_t area_len);

/* A block of confidences: a signed value a place, -2,047 to 2,047, positive meaning bit 0. The output holds the accepted word's bits. From
 * order 2 on exactly the round limit of rounds is made. Mended places are counted against the values' signs, a value of 0 as bit 0. */
uint64_t rm_decode_confidences(size_t m, size_t r, size_t rounds, size_t leaves, const int16_t *values, size_t values_len,
                               uint8_t *out, size_t out_len, int32_t *area, size_t area_len);

uint64_t rm_decode_confidences_profile(size_t profile, const int16_t *values, size_t values_len,
                                       uint8_t *out, size_t out_len, int32_t *area, size_t area_len);

/* The gap between the greatest and the second absolute correlation of a word at order 1, where the leaf count stands: 0 on a tie, n of a
 * codeword. If 4 x the number of changed places is less than the gap, the changed block gets the same codeword. Refused 1, 5, 7 or 8. */
uint64_t rm_gap(size_t m, const uint8_t *word, size_t word_len, int32_t *area, size_t area_len);

/* A block under entry `number` of the table in a file. Where the file is refused, 19, or 20 with the entry, and nothing is written. */
uint64_t rm_decode_table(const uint8_t *file, size_t file_len, size_t number, const uint8_t *word, size_t word_len,
                         uint8_t *out, size_t out_len, int32_t *area, size_t area_len);

/* The same under a table that no file made: its count is as given, and all 32 entries are m, r, rounds, leaves, whatever these are. */
uint64_t rm_decode_made(size_t count, size_t m, size_t r, size_t rounds, size_t leaves, size_t number,
                        const uint8_t *word, size_t word_len, uint8_t *out, size_t out_len, int32_t *area, size_t area_len);

/* The record at the start of `rest`, a capture from a record on, under the table in a file, or the five profiles where file_len is 0. Its
 * answer has other numbers, below; only a record writes the word. Refused 19, 20 (without the entry), 16, 14 or 6. */
uint64_t rm_record(const uint8_t *file, size_t file_len, const uint8_t *rest, size_t rest_len, uint8_t *word, size_t word_len);

/* Of rm_record, beside rm_refusal: 1 where no record is left. */
static inline unsigned rm_none_left(uint64_t answer) {
    return (unsigned)(answer >> 8 & 255);
}

/* Of rm_record: a record's profile, else 0. */
static inline unsigned rm_record_profile(uint64_t answer) {
    return (unsigned)(answer >> 16 & 255);
}

/* Of rm_record: the serial, with a record, with 14 and with 6; else 0. */
static inline uint32_t rm_record_serial(uint64_t answer) {
    return (uint32_t)(answer >> 32);
}

/* Draws one block of a load from a state: a message, one step of the generator a bit, its codeword, and places, at most n steps, until `wrong`
 * different ones are wrong. The next block of the load is this call with the state after; once a block was drawn, none is refused. Its answer
 * has other numbers, below. Refused 14, 21, 22 or 6: the state after is the one given, and the word is as it was. */
uint64_t rm_load_block(size_t profile, uint32_t state, size_t wrong, uint8_t *word, size_t word_len);

/* Of rm_load_block, beside rm_refusal: 1 where the block was left short, with fewer places wrong than asked. */
static inline unsigned rm_left_short(uint64_t answer) {
    return (unsigned)(answer >> 8 & 255);
}

/* Of rm_load_block: the state after. */
static inline uint32_t rm_load_state(uint64_t answer) {
    return (uint32_t)(answer >> 32);
}

/* Tries a street of meters: they send in turn, by number from 0, each block the next of one load from `start`; in later turns, at most `retries`,
 * only those refused in the turn before. Steps are made until `steps` of them have sent a block, or one answers that none is left. The step
 * that sends block i, from 0, writes three numbers of the log, where there is room for all three: at 3 i the meter, then its try, 0 in the
 * first turn, then its answer, RM_RIGHT, RM_OTHER or a refusal's number. The word is left with the last block sent, as it was sent. Its answer
 * has other numbers, below. Refused, before any step, 23, 24, 14, 21, 22, 6 or 7: log, word and area are as they were. */
uint64_t rm_street(size_t meters, size_t retries, size_t profile, uint32_t start, size_t wrong, size_t steps,
                   uint32_t *log, size_t log_len, uint8_t *word, size_t word_len, int32_t *area, size_t area_len);

/* The answers in a street's log that are no refusals. */
enum rm_fates {
    RM_RIGHT = 0,  /* accepted as the codeword sent */
    RM_OTHER = 100 /* accepted as another one */
};

/* Of rm_street, beside rm_refusal: the number of blocks sent. */
static inline uint32_t rm_street_sent(uint64_t answer) {
    return (uint32_t)(answer >> 8);
}

/* Of rm_street: 1 where a step answered that none is left; where the last meter has sent at step `steps`, no further one was asked. */
static inline unsigned rm_street_over(uint64_t answer) {
    return (unsigned)(answer >> 40 & 255);
}

/* A block in rows and columns, its places row after row: each of the 2^column_m rows a codeword of the row code, each of the 2^row_m columns
 * of the column code. All rows are decoded, refused ones left as received, then all columns in the same manner, each reading under these
 * limits; accepted where every row and column is then a codeword. Checked are 1, 27 and 2 of the row code, then of the column code, then 3 to
 * 8. Its answer has other numbers, below: no rounds and no mended places. */
uint64_t rm_decode_array(size_t row_m, size_t row_r, size_t column_m, size_t column_r, size_t rounds, size_t leaves,
                         const uint8_t *word, size_t word_len, uint8_t *out, size_t out_len, int32_t *area, size_t area_len);

/* Of rm_decode_array, beside rm_refusal: the sum of the leaf counts of all readings, those refused too; 0 with 1 to 8 and 27. */
static inline uint64_t rm_array_leaves(uint64_t answer) {
    return answer >> 8 & (((uint64_t)1 << 40) - 1);
}

/* Of rm_decode_array: with 8 the lowest place of the array that holds a byte above 1, else 0. */
static inline unsigned rm_array_place(uint64_t answer) {
    return (unsigned)(answer >> 48);
}

/* Runs a script of operations on a tally of answers by number, 32 counts, with no name held at the start, and leaves the counts after it. An
 * operation is
 *   0 and a byte: one more answer of that number; numbers above 31 change nothing, and a count stops at 4,294,967,295;
 *   1 and 8 bytes: the tally is saved under that name, in place of the one saved there before;
 *   2 and 8 bytes: the tally saved under that name is returned to;
 *   3 and 8 bytes: the name is dropped, and its place is free.
 * Each writes one byte of the answers: 0, RM_UNKNOWN_NAME or RM_NAMES_FULL, and after these two all is as it was. The run ends at the script's
 * end, at an operation that is cut short or has another first byte, or where the answers are full. Returned is the number of operations made;
 * with a tally that has not 32 counts it is 2^64 - 1, and nothing is written. */
uint64_t rm_tallies(const uint8_t *script, size_t script_len, uint8_t *answers, size_t answers_len, uint32_t *tally, size_t tally_len);

#ifdef __cplusplus
}
#endif

#endif
