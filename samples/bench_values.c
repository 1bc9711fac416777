/* Document 01's meter bench values, some blocks of confidences, gaps, a table, a script of tallies, blocks of a load and some arrays, called
 * from C: ends with 0 only where every one of them holds.
 * It is C++ as well.
 *
 *   .ci/archive harness && cc -Iinclude samples/bench_values.c target/staticlib/libharness.a -o target/bench_values && target/bench_values
 */
#include <stdio.h>
#include <string.h>

#include "harness.h"

#define LEAVES 1000000

static int failures = 0;
static uint8_t out[RM_MOST_PLACES];
static int32_t area[RM_MOST_AREA];

static void expect(int holds, const char *name, const char *what) {
    if (!holds) {
        printf("%s: %s is wrong\n", name, what);
        failures++;
    }
}

/* The digits of a text as bytes; their number. */
static size_t bits(const char *text, uint8_t *bytes) {
    size_t i, length = strlen(text);
    for (i = 0; i < length; i++) bytes[i] = (uint8_t)(text[i] - '0');
    return length;
}

/* Both buffers hold a pattern before a call. */
static void filled(void) {
    size_t i;
    memset(out, 7, sizeof out);
    for (i = 0; i < RM_MOST_AREA; i++) area[i] = 5;
}

/* Whether the output is the text; without a text, whether it is as it was. */
static int output_is(const char *text, size_t length) {
    size_t i;
    for (i = 0; i < length; i++)
        if (out[i] != (text ? text[i] - '0' : 7)) return 0;
    return 1;
}

static int area_is(int32_t number, size_t length) {
    size_t i;
    for (i = 0; i < length; i++)
        if (area[i] != number) return 0;
    return 1;
}

static unsigned differing(const char *block, const char *decoded) {
    unsigned count = 0;
    for (; *block; block++, decoded++) count += *block != *decoded;
    return count;
}

/* A decoded word is a text where the block is accepted, else none. */
static void decodes(const char *name, size_t m, size_t r, size_t rounds, size_t leaves, const char *block,
                    unsigned refusal, unsigned made, uint32_t counted, const char *decoded) {
    uint8_t word[RM_MOST_PLACES];
    size_t n = bits(block, word);
    uint64_t answer;
    filled();
    answer = rm_decode(m, r, rounds, leaves, word, n, out, n, area, 8 * n);
    expect(rm_refusal(answer) == refusal, name, "the refusal");
    expect(rm_rounds(answer) == made, name, "the rounds");
    expect(rm_leaves(answer) == counted, name, "the leaf count");
    expect(rm_mended(answer) == (refusal == 0 ? differing(block, decoded) : 0), name, "the number of mended places");
    expect(rm_place(answer) == 0, name, "the place");
    expect(output_is(decoded, n), name, "the output");
    expect(area_is(refusal == RM_EXPONENT ? 5 : 0, 8 * n), name, "the area");
}

/* A message encoded, tested, and read again. */
static void encodes(const char *name, size_t m, size_t r, const char *text, const char *codeword) {
    uint8_t message[RM_MOST_PLACES], word[RM_MOST_PLACES];
    size_t k = bits(text, message), n = bits(codeword, word);
    filled();
    expect(rm_encode(m, r, message, k, out, n) == 0 && output_is(codeword, n), name, "the codeword");
    expect(rm_rounds(rm_is_codeword(m, r, word, n)) == 1, name, "the codeword test");
    filled();
    expect(rm_read_message(m, r, word, n, out, k) == 0 && output_is(text, k), name, "the message read");
}

static void orders_0_and_1(void) {
    decodes("m 1, r 1: 01", 1, 1, 4, LEAVES, "01", 0, 0, 1, "01");
    decodes("m 2, r 1: 1000", 2, 1, 4, LEAVES, "1000", RM_TIE, 0, 1, NULL);
    decodes("m 2, r 0: 0111", 2, 0, 4, LEAVES, "0111", 0, 0, 0, "1111");
    decodes("m 2, r 0: 0011", 2, 0, 4, LEAVES, "0011", RM_TIE, 0, 0, NULL);
    decodes("m 0", 0, 0, 4, LEAVES, "0", RM_EXPONENT, 0, 0, NULL);
    decodes("m 11", 11, 2, 4, LEAVES, "0", RM_EXPONENT, 0, 0, NULL);
}

static void order_2(void) {
    const char *one = "1000000000000000", *none = "0000000000000000";
    char any[5] = "0000";
    unsigned x;
    for (x = 0; x < 16; x++) {
        size_t p;
        for (p = 0; p < 4; p++) any[p] = (char)('0' + (x >> p & 1));
        decodes("m 2, r 2: any word", 2, 2, 4, LEAVES, any, 0, 1, 3, any);
    }
    decodes("m 3, r 2: 10000000", 3, 2, 4, LEAVES, "10000000", RM_UNSETTLED, 1, 7, NULL);
    decodes("the same, leaf limit 7", 3, 2, 4, 7, "10000000", RM_UNSETTLED, 1, 7, NULL);
    decodes("the same, leaf limit 6", 3, 2, 4, 6, "10000000", RM_TOO_MANY_LEAVES, 0, 6, NULL);
    decodes("m 4, r 2, place 0 wrong, round limit 2", 4, 2, 2, LEAVES, one, 0, 2, 30, none);
    decodes("the same, leaf limit 29", 4, 2, 2, 29, one, RM_TOO_MANY_LEAVES, 0, 29, NULL);
    decodes("round limit 1, leaf limit 15", 4, 2, 1, 15, one, RM_FLIPPING, 1, 15, NULL);
    decodes("round limit 1, leaf limit 14", 4, 2, 1, 14, one, RM_TOO_MANY_LEAVES, 0, 14, NULL);
    decodes("the block plus a codeword", 4, 2, 2, LEAVES, "1001000100010001", 0, 2, 30, "0001000100010001");
    decodes("m 4, r 2, places 0 and 1 wrong", 4, 2, 4, LEAVES, "1100000000000000", RM_UNSETTLED, 1, 15, NULL);
}

/* The two records of the example capture, profile 0: the message 84, and a tie. */
static void example(void) {
    uint8_t word[32], message[6];
    size_t n = bits("01111111111111110000000000000000", word);
    filled();
    expect(rm_refusal(rm_decode_profile(0, word, n, out, n, area, 8 * n)) == 0, "the example", "the refusal");
    memcpy(word, out, n);
    expect(rm_read_message(5, 1, word, n, message, 6) == 0, "the example", "the message reader");
    memcpy(out, message, 6);
    expect(output_is("100001", 6), "the example", "the message");
    bits("11111111000000000000000000000000", word);
    expect(rm_refusal(rm_decode_profile(0, word, n, out, n, area, 8 * n)) == RM_TIE, "the example", "the tie");
    expect(rm_decode_profile(5, word, n, out, n, area, 8 * n) == RM_PROFILE, "profile 5", "the refusal");
}

/* Four values at exponent 2. */
static void values_are(const char *name, size_t r, const int16_t *values, unsigned refusal, unsigned made, uint32_t counted, unsigned mended,
                       unsigned place, const char *decoded) {
    uint64_t answer;
    filled();
    answer = rm_decode_confidences(2, r, made ? made : 1, LEAVES, values, 4, out, 4, area, 35);
    expect(rm_refusal(answer) == refusal, name, "the refusal");
    expect(rm_rounds(answer) == made && rm_leaves(answer) == counted, name, "a count");
    expect(rm_mended(answer) == mended, name, "the number of mended places");
    expect(rm_place(answer) == place, name, "the place");
    expect(output_is(decoded, 4), name, "the output");
    expect(area_is(refusal == RM_OUT_OF_RANGE ? 5 : 0, 35), name, "the area");
}

/* Document 02, request 2. */
static void confidences(void) {
    static const int16_t sum[] = {5, -7, 3, -2}, weak[] = {9, -1, -2, -9}, even[] = {0, 5, 5, 5}, odd[] = {0, -5, -5, -5};
    static const int16_t two[] = {5, -6, 7, 8}, erased[] = {5, 0, 0, 0}, outside[] = {2047, -2048, 0, 3000}, least[] = {1, 1, 1, -32768};
    int16_t block[32];
    size_t p;
    values_are("the sign of the sum", 0, sum, 0, 0, 0, 2, 0, "1111");
    values_are("the greatest correlation", 1, weak, 0, 0, 1, 1, 0, "0011");
    values_are("a value of 0 counts as bit 0", 1, even, 0, 0, 1, 0, 0, "0000");
    values_are("and is mended to bit 1", 1, odd, 0, 0, 1, 1, 0, "1111");
    values_are("two rounds", 2, two, 0, 2, 6, 0, 0, "0100");
    values_are("a value that ends as 0", 2, erased, RM_ERASED, 1, 3, 0, 1, NULL);
    values_are("-2,048", 1, outside, RM_OUT_OF_RANGE, 0, 0, 0, 1, NULL);
    values_are("-32,768", 1, least, RM_OUT_OF_RANGE, 0, 0, 0, 3, NULL);
    for (p = 0; p < 32; p++) block[p] = p == 9 ? -3 : 40;
    filled();
    expect(rm_mended(rm_decode_confidences_profile(0, block, 32, out, 32, area, 256)) == 1, "by profile", "the number of mended places");
    expect(output_is("00000000000000000000000000000000", 32) && area_is(0, 256), "by profile", "the output");
    expect(rm_decode_confidences_profile(5, block, 32, out, 32, area, 256) == RM_PROFILE, "confidences, profile 5", "the refusal");
}

static void gap_is(const char *name, size_t m, const char *block, uint32_t gap) {
    uint8_t word[RM_MOST_PLACES];
    size_t n = bits(block, word);
    uint64_t answer;
    filled();
    answer = rm_gap(m, word, n, area, 8 * n + 3);
    expect(rm_refusal(answer) == 0 && rm_leaves(answer) == gap, name, "the gap");
    expect(area_is(0, 8 * n + 3), name, "the area");
    filled();
    answer = rm_gap(m, word, n, area, 8 * n - 1);
    expect(answer == RM_AREA_LENGTH && area_is(5, 8 * n), name, "a short area");
}

/* Document 02, request 13. */
static void gaps(void) {
    gap_is("the gap of a codeword", 2, "1001", 4);
    gap_is("the gap of a tie", 2, "1000", 0);
    gap_is("the gap with one wrong place", 4, "1000000000000000", 12);
}

/* Document 02, request 4: a table of one entry, m 3, r 2, 4 rounds, leaf limit 6, and a record of it. */
static void tables(void) {
    uint8_t file[13] = {'W', 'M', 'T', 0, 1, 1, 3, 2, 4, 0, 0, 0, 6};
    uint8_t rest[6] = {0x00, 0x3D, 0x09, 0x11, 0, 0x80};
    uint8_t word[8];
    uint64_t answer;
    filled();
    answer = rm_record(file, 13, rest, 6, word, 8);
    expect(rm_refusal(answer) == 0 && rm_none_left(answer) == 0 && rm_record_profile(answer) == 0, "a record", "the answer");
    expect(rm_record_serial(answer) == 4000017, "a record", "the serial");
    expect(rm_none_left(rm_record(file, 13, rest + 6, 0, word, 8)) == 1, "no record", "the answer");
    answer = rm_decode_table(file, 13, 0, word, 8, out, 8, area, 64);
    expect(rm_refusal(answer) == RM_TOO_MANY_LEAVES && rm_leaves(answer) == 6 && area_is(0, 64), "the table", "12");
    filled();
    expect(rm_decode_table(file, 13, 1, word, 8, out, 8, area, 64) == RM_PROFILE, "the table", "14");
    expect(rm_decode_table(file, 12, 0, word, 8, out, 8, area, 64) == RM_TABLE_FILE, "a cut file", "19");
    file[6] = 2;
    answer = rm_decode_table(file, 13, 0, word, 8, out, 8, area, 64);
    expect(rm_refusal(answer) == RM_TABLE_ENTRY && rm_place(answer) == 0, "m 2", "20");
    expect(rm_decode_made(200, 3, 2, 4, 7, 32, word, 8, out, 8, area, 64) == RM_PROFILE, "a made table", "14 above 31");
    expect(output_is(NULL, 8) && area_is(5, 64), "the table", "the output or the area after 14, 19 and 20");
    answer = rm_decode_made(200, 3, 2, 4, 7, 31, word, 8, out, 8, area, 64);
    expect(rm_refusal(answer) == RM_UNSETTLED && rm_leaves(answer) == 7, "a made table", "11");
}

/* Document 02, request 11: a tally saved, counted on, returned to and dropped; then two unknown names and an operation cut short. */
static void tallies(void) {
    static const char script[] = "\0\11" "1morning-" "\0\11" "2morning-" "3morning-" "2morning-" "3evening-" "1night";
    static const uint8_t right[8] = {0, 0, 0, 0, 0, RM_UNKNOWN_NAME, RM_UNKNOWN_NAME, 7};
    uint8_t bytes[sizeof script], answers[8];
    uint32_t tally[32];
    size_t i, length = sizeof script - 1;
    for (i = 0; i < length; i++) bytes[i] = (uint8_t)(script[i] >= '1' && script[i] <= '3' ? script[i] - '0' : script[i]);
    memset(answers, 7, sizeof answers);
    memset(tally, 0, sizeof tally);
    expect(rm_tallies(bytes, length, answers, 8, tally, 32) == 7, "a script", "the number of operations");
    expect(memcmp(answers, right, 8) == 0, "a script", "an answer");
    expect(tally[RM_TIE] == 1, "a script", "the tally returned to");
    expect(rm_tallies(bytes, length, answers, 8, tally, 31) == (uint64_t)-1, "a script", "a tally of 31 counts");
}

/* Document 02, request 9: the first block of the load that the program writes, one left short, and the refusals in their order. */
static void load(void) {
    uint64_t answer;
    filled();
    answer = rm_load_block(1, 1, 3, out, 64);
    expect(rm_refusal(answer) == 0 && rm_left_short(answer) == 0 && rm_load_state(answer) == 44632818, "a block", "the answer");
    expect(output_is("0011110000000001011010011010101001100110101101011110110011110000", 64), "a block", "the word");
    answer = rm_load_block(0, 1, 32, out, 32);
    expect(rm_refusal(answer) == 0 && rm_left_short(answer) == 1 && rm_load_state(answer) == 1149571554, "a short block", "the answer");
    expect(output_is("11011111001111110100111010111110", 32), "a short block", "the word");
    filled();
    expect(rm_load_block(5, 0, 65, out, 0) == RM_PROFILE, "a load", "14");
    expect(rm_load_block(1, 0, 65, out, 0) == RM_LOAD_START, "a load", "21");
    answer = rm_load_block(1, 9, 65, out, 0);
    expect(rm_refusal(answer) == RM_WRONG_PLACES && rm_load_state(answer) == 9, "a load", "22");
    answer = rm_load_block(1, 9, 64, out, 63);
    expect(rm_refusal(answer) == RM_OUTPUT_LENGTH && rm_load_state(answer) == 9 && output_is(NULL, 64), "a load", "6");
}

/* Document 02, request 10: a street of three meters in which all three answers are met, the same cut at its last step and with a log of no
 * room for it, and the refusals in their order. */
static void street(void) {
    static const uint32_t right[14] = {0, 0, RM_RIGHT, 1, 0, RM_TIE, 2, 0, RM_OTHER, 1, 1, RM_RIGHT, 7, 7};
    uint32_t log[14];
    uint64_t answer;
    size_t i;
    filled();
    for (i = 0; i < 14; i++) log[i] = 7;
    answer = rm_street(3, 1, 0, 3, 10, 5, log, 14, out, 32, area, 256);
    expect(rm_refusal(answer) == 0 && rm_street_sent(answer) == 4 && rm_street_over(answer) == 1, "a street", "the answer");
    expect(memcmp(log, right, sizeof log) == 0, "a street", "the log");
    expect(output_is("01111111110100010110110001101110", 32), "a street", "the last block");
    expect(area_is(0, 256), "a street", "the area");
    filled();
    for (i = 0; i < 14; i++) log[i] = 7;
    answer = rm_street(3, 1, 0, 3, 10, 4, log, 11, out, 32, area, 256);
    expect(rm_refusal(answer) == 0 && rm_street_sent(answer) == 4 && rm_street_over(answer) == 0, "a street of four steps", "the answer");
    expect(memcmp(log, right, 9 * sizeof log[0]) == 0 && log[9] == 7 && log[10] == 7, "a street of four steps", "the log");
    filled();
    expect(rm_street(0, 16, 5, 0, 65, 5, log, 0, out, 0, area, 0) == RM_METERS, "a street", "23");
    expect(rm_street(257, 16, 5, 0, 65, 5, log, 0, out, 0, area, 0) == RM_METERS, "a street", "23 above 256");
    expect(rm_street(1, 16, 5, 0, 65, 5, log, 0, out, 0, area, 0) == RM_RETRIES, "a street", "24");
    expect(rm_street(1, 15, 5, 0, 65, 5, log, 0, out, 0, area, 0) == RM_PROFILE, "a street", "14");
    expect(rm_street(1, 15, 1, 0, 65, 5, log, 0, out, 0, area, 0) == RM_LOAD_START, "a street", "21");
    expect(rm_street(1, 15, 1, 9, 65, 5, log, 0, out, 0, area, 0) == RM_WRONG_PLACES, "a street", "22");
    expect(rm_street(1, 15, 1, 9, 64, 5, log, 0, out, 63, area, 511) == RM_OUTPUT_LENGTH, "a street", "6");
    expect(rm_street(1, 15, 1, 9, 64, 5, log, 0, out, 64, area, 511) == RM_AREA_LENGTH, "a street", "7");
    expect(output_is(NULL, 64) && area_is(5, 511), "a street", "the word or the area after a refusal");
}

/* An array is a text row after row; a decoded one too where it is accepted, else none. */
static void array_is(const char *name, size_t row_m, size_t row_r, size_t column_m, size_t column_r, size_t leaves, const char *block,
                     unsigned refusal, uint64_t counted, const char *decoded) {
    uint8_t word[RM_MOST_PLACES];
    size_t n = bits(block, word);
    uint64_t answer;
    filled();
    answer = rm_decode_array(row_m, row_r, column_m, column_r, 4, leaves, word, n, out, n, area, RM_MOST_ARRAY_AREA);
    expect(rm_refusal(answer) == refusal, name, "the refusal");
    expect(rm_array_leaves(answer) == counted, name, "the leaf sum");
    expect(rm_array_place(answer) == 0, name, "the place");
    expect(output_is(decoded, n), name, "the output");
    expect(area_is(refusal == RM_ARRAY_EXPONENT ? 5 : 0, RM_MOST_ARRAY_AREA), name, "the area");
}

/* Document 02, request 12. */
static void arrays(void) {
    uint8_t bad[8] = {0, 1, 0, 0, 1, 2, 0, 255};
    uint64_t answer;
    array_is("a wrong place mended by its row", 2, 0, 1, 1, LEAVES, "00011111", 0, 4, "00001111");
    array_is("a tie in a row and in its column", 2, 1, 1, 0, LEAVES, "10000000", RM_NOT_ARRAY, 2, NULL);
    array_is("a tie in a row, mended by its columns", 1, 0, 2, 0, LEAVES, "01000000", 0, 0, "00000000");
    array_is("rows before columns", 2, 0, 2, 0, LEAVES, "0001100110000000", 0, 0, "0000000000000000");
    array_is("rows refused 12", 2, 2, 1, 1, 2, "10110100", 0, 8, "10110100");
    array_is("a row exponent of 7", 7, 0, 0, 0, LEAVES, "0000", RM_ARRAY_EXPONENT, 0, NULL);
    answer = rm_decode_array(2, 0, 1, 0, 1, 1, bad, 8, out, 8, area, 32);
    expect(rm_refusal(answer) == RM_BAD_BYTE && rm_array_place(answer) == 5, "an array with bytes above 1", "the place");
    expect(rm_decode_array(1, 0, 2, 0, 1, 1, bad, 8, out, 8, area, 31) == RM_AREA_LENGTH, "an area of a row", "the refusal");
}

/* Each number of an answer by itself, and the place of a bad byte. */
static void numbers(void) {
    uint64_t answer = (uint64_t)12 | (uint64_t)5 << 8 | (uint64_t)1000000 << 16 | (uint64_t)1024 << 40 | (uint64_t)1023 << 52;
    uint8_t word[4] = {0, 1, 0, 2};
    expect(rm_refusal(answer) == 12 && rm_rounds(answer) == 5 && rm_leaves(answer) == 1000000, "unpacking", "a count");
    expect(rm_mended(answer) == 1024 && rm_place(answer) == 1023, "unpacking", "a place");
    answer = rm_is_codeword(2, 1, word, 4);
    expect(rm_refusal(answer) == RM_BAD_BYTE && rm_place(answer) == 3, "a byte above 1", "the place");
}

int main(void) {
    encodes("m 2, r 1: message 101", 2, 1, "101", "1100");
    encodes("m 3, r 2: message 0001000", 3, 2, "0001000", "00010001");
    orders_0_and_1();
    order_2();
    example();
    confidences();
    gaps();
    tables();
    tallies();
    load();
    street();
    arrays();
    numbers();
    if (failures == 0) puts("the bench values hold");
    return failures != 0;
}
