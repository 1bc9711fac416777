/* A receive loop in C: reads a capture from standard input, decodes each record by the gateway's calls and prints billing's listing, line for
 * line what the program meter_list prints. It is C++ as well.
 *
 *   .ci/archive gateway && cc -Iinclude samples/gateway.c target/staticlib/libgateway.a -o target/gateway && target/gateway <samples/example.cap
 */
#include <stdio.h>
#include <string.h>

#include "gateway.h"

static const struct {
    size_t m, r, bits;
} profiles[GATEWAY_PROFILES] = {{5, 1, 6}, {6, 2, 22}, {7, 2, 29}, {8, 2, 37}, {8, 3, 93}};

/* What a record's serial, profile and bits are read to. */
struct record {
    unsigned long serial;
    size_t profile;
    uint8_t word[GATEWAY_PROFILE_PLACES];
};

enum found { RECORD, NO_RECORD, UNKNOWN_PROFILE, CUT_SHORT };

/* Place 0 stands in the top bit of the first byte. */
static void unpack(const uint8_t *packed, uint8_t *word, size_t places) {
    size_t i;
    for (i = 0; i < places; i++) word[i] = (uint8_t)(packed[i / 8] >> (7 - i % 8) & 1);
}

static enum found next_record(struct record *record) {
    uint8_t head[5], packed[GATEWAY_PROFILE_PLACES / 8];
    size_t places, got = fread(head, 1, sizeof head, stdin);
    if (got == 0) return NO_RECORD;
    if (got < sizeof head) return CUT_SHORT;
    record->serial = (unsigned long)head[0] << 24 | (unsigned long)head[1] << 16 | (unsigned long)head[2] << 8 | head[3];
    record->profile = head[4];
    if (record->profile >= GATEWAY_PROFILES) return UNKNOWN_PROFILE;
    places = (size_t)1 << profiles[record->profile].m;
    if (fread(packed, 1, places / 8, stdin) < places / 8) return CUT_SHORT;
    unpack(packed, record->word, places);
    return RECORD;
}

/* First message bit on top, zero bits filling the last byte. */
static void print_message(const uint8_t *message, size_t bits) {
    size_t i, j;
    for (i = 0; i < bits; i += 8) {
        unsigned byte = 0;
        for (j = i; j < i + 8; j++) byte = byte << 1 | (j < bits ? message[j] : 0u);
        printf("%02x", byte);
    }
}

/* Decodes a record and prints its line; whether it was accepted. */
static int print_record(const struct record *record) {
    size_t m = profiles[record->profile].m, r = profiles[record->profile].r, bits = profiles[record->profile].bits, places = (size_t)1 << m;
    uint8_t codeword[GATEWAY_PROFILE_PLACES], message[GATEWAY_PROFILE_BITS];
    uint64_t answer = gateway_decode(record->profile, record->word, places, codeword, places);
    if (gateway_refusal(answer) == GATEWAY_ACCEPTED) answer = gateway_read_message(m, r, codeword, places, message, bits);
    printf("%010lu ", record->serial);
    if (gateway_refusal(answer) != GATEWAY_ACCEPTED) {
        printf("refused %u\n", gateway_refusal(answer));
        return 0;
    }
    print_message(message, bits);
    putchar('\n');
    return 1;
}

static int header_is_right(void) {
    uint8_t header[5];
    return fread(header, 1, sizeof header, stdin) == sizeof header && memcmp(header, "WMR\0\1", sizeof header) == 0;
}

int main(void) {
    struct record record;
    unsigned long records = 0, accepted = 0;
    enum found found;
    if (!header_is_right()) {
        puts("file refused 15");
        return 0;
    }
    while ((found = next_record(&record)) == RECORD) {
        records++;
        accepted += (unsigned long)print_record(&record);
    }
    if (found == UNKNOWN_PROFILE) printf("%010lu refused %d\n", record.serial, GATEWAY_PROFILE);
    if (found == CUT_SHORT) puts("---------- refused 16");
    if (found != NO_RECORD) records++;
    printf("%lu records, %lu accepted\n", records, accepted);
    return 0;
}
