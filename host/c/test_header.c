/* kinphlor.h called from C and C++: sealing, opening, rings, damaged records,
   NULL for empty buffers, planned work, worst headers, texts. */
#include "kinphlor.h"

#include <stdio.h>
#include <stdlib.h>
#include <string.h>

#define PLAIN_LEN 40
#define SEALED_LEN (PLAIN_LEN + KINPHLOR_TAG_LEN)
#define LATER 8 /* bytes of output and scratch past the need */
#define FILL 0xa5
#define BESIDE 4 /* lengths before and behind the places of a header list */

static unsigned checks = 0;

#define CHECK(what, holds) check(what, holds, __LINE__)

static void check(const char *what, int holds, int line) {
    if (!holds) {
        fprintf(stderr, "c: FAILED at line %d: %s\n", line, what);
        exit(1);
    }
    checks++;
}

static void check_result(const char *what, uint64_t result, uint32_t number, uint32_t slot, uint32_t length, int line) {
    if (kinphlor_number(result) != number || kinphlor_slot(result) != slot || kinphlor_length(result) != length) {
        fprintf(stderr, "c: FAILED at line %d: %s: expected %lu (%s), slot %lu, length %lu, got %lu (%s), slot %lu, length %lu\n",
                line, what, (unsigned long)number, kinphlor_text(number), (unsigned long)slot, (unsigned long)length,
                (unsigned long)kinphlor_number(result), kinphlor_text(kinphlor_number(result)),
                (unsigned long)kinphlor_slot(result), (unsigned long)kinphlor_length(result));
        exit(1);
    }
    checks++;
}

#define CHECK_RESULT(what, result, number, length) check_result(what, result, number, 0, length, __LINE__)

/* Whether each of the bytes has the value. */
static int all(const uint8_t *bytes, size_t len, uint8_t value) {
    size_t i;
    for (i = 0; i < len; i++) {
        if (bytes[i] != value) return 0;
    }
    return 1;
}

static uint8_t key[64];
static uint8_t ring[(KINPHLOR_RING_MAX + 1) * sizeof key];
static uint8_t header[32];
static uint8_t plain[PLAIN_LEN];
static uint8_t sealed[SEALED_LEN + LATER];
static uint8_t opened[PLAIN_LEN + LATER];
static uint8_t scratch[PLAIN_LEN + LATER];

static void fill(void) {
    memset(opened, FILL, sizeof opened);
    memset(scratch, FILL, sizeof scratch);
}

/* An opening of the record in memory that was filled: its result, and what the memory holds after it. */
static void check_opening(const char *what, uint64_t result, uint32_t number, uint32_t slot, int line) {
    const int ok = number == KINPHLOR_OK, forged = number == KINPHLOR_FORGED;

    check_result(what, result, number, slot, ok ? PLAIN_LEN : 0, line);
    if (ok) {
        check("a sealed record opens to its plaintext", memcmp(opened, plain, PLAIN_LEN) == 0, line);
    } else {
        check("zeros in the plaintext's place, or what was there", all(opened, PLAIN_LEN, forged ? 0 : FILL), line);
    }
    check("opening leaves later output bytes", all(opened + PLAIN_LEN, LATER, FILL), line);
    check("opening wipes the scratch, or leaves it", all(scratch, PLAIN_LEN, ok || forged ? 0 : FILL), line);
    check("opening leaves later scratch bytes", all(scratch + PLAIN_LEN, LATER, FILL), line);
}

#define CHECK_OPENING(what, call, number, slot) (fill(), check_opening(what, call, number, slot, __LINE__))

/* A record with that much associated data sealed, opened, damaged at each byte. */
static void record(size_t key_len, uint32_t ad_len, uint32_t nonce_len) {
    const size_t header_len = (size_t)ad_len + nonce_len;
    size_t i;

    memset(sealed, FILL, sizeof sealed);
    memset(scratch, FILL, sizeof scratch);
    CHECK_RESULT("seal", kinphlor_seal_nullable(key, key_len, header, header_len, ad_len, nonce_len, plain, PLAIN_LEN,
                                                sealed, sizeof sealed, scratch, sizeof scratch),
                 KINPHLOR_OK, SEALED_LEN);
    CHECK("sealing leaves later output bytes", all(sealed + SEALED_LEN, LATER, FILL));
    CHECK("sealing wipes the scratch", all(scratch, PLAIN_LEN, 0) && all(scratch + PLAIN_LEN, LATER, FILL));

    CHECK_OPENING("open", kinphlor_open_nullable(key, key_len, header, header_len, ad_len, nonce_len, sealed, SEALED_LEN,
                                                 opened, sizeof opened, scratch, sizeof scratch),
                  KINPHLOR_OK, 0);
    for (i = 0; i < SEALED_LEN; i++) {
        sealed[i] ^= 0x40;
        CHECK_OPENING("open a damaged record",
                      kinphlor_open_nullable(key, key_len, header, header_len, ad_len, nonce_len, sealed, SEALED_LEN, opened,
                                             sizeof opened, scratch, sizeof scratch),
                      KINPHLOR_FORGED, 0);
        sealed[i] ^= 0x40;
    }
}

/* The record opened under the first so many bytes of the ring. */
static uint64_t open_ring(size_t key_len, size_t ring_len) {
    return kinphlor_open_ring_nullable(key_len, ring, ring_len, header, 16, 0, 16, sealed, SEALED_LEN, opened,
                                       sizeof opened, scratch, sizeof scratch);
}

/* A record sealed under the key of each slot; opened under rings that have this slot, and under rings that have not. */
static void rings(size_t key_len) {
    uint32_t slot, count;

    for (slot = 0; slot <= KINPHLOR_RING_MAX; slot++) {
        CHECK_RESULT("seal", kinphlor_seal(ring + slot * key_len, key_len, header, 16, 0, 16, plain, PLAIN_LEN, sealed,
                                           sizeof sealed, scratch, sizeof scratch),
                     KINPHLOR_OK, SEALED_LEN);
        for (count = 1; count <= KINPHLOR_RING_MAX; count++) {
            if (slot < count) {
                CHECK_OPENING("open under a ring", open_ring(key_len, count * key_len), KINPHLOR_OK, slot);
            } else {
                CHECK_OPENING("no key of the ring opens", open_ring(key_len, count * key_len), KINPHLOR_FORGED, 0);
            }
            CHECK_OPENING("a byte too many", open_ring(key_len, count * key_len + 1), KINPHLOR_RING_LENGTH, 0);
        }
        CHECK_OPENING("five keys", open_ring(key_len, 5 * key_len), KINPHLOR_RING_LENGTH, 0);
        CHECK_OPENING("a length that is no key's", open_ring(key_len - 1, 2 * (key_len - 1)), KINPHLOR_KEY_LENGTH, 0);
    }
}

/* NULL with length 0 in each place. */
static void nulls(void) {
    uint8_t tag[KINPHLOR_TAG_LEN];

    CHECK_RESULT("no key", kinphlor_seal_nullable(NULL, 0, NULL, 0, 0, 0, NULL, 0, NULL, 0, NULL, 0), KINPHLOR_KEY_LENGTH, 0);
    CHECK_RESULT("no key", kinphlor_open_nullable(NULL, 0, NULL, 0, 0, 0, NULL, 0, NULL, 0, NULL, 0), KINPHLOR_KEY_LENGTH, 0);
    CHECK_RESULT("no associated data and no nonce",
                 kinphlor_seal_nullable(key, 32, NULL, 0, 0, 0, plain, PLAIN_LEN, sealed, sizeof sealed, scratch,
                                        sizeof scratch),
                 KINPHLOR_EMPTY_NONCE, 0);
    CHECK_RESULT("no header but lengths",
                 kinphlor_seal_nullable(key, 32, NULL, 0, 0, 16, plain, PLAIN_LEN, sealed, sizeof sealed, scratch,
                                        sizeof scratch),
                 KINPHLOR_HEADER_LENGTHS, 0);
    CHECK_RESULT("no sealed record", kinphlor_open_nullable(key, 32, header, 16, 0, 16, NULL, 0, NULL, 0, NULL, 0),
                 KINPHLOR_SEALED_LENGTH, 0);
    CHECK_RESULT("no output", kinphlor_seal_nullable(key, 32, header, 16, 0, 16, plain, PLAIN_LEN, NULL, 0, NULL, 0),
                 KINPHLOR_OUTPUT_SHORT, 0);
    CHECK_RESULT("no scratch",
                 kinphlor_seal_nullable(key, 32, header, 16, 0, 16, plain, PLAIN_LEN, sealed, sizeof sealed, NULL, 0),
                 KINPHLOR_SCRATCH_SHORT, 0);
    CHECK_RESULT("no plaintext",
                 kinphlor_seal_nullable(key, 32, header, 16, 0, 16, NULL, 0, tag, sizeof tag, scratch, sizeof scratch),
                 KINPHLOR_OK, KINPHLOR_TAG_LEN);
    CHECK_RESULT("no output for an empty plaintext",
                 kinphlor_open_nullable(key, 32, header, 16, 0, 16, tag, sizeof tag, NULL, 0, scratch, sizeof scratch),
                 KINPHLOR_OK, 0);
}

/* The same for a ring of two keys, the second of which opens. */
static void ring_nulls(void) {
    uint8_t tag[KINPHLOR_TAG_LEN];

    CHECK_RESULT("seal an empty plaintext",
                 kinphlor_seal_nullable(ring + 32, 32, header, 16, 0, 16, NULL, 0, tag, sizeof tag, scratch,
                                        sizeof scratch),
                 KINPHLOR_OK, KINPHLOR_TAG_LEN);
    CHECK_RESULT("no key length", kinphlor_open_ring_nullable(0, NULL, 0, NULL, 0, 0, 0, NULL, 0, NULL, 0, NULL, 0),
                 KINPHLOR_KEY_LENGTH, 0);
    CHECK_RESULT("no ring", kinphlor_open_ring_nullable(32, NULL, 0, NULL, 0, 0, 0, NULL, 0, NULL, 0, NULL, 0),
                 KINPHLOR_RING_LENGTH, 0);
    CHECK_RESULT("no header", kinphlor_open_ring_nullable(32, ring, 64, NULL, 0, 0, 0, NULL, 0, NULL, 0, NULL, 0),
                 KINPHLOR_EMPTY_NONCE, 0);
    CHECK_RESULT("no header but lengths",
                 kinphlor_open_ring_nullable(32, ring, 64, NULL, 0, 0, 16, NULL, 0, NULL, 0, NULL, 0),
                 KINPHLOR_HEADER_LENGTHS, 0);
    CHECK_RESULT("no sealed record",
                 kinphlor_open_ring_nullable(32, ring, 64, header, 16, 0, 16, NULL, 0, NULL, 0, NULL, 0),
                 KINPHLOR_SEALED_LENGTH, 0);
    CHECK_RESULT("no output",
                 kinphlor_open_ring_nullable(32, ring, 64, header, 16, 0, 16, sealed, SEALED_LEN, NULL, 0, NULL, 0),
                 KINPHLOR_OUTPUT_SHORT, 0);
    CHECK_RESULT("no scratch",
                 kinphlor_open_ring_nullable(32, ring, 64, header, 16, 0, 16, tag, sizeof tag, NULL, 0, NULL, 0),
                 KINPHLOR_SCRATCH_SHORT, 0);
    check_result("no output for an empty plaintext",
                 kinphlor_open_ring_nullable(32, ring, 64, header, 16, 0, 16, tag, sizeof tag, NULL, 0, scratch,
                                             sizeof scratch),
                 KINPHLOR_OK, 1, 0, __LINE__);
}

/* The blocks of lengths at the edges, each worked out by hand from the sum that the header states. */
static void planned(void) {
    static const struct {
        uint32_t ad_len, nonce_len;
        size_t n;
        uint64_t blocks;
    } rows[] = {
        {0, 1, 0, 2 + 1 + 1 + 1 + 0},
        {0, 16, 1, 2 + 1 + 1 + 1 + 1},
        {1, 17, 15, 2 + 1 + 2 + 1 + 1},
        {15, 15, 16, 2 + 1 + 1 + 1 + 1},
        {16, 32, 17, 2 + 1 + 2 + 2 + 2},
        {17, 33, 32, 2 + 2 + 3 + 2 + 2},
        {8, 8, 40, 2 + 1 + 1 + 3 + 3},
        {1000, 12, KINPHLOR_LIMIT - 15, 2 + 63 + 1 + 65536 + 65536},
        {0, 1, KINPHLOR_LIMIT, 2 + 1 + 1 + 65536 + 65536},
        {UINT32_MAX, UINT32_MAX, KINPHLOR_LIMIT, 2 + 268435456 + 268435456 + 65536 + 65536},
        {0, 1, KINPHLOR_LIMIT + 1, 0},
        {8, 8, SIZE_MAX, 0},
        {8, 0, 40, 0},
        {0, 0, 0, 0},
    };
    size_t i;

    for (i = 0; i < sizeof rows / sizeof rows[0]; i++) {
        CHECK("planned work", kinphlor_planned_work(rows[i].ad_len, rows[i].nonce_len, rows[i].n) == rows[i].blocks);
    }
}

/* The worst list of figures at the edges, its blocks worked out by hand; 0 blocks where the figures are refused. */
static void worst_header(void) {
    static const struct {
        size_t header_len, count, least;
        uint32_t blocks;
    } rows[] = {
        {17, 126, 0, 2 + 125}, /* the two figures of rule 16.3 */
        {142, 126, 1, 2 + 125},
        {0, 1, 0, 1},
        {0, 126, 0, 126},
        {16, 126, 0, 126},
        {1, 1, 1, 1},
        {126, 126, 1, 126},
        {141, 126, 1, 126},
        {33, 2, 0, 3 + 1},
        {34, 2, 1, 3 + 1},
        {KINPHLOR_HEADER_MAX, 1, 0, 65536},
        {KINPHLOR_HEADER_MAX, 126, 0, 65536 + 125},
        {KINPHLOR_HEADER_MAX, 126, 1, 65529 + 125}, /* 1,048,576 - 125 bytes in one string */
        {0, 0, 0, 0},
        {40, 0, 0, 0},
        {40, 127, 0, 0},
        {40, SIZE_MAX, 0, 0},
        {40, 2, 2, 0},
        {40, 2, SIZE_MAX, 0},
        {0, SIZE_MAX / 2 + 1, 2, 0}, /* a product that wraps to 0 */
        {125, 126, 1, 0},
        {0, 1, 1, 0},
        {KINPHLOR_HEADER_MAX + 1, 126, 0, 0},
        {SIZE_MAX, 1, 1, 0},
    };
    uint32_t memory[BESIDE + KINPHLOR_STRINGS_MAX + BESIDE], *const lens = memory + BESIDE;
    size_t i, j;

    for (i = 0; i < sizeof rows / sizeof rows[0]; i++) {
        const int ok = rows[i].blocks > 0;
        uint64_t result, sum = 0, blocks = 0;

        memset(memory, FILL, sizeof memory);
        result = kinphlor_worst_header(rows[i].header_len, rows[i].count, rows[i].least, lens);
        CHECK("the answer", kinphlor_number(result) == (ok ? KINPHLOR_OK : KINPHLOR_HEADER_PLAN));
        CHECK("the most blocks", kinphlor_blocks(result) == rows[i].blocks);
        for (j = 0; j < KINPHLOR_STRINGS_MAX; j++) {
            if (ok && j < rows[i].count) {
                CHECK("no length under the least", lens[j] >= rows[i].least);
                sum += lens[j];
                blocks += lens[j] == 0 ? 1 : (lens[j] + 15) / 16;
            } else {
                CHECK("zeros past the count, and after a refusal", lens[j] == 0);
            }
        }
        if (ok) {
            CHECK("the list's sum", sum == rows[i].header_len);
            CHECK("the list's blocks", blocks == rows[i].blocks);
        }
        CHECK("memory before is left", all((const uint8_t *)memory, BESIDE * sizeof *lens, FILL));
        CHECK("later memory is left", all((const uint8_t *)(lens + KINPHLOR_STRINGS_MAX), BESIDE * sizeof *lens, FILL));
    }
}

/* The worst header of two strings, asked for as kinphlor.h says: a record is sealed behind it,
   and none takes more blocks. */
static void worst_pair(uint32_t header_len) {
    uint32_t lens[KINPHLOR_STRINGS_MAX], nonce_len;
    const uint64_t result = kinphlor_worst_header(header_len, 2, 0, lens);
    const uint64_t most = 2 + (uint64_t)kinphlor_blocks(result) + 3 + 3;

    CHECK("a list", kinphlor_number(result) == KINPHLOR_OK);
    if (lens[1] == 0) {
        lens[1] = lens[0];
        lens[0] = 0;
    }
    CHECK("the work", kinphlor_planned_work(lens[0], lens[1], PLAIN_LEN) == most);
    record(32, lens[0], lens[1]);
    for (nonce_len = 1; nonce_len <= header_len; nonce_len++) {
        CHECK("no more work", kinphlor_planned_work(header_len - nonce_len, nonce_len, PLAIN_LEN) <= most);
    }
}

/* The numbers are those of the table, and each has a text of its own. */
static void texts(void) {
    static const uint32_t numbers[] = {KINPHLOR_OK,             KINPHLOR_KEY_LENGTH,    KINPHLOR_HEADER_COUNT,
                                       KINPHLOR_HEADER_LENGTHS, KINPHLOR_TOO_LONG,      KINPHLOR_SEALED_LENGTH,
                                       KINPHLOR_OUTPUT_SHORT,   KINPHLOR_SCRATCH_SHORT, KINPHLOR_FORGED,
                                       KINPHLOR_STATE,          KINPHLOR_EMPTY_NONCE,   KINPHLOR_RING_LENGTH,
                                       KINPHLOR_HEADER_PLAN};
    const uint32_t count = sizeof numbers / sizeof numbers[0];
    uint32_t i, j;

    for (i = 0; i < count; i++) {
        CHECK("numbers 0 to 12 in order", numbers[i] == i);
        CHECK("a text", kinphlor_text(i) != NULL && kinphlor_text(i)[0] != 0);
        for (j = i + 1; j <= count; j++) {
            CHECK("no text twice", strcmp(kinphlor_text(i), kinphlor_text(j)) != 0);
        }
    }
    CHECK("a number apart from the rest", kinphlor_number(((uint64_t)8 << 32) + 0xffffffffu) == 8);
    CHECK("a slot apart from the rest", kinphlor_slot(((uint64_t)8 << 32) + 0x3fffffffu) == 3);
    CHECK("a length apart from the rest", kinphlor_length(((uint64_t)8 << 32) + 0xf0123456u) == 0x123456u);
    CHECK("the longest length", kinphlor_length(KINPHLOR_LIMIT + KINPHLOR_TAG_LEN) == 1048592u);
    CHECK("blocks apart from the rest", kinphlor_blocks(((uint64_t)12 << 32) + 0xf0123456u) == 0xf0123456u);
    CHECK("the largest slot", kinphlor_slot((uint64_t)(KINPHLOR_RING_MAX - 1) << 28) == 3);
    CHECK("scratch", kinphlor_scratch_len(0) == 16 && kinphlor_scratch_len(16) == 16 && kinphlor_scratch_len(17) == 17);
}

int main(void) {
    size_t i;
    size_t key_len;

    for (i = 0; i < sizeof key; i++) key[i] = (uint8_t)(3 * i + 1);
    for (i = 0; i < sizeof ring; i++) ring[i] = (uint8_t)(3 * i + i / 64);
    for (i = 0; i < sizeof header; i++) header[i] = (uint8_t)(0xf0 - i);
    for (i = 0; i < sizeof plain; i++) plain[i] = (uint8_t)(5 * i);

    for (key_len = 32; key_len <= 64; key_len += 16) {
        record(key_len, 0, 16);
        record(key_len, 20, 12);
        rings(key_len);
    }
    nulls();
    ring_nulls();
    planned();
    worst_header();
    for (i = 1; i <= sizeof header; i++) worst_pair((uint32_t)i);
    texts();
    printf("c: %u checks passed\n", checks);
    return 0;
}
