/*
 * Lane records sealed and opened through kinphlor.h, beside those of a wall unit whose carry stops too soon.
 *
 * The first part is what a program on a tablet or a wall unit does with a record, and may be copied. The
 * second part shows it on a terminal, and checks that all comes out as it must: only then does it exit with 0.
 */
#include <kinphlor.h>

#include <inttypes.h>
#include <stdio.h>
#include <stdlib.h>
#include <string.h>
#include <unistd.h>

#include "wall_unit.h"

/* ---- Records: what a program copies ---- */

enum {
    KEY_LEN = 32,
    AD_LEN = 8,    /* gym (4 bytes), wall (2), lane (2) */
    NONCE_LEN = 8, /* the record's number */
    HEADER_LEN = AD_LEN + NONCE_LEN,
    RECORD_LEN = 40,
    SEALED_LEN = KINPHLOR_TAG_LEN + RECORD_LEN
};

/* The slots of a ring while the gym's key changes. The new key is first: soon most records are under it. */
enum { NEW, OLD, KEYS };

struct lane {
    uint32_t gym;
    uint16_t wall, number;
};

/* Writes a number into width bytes, the most significant first. */
static void put_number(uint8_t *at, size_t width, uint64_t number) {
    while (width > 0) {
        at[--width] = (uint8_t)number;
        number >>= 8;
    }
}

/*
 * The header of a record: the lane is the associated data, the record's number is the nonce. Sealed records
 * do not contain it; both sides make it. A record opens only under the header that it was sealed with.
 */
static void make_header(uint8_t header[HEADER_LEN], struct lane lane, uint64_t number) {
    put_number(header, 4, lane.gym);
    put_number(header + 4, 2, lane.wall);
    put_number(header + 6, 2, lane.number);
    put_number(header + AD_LEN, NONCE_LEN, number);
}

/*
 * Seals a record. Each has a number of its own: two records of a lane under one number tell a listener
 * whether they are equal, and nothing else.
 */
static uint64_t seal_record(const uint8_t key[KEY_LEN], struct lane lane, uint64_t number,
                            const uint8_t record[RECORD_LEN], uint8_t sealed[SEALED_LEN]) {
    uint8_t header[HEADER_LEN], scratch[RECORD_LEN];

    make_header(header, lane, number);
    return kinphlor_seal(key, KEY_LEN, header, HEADER_LEN, AD_LEN, NONCE_LEN, record, RECORD_LEN, sealed, SEALED_LEN,
                         scratch, sizeof scratch);
}

/* Opens a record. The output is the record only where the answer is KINPHLOR_OK. */
static uint64_t open_record(const uint8_t key[KEY_LEN], struct lane lane, uint64_t number,
                            const uint8_t sealed[SEALED_LEN], uint8_t record[RECORD_LEN]) {
    uint8_t header[HEADER_LEN], scratch[RECORD_LEN];

    make_header(header, lane, number);
    return kinphlor_open(key, KEY_LEN, header, HEADER_LEN, AD_LEN, NONCE_LEN, sealed, SEALED_LEN, record, RECORD_LEN,
                         scratch, sizeof scratch);
}

/* Opens a record while the key changes, whichever key of the ring it was sealed under. */
static uint64_t open_changing(const uint8_t ring[KEYS * KEY_LEN], struct lane lane, uint64_t number,
                              const uint8_t sealed[SEALED_LEN], uint8_t record[RECORD_LEN]) {
    uint8_t header[HEADER_LEN], scratch[RECORD_LEN];

    make_header(header, lane, number);
    return kinphlor_open_ring(KEY_LEN, ring, KEYS * KEY_LEN, header, HEADER_LEN, AD_LEN, NONCE_LEN, sealed, SEALED_LEN,
                              record, RECORD_LEN, scratch, sizeof scratch);
}

/*
 * How many blocks go through the cipher to seal a record, or to try a key on one. A wall unit that knows a
 * block's time, and a call's own, knows by it when a record will be sealed.
 */
static uint64_t record_work(void) { return kinphlor_planned_work(AD_LEN, NONCE_LEN, RECORD_LEN); }

/*
 * How many blocks the header can take at the most, for a gym that knows only how many strings and bytes it
 * will have and that no string is empty; 0 where these are out of bounds. Where strings may be empty, as
 * kinphlor_seal's associated data may, the least is 0 in place of 1.
 */
static uint32_t worst_header(size_t strings, size_t bytes) {
    uint32_t lens[KINPHLOR_STRINGS_MAX];

    return kinphlor_blocks(kinphlor_worst_header(bytes, strings, 1, lens));
}

/* Whether a result has this answer and this length. */
static int is(uint64_t result, uint32_t number, uint32_t length) {
    return kinphlor_number(result) == number && kinphlor_length(result) == length;
}

/* Green only for a whole record that opened clean; else amber. */
static int is_green(uint64_t result) { return is(result, KINPHLOR_OK, RECORD_LEN); }

/* Stands for reading a key from where the gym keeps it. A real key is never in a program's text. */
static void load_key(uint8_t key[KEY_LEN], unsigned which) {
    size_t i;

    for (i = 0; i < KEY_LEN; i++) key[i] = (uint8_t)(which * KEY_LEN + i);
}

/* Writes zeros that the compiler may not leave out, as it may with memset on memory that is read no more. */
static void wipe(uint8_t *bytes, size_t len) {
    volatile uint8_t *at = bytes;

    while (len-- > 0) *at++ = 0;
}

/* ---- The show ---- */

enum { BLOCKS = (RECORD_LEN + BLOCK_LEN - 1) / BLOCK_LEN, MOST_RECORDS = 4000000, FILL = 0xa5 };

/* How many bytes a counter's carry runs through: in the standard all, in the wall unit two. */
enum { RIGHT = BLOCK_LEN, SHORT = 2 };

static const struct lane LANE = {412, 3, 7};
static const uint8_t ZEROS[RECORD_LEN];

static int failures = 0;

/* Counts what did not come out as it must, and goes on: main always reaches its end, and wipes the keys. */
static int must(const char *what, int holds) {
    if (!holds) {
        fprintf(stderr, "demo: FAILED: %s\n", what);
        failures++;
    }
    return holds;
}

/* The record with that number, of up to eight digits: 40 bytes of text. */
static void make_record(uint8_t record[RECORD_LEN], uint64_t number) {
    char text[64];

    snprintf(text, sizeof text, "descent %08" PRIu64 ", 14.20 m in 09.61 s, ok", number);
    memcpy(record, text, RECORD_LEN);
}

/* Seals the record with that number, and has a counter mode of the demo's own give the same bytes. */
static int seal_checked(const uint8_t key[KEY_LEN], uint64_t number, uint8_t record[RECORD_LEN],
                        uint8_t sealed[SEALED_LEN]) {
    uint8_t own[RECORD_LEN];
    uint64_t result;

    make_record(record, number);
    result = seal_record(key, LANE, number, record, sealed);
    if (!must("a record is sealed", is(result, KINPHLOR_OK, SEALED_LEN))) return 0;
    wall_unit_encrypt(key + KEY_LEN / 2, sealed, RIGHT, record, RECORD_LEN, own);
    return must("a carry through all bytes gives the library's ciphertext",
                memcmp(own, sealed + KINPHLOR_TAG_LEN, RECORD_LEN) == 0);
}

/* Whether the words GREEN and AMBER are coloured: on a terminal that can, for a reader who does not mind. */
static int in_colour(void) {
    const char *const plain = getenv("NO_COLOR"), *const terminal = getenv("TERM");

    return isatty(STDOUT_FILENO) && !(plain && plain[0]) && terminal && strcmp(terminal, "dumb") != 0;
}

/* The colour that a result gives the lane, in that colour where it can be. */
static void show_lane(uint64_t result) {
    const char *const word = is_green(result) ? "GREEN" : "AMBER";

    if (in_colour()) {
        printf("\033[%dm%s\033[0m   ", is_green(result) ? 32 : 33, word);
    } else {
        printf("%s   ", word);
    }
}

/* A row of up to 16 bytes, with a label and a note. */
static void show(const char *label, const uint8_t *bytes, size_t len, const char *note) {
    size_t i;

    printf("  %-14s", label);
    for (i = 0; i < len; i++) printf(" %02x", bytes[i]);
    printf("%s%s\n", note[0] ? "   " : "", note);
}

/* ^^ under each byte of a row that differs from another row's. Only the first `len` are compared. */
static void mark(const uint8_t *row, const uint8_t *other, size_t row_len, size_t len, const char *note) {
    size_t i;

    if (memcmp(row, other, len) == 0) return;
    printf("  %-14s", "");
    for (i = 0; i < row_len; i++) printf(" %s", i < len && row[i] != other[i] ? "^^" : "  ");
    printf("   %s\n", note);
}

/* Q and the counter blocks that follow from a tag. */
static void show_blocks(const uint8_t tag[KINPHLOR_TAG_LEN]) {
    uint8_t block[BLOCK_LEN], next[BLOCK_LEN], stopped[BLOCK_LEN];
    char label[16];
    unsigned i;

    first_block(block, tag);
    show("Q", block, BLOCK_LEN, "top bits of bytes 8 and 12 clear");
    show("Q + 0", block, BLOCK_LEN, "");
    for (i = 1; i < BLOCKS; i++) {
        memcpy(next, block, BLOCK_LEN);
        memcpy(stopped, block, BLOCK_LEN);
        count(next, RIGHT);
        count(stopped, SHORT);
        snprintf(label, sizeof label, "Q + %u", i);
        show(label, next, BLOCK_LEN, "");
        mark(block, next, BLOCK_LEN, BLOCK_LEN - 1, "changed by the carry");
        if (memcmp(next, stopped, BLOCK_LEN) != 0) {
            show("  and not", stopped, BLOCK_LEN, "where a carry stops at two bytes");
        }
        memcpy(block, next, BLOCK_LEN);
    }
}

/* The ciphertexts of Kinphlor and the wall unit, block by block: once where both are the same. */
static void show_ciphertexts(const uint8_t right[RECORD_LEN], const uint8_t units[RECORD_LEN]) {
    char label[24];
    size_t at, len;

    for (at = 0; at < RECORD_LEN; at += len) {
        len = RECORD_LEN - at < BLOCK_LEN ? RECORD_LEN - at : BLOCK_LEN;
        snprintf(label, sizeof label, "ciphertext %u", (unsigned)(at / BLOCK_LEN));
        if (memcmp(right + at, units + at, len) == 0) {
            show(label, right + at, len, "the same from both");
        } else {
            show(label, right + at, len, "from Kinphlor");
            show("", units + at, len, "from the wall unit");
            mark(right + at, units + at, len, len, "a different counter block was enciphered");
        }
    }
}

/* Opens a sealed record as the tablet does, and shows what came of it. */
static uint64_t show_opening(const char *label, const uint8_t key[KEY_LEN], uint64_t number,
                             const uint8_t sealed[SEALED_LEN], const uint8_t record[RECORD_LEN]) {
    uint8_t opened[RECORD_LEN];
    uint64_t result;

    memset(opened, FILL, sizeof opened);
    result = open_record(key, LANE, number, sealed, opened);
    printf("  %-14s ", label);
    show_lane(result);
    if (kinphlor_number(result) == KINPHLOR_OK) {
        must("a record opens to what was sealed", memcmp(opened, record, RECORD_LEN) == 0);
        printf("opened: \"%.*s\"\n", RECORD_LEN, (const char *)opened);
    } else {
        must("a refused record leaves zeros", memcmp(opened, ZEROS, RECORD_LEN) == 0);
        printf("refused: %u, %s; output wiped\n", (unsigned)kinphlor_number(result),
               kinphlor_text(kinphlor_number(result)));
    }
    return result;
}

/* Shows a record as both seal it; they differ where the unit miscounts. Leaves Kinphlor's in sealed. */
static void show_both(const uint8_t key[KEY_LEN], uint64_t number, const char *why, int miscounted,
                      uint8_t sealed[SEALED_LEN]) {
    const size_t last = SEALED_LEN - RECORD_LEN % BLOCK_LEN;
    uint8_t header[HEADER_LEN], record[RECORD_LEN], units[SEALED_LEN];

    printf("Record %" PRIu64 ": %s.\n\n", number, why);
    if (!seal_checked(key, number, record, sealed)) return;
    memcpy(units, sealed, KINPHLOR_TAG_LEN);
    wall_unit_encrypt(key + KEY_LEN / 2, sealed, SHORT, record, RECORD_LEN, units + KINPHLOR_TAG_LEN);
    must("the first two blocks of the ciphertext are the same", memcmp(units, sealed, last) == 0);
    must("the last differs where the third counter block needs a carry, and only there",
         (memcmp(units + last, sealed + last, SEALED_LEN - last) != 0) == miscounted);

    make_header(header, LANE, number);
    printf("  %-14s  0  1  2  3  4  5  6  7  8  9 10 11 12 13 14 15\n", "");
    show("header", header, HEADER_LEN, "lane, then number (the nonce)");
    show("tag V", sealed, KINPHLOR_TAG_LEN, "sent first");
    show_blocks(sealed);
    show_ciphertexts(sealed + KINPHLOR_TAG_LEN, units + KINPHLOR_TAG_LEN);
    must("Kinphlor's record opens",
         is(show_opening("Kinphlor's", key, number, sealed, record), KINPHLOR_OK, RECORD_LEN));
    must("the wall unit's opens where it is the same, and is else refused with 8",
         is(show_opening("wall unit's", key, number, units, record),
            miscounted ? KINPHLOR_FORGED : KINPHLOR_OK, miscounted ? 0 : RECORD_LEN));
    puts("");
}

/* How many of the 65,536 ends of a tag need a carry past two bytes within a record. */
static unsigned ends_with_carry(void) {
    unsigned end, found = 0;

    for (end = 0; end < 65536; end++) {
        uint8_t right[BLOCK_LEN] = {0}, stopped[BLOCK_LEN] = {0};
        unsigned i;

        put_number(right + BLOCK_LEN - 2, 2, end);
        put_number(stopped + BLOCK_LEN - 2, 2, end);
        for (i = 1; i < BLOCKS; i++) {
            count(right, RIGHT);
            count(stopped, SHORT);
        }
        if (memcmp(right, stopped, BLOCK_LEN) != 0) found++;
    }
    return found;
}

/* The same record with one bit changed on its way. */
static void show_damaged(const uint8_t key[KEY_LEN], uint64_t number, const uint8_t sealed[SEALED_LEN]) {
    const uint8_t *const was = sealed + KINPHLOR_TAG_LEN;
    uint8_t record[RECORD_LEN], damaged[SEALED_LEN], *const now = damaged + KINPHLOR_TAG_LEN;

    make_record(record, number);
    printf("Record %" PRIu64 " as Kinphlor sealed it, one bit of its ciphertext changed on the way.\n\n", number);
    memcpy(damaged, sealed, SEALED_LEN);
    now[5] ^= 0x01;
    show("was", was, BLOCK_LEN, "");
    show("is", now, BLOCK_LEN, "");
    mark(was, now, BLOCK_LEN, BLOCK_LEN, "damaged");
    must("a damaged record is refused with 8",
         is(show_opening("damaged", key, number, damaged, record), KINPHLOR_FORGED, 0));
    puts("");
}

/* Seals a record under a key and opens it under the ring, which has the key in that slot; KEYS is none. */
static void show_changing(const uint8_t ring[KEYS * KEY_LEN], const uint8_t key[KEY_LEN], uint32_t slot,
                          uint64_t number, const char *why) {
    static const char *const names[KEYS] = {"the new key", "the old key"};
    uint8_t record[RECORD_LEN], sealed[SEALED_LEN], opened[RECORD_LEN];
    const uint32_t tried = slot < KEYS ? slot + 1 : KEYS;
    uint64_t result;

    if (!seal_checked(key, number, record, sealed)) return;
    memset(opened, FILL, sizeof opened);
    result = open_changing(ring, LANE, number, sealed, opened);
    printf("  %-14" PRIu64 " ", number);
    show_lane(result);
    printf("%-26s   %2" PRIu64 " blocks   ", why, tried * record_work());
    if (slot < KEYS) {
        must("a record opens under the ring", is(result, KINPHLOR_OK, RECORD_LEN));
        must("the slot is that of its key", kinphlor_slot(result) == slot);
        must("it opens to what was sealed", memcmp(opened, record, RECORD_LEN) == 0);
        printf("opened by slot %u, %s\n", (unsigned)kinphlor_slot(result), names[slot]);
    } else {
        must("a record under neither key is refused with 8", is(result, KINPHLOR_FORGED, 0));
        must("a refusal has slot 0", kinphlor_slot(result) == 0);
        must("its output is zeros", memcmp(opened, ZEROS, RECORD_LEN) == 0);
        printf("refused: %u; output wiped\n", (unsigned)kinphlor_number(result));
    }
}

/* The worst headers of a few strings and bytes, with the blocks that they must have. */
static void show_headers(void) {
    static const struct {
        size_t strings, bytes;
        uint32_t blocks;
    } rows[] = {{2, 16, 2}, {2, 32, 3}, {4, 64, 7}, {4, 256, 19}, {126, 142, 127}, {126, 1024, 182}};
    size_t i;

    puts("A gym that has yet to choose its header strings can plan for the worst. With none empty, they take");
    puts("at most:\n");
    puts("  strings  bytes together  blocks");
    for (i = 0; i < sizeof rows / sizeof rows[0]; i++) {
        const uint32_t blocks = worst_header(rows[i].strings, rows[i].bytes);

        must("a block for each string, and one for every 16 bytes beyond a byte for each", blocks == rows[i].blocks);
        printf("  %7zu  %14zu  %6" PRIu32 "\n", rows[i].strings, rows[i].bytes, blocks);
    }
    must("three strings in two bytes are refused", worst_header(3, 2) == 0);
    puts("");
}

/* The first record number whose tag ends in these two bytes, or 0. One number in 65,536 has such a tag. */
static uint64_t search(const uint8_t key[KEY_LEN], uint8_t last_but_one, uint8_t last) {
    uint8_t record[RECORD_LEN], sealed[SEALED_LEN];
    uint64_t number, result;

    for (number = 1; number <= MOST_RECORDS; number++) {
        make_record(record, number);
        result = seal_record(key, LANE, number, record, sealed);
        if (!must("a record is sealed", is(result, KINPHLOR_OK, SEALED_LEN))) return 0;
        if (sealed[KINPHLOR_TAG_LEN - 2] == last_but_one && sealed[KINPHLOR_TAG_LEN - 1] == last) return number;
    }
    return 0;
}

int main(void) {
    uint8_t ring[KEYS * KEY_LEN], strange[KEY_LEN], sealed[SEALED_LEN] = {0}, other[SEALED_LEN];
    uint8_t *const key = ring + OLD * KEY_LEN;
    uint64_t plain, carry;

    load_key(key, 0);
    load_key(ring + NEW * KEY_LEN, 1);
    load_key(strange, 2);
    printf("After each descent, lane %u of wall %u in gym %lu seals a record of %u bytes with AES-SIV (RFC 5297).\n",
           (unsigned)LANE.number, (unsigned)LANE.wall, (unsigned long)LANE.gym, (unsigned)RECORD_LEN);
    puts("A tablet opens it: the lane is GREEN if it opens, AMBER if not. Here Kinphlor seals the record, and");
    puts("beside it a wall unit whose carry stops after two bytes. The standard's runs through all sixteen.\n");
    plain = search(key, 0x3a, 0x10);
    carry = search(key, 0xff, 0xfe);
    if (must("a record has a tag that ends in 3a 10", plain != 0) && must("and one in ff fe", carry != 0)) {
        show_both(key, carry, "its tag ends in ff fe, and the third counter block needs a carry", 1, sealed);
        must("two ends of a tag in 65,536 need a carry past two bytes", ends_with_carry() == 2);
        puts("At 40 bytes this is one record in 32,768: those whose tag ends in ff fe or ff ff.\n");
        show_both(key, plain, "its tag ends in 3a 10, and no block needs a carry", 0, other);
        show_damaged(key, carry, sealed);

        must("a record takes 2 blocks, 1 for the lane, 1 for its number, and 3 and 3 for 40 bytes",
             record_work() == 10);
        puts("The gym changes its key. While records under the old one still arrive, the tablet has a ring of");
        puts("both: the new key in slot 0, the old key in slot 1. Each key that it tries takes 10 blocks.\n");
        show_changing(ring, ring + NEW * KEY_LEN, NEW, carry + 2, "sealed after the change");
        show_changing(ring, ring + OLD * KEY_LEN, OLD, carry + 1, "sealed before it, comes late");
        show_changing(ring, strange, KEYS, carry + 3, "sealed under neither key");
        puts("");
        show_headers();
    }
    wipe(ring, sizeof ring);
    wipe(strange, sizeof strange);
    if (failures > 0) return 1;
    puts("demo: four records opened as sealed; refused: one miscounted, one damaged, one under another key");
    return 0;
}
