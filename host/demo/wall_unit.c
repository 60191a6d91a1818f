/* AES-128 (FIPS 197) and a counter mode over it, for the demo alone: short, slow, no part of the library. */
#include "wall_unit.h"

#include <string.h>

enum { ROUNDS = 10, WORD_LEN = 4 };

/* A product in the field of FIPS 197, section 4. */
static uint8_t product(uint8_t a, uint8_t b) {
    uint8_t sum = 0;

    for (; b != 0; b >>= 1) {
        if (b & 1) sum ^= a;
        a = (uint8_t)(a << 1 ^ (a >> 7) * 0x1b);
    }
    return sum;
}

/* The S-box as it is defined: the inverse, which is the power 254, then the affine map. */
static uint8_t sbox(uint8_t a) {
    uint8_t inverse = 1;
    unsigned i, twice;

    for (i = 0; i < 254; i++) inverse = product(inverse, a);
    twice = inverse * 0x101u;
    return (uint8_t)(0x63 ^ twice ^ twice >> 4 ^ twice >> 5 ^ twice >> 6 ^ twice >> 7);
}

/* Makes the next round key out of one. */
static void next_round_key(uint8_t key[BLOCK_LEN], uint8_t constant) {
    size_t i;

    for (i = 0; i < WORD_LEN; i++) key[i] ^= sbox(key[BLOCK_LEN - WORD_LEN + (i + 1) % WORD_LEN]);
    key[0] ^= constant;
    for (i = WORD_LEN; i < BLOCK_LEN; i++) key[i] ^= key[i - WORD_LEN];
}

/* SubBytes and ShiftRows: a row is every fourth byte, and row r moves r columns to the left. */
static void substitute_and_shift(uint8_t state[BLOCK_LEN]) {
    uint8_t from[BLOCK_LEN];
    size_t i;

    memcpy(from, state, BLOCK_LEN);
    for (i = 0; i < BLOCK_LEN; i++) state[i] = sbox(from[(i + i % WORD_LEN * WORD_LEN) % BLOCK_LEN]);
}

static void mix_columns(uint8_t state[BLOCK_LEN]) {
    uint8_t from[BLOCK_LEN];
    size_t i;

    memcpy(from, state, BLOCK_LEN);
    for (i = 0; i < BLOCK_LEN; i++) {
        const uint8_t *const column = from + i / WORD_LEN * WORD_LEN;

        state[i] = (uint8_t)(product(2, column[i % WORD_LEN]) ^ product(3, column[(i + 1) % WORD_LEN]) ^
                             column[(i + 2) % WORD_LEN] ^ column[(i + 3) % WORD_LEN]);
    }
}

static void add(uint8_t state[BLOCK_LEN], const uint8_t key[BLOCK_LEN]) {
    size_t i;

    for (i = 0; i < BLOCK_LEN; i++) state[i] ^= key[i];
}

static void aes_128(const uint8_t key[BLOCK_LEN], uint8_t state[BLOCK_LEN]) {
    uint8_t round_key[BLOCK_LEN], constant = 1;
    int round;

    memcpy(round_key, key, BLOCK_LEN);
    add(state, round_key);
    for (round = 1; round <= ROUNDS; round++) {
        substitute_and_shift(state);
        if (round < ROUNDS) mix_columns(state);
        next_round_key(round_key, constant);
        constant = product(2, constant);
        add(state, round_key);
    }
}

void first_block(uint8_t block[BLOCK_LEN], const uint8_t tag[BLOCK_LEN]) {
    memcpy(block, tag, BLOCK_LEN);
    block[8] &= 0x7f;
    block[12] &= 0x7f;
}

void count(uint8_t block[BLOCK_LEN], size_t reach) {
    size_t i = BLOCK_LEN;

    while (i > BLOCK_LEN - reach && ++block[i - 1] == 0) i--;
}

void wall_unit_encrypt(const uint8_t key[BLOCK_LEN], const uint8_t tag[BLOCK_LEN], size_t reach,
                       const uint8_t *plain, size_t len, uint8_t *ciphertext) {
    uint8_t block[BLOCK_LEN], stream[BLOCK_LEN];
    size_t i;

    first_block(block, tag);
    for (i = 0; i < len; i++) {
        if (i % BLOCK_LEN == 0) {
            memcpy(stream, block, BLOCK_LEN);
            aes_128(key, stream);
            count(block, reach);
        }
        ciphertext[i] = plain[i] ^ stream[i % BLOCK_LEN];
    }
}
