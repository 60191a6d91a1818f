/* The demo's wall unit, no part of the library: a counter mode whose carry reaches as far as it is told. */
#ifndef WALL_UNIT_H
#define WALL_UNIT_H

#include <stddef.h>
#include <stdint.h>

enum { BLOCK_LEN = 16 };

/* Q: the first counter block that follows from a tag (RFC 5297, 2.6). */
void first_block(uint8_t block[BLOCK_LEN], const uint8_t tag[BLOCK_LEN]);

/* Adds 1 to the big-endian number in a block, with a carry through its last `reach` bytes and no further. */
void count(uint8_t block[BLOCK_LEN], size_t reach);

/*
 * The ciphertext of a plaintext under a tag and a key of AES-128, which is the second half of a key of
 * AES-SIV. It is the standard's (RFC 5297, 2.6) where the carry reaches through all 16 bytes.
 */
void wall_unit_encrypt(const uint8_t key[BLOCK_LEN], const uint8_t tag[BLOCK_LEN], size_t reach,
                       const uint8_t *plain, size_t len, uint8_t *ciphertext);

#endif
