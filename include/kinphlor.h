/*
 * kinphlor.h: AES-SIV (RFC 5297) over whole records.
 *
 * This file is C99, and C++11 too. The archive, libkinphlor.a, is for x86-64 with the System V calling
 * convention; it is position-independent and needs nothing but the C library's memcpy and memset.
 *
 *   kinphlor_seal       seals a record under a key
 *   kinphlor_open       opens what was sealed under the same key and header, and refuses all else
 *   kinphlor_open_ring  the same with one to four keys, for the time in which keys change
 *
 * A sealed record is a tag of 16 bytes, then the ciphertext, which is as long as the plaintext; so it always
 * shows the plaintext's length. The header, nonce and all, is not in it: opening it needs the same header.
 *
 * A header is two strings, as in section 3 of the RFC: associated data, which says what the record belongs
 * to and may be empty, and then a nonce, which is 1 byte or more, any bytes. Empty associated data is
 * still a string: another library must be given an empty string and then the nonce. Every record that is
 * sealed under one key with the same associated data must have a nonce of its own. A counter such as the
 * record's number serves: a nonce need be neither random nor secret. Where one is used twice with the same
 * key and associated data, a listener learns whether the two plaintexts are equal, since then the sealed
 * records are equal, and nothing else. RFC 5297 calls this resistance to nonce misuse.
 *
 * The arguments. n is the plaintext's length, 0 to KINPHLOR_LIMIT. Where there must be room, more is fine.
 *
 *   key, key_len        seal, open: 32, 48 or 64 bytes, for AES-128, -192 or -256. The first half makes
 *                       the tag, the second encrypts.
 *   key_len,            open_ring: the length of each key, 32, 48 or 64; and the ring, one to four keys of
 *     ring, ring_len    that length, one directly after the other. A key's place is its slot, 0 to 3.
 *   header, header_len  the associated data, directly followed by the nonce
 *   ad_len, nonce_len   the lengths of these two. Their sum must be header_len; nonce_len must not be 0.
 *   input, input_len    seal: the plaintext, n bytes. open, open_ring: the sealed record, n + 16 bytes.
 *   output, output_len  seal: room for n + 16 bytes. open, open_ring: room for n bytes.
 *   scratch,            working memory, which every call needs: room for kinphlor_scratch_len(n) bytes, which
 *     scratch_len       is n and at least 16. What it has in it does not matter.
 *
 * The result is one number: the answer * 2^32 + a slot * 2^28 + a length.
 *
 *   kinphlor_number(result)  the answer: KINPHLOR_OK, or why the call was refused (kinphlor_text has words)
 *   kinphlor_length(result)  how many bytes were written from the front of the output: n + 16 by seal, n by
 *                            open and open_ring, 0 after a refusal
 *   kinphlor_slot(result)    from open_ring, the slot of the key that opened the record; otherwise 0
 *
 * After 8 (forged), drop the record: it is damaged or forged, or was sealed under another key or header.
 * After 4 or 5 from open or open_ring, drop it too: no sealed record has that length. 6 and 7 ask for more
 * room. Any other refusal is a mistake in the call. Of several that are due, the first in this order is
 * given: 1, 11, 10, 3, 5, 4, 6, 7, 8.
 *
 * What memory holds afterwards:
 *
 *   success         the sealed record or the plaintext at the front of the output; zeros in the scratch bytes
 *                   that were needed
 *   8 (forged)      zeros in the first n bytes of the output, and in the scratch bytes that were needed. The
 *                   code opens into scratch: no byte of an unapproved plaintext is in the output meanwhile.
 *   other refusals  output and scratch are untouched
 *
 * Bytes of output and scratch past these keep their values. Keys, header and input are only read.
 *
 * To change keys, give the new key to all who open, in a ring with the old one; then seal under the new key;
 * take the old one out when no record under it can come any more. The ring's keys are tried from slot 0 on,
 * up to the first that opens the record, so the key of most records belongs in slot 0. With a ring of one
 * key, kinphlor_open_ring does what kinphlor_open does.
 *
 * Each pointer must be valid for its length and not null, even where the length is 0 (the _nullable functions
 * lift that). Output and scratch must overlap neither each other nor keys, header or input. An overlap is the
 * caller's mistake, and the answer does not show it: sealing in place, with the plaintext at the front of the
 * output, answers success, and the record is lost, since what was written does not open.
 *
 * The functions keep nothing between calls and take no memory from the heap. Several threads may call them at
 * the same time, where no call's output or scratch is memory that another uses. What a call had on its own
 * stack, round keys among it, is not wiped when it returns.
 */
#ifndef KINPHLOR_H
#define KINPHLOR_H

#include <stddef.h>
#include <stdint.h>

#ifdef __cplusplus
extern "C" {
#endif

/* The longest plaintext, in bytes. */
#define KINPHLOR_LIMIT 1048576

/* The length of a tag: what sealing adds to a plaintext. */
#define KINPHLOR_TAG_LEN 16

/* The least scratch, in bytes. */
#define KINPHLOR_SCRATCH_MIN 16

/* The most keys in a ring. */
#define KINPHLOR_RING_MAX 4

/* The most header strings, and the most header bytes, that kinphlor_worst_header plans for. */
#define KINPHLOR_STRINGS_MAX 126
#define KINPHLOR_HEADER_MAX 1048576

/* The answers. */
enum kinphlor_answer {
    KINPHLOR_OK = 0,
    KINPHLOR_KEY_LENGTH = 1,     /* key_len is not 32, 48 or 64 */
    KINPHLOR_HEADER_COUNT = 2,   /* more than 126 header strings; never from these functions */
    KINPHLOR_HEADER_LENGTHS = 3, /* ad_len + nonce_len is not header_len */
    KINPHLOR_TOO_LONG = 4,       /* plaintext over 1,048,576 bytes, or sealed record over 1,048,592 */
    KINPHLOR_SEALED_LENGTH = 5,  /* sealed record under 16 bytes */
    KINPHLOR_OUTPUT_SHORT = 6,   /* output too short */
    KINPHLOR_SCRATCH_SHORT = 7,  /* scratch too short */
    KINPHLOR_FORGED = 8,         /* not sealed under this header and key (or a key of the ring) */
    KINPHLOR_STATE = 9,          /* a stream state or head that does not fit; never from these functions */
    KINPHLOR_EMPTY_NONCE = 10,   /* nonce_len is 0 */
    KINPHLOR_RING_LENGTH = 11,   /* ring_len is not one to four times key_len; from open_ring alone */
    KINPHLOR_HEADER_PLAN = 12    /* header_len, count or least out of bounds; from worst_header alone */
};

uint64_t kinphlor_seal(const uint8_t *key, size_t key_len, const uint8_t *header, size_t header_len,
                       uint32_t ad_len, uint32_t nonce_len, const uint8_t *input, size_t input_len,
                       uint8_t *output, size_t output_len, uint8_t *scratch, size_t scratch_len);

uint64_t kinphlor_open(const uint8_t *key, size_t key_len, const uint8_t *header, size_t header_len,
                       uint32_t ad_len, uint32_t nonce_len, const uint8_t *input, size_t input_len,
                       uint8_t *output, size_t output_len, uint8_t *scratch, size_t scratch_len);

uint64_t kinphlor_open_ring(size_t key_len, const uint8_t *ring, size_t ring_len, const uint8_t *header,
                            size_t header_len, uint32_t ad_len, uint32_t nonce_len, const uint8_t *input,
                            size_t input_len, uint8_t *output, size_t output_len, uint8_t *scratch,
                            size_t scratch_len);

/*
 * The work of one record in blocks of 16 bytes that go through the cipher, from lengths alone: what
 * kinphlor_seal takes for n bytes of plaintext, and kinphlor_open for what that gives. It is 2, plus the
 * blocks of associated data, nonce and plaintext (a short last block is one, and an empty string has one),
 * plus n divided by 16, rounded up. It is 0 where the call is refused for one of these lengths: nonce_len is
 * 0, or n is over 1,048,576.
 *
 * kinphlor_open_ring takes it once for each key that it tries: slot + 1 times for a record that opens, as
 * often as the ring has keys for one that is forged, and so at most four times. With one key, a forged
 * record takes as much as a genuine one. Any other refusal comes before the cipher's first block.
 */
uint64_t kinphlor_planned_work(uint32_t ad_len, uint32_t nonce_len, size_t n);

/*
 * The worst header, for whoever has not picked the header strings yet. Of all lists of count lengths that sum
 * to header_len, none of them under least, it writes one whose strings have the most blocks, counted as
 * above. No other such list has more. Several may have as many; which of them is written is left open, and
 * may be another in a later version.
 *
 *   header_len  how many bytes the strings have together: at most 1,048,576, and not under count times least
 *   count       how many strings there are: 1 to 126
 *   least       the least length of each: 0, or 1 where no string may be empty
 *   lens        126 places, not null. The list's lengths come first; those past count become 0.
 *
 * The result is one number: the answer * 2^32 + the list's blocks (kinphlor_number, kinphlor_blocks). If
 * an argument is out of bounds the answer is 12, and the blocks and all places are 0; there is no other
 * refusal. A record behind such a header takes the sum above, with these blocks for its strings.
 *
 * The header of kinphlor_seal has two strings, of which the associated data may be empty and the nonce may
 * not: ask with count 2, least 0 and a header_len of 1 or more. If the second length is then 0, exchange the
 * two: a list's blocks do not depend on its order. More strings are for records that a program in Rattle
 * seals.
 */
uint64_t kinphlor_worst_header(size_t header_len, size_t count, size_t least,
                               uint32_t lens[KINPHLOR_STRINGS_MAX]);

/* The answer in a result: one of enum kinphlor_answer. */
static inline uint32_t kinphlor_number(uint64_t result) { return (uint32_t)(result >> 32); }

/* The slot in a result of seal, open or open_ring: which key of the ring opened. 0 after a refusal too. */
static inline uint32_t kinphlor_slot(uint64_t result) { return (uint32_t)(result >> 28) & 15u; }

/* The length in a result of seal, open or open_ring: how many bytes of the output were written. */
static inline uint32_t kinphlor_length(uint64_t result) { return (uint32_t)(result & 0x0fffffffu); }

/* The blocks in a result of kinphlor_worst_header. */
static inline uint32_t kinphlor_blocks(uint64_t result) { return (uint32_t)(result & 0xffffffffu); }

/* The scratch that a plaintext of n bytes needs. */
static inline size_t kinphlor_scratch_len(size_t n) { return n < KINPHLOR_SCRATCH_MIN ? KINPHLOR_SCRATCH_MIN : n; }

/* An answer in words. Never null. */
static inline const char *kinphlor_text(uint32_t number) {
    switch (number) {
    case KINPHLOR_OK: return "success";
    case KINPHLOR_KEY_LENGTH: return "the key length is not 32, 48 or 64";
    case KINPHLOR_HEADER_COUNT: return "more than 126 header strings";
    case KINPHLOR_HEADER_LENGTHS: return "the lengths of associated data and nonce do not sum to the header's";
    case KINPHLOR_TOO_LONG: return "the plaintext is over 1,048,576 bytes, or the sealed record over 1,048,592";
    case KINPHLOR_SEALED_LENGTH: return "the sealed record is under 16 bytes";
    case KINPHLOR_OUTPUT_SHORT: return "the output is too short";
    case KINPHLOR_SCRATCH_SHORT: return "the scratch is too short";
    case KINPHLOR_FORGED: return "the record is damaged or forged";
    case KINPHLOR_STATE: return "the stream state or the head is not one for this call";
    case KINPHLOR_EMPTY_NONCE: return "the nonce is empty";
    case KINPHLOR_RING_LENGTH: return "the ring is not one to four whole keys";
    case KINPHLOR_HEADER_PLAN:
        return "out of bounds: 1 to 126 strings, a least length of 0 or 1, strings times least to 1,048,576 bytes";
    default: return "unknown answer";
    }
}

/* A byte to point at, for a buffer of length 0. It is never read or written. */
static inline uint8_t *kinphlor_some_byte(void) {
    static uint8_t byte;
    return &byte;
}

/* What is handed on for a buffer that is read, and for one that is written: it, unless its length is 0. */
static inline const uint8_t *kinphlor_from(const uint8_t *bytes, size_t len) {
    return len ? bytes : kinphlor_some_byte();
}
static inline uint8_t *kinphlor_into(uint8_t *bytes, size_t len) {
    return len ? bytes : kinphlor_some_byte();
}

/*
 * kinphlor_seal for callers that have NULL for a buffer of length 0. NULL with another length goes to the
 * call as it is: that is the caller's mistake, as in kinphlor_seal, and nothing catches it.
 */
static inline uint64_t kinphlor_seal_nullable(const uint8_t *key, size_t key_len, const uint8_t *header,
                                              size_t header_len, uint32_t ad_len, uint32_t nonce_len,
                                              const uint8_t *input, size_t input_len, uint8_t *output,
                                              size_t output_len, uint8_t *scratch, size_t scratch_len) {
    return kinphlor_seal(kinphlor_from(key, key_len), key_len, kinphlor_from(header, header_len), header_len,
                         ad_len, nonce_len, kinphlor_from(input, input_len), input_len,
                         kinphlor_into(output, output_len), output_len, kinphlor_into(scratch, scratch_len),
                         scratch_len);
}

/* kinphlor_open in the same way. */
static inline uint64_t kinphlor_open_nullable(const uint8_t *key, size_t key_len, const uint8_t *header,
                                              size_t header_len, uint32_t ad_len, uint32_t nonce_len,
                                              const uint8_t *input, size_t input_len, uint8_t *output,
                                              size_t output_len, uint8_t *scratch, size_t scratch_len) {
    return kinphlor_open(kinphlor_from(key, key_len), key_len, kinphlor_from(header, header_len), header_len,
                         ad_len, nonce_len, kinphlor_from(input, input_len), input_len,
                         kinphlor_into(output, output_len), output_len, kinphlor_into(scratch, scratch_len),
                         scratch_len);
}

/* kinphlor_open_ring in the same way. */
static inline uint64_t kinphlor_open_ring_nullable(size_t key_len, const uint8_t *ring, size_t ring_len,
                                                   const uint8_t *header, size_t header_len, uint32_t ad_len,
                                                   uint32_t nonce_len, const uint8_t *input, size_t input_len,
                                                   uint8_t *output, size_t output_len, uint8_t *scratch,
                                                   size_t scratch_len) {
    return kinphlor_open_ring(key_len, kinphlor_from(ring, ring_len), ring_len,
                              kinphlor_from(header, header_len), header_len, ad_len, nonce_len,
                              kinphlor_from(input, input_len), input_len, kinphlor_into(output, output_len),
                              output_len, kinphlor_into(scratch, scratch_len), scratch_len);
}

#ifdef __cplusplus
}
#endif

#endif
