/* What the _nullable functions of kinphlor.h hand on, to calls that only take it down. No archive here. */
#include "kinphlor.h"

#include <stdio.h>
#include <stdlib.h>

enum { SEAL = 1, OPEN, OPEN_RING };
enum { KEYS, HEADER, INPUT, OUTPUT, SCRATCH, BUFFERS };
enum { GIVEN, NULL_WITH_LENGTH, NULL_EMPTY, GIVEN_EMPTY, STATES };

/* The arguments of a call. key_len is that of open_ring alone; seal's and open's is lens[KEYS]. */
struct call {
    int function;
    const uint8_t *bytes[BUFFERS];
    size_t lens[BUFFERS], key_len;
    uint32_t ad_len, nonce_len;
};

static struct call seen;
static unsigned calls;

/* Takes a call down. Its result is another for each call, and no length or answer of the library's. */
static uint64_t take(int function, size_t key_len, const uint8_t *keys, size_t keys_len, const uint8_t *header,
                     size_t header_len, uint32_t ad_len, uint32_t nonce_len, const uint8_t *input,
                     size_t input_len, const uint8_t *output, size_t output_len, const uint8_t *scratch,
                     size_t scratch_len) {
    seen.function = function;
    seen.key_len = key_len;
    seen.bytes[KEYS] = keys;
    seen.lens[KEYS] = keys_len;
    seen.bytes[HEADER] = header;
    seen.lens[HEADER] = header_len;
    seen.ad_len = ad_len;
    seen.nonce_len = nonce_len;
    seen.bytes[INPUT] = input;
    seen.lens[INPUT] = input_len;
    seen.bytes[OUTPUT] = output;
    seen.lens[OUTPUT] = output_len;
    seen.bytes[SCRATCH] = scratch;
    seen.lens[SCRATCH] = scratch_len;
    return UINT64_MAX - ++calls;
}

uint64_t kinphlor_seal(const uint8_t *key, size_t key_len, const uint8_t *header, size_t header_len,
                       uint32_t ad_len, uint32_t nonce_len, const uint8_t *input, size_t input_len,
                       uint8_t *output, size_t output_len, uint8_t *scratch, size_t scratch_len) {
    return take(SEAL, 0, key, key_len, header, header_len, ad_len, nonce_len, input, input_len, output,
                output_len, scratch, scratch_len);
}

uint64_t kinphlor_open(const uint8_t *key, size_t key_len, const uint8_t *header, size_t header_len,
                       uint32_t ad_len, uint32_t nonce_len, const uint8_t *input, size_t input_len,
                       uint8_t *output, size_t output_len, uint8_t *scratch, size_t scratch_len) {
    return take(OPEN, 0, key, key_len, header, header_len, ad_len, nonce_len, input, input_len, output,
                output_len, scratch, scratch_len);
}

uint64_t kinphlor_open_ring(size_t key_len, const uint8_t *ring, size_t ring_len, const uint8_t *header,
                            size_t header_len, uint32_t ad_len, uint32_t nonce_len, const uint8_t *input,
                            size_t input_len, uint8_t *output, size_t output_len, uint8_t *scratch,
                            size_t scratch_len) {
    return take(OPEN_RING, key_len, ring, ring_len, header, header_len, ad_len, nonce_len, input, input_len,
                output, output_len, scratch, scratch_len);
}

static void check(const char *what, int holds, int function, unsigned states) {
    static const char *const names[] = {"", "seal", "open", "open_ring"};

    if (!holds) {
        fprintf(stderr, "nullable: FAILED: kinphlor_%s_nullable, states %u: %s\n", names[function], states, what);
        exit(1);
    }
}

/* One call. Its states, in base 4 from the lowest place on, say what each buffer is. */
static void one(int function, unsigned states) {
    static uint8_t memory[BUFFERS];
    const uint32_t ad_len = UINT32_MAX - 1, nonce_len = UINT32_MAX - 2;
    const size_t key_len = function == OPEN_RING ? SIZE_MAX - 1 : 0;
    const unsigned before = calls;
    uint8_t *bytes[BUFFERS];
    size_t lens[BUFFERS];
    uint64_t result;
    unsigned i, rest = states;

    for (i = 0; i < BUFFERS; i++, rest /= STATES) {
        const unsigned state = rest % STATES;

        bytes[i] = state == GIVEN || state == GIVEN_EMPTY ? memory + i : NULL;
        lens[i] = state == GIVEN || state == NULL_WITH_LENGTH ? SIZE_MAX - 10 - i : 0;
    }
    if (function == OPEN_RING) {
        result = kinphlor_open_ring_nullable(key_len, bytes[KEYS], lens[KEYS], bytes[HEADER], lens[HEADER], ad_len,
                                             nonce_len, bytes[INPUT], lens[INPUT], bytes[OUTPUT], lens[OUTPUT],
                                             bytes[SCRATCH], lens[SCRATCH]);
    } else {
        result = (function == SEAL ? kinphlor_seal_nullable : kinphlor_open_nullable)(
            bytes[KEYS], lens[KEYS], bytes[HEADER], lens[HEADER], ad_len, nonce_len, bytes[INPUT], lens[INPUT],
            bytes[OUTPUT], lens[OUTPUT], bytes[SCRATCH], lens[SCRATCH]);
    }
    check("one call, of the same function", calls == before + 1 && seen.function == function, function, states);
    check("its result", result == UINT64_MAX - calls, function, states);
    check("the key length of a ring", seen.key_len == key_len, function, states);
    check("ad_len and nonce_len", seen.ad_len == ad_len && seen.nonce_len == nonce_len, function, states);
    for (i = 0; i < BUFFERS; i++) {
        check("a length is handed on", seen.lens[i] == lens[i], function, states);
        if (lens[i] == 0) {
            check("an empty buffer is not null", seen.bytes[i] != NULL, function, states);
        } else {
            check("a buffer with a length is handed on, null or not", seen.bytes[i] == bytes[i], function, states);
        }
    }
}

int main(void) {
    int function;
    unsigned states, all = 1, i;

    for (i = 0; i < BUFFERS; i++) all *= STATES;
    for (function = SEAL; function <= OPEN_RING; function++) {
        for (states = 0; states < all; states++) one(function, states);
    }
    printf("nullable: %u calls were handed on as they must be\n", calls);
    return calls == 3 * all ? 0 : 1;
}
