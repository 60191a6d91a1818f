/*
 * once KEY_LEN LENGTH CALLS: with 1 for CALLS it seals a record of that length; with 2 it also opens it; with 3 it also
 * opens it under a ring of four keys, the last of which is the record's; with 4 it also opens it with each of these
 * keys in turn. With 0 it does none of that. What two runs differ by is one call, or these four.
 */
#include <kinphlor.h>
#include <stdlib.h>

enum { MOST = KINPHLOR_LIMIT, KEY_MOST = 64, LAST = KINPHLOR_RING_MAX - 1 };

static uint8_t ring[(LAST + 1) * KEY_MOST], header[28], record[MOST], sealed[MOST + KINPHLOR_TAG_LEN], scratch[MOST];

int main(int count, char **words) {
    size_t key_len, len, sealed_len, i;
    uint64_t want;
    uint8_t *key;
    int calls, failed = 0;

    if (count != 4) return 2;
    key_len = strtoul(words[1], NULL, 10);
    len = strtoul(words[2], NULL, 10);
    calls = atoi(words[3]);
    if (key_len > KEY_MOST || len > MOST) return 2;
    key = ring + LAST * key_len;
    for (i = 0; i < key_len; i++) key[i] = (uint8_t)(i + 1);
    sealed_len = len + KINPHLOR_TAG_LEN;
    if (calls >= 1) {
        failed |= kinphlor_seal(key, key_len, header, 28, 16, 12, record, len, sealed, sealed_len, scratch, MOST) != sealed_len;
    }
    if (calls >= 2) {
        failed |= kinphlor_open(key, key_len, header, 28, 16, 12, sealed, sealed_len, record, len, scratch, MOST) != len;
    }
    if (calls >= 3) {
        want = ((uint64_t)LAST << 28) + len;
        failed |= kinphlor_open_ring(key_len, ring, (LAST + 1) * key_len, header, 28, 16, 12, sealed, sealed_len, record, len,
                                     scratch, MOST) != want;
    }
    for (i = 0; calls >= 4 && i <= LAST; i++) {
        want = i < LAST ? (uint64_t)KINPHLOR_FORGED << 32 : len;
        failed |= kinphlor_open(ring + i * key_len, key_len, header, 28, 16, 12, sealed, sealed_len, record, len, scratch,
                                MOST) != want;
    }
    return failed;
}
