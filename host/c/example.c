#include <kinphlor.h>
#include <stdio.h>

int main(void) {
    /* The header is 8 bytes of associated data, then a nonce of 8 bytes. */
    uint8_t key[32] = "a key for show", header[16] = "lane 7: no. 1", record[40] = "descent 1204";
    uint8_t sealed[56], opened[40], scratch[40];

    uint64_t r = kinphlor_seal(key, 32, header, 16, 8, 8, record, 40, sealed, 56, scratch, 40);
    if (kinphlor_number(r) == KINPHLOR_OK)
        r = kinphlor_open(key, 32, header, 16, 8, 8, sealed, 56, opened, 40, scratch, 40);
    puts(kinphlor_text(kinphlor_number(r)));
    return kinphlor_number(r) != KINPHLOR_OK;
}
