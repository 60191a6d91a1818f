/* The stack that a call takes: it runs on a painted stack of its own, and the paint that is gone is counted. */
#include <kinphlor.h>
#include <stdio.h>
#include <string.h>
#include <ucontext.h>

enum { ROOM = 1 << 18, LIMIT = 8192, PAINT = 0xa5, SIZES = 3 };
enum { NONE, SEAL, OPEN, OPEN_RING, WORST_HEADER };

static unsigned char room[ROOM];
static ucontext_t here, there;
static uint8_t key[64], ring[KINPHLOR_RING_MAX * 64], header[28], record[1 << 16], sealed[(1 << 16) + 16], scratch[1 << 16];
static uint32_t lens[KINPHLOR_STRINGS_MAX];
static size_t key_len, record_len;
static int function;
static uint64_t answer;

static void call(void)
{
    switch (function) {
    case SEAL:
        answer = kinphlor_seal(key, key_len, header, 28, 16, 12, record, record_len, sealed, record_len + 16, scratch, sizeof scratch);
        break;
    case OPEN:
        answer = kinphlor_open(key, key_len, header, 28, 16, 12, sealed, record_len + 16, record, record_len, scratch, sizeof scratch);
        break;
    case OPEN_RING:
        answer = kinphlor_open_ring(key_len, ring, KINPHLOR_RING_MAX * key_len, header, 28, 16, 12, sealed, record_len + 16, record,
                                    record_len, scratch, sizeof scratch);
        break;
    case WORST_HEADER:
        answer = kinphlor_worst_header(KINPHLOR_HEADER_MAX, KINPHLOR_STRINGS_MAX, 1, lens);
        break;
    }
}

/* whether the call succeeded; if not, says with what it was refused */
static int succeeded(void)
{
    if (kinphlor_number(answer) == KINPHLOR_OK) {
        return 1;
    }
    printf("stack: a call was refused with %u\n", (unsigned)kinphlor_number(answer));
    return 0;
}

/* the bytes of the room that a run takes */
static size_t taken(void)
{
    size_t i = 0;

    answer = UINT64_MAX;
    memset(room, PAINT, ROOM);
    getcontext(&there);
    there.uc_stack.ss_sp = room;
    there.uc_stack.ss_size = ROOM;
    there.uc_link = &here;
    makecontext(&there, call, 0);
    swapcontext(&here, &there);
    while (i < ROOM && room[i] == PAINT) {
        i++;
    }
    return ROOM - i;
}

int main(void)
{
    static const size_t lengths[SIZES] = {0, 40, 1 << 16};
    size_t idle, planning, most = 0;

    function = NONE;
    idle = taken();
    for (key_len = 32; key_len <= 64; key_len += 16) {
        /* the ring's last key is the record's */
        memset(ring, 0, sizeof ring);
        memset(ring, 1, (KINPHLOR_RING_MAX - 1) * key_len);
        for (int i = 0; i < SIZES; i++) {
            record_len = lengths[i];
            for (function = SEAL; function <= OPEN_RING; function++) {
                size_t n = taken() - idle;

                if (!succeeded()) {
                    return 1;
                }
                if (kinphlor_slot(answer) != (function == OPEN_RING ? KINPHLOR_RING_MAX - 1 : 0)) {
                    printf("stack: slot %u opened\n", (unsigned)kinphlor_slot(answer));
                    return 1;
                }
                most = n > most ? n : most;
            }
        }
    }
    function = WORST_HEADER;
    planning = taken() - idle;
    if (!succeeded()) {
        return 1;
    }
    printf("stack: a call takes at most %zu bytes, planning a header %zu\n", most, planning);
    return most == 0 || most >= LIMIT || planning == 0 || planning > most;
}
