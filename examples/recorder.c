/* Records what a bus says, and hears it as well. Symbols and times are the ten of rules 10.4 here; a logger has them from
   its UART and its clock. The recording goes to standard output, where a logger has its card. docs/FIRMWARE.md explains it. */
#include "seatalk.h"

#include <stdio.h>

struct heard {
    uint32_t time, symbol;
};

static const struct heard bus[] = {
    {100, 0x03E}, {200, 0x120}, {211, 0x001}, {300, 0x120}, {311, 0x001},
    {322, 0x03E}, {333, 0x000}, {400, 0x199}, {411, 0x000}, {422, 0x0FE},
};

static uint8_t block[4 * SEATALK_RECORD_SIZE]; /* four records; a card's block of 512 bytes holds 64 */
static size_t used;
static int failed;

static void store_block(void)
{
    if (fwrite(block, 1, used, stdout) != used || fflush(stdout) != 0) {
        fprintf(stderr, "the recording is not whole: a block could not be stored\n");
        failed = 1;
    }
    used = 0;
}

/* Keeps a symbol as it came, whatever it is part of. */
static void record(uint32_t time, uint32_t symbol)
{
    int32_t size = seatalk_record(time, symbol, block + used, sizeof block - used);
    if (size < 0) {
        fprintf(stderr, "symbol %03X: refused %d\n", (unsigned)symbol, (int)SEATALK_REFUSAL_NUMBER(size));
        return;
    }
    used += (size_t)size;
    if (used == sizeof block)
        store_block();
}

int main(void)
{
    static uint8_t state[SEATALK_STATE_SIZE];
    unsigned datagrams = 0;
    for (size_t i = 0; i < sizeof bus / sizeof bus[0]; i++) {
        uint8_t heard[SEATALK_HEARD_SIZE];
        record(bus[i].time, bus[i].symbol); /* first: what is heard of it may be refused, the record is kept */
        if (seatalk_hear(state, sizeof state, bus[i].symbol, heard, sizeof heard) > 0 && heard[0] == SEATALK_HANDED_OUT)
            datagrams++;
    }
    store_block();
    fprintf(stderr, "heard %u datagrams\n", datagrams);
    return failed;
}
