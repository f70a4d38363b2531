/* Hears a bus, says its speed, and writes a message. The symbols come from a recording on standard input here; a logger
   has them from its UART. docs/FIRMWARE.md explains it. */
#include "seatalk.h"

#include <stdio.h>

/* The next symbol, ninth bit included, or -1 at the end. */
static int32_t next_symbol(void)
{
    uint8_t record[8];
    if (fread(record, sizeof record, 1, stdin) != 1)
        return -1;
    return record[6] | record[7] << 8;
}

static void use(const uint8_t *datagram, size_t length)
{
    uint8_t fields[SEATALK_FIELDS_SIZE];
    int32_t size = seatalk_read(datagram, length, fields, sizeof fields);
    if (size < 0)
        printf("datagram %02X: refused %d\n", (unsigned)datagram[0], (int)SEATALK_REFUSAL_NUMBER(size));
    else if (datagram[0] == 0x20)
        printf("speed: %.1f knots\n", (double)seatalk_field(fields, 0) / 10);
}

static void hear_all(void)
{
    static uint8_t state[SEATALK_STATE_SIZE]; /* kept from call to call; all zeros is the empty listener */
    int32_t symbol;
    while ((symbol = next_symbol()) >= 0) {
        uint8_t heard[SEATALK_HEARD_SIZE];
        int32_t size = seatalk_hear(state, sizeof state, (uint32_t)symbol, heard, sizeof heard);
        if (size < 0)
            printf("symbol %03X: refused %d\n", (unsigned)symbol, (int)SEATALK_REFUSAL_NUMBER(size));
        else if (heard[0] == SEATALK_HANDED_OUT)
            use(heard + 2, heard[1]);
    }
}

static void write_lamp(int32_t level)
{
    uint8_t fields[SEATALK_FIELDS_SIZE], symbols[SEATALK_SYMBOLS_SIZE];
    seatalk_set_field(fields, 0, level);
    int32_t size = seatalk_write(0x30, fields, 4, symbols, sizeof symbols); /* 4 bytes: one field */
    if (size < 0) {
        printf("lamp %d: refused %d\n", (int)level, (int)SEATALK_REFUSAL_NUMBER(size));
        return;
    }
    printf("lamp %d:", (int)level);
    for (size_t i = 0; i < (size_t)size / 2; i++)
        printf(" %03X", (unsigned)seatalk_symbol(symbols, i));
    printf("\n");
}

int main(void)
{
    hear_all();
    write_lamp(3);
    write_lamp(4);
    return 0;
}
