/* What a logger's firmware does with include/seatalk.h: hears symbols, says what it heard, writes messages back into
   symbols, and symbols into a recording. tests/boundary compares its output with heard.expected. C99 that is C++ as
   well. */
#include "seatalk.h"

#include <stdio.h>
#include <string.h>

/* The ten symbols of rules 10.4: a stray, a datagram cut off by a collision, its repeat, and a variation. Then a depth cut
   off after four of five symbols by a key, with a symbol above 511 inside the key; a key whose repeat does not match;
   a turn; a pilot with ignored bits set; and a datagram that is not in the table. */
static const uint32_t bus[] = {
    0x03E, 0x120, 0x001, 0x120, 0x001, 0x03E, 0x000, 0x199, 0x000, 0x0FE,
    0x100, 0x002, 0x000, 0x064, 0x186, 0x011, 0x320, 0x005, 0x0FA, 0x186, 0x011, 0x060, 0x0DF,
    0x19C, 0x0C1, 0x02C, 0x0FE, 0x184, 0x0F6, 0x0EC, 0x0B3, 0x042, 0x003, 0x0FE, 0x002, 0x008, 0x136, 0x000, 0x001,
};

struct kind {
    uint8_t command;
    const char *name;
};

static const struct kind kinds[] = {
    {0x20, "speed"}, {0x84, "pilot"}, {0x86, "key"}, {0x99, "variation"}, {0x9C, "turn"},
};

static const char *const answers[] = {"opened", "cancelled", "stray", "kept", "handed out"};

static void print_refusal(int32_t returned)
{
    printf("refused %d", (int)SEATALK_REFUSAL_NUMBER(returned));
    if (SEATALK_REFUSAL_PLACE(returned) != 0)
        printf(" at %d", (int)SEATALK_REFUSAL_PLACE(returned));
}

static void print_symbols(const uint8_t *symbols, int32_t size)
{
    for (int32_t i = 0; i < size / 2; i++)
        printf(" %03X", (unsigned)seatalk_symbol(symbols, (size_t)i));
}

/* Reads a datagram, says what it is, and writes it again. */
static void use(const uint8_t *datagram, size_t length)
{
    uint8_t fields[SEATALK_FIELDS_SIZE], symbols[SEATALK_SYMBOLS_SIZE];
    int32_t size = seatalk_read(datagram, length, fields, sizeof fields);
    printf("  ");
    for (size_t i = 0; i < length; i++)
        printf("%02X ", (unsigned)datagram[i]);
    if (size < 0) {
        print_refusal(size);
        printf("\n");
        return;
    }
    for (size_t k = 0; k < sizeof kinds / sizeof kinds[0]; k++)
        if (kinds[k].command == datagram[0])
            printf("%s", kinds[k].name);
    for (size_t i = 0; i < (size_t)size / 4; i++)
        printf(" %ld", (long)seatalk_field(fields, i));
    printf("\n  written");
    print_symbols(symbols, seatalk_write(datagram[0], fields, (size_t)size, symbols, sizeof symbols));
    printf("\n");
}

static void hear_all(void)
{
    static uint8_t state[SEATALK_STATE_SIZE]; /* zeros: the empty listener */
    for (size_t i = 0; i < sizeof bus / sizeof bus[0]; i++) {
        uint8_t heard[SEATALK_HEARD_SIZE];
        int32_t returned = seatalk_hear(state, sizeof state, bus[i], heard, sizeof heard);
        printf("%03X ", (unsigned)bus[i]);
        if (returned < 0) {
            print_refusal(returned);
            printf("\n");
        } else {
            printf("%s, %u held\n", answers[heard[0]], (unsigned)state[0]);
            if (heard[0] == SEATALK_HANDED_OUT)
                use(heard + 2, heard[1]);
        }
    }
}

static void write_one(uint32_t command, const int32_t *values, size_t count, size_t room)
{
    uint8_t fields[SEATALK_FIELDS_SIZE], symbols[SEATALK_SYMBOLS_SIZE];
    int32_t size;
    printf("write %02X of", (unsigned)command);
    for (size_t i = 0; i < count; i++) {
        seatalk_set_field(fields, i, values[i]);
        printf(" %ld", (long)values[i]);
    }
    printf(":");
    size = seatalk_write(command, fields, 4 * count, symbols, room);
    if (size < 0) {
        printf(" ");
        print_refusal(size);
    } else {
        print_symbols(symbols, size);
    }
    printf("\n");
}

/* Messages in range, and one for each refusal of the writer. */
static void write_all(void)
{
    static const int32_t depth[] = {1234, 1, 0, 0, 0, 1}, flag[] = {1234, 2, 0, 0, 0, 1};
    static const int32_t coldest[] = {-100}, colder[] = {-101}, west[] = {-127}, east[] = {128};
    static const int32_t north_right[] = {0, 1, -2}, logs[] = {1048575, 65536};
    static const int32_t pilot[] = {359, 0, 540, 1, 0, 1, 1, 0, -30, 255, 5};
    static const int32_t course[] = {359, 0, 720, 1, 0, 1, 1, 0, -30, 255, 5};
    static const int32_t way[] = {359, 2, 540, 1, 0, 1, 1, 0, -30, 255, 5};
    write_one(0x00, depth, 6, SEATALK_SYMBOLS_SIZE);
    write_one(0x25, logs, 2, SEATALK_SYMBOLS_SIZE);
    write_one(0x27, coldest, 1, SEATALK_SYMBOLS_SIZE);
    write_one(0x84, pilot, 11, SEATALK_SYMBOLS_SIZE);
    write_one(0x99, west, 1, SEATALK_SYMBOLS_SIZE);
    write_one(0x99, east, 1, SEATALK_SYMBOLS_SIZE);
    write_one(0x9C, north_right, 3, SEATALK_SYMBOLS_SIZE);
    write_one(0x120, coldest, 1, SEATALK_SYMBOLS_SIZE);
    write_one(0x00, depth, 5, SEATALK_SYMBOLS_SIZE);
    write_one(0x00, flag, 6, SEATALK_SYMBOLS_SIZE);
    write_one(0x27, colder, 1, SEATALK_SYMBOLS_SIZE);
    write_one(0x84, course, 11, SEATALK_SYMBOLS_SIZE);
    write_one(0x84, way, 11, SEATALK_SYMBOLS_SIZE);
    write_one(0x27, coldest, 1, 7);
}

static void print_bytes(const uint8_t *bytes, size_t length)
{
    for (size_t i = 0; i < length; i++)
        printf(" %02X", (unsigned)bytes[i]);
    printf("\n");
}

/* The buffer is printed also where the call is refused, to show that it stays. */
static void record_one(uint32_t time, uint32_t symbol, size_t room)
{
    uint8_t record[SEATALK_RECORD_SIZE];
    int32_t size;
    memset(record, 0xEE, sizeof record);
    printf("record %lu %03X, room %u: ", (unsigned long)time, (unsigned)symbol, (unsigned)room);
    size = seatalk_record(time, symbol, record, room);
    if (size < 0)
        print_refusal(size);
    else
        printf("%d bytes", (int)size);
    printf(",");
    print_bytes(record, sizeof record);
}

/* Records, one for each refusal, and a recording of the first two records of rules 10.4. */
static void record_all(void)
{
    static const uint32_t times[] = {100, 200};
    uint8_t recording[2 * SEATALK_RECORD_SIZE];
    size_t length = 0;
    record_one(100, 0x03E, SEATALK_RECORD_SIZE);
    record_one(UINT32_MAX, 0x1FF, SEATALK_RECORD_SIZE);
    record_one(100, 512, SEATALK_RECORD_SIZE);
    record_one(100, 0x03E, SEATALK_RECORD_SIZE - 1);
    for (size_t i = 0; i < sizeof times / sizeof times[0]; i++) {
        int32_t size = seatalk_record(times[i], bus[i], recording + length, sizeof recording - length);
        if (size > 0)
            length += (size_t)size;
    }
    printf("recording:");
    print_bytes(recording, length);
}

/* The header's own functions and sizes. */
static void check_header(void)
{
    static const int32_t values[] = {0, 1, -1, 127, -128, 65535, -65536, INT32_MAX, INT32_MIN, INT32_MIN + 1};
    static const uint8_t pilot[] = {0x84, 0x06, 0, 0, 0, 0, 0, 0, 0};
    static uint8_t state[SEATALK_STATE_SIZE];
    uint8_t fields[SEATALK_FIELDS_SIZE], heard[SEATALK_HEARD_SIZE], symbols[SEATALK_SYMBOLS_SIZE];
    for (size_t i = 0; i < sizeof values / sizeof values[0]; i++) {
        seatalk_set_field(fields, 1, values[i]);
        if (seatalk_field(fields, 1) != values[i])
            printf("field %ld does not come back\n", (long)values[i]);
    }
    seatalk_set_field(fields, 0, 0x04030201);
    printf("field laid out as %02X %02X %02X %02X\n", (unsigned)fields[0], (unsigned)fields[1], (unsigned)fields[2],
           (unsigned)fields[3]);
    printf("refusal 7 at place 3: %d at %d\n", (int)SEATALK_REFUSAL_NUMBER(-(7 + 256 * 3)),
           (int)SEATALK_REFUSAL_PLACE(-(7 + 256 * 3)));
    printf("state one byte short: %d\n", (int)seatalk_hear(state, sizeof state - 1, 0x120, heard, sizeof heard));
    printf("heard one byte short: %d\n", (int)seatalk_hear(state, sizeof state, 0x120, heard, sizeof heard - 1));
    printf("largest fields: %d\n", (int)seatalk_read(pilot, sizeof pilot, fields, sizeof fields));
    printf("largest symbols: %d\n", (int)seatalk_write(0x84, fields, sizeof fields, symbols, sizeof symbols));
}

int main(void)
{
    hear_all();
    write_all();
    record_all();
    check_header();
    return 0;
}
