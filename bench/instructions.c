/* Writes a 9C or an 84 of each degree and turning way once, through the library or through bench/plain.c, for
   bench/instructions to count: instructions COMMAND library|plain. Says how many were written. C11. */
#include "plain.h"
#include "seatalk.h"

#include <stdio.h>
#include <stdlib.h>
#include <string.h>

typedef int32_t write_call(uint32_t, const uint8_t *, size_t, uint8_t *, size_t);

enum { DEGREES = 360 };

int main(int argc, char **argv)
{
    uint8_t fields[SEATALK_FIELDS_SIZE] = {0}, symbols[SEATALK_SYMBOLS_SIZE];
    if (argc != 3) {
        fputs("usage: instructions COMMAND library|plain\n", stderr);
        return 2;
    }
    uint32_t command = (uint32_t)strtoul(argv[1], NULL, 16);
    write_call *write = strcmp(argv[2], "plain") == 0 ? plain_write : seatalk_write;
    size_t count = command == 0x84 ? 11 : 3;
    int32_t size = command == 0x84 ? 18 : 8;
    unsigned written = 0;
    for (int32_t degrees = 0; degrees < DEGREES; degrees++)
        for (int32_t right = 0; right < 2; right++) {
            seatalk_set_field(fields, 0, degrees);
            seatalk_set_field(fields, 1, right);
            if (command == 0x84)
                seatalk_set_field(fields, 2, 2 * degrees + right); /* a course of every half degree */
            if (write(command, fields, 4 * count, symbols, sizeof symbols) != size) {
                fprintf(stderr, "instructions: %d degrees, %d: not written\n", (int)degrees, (int)right);
                return 1;
            }
            written++;
        }
    printf("%u\n", written);
    return 0;
}
