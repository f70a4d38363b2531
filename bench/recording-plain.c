/* The run of rules 9.4 in plain C99: what bench/recording times the library's recorder_records against. A record is stored
   byte by byte, which is right on a machine of either byte order; gcc joins most of the stores. */
#include <stddef.h>
#include <stdint.h>

uint64_t plain_records(const uint32_t *times, size_t times_length, const uint16_t *symbols, size_t symbols_length,
                       uint8_t *buf, size_t buf_length, size_t at);

static uint64_t refused(unsigned number) { return UINT64_MAX - number; }

uint64_t plain_records(const uint32_t *times, size_t times_length, const uint16_t *symbols, size_t symbols_length,
                       uint8_t *buf, size_t buf_length, size_t at)
{
    if (times_length != symbols_length)
        return refused(11);
    for (size_t i = 0; i < symbols_length; i++)
        if (symbols[i] > 511)
            return refused(1);
    /* Divided, since 8 times the number may be too large for size_t. */
    if (at > buf_length || (buf_length - at) / 8 < times_length)
        return refused(8);

    uint8_t *next = buf + at;
    for (size_t i = 0; i < times_length; i++) {
        uint32_t time = times[i];
        uint16_t symbol = symbols[i];
        next[0] = 0x53;
        next[1] = 0x54;
        next[2] = (uint8_t)time;
        next[3] = (uint8_t)(time >> 8);
        next[4] = (uint8_t)(time >> 16);
        next[5] = (uint8_t)(time >> 24);
        next[6] = (uint8_t)symbol;
        next[7] = (uint8_t)(symbol >> 8);
        next += 8;
    }
    return 8 * (uint64_t)times_length;
}
