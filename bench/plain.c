/* Listener, reader, writer and recording writer of include/seatalk.h in plain C99, under the names plain_hear,
   plain_read, plain_write, plain_record: what bench/host times the library against. It can stand in for the library
   when the names are given to the compiler (-Dplain_hear=seatalk_hear and so on), to try tests/boundary itself. */
#include "plain.h"

#include <string.h>

enum { STATE = 18, HEARD = 20, HELD = 17, RECORD = 8 };
enum { OPENED, CANCELLED, STRAY, KEPT, HANDED_OUT };

static inline uint64_t load(const uint8_t *p)
{
    uint64_t value;
    memcpy(&value, p, sizeof value);
    return value;
}

/* 17 zeros, then 17 bytes of ones: from PAST + 17 - n on, byte i has ones exactly where i is at least n. */
static const uint8_t PAST[2 * HELD] = {
    [17] = 255, [18] = 255, [19] = 255, [20] = 255, [21] = 255, [22] = 255, [23] = 255, [24] = 255, [25] = 255,
    [26] = 255, [27] = 255, [28] = 255, [29] = 255, [30] = 255, [31] = 255, [32] = 255, [33] = 255};

static inline int sound(const uint8_t *state)
{
    unsigned held = state[0];
    if (held > HELD)
        return 0;
    const uint8_t *past = PAST + HELD - held, *bytes = state + 1;
    if ((load(bytes) & load(past)) | (load(bytes + 8) & load(past + 8)) | (bytes[16] & past[16]))
        return 0;
    return held < 2 || held < 3u + (bytes[1] & 15);
}

int32_t plain_hear(uint8_t *state, size_t state_length, uint32_t symbol, uint8_t *result, size_t result_length)
{
    if (symbol > 511)
        return -1;
    if (state_length != STATE || !sound(state))
        return -2;
    if (result_length < HEARD)
        return -8;

    unsigned held = state[0];
    uint8_t byte = (uint8_t)symbol;
    memset(result, 0, HEARD);
    if (symbol > 255) {
        result[0] = held ? CANCELLED : OPENED;
        memset(state, 0, STATE);
        state[0] = 1;
        state[1] = byte;
    } else if (held == 0) {
        result[0] = STRAY;
    } else if (held < 2 || held < 2u + (state[2] & 15)) {
        result[0] = KEPT;
        state[0] = (uint8_t)(held + 1);
        state[1 + held] = byte;
    } else {
        result[0] = HANDED_OUT;
        result[1] = (uint8_t)(held + 1);
        memcpy(result + 2, state + 1, HELD);
        result[2 + held] = byte;
        memset(state, 0, STATE);
    }
    return HEARD;
}

static inline uint32_t word(const uint8_t *d) { return d[0] | (uint32_t)d[1] << 8; }

static inline int32_t signed_byte(unsigned b) { return (int32_t)(b ^ 0x80) - 0x80; }

/* The angle of 84 and 9C. The highest sum, of U = F and six = 44, is 360. */
static inline int32_t whole_degrees(unsigned u, unsigned six)
{
    unsigned degrees = 90 * (u & 3) + 2 * six + (u >> 3) + (u >> 2 & 1);
    return degrees == 360 ? 0 : (int32_t)degrees;
}

static inline void put(uint8_t *result, unsigned i, int32_t value)
{
    uint32_t bits = (uint32_t)value;
    uint8_t *f = result + 4 * i;
    f[0] = (uint8_t)bits;
    f[1] = (uint8_t)(bits >> 8);
    f[2] = (uint8_t)(bits >> 16);
    f[3] = (uint8_t)(bits >> 24);
}

static inline void put_flag(uint8_t *result, unsigned i, unsigned bit) { put(result, i, bit != 0); }

/* The kind's declared length, its ranges and room for its fields, in the order in which they are judged. */
#define DECLARES(digit) if (low != (digit)) return -5
#define RANGE(holds) if (!(holds)) return -7
#define ROOM(size) if (result_length < (size)) return -8

int32_t plain_read(const uint8_t *d, size_t length, uint8_t *result, size_t result_length)
{
    if (length < 3 || length != 3u + (d[1] & 15))
        return -3;

    unsigned low = d[1] & 15, high = d[1] >> 4, six;
    uint32_t value;
    switch (d[0]) {
    case 0x00:
        DECLARES(2);
        ROOM(24);
        put(result, 0, (int32_t)word(d + 3));
        put_flag(result, 1, d[2] & 0x80);
        put_flag(result, 2, d[2] & 0x40);
        put_flag(result, 3, d[2] & 4);
        put_flag(result, 4, d[2] & 2);
        put_flag(result, 5, d[2] & 1);
        return 24;
    case 0x10:
        DECLARES(1);
        value = (uint32_t)d[2] << 8 | d[3];
        RANGE(value <= 719);
        ROOM(4);
        put(result, 0, (int32_t)value);
        return 4;
    case 0x11:
        DECLARES(1);
        RANGE((d[3] & 15) <= 9);
        ROOM(8);
        put(result, 0, 10 * (d[2] & 0x7F) + (d[3] & 15));
        put_flag(result, 1, d[2] & 0x80);
        return 8;
    case 0x20:
    case 0x52:
        DECLARES(1);
        ROOM(4);
        put(result, 0, (int32_t)word(d + 2));
        return 4;
    case 0x21:
        DECLARES(2);
        ROOM(4);
        put(result, 0, (int32_t)(word(d + 2) | (uint32_t)(d[4] & 15) << 16));
        return 4;
    case 0x22:
        DECLARES(2);
        ROOM(4);
        put(result, 0, (int32_t)word(d + 2));
        return 4;
    case 0x25:
        DECLARES(4);
        ROOM(8);
        put(result, 0, (int32_t)(word(d + 2) | (uint32_t)high << 16));
        put(result, 1, (int32_t)(word(d + 4) | (uint32_t)(d[6] & 15) << 16));
        return 8;
    case 0x26:
        DECLARES(4);
        ROOM(20);
        put(result, 0, (int32_t)word(d + 2));
        put(result, 1, (int32_t)word(d + 4));
        put_flag(result, 2, d[6] & 0x40);
        put_flag(result, 3, d[6] & 1);
        put_flag(result, 4, d[6] & 2);
        return 20;
    case 0x27:
        DECLARES(1);
        ROOM(4);
        put(result, 0, (int32_t)word(d + 2) - 100);
        return 4;
    case 0x30:
        DECLARES(0);
        RANGE((d[2] & 3) == 0);
        ROOM(4);
        put(result, 0, d[2] >> 2 & 3);
        return 4;
    case 0x50:
    case 0x51:
        DECLARES(2);
        value = word(d + 3);
        RANGE(d[2] <= (d[0] == 0x50 ? 90 : 180) && (value & 0x7FFF) <= 5999);
        ROOM(12);
        put(result, 0, d[2]);
        put(result, 1, (int32_t)(value & 0x7FFF));
        put_flag(result, 2, value & 0x8000);
        return 12;
    case 0x53:
        DECLARES(0);
        six = d[2] & 0x3F;
        RANGE(six <= 44);
        ROOM(4);
        put(result, 0, (int32_t)(180 * (high & 3) + 4 * six + (high >> 2)));
        return 4;
    case 0x54: {
        DECLARES(1);
        unsigned minute = d[2] >> 2, second = (d[2] & 3u) << 4 | high;
        RANGE(d[3] <= 23 && minute <= 59 && second <= 59);
        ROOM(12);
        put(result, 0, d[3]);
        put(result, 1, (int32_t)minute);
        put(result, 2, (int32_t)second);
        return 12;
    }
    case 0x56:
        DECLARES(1);
        RANGE(high - 1 <= 11 && d[2] - 1u <= 30 && d[3] <= 99);
        ROOM(12);
        put(result, 0, (int32_t)high);
        put(result, 1, d[2]);
        put(result, 2, d[3]);
        return 12;
    case 0x84:
        DECLARES(6);
        six = d[2] & 0x3F;
        RANGE(six <= 44 && d[3] <= 179);
        ROOM(44);
        put(result, 0, whole_degrees(high, six));
        put_flag(result, 1, high & 8);
        put(result, 2, (int32_t)(180u * (d[2] >> 6) + d[3]));
        put_flag(result, 3, d[4] & 2);
        put_flag(result, 4, d[4] & 4);
        put_flag(result, 5, d[4] & 8);
        put_flag(result, 6, d[5] & 4);
        put_flag(result, 7, d[5] & 8);
        put(result, 8, signed_byte(d[6]));
        put(result, 9, d[7]);
        put(result, 10, d[8]);
        return 44;
    case 0x86:
        DECLARES(1);
        if (d[2] + d[3] != 255)
            return -6;
        ROOM(8);
        put(result, 0, (int32_t)high);
        put(result, 1, d[2]);
        return 8;
    case 0x89:
        DECLARES(2);
        six = d[2] & 0x3F;
        RANGE(six <= 44 && d[3] <= 179);
        ROOM(12);
        put(result, 0, (int32_t)(180 * (high & 3) + 4 * six + (high >> 2)));
        put(result, 1, (int32_t)(180u * (d[2] >> 6) + d[3]));
        put_flag(result, 2, d[4] & 2);
        return 12;
    case 0x99:
        DECLARES(0);
        ROOM(4);
        put(result, 0, -signed_byte(d[2]));
        return 4;
    case 0x9C:
        DECLARES(1);
        six = d[2] & 0x3F;
        RANGE(six <= 44);
        ROOM(12);
        put(result, 0, whole_degrees(high, six));
        put_flag(result, 1, high & 8);
        put(result, 2, signed_byte(d[3]));
        return 12;
    default:
        return -4;
    }
}

static inline uint32_t get(const uint8_t *fields, unsigned i)
{
    const uint8_t *f = fields + 4 * i;
    return (uint32_t)f[0] | (uint32_t)f[1] << 8 | (uint32_t)f[2] << 16 | (uint32_t)f[3] << 24;
}

/* Fields are taken as unsigned numbers: a negative one is above every limit. */
#define FIELDS(count) if (fields_length != 4 * (count)) return -5
#define SYMBOLS(count, second) ROOM(2 * (count)); open(result, command, second)

static inline void symbol(uint8_t *result, unsigned i, unsigned byte)
{
    result[2 * i] = (uint8_t)byte;
    result[2 * i + 1] = 0;
}

static inline void open(uint8_t *result, uint32_t command, unsigned second)
{
    result[0] = (uint8_t)command;
    result[1] = 1;
    symbol(result, 1, second);
}

/* What the angle of 84 and 9C is spelled from. Turning right sets the high bit of U, which counts one: the rest is then the
   degree before, for degree 0 that is 359, the end of the last quarter. */
static inline uint32_t degree_before(uint32_t degrees, uint32_t right)
{
    return !right ? degrees : degrees ? degrees - 1 : 359;
}

static inline unsigned whole_u(uint32_t before, uint32_t right) { return right << 3 | (before & 1) << 2 | before / 90; }

static inline unsigned whole_six(uint32_t before) { return before % 90 >> 1; }

int32_t plain_write(uint32_t command, const uint8_t *fields, size_t fields_length, uint8_t *result,
                    size_t result_length)
{
    uint32_t a, b, c;
    switch (command) {
    case 0x00: {
        FIELDS(6);
        a = get(fields, 0);
        uint32_t anchor = get(fields, 1), metric = get(fields, 2), defective = get(fields, 3);
        uint32_t deep = get(fields, 4), shallow = get(fields, 5);
        RANGE(a <= 65535 && (anchor | metric | defective | deep | shallow) <= 1);
        SYMBOLS(5, 0x02);
        symbol(result, 2, anchor << 7 | metric << 6 | defective << 2 | deep << 1 | shallow);
        symbol(result, 3, a);
        symbol(result, 4, a >> 8);
        return 10;
    }
    case 0x10:
        FIELDS(1);
        a = get(fields, 0);
        RANGE(a <= 719);
        SYMBOLS(4, 0x01);
        symbol(result, 2, a >> 8);
        symbol(result, 3, a);
        return 8;
    case 0x11:
        FIELDS(2);
        a = get(fields, 0);
        b = get(fields, 1);
        RANGE(a <= 1279 && b <= 1);
        SYMBOLS(4, 0x01);
        symbol(result, 2, b << 7 | a / 10);
        symbol(result, 3, a % 10);
        return 8;
    case 0x20:
    case 0x52:
        FIELDS(1);
        a = get(fields, 0);
        RANGE(a <= 65535);
        SYMBOLS(4, 0x01);
        symbol(result, 2, a);
        symbol(result, 3, a >> 8);
        return 8;
    case 0x21:
        FIELDS(1);
        a = get(fields, 0);
        RANGE(a <= 1048575);
        SYMBOLS(5, 0x02);
        symbol(result, 2, a);
        symbol(result, 3, a >> 8);
        symbol(result, 4, a >> 16);
        return 10;
    case 0x22:
        FIELDS(1);
        a = get(fields, 0);
        RANGE(a <= 65535);
        SYMBOLS(5, 0x02);
        symbol(result, 2, a);
        symbol(result, 3, a >> 8);
        symbol(result, 4, 0);
        return 10;
    case 0x25:
        FIELDS(2);
        a = get(fields, 0);
        b = get(fields, 1);
        RANGE((a | b) <= 1048575);
        SYMBOLS(7, a >> 16 << 4 | 0x04);
        symbol(result, 2, a);
        symbol(result, 3, a >> 8);
        symbol(result, 4, b);
        symbol(result, 5, b >> 8);
        symbol(result, 6, b >> 16);
        return 14;
    case 0x26: {
        FIELDS(5);
        a = get(fields, 0);
        b = get(fields, 1);
        uint32_t valid = get(fields, 2), stopped = get(fields, 3), mph = get(fields, 4);
        RANGE((a | b) <= 65535 && (valid | stopped | mph) <= 1);
        SYMBOLS(7, 0x04);
        symbol(result, 2, a);
        symbol(result, 3, a >> 8);
        symbol(result, 4, b);
        symbol(result, 5, b >> 8);
        symbol(result, 6, valid << 6 | mph << 1 | stopped);
        return 14;
    }
    case 0x27:
        FIELDS(1);
        a = get(fields, 0) + 100;
        RANGE(a <= 65535);
        SYMBOLS(4, 0x01);
        symbol(result, 2, a);
        symbol(result, 3, a >> 8);
        return 8;
    case 0x30:
        FIELDS(1);
        a = get(fields, 0);
        RANGE(a <= 3);
        SYMBOLS(3, 0x00);
        symbol(result, 2, a << 2);
        return 6;
    case 0x50:
    case 0x51:
        FIELDS(3);
        a = get(fields, 0);
        b = get(fields, 1);
        c = get(fields, 2);
        RANGE(a <= (command == 0x50 ? 90 : 180) && b <= 5999 && c <= 1);
        SYMBOLS(5, 0x02);
        symbol(result, 2, a);
        symbol(result, 3, b);
        symbol(result, 4, b >> 8 | c << 7);
        return 10;
    case 0x53:
        FIELDS(1);
        a = get(fields, 0);
        RANGE(a <= 719);
        SYMBOLS(3, (a / 180 | (a & 3) << 2) << 4);
        symbol(result, 2, a % 180 >> 2);
        return 6;
    case 0x54:
        FIELDS(3);
        a = get(fields, 0);
        b = get(fields, 1);
        c = get(fields, 2);
        RANGE(a <= 23 && b <= 59 && c <= 59);
        SYMBOLS(4, (c & 15) << 4 | 0x01);
        symbol(result, 2, b << 2 | c >> 4);
        symbol(result, 3, a);
        return 8;
    case 0x56:
        FIELDS(3);
        a = get(fields, 0);
        b = get(fields, 1);
        c = get(fields, 2);
        RANGE(a - 1 <= 11 && b - 1 <= 30 && c <= 99);
        SYMBOLS(4, a << 4 | 0x01);
        symbol(result, 2, b);
        symbol(result, 3, c);
        return 8;
    case 0x84: {
        FIELDS(11);
        a = get(fields, 0);
        b = get(fields, 1);
        c = get(fields, 2);
        uint32_t automatic = get(fields, 3), vane = get(fields, 4), track = get(fields, 5);
        uint32_t off_course = get(fields, 6), wind_shift = get(fields, 7);
        uint32_t rudder = get(fields, 8), ss = get(fields, 9), tt = get(fields, 10);
        RANGE(a <= 359 && c <= 719 && (b | automatic | vane | track | off_course | wind_shift) <= 1);
        RANGE(rudder + 128 <= 255 && (ss | tt) <= 255);
        a = degree_before(a, b);
        SYMBOLS(9, whole_u(a, b) << 4 | 0x06);
        symbol(result, 2, c / 180 << 6 | whole_six(a));
        symbol(result, 3, c % 180);
        symbol(result, 4, track << 3 | vane << 2 | automatic << 1);
        symbol(result, 5, wind_shift << 3 | off_course << 2);
        symbol(result, 6, rudder);
        symbol(result, 7, ss);
        symbol(result, 8, tt);
        return 18;
    }
    case 0x86:
        FIELDS(2);
        a = get(fields, 0);
        b = get(fields, 1);
        RANGE(a <= 15 && b <= 255);
        SYMBOLS(4, a << 4 | 0x01);
        symbol(result, 2, b);
        symbol(result, 3, 255 - b);
        return 8;
    case 0x89:
        FIELDS(3);
        a = get(fields, 0);
        b = get(fields, 1);
        c = get(fields, 2);
        RANGE(a <= 719 && b <= 719 && c <= 1);
        SYMBOLS(5, (a / 180 | (a & 3) << 2) << 4 | 0x02);
        symbol(result, 2, b / 180 << 6 | a % 180 >> 2);
        symbol(result, 3, b % 180);
        symbol(result, 4, 0x20 | c << 1);
        return 10;
    case 0x99:
        FIELDS(1);
        a = get(fields, 0);
        RANGE(a + 127 <= 255);
        SYMBOLS(3, 0x00);
        symbol(result, 2, 0u - a);
        return 6;
    case 0x9C:
        FIELDS(3);
        a = get(fields, 0);
        b = get(fields, 1);
        c = get(fields, 2);
        RANGE(a <= 359 && b <= 1 && c + 128 <= 255);
        a = degree_before(a, b);
        SYMBOLS(4, whole_u(a, b) << 4 | 0x01);
        symbol(result, 2, whole_six(a));
        symbol(result, 3, c);
        return 8;
    default:
        return -4;
    }
}

int32_t plain_record(uint32_t time, uint32_t symbol, uint8_t *result, size_t result_length)
{
    if (symbol > 511)
        return -1;
    ROOM(RECORD);
    result[0] = 0x53;
    result[1] = 0x54;
    result[2] = (uint8_t)time;
    result[3] = (uint8_t)(time >> 8);
    result[4] = (uint8_t)(time >> 16);
    result[5] = (uint8_t)(time >> 24);
    result[6] = (uint8_t)symbol;
    result[7] = (uint8_t)(symbol >> 8);
    return RECORD;
}
