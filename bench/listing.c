/* Lists a recording of the bus: the same bytes as buslist, for bench/listing to time it against.
   Plain C11. A datagram whose records all lie in the block is taken whole; every other symbol goes through the
   listener one at a time. Numbers below 10^8 are spelled without a branch. */
#include <errno.h>
#include <stdint.h>
#include <stdlib.h>
#include <string.h>
#include <unistd.h>

enum { RECORD = 8, LONGEST = 18, BLOCK = 1 << 16, LINE = 192 };

static const uint64_t MARK = 0x5453;
static const uint64_t FRAME = UINT64_C(0xFE0000000000FFFF);  /* mark, and symbol bits above 511 */
static const uint64_t FOLLOWS = UINT64_C(0xFF0000000000FFFF); /* the same and the command bit */

static unsigned char in[BLOCK];
static char out[BLOCK];
static char *next = out;

static char hex[256][4];  /* " 3E " */
static char tens[100][2]; /* "07" */

struct listener {
    unsigned char bytes[LONGEST];
    unsigned held, length; /* length: 3 until the second byte says more */
};

static struct listener ear;
static uint64_t handed, cancelled, stray;

static void make_tables(void)
{
    static const char digit[] = "0123456789ABCDEF";
    for (int i = 0; i < 256; i++) {
        hex[i][0] = ' ';
        hex[i][1] = digit[i >> 4];
        hex[i][2] = digit[i & 15];
        hex[i][3] = ' ';
    }
    for (int i = 0; i < 100; i++) {
        tens[i][0] = digit[i / 10];
        tens[i][1] = digit[i % 10];
    }
}

static void complain(const char *what)
{
    const char *why = strerror(errno);
    (void)!write(2, what, strlen(what));
    (void)!write(2, why, strlen(why));
    (void)!write(2, "\n", 1);
}

static void flush(void)
{
    const char *from = out;
    while (from < next) {
        ssize_t wrote = write(1, from, (size_t)(next - from));
        if (wrote >= 0) {
            from += wrote;
        } else if (errno != EINTR) {
            complain("standard output: ");
            exit(1);
        }
    }
    next = out;
}

/* Both become one instruction: written out, since -O2 does not unroll a loop of eight. */
static inline uint64_t load(const unsigned char *p)
{
    return (uint64_t)p[0] | (uint64_t)p[1] << 8 | (uint64_t)p[2] << 16 | (uint64_t)p[3] << 24 |
           (uint64_t)p[4] << 32 | (uint64_t)p[5] << 40 | (uint64_t)p[6] << 48 | (uint64_t)p[7] << 56;
}

static inline void store(char *o, uint64_t text)
{
    o[0] = (char)text, o[1] = (char)(text >> 8), o[2] = (char)(text >> 16), o[3] = (char)(text >> 24);
    o[4] = (char)(text >> 32), o[5] = (char)(text >> 40), o[6] = (char)(text >> 48), o[7] = (char)(text >> 56);
}

/* The eight decimal digits of v < 10^8, one in each byte, the highest digit in the lowest byte. */
static inline uint64_t eight_digits(uint32_t v)
{
    uint64_t fours = v / 10000 | (uint64_t)(v % 10000) << 32;
    uint64_t hundreds = fours * 10486 >> 20 & UINT64_C(0x0000007F0000007F);
    uint64_t twos = hundreds | (fours - 100 * hundreds) << 16;
    uint64_t ten = twos * 103 >> 10 & UINT64_C(0x000F000F000F000F);
    return ten | (twos - 10 * ten) << 8;
}

/* v < 10^8. */
static inline char *put_number(char *o, uint32_t v)
{
    uint64_t digits = eight_digits(v);
    unsigned zeros = (unsigned)__builtin_ctzll(digits | UINT64_C(1) << 56) & ~7u;
    store(o, (digits | UINT64_C(0x3030303030303030)) >> zeros);
    return o + 8 - zeros / 8;
}

static inline char *put_time(char *o, uint32_t v)
{
    if (v < 100000000)
        return put_number(o, v);
    uint32_t high = v / 100000000;
    const char *pair = tens[high];
    o[0] = pair[high < 10];
    o[1] = pair[1];
    o += 1 + (high >= 10);
    store(o, eight_digits(v % 100000000) | UINT64_C(0x3030303030303030));
    return o + 8;
}

static char *put_count(char *o, uint64_t v)
{
    char text[20];
    int at = 20;
    do
        text[--at] = (char)('0' + v % 10);
    while (v /= 10);
    memcpy(o, text + at, (size_t)(20 - at));
    return o + 20 - at;
}

static inline char *field(char *o, uint32_t v)
{
    *o = ' ';
    return put_number(o + 1, v);
}

static inline char *field_signed(char *o, int v)
{
    *o++ = ' ';
    *o = '-';
    return v < 0 ? put_number(o + 1, (uint32_t)-v) : put_number(o, (uint32_t)v);
}

static inline char *flag(char *o, unsigned bit)
{
    o[0] = ' ';
    o[1] = (char)('0' + (bit != 0));
    return o + 2;
}

static char *refused(char *o, int number)
{
    memcpy(o, "refused ", 8);
    o[8] = (char)('0' + number);
    return o + 9;
}

static inline uint32_t word(const unsigned char *d) { return d[0] | (uint32_t)d[1] << 8; }

static inline int signed_byte(unsigned b) { return (int)(b ^ 0x80) - 0x80; }

/* The angle of 84 and 9C. The highest sum, of U = F and six = 44, is 360. */
static inline uint32_t whole_degrees(unsigned u, unsigned six)
{
    unsigned degrees = 90 * (u & 3) + 2 * six + (u >> 3) + (u >> 2 & 1);
    return degrees == 360 ? 0 : degrees;
}

#define NAME(text) (memcpy(o, text, sizeof text - 1), o += sizeof text - 1)
#define WANT(digit) if (low != (digit)) return refused(o, 5)
#define RANGE(held) if (!(held)) return refused(o, 7)

/* Name and fields of a whole datagram, or its refusal. */
static inline char *put_reading(char *o, const unsigned char *d)
{
    unsigned low = d[1] & 15, high = d[1] >> 4, six;

    switch (d[0]) {
    case 0x00:
        WANT(2);
        NAME("depth");
        o = field(o, word(d + 3));
        o = flag(o, d[2] & 0x80);
        o = flag(o, d[2] & 0x40);
        o = flag(o, d[2] & 4);
        o = flag(o, d[2] & 2);
        return flag(o, d[2] & 1);
    case 0x10: {
        WANT(1);
        uint32_t half = (uint32_t)d[2] << 8 | d[3];
        RANGE(half <= 719);
        NAME("windangle");
        return field(o, half);
    }
    case 0x11:
        WANT(1);
        RANGE((d[3] & 15) <= 9);
        NAME("windspeed");
        o = field(o, 10u * (d[2] & 0x7F) + (d[3] & 15));
        return flag(o, d[2] & 0x80);
    case 0x20:
        WANT(1);
        NAME("speed");
        return field(o, word(d + 2));
    case 0x21:
        WANT(2);
        NAME("trip");
        return field(o, word(d + 2) | (uint32_t)(d[4] & 15) << 16);
    case 0x22:
        WANT(2);
        NAME("total");
        return field(o, word(d + 2));
    case 0x25:
        WANT(4);
        NAME("logs");
        o = field(o, word(d + 2) | high << 16);
        return field(o, word(d + 4) | (uint32_t)(d[6] & 15) << 16);
    case 0x26:
        WANT(4);
        NAME("speeds");
        o = field(o, word(d + 2));
        o = field(o, word(d + 4));
        o = flag(o, d[6] & 0x40);
        o = flag(o, d[6] & 1);
        return flag(o, d[6] & 2);
    case 0x27:
        WANT(1);
        NAME("water");
        return field_signed(o, (int)word(d + 2) - 100);
    case 0x30:
        WANT(0);
        RANGE((d[2] & 3) == 0);
        NAME("lamp");
        return field(o, d[2] >> 2 & 3);
    case 0x50:
    case 0x51: {
        WANT(2);
        uint32_t minutes = word(d + 3);
        RANGE(d[2] <= (d[0] == 0x50 ? 90 : 180) && (minutes & 0x7FFF) <= 5999);
        if (d[0] == 0x50)
            NAME("lat");
        else
            NAME("lon");
        o = field(o, d[2]);
        o = field(o, minutes & 0x7FFF);
        return flag(o, minutes & 0x8000);
    }
    case 0x52:
        WANT(1);
        NAME("ground");
        return field(o, word(d + 2));
    case 0x53:
        WANT(0);
        six = d[2] & 0x3F;
        RANGE(six <= 44);
        NAME("course");
        return field(o, 180 * (high & 3) + 4 * six + (high >> 2));
    case 0x54: {
        WANT(1);
        unsigned minute = d[2] >> 2, second = (d[2] & 3u) << 4 | high;
        RANGE(d[3] <= 23 && minute <= 59 && second <= 59);
        NAME("time");
        o = field(o, d[3]);
        o = field(o, minute);
        return field(o, second);
    }
    case 0x56:
        WANT(1);
        RANGE(high - 1 <= 11 && d[2] - 1u <= 30 && d[3] <= 99);
        NAME("date");
        o = field(o, high);
        o = field(o, d[2]);
        return field(o, d[3]);
    case 0x84:
        WANT(6);
        six = d[2] & 0x3F;
        RANGE(six <= 44 && d[3] <= 179);
        NAME("pilot");
        o = field(o, whole_degrees(high, six));
        o = flag(o, high & 8);
        o = field(o, 180u * (d[2] >> 6) + d[3]);
        o = flag(o, d[4] & 2);
        o = flag(o, d[4] & 4);
        o = flag(o, d[4] & 8);
        o = flag(o, d[5] & 4);
        o = flag(o, d[5] & 8);
        o = field_signed(o, signed_byte(d[6]));
        o = field(o, d[7]);
        return field(o, d[8]);
    case 0x86:
        WANT(1);
        if (d[2] + d[3] != 255)
            return refused(o, 6);
        NAME("key");
        o = field(o, high);
        return field(o, d[2]);
    case 0x89:
        WANT(2);
        six = d[2] & 0x3F;
        RANGE(six <= 44 && d[3] <= 179);
        NAME("heading");
        o = field(o, 180 * (high & 3) + 4 * six + (high >> 2));
        o = field(o, 180u * (d[2] >> 6) + d[3]);
        return flag(o, d[4] & 2);
    case 0x99:
        WANT(0);
        NAME("variation");
        return field_signed(o, -signed_byte(d[2]));
    case 0x9C:
        WANT(1);
        six = d[2] & 0x3F;
        RANGE(six <= 44);
        NAME("turn");
        o = field(o, whole_degrees(high, six));
        o = flag(o, high & 8);
        return field_signed(o, signed_byte(d[3]));
    default:
        return refused(o, 4);
    }
}

static inline char *put_line_end(char *o, const unsigned char *bytes)
{
    o = put_reading(o, bytes);
    *o++ = '\n';
    return o;
}

/* One symbol at a time. */
static inline void hear(unsigned symbol, uint32_t time)
{
    if (symbol > 255) {
        cancelled += ear.held != 0;
        ear.bytes[0] = (unsigned char)symbol;
        ear.held = 1;
        ear.length = 3;
    } else if (ear.held == 0) {
        stray++;
    } else {
        ear.bytes[ear.held] = (unsigned char)symbol;
        if (ear.held == 1)
            ear.length = 3 + (symbol & 15);
        if (++ear.held == ear.length) {
            char *o = put_time(next, time);
            for (unsigned i = 0; i < ear.length; i++, o += 3)
                memcpy(o, hex[ear.bytes[i]], 4);
            next = put_line_end(o + 1, ear.bytes);
            handed++;
            ear.held = 0;
        }
    }
}

/* Lists the datagram that begins at p, where a command symbol and room for the longest datagram are, and gives its
   length; 0, with nothing changed, if another command symbol or a refused record lies in it. */
static inline unsigned take_whole(const unsigned char *p)
{
    unsigned char bytes[LONGEST];
    unsigned length = 3 + (p[RECORD + 6] & 15);
    uint64_t wrong = 0;
    char *o = put_time(next, (uint32_t)(load(p + RECORD * (length - 1)) >> 16));
    bytes[0] = p[6];
    memcpy(o, hex[p[6]], 4);
    o += 3;
    for (unsigned i = 1; i < length; i++, o += 3) {
        uint64_t record = load(p + RECORD * i);
        wrong |= record ^ MARK;
        bytes[i] = (unsigned char)(record >> 48);
        memcpy(o, hex[bytes[i]], 4);
    }
    if (wrong & FOLLOWS)
        return 0;
    cancelled += ear.held != 0;
    ear.held = 0;
    handed++;
    next = put_line_end(o + 1, bytes);
    return length;
}

/* Lists the records of in[0..have) and gives how many bytes it took; *refusal is 10 or 1 for a refused record. */
static size_t list_block(size_t have, int *refusal)
{
    const unsigned char *p = in, *end = in + have;
    while (end - p >= RECORD) {
        uint64_t record = load(p);
        if ((record & FRAME) != MARK) {
            *refusal = (record & 0xFFFF) != MARK ? 10 : 1;
            break;
        }
        if (next > out + BLOCK - LINE)
            flush();
        if (record >> 56 && end - p >= RECORD * LONGEST) {
            unsigned taken = take_whole(p);
            if (taken) {
                p += RECORD * taken;
                continue;
            }
        }
        hear((unsigned)(record >> 48), (uint32_t)(record >> 16));
        p += RECORD;
    }
    return (size_t)(p - in);
}

static char *put_text(char *o, const char *text)
{
    size_t size = strlen(text);
    memcpy(o, text, size);
    return o + size;
}

int main(void)
{
    uint64_t offset = 0; /* of in[0] in the whole input */
    size_t have = 0;
    int refusal = 0;

    make_tables();
    next = put_text(next, "bus listing 1\n");
    while (refusal == 0) {
        ssize_t got = read(0, in + have, BLOCK - have);
        if (got > 0) {
            have += (size_t)got;
            size_t taken = list_block(have, &refusal);
            have -= taken;
            offset += taken;
            memmove(in, in + taken, have);
        } else if (got == 0) {
            if (have)
                refusal = 11;
            break;
        } else if (errno != EINTR) {
            flush();
            complain("standard input: ");
            return 1;
        }
    }
    if (next > out + BLOCK - LINE)
        flush();
    if (refusal) {
        next = put_text(next, "stopped ");
        next = put_count(next, (uint64_t)refusal);
        next = put_text(next, " at ");
        next = put_count(next, offset);
        *next++ = '\n';
    }
    next = put_text(next, "handed ");
    next = put_count(next, handed);
    next = put_text(next, " cancelled ");
    next = put_count(next, cancelled);
    next = put_text(next, " stray ");
    next = put_count(next, stray);
    *next++ = '\n';
    flush();
    return 0;
}
