/* Times the calls of include/seatalk.h against the same calls of bench/plain.c, in turn, and gives the best of several
   rounds in nanoseconds a call. Both are first compared on all that is timed. For bench/host; C11 and POSIX. */
#define _POSIX_C_SOURCE 200809L
#include "plain.h"
#include "seatalk.h"

#include <stdio.h>
#include <stdlib.h>
#include <string.h>
#include <time.h>

enum { MESSAGES = 4096, SYMBOLS = 32768, CALLS = 1 << 21, ROUNDS = 25, BIT_TIMES = 11 /* of a symbol */ };

/* A message as the writer takes it and as the reader takes it. */
struct message {
    uint32_t command;
    size_t fields_length, length;
    uint8_t fields[SEATALK_FIELDS_SIZE], bytes[SEATALK_DATAGRAM_SIZE];
};

struct kind {
    uint32_t command;
    size_t count;
    int32_t low[11], high[11];
};

static const struct kind kinds[] = {
    {0x00, 6, {0}, {65535, 1, 1, 1, 1, 1}},
    {0x10, 1, {0}, {719}},
    {0x11, 2, {0}, {1279, 1}},
    {0x20, 1, {0}, {65535}},
    {0x21, 1, {0}, {1048575}},
    {0x22, 1, {0}, {65535}},
    {0x25, 2, {0}, {1048575, 1048575}},
    {0x26, 5, {0}, {65535, 65535, 1, 1, 1}},
    {0x27, 1, {-100}, {65435}},
    {0x30, 1, {0}, {3}},
    {0x50, 3, {0}, {90, 5999, 1}},
    {0x51, 3, {0}, {180, 5999, 1}},
    {0x52, 1, {0}, {65535}},
    {0x53, 1, {0}, {719}},
    {0x54, 3, {0}, {23, 59, 59}},
    {0x56, 3, {1, 1, 0}, {12, 31, 99}},
    {0x84, 11, {[8] = -128}, {359, 1, 719, 1, 1, 1, 1, 1, 127, 255, 255}},
    {0x86, 2, {0}, {15, 255}},
    {0x89, 3, {0}, {719, 719, 1}},
    {0x99, 1, {-127}, {128}},
    {0x9C, 3, {0, 0, -128}, {359, 1, 127}},
};

static struct message messages[MESSAGES];
static uint32_t symbols[SYMBOLS];
static uint64_t seed = 4800;

static uint32_t below(uint32_t end)
{
    seed = seed * UINT64_C(6364136223846793005) + 1442695040888963407u;
    return (uint32_t)((seed >> 32) * end >> 32);
}

/* Every kind alike, each field anywhere in its range; one datagram in 32 damaged in a byte after the second. */
static void make_messages(void)
{
    for (size_t m = 0; m < MESSAGES; m++) {
        const struct kind *kind = &kinds[below(sizeof kinds / sizeof kinds[0])];
        struct message *message = &messages[m];
        uint8_t written[SEATALK_SYMBOLS_SIZE];
        message->command = kind->command;
        message->fields_length = 4 * kind->count;
        for (size_t i = 0; i < kind->count; i++)
            seatalk_set_field(message->fields, i,
                              kind->low[i] + (int32_t)below((uint32_t)(kind->high[i] - kind->low[i] + 1)));
        int32_t size = plain_write(kind->command, message->fields, 4 * kind->count, written, sizeof written);
        if (size < 0) {
            fputs("host: a message in range is refused\n", stderr);
            exit(1);
        }
        message->length = (size_t)size / 2;
        for (size_t i = 0; i < message->length; i++)
            message->bytes[i] = (uint8_t)seatalk_symbol(written, i);
        if (below(32) == 0)
            message->bytes[2 + below((uint32_t)message->length - 2)] ^= (uint8_t)(1u << below(8));
    }
}

/* The datagrams as a bus carries them: one in 16 cut off by a collision, and now and then a stray. */
static void make_symbols(void)
{
    for (size_t s = 0; s < SYMBOLS;) {
        const struct message *message = &messages[below(MESSAGES)];
        size_t length = below(16) == 0 ? 1 + below((uint32_t)message->length - 1) : message->length;
        for (size_t i = 0; i < length && s < SYMBOLS; i++)
            symbols[s++] = message->bytes[i] + (i == 0 ? 256u : 0u);
        if (below(32) == 0 && s < SYMBOLS)
            symbols[s++] = below(256);
    }
}

static double now(void)
{
    struct timespec t;
    clock_gettime(CLOCK_MONOTONIC, &t);
    return 1e9 * (double)t.tv_sec + (double)t.tv_nsec;
}

/* One round of each call, by name so that the calls are direct; nanoseconds a call. The sum keeps the work. */
#define ROUNDS_OF(who)                                                                                                 \
    static double hear_##who(uint64_t *sum)                                                                            \
    {                                                                                                                  \
        uint8_t state[SEATALK_STATE_SIZE] = {0}, heard[SEATALK_HEARD_SIZE];                                            \
        double start = now();                                                                                          \
        for (size_t i = 0; i < CALLS; i++) {                                                                           \
            *sum += (uint64_t)who##_hear(state, sizeof state, symbols[i % SYMBOLS], heard, sizeof heard);              \
            *sum += heard[0];                                                                                          \
        }                                                                                                              \
        return (now() - start) / CALLS;                                                                                \
    }                                                                                                                  \
    static double read_##who(uint64_t *sum)                                                                            \
    {                                                                                                                  \
        uint8_t fields[SEATALK_FIELDS_SIZE] = {0};                                                                     \
        double start = now();                                                                                          \
        for (size_t i = 0; i < CALLS; i++) {                                                                           \
            const struct message *message = &messages[i % MESSAGES];                                                   \
            *sum += (uint64_t)(int64_t)who##_read(message->bytes, message->length, fields, sizeof fields);             \
            *sum += fields[0];                                                                                         \
        }                                                                                                              \
        return (now() - start) / CALLS;                                                                                \
    }                                                                                                                  \
    static double write_##who(uint64_t *sum)                                                                           \
    {                                                                                                                  \
        uint8_t written[SEATALK_SYMBOLS_SIZE] = {0};                                                                   \
        double start = now();                                                                                          \
        for (size_t i = 0; i < CALLS; i++) {                                                                           \
            const struct message *message = &messages[i % MESSAGES];                                                   \
            *sum += (uint64_t)(int64_t)who##_write(message->command, message->fields, message->fields_length, written, \
                                                   sizeof written);                                                    \
            *sum += written[4];                                                                                        \
        }                                                                                                              \
        return (now() - start) / CALLS;                                                                                \
    }                                                                                                                  \
    static double record_##who(uint64_t *sum)                                                                          \
    {                                                                                                                  \
        uint8_t record[SEATALK_RECORD_SIZE] = {0};                                                                     \
        double start = now();                                                                                          \
        for (size_t i = 0; i < CALLS; i++) {                                                                           \
            uint32_t time = BIT_TIMES * (uint32_t)i;                                                                   \
            *sum += (uint64_t)(int64_t)who##_record(time, symbols[i % SYMBOLS], record, sizeof record);                \
            *sum += record[6];                                                                                         \
        }                                                                                                              \
        return (now() - start) / CALLS;                                                                                \
    }

ROUNDS_OF(seatalk)
ROUNDS_OF(plain)

/* Ends the program unless both gave the same number and the same bytes. */
static void same(const char *what, int32_t a, int32_t b, const uint8_t *bytes, const uint8_t *others, size_t size)
{
    if (a != b || memcmp(bytes, others, size) != 0) {
        fprintf(stderr, "host: the two differ in %s\n", what);
        exit(1);
    }
}

static void compare(void)
{
    uint8_t state[2][SEATALK_STATE_SIZE] = {{0}}, result[2][SEATALK_FIELDS_SIZE] = {{0}};
    size_t handed = 0, refused = 0;
    for (size_t i = 0; i < SYMBOLS; i++) {
        int32_t a = seatalk_hear(state[0], sizeof state[0], symbols[i], result[0], sizeof result[0]);
        int32_t b = plain_hear(state[1], sizeof state[1], symbols[i], result[1], sizeof result[1]);
        same("hear", a, b, result[0], result[1], sizeof result[0]);
        same("hear's state", 0, 0, state[0], state[1], sizeof state[0]);
        handed += result[0][0] == SEATALK_HANDED_OUT;
        a = seatalk_record(BIT_TIMES * (uint32_t)i, symbols[i], result[0], sizeof result[0]);
        b = plain_record(BIT_TIMES * (uint32_t)i, symbols[i], result[1], sizeof result[1]);
        same("record", a, b, result[0], result[1], sizeof result[0]);
    }
    for (size_t i = 0; i < MESSAGES; i++) {
        const struct message *m = &messages[i];
        int32_t a = seatalk_read(m->bytes, m->length, result[0], sizeof result[0]);
        int32_t b = plain_read(m->bytes, m->length, result[1], sizeof result[1]);
        same("read", a, b, result[0], result[1], sizeof result[0]);
        refused += a < 0;
        a = seatalk_write(m->command, m->fields, m->fields_length, result[0], sizeof result[0]);
        b = plain_write(m->command, m->fields, m->fields_length, result[1], sizeof result[1]);
        same("write", a, b, result[0], result[1], sizeof result[0]);
    }
    printf("same answers: %d symbols and their records, %zu datagrams handed out; "
           "%d messages, %zu of their datagrams refused\n",
           (int)SYMBOLS, handed, (int)MESSAGES, refused);
}

int main(void)
{
    static const struct {
        const char *name;
        double (*library)(uint64_t *), (*plain)(uint64_t *);
    } calls[] = {
        {"hear", hear_seatalk, hear_plain},
        {"read", read_seatalk, read_plain},
        {"write", write_seatalk, write_plain},
        {"record", record_seatalk, record_plain},
    };

    make_messages();
    make_symbols();
    compare();
    for (size_t i = 0; i < sizeof calls / sizeof calls[0]; i++) {
        double library = 1e9, plain = 1e9;
        uint64_t sums[2] = {0, 0};
        for (int round = 0; round < ROUNDS; round++) {
            double time = calls[i].library(&sums[0]);
            library = time < library ? time : library;
            time = calls[i].plain(&sums[1]);
            plain = time < plain ? time : plain;
        }
        if (sums[0] != sums[1]) {
            fprintf(stderr, "host: the two differ in what was timed of %s\n", calls[i].name);
            return 1;
        }
        printf("%-6s library %5.1f ns a call, C %5.1f ns, library / C %.2f\n", calls[i].name, library, plain,
               library / plain);
    }
    return 0;
}
