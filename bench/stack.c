/* Measures the stack that each call of include/seatalk.h takes: a stack of its own is filled with a pattern, the call
   is made on it, and the lowest byte that changed tells how deep it reached, its return address counted. That is done
   for every kind, answer and refusal, with two patterns in turn. For bench/stack; x86-64, gcc. */
#include "seatalk.h"

#include <stdio.h>
#include <stdlib.h>
#include <string.h>

enum { STACK = 16384, ROUNDS = 20000 };

static const uint32_t commands[] = {0x00, 0x10, 0x11, 0x20, 0x21, 0x22, 0x25, 0x26, 0x27, 0x30, 0x50,
                                    0x51, 0x52, 0x53, 0x54, 0x56, 0x84, 0x86, 0x89, 0x99, 0x9C, 0x85};
static const uint8_t low_digits[] = {2, 1, 1, 1, 2, 2, 4, 4, 1, 0, 2, 2, 1, 0, 1, 1, 6, 1, 2, 0, 1, 6};
static const size_t counts[] = {6, 1, 2, 1, 1, 1, 2, 5, 1, 1, 3, 3, 1, 1, 3, 3, 11, 2, 3, 1, 3, 1};
enum { COMMANDS = sizeof commands / sizeof commands[0] };

/* What was measured of one call. */
struct depth {
    const char *name;
    unsigned long calls, most, refused[9]; /* of each refusal, how many */
};

static struct depth hear = {.name = "seatalk_hear"}, reading = {.name = "seatalk_read"},
                    writing = {.name = "seatalk_write"}, recording = {.name = "seatalk_record"};

static _Alignas(16) uint8_t stack[STACK];
static uint64_t seed = 4800;

static uint32_t below(uint32_t end)
{
    seed = seed * UINT64_C(6364136223846793005) + 1442695040888963407u;
    return (uint32_t)((seed >> 32) * end >> 32);
}

/* Calls a function of up to five numbers or pointers on the stack above. */
static int32_t on_stack(const void *function, uint64_t a, uint64_t b, uint64_t c, uint64_t d, uint64_t e)
{
    uint64_t returned;
    register uint64_t fifth __asm__("r8") = e;
    __asm__ volatile("movq %%rsp, %%rbx\n\tmovq %[top], %%rsp\n\tcall *%[function]\n\tmovq %%rbx, %%rsp"
                     : "=a"(returned), "+D"(a), "+S"(b), "+d"(c), "+c"(d), "+r"(fifth)
                     : [top] "r"(stack + STACK), [function] "r"(function)
                     : "rbx", "r9", "r10", "r11", "xmm0", "xmm1", "xmm2", "xmm3", "xmm4", "xmm5", "xmm6", "xmm7",
                       "xmm8", "xmm9", "xmm10", "xmm11", "xmm12", "xmm13", "xmm14", "xmm15", "cc", "memory");
    return (int32_t)returned;
}

static int32_t measure(struct depth *depth, const void *function, uint64_t a, uint64_t b, uint64_t c, uint64_t d,
                       uint64_t e)
{
    uint8_t pattern = depth->calls % 2 == 0 ? 0xA5 : 0x5A;
    size_t untouched = 0;
    memset(stack, pattern, STACK);
    int32_t returned = on_stack(function, a, b, c, d, e);
    while (untouched < STACK && stack[untouched] == pattern)
        untouched++;
    depth->calls++;
    if (returned < 0)
        depth->refused[SEATALK_REFUSAL_NUMBER(returned)]++;
    if (STACK - untouched > depth->most)
        depth->most = STACK - untouched;
    return returned;
}

#define POINTER(p) ((uint64_t)(uintptr_t)(p))

static void measure_hear(void)
{
    uint8_t state[SEATALK_STATE_SIZE] = {0}, result[SEATALK_HEARD_SIZE];
    for (unsigned i = 0; i < ROUNDS; i++) {
        uint32_t symbol = below(4) == 0 ? 256 + below(257) : below(256);
        size_t room = below(50) == 0 ? below(SEATALK_HEARD_SIZE) : sizeof result;
        for (unsigned twice = 0; twice < 2; twice++) {
            uint8_t before[SEATALK_STATE_SIZE];
            memcpy(before, state, sizeof state);
            measure(&hear, (const void *)seatalk_hear, POINTER(state), sizeof state, symbol, POINTER(result), room);
            if (twice == 0)
                memcpy(state, before, sizeof state);
        }
        if (below(100) == 0) { /* a state that may not be sound, and then the empty one again */
            for (size_t k = 0; k < sizeof state; k++)
                state[k] = (uint8_t)below(k == 0 ? 20 : 256);
            measure(&hear, (const void *)seatalk_hear, POINTER(state), sizeof state, symbol, POINTER(result), room);
            memset(state, 0, sizeof state);
        }
    }
}

static void measure_read_and_write(void)
{
    uint8_t bytes[SEATALK_DATAGRAM_SIZE], fields[SEATALK_FIELDS_SIZE], symbols[SEATALK_SYMBOLS_SIZE];
    for (unsigned i = 0; i < ROUNDS; i++) {
        unsigned k = i % COMMANDS;
        unsigned low = below(20) == 0 ? below(16) : low_digits[k];
        size_t length = 3 + low, room = below(20) == 0 ? below(SEATALK_FIELDS_SIZE) : sizeof fields;
        int32_t size = 0;
        for (size_t n = 2; n < sizeof bytes; n++)
            bytes[n] = (uint8_t)below(below(2) == 0 ? 24 : 256);
        bytes[0] = (uint8_t)commands[k];
        bytes[1] = (uint8_t)(below(16) << 4 | low);
        if (commands[k] == 0x86 && below(4) != 0)
            bytes[3] = (uint8_t)(255 - bytes[2]);
        if (below(50) == 0)
            length = below(sizeof bytes);
        for (unsigned twice = 0; twice < 2; twice++)
            size = measure(&reading, (const void *)seatalk_read, POINTER(bytes), length, POINTER(fields), room, 0);
        if (size < 0) { /* fields of any size, most of them out of range */
            size = (int32_t)(4 * counts[k]);
            for (size_t n = 0; n < sizeof fields; n++)
                fields[n] = (uint8_t)below(n % 4 < 2 ? 256 : 2);
        }
        if (below(20) == 0)
            size = (int32_t)below(sizeof fields + 1);
        room = below(20) == 0 ? below(SEATALK_SYMBOLS_SIZE) : sizeof symbols;
        for (unsigned twice = 0; twice < 2; twice++)
            measure(&writing, (const void *)seatalk_write, commands[k], POINTER(fields), (uint64_t)size,
                    POINTER(symbols), room);
    }
}

static void measure_record(void)
{
    uint8_t record[SEATALK_RECORD_SIZE];
    for (unsigned i = 0; i < ROUNDS; i++) {
        uint32_t time = below(UINT32_MAX), symbol = below(50) == 0 ? 512 + below(UINT32_MAX - 511) : below(512);
        size_t room = below(50) == 0 ? below(SEATALK_RECORD_SIZE) : sizeof record;
        for (unsigned twice = 0; twice < 2; twice++)
            measure(&recording, (const void *)seatalk_record, time, symbol, POINTER(record), room, 0);
    }
}

int main(void)
{
    const struct depth *all[] = {&hear, &reading, &writing, &recording};
    measure_hear();
    measure_read_and_write();
    measure_record();
    for (size_t i = 0; i < sizeof all / sizeof all[0]; i++) {
        printf("%-14s %4lu bytes of stack at most, in %lu calls; refused:", all[i]->name, all[i]->most, all[i]->calls);
        for (unsigned n = 0; n < sizeof all[i]->refused / sizeof all[i]->refused[0]; n++)
            if (all[i]->refused[n] > 0)
                printf(" %lu with %u", all[i]->refused[n], n);
        printf("\n");
    }
    return 0;
}
