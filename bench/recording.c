/* Times the library's run of records against the same run of bench/recording-plain.c, in turn, and gives the best of several
   rounds. Both are first compared byte by byte. For bench/recording; C11 and POSIX. */
#define _POSIX_C_SOURCE 200809L
#include <stdint.h>
#include <stdio.h>
#include <stdlib.h>
#include <string.h>
#include <time.h>

enum { RECORDS = 10000000, SIZE = 8 * RECORDS, ROUNDS = 12 };

typedef uint64_t run(const uint32_t *times, size_t times_length, const uint16_t *symbols, size_t symbols_length,
                     uint8_t *buf, size_t buf_length, size_t at);

run recorder_records, plain_records;

static uint32_t *times;
static uint16_t *symbols;
static uint8_t *buffer, *other;
static uint64_t seed = 4800;

static uint32_t below(uint32_t end)
{
    seed = seed * UINT64_C(6364136223846793005) + 1442695040888963407u;
    return (uint32_t)((seed >> 32) * end >> 32);
}

static double now(void)
{
    struct timespec t;
    clock_gettime(CLOCK_MONOTONIC, &t);
    return 1e3 * (double)t.tv_sec + 1e-6 * (double)t.tv_nsec;
}

static void fail(const char *what)
{
    fprintf(stderr, "recording: %s\n", what);
    exit(1);
}

static void *allocate(size_t size)
{
    void *memory = malloc(size);
    if (!memory)
        fail("no memory");
    return memory;
}

/* Symbols of any value that a record can have, 11 bit times apart and a little more. The two buffers begin with different
   bytes, so that a byte that is not stored is seen. */
static void make(void)
{
    uint32_t time = 0;
    times = allocate(RECORDS * sizeof *times);
    symbols = allocate(RECORDS * sizeof *symbols);
    buffer = allocate(SIZE);
    other = allocate(SIZE);
    for (size_t i = 0; i < RECORDS; i++) {
        times[i] = time += 11 + below(900);
        symbols[i] = (uint16_t)below(512);
    }
    memset(buffer, 0x00, SIZE);
    memset(other, 0xFF, SIZE);
}

static void compare(void)
{
    uint64_t library = recorder_records(times, RECORDS, symbols, RECORDS, buffer, SIZE, 0);
    uint64_t plain = plain_records(times, RECORDS, symbols, RECORDS, other, SIZE, 0);
    if (library != SIZE || plain != SIZE || memcmp(buffer, other, SIZE) != 0)
        fail("the two differ");
    printf("same %d bytes of %d records\n", (int)SIZE, (int)RECORDS);
}

/* One run in milliseconds, or the best so far where that is less. Both write into the same buffer: where its pages lie is
   the same for both. */
static double better(run *records, double best)
{
    double start = now();
    uint64_t stored = records(times, RECORDS, symbols, RECORDS, buffer, SIZE, 0);
    double took = now() - start;
    if (stored != SIZE)
        fail("a run was refused");
    return took < best ? took : best;
}

int main(void)
{
    double library = 1e9, plain = 1e9;
    make();
    compare();
    for (int round = 0; round < ROUNDS; round++) {
        library = better(recorder_records, library);
        plain = better(plain_records, plain);
    }
    if (memcmp(buffer, other, SIZE) != 0)
        fail("the two differ in what was timed");
    printf("library: %.1f ms, %.0f MB/s\n", library, SIZE / library / 1e3);
    printf("C: %.1f ms, %.0f MB/s\n", plain, SIZE / plain / 1e3);
    printf("recording: library time / C time: %.2f\n", library / plain);
    return 0;
}
