/* The calls of include/seatalk.h under the names of bench/plain.c. */
#ifndef PLAIN_H
#define PLAIN_H

#include <stddef.h>
#include <stdint.h>

int32_t plain_hear(uint8_t *state, size_t state_length, uint32_t symbol, uint8_t *result, size_t result_length);
int32_t plain_read(const uint8_t *bytes, size_t bytes_length, uint8_t *result, size_t result_length);
int32_t plain_write(uint32_t command, const uint8_t *fields, size_t fields_length, uint8_t *result,
                    size_t result_length);
int32_t plain_record(uint32_t time, uint32_t symbol, uint8_t *result, size_t result_length);

#endif
