/* Numbers: primes from a table in assembler, and statistics. */
#ifndef NUMBERS_H
#define NUMBERS_H

#include <stddef.h>
#include <stdint.h>

extern const uint32_t primes[];
extern const uint32_t primes_count;
extern const uint32_t squares[];

uint32_t prime_above(uint32_t number);
uint64_t hash_of(const char *bytes, size_t length);
double mean_of(const double *values, size_t count);
double deviation_of(const double *values, size_t count);

#endif
