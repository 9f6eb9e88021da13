#include "numbers.h"

#ifndef SEED
#define SEED 14695981039346656037ull
#endif

uint64_t hash_of(const char *bytes, size_t length)
{
    uint64_t hash = SEED;
    for (size_t at = 0; at < length; at++) {
        hash ^= (unsigned char)bytes[at];
        hash *= 1099511628211ull;
    }
    return hash;
}

uint32_t prime_above(uint32_t number)
{
    for (uint32_t at = 0; at < primes_count; at++)
        if (primes[at] > number)
            return primes[at];
    return number | 1;
}
