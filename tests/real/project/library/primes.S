/* A table in assembler that the preprocessor works on: the same on every machine. */
#include "table.h"

        TABLE(primes)
        .long 11, 23, 47, 97, 197, 397, 797, 1597, 3203, 6421
        END(primes)
        TABLE(primes_count)
        .long (primes_end - primes) / 4
        END(primes_count)
        .section .note.GNU-stack,"",%progbits
