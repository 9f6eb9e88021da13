/* A sum, worked by several threads. */
#ifndef WORK_H
#define WORK_H

#include <stdint.h>

uint64_t sum_below(uint64_t limit, unsigned threads);

#endif
