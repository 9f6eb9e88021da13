#include "work.h"

#include <pthread.h>

#ifndef _REENTRANT
#error "this file is compiled with -pthread"
#endif

enum { MOST = 16 };

struct part {
    uint64_t from, to, sum;
};

static void *work(void *given)
{
    struct part *part = given;
    for (uint64_t at = part->from; at < part->to; at++)
        part->sum += at;
    return NULL;
}

uint64_t sum_below(uint64_t limit, unsigned threads)
{
    pthread_t started[MOST];
    struct part parts[MOST];
    uint64_t sum = 0;

    if (threads < 1 || threads > MOST)
        threads = 1;
    for (unsigned at = 0; at < threads; at++) {
        parts[at] = (struct part){ limit * at / threads, limit * (at + 1) / threads, 0 };
        if (pthread_create(&started[at], NULL, work, &parts[at]))
            return 0;
    }
    for (unsigned at = 0; at < threads; at++) {
        pthread_join(started[at], NULL);
        sum += parts[at].sum;
    }
    return sum;
}
