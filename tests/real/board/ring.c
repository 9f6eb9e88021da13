#include "ring.h"

#include <stdlib.h>

struct ring {
    unsigned size, first, count;
    int values[];
};

struct ring *ring_new(unsigned size)
{
    struct ring *ring = malloc(sizeof *ring + size * sizeof(int));
    *ring = (struct ring){size, 0, 0};
    return ring;
}

void ring_put(struct ring *ring, int value)
{
    ring->values[(ring->first + ring->count) % ring->size] = value;
    if (ring->count < ring->size)
        ring->count++;
    else
        ring->first = (ring->first + 1) % ring->size;
}

int ring_get(struct ring *ring)
{
    int value = ring->values[ring->first];
    ring->first = (ring->first + 1) % ring->size;
    ring->count--;
    return value;
}

int ring_unused(struct ring *ring)
{
    return ring->size * 7919;
}
