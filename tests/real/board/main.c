#include <math.h>
#include <stdio.h>
#include <stdlib.h>
#include <string.h>

#include "ring.h"

extern unsigned crossed(unsigned word);

int main(void)
{
    struct ring *ring = ring_new(3);
    char text[20] = "board";
    double root = 0;
    for (int n = 1; n <= 5; n++) {
        ring_put(ring, n * n);
        root += sqrt(n);
    }
    strcat(text, " is up");
    printf("%s: %d %d %d, %.3f, %x\n", text, ring_get(ring), ring_get(ring), ring_get(ring), root, crossed(0x12345678));
    free(ring);
    return 0;
}
