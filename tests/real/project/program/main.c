#include <stdio.h>
#include <stdlib.h>

#include "numbers.h"
#include "shapes.h"
#include "words.h"
#include "work.h"

static const char text[] =
    "the driver reads the line and the files of specs, works a text for each source, "
    "and starts what the text says: the compiler, the assembler, the linker";

static int show_words(void)
{
    struct counts counts;
    if (counts_begin(&counts) || counts_add_text(&counts, text))
        return -1;
    counts_sort(&counts);
    for (size_t at = 0; at < counts.used && at < 4; at++)
        printf("%lu %s\n", counts.slots[at].times, counts.slots[at].word);
    counts_end(&counts);
    return 0;
}

static void show_shapes(void)
{
    for (int kind = CIRCLE; kind <= TRIANGLE; kind++) {
        struct shape shape = { (enum shape_kind)kind, 2 };
        printf("%s %.6f\n", shape_name(&shape), shape_area(&shape));
    }
    printf("%u named\n", shapes_named());
}

int main(void)
{
    double values[] = { 2, 4, 4, 4, 5, 5, 7, 9 };
    size_t count = sizeof values / sizeof *values;

    printf("%s %d\n", NAME, VERSION);
    if (show_words())
        return EXIT_FAILURE;
    show_shapes();
    printf("mean %.3f deviation %.3f square %u\n", mean_of(values, count), deviation_of(values, count), squares[5]);
    printf("sum %llu\n", (unsigned long long)sum_below(1000000, 4));
    return EXIT_SUCCESS;
}
