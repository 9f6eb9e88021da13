#include <stdlib.h>
#include <string.h>

#include "words.h"

static int compare(const void *left, const void *right)
{
    const struct count *a = left, *b = right;
    if (!a->word || !b->word)
        return !a->word - !b->word;
    if (a->times != b->times)
        return a->times < b->times ? 1 : -1;
    return strcmp(a->word, b->word);
}

void counts_sort(struct counts *counts)
{
    qsort(counts->slots, counts->room, sizeof *counts->slots, compare);
}
