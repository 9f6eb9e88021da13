/* Words of a text, counted. */
#ifndef WORDS_H
#define WORDS_H

#include <stddef.h>

struct count {
    char *word;
    unsigned long times;
};

struct counts {
    struct count *slots;
    size_t used, room;
};

int counts_begin(struct counts *counts);
int counts_add(struct counts *counts, const char *word, size_t length);
int counts_add_text(struct counts *counts, const char *text);
void counts_sort(struct counts *counts);
void counts_end(struct counts *counts);

#endif
