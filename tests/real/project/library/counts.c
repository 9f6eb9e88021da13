#include "words.h"

#include <ctype.h>
#include <stdlib.h>
#include <string.h>

#include "numbers.h"

static size_t slot_of(const struct counts *counts, const char *word, size_t length)
{
    size_t at = hash_of(word, length) % counts->room;
    while (counts->slots[at].word) {
        const char *there = counts->slots[at].word;
        if (strlen(there) == length && memcmp(there, word, length) == 0)
            break;
        at = (at + 1) % counts->room;
    }
    return at;
}

static int grow(struct counts *counts)
{
    struct counts larger = { NULL, counts->used, prime_above(2 * (uint32_t)counts->room) };
    larger.slots = calloc(larger.room, sizeof *larger.slots);
    if (!larger.slots)
        return -1;
    for (size_t at = 0; at < counts->room; at++) {
        struct count *slot = &counts->slots[at];
        if (slot->word)
            larger.slots[slot_of(&larger, slot->word, strlen(slot->word))] = *slot;
    }
    free(counts->slots);
    *counts = larger;
    return 0;
}

int counts_begin(struct counts *counts)
{
    counts->used = 0;
    counts->room = prime_above(8);
    counts->slots = calloc(counts->room, sizeof *counts->slots);
    return counts->slots ? 0 : -1;
}

int counts_add(struct counts *counts, const char *word, size_t length)
{
    if (2 * counts->used >= counts->room && grow(counts))
        return -1;
    struct count *slot = &counts->slots[slot_of(counts, word, length)];
    if (!slot->word) {
        slot->word = malloc(length + 1);
        if (!slot->word)
            return -1;
        memcpy(slot->word, word, length);
        slot->word[length] = '\0';
        counts->used++;
    }
    slot->times++;
    return 0;
}

int counts_add_text(struct counts *counts, const char *text)
{
    while (*text) {
        size_t length = 0;
        while (isalnum((unsigned char)text[length]))
            length++;
        if (length && counts_add(counts, text, length))
            return -1;
        text += length + !length;
    }
    return 0;
}

void counts_end(struct counts *counts)
{
    for (size_t at = 0; at < counts->room; at++)
        free(counts->slots[at].word);
    free(counts->slots);
}
