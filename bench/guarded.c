#include "guarded.h"
#include <stdio.h>
#include <stdlib.h>

enum { GUARD = 64 };

/* a guard's bytes differ from place to place, so that a copied stretch shows too */
static uint8_t guard_byte(size_t i) { return (uint8_t)(0xA5 ^ (i * 7)); }

guarded_buffer guarded_new(size_t length)
{
    uint8_t *block = malloc(length + 2 * GUARD);
    if (!block) {
        fprintf(stderr, "no memory\n");
        exit(2);
    }
    for (size_t i = 0; i < GUARD; i++)
        block[i] = block[GUARD + length + i] = guard_byte(i);
    return (guarded_buffer){ block + GUARD, length };
}

int guards_intact(const guarded_buffer *l)
{
    const uint8_t *before = l->bytes - GUARD, *after = l->bytes + l->length;
    for (size_t i = 0; i < GUARD; i++)
        if (before[i] != guard_byte(i) || after[i] != guard_byte(i)) return 0;
    return 1;
}

void guarded_free(guarded_buffer *l)
{
    if (l->bytes) free(l->bytes - GUARD);
    l->bytes = NULL;
}
