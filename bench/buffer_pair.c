#include "buffer_pair.h"
#include "random.h"
#include <stdio.h>
#include <stdlib.h>
#include <string.h>

/* never NULL, for no bytes too */
static uint8_t *allocate(size_t length)
{
    uint8_t *bytes = malloc(length ? length : 1);
    if (!bytes) {
        fprintf(stderr, "no memory\n");
        exit(2);
    }
    return bytes;
}

static buffer_pair buffer_pair_new(const char *name, size_t length)
{
    return (buffer_pair){ name, length, guarded_new(length), allocate(length), allocate(length) };
}

buffer_pair buffer_pair_random(const char *name, size_t length)
{
    buffer_pair p = buffer_pair_new(name, length);
    random_bytes(p.reference, length);
    buffer_pair_copy_to_product(&p);
    return p;
}

buffer_pair buffer_pair_of(const char *name, const uint8_t *bytes, size_t length)
{
    buffer_pair p = buffer_pair_new(name, length);
    memcpy(p.reference, bytes, length);
    buffer_pair_copy_to_product(&p);
    return p;
}

void buffer_pair_free(buffer_pair *p)
{
    guarded_free(&p->product);
    free(p->reference);
    free(p->before);
    p->reference = p->before = NULL;
}

void buffer_pair_copy_to_product(buffer_pair *p)
{
    memcpy(p->product.bytes, p->reference, p->length);
    buffer_pair_note_before(p);
}

void buffer_pair_note_before(buffer_pair *p) { memcpy(p->before, p->reference, p->length); }

static difference first_difference(const char *what, const buffer_pair *p, const uint8_t *expected)
{
    if (!memcmp(p->product.bytes, expected, p->length)) return (difference){ NULL, p->name, 0, 0, 0 };
    size_t at = 0;
    while (p->product.bytes[at] == expected[at]) at++;
    return (difference){ what, p->name, at, p->product.bytes[at], expected[at] };
}

difference buffer_pair_difference(const buffer_pair *p, int refused)
{
    if (!guards_intact(&p->product)) return (difference){ "a guard byte was written", p->name, NO_OFFSET, 0, 0 };
    difference d = first_difference("not as the reference has it", p, p->reference);
    if (!d.what && refused) d = first_difference("not left by a refusal", p, p->before);
    return d;
}
