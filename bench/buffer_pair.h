/* A buffer lent twice: to the product between guards, and to the reference. Both start alike, and are compared. */
#ifndef BUFFER_PAIR_H
#define BUFFER_PAIR_H
#include "guarded.h"

typedef struct {
    const char *name;
    size_t length;
    guarded_buffer product;
    uint8_t *reference;     /* exactly this long, so that the sanitizer catches an access outside it */
    uint8_t *before;        /* the bytes that a refusal must leave */
} buffer_pair;

buffer_pair buffer_pair_random(const char *name, size_t length);
buffer_pair buffer_pair_of(const char *name, const uint8_t *bytes, size_t length);
void buffer_pair_free(buffer_pair *p);

/* Gives the product the reference's bytes: after a change from outside. */
void buffer_pair_copy_to_product(buffer_pair *p);

/* Notes the bytes before a call. */
void buffer_pair_note_before(buffer_pair *p);

/* The first byte in which they differ, from the bytes before the call too if it was refused. */
typedef struct {
    const char *what;       /* NULL if nothing differs */
    const char *where;
    size_t at;              /* NO_OFFSET if it is no byte of the buffer */
    unsigned product, expected;
} difference;

#define NO_OFFSET SIZE_MAX

difference buffer_pair_difference(const buffer_pair *p, int refused);
#endif
