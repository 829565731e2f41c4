/* A buffer that is lent to the product, between guard bytes that nobody may touch. */
#ifndef GUARDED_H
#define GUARDED_H
#include <stddef.h>
#include <stdint.h>

typedef struct {
    uint8_t *bytes;
    size_t length;
} guarded_buffer;

guarded_buffer guarded_new(size_t length);
int guards_intact(const guarded_buffer *l);
void guarded_free(guarded_buffer *l);
#endif
