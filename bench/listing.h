/* The bench run of a pattern file, call by call through the entry points. */
#ifndef LISTING_H
#define LISTING_H
#include <stddef.h>
#include <stdint.h>

/* Leaves the text, at most PF_LISTING_BYTES and a final 0, in `text`; answers its length. */
size_t listing(const uint8_t *file, size_t length, char *text);
#endif
