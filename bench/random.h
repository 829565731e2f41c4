/* Random numbers that follow from a seed alone: the same on every machine. */
#ifndef RANDOM_H
#define RANDOM_H
#include <stddef.h>
#include <stdint.h>

void random_seed(uint64_t seed);
uint64_t random64(void);
size_t random_below(size_t n);             /* 0 to n - 1; 0 for n of 0 */
size_t random_between(size_t least, size_t most);
int random_one_in(size_t n);
void random_bytes(uint8_t *bytes, size_t n);

/* one of a list of numbers */
#define RANDOM_OF(list) ((list)[random_below(sizeof(list) / sizeof((list)[0]))])

/* a length that is not n: none at all, one less, one more, twice as long, or any */
size_t random_other_length(size_t n);
#endif
