/* Random machines on the reference and on the product, piece by piece. */
#ifndef RANDOM_MACHINES_H
#define RANDOM_MACHINES_H
#include <stdint.h>

/* At least so many steps. Answers 0, or 1 after the first difference. */
int random_machines(uint64_t seed, uint64_t steps);
#endif
