/* One machine twice, from the same start: the reference's and the product's. */
#ifndef MACHINE_PAIR_H
#define MACHINE_PAIR_H
#include "guarded.h"
#include "pattern_floor.h"
#include "reference/ref2650.h"

/* a partition's sizes: of its window, and of its input and output buffer; and how many bytes of the window are locked */
typedef struct {
    uint16_t window, input, output, locked;
} layout;

typedef struct {
    layout layout;
    ref2650 reference;          /* its bytes are those of its partition */
    guarded_buffer reference_partition;
    guarded_buffer state, partition;    /* the product's; more bytes may lie behind its partition */
} machine_pair;

/* Two machines of this layout, with `extra_length` bytes after the product's partition. All bytes are the caller's to
 * fill: the reference's machine and partition first, then machine_pair_copy_to_product for the product's. */
machine_pair machine_pair_new(layout sizes, size_t extra_length);
void machine_pair_copy_to_product(machine_pair *t);
void machine_pair_free(machine_pair *t);
/* Runs both, rounds times quantum steps; answers the steps that the reference took at status 1. */
uint64_t machine_pair_run(machine_pair *t, uint64_t quantum, uint64_t rounds);
/* What differs first, or NULL: a field of the state, a byte of the partition, a guard, a byte behind the partition. */
const char *machine_pair_difference(const machine_pair *t);
/* The reference's state in the product's 34 bytes. */
void encode_state(const ref2650 *m, uint8_t *out);
#endif
