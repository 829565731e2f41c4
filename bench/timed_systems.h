/* One pattern in the first slots of two systems, the reference's and the product's. A system is a table and its
 * memory. */
#ifndef TIMED_SYSTEMS_H
#define TIMED_SYSTEMS_H
#include "pattern_floor.h"
#include "pattern.h"
#include "reference/ref_supervisor.h"

typedef struct {
    ref_table reference_table;
    uint8_t reference_memory[MEMORY_MAX];
    uint8_t table[PF_TABLE_BYTES], memory[MEMORY_MAX];
} timed_systems;

/* Answers 0 if the pattern does not fit so many times. */
int timed_systems_load(timed_systems *both, const pattern *p, unsigned slots, uint8_t quantum);
/* What differs first, or NULL: a slot's report, a byte of the memory. */
const char *timed_systems_difference(const timed_systems *both);
/* Whether the first slots are all still running. */
int timed_systems_running(const timed_systems *both, unsigned slots);
#endif
