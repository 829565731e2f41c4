/* Random tables: sound ones over a memory, and damaged ones. */
#ifndef TABLES_H
#define TABLES_H
#include "reference/ref_supervisor.h"

/* Any sound table for a memory of that length, in which every window gets a program. */
void table_random(ref_table *table, uint8_t *memory, size_t length);

/* A sound table, for which no memory is filled, of slots that have put out many bytes, and often equally many. */
void table_random_counts(ref_table *table);

/* A sound table, for which no memory is filled, of partitions that often adjoin, and free extents that are often
 * equally long. */
void table_random_extents(ref_table *table);

/* One thing changed, and sometimes the table's free bytes with it: what comes out may be sound. */
void table_damage(ref_table *table);

/* Stores how many bytes are free, and the longest run of them, in any table. They are counted byte by byte on a map of
 * the memory: another way than the reference's, which goes over the partitions in order. */
void table_count_free(ref_table *table);

size_t partition_size(const ref_slot *s);
size_t partition_end(const ref_slot *s);
#endif
