/* The reference's table as the 388 bytes of a table, and back: from their description, not from the product. */
#ifndef CODEC_H
#define CODEC_H
#include "reference/ref_supervisor.h"

/* Every field of the table is as wide as its bytes: any 388 bytes are the bytes of one table, sound or not. */
void encode_table(const ref_table *table, uint8_t *bytes);
void decode_table(const uint8_t *bytes, ref_table *table);

/* The same as the version before kept it, in 372 bytes: nothing is locked on the way back. */
void encode_unlocked_table(const ref_table *table, uint8_t *bytes);
void decode_unlocked_table(const uint8_t *bytes, ref_table *table);

/* The same as the versions before that one kept it, in 364 bytes: without its free bytes too, which are 0 on the way back. */
void encode_uncounted_table(const ref_table *table, uint8_t *bytes);
void decode_uncounted_table(const uint8_t *bytes, ref_table *table);

/* a report and a file's parameters, as their 12 and 11 bytes */
void encode_report(const ref_reported *report, uint8_t *bytes);
void encode_parameters(const ref_parameters *parameters, uint8_t *bytes);
#endif
