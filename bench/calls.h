/* One random call through an entry point and through the reference: what is lent, both answers, what differs. */
#ifndef CALLS_H
#define CALLS_H
#include "buffer_pair.h"
#include "pattern_floor.h"
#include "reference/ref_supervisor.h"

/* A system, which is a table and its memory, twice: the product's as lent bytes, the reference's as its own table and
 * a memory. */
typedef struct {
    ref_table reference_table;
    buffer_pair table, memory;  /* in `table` the reference's bytes are those of its table, as codec.c has them */
} system_pair;

enum call_kind {
    CALL_NEW, CALL_LOAD, CALL_UNLOAD, CALL_FEED, CALL_DRAIN, CALL_RUN, CALL_REPORT, CALL_BACKLOG, CALL_FIT,
    CALL_UPGRADE, CALL_READ, CALL_CODE, CALL_INPUT, CALL_WRITE, CALL_KINDS
};

extern const char *const call_names[CALL_KINDS];

/* The refusals that the header lists for each call, and 0, as bits. Of pf_code and pf_input: the reader's. */
extern const uint32_t call_refusals[CALL_KINDS];

enum { REFUSAL_COUNT = 19, MAX_BUFFERS = 6 };

typedef struct {
    enum call_kind kind;
    size_t slot, location, length, size;
    uint16_t rounds;
    int fitted;                 /* pf_fit told the location of this load */
    size_t taken_over;          /* the length of an earlier version's table that pf_upgrade was given, and took; else 0 */
    buffer_pair *table, *memory;       /* the system's, or one among those lent: for pf_upgrade the new table */
    buffer_pair buffers[MAX_BUFFERS];       /* buffers for this call alone */
    size_t buffer_count;
    uint32_t answer, expected;
    unsigned refusal;           /* the reference's */
    uint64_t steps;             /* of slots that still run after pf_run: see calls.c */
} call;

/* Makes a call of that kind with random arguments, most of them sensible for the system as it stands. */
void call_make(call *c, enum call_kind kind, system_pair *both);

/* The first byte or answer that is not as it must be. */
difference call_difference(const call *c, system_pair *both);

/* The call and its arguments, on one line. */
void call_print(const call *c);

void call_free(call *c);
#endif
