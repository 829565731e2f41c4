/* ref_supervisor - eight slots over one memory (document 01: stations, floor), and pattern files, in C.
 * ref_level (ref2650.h) adds the requests U1 to Un of document 02. Fields of a request that is
 * not in force are not looked at. */
#ifndef REF_SUPERVISOR_H
#define REF_SUPERVISOR_H
#include <stddef.h>
#include <stdint.h>
#include "ref2650.h"

#define SLOTS 8
#define MEMORY_MAX 65536u
#define FILE_MAX 36895u             /* form 1 */
#define FILE_MAX2 36897u            /* form 2, U6 */
#define PARTITION_MAX 40960u
#define FILE_MIN 31u

/* document 01's station; base, window, input and output are its bay, the quantum its stint */
typedef struct ref_slot {
    uint32_t base;                  /* where its partition starts in the memory */
    uint32_t window;                /* 1..32768 */
    uint16_t input, output;         /* 1..4096 */
    uint16_t pc, ras[8];
    uint16_t filled, read, written;
    uint8_t  quantum, status;
    uint8_t  r0, bank[2][3], psu, psl;
    uint32_t locked;                /* U6: 0 nothing locked, else 1..window */
    uint8_t  pending, vector;       /* U8: 1 and the byte of a pending interrupt, or 0 and 0 */
} ref_slot;

/* document 01's record */
typedef struct ref_table {
    uint32_t memory_length;
    ref_slot slots[SLOTS];
    uint32_t free, widest;          /* U5: memory bytes in no partition, the longest free extent */
} ref_table;

typedef struct ref_reported { uint8_t status; uint16_t pc; uint8_t r0, bank[2][3], psu, psl; } ref_reported;

/* document 01's values of a pattern, and where its code and first input lie */
typedef struct ref_parameters {
    uint32_t window; uint16_t input, output, start; uint8_t quantum;
    size_t code_at, code_length, first_at, first_length;    /* stretches of the file */
    uint32_t locked;                                        /* U6: 0 in form 1 */
} ref_parameters;

/* every function answers 0 or the refusal number; a refusal changes nothing
 * (new: hands back an all-zero table). Document 01's fresh, mount, lift, collect and
 * pass are new, load, unload, drain and run. */
int ref_sound(const ref_table *table);
int ref_slot_sound(const ref_slot *s, uint64_t memory_length);   /* disjointness aside */
int ref_new(ref_table *table, uint64_t length);
int ref_load(ref_table *table, uint8_t *memory, uint64_t memory_length, uint64_t slot,
             const uint8_t *file, size_t n, uint64_t location);
int ref_unload(ref_table *table, uint8_t *memory, uint64_t memory_length, uint64_t slot);
int ref_feed(ref_table *table, uint8_t *memory, uint64_t memory_length, uint64_t slot, const uint8_t *b, size_t n);
int ref_drain(ref_table *table, uint8_t *memory, uint64_t memory_length, uint64_t slot, uint8_t *buf, size_t n, size_t *got);
int ref_run(ref_table *table, uint8_t *memory, uint64_t memory_length, uint16_t rounds);
int ref_report(const ref_table *table, uint64_t slot, ref_reported *out);
/* draining over one lent slot: 1, 5, 16 */
int ref_drain_lent(ref_slot *s, uint8_t *memory, uint64_t memory_length, uint8_t *buf, size_t n, size_t *got);

/* U1: the backlog (document 02: collecting round); U7 its order. 1, 16. *len is the length filled, 0 if refused. */
int ref_backlog(const ref_table *table, uint8_t *buf, size_t n, size_t *len);
/* U2: a location for a partition of this size. 1, 17, 18. *location is 0 if refused. */
int ref_fit(const ref_table *table, uint64_t size, uint32_t *location);
/* U8: an interrupt (document 02: touch). 1, 3, 5, 19. */
int ref_interrupt(ref_table *table, uint64_t slot, uint8_t vector);

/* pattern files */
/* longest file of the bench run */
uint32_t ref_file_limit(void);
int ref_read_file(const uint8_t *f, size_t n, ref_parameters *p);
int ref_write_file(uint32_t window, uint32_t input, uint32_t output, uint32_t start, uint32_t quantum,
                   const uint8_t *image, size_t image_length, const uint8_t *first, size_t first_length,
                   uint8_t *buf, size_t blen, size_t *len);
/* U6: the same with locked bytes; 0 writes form 1 */
int ref_write_locked(uint32_t window, uint32_t input, uint32_t output, uint32_t start, uint32_t quantum, uint32_t locked,
                     const uint8_t *image, size_t image_length, const uint8_t *first, size_t first_length,
                     uint8_t *buf, size_t blen, size_t *len);
#endif
