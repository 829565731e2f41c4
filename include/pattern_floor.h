/* pattern_floor.h: the pattern floor, eight Signetics 2650 patterns side by side in one memory, for hosts in C.
 *
 * docs/HOSTING.md is the page that goes with it: the life of a system, which is a table and its memory, and the bytes of a table.
 *
 * BUFFERS. A buffer is a pointer and then its length in bytes. The host owns every buffer; a call uses it until it returns, keeps no
 * pointer, allocates nothing and has no state of its own. Any length is taken, and what is wrong is answered by a number.
 *   - A buffer of length 0 may have any pointer but NULL: give the address of some object. (A buffer of length 0 is never read or written.)
 *   - Every pointer must be valid for its length, which is at most PTRDIFF_MAX, as for any object in C. Bytes need no alignment.
 *   - A buffer that a call may write (without const below) must not overlap another buffer of the same call. Those with const may
 *     overlap one another.
 *   - Two calls may run at the same time on different threads if no buffer that one may write is used by the other.
 *
 * ANSWERS. A pf_answer has the refusal in its upper half, 0 if the call did its work, and a count in its lower half, which for pf_fit is a
 * location: pf_refusal() and pf_count() take them apart. A refused call has changed no byte of any buffer, and its count is 0. The list at
 * each call has its refusals in the order in which they are tested; the first that holds is the answer. Of a file, 6 to 11 are one step: the
 * reader goes from front to back, and answers the first fault that it meets.
 *
 * Each call is proved to end, and to answer and leave what its definition says, for every input; this header gives those definitions in
 * words, and crates/host/specs has them in full.
 */
#ifndef PATTERN_FLOOR_H
#define PATTERN_FLOOR_H

#include <stddef.h>
#include <stdint.h>

#ifdef __cplusplus
extern "C" {
#endif

typedef uint32_t pf_answer;

/* Refusals. */
enum {
    PF_NOT_SOUND = 1,       /* the table's buffer is not of PF_TABLE_BYTES, or holds no sound table; for pf_upgrade, the old bytes are of no
                               form that it takes, or hold no table that is sound by the rules of their version */
    PF_OTHER_LENGTH = 2,    /* the memory is not as long as the table says; for a new table, not 1 to PF_MEMORY_MOST */
    PF_NO_SLOT = 3,         /* the slot is not 0 to 7 */
    PF_TAKEN = 4,           /* the slot holds a pattern */
    PF_EMPTY = 5,           /* the slot holds none */
    PF_FRAME = 6,           /* file: a record's mark, length or order; too short; bytes after its end */
    PF_FORM = 7,            /* file: its form is not 1 or 2 */
    PF_BOARD = 8,           /* file: its board is not 1 */
    PF_VALUES = 9,          /* file: a value is out of range: window 1 to 32768, input and output 1 to 4096, start below the window,
                               quantum 1 to 255, in form 2 locked bytes 1 to the window; for writing also: more locked bytes than the
                               window has, or an image that is not of its size */
    PF_CODE = 10,           /* file: code longer than the window, or ending in a zero byte */
    PF_INPUT = 11,          /* file: first input longer than the input's capacity */
    PF_PAST_END = 12,       /* the pattern's partition would end past the memory */
    PF_MEETS = 13,          /* it would meet another pattern's */
    PF_UNREAD = 14,         /* input is still unread: the last that was fed, or the file's first */
    PF_NO_INPUT = 15,       /* no bytes to feed, or more than the input's capacity */
    PF_SHORT = 16,          /* the buffer is too short for what it would be given; for pf_upgrade, the new one is not of PF_TABLE_BYTES */
    PF_SIZE = 17,           /* the size is 0, or more than PF_PARTITION_MOST */
    PF_NO_EXTENT = 18       /* no free extent of the memory holds that size */
};

/* The status of a slot: the first byte of a report. At 3 to 8 the counter is still at the instruction, of which nothing was carried out. */
enum {
    PF_STATUS_EMPTY = 0,        /* in a table; pf_report refuses such a slot by 5 */
    PF_STATUS_RUNNING = 1,
    PF_STATUS_HALTED = 2,       /* by HALT; the counter is behind it */
    PF_STATUS_WANTS_INPUT = 3,  /* REDD with nothing unread: pf_feed lets it go on */
    PF_STATUS_OUTPUT_FULL = 4,  /* WRTD with a full output: pf_drain lets it go on */
    PF_STATUS_UNKNOWN = 5,      /* a code that is no instruction: 10h, 11h, 90h, 91h, B6h, B7h, C4h to C7h */
    PF_STATUS_OUTSIDE = 6,      /* an address outside of the window */
    PF_STATUS_PORT = 7,         /* REDC, WRTC, REDE or WRTE */
    PF_STATUS_LOCKED = 8        /* STRR or STRA to a byte that the pattern locks: one of the first of its window */
};

enum {
    PF_SLOTS = 8,
    PF_TABLE_BYTES = 388,
    PF_UNLOCKED_TABLE_BYTES = 372,    /* tables of earlier versions, which pf_upgrade takes: of those that locked nothing, */
    PF_UNCOUNTED_TABLE_BYTES = 364,   /* and of those that did not keep the free bytes either */
    PF_REPORT_BYTES = 12,
    PF_BACKLOG_BYTES = 26,      /* the longest backlog: a line of three bytes for each of eight slots, and the total */
    PF_VALUES_BYTES = 11,
    PF_STATE_BYTES = 34,
    PF_FILE_LEAST = 31,         /* the shortest and the longest pattern file */
    PF_FILE_MOST = 36897,
    PF_MEMORY_MOST = 65536,
    PF_PARTITION_MOST = 40960,  /* the largest partition: a window of 32768, input and output of 4096 each */
    PF_LISTING_MEMORY = 40960,
    PF_LISTING_BYTES = 12326    /* the longest text of a listing */
};

static inline unsigned pf_refusal(pf_answer answer) { return (unsigned)(answer >> 16); }
static inline unsigned pf_count(pf_answer answer) { return (unsigned)(answer & 0xFFFFu); }

/* ---- The table -------------------------------------------------------------------------------------------------------
 * A table is PF_TABLE_BYTES bytes that these calls write and read; between calls the host keeps them, and may copy, store and move
 * them. Every sound table has exactly one form as bytes. A table and its memory are a system: they are its whole state. */

/* Two numbers that a table keeps for a display: pf_free() is how many bytes of the memory are in no partition, and pf_widest() is the length of
 * the widest free extent, 0 if no byte is free (pf_fit says what a free extent is). pf_new puts the memory's length in both, pf_load and
 * pf_unload keep both true, pf_upgrade counts them, and every other call leaves them. A table in which either is not exactly that of its
 * partitions is not sound.
 * These two functions read the numbers, and release nothing: there is nothing to release. They stand here and not in the archive, so that a
 * display needs this header alone. They test nothing. `table` must be PF_TABLE_BYTES bytes in the form of this version: upgrade an older
 * table first. The numbers are true if the last call on the table was not refused by 1, and nobody has changed its bytes since.
 * No other thread may write the table meanwhile: give a display a copy that was made between calls. */
static inline uint32_t pf_u32_at(const uint8_t *at)
{
    return (uint32_t)at[0] << 24 | (uint32_t)at[1] << 16 | (uint32_t)at[2] << 8 | at[3];
}
static inline uint32_t pf_free(const uint8_t *table) { return pf_u32_at(table + 4); }
static inline uint32_t pf_widest(const uint8_t *table) { return pf_u32_at(table + 8); }

/* Makes a table of eight empty slots for a memory of `memory_length` bytes, which is not touched. The table's old bytes do not matter.
 * Refused: 1 (here only for the buffer's length), 2. */
pf_answer pf_new(uint8_t *table, size_t table_length, size_t memory_length);

/* Loads a pattern file into an empty slot. Its partition starts at `location` and takes window + input + output bytes, all of which are
 * written: the code, the first input, and zeros. The file is not needed afterwards. pf_fit tells a location where it fits.
 * If the pattern locks the first bytes of its window, it can read and run them, and never change them: an instruction that would store
 * there stops with status 8. The host's calls are not bound by the lock.
 * Refused: 1, 2, 3, 4, the reader's 6 to 11, 12, 13. */
pf_answer pf_load(uint8_t *table, size_t table_length, uint8_t *memory, size_t memory_length,
                  size_t slot, size_t location, const uint8_t *file, size_t file_length);

/* Empties a slot, and sets its partition's bytes to zero.
 * Refused: 1, 2, 3, 5. */
pf_answer pf_unload(uint8_t *table, size_t table_length, uint8_t *memory, size_t memory_length, size_t slot);

/* Gives a pattern new input, once it has read all of the last: at least one byte, at most its input's capacity. A pattern that
 * wants input (3) runs again.
 * Refused: 1, 2, 3, 5, 14, 15. */
pf_answer pf_feed(uint8_t *table, size_t table_length, uint8_t *memory, size_t memory_length,
                  size_t slot, const uint8_t *input, size_t input_length);

/* Takes what a pattern has put out, to the front of `buffer`; pf_count() is how many bytes, 0 too. The rest of the buffer is left. A
 * pattern whose output was full (4) runs again. A buffer of the output's capacity, at most 4096, is always long enough; pf_backlog tells
 * what is enough now.
 * Refused: 1, 2, 3, 5, 16. */
pf_answer pf_drain(uint8_t *table, size_t table_length, const uint8_t *memory, size_t memory_length,
                   size_t slot, uint8_t *buffer, size_t buffer_length);

/* Runs `rounds` rounds, 0 too: in each, every slot at status 1, from slot 0 to slot 7, takes its quantum of instructions, or fewer if it
 * stops. A stopped slot stays as it is, and its instructions go to nobody. (More than 65,535 rounds take more calls: C cuts a larger number.)
 * Refused: 1, 2. */
pf_answer pf_run(uint8_t *table, size_t table_length, uint8_t *memory, size_t memory_length, uint16_t rounds);

/* Reports on a slot, in the first PF_REPORT_BYTES bytes of `report`; the rest is left:
 *   0 status; 1 and 2 program counter, high byte first; 3 R0; 4 to 6 R1 to R3 of bank 0; 7 to 9 those of bank 1; 10 PSU; 11 PSL.
 * Bit 7 of PSU is Sense: 1 exactly while input is unread. A table does not store it.
 * Refused: 1, 3, 5, 16. */
pf_answer pf_report(const uint8_t *table, size_t table_length, size_t slot, uint8_t *report, size_t report_length);

/* Tells where to drain first. The front of `buffer` gets a line of three bytes for each loaded slot, whatever its status, and then the total
 * of their counts in two bytes; the rest is left. A line:
 *   0 slot; 1 and 2 its count: how many bytes it has put out that were not drained, 0 too. Counts and total have the high byte first.
 * Most bytes come first; of equal counts, the lower slot.
 * pf_count() is the length filled, three bytes for each loaded slot and two for the total: a buffer of that length is long enough, and one of
 * PF_BACKLOG_BYTES always is.
 * Nothing is drained, and the memory is not needed.
 * Refused: 1, 16. */
pf_answer pf_backlog(const uint8_t *table, size_t table_length, uint8_t *buffer, size_t buffer_length);

/* Tells where a partition fits. `size` is how many bytes it takes: window + input + output, which pf_read gives of a file. A free extent is a
 * run of bytes in no partition, one or more, that can be lengthened at neither end.
 * pf_count() is the start of the smallest free extent that has `size` bytes or more; of equally long ones, the lowest start. 0 is a start too:
 * pf_refusal() tells whether there is one.
 * A pattern whose partition takes `size` bytes, loaded there into an empty slot by the next call on this table, is never refused by 12 or 13.
 * Nothing is kept for it: a load in between may take the place. A start is answered even if no slot is empty. The memory is not needed.
 * Refused: 1, 17, 18. */
pf_answer pf_fit(const uint8_t *table, size_t table_length, size_t size);

/* Takes over a table as an earlier version kept it: writes it to `table` in the form of this version. The length of `old`, as it was stored,
 * tells its version: PF_UNCOUNTED_TABLE_BYTES, PF_UNLOCKED_TABLE_BYTES, or PF_TABLE_BYTES for a table of this version, which is copied. `old` is
 * only read, and must not overlap `table`: no table is upgraded in place. What `table` held before does not matter.
 * The slots are the same, and each pattern's machine goes on where it was. What the old table did not keep is worked out: the free bytes are
 * counted, and nothing is locked. The memory is not needed: lend it with the new table as it was lent with the old one.
 * Refused: 1 (`old` is of another length, or holds no table that is sound by the rules of its version), 16 (`table` is not of PF_TABLE_BYTES:
 * a longer one is refused too). */
pf_answer pf_upgrade(const uint8_t *old, size_t old_length, uint8_t *table, size_t table_length);

/* ---- Pattern files --------------------------------------------------------------------------------------------------- */

/* A file has form 2 if its pattern locks bytes, and form 1 if it locks none. Every call that takes a file takes both. */

/* Reads a file's parameters into the first PF_VALUES_BYTES bytes of `parameters`; the rest is left:
 *   0 window size, 2 input capacity, 4 output capacity, 6 start address, two bytes each, high byte first; 8 quantum, one byte;
 *   9 how many bytes are locked, from the window's first on: two bytes, 0 in form 1.
 * Refused: 6 to 11, 16. */
pf_answer pf_read(const uint8_t *file, size_t file_length, uint8_t *parameters, size_t parameters_length);

/* Where a file's code, and its first input, lie in the file: pf_offset() and pf_length() take the answer apart. For a file that is refused
 * it is 0: nothing at 0. The refusal's number is pf_read's. */
typedef uint32_t pf_stretch;
static inline size_t pf_offset(pf_stretch stretch) { return (size_t)(stretch >> 16); }
static inline size_t pf_length(pf_stretch stretch) { return (size_t)(stretch & 0xFFFFu); }

pf_stretch pf_code(const uint8_t *file, size_t file_length);
pf_stretch pf_input(const uint8_t *file, size_t file_length);

/* Writes the file of a pattern to the front of `buffer`; pf_count() is the file's length. `parameters` are PF_VALUES_BYTES bytes, as of pf_read;
 * `image` is the whole window, of which the file leaves out the zeros at its end; `input` is the first input, or nothing. The file has form 1 exactly if 0
 * bytes are locked. So each pattern has exactly one file; a buffer of PF_FILE_MOST bytes is always long enough.
 * Refused: 9 (also if more bytes are locked than the window has, `parameters` is of another length, or `image` not of the window's size), 11, 16. */
pf_answer pf_write(const uint8_t *parameters, size_t parameters_length, const uint8_t *image, size_t image_length,
                   const uint8_t *input, size_t input_length, uint8_t *buffer, size_t buffer_length);

/* ---- The bench run --------------------------------------------------------------------------------------------------- */

/* Runs a pattern file alone, in slot 0 at location 0 of the memory that is lent, in single rounds until it stops or 1,000 are made, and leaves its text at the
 * front of `text`; pf_count() is the text's length. There is no 0 behind it. The text is two lines, each ended by a newline, fields parted by a space:
 *   status in decimal, counter in four hex digits; PSU, PSL, R0, R1 to R3 of bank 0, R1 to R3 of bank 1 in two each
 *   out, and each byte that was put out in two hex digits
 * or, of a file that is refused, `refused N` and a newline: the call itself is then accepted. Nothing is fed, and nothing drained until the end.
 * The memory is used as a system's, and holds the pattern's bytes afterwards; a file that is refused leaves it.
 * Refused: 16 if `text` is shorter than PF_LISTING_BYTES, then 2 if the memory is not of PF_LISTING_MEMORY bytes. */
pf_answer pf_listing(const uint8_t *file, size_t file_length, uint8_t *memory, size_t memory_length,
                     uint8_t *text, size_t text_length);

/* ---- One machine alone ----------------------------------------------------------------------------------------------- */

/* Runs one 2650 outside of any table: `rounds` times `quantum` instructions, or fewer if it stops. `state` is a machine as the PF_STATE_BYTES bytes that
 * it has in a table; `partition` is its window, input and output, of these sizes, with the first `locked` bytes of the window locked. It takes any state, a
 * sound one or not, and any number of locked bytes, and cuts sizes that the partition is too short for. Answers 0, or 1 if the state is not of
 * PF_STATE_BYTES. For measuring and for tests: it has an archive of its own, libmachine.a, and no host needs it. */
uint8_t pf_machine_run(uint8_t *state, size_t state_length, uint8_t *partition, size_t partition_length,
                       uint16_t window, uint16_t input, uint16_t output, uint16_t locked, uint64_t quantum, uint64_t rounds);

#ifdef __cplusplus
}
#endif

#endif
