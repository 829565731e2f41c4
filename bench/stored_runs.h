/* The bench runs of crate `vectors`, which are stored in one file: pattern files, and the text of each. */
#ifndef STORED_RUNS_H
#define STORED_RUNS_H
#include <stddef.h>
#include <stdint.h>

enum { STORED_RUNS_MOST = 4096, STORED_FILE_MOST = 1 << 17 };

typedef struct {
    const uint8_t *name, *text, *packed;
    size_t name_length, text_length, packed_length;
    unsigned refusal;           /* the reader's, 0 for none; if there is one, the numbers behind it are 0 */
    uint16_t window, input, output, start, quantum, locked;
    uint16_t code_at, code_length, input_at, input_length;      /* in the file */
} stored_run;

/* Reads a file of vectors (crates/vectors/make_data.py has its layout). Answers how many runs it has, and where they are;
 * 0, after a message, if it can't be read, is too long, has no run or too many, or ends inside one. The runs stay until the next call. */
size_t stored_runs_read(const char *path, const stored_run **runs);
/* Leaves a run's pattern file in `file`, of STORED_FILE_MOST bytes; answers its length. The data is trusted: no stored file is longer. */
size_t stored_run_file(const stored_run *r, uint8_t *file);
#endif
