#include "vectors.h"
#include "pattern_floor.h"
#include "listing.h"
#include "stored_runs.h"
#include <stdio.h>
#include <string.h>

static uint8_t file[STORED_FILE_MOST], memory[PF_LISTING_MEMORY], text[PF_LISTING_BYTES];
static char made[PF_LISTING_BYTES + 1];

static int is_stored_text(const stored_run *r, const char *how, const void *got, size_t length)
{
    if (length == r->text_length && !memcmp(got, r->text, length)) return 1;
    printf("differs %s: %.*s\nexpected:\n%.*sgot:\n%.*s", how, (int)r->name_length, (const char *)r->name,
           (int)r->text_length, (const char *)r->text, (int)length, (const char *)got);
    return 0;
}

static uint8_t *put_u16(uint8_t *p, unsigned v)
{
    p[0] = (uint8_t)(v >> 8);
    p[1] = (uint8_t)v;
    return p + 2;
}

/* The stored parameters as the reader leaves them; all zero for a file that is refused. */
static void put_stored_parameters(const stored_run *r, uint8_t bytes[PF_VALUES_BYTES])
{
    uint8_t *quantum = put_u16(put_u16(put_u16(put_u16(bytes, r->window), r->input), r->output), r->start);
    *quantum = (uint8_t)r->quantum;
    put_u16(quantum + 1, r->locked);
}

/* Whether the reader answers what is stored. */
static int reads_as_stored(const stored_run *r, size_t length)
{
    uint8_t stored[PF_VALUES_BYTES], read[PF_VALUES_BYTES] = { 0 };
    put_stored_parameters(r, stored);
    pf_stretch code = pf_code(file, length), input = pf_input(file, length);
    return pf_refusal(pf_read(file, length, read, sizeof read)) == r->refusal && !memcmp(read, stored, sizeof read)
        && pf_offset(code) == r->code_at && pf_length(code) == r->code_length
        && pf_offset(input) == r->input_at && pf_length(input) == r->input_length;
}

/* Whether the writer makes the same file of what an accepted one says. */
static int writes_again(const stored_run *r, size_t length)
{
    static uint8_t window[PF_LISTING_MEMORY], again[PF_FILE_MOST];
    uint8_t parameters[PF_VALUES_BYTES];
    if (r->refusal) return 1;
    put_stored_parameters(r, parameters);
    memset(window, 0, sizeof window);
    memcpy(window, file + r->code_at, r->code_length);
    pf_answer written = pf_write(parameters, sizeof parameters, window, r->window, file + r->input_at, r->input_length,
                                 again, sizeof again);
    return !pf_refusal(written) && pf_count(written) == length && !memcmp(again, file, length);
}

static int is_right(const stored_run *r, const char *what, int right)
{
    if (!right) printf("%s: %.*s\n", what, (int)r->name_length, (const char *)r->name);
    return right;
}

static int run_agrees(const stored_run *r)
{
    size_t length = stored_run_file(r, file);
    int same = is_right(r, "read differs", reads_as_stored(r, length));
    same &= is_right(r, "written again differs", writes_again(r, length));
    pf_answer listed = pf_listing(file, length, memory, sizeof memory, text, sizeof text);
    size_t n = listing(file, length, made);
    same &= is_stored_text(r, "call by call", made, n);
    return is_stored_text(r, "by pf_listing", text, pf_count(listed)) & same;
}

int vectors(const char *path)
{
    const stored_run *runs;
    size_t count = stored_runs_read(path, &runs), different = 0;
    if (!count) return 2;
    for (size_t k = 0; k < count; k++) different += !run_agrees(&runs[k]);
    printf("%zu pattern files, read and written again, and their bench runs, call by call and by pf_listing: %zu different\n", count,
           different);
    return different != 0;
}
