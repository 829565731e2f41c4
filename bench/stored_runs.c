#include "stored_runs.h"
#include <stdio.h>
#include <string.h>

enum {
    DATA_MOST = 1 << 20,
    HEADER_LENGTH = 28,     /* the length of the numbers before the name */
    REPEATED = 32768        /* added to the count in the head of a piece that repeats one byte */
};

static uint8_t data[DATA_MOST + HEADER_LENGTH];      /* a header can be read from any byte of the file */
static stored_run all[STORED_RUNS_MOST];

static uint16_t u16_at(const uint8_t *p) { return (uint16_t)(p[0] << 8 | p[1]); }

/* The numbers of a run. Where its text and its file are, is known once the file is seen to hold them. */
static stored_run run_at(const uint8_t *p)
{
    stored_run r = {
        .name = p + HEADER_LENGTH, .name_length = u16_at(p), .text_length = u16_at(p + 2), .packed_length = u16_at(p + 4),
        .refusal = u16_at(p + 6),
        .window = u16_at(p + 8), .input = u16_at(p + 10), .output = u16_at(p + 12),
        .start = u16_at(p + 14), .quantum = u16_at(p + 16), .locked = u16_at(p + 18),
        .code_at = u16_at(p + 20), .code_length = u16_at(p + 22), .input_at = u16_at(p + 24), .input_length = u16_at(p + 26),
    };
    return r;
}

static size_t run_length(const stored_run *r)
{
    return HEADER_LENGTH + r->name_length + r->text_length + r->packed_length;
}

static size_t read_data(const char *path)
{
    FILE *f = fopen(path, "rb");
    if (!f) {
        perror(path);
        return 0;
    }
    size_t size = fread(data, 1, DATA_MOST + 1, f);
    fclose(f);
    if (size && size <= DATA_MOST) return size;
    printf("%s has no byte, or more than %d\n", path, DATA_MOST);
    return 0;
}

size_t stored_runs_read(const char *path, const stored_run **runs)
{
    size_t size = read_data(path), at = 0, count = 0;
    while (at < size) {
        stored_run r = run_at(data + at);
        /* where the file ends inside a header, the header alone is longer than what is left */
        if (run_length(&r) > size - at || count == STORED_RUNS_MOST) {
            printf("%s ends inside a run, or has more than %d\n", path, STORED_RUNS_MOST);
            return 0;
        }
        r.text = r.name + r.name_length;
        r.packed = r.text + r.text_length;
        all[count++] = r;
        at += run_length(&r);
    }
    *runs = all;
    return count;
}

size_t stored_run_file(const stored_run *r, uint8_t *file)
{
    const uint8_t *from = r->packed, *end = from + r->packed_length;
    uint8_t *to = file;
    while (from < end) {
        size_t head = u16_at(from), count = head % REPEATED;
        from += 2;
        if (head < REPEATED) {
            memcpy(to, from, count);
            from += count;
        } else {
            memset(to, *from++, count);
        }
        to += count;
    }
    return (size_t)(to - file);
}
