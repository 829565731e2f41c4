#include "files.h"
#include "programs.h"
#include "random.h"
#include <string.h>

enum { RECORDS = 5, MAX_WINDOW = 32768, MAX_CAPACITY = 4096 };

/* how long the body of PB is in form 1 and in form 2, and the longest that is made */
enum { FORM_1_LENGTH = 9, FORM_2_LENGTH = 11, MAX_LENGTH = 12 };

/* what a file says; any value may be wrong */
typedef struct {
    size_t form, board, window, input, output, start, quantum, locked;
    size_t parameters_length;           /* of the body of PB */
    size_t code_length, first_input_length;
    uint8_t code[MAX_WINDOW + 1], first_input[MAX_CAPACITY + 1];
} content;

static size_t smaller(size_t a, size_t b) { return a < b ? a : b; }

/* Sizes that together need at most so many bytes of memory. */
static void random_sizes(content *c, size_t memory)
{
    size_t all = random_one_in(12) ? memory : random_between(3, smaller(memory, 700));
    if (all < 3) all = 3;
    c->input = random_between(1, smaller(all - 2, random_one_in(8) ? MAX_CAPACITY : 24));
    c->output = random_between(1, smaller(all - 1 - c->input, random_one_in(8) ? MAX_CAPACITY : 24));
    c->window = smaller(all - c->input - c->output, MAX_WINDOW);
    c->start = random_one_in(4) ? random_below(c->window) : 0;
    c->quantum = random_one_in(2) ? random_between(1, 8) : random_one_in(4) ? 255 : random_between(1, 255);
}

/* The code is the window without the zeros at its end. */
static void random_code(content *c)
{
    program_fill(c->code, c->window);
    size_t n = random_one_in(3) ? random_below(c->window + 1) : c->window;
    while (n && c->code[n - 1] == 0) n--;
    c->code_length = n;
}

/* In half of the files nothing is locked; in the others any front of the window, sometimes all of it. */
static void random_form(content *c)
{
    const int locks = random_one_in(2);
    c->form = locks ? 2 : 1;
    c->parameters_length = locks ? FORM_2_LENGTH : FORM_1_LENGTH;
    c->locked = !locks ? 0 : random_one_in(8) ? c->window : random_between(1, random_one_in(2) ? smaller(c->window, 40) : c->window);
}

static void random_content(content *c, size_t memory)
{
    c->board = 1;
    random_sizes(c, memory);
    random_form(c);
    random_code(c);
    c->first_input_length = random_one_in(4) ? c->input : random_below(c->input + 1);
    random_bytes(c->first_input, c->first_input_length);
}

/* One value at an edge or past it. */
static void damage_value(content *c)
{
    static const size_t windows[] = { 0, 1, 32767, 32768, 32769, 65535 };
    static const size_t capacities[] = { 0, 1, 4095, 4096, 4097, 65535 };
    static const size_t numbers[] = { 0, 1, 2, 3, 128, 255 };
    switch (random_below(17)) {
    case 0: c->form = RANDOM_OF(numbers); break;
    case 1: c->board = RANDOM_OF(numbers); break;
    case 2: c->window = RANDOM_OF(windows); break;
    case 3: c->input = RANDOM_OF(capacities); break;
    case 4: c->output = RANDOM_OF(capacities); break;
    case 5: c->start = random_one_in(4) ? 65535 : c->window - random_below(2); break;
    case 6: c->quantum = 255 * random_below(2); break;
    case 7: c->window = c->code_length + random_below(3) - 1; break;
    case 8: c->input = c->first_input_length + random_below(3) - 1; break;
    case 9: c->code[c->code_length++] = (uint8_t)random_below(2); break;
    case 10: case 11: c->locked = 0; break;
    case 12: case 13: c->locked = c->window + random_below(2); break;
    case 14: c->locked = RANDOM_OF(windows); break;
    case 15: c->parameters_length = random_between(FORM_1_LENGTH - 1, MAX_LENGTH); break;
    default: if (c->code_length) c->code[c->code_length - 1] = 0; break;
    }
}

static uint8_t *put_u16(uint8_t *p, size_t v)
{
    p[0] = (uint8_t)(v >> 8);
    p[1] = (uint8_t)v;
    return p + 2;
}

static uint8_t *put_frame(uint8_t *p, char kind, size_t length)
{
    p[0] = 'P';
    p[1] = (uint8_t)kind;
    return put_u16(p + 2, length);
}

static uint8_t *put_bytes(uint8_t *p, const uint8_t *bytes, size_t n)
{
    memcpy(p, bytes, n);
    return p + n;
}

/* As many bytes of form 2's values as the body has, or a zero behind them. */
static uint8_t *put_parameters(uint8_t *p, const content *c)
{
    uint8_t body[MAX_LENGTH] = { 0 };
    uint8_t *quantum = put_u16(put_u16(put_u16(put_u16(body, c->window), c->input), c->output), c->start);
    *quantum = (uint8_t)c->quantum;
    put_u16(quantum + 1, c->locked);
    return put_bytes(p, body, c->parameters_length);
}

/* The five records in their order; `record_starts` is where each one starts, and where the last one ends. */
static void put_records(uint8_t *file, const content *c, size_t record_starts[RECORDS + 1])
{
    uint8_t *p = put_frame(file, 'V', 2);
    *p++ = (uint8_t)c->form;
    *p++ = (uint8_t)c->board;
    record_starts[0] = 0;
    record_starts[1] = (size_t)(p - file);
    p = put_parameters(put_frame(p, 'B', c->parameters_length), c);
    record_starts[2] = (size_t)(p - file);
    p = put_bytes(put_frame(p, 'C', c->code_length), c->code, c->code_length);
    record_starts[3] = (size_t)(p - file);
    p = put_bytes(put_frame(p, 'I', c->first_input_length), c->first_input, c->first_input_length);
    record_starts[4] = (size_t)(p - file);
    record_starts[5] = (size_t)(put_frame(p, 'E', 0) - file);
}

/* Two records exchanged, one left out, one twice, or one in another's place. Answers the file's length. */
static size_t damage_order(uint8_t *file, const size_t record_starts[RECORDS + 1])
{
    static uint8_t old[FILE_ROOM];
    size_t order[RECORDS + 1] = { 0, 1, 2, 3, 4, RECORDS }, n = 0, a = random_below(RECORDS), b = random_below(RECORDS);
    switch (random_below(4)) {
    case 0: order[a] = b, order[b] = a; break;
    case 1: order[a] = RECORDS; break;
    case 2: order[RECORDS] = a; break;
    default: order[a] = b; break;
    }
    memcpy(old, file, record_starts[RECORDS]);
    for (size_t i = 0; i <= RECORDS; i++) {
        if (order[i] == RECORDS) continue;
        size_t from = record_starts[order[i]], length = record_starts[order[i] + 1] - from;
        memcpy(file + n, old + from, length);
        n += length;
    }
    return n;
}

/* a byte of a record's frame or of the parameters rather than of code or input */
static size_t header_or_parameter_offset(const size_t record_starts[RECORDS + 1])
{
    if (random_one_in(4)) return random_below(record_starts[RECORDS]);
    size_t k = random_below(RECORDS), n = record_starts[k + 1] - record_starts[k];
    return record_starts[k] + random_below(smaller(n, 15));
}

static size_t damage_bytes(uint8_t *file, const size_t record_starts[RECORDS + 1])
{
    size_t n = record_starts[RECORDS];
    size_t more = random_one_in(16) ? random_between(1, 40000) : random_between(1, 8);
    size_t offset = header_or_parameter_offset(record_starts);
    switch (random_below(6)) {
    case 0: file[offset] ^= (uint8_t)(1u << random_below(8)); return n;
    case 1: file[offset] = (uint8_t)random64(); return n;
    case 2: file[offset] = (uint8_t)(file[offset] + 1 - 2 * random_below(2)); return n;
    case 3: return random_one_in(2) ? offset : n - random_between(1, smaller(n, 8));
    case 4: random_bytes(file + n, more); return n + more;
    default: memset(file + n, 0, more); return n + more;
    }
}

size_t file_random(uint8_t file[FILE_ROOM], size_t memory)
{
    static content c;
    size_t record_starts[RECORDS + 1];
    random_content(&c, memory);
    if (random_one_in(8)) damage_value(&c);
    put_records(file, &c, record_starts);
    if (random_one_in(30)) return damage_order(file, record_starts);
    return random_one_in(12) ? damage_bytes(file, record_starts) : record_starts[RECORDS];
}
