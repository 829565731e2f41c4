#include "pattern.h"
#include <stdio.h>
#include <string.h>

static uint16_t u16_at(const uint8_t *p) { return (uint16_t)(p[0] << 8 | p[1]); }

static int body_at(const pattern *p, size_t at, const char *mark, const uint8_t **body, uint16_t *length)
{
    if (at + 4 > p->length || memcmp(p->file + at, mark, 2)) return 0;
    *length = u16_at(p->file + at + 2);
    *body = p->file + at + 4;
    return at + 4 + *length <= p->length;
}

int pattern_read(const char *path, pattern *p)
{
    FILE *f = fopen(path, "rb");
    if (!f) return 0;
    p->length = fread(p->file, 1, sizeof p->file, f);
    fclose(f);
    const uint8_t *parameters;
    uint16_t n;
    /* the two bytes that form 2 has more are how many bytes are locked */
    if (!body_at(p, 6, "PB", &parameters, &n) || (n != 9 && n != 11)) return 0;
    p->layout = (layout){ u16_at(parameters), u16_at(parameters + 2), u16_at(parameters + 4), n == 11 ? u16_at(parameters + 9) : 0 };
    p->start = u16_at(parameters + 6);
    return body_at(p, 10u + n, "PC", &p->code, &p->code_length)
        && body_at(p, 14u + n + p->code_length, "PI", &p->first_input, &p->first_input_length)
        && p->code_length <= p->layout.window && p->first_input_length <= p->layout.input;
}

void pattern_load(const pattern *p, machine_pair *t)
{
    memset(t->reference_partition.bytes, 0, t->reference_partition.length);
    memcpy(t->reference.window_bytes, p->code, p->code_length);
    memcpy(t->reference.input_bytes, p->first_input, p->first_input_length);
    ref_machine_fresh(&t->reference, p->start);
    t->reference.filled = p->first_input_length;
    t->reference.read = t->reference.written = 0;
    machine_pair_copy_to_product(t);
}
