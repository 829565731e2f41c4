#include "machine_pair.h"
#include <string.h>

enum { FILLER_BYTE = 0x3C };

static size_t partition_size(layout sizes) { return (size_t)sizes.window + sizes.input + sizes.output; }

machine_pair machine_pair_new(layout sizes, size_t extra_length)
{
    machine_pair t;
    memset(&t, 0, sizeof t);
    t.layout = sizes;
    t.reference_partition = guarded_new(partition_size(sizes));
    t.partition = guarded_new(partition_size(sizes) + extra_length);
    t.state = guarded_new(PF_STATE_BYTES);
    memset(t.partition.bytes, FILLER_BYTE, t.partition.length);
    t.reference.window = sizes.window;
    t.reference.input = sizes.input;
    t.reference.output = sizes.output;
    t.reference.locked = sizes.locked;
    t.reference.window_bytes = t.reference_partition.bytes;
    t.reference.input_bytes = t.reference.window_bytes + sizes.window;
    t.reference.output_bytes = t.reference.input_bytes + sizes.input;
    return t;
}

void machine_pair_free(machine_pair *t)
{
    guarded_free(&t->reference_partition);
    guarded_free(&t->partition);
    guarded_free(&t->state);
}

static uint8_t *put_u16(uint8_t *p, unsigned v)
{
    p[0] = (uint8_t)(v >> 8);
    p[1] = (uint8_t)v;
    return p + 2;
}

void encode_state(const ref2650 *m, uint8_t *out)
{
    uint8_t *p = put_u16(out, m->pc);
    *p++ = m->r0;
    memcpy(p, m->bank, sizeof m->bank);
    p += sizeof m->bank;
    *p++ = m->psu;
    *p++ = m->psl;
    for (int i = 0; i < 8; i++) p = put_u16(p, m->ras[i]);
    *p++ = m->status;
    p = put_u16(p, m->filled);
    p = put_u16(p, m->read);
    put_u16(p, m->written);
}

void machine_pair_copy_to_product(machine_pair *t)
{
    memcpy(t->partition.bytes, t->reference_partition.bytes, t->reference_partition.length);
    encode_state(&t->reference, t->state.bytes);
}

uint64_t machine_pair_run(machine_pair *t, uint64_t quantum, uint64_t rounds)
{
    pf_machine_run(t->state.bytes, t->state.length, t->partition.bytes, t->partition.length,
                   t->layout.window, t->layout.input, t->layout.output, t->layout.locked, quantum, rounds);
    return ref_machine_run(&t->reference, quantum * rounds);
}

static const struct { const char *name; size_t at, length; } fields[] = {
    { "counter", 0, 2 }, { "registers", 2, 7 }, { "PSU", 9, 1 }, { "PSL", 10, 1 }, { "return addresses", 11, 16 },
    { "status", 27, 1 }, { "filled", 28, 2 }, { "read", 30, 2 }, { "written", 32, 2 },
};

static const char *state_difference(const machine_pair *t)
{
    uint8_t expected[PF_STATE_BYTES];
    encode_state(&t->reference, expected);
    for (size_t i = 0; i < sizeof fields / sizeof fields[0]; i++)
        if (memcmp(expected + fields[i].at, t->state.bytes + fields[i].at, fields[i].length)) return fields[i].name;
    return NULL;
}

static const char *partition_difference(const machine_pair *t)
{
    const uint8_t *r = t->reference_partition.bytes, *p = t->partition.bytes;
    const layout l = t->layout;
    if (memcmp(r, p, l.window)) return "window";
    if (memcmp(r + l.window, p + l.window, l.input)) return "input buffer";
    if (memcmp(r + l.window + l.input, p + l.window + l.input, l.output)) return "output buffer";
    for (size_t i = t->reference_partition.length; i < t->partition.length; i++)
        if (p[i] != FILLER_BYTE) return "bytes behind the partition";
    return NULL;
}

const char *machine_pair_difference(const machine_pair *t)
{
    const char *what = state_difference(t);
    if (!what) what = partition_difference(t);
    if (!what && !guards_intact(&t->state)) what = "bytes around the state";
    if (!what && !guards_intact(&t->partition)) what = "bytes around the partition";
    return what;
}
