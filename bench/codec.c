#include "codec.h"
#include <string.h>

static uint8_t *put_u8(uint8_t *p, unsigned v)
{
    *p = (uint8_t)v;
    return p + 1;
}

static uint8_t *put_u16(uint8_t *p, unsigned v) { return put_u8(put_u8(p, v >> 8), v); }
static uint8_t *put_u32(uint8_t *p, uint32_t v) { return put_u16(put_u16(p, v >> 16), v & 0xFFFF); }

static uint8_t *put_banks(uint8_t *p, const uint8_t bank[2][3])
{
    for (int b = 0; b < 2; b++)
        for (int i = 0; i < 3; i++) p = put_u8(p, bank[b][i]);
    return p;
}

/* A table of this version has a slot's lock between its output capacity and its quantum; those of earlier versions have none. */
enum lock_bytes { WITHOUT_LOCK, WITH_LOCK };

static uint8_t *put_slot(uint8_t *p, const ref_slot *s, enum lock_bytes lock)
{
    p = put_u32(p, s->base);
    p = put_u16(p, s->window);
    p = put_u16(p, s->input);
    p = put_u16(p, s->output);
    if (lock == WITH_LOCK) p = put_u16(p, s->locked);
    p = put_u8(p, s->quantum);
    p = put_u16(p, s->pc);
    p = put_banks(put_u8(p, s->r0), s->bank);
    p = put_u8(put_u8(p, s->psu), s->psl);
    for (int i = 0; i < 8; i++) p = put_u16(p, s->ras[i]);
    p = put_u8(p, s->status);
    return put_u16(put_u16(put_u16(p, s->filled), s->read), s->written);
}

static void put_slots(uint8_t *p, const ref_table *table, enum lock_bytes lock)
{
    for (int k = 0; k < SLOTS; k++) p = put_slot(p, &table->slots[k], lock);
}

static uint8_t *put_numbers(uint8_t *p, const ref_table *table)
{
    return put_u32(put_u32(put_u32(p, table->memory_length), table->free), table->widest);
}

void encode_table(const ref_table *table, uint8_t *bytes) { put_slots(put_numbers(bytes, table), table, WITH_LOCK); }

void encode_unlocked_table(const ref_table *table, uint8_t *bytes)
{
    put_slots(put_numbers(bytes, table), table, WITHOUT_LOCK);
}

void encode_uncounted_table(const ref_table *table, uint8_t *bytes)
{
    put_slots(put_u32(bytes, table->memory_length), table, WITHOUT_LOCK);
}

static uint8_t get_u8(const uint8_t **p) { return *(*p)++; }

static uint16_t get_u16(const uint8_t **p)
{
    unsigned high = get_u8(p);
    return (uint16_t)(high << 8 | get_u8(p));
}

static uint32_t get_u32(const uint8_t **p)
{
    uint32_t high = get_u16(p);
    return high << 16 | get_u16(p);
}

static void get_slot(const uint8_t **p, ref_slot *s, enum lock_bytes lock)
{
    s->base = get_u32(p);
    s->window = get_u16(p);
    s->input = get_u16(p);
    s->output = get_u16(p);
    s->locked = lock == WITH_LOCK ? get_u16(p) : 0;
    s->quantum = get_u8(p);
    s->pc = get_u16(p);
    s->r0 = get_u8(p);
    for (int b = 0; b < 2; b++)
        for (int i = 0; i < 3; i++) s->bank[b][i] = get_u8(p);
    s->psu = get_u8(p);
    s->psl = get_u8(p);
    for (int i = 0; i < 8; i++) s->ras[i] = get_u16(p);
    s->status = get_u8(p);
    s->filled = get_u16(p);
    s->read = get_u16(p);
    s->written = get_u16(p);
}

static void get_slots(const uint8_t *p, ref_table *table, enum lock_bytes lock)
{
    for (int k = 0; k < SLOTS; k++) get_slot(&p, &table->slots[k], lock);
}

/* The table is zeroed first: the reference has fields for later requests, which no bytes of a table hold. */
static void get_numbers(const uint8_t **p, ref_table *table)
{
    memset(table, 0, sizeof *table);
    table->memory_length = get_u32(p);
    table->free = get_u32(p);
    table->widest = get_u32(p);
}

void decode_table(const uint8_t *bytes, ref_table *table)
{
    get_numbers(&bytes, table);
    get_slots(bytes, table, WITH_LOCK);
}

void decode_unlocked_table(const uint8_t *bytes, ref_table *table)
{
    get_numbers(&bytes, table);
    get_slots(bytes, table, WITHOUT_LOCK);
}

void decode_uncounted_table(const uint8_t *bytes, ref_table *table)
{
    memset(table, 0, sizeof *table);
    table->memory_length = get_u32(&bytes);
    get_slots(bytes, table, WITHOUT_LOCK);
}

void encode_report(const ref_reported *report, uint8_t *bytes)
{
    bytes = put_u16(put_u8(bytes, report->status), report->pc);
    bytes = put_banks(put_u8(bytes, report->r0), report->bank);
    put_u8(put_u8(bytes, report->psu), report->psl);
}

void encode_parameters(const ref_parameters *parameters, uint8_t *bytes)
{
    bytes = put_u16(put_u16(put_u16(bytes, parameters->window), parameters->input), parameters->output);
    put_u16(put_u8(put_u16(bytes, parameters->start), parameters->quantum), parameters->locked);
}
