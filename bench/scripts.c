#include "scripts.h"
#include "codec.h"
#include "pattern_floor.h"
#include <stdio.h>
#include <string.h>

/* The kinds of entries, numbered as in make_data.py. */
enum {
    NEW_SCRIPT, NEW, LEND, POKE, UNPOKE, LOAD, UNLOAD, FEED, DRAIN, RUN, REPORT, STATE, DRAIN_LENT, BACKLOG, FIT, FREE, READ, WRITE
};

enum {
    HEADER_LENGTH = 20,     /* the numbers before an entry's bytes */
    TABLE_NUMBERS = 3,      /* the table's own, in front of its slots: the memory's length, the free total and the widest */
    NUMBER_BYTES = 4,       /* of each of them */
    SLOTS_OFFSET = TABLE_NUMBERS * NUMBER_BYTES,    /* where slot 0 stands in a table's bytes */
    SLOT_BYTES = 47,
    SLOT_FIELDS = 28,       /* the numbers behind them, in a poke, are the table's own */
    SLOT_NUMBERS = SLOT_FIELDS * 2,                 /* the bytes of a slot in a state */
    FREE_NUMBERS = 2 * NUMBER_BYTES,                /* the bytes in front of the slots: the free total and the widest */
    STATE_LENGTH = FREE_NUMBERS + PF_SLOTS * SLOT_NUMBERS,
    REPORT_FIELDS = 11,
    SIZE_LENGTH = 8,        /* the bytes of a fit: its size */
    STRETCH_BYTES = 4,      /* of pf_code's and of pf_input's answer, behind the parameters that a read leaves */
    READ_LENGTH = PF_VALUES_BYTES + 2 * STRETCH_BYTES,      /* the bytes of a read before its file */
    UNTOUCHED = 0xEE,       /* what a lent buffer holds before the call */
    BUFFER_ROOM = PF_FILE_MOST          /* no script lends a longer buffer */
};

typedef struct {
    unsigned kind, line, slot, refusal;
    uint32_t number;        /* a location, the length of a memory or a buffer, rounds, a field's value, a check sum, the free total */
    unsigned field;         /* or the count, of a fit the start, that is wanted */
    size_t length;
    unsigned flag;          /* a poke: of the same group as the poke before it; a state: it has the two numbers about free bytes */
    const uint8_t *bytes;
} entry;

/* Makes the call of an entry, on the product or on the reference. A call that fills a buffer is lent the front of `buffer`. */
typedef pf_answer call_maker(const entry *e);

typedef struct {
    call_maker *make_call;
    unsigned scripts, accepted, refused, states, different;
    pf_answer answer;       /* of the last call */
} tally;

static uint8_t data[1 << 20], table[PF_TABLE_BYTES], table_before_poke[PF_TABLE_BYTES], buffer[BUFFER_ROOM];
static uint8_t memory[PF_MEMORY_MOST + 1];      /* a script may lend a byte more than any table is made for */
static size_t lent_length;

/* ---- entries */

static unsigned u16_at(const uint8_t *p) { return (unsigned)p[0] << 8 | p[1]; }
static uint32_t u32_at(const uint8_t *p) { return (uint32_t)u16_at(p) << 16 | u16_at(p + 2); }

static entry entry_at(const uint8_t *p)
{
    return (entry){ u16_at(p), u16_at(p + 2), u16_at(p + 4), u16_at(p + 6), u32_at(p + 8),
                    u16_at(p + 12), u16_at(p + 14), u16_at(p + 16), p + HEADER_LENGTH };
}

static size_t entry_length(const entry *e) { return HEADER_LENGTH + e->length; }

static int is_call(const entry *e)
{
    return e->kind == NEW || (e->kind >= LOAD && e->kind != STATE && e->kind != FREE);
}

/* ---- numbers in bytes, high byte first */

typedef struct {
    uint8_t offset, width;
} field;

/* The fields of a slot, and those of a report, in the scripts' order. */
static const field slot_fields[SLOT_FIELDS] = {
    { 0, 4 }, { 4, 2 }, { 6, 2 }, { 8, 2 }, { 12, 1 },                              /* base, sizes, quantum */
    { 40, 1 }, { 13, 2 }, { 22, 1 }, { 23, 1 },                                     /* status, counter, PSU, PSL */
    { 15, 1 }, { 16, 1 }, { 17, 1 }, { 18, 1 }, { 19, 1 }, { 20, 1 }, { 21, 1 },    /* registers */
    { 24, 2 }, { 26, 2 }, { 28, 2 }, { 30, 2 },                                     /* return addresses */
    { 32, 2 }, { 34, 2 }, { 36, 2 }, { 38, 2 },
    { 41, 2 }, { 43, 2 }, { 45, 2 }, { 10, 2 }                                      /* filled, read, written; locked */
};
static const field report_fields[REPORT_FIELDS] = {
    { 0, 1 }, { 1, 2 }, { 10, 1 }, { 11, 1 },                                       /* status, counter, PSU, PSL */
    { 3, 1 }, { 4, 1 }, { 5, 1 }, { 6, 1 }, { 7, 1 }, { 8, 1 }, { 9, 1 }            /* registers */
};

static uint64_t number_at(const uint8_t *p, unsigned width)
{
    uint64_t n = 0;
    while (width--) n = n << 8 | *p++;
    return n;
}

/* As many of the number's low bytes as there is room for: make_data.py refuses a value that would be cut. */
static void put_number(uint8_t *p, unsigned width, uint32_t n)
{
    for (; width; n >>= 8) p[--width] = (uint8_t)n;
}

/* A script has two bytes for each number, whatever its width. */
static int numbers_agree(const uint8_t *bytes, const field *fields, unsigned count, const uint8_t *wanted)
{
    for (unsigned i = 0; i < count; i++)
        if (number_at(bytes + fields[i].offset, fields[i].width) != u16_at(wanted + 2 * i)) return 0;
    return 1;
}

/* ---- the table and its memory */

static uint8_t *slot_bytes(unsigned slot) { return table + SLOTS_OFFSET + SLOT_BYTES * slot; }
static const uint8_t *wanted_slot(const entry *e, unsigned slot) { return e->bytes + FREE_NUMBERS + SLOT_NUMBERS * slot; }

/* A slot's field, by its place in slot_fields. */
static uint32_t slot_field(const uint8_t *slot, unsigned i)
{
    return (uint32_t)number_at(slot + slot_fields[i].offset, slot_fields[i].width);
}

static int slot_agrees(const entry *e, unsigned slot)
{
    return numbers_agree(slot_bytes(slot), slot_fields, SLOT_FIELDS, wanted_slot(e, slot));
}

/* The two numbers about free bytes; a state of a script from before U5 has none. */
static int free_agrees(const entry *e)
{
    if (e->kind == FREE)
        return e->length == NUMBER_BYTES && pf_free(table) == e->number && pf_widest(table) == u32_at(e->bytes);
    return !e->flag || (pf_free(table) == u32_at(e->bytes) && pf_widest(table) == u32_at(e->bytes + NUMBER_BYTES));
}

static uint32_t crc32(const uint8_t *p, size_t length)
{
    uint32_t crc = UINT32_MAX;
    while (length--) {
        crc ^= *p++;
        for (int bit = 0; bit < 8; bit++) crc = crc >> 1 ^ (crc & 1 ? 0xEDB88320u : 0);
    }
    return ~crc;
}

static int state_agrees(const entry *e)
{
    if (e->length != STATE_LENGTH || crc32(memory, PF_MEMORY_MOST) != e->number || !free_agrees(e)) return 0;
    for (unsigned k = 0; k < PF_SLOTS; k++)
        if (!slot_agrees(e, k)) return 0;
    return 1;
}

/* ---- calls */

#define TABLE table, sizeof table
#define MEMORY memory, lent_length

/* The scripts go on with an all-zero table if a new one is refused; an entry point leaves the bytes. */
static pf_answer make_new(size_t length)
{
    pf_answer made = pf_new(TABLE, length);
    if (pf_refusal(made)) memset(table, 0, sizeof table);
    return made;
}

/* Puts the two numbers about free bytes into a table that has slot 0 alone; an empty slot has a partition of no bytes. Where it
 * does not lie in the memory, any two numbers do: the slot is not sound. */
static void put_free(uint8_t *alone, uint32_t length)
{
    const uint8_t *slot = alone + SLOTS_OFFSET;
    uint32_t base = slot_field(slot, 0);
    uint32_t size = slot_field(slot, 1) + slot_field(slot, 2) + slot_field(slot, 3);
    uint32_t behind = length - base - size;
    put_number(alone + NUMBER_BYTES, NUMBER_BYTES, length - size);
    put_number(alone + 2 * NUMBER_BYTES, NUMBER_BYTES, base > behind ? base : behind);
}

/* Draining over one slot that is lent has no entry point: the slot is drained as the only one of a table, as
 * crates/lend has it. */
static pf_answer drain_lent(unsigned slot, size_t room)
{
    uint8_t alone[PF_TABLE_BYTES];
    if (pf_refusal(pf_new(alone, sizeof alone, lent_length))) return (pf_answer)PF_NOT_SOUND << 16;
    memcpy(alone + SLOTS_OFFSET, slot_bytes(slot), SLOT_BYTES);
    put_free(alone, (uint32_t)lent_length);
    pf_answer drained = pf_drain(alone, sizeof alone, MEMORY, 0, buffer, room);
    memcpy(slot_bytes(slot), alone + SLOTS_OFFSET, SLOT_BYTES);
    return drained;
}

/* Both stretches are left behind the parameters. */
static void put_stretches(pf_stretch code, pf_stretch input)
{
    put_number(buffer + PF_VALUES_BYTES, STRETCH_BYTES, code);
    put_number(buffer + PF_VALUES_BYTES + STRETCH_BYTES, STRETCH_BYTES, input);
}

static pf_answer product_read(const entry *e)
{
    const uint8_t *file = e->bytes + READ_LENGTH;
    size_t length = e->length - READ_LENGTH;
    put_stretches(pf_code(file, length), pf_input(file, length));
    return pf_read(file, length, buffer, PF_VALUES_BYTES);
}

static int reference_read(const entry *e)
{
    ref_parameters p;
    int refusal = ref_read_file(e->bytes + READ_LENGTH, e->length - READ_LENGTH, &p);
    put_stretches((pf_stretch)(p.code_at << 16 | p.code_length), (pf_stretch)(p.first_at << 16 | p.first_length));
    if (!refusal) encode_parameters(&p, buffer);
    return refusal;
}

/* The bytes of a write: the parameters, the buffer's check sum, a header of the image and one of the first input, and what is
 * stored of both. */
enum {
    AT_CRC = PF_VALUES_BYTES, AT_IMAGE = AT_CRC + NUMBER_BYTES, SPREAD_HEADER = 5, AT_INPUT = AT_IMAGE + SPREAD_HEADER,
    WRITE_HEADER = AT_INPUT + SPREAD_HEADER
};
static uint8_t image[UINT16_MAX], input[UINT16_MAX];
static size_t image_length, input_length;

/* What a header says: how many bytes there are, the one at their end, and how many of them are stored. */
static size_t spread_length(const uint8_t *header) { return u16_at(header); }
static size_t stored_length(const uint8_t *header) { return u16_at(header + 3); }

static size_t spread(uint8_t *to, const uint8_t *header, const uint8_t *stored)
{
    memset(to, header[2], spread_length(header));
    memcpy(to, stored, stored_length(header));
    return spread_length(header);
}

/* Leaves what a write is given in `image` and `input`. */
static void spread_given(const entry *e)
{
    const uint8_t *stored = e->bytes + WRITE_HEADER;
    image_length = spread(image, e->bytes + AT_IMAGE, stored);
    input_length = spread(input, e->bytes + AT_INPUT, stored + stored_length(e->bytes + AT_IMAGE));
}

static pf_answer product_write(const entry *e)
{
    spread_given(e);
    return pf_write(e->bytes, PF_VALUES_BYTES, image, image_length, input, input_length, buffer, e->number);
}

static int reference_write(const entry *e, size_t *count)
{
    const uint8_t *p = e->bytes;
    spread_given(e);
    return ref_write_locked(u16_at(p), u16_at(p + 2), u16_at(p + 4), u16_at(p + 6), p[8], u16_at(p + 9), image, image_length,
                            input, input_length, buffer, e->number, count);
}

static pf_answer product_call(const entry *e)
{
    switch (e->kind) {
    case NEW: return make_new(e->number);
    case LOAD: return pf_load(TABLE, MEMORY, e->slot, e->number, e->bytes, e->length);
    case UNLOAD: return pf_unload(TABLE, MEMORY, e->slot);
    case FEED: return pf_feed(TABLE, MEMORY, e->slot, e->bytes, e->length);
    case DRAIN: return pf_drain(TABLE, MEMORY, e->slot, buffer, e->number);
    case RUN: return pf_run(TABLE, MEMORY, (uint16_t)e->number);
    case REPORT: return pf_report(TABLE, e->slot, buffer, PF_REPORT_BYTES);
    case DRAIN_LENT: return drain_lent(e->slot, e->number);
    case BACKLOG: return pf_backlog(TABLE, buffer, e->number);
    case READ: return product_read(e);
    case WRITE: return product_write(e);
    default: return pf_fit(TABLE, (size_t)number_at(e->bytes, SIZE_LENGTH));
    }
}

/* The number that refuses the call, and what the product has for a count. */
static int reference_refusal(const entry *e, ref_table *t, size_t *count)
{
    ref_reported reported;
    uint32_t start = 0;
    int refusal = 0;
    switch (e->kind) {
    case NEW: return ref_new(t, e->number);
    case LOAD: return ref_load(t, MEMORY, e->slot, e->bytes, e->length, e->number);
    case UNLOAD: return ref_unload(t, MEMORY, e->slot);
    case FEED: return ref_feed(t, MEMORY, e->slot, e->bytes, e->length);
    case DRAIN: return ref_drain(t, MEMORY, e->slot, buffer, e->number, count);
    case RUN: return ref_run(t, MEMORY, (uint16_t)e->number);
    case REPORT:
        refusal = ref_report(t, e->slot, &reported);
        if (!refusal) encode_report(&reported, buffer);
        return refusal;
    case DRAIN_LENT: return ref_drain_lent(&t->slots[e->slot], MEMORY, buffer, e->number, count);
    case BACKLOG: return ref_backlog(t, buffer, e->number, count);
    case READ: return reference_read(e);
    case WRITE: return reference_write(e, count);
    default:
        refusal = ref_fit(t, number_at(e->bytes, SIZE_LENGTH), &start);
        *count = start;
        return refusal;
    }
}

static pf_answer reference_call(const entry *e)
{
    ref_table t;
    size_t count = 0;
    decode_table(table, &t);
    int refusal = reference_refusal(e, &t, &count);
    encode_table(&t, table);
    return refusal ? (pf_answer)refusal << 16 : (pf_answer)count;
}

static int fills_buffer(const entry *e) { return e->kind == DRAIN || e->kind == DRAIN_LENT || e->kind == BACKLOG; }

static int is_untouched_from(size_t at)
{
    while (at < sizeof buffer && buffer[at] == UNTOUCHED) at++;
    return at >= sizeof buffer;
}

/* The whole of `buffer` is compared: what is not lent stays as it was, and all of it where nothing is filled. */
static int buffer_agrees(const entry *e)
{
    if (fills_buffer(e)) return !memcmp(buffer, e->bytes, e->length) && is_untouched_from(e->length);
    if (e->kind == READ) return !memcmp(buffer, e->bytes, READ_LENGTH) && is_untouched_from(READ_LENGTH);
    if (e->kind == WRITE) return crc32(buffer, e->number) == u32_at(e->bytes + AT_CRC) && is_untouched_from(e->number);
    if (e->kind == REPORT && !e->refusal)
        return numbers_agree(buffer, report_fields, REPORT_FIELDS, e->bytes) && is_untouched_from(PF_REPORT_BYTES);
    return is_untouched_from(0);
}

/* Whether a write has as many bytes as its headers say, and no more of them than it spreads out. */
static int is_whole_write(const entry *e)
{
    const uint8_t *of_image = e->bytes + AT_IMAGE, *of_input = e->bytes + AT_INPUT;
    return e->length >= WRITE_HEADER && e->number <= BUFFER_ROOM
        && e->length == WRITE_HEADER + stored_length(of_image) + stored_length(of_input)
        && stored_length(of_image) <= spread_length(of_image) && stored_length(of_input) <= spread_length(of_input);
}

/* Whether there is such a call, and room for what it is lent. */
static int can_be_made(const entry *e)
{
    if (e->kind > WRITE || lent_length > sizeof memory) return 0;
    if (e->kind == DRAIN_LENT && e->slot >= PF_SLOTS) return 0;
    if (e->kind == RUN) return e->number <= UINT16_MAX;
    if (e->kind == REPORT) return e->length == REPORT_FIELDS * 2;
    if (e->kind == FIT) return e->length == SIZE_LENGTH;
    if (e->kind == READ) return e->length >= READ_LENGTH;
    if (e->kind == WRITE) return is_whole_write(e);
    return !fills_buffer(e) || (e->number <= BUFFER_ROOM && e->length == e->number);
}

static int call_agrees(const entry *e, tally *t)
{
    t->answer = 0;
    if (!can_be_made(e)) return 0;
    memset(buffer, UNTOUCHED, sizeof buffer);
    t->answer = t->make_call(e);
    if (pf_refusal(t->answer)) t->refused++;
    else t->accepted++;
    return pf_refusal(t->answer) == e->refusal && pf_count(t->answer) == e->field && buffer_agrees(e);
}

/* ---- scripts */

static void begin_script(void)
{
    memset(table, 0, sizeof table);
    memset(table_before_poke, 0, sizeof table_before_poke);
    memset(memory, 0, sizeof memory);
    lent_length = 0;
}

static void poke(const entry *e)
{
    if (!e->flag) memcpy(table_before_poke, table, sizeof table);
    if (e->field >= SLOT_FIELDS && e->field < SLOT_FIELDS + TABLE_NUMBERS) {
        put_number(table + (e->field - SLOT_FIELDS) * NUMBER_BYTES, NUMBER_BYTES, e->number);
    } else if (e->slot < PF_SLOTS && e->field < SLOT_FIELDS) {
        const field *f = &slot_fields[e->field];
        put_number(slot_bytes(e->slot) + f->offset, f->width, e->number);
    }
}

/* Answers whether all is as the entry has it. */
static int entry_agrees(const entry *e, tally *t)
{
    if (is_call(e)) return call_agrees(e, t);
    switch (e->kind) {
    case NEW_SCRIPT: t->scripts++; begin_script(); return 1;
    case LEND: lent_length = e->number; return 1;
    case POKE: poke(e); return 1;
    case UNPOKE: memcpy(table, table_before_poke, sizeof table); return 1;
    case FREE: return free_agrees(e);
    default: t->states++; return state_agrees(e);
    }
}

/* The status in decimal and the other numbers in hex, as a script has them. */
static void print_report(void)
{
    for (unsigned i = 0; i < REPORT_FIELDS; i++) {
        const field *f = &report_fields[i];
        unsigned n = (unsigned)number_at(buffer + f->offset, f->width);
        if (i) printf(" %0*X", 2 * f->width, n);
        else printf("; reported %u", n);
    }
}

static void print_free(void) { printf("; free %u, widest %u", (unsigned)pf_free(table), (unsigned)pf_widest(table)); }

/* The slots that differ, in decimal, as a script has them. */
static void print_slots(const entry *e)
{
    for (unsigned k = 0; k < PF_SLOTS && e->length == STATE_LENGTH; k++) {
        if (slot_agrees(e, k)) continue;
        printf("\n    st %u:", k);
        for (unsigned i = 0; i < SLOT_FIELDS; i++) printf(" %u", (unsigned)slot_field(slot_bytes(k), i));
    }
}

static void count_difference(const entry *e, tally *t)
{
    printf("differs: script %u, line %u", t->scripts, e->line);
    if (is_call(e))
        printf(", wanted %u and count %u, answered %u and count %u", e->refusal, e->field, pf_refusal(t->answer),
               pf_count(t->answer));
    if (e->kind == REPORT) print_report();
    if (e->kind == FREE || e->kind == STATE) print_free();
    if (e->kind == STATE) print_slots(e);
    printf("\n");
    t->different++;
}

/* Every script, by one of the two. Answers 0 if all is as the scripts have it. */
static int scripts_by(const char *name, call_maker *make_call, size_t size)
{
    tally t = { make_call, 0, 0, 0, 0, 0, 0 };
    for (size_t at = 0; at < size;) {
        entry e = entry_at(data + at);
        if (entry_length(&e) > size - at) {
            printf("the data end inside an entry\n");
            return 1;
        }
        if (!entry_agrees(&e, &t)) count_difference(&e, &t);
        at += entry_length(&e);
    }
    printf("%s: %u scripts: %u calls accepted, %u refused, %u states compared, %u different\n", name,
           t.scripts, t.accepted, t.refused, t.states, t.different);
    return t.different || !t.scripts;
}

int scripts(const char *path)
{
    FILE *f = fopen(path, "rb");
    if (!f) {
        perror(path);
        return 2;
    }
    size_t size = fread(data, 1, sizeof data - HEADER_LENGTH, f);
    fclose(f);
    int product = scripts_by("the product", product_call, size);
    int reference = scripts_by("the reference", reference_call, size);
    return product || reference;
}
