#include "calls.h"
#include "codec.h"
#include "files.h"
#include "product_level.h"
#include "programs.h"
#include "random.h"
#include "tables.h"
#include <stdio.h>
#include <string.h>

const char *const call_names[CALL_KINDS] = {
    "pf_new", "pf_load", "pf_unload", "pf_feed", "pf_drain", "pf_run", "pf_report", "pf_backlog", "pf_fit",
    "pf_upgrade", "pf_read", "pf_code", "pf_input", "pf_write"
};

#define BIT(n) (1u << (n))

enum {
    SYSTEM_REFUSALS = BIT(0) | BIT(PF_NOT_SOUND) | BIT(PF_OTHER_LENGTH),
    SLOT_REFUSALS = SYSTEM_REFUSALS | BIT(PF_NO_SLOT),
    READER_REFUSALS = BIT(0) | BIT(PF_FRAME) | BIT(PF_FORM) | BIT(PF_BOARD) | BIT(PF_VALUES) | BIT(PF_CODE)
                    | BIT(PF_INPUT)
};

const uint32_t call_refusals[CALL_KINDS] = {
    [CALL_NEW] = SYSTEM_REFUSALS,
    [CALL_LOAD] = SLOT_REFUSALS | BIT(PF_TAKEN) | READER_REFUSALS | BIT(PF_PAST_END) | BIT(PF_MEETS),
    [CALL_UNLOAD] = SLOT_REFUSALS | BIT(PF_EMPTY),
    [CALL_FEED] = SLOT_REFUSALS | BIT(PF_EMPTY) | BIT(PF_UNREAD) | BIT(PF_NO_INPUT),
    [CALL_DRAIN] = SLOT_REFUSALS | BIT(PF_EMPTY) | BIT(PF_SHORT),
    [CALL_RUN] = SYSTEM_REFUSALS,
    [CALL_REPORT] = BIT(0) | BIT(PF_NOT_SOUND) | BIT(PF_NO_SLOT) | BIT(PF_EMPTY) | BIT(PF_SHORT),
    [CALL_BACKLOG] = BIT(0) | BIT(PF_NOT_SOUND) | BIT(PF_SHORT),
    [CALL_FIT] = BIT(0) | BIT(PF_NOT_SOUND) | BIT(PF_SIZE) | BIT(PF_NO_EXTENT),
    [CALL_UPGRADE] = BIT(0) | BIT(PF_NOT_SOUND) | BIT(PF_SHORT),
    [CALL_READ] = READER_REFUSALS | BIT(PF_SHORT),
    [CALL_CODE] = READER_REFUSALS,
    [CALL_INPUT] = READER_REFUSALS,
    [CALL_WRITE] = BIT(0) | BIT(PF_VALUES) | BIT(PF_INPUT) | BIT(PF_SHORT)
};

/* what an entry point takes of a buffer */
#define PRODUCT_ARGS(p) (p)->product.bytes, (p)->length
/* what the reference takes of it */
#define REFERENCE_ARGS(p) (p)->reference, (p)->length

static size_t smaller(size_t a, size_t b) { return a < b ? a : b; }

/* ---- what is lent */

static buffer_pair *lend_buffer(call *c, const char *name, size_t length)
{
    buffer_pair *p = &c->buffers[c->buffer_count++];
    *p = buffer_pair_random(name, length);
    return p;
}

/* The same bytes, cut or with others behind them. */
static buffer_pair *lend_other(call *c, const buffer_pair *p)
{
    buffer_pair *other = lend_buffer(c, p->name, random_other_length(p->length));
    memcpy(other->reference, p->reference, smaller(p->length, other->length));
    buffer_pair_copy_to_product(other);
    return other;
}

static void lend_table(call *c, system_pair *both)
{
    c->table = random_one_in(60) ? lend_other(c, &both->table) : &both->table;
}

/* A table that no memory goes with, made by `make`, and sometimes damaged. */
static void lend_table_alone(call *c, ref_table *table, void (*make)(ref_table *))
{
    uint8_t bytes[PF_TABLE_BYTES];
    make(table);
    if (random_one_in(8)) table_damage(table);
    encode_table(table, bytes);
    c->table = &c->buffers[c->buffer_count++];
    *c->table = buffer_pair_of("table", bytes, sizeof bytes);
}

static void lend_system(call *c, system_pair *both)
{
    lend_table(c, both);
    c->memory = random_one_in(50) ? lend_other(c, &both->memory) : &both->memory;
}

static buffer_pair *lend_file(call *c, size_t memory)
{
    static uint8_t file[FILE_ROOM];
    size_t length = file_random(file, memory);
    buffer_pair *p = &c->buffers[c->buffer_count++];
    *p = buffer_pair_of("file", file, length);
    return p;
}

/* A table of another length is not sound. The reference has no such table. */
static int has_full_table(const call *c) { return c->table->length == PF_TABLE_BYTES; }

/* mostly what is needed; none, one too few, one more, or a few more */
static size_t random_room_for(size_t needed)
{
    switch (random_below(16)) {
    case 0: return 0;
    case 1: return needed ? needed - 1 : 0;
    case 2: return needed + 1;
    case 3: case 4: case 5: return needed + random_below(40);
    default: return needed;
    }
}

/* ---- slots */

typedef int (*slot_test)(const ref_slot *);

static int is_empty(const ref_slot *s) { return s->status == ST_EMPTY; }
static int is_taken(const ref_slot *s) { return s->status != ST_EMPTY; }
static int cannot_resume(const ref_slot *s) { return s->status == ST_HALT || s->status >= ST_UNKNOWN; }
static int wants_input(const ref_slot *s) { return s->status == ST_WANTS; }
static int has_read_all(const ref_slot *s) { return is_taken(s) && s->read == s->filled; }
static int is_full(const ref_slot *s) { return s->status == ST_FULL; }
static int has_written(const ref_slot *s) { return is_taken(s) && s->written; }

/* SLOTS if there is none */
static size_t find_slot(const ref_table *table, slot_test test)
{
    size_t first = random_below(SLOTS);
    for (size_t i = 0; i < SLOTS; i++)
        if (test(&table->slots[(first + i) % SLOTS])) return (first + i) % SLOTS;
    return SLOTS;
}

/* Slots past the last: the next one, and numbers that a cut to fewer bits would turn into slots. */
static size_t slot_past_last(void)
{
    const size_t starts[] = { 8, 8, 16, 248, 256, 65536, (size_t)UINT32_MAX + 1, SIZE_MAX / 2 + 1, SIZE_MAX - 7 };
    return RANDOM_OF(starts) + (random_one_in(3) ? 0 : random_below(SLOTS));
}

static size_t random_slot_for(const ref_table *table, slot_test preferred, slot_test fallback)
{
    if (random_one_in(30)) return slot_past_last();
    if (random_one_in(10)) return random_below(SLOTS);
    size_t k = find_slot(table, preferred);
    if (k == SLOTS || random_one_in(6)) k = find_slot(table, fallback);
    if (k == SLOTS && !random_one_in(4)) k = find_slot(table, is_taken);
    return k == SLOTS ? random_below(SLOTS) : k;
}

/* the slot's numbers, or zeros for a slot that is none */
static const ref_slot *slot_of(const system_pair *both, size_t slot)
{
    static const ref_slot none;
    return slot < SLOTS ? &both->reference_table.slots[slot] : &none;
}

/* ---- where a partition fits */

typedef struct {
    size_t at, length;
} gap;

static gap gap_at(const ref_table *table, size_t location)
{
    size_t end = table->memory_length;
    for (size_t k = 0; k < SLOTS; k++) {
        const ref_slot *s = &table->slots[k];
        if (is_empty(s)) continue;
        if (s->base <= location && location < partition_end(s)) return (gap){ location, 0 };
        if (s->base >= location && s->base < end) end = s->base;
    }
    return (gap){ location, location < end ? end - location : 0 };
}

/* Behind a partition or at 0, of at least so many bytes; else anywhere. */
static gap random_gap(const ref_table *table, size_t least)
{
    size_t first = random_below(SLOTS + 1);
    for (size_t i = 0; i <= SLOTS; i++) {
        size_t k = (first + i) % (SLOTS + 1);
        gap g = gap_at(table, k < SLOTS ? partition_end(&table->slots[k]) : 0);
        if (g.length >= least) return g;
    }
    return (gap){ random_below(table->memory_length), 3 };
}

/* about the memory's end, and where a sum would wrap round or a cut to fewer bits would make it fit */
static size_t random_edge_location(const ref_table *table, gap g, size_t size)
{
    const size_t end = table->memory_length;
    const size_t locations[] = { end, end + 1, end - size, end - size + 1, SIZE_MAX, SIZE_MAX - size,
                                 SIZE_MAX - size + 1, SIZE_MAX / 2 + 1, (size_t)UINT32_MAX + 1 + g.at, 65536 + g.at };
    return RANDOM_OF(locations);
}

static size_t random_location_for(const ref_table *table, gap g, size_t size)
{
    switch (random_below(24)) {
    case 0: case 1: return random_edge_location(table, g, size);
    case 2: return random_below(table->memory_length + (size_t)2);
    case 3: return g.at - 1;
    case 4: return g.at + g.length - size + 1;
    case 5: case 6: return g.at + g.length - size;
    case 7: case 8: return g.length > size ? g.at + random_below(g.length - size) : g.at;
    default: return g.at;
    }
}

/* what the file's pattern needs of the memory; the least if it is refused */
static size_t partition_size_of_file(const buffer_pair *file)
{
    ref_parameters p;
    return ref_read_file(REFERENCE_ARGS(file), &p) ? 3 : (size_t)p.window + p.input + p.output;
}

/* ---- calls with a table */

static size_t random_new_length(const system_pair *both)
{
    const size_t odd[] = { 0, 1, 65535, 65536, 65537, 131072, (size_t)UINT32_MAX + 1,
                           (size_t)UINT32_MAX + 1 + both->memory.length, SIZE_MAX / 2 + 1, SIZE_MAX,
                           random_between(1, 65536) };
    return random_one_in(2) ? RANDOM_OF(odd) : both->memory.length;
}

/* The reference hands back a zero table with a refusal; to a host nothing is handed then. */
static unsigned reference_new(const call *c, system_pair *both)
{
    ref_table made;
    int refusal = ref_new(&made, c->length);
    if (!refusal) memcpy(&both->reference_table, &made, sizeof made);
    return (unsigned)refusal;
}

static void make_new(call *c, system_pair *both)
{
    lend_table(c, both);
    c->length = random_new_length(both);
    c->answer = pf_new(PRODUCT_ARGS(c->table), c->length);
    c->refusal = has_full_table(c) ? reference_new(c, both) : PF_NOT_SOUND;
}

/* Sometimes where pf_fit says: 12 and 13 are then a difference, whatever the reference answers. */
static void choose_location(call *c, const system_pair *both, gap g, size_t size)
{
    c->location = random_location_for(&both->reference_table, g, size);
    if (!random_one_in(4)) return;
    pf_answer fit = pf_fit(PRODUCT_ARGS(c->table), size);
    c->fitted = !pf_refusal(fit);
    if (c->fitted) c->location = pf_count(fit);
}

static void make_load(call *c, system_pair *both)
{
    lend_system(c, both);
    gap g = random_gap(&both->reference_table, 3);
    buffer_pair *file = lend_file(c, smaller(g.length, PF_PARTITION_MOST));
    c->slot = random_slot_for(&both->reference_table, is_empty, is_empty);
    choose_location(c, both, g, partition_size_of_file(file));
    c->answer = pf_load(PRODUCT_ARGS(c->table), PRODUCT_ARGS(c->memory), c->slot, c->location, PRODUCT_ARGS(file));
    c->refusal = !has_full_table(c) ? PF_NOT_SOUND
        : (unsigned)ref_load(&both->reference_table, REFERENCE_ARGS(c->memory), c->slot, REFERENCE_ARGS(file),
                            c->location);
}

static void make_unload(call *c, system_pair *both)
{
    lend_system(c, both);
    c->slot = random_slot_for(&both->reference_table, cannot_resume, is_taken);
    c->answer = pf_unload(PRODUCT_ARGS(c->table), PRODUCT_ARGS(c->memory), c->slot);
    c->refusal = !has_full_table(c) ? PF_NOT_SOUND
        : (unsigned)ref_unload(&both->reference_table, REFERENCE_ARGS(c->memory), c->slot);
}

static size_t random_feed_length(size_t capacity)
{
    switch (random_below(16)) {
    case 0: return 0;
    case 1: return capacity + 1;
    case 2: case 3: return capacity;
    default: return random_between(1, capacity);
    }
}

static void make_feed(call *c, system_pair *both)
{
    lend_system(c, both);
    c->slot = random_slot_for(&both->reference_table, wants_input, has_read_all);
    buffer_pair *input = lend_buffer(c, "input", random_feed_length(slot_of(both, c->slot)->input));
    c->answer = pf_feed(PRODUCT_ARGS(c->table), PRODUCT_ARGS(c->memory), c->slot, PRODUCT_ARGS(input));
    c->refusal = !has_full_table(c) ? PF_NOT_SOUND
        : (unsigned)ref_feed(&both->reference_table, REFERENCE_ARGS(c->memory), c->slot, REFERENCE_ARGS(input));
}

static void make_drain(call *c, system_pair *both)
{
    lend_system(c, both);
    c->slot = random_slot_for(&both->reference_table, is_full, has_written);
    const ref_slot *s = slot_of(both, c->slot);
    buffer_pair *buffer = lend_buffer(c, "buffer", random_room_for(random_one_in(4) ? s->output : s->written));
    size_t count = 0;
    c->answer = pf_drain(PRODUCT_ARGS(c->table), PRODUCT_ARGS(c->memory), c->slot, PRODUCT_ARGS(buffer));
    c->refusal = !has_full_table(c) ? PF_NOT_SOUND
        : (unsigned)ref_drain(&both->reference_table, REFERENCE_ARGS(c->memory), c->slot, REFERENCE_ARGS(buffer),
                             &count);
    c->expected = (uint32_t)count;
}

/* None, one, a few, or as many as make some thousand steps, seldom hundreds of thousands. */
static uint16_t random_rounds(const ref_table *table)
{
    size_t quanta = 1;
    for (size_t k = 0; k < SLOTS; k++)
        if (table->slots[k].status == ST_RUN) quanta += table->slots[k].quantum;
    switch (random_below(16)) {
    case 0: return 0;
    case 1: case 2: case 3: return 1;
    case 4: case 5: case 6: return (uint16_t)smaller((random_one_in(10) ? 200000 : 6000) / quanta + 1, 65535);
    default: return (uint16_t)random_between(2, 10);
    }
}

/* A slot that runs after a call ran in all of it, because no round starts a stopped slot: it took rounds times its
 * quantum. What slots that stopped took before is left out, so that the number is a least one. */
static uint64_t steps_of(const ref_table *table, uint16_t rounds)
{
    uint64_t steps = 0;
    for (size_t k = 0; k < SLOTS; k++)
        if (table->slots[k].status == ST_RUN) steps += (uint64_t)rounds * table->slots[k].quantum;
    return steps;
}

static void make_run(call *c, system_pair *both)
{
    lend_system(c, both);
    c->rounds = random_rounds(&both->reference_table);
    c->answer = pf_run(PRODUCT_ARGS(c->table), PRODUCT_ARGS(c->memory), c->rounds);
    c->refusal = !has_full_table(c) ? PF_NOT_SOUND
        : (unsigned)ref_run(&both->reference_table, REFERENCE_ARGS(c->memory), c->rounds);
    if (!c->refusal) c->steps = steps_of(&both->reference_table, c->rounds);
}

static void make_report(call *c, system_pair *both)
{
    lend_table(c, both);
    c->slot = random_slot_for(&both->reference_table, is_taken, is_taken);
    buffer_pair *report = lend_buffer(c, "report", random_room_for(PF_REPORT_BYTES));
    ref_reported reported;
    c->answer = pf_report(PRODUCT_ARGS(c->table), c->slot, PRODUCT_ARGS(report));
    c->refusal = !has_full_table(c) ? PF_NOT_SOUND
        : (unsigned)ref_report(&both->reference_table, c->slot, &reported);
    if (!c->refusal && report->length < PF_REPORT_BYTES) c->refusal = PF_SHORT;
    if (!c->refusal) encode_report(&reported, report->reference);
}

/* a line of three bytes for each loaded slot, and the total */
static size_t backlog_length(const ref_table *table)
{
    size_t length = 2;
    for (size_t k = 0; k < SLOTS; k++)
        if (is_taken(&table->slots[k])) length += 3;
    return length;
}

/* Half of the calls are lent a table that is no system's, where counts are larger, and more often equal, than lists of
 * calls make them. */
static void make_backlog(call *c, system_pair *both)
{
    ref_table asked = both->reference_table;
    if (random_one_in(2)) lend_table(c, both);
    else lend_table_alone(c, &asked, table_random_counts);
    buffer_pair *buffer = lend_buffer(c, "buffer", random_room_for(backlog_length(&asked)));
    size_t count = 0;
    c->answer = pf_backlog(PRODUCT_ARGS(c->table), PRODUCT_ARGS(buffer));
    c->refusal = !has_full_table(c) ? PF_NOT_SOUND : (unsigned)ref_backlog(&asked, REFERENCE_ARGS(buffer), &count);
    c->expected = (uint32_t)count;
}

/* Mostly a gap's length, or close to it; edges; numbers that a cut to fewer bits would turn into sizes that fit. */
static size_t random_size_for(gap g)
{
    const size_t odd[] = { 0, 0, 1, 2, 40959, PF_PARTITION_MOST, 40961, 65535, 65536, 65536 + g.length, UINT32_MAX,
                           (size_t)UINT32_MAX + 1, (size_t)UINT32_MAX + 2, (size_t)UINT32_MAX + 1 + g.length,
                           SIZE_MAX / 2 + 1, SIZE_MAX - g.length + 1, SIZE_MAX };
    switch (random_below(16)) {
    case 0: case 1: case 2: return RANDOM_OF(odd);
    case 3: case 4: return g.length + 1;
    case 5: case 6: return g.length - 1;
    case 7: case 8: return random_between(1, g.length);
    case 9: return random_between(1, PF_PARTITION_MOST);
    default: return g.length;
    }
}

/* Half of the calls are lent a table that is no system's, where free extents are more often equally long, and
 * partitions more often adjoin, than lists of calls make them. */
static void make_fit(call *c, system_pair *both)
{
    ref_table asked = both->reference_table;
    if (random_one_in(2)) lend_table(c, both);
    else lend_table_alone(c, &asked, table_random_extents);
    uint32_t start = 0;
    c->size = random_size_for(random_gap(&asked, 1));
    c->answer = pf_fit(PRODUCT_ARGS(c->table), c->size);
    c->refusal = !has_full_table(c) ? PF_NOT_SOUND : (unsigned)ref_fit(&asked, c->size, &start);
    c->expected = start;
}

/* What is to be taken over: the system's table, or one that is no system's; sometimes damaged. */
static ref_table random_old_table(const system_pair *both)
{
    ref_table table = both->reference_table;
    if (random_one_in(2)) (random_one_in(4) ? table_random_counts : table_random_extents)(&table);
    if (random_one_in(4)) table_damage(&table);
    return table;
}

/* A form that a table has or had: its length, its bytes, and the last of document 02's requests in the version that kept it, by whose
 * rules it must be sound. */
typedef struct {
    size_t length;
    void (*encode)(const ref_table *, uint8_t *);
    void (*decode)(const uint8_t *, ref_table *);
    int level;
} table_form;

static const table_form table_forms[] = {
    { PF_UNCOUNTED_TABLE_BYTES, encode_uncounted_table, decode_uncounted_table, 4 },
    { PF_UNLOCKED_TABLE_BYTES, encode_unlocked_table, decode_unlocked_table, 5 },
    { PF_TABLE_BYTES, encode_table, decode_table, PRODUCT_LEVEL }
};
enum { TABLE_FORMS = sizeof table_forms / sizeof table_forms[0] };

/* A table in one of its forms, or what a buffer of another length holds of it; sometimes random bytes. */
static buffer_pair *lend_old_table(call *c, const ref_table *table)
{
    /* the last six are a form's length plus 256 or 65,536: one that is cut to fewer bits would be taken */
    const size_t odd[] = { 0, 1, 363, PF_UNCOUNTED_TABLE_BYTES, 365, 371, PF_UNLOCKED_TABLE_BYTES, 373, 387, PF_TABLE_BYTES, 389,
                           736, random_below(800), 620, 628, 644, 65900, 65908, 65924 };
    const table_form *form = &RANDOM_OF(table_forms);
    uint8_t bytes[PF_TABLE_BYTES];
    form->encode(table, bytes);
    buffer_pair *old = lend_buffer(c, "old", random_one_in(8) ? RANDOM_OF(odd) : form->length);
    if (!random_one_in(16)) memcpy(old->reference, bytes, smaller(form->length, old->length));
    buffer_pair_copy_to_product(old);
    return old;
}

/* The reference tests a table by the rules of the version that had its form: one from before the free bytes without them, and
 * one from before the lock without a status 8. What the form does not hold is then worked out. Answers whether the table is sound. */
static int take_over(const buffer_pair *old, ref_table *table)
{
    size_t k = 0;
    while (k < TABLE_FORMS && table_forms[k].length != old->length) k++;
    if (k == TABLE_FORMS) return 0;
    table_forms[k].decode(old->reference, table);
    ref_level = table_forms[k].level;
    int sound = ref_sound(table);
    ref_level = PRODUCT_LEVEL;
    if (old->length == PF_UNCOUNTED_TABLE_BYTES) table_count_free(table);
    return sound;
}

static void make_upgrade(call *c, system_pair *both)
{
    ref_table table = random_old_table(both);
    buffer_pair *old = lend_old_table(c, &table);
    c->table = lend_buffer(c, "table", random_one_in(8) ? random_other_length(PF_TABLE_BYTES) : PF_TABLE_BYTES);
    c->answer = pf_upgrade(PRODUCT_ARGS(old), PRODUCT_ARGS(c->table));
    c->refusal = !take_over(old, &table) ? PF_NOT_SOUND : !has_full_table(c) ? PF_SHORT : 0;
    c->taken_over = !c->refusal && old->length != PF_TABLE_BYTES ? old->length : 0;
    if (!c->refusal) encode_table(&table, c->table->reference);
}

/* ---- calls with a file */

static size_t random_file_memory(void) { return random_one_in(30) ? PF_PARTITION_MOST : random_between(3, 600); }

static void make_read(call *c)
{
    buffer_pair *file = lend_file(c, random_file_memory());
    buffer_pair *parameters = lend_buffer(c, "parameters", random_room_for(PF_VALUES_BYTES));
    ref_parameters p;
    c->answer = pf_read(PRODUCT_ARGS(file), PRODUCT_ARGS(parameters));
    c->refusal = (unsigned)ref_read_file(REFERENCE_ARGS(file), &p);
    if (!c->refusal && parameters->length < PF_VALUES_BYTES) c->refusal = PF_SHORT;
    if (!c->refusal) encode_parameters(&p, parameters->reference);
}

/* pf_code and pf_input: the answer is a stretch, which the reference leaves at 0 in a file that it refuses */
static void make_stretch(call *c)
{
    buffer_pair *file = lend_file(c, random_file_memory());
    ref_parameters p;
    c->refusal = (unsigned)ref_read_file(REFERENCE_ARGS(file), &p);
    if (c->kind == CALL_CODE) {
        c->answer = pf_code(PRODUCT_ARGS(file));
        c->expected = (uint32_t)(p.code_at << 16 | p.code_length);
    } else {
        c->answer = pf_input(PRODUCT_ARGS(file));
        c->expected = (uint32_t)(p.first_at << 16 | p.first_length);
    }
}

/* parameters to write, of which half lock something; one of them is sometimes at an edge or past it */
static ref_parameters random_parameters(void)
{
    static const uint16_t edges[] = { 0, 1, 4096, 4097, 32768, 32769, 65535 };
    ref_parameters p;
    memset(&p, 0, sizeof p);
    p.window = (uint32_t)random_between(1, random_one_in(40) ? 32768 : 300);
    p.input = (uint16_t)random_between(1, random_one_in(20) ? 4096 : 40);
    p.output = (uint16_t)random_between(1, 4096);
    p.start = (uint16_t)random_below(p.window);
    p.quantum = (uint8_t)random_between(1, 255);
    p.locked = random_one_in(2) ? 0 : (uint32_t)random_between(1, p.window);
    switch (random_below(48)) {
    case 0: p.window = RANDOM_OF(edges); break;
    case 1: p.input = RANDOM_OF(edges); break;
    case 2: p.output = RANDOM_OF(edges); break;
    case 3: p.start = RANDOM_OF(edges); break;
    case 4: p.start = (uint16_t)(p.window - random_below(2)); break;
    case 5: p.quantum = 0; break;
    case 6: p.locked = RANDOM_OF(edges); break;
    case 7: case 8: p.locked = p.window + (uint32_t)random_below(2); break;
    default: break;
    }
    return p;
}

static buffer_pair *lend_parameters(call *c, const ref_parameters *p)
{
    size_t length = random_one_in(60) ? random_other_length(PF_VALUES_BYTES) : PF_VALUES_BYTES;
    buffer_pair *parameters = lend_buffer(c, "parameters", length);
    uint8_t bytes[PF_VALUES_BYTES];
    encode_parameters(p, bytes);
    memcpy(parameters->reference, bytes, smaller(parameters->length, sizeof bytes));
    buffer_pair_copy_to_product(parameters);
    return parameters;
}

/* a window, often with zeros at its end, which the file leaves out */
static buffer_pair *lend_image(call *c, size_t window)
{
    buffer_pair *p = lend_buffer(c, "image", random_one_in(30) ? random_other_length(window) : window);
    program_fill(p->reference, p->length);
    if (random_one_in(3)) {
        size_t code = random_below(p->length + 1);
        memset(p->reference + code, 0, p->length - code);
    }
    buffer_pair_copy_to_product(p);
    return p;
}

static size_t trimmed_length(const buffer_pair *image)
{
    size_t n = image->length;
    while (n && image->reference[n - 1] == 0) n--;
    return n;
}

static void make_write(call *c)
{
    enum { LOCKED_BYTES = 2 };      /* which form 2 has more than form 1 */
    ref_parameters p = random_parameters();
    buffer_pair *parameters = lend_parameters(c, &p), *image = lend_image(c, p.window);
    size_t input_length = random_one_in(4) ? p.input + random_below(2) : random_below(p.input + 1u);
    buffer_pair *input = lend_buffer(c, "input", input_length);
    size_t file_length = PF_FILE_LEAST + (p.locked ? LOCKED_BYTES : 0) + trimmed_length(image) + input->length;
    buffer_pair *buffer = lend_buffer(c, "buffer", random_room_for(file_length));
    size_t count = 0;
    c->answer = pf_write(PRODUCT_ARGS(parameters), PRODUCT_ARGS(image), PRODUCT_ARGS(input), PRODUCT_ARGS(buffer));
    c->refusal = parameters->length != PF_VALUES_BYTES ? PF_VALUES
        : (unsigned)ref_write_locked(p.window, p.input, p.output, p.start, p.quantum, p.locked, REFERENCE_ARGS(image),
                                     REFERENCE_ARGS(input), REFERENCE_ARGS(buffer), &count);
    c->expected = (uint32_t)count;
}

/* ---- any call */

static void make_kind(call *c, system_pair *both)
{
    switch (c->kind) {
    case CALL_NEW: make_new(c, both); break;
    case CALL_LOAD: make_load(c, both); break;
    case CALL_UNLOAD: make_unload(c, both); break;
    case CALL_FEED: make_feed(c, both); break;
    case CALL_DRAIN: make_drain(c, both); break;
    case CALL_RUN: make_run(c, both); break;
    case CALL_REPORT: make_report(c, both); break;
    case CALL_BACKLOG: make_backlog(c, both); break;
    case CALL_FIT: make_fit(c, both); break;
    case CALL_UPGRADE: make_upgrade(c, both); break;
    case CALL_READ: make_read(c); break;
    case CALL_WRITE: make_write(c); break;
    default: make_stretch(c); break;
    }
}

static int is_stretch(const call *c) { return c->kind == CALL_CODE || c->kind == CALL_INPUT; }

void call_make(call *c, enum call_kind kind, system_pair *both)
{
    memset(c, 0, sizeof *c);
    c->kind = kind;
    buffer_pair_note_before(&both->table);
    buffer_pair_note_before(&both->memory);
    make_kind(c, both);
    if (!is_stretch(c)) c->expected |= (uint32_t)c->refusal << 16;
    encode_table(&both->reference_table, both->table.reference);
}

/* A pattern does not fit where pf_fit said that it does. */
static int breaks_promise(const call *c)
{
    return c->fitted && (pf_refusal(c->answer) == PF_PAST_END || pf_refusal(c->answer) == PF_MEETS);
}

/* The two numbers for a display, in the product's bytes, beside what its partitions leave. */
static difference free_bytes_difference(const buffer_pair *table)
{
    const uint8_t *bytes = table->product.bytes;
    ref_table counted;
    decode_table(bytes, &counted);
    table_count_free(&counted);
    if (pf_free(bytes) != counted.free)
        return (difference){ "not as counted", "pf_free", NO_OFFSET, pf_free(bytes), counted.free };
    if (pf_widest(bytes) != counted.widest)
        return (difference){ "not as counted", "pf_widest", NO_OFFSET, pf_widest(bytes), counted.widest };
    return (difference){ NULL, table->name, 0, 0, 0 };
}

difference call_difference(const call *c, system_pair *both)
{
    int refused = c->refusal != 0;
    if (c->answer != c->expected)
        return (difference){ "not as the reference answers", "answer", NO_OFFSET, c->answer, c->expected };
    if (breaks_promise(c)) return (difference){ "refused where pf_fit said", "answer", NO_OFFSET, c->answer, 0 };
    difference d = buffer_pair_difference(&both->table, refused);
    if (!d.what) d = buffer_pair_difference(&both->memory, refused);
    for (size_t i = 0; i < c->buffer_count && !d.what; i++) d = buffer_pair_difference(&c->buffers[i], refused);
    if (!d.what && !refused && c->table) d = free_bytes_difference(c->table);
    return d;
}

void call_print(const call *c)
{
    printf("%s:", call_names[c->kind]);
    if (c->table) printf(" table of %zu bytes,", c->table->length);
    if (c->memory) printf(" memory of %zu,", c->memory->length);
    for (size_t i = 0; i < c->buffer_count; i++) printf(" %s of %zu,", c->buffers[i].name, c->buffers[i].length);
    printf(" slot %zu, location %zu, length %zu, size %zu, rounds %u (0 where it takes none)\n",
           c->slot, c->location, c->length, c->size, c->rounds);
}

void call_free(call *c)
{
    while (c->buffer_count) buffer_pair_free(&c->buffers[--c->buffer_count]);
}
