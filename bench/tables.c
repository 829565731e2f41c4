#include "tables.h"
#include "codec.h"
#include "pattern_floor.h"
#include "programs.h"
#include "random.h"
#include <string.h>

enum { MAX_WINDOW = 32768, MAX_CAPACITY = 4096, ADDRESSES = 32768 };

size_t partition_size(const ref_slot *s) { return (size_t)s->window + s->input + s->output; }
size_t partition_end(const ref_slot *s) { return s->base + partition_size(s); }

static size_t smaller(size_t a, size_t b) { return a < b ? a : b; }

/* ---- free bytes */

/* The map has a byte for each of the longest memory: what an unsound table has behind it is left out. */
void table_count_free(ref_table *table)
{
    static uint8_t taken[MEMORY_MAX];
    uint32_t run = 0;
    memset(taken, 0, sizeof taken);
    for (size_t k = 0; k < SLOTS; k++) {
        const ref_slot *s = &table->slots[k];
        for (size_t i = s->base; s->status != ST_EMPTY && i < smaller(partition_end(s), MEMORY_MAX); i++) taken[i] = 1;
    }
    table->free = table->widest = 0;
    for (size_t i = 0; i < smaller(table->memory_length, MEMORY_MAX); i++) {
        run = taken[i] ? 0 : run + 1;
        table->free += !taken[i];
        if (run > table->widest) table->widest = run;
    }
}

/* ---- sound tables */

/* anywhere, most often inside the window, often where a page ends */
static uint16_t random_address(const ref_slot *s)
{
    if (random_one_in(16)) return (uint16_t)random_below(ADDRESSES);
    if (random_one_in(8)) return (uint16_t)((8192 * random_between(1, 4) - 3 + random_below(6)) % ADDRESSES);
    return (uint16_t)random_below(s->window);
}

/* statuses 3 and 4 as a sound table has them: nothing unread, output full */
static void random_status(ref_slot *s)
{
    s->status = (uint8_t)(random_one_in(3) ? random_between(ST_RUN, ST_LOCKED) : ST_RUN);
    if (s->status == ST_WANTS) s->read = s->filled;
    if (s->status == ST_FULL) s->written = s->output;
}

static void random_state(ref_slot *s)
{
    s->pc = random_one_in(2) ? 0 : random_address(s);
    s->r0 = (uint8_t)random64();
    random_bytes(&s->bank[0][0], sizeof s->bank);
    s->psu = (uint8_t)(random64() & PSU_STORED);
    s->psl = (uint8_t)random64();
    for (int i = 0; i < 8; i++) s->ras[i] = random_address(s);
    s->filled = (uint16_t)(random_one_in(4) ? s->input : random_below(s->input + 1u));
    s->read = (uint16_t)(random_one_in(4) ? s->filled : random_below(s->filled + 1u));
    s->written = (uint16_t)(random_one_in(4) ? s->output : random_below(s->output + 1u));
    random_status(s);
}

/* mostly small, sometimes the largest that fits */
static uint16_t random_capacity(size_t room)
{
    size_t most = smaller(room, MAX_CAPACITY);
    if (random_one_in(10)) return (uint16_t)most;
    return (uint16_t)random_between(1, random_one_in(8) ? most : smaller(most, 24));
}

/* nothing in half of the windows; else any front, often a short one, sometimes the whole window */
static uint32_t random_lock(const ref_slot *s)
{
    if (random_one_in(2)) return 0;
    if (random_one_in(8)) return s->window;
    return (uint32_t)random_between(1, random_one_in(2) ? smaller(s->window, 40) : s->window);
}

/* A partition from a location on, of so many bytes at most, and of three at least. */
static void random_partition_at(ref_slot *s, size_t location, size_t room)
{
    size_t all = random_between(3, smaller(room, random_one_in(10) ? MAX_WINDOW + 2 * MAX_CAPACITY : 700));
    s->base = (uint32_t)location;
    s->input = random_capacity(all - 2);
    s->output = random_capacity(all - 1 - s->input);
    s->window = (uint32_t)smaller(all - s->input - s->output, MAX_WINDOW);
    s->locked = random_lock(s);
    s->quantum = (uint8_t)(random_one_in(4) ? 255 : random_between(1, 20));
    random_state(s);
}

/* A partition at or behind a location, if one still fits before the memory's end. Answers where the next may start. */
static size_t random_partition(ref_slot *s, size_t location, size_t length)
{
    size_t start = random_one_in(2) ? location : location + random_below(60);
    if (start + 3 > length) return location;
    random_partition_at(s, start, length - start);
    return partition_end(s);
}

/* Partitions from the memory's start on, in slots in any order. */
void table_random(ref_table *table, uint8_t *memory, size_t length)
{
    size_t location = 0, first = random_below(SLOTS), step = 1 + 2 * random_below(4);
    memset(table, 0, sizeof *table);
    table->memory_length = (uint32_t)length;
    for (size_t i = 0; i < SLOTS; i++) {
        ref_slot *s = &table->slots[(first + i * step) % SLOTS];
        if (random_one_in(4)) continue;
        location = random_partition(s, location, length);
        program_fill(memory + s->base, s->window);
    }
    table_count_free(table);
}

/* How many bytes were put out, and a capacity for them. Counts are often equal, or differ in one of their bytes. */
static void random_count(ref_slot *s)
{
    static const uint16_t counts[] = { 0, 0, 1, 2, 255, 256, 257, 511, 512, 513, 4095, MAX_CAPACITY };
    s->written = random_one_in(3) ? (uint16_t)random_below(MAX_CAPACITY + 1) : RANDOM_OF(counts);
    s->output = s->written ? s->written : 1;
    if (s->status == ST_FULL) s->written = s->output;
    else s->output = (uint16_t)random_between(s->output, MAX_CAPACITY);
}

/* Each partition has its eighth of the longest memory, of which half is kept for the output. */
void table_random_counts(ref_table *table)
{
    const size_t stride = MEMORY_MAX / SLOTS, first = random_below(SLOTS), step = 1 + 2 * random_below(4);
    memset(table, 0, sizeof *table);
    table->memory_length = MEMORY_MAX;
    for (size_t i = 0; i < SLOTS; i++) {
        ref_slot *s = &table->slots[(first + i * step) % SLOTS];
        if (random_one_in(5)) continue;
        random_partition(s, i * stride, i * stride + stride - MAX_CAPACITY);
        random_count(s);
    }
    table_count_free(table);
}

/* The length of a free extent, or 0 for none: often the same one. */
static size_t random_extent(size_t length)
{
    switch (random_below(8)) {
    case 0: case 1: case 2: return 0;
    case 3: return length - 1;
    case 4: return length + 1;
    default: return length;
    }
}

/* The longest memory, with all partitions moved to its end or left at its start. */
static void lengthen_memory(ref_table *table)
{
    const uint32_t more = random_one_in(2) ? MEMORY_MAX - table->memory_length : 0;
    for (size_t k = 0; k < SLOTS; k++)
        if (table->slots[k].status != ST_EMPTY) table->slots[k].base += more;
    table->memory_length = MEMORY_MAX;
}

/* Partitions one behind the other, with an extent or none before each of them and behind the last; some tables have no
 * extent at all, and some no partition. What the extents do not take of the longest memory is room for partitions. */
void table_random_extents(ref_table *table)
{
    const size_t length = random_between(1, random_one_in(4) ? 7000 : 40);
    const size_t first = random_below(SLOTS), step = 1 + 2 * random_below(4);
    const int full = random_one_in(8), empty = random_one_in(8);
    size_t location = 0, room = MEMORY_MAX - (SLOTS + 1) * (length + 1);
    memset(table, 0, sizeof *table);
    for (size_t i = 0; i < SLOTS; i++) {
        ref_slot *s = &table->slots[(first + i * step) % SLOTS];
        if (!full) location += random_extent(length);
        if (empty || random_one_in(8) || room < 3) continue;
        random_partition_at(s, location, room);
        location += partition_size(s);
        room -= partition_size(s);
    }
    if (!full) location += random_extent(length);
    table->memory_length = (uint32_t)location;
    if ((!full && random_one_in(4)) || !location) lengthen_memory(table);
    table_count_free(table);
}

/* ---- damaged tables */

static uint16_t edge16(void)
{
    static const uint16_t edges[] = { 0, 1, 2, 255, 256, 4095, 4096, 4097, 8192, 32767, 32768, 32769, 65535 };
    return RANDOM_OF(edges);
}

/* an edge, or the number beside the one that is there: a step past the largest then changes nothing else */
static uint16_t edge_or_next(uint32_t n)
{
    return random_one_in(2) ? edge16() : (uint16_t)(n + 1 - 2 * random_below(2));
}

static uint8_t edge8(void)
{
    static const uint8_t edges[] = { 0, 1, 2, 7, 8, 0x10, 0x40, 0x7F, 0x80, 0xFF };
    return RANDOM_OF(edges);
}

/* about the memory's length, the largest memory, and the largest number: sums with these must not wrap round */
static uint32_t edge32(const ref_table *table, const ref_slot *s)
{
    uint32_t size = (uint32_t)partition_size(s), end = table->memory_length;
    const uint32_t edges[] = { 0, 1, 65535, 65536, 65537, UINT32_MAX, UINT32_MAX - size, 0u - size, 1u << 31,
                               end, end - 1, end + 1, end - size, end - size + 1,
                               s->base + 65536, s->base + 1, s->base - 1 };
    return RANDOM_OF(edges);
}

/* beside another partition, or one byte into it */
static uint32_t location_beside(const ref_slot *s, const ref_slot *other)
{
    size_t end = partition_end(other), front = other->base - partition_size(s);
    const size_t locations[] = { end, end - 1, front, front + 1, other->base };
    return (uint32_t)RANDOM_OF(locations);
}

/* a field set to an edge of its own */
static void set_edge(ref_table *table, ref_slot *s)
{
    switch (random_below(15)) {
    case 0: s->base = edge32(table, s); break;
    case 1: s->window = edge_or_next(s->window); break;
    case 2: s->input = edge_or_next(s->input); break;
    case 3: s->output = edge_or_next(s->output); break;
    case 4: s->quantum = edge8(); break;
    case 5: s->pc = edge16(); break;
    case 6: s->ras[random_below(8)] = edge16(); break;
    case 7: s->psu ^= (uint8_t)(1u << random_below(8)); break;
    case 8: s->psl = edge8(); break;
    case 9: s->status = random_one_in(4) ? edge8() : (uint8_t)random_below(10); break;
    case 10: s->filled = edge16(); break;
    case 11: s->read = edge16(); break;
    case 12: s->written = edge16(); break;
    case 13: s->locked = edge_or_next(s->locked); break;
    default: table->memory_length = edge32(table, s); break;
    }
}

/* a field set to an edge that another field gives */
static void set_relation(ref_table *table, ref_slot *s)
{
    switch (random_below(12)) {
    case 0: s->read = (uint16_t)(s->filled + random_below(2)); break;
    case 1: s->filled = (uint16_t)(s->input + random_below(2)); break;
    case 2: s->written = (uint16_t)(s->output + random_below(2)); break;
    case 3: s->input = (uint16_t)(s->filled - random_below(2)); break;
    case 4: s->output = (uint16_t)(s->written - random_below(2)); break;
    case 5: s->status = ST_WANTS; break;
    case 6: s->status = ST_FULL; break;
    case 7: s->base = location_beside(s, &table->slots[random_below(SLOTS)]); break;
    case 8: s->locked = (s->window + (uint32_t)random_below(2)) & 0xFFFF; break;
    case 9: s->window = (s->locked - (uint32_t)random_below(2)) & 0xFFFF; break;
    case 10: s->status = ST_LOCKED; break;
    default:
        s->window = (uint32_t)(table->memory_length - s->base - s->input - s->output + random_below(2)) & 0xFFFF;
        break;
    }
}

/* A partition moved, or its window made longer or shorter, mostly by one byte: it is often still inside the memory, and
 * meets no other. */
static void move_partition(ref_slot *s)
{
    const uint32_t by = (uint32_t)random_between(1, random_one_in(2) ? 1 : 40);
    switch (random_below(4)) {
    case 0: s->base += by; break;
    case 1: s->base -= by; break;
    case 2: s->window = (s->window + by) & 0xFFFF; break;
    default: s->window = (s->window - by) & 0xFFFF; break;
    }
}

/* How many bytes are free, or how long the widest extent is: one more or less, another number of the table, without its
 * upper half, or any. */
static void set_free_bytes(ref_table *table)
{
    uint32_t *n = random_one_in(2) ? &table->free : &table->widest;
    const uint32_t numbers[] = { *n + 1, *n + 1, *n - 1, *n - 1, table->free, table->widest, table->memory_length,
                                 *n ^ 65536, *n & 65535, 0, UINT32_MAX, (uint32_t)random64(),
                                 (uint32_t)random_below(table->memory_length + (size_t)1) };
    *n = RANDOM_OF(numbers);
}

static void change_byte(ref_table *table)
{
    uint8_t bytes[PF_TABLE_BYTES];
    encode_table(table, bytes);
    size_t at = random_one_in(8) ? random_below(12) : random_below(sizeof bytes);
    bytes[at] = random_one_in(2) ? (uint8_t)random64() : (uint8_t)(bytes[at] ^ 1u << random_below(8));
    decode_table(bytes, table);
}

static void change_all(ref_table *table)
{
    uint8_t bytes[PF_TABLE_BYTES];
    random_bytes(bytes, sizeof bytes);
    if (random_one_in(3)) memset(bytes, random_one_in(2) ? 0 : 0xFF, sizeof bytes);
    decode_table(bytes, table);
}

static void exchange(ref_slot *a, ref_slot *b)
{
    ref_slot old = *a;
    *a = *b;
    if (random_one_in(2)) *b = old;
}

static void change_table(ref_table *table, ref_slot *s)
{
    switch (random_below(14)) {
    case 0: case 1: case 2: change_byte(table); break;
    case 3: case 4: case 5: case 6: set_edge(table, s); break;
    case 7: case 8: case 9: set_relation(table, s); break;
    case 10: exchange(s, &table->slots[random_below(SLOTS)]); break;
    case 11: case 12: move_partition(s); break;
    default: if (random_one_in(4)) change_all(table); else set_edge(table, s); break;
    }
}

/* Half of the changed tables get their free bytes counted anew: only the rest can then be wrong. */
void table_damage(ref_table *table)
{
    if (random_one_in(6)) {
        set_free_bytes(table);
        return;
    }
    change_table(table, &table->slots[random_below(SLOTS)]);
    if (random_one_in(2)) table_count_free(table);
}
