/* Random lists of calls on random systems, through the entry points and the reference, compared after every call.
 *
 *     differential SEED CALLS [STEPS]    at least so many calls, and then on to at least so many steps
 *
 * Each list starts from its own seed, which is made of the last one's: one list alone can be run again by its seed. */
#include "calls.h"
#include "codec.h"
#include "product_level.h"
#include "random.h"
#include "tables.h"
#include <inttypes.h>
#include <signal.h>
#include <stdio.h>
#include <stdlib.h>
#include <string.h>

/* A run of so many calls must have met each refusal that the header lists at each call, and each status. */
enum { FULL_RUN = 200000, STATUSES = ST_LOCKED + 1 };

typedef struct {
    uint64_t seed, calls, steps;
} run_length;

typedef struct {
    uint64_t lists, calls, steps, damaged, still_sound, written_from_outside, loaded_where_fitted, loaded_with_lock;
    uint64_t uncounted, unlocked;   /* tables of earlier versions taken over, without the free bytes, and with them but no lock */
    uint64_t met[CALL_KINDS][REFUSAL_COUNT];
    uint64_t statuses[STATUSES];    /* of all slots after each pf_run that was done */
} counts;

/* ---- systems */

static size_t random_memory_length(void)
{
    switch (random_below(12)) {
    case 0: return random_between(1, 64);
    case 1: return 65536;
    case 2: return random_between(1, 65536);
    default: return random_between(300, 9000);
    }
}

static void copy_table_to_product(system_pair *both)
{
    encode_table(&both->reference_table, both->table.reference);
    buffer_pair_copy_to_product(&both->table);
}

/* A memory of random bytes; a table of random bytes, which is most likely not sound, or a sound one. */
static system_pair system_pair_new(int sound)
{
    system_pair both;
    both.table = buffer_pair_random("table", PF_TABLE_BYTES);
    both.memory = buffer_pair_random("memory", random_memory_length());
    decode_table(both.table.reference, &both.reference_table);
    if (sound) {
        table_random(&both.reference_table, both.memory.reference, both.memory.length);
        buffer_pair_copy_to_product(&both.memory);
        copy_table_to_product(&both);
    }
    return both;
}

static void system_pair_free(system_pair *both)
{
    buffer_pair_free(&both->table);
    buffer_pair_free(&both->memory);
}

/* ---- what happens between calls */

/* The host changes some bytes of the memory: anywhere, or where a machine is. */
static void write_from_outside(system_pair *both)
{
    const ref_slot *s = &both->reference_table.slots[random_below(SLOTS)];
    size_t at = random_one_in(2) ? random_below(both->memory.length) : s->base + (size_t)s->pc;
    size_t n = random_between(1, 16);
    for (size_t i = at; i < at + n && i < both->memory.length; i++) both->memory.reference[i] = (uint8_t)random64();
    buffer_pair_copy_to_product(&both->memory);
}

static void change_from_outside(system_pair *both, counts *n)
{
    if (random_one_in(10)) {
        write_from_outside(both);
        n->written_from_outside++;
    }
    if (random_one_in(14)) {
        table_damage(&both->reference_table);
        copy_table_to_product(both);
        n->damaged++;
        n->still_sound += ref_sound(&both->reference_table);
    }
}

/* After a call the list goes on with the table, if it is sound and for this memory, or with the last one that was
 * (`last_sound`). A new table for another length gets a memory of it. */
static void keep_sound_table(system_pair *both, const call *c, uint8_t last_sound[PF_TABLE_BYTES])
{
    if (c->kind == CALL_NEW && !c->refusal && c->length != both->memory.length) {
        buffer_pair_free(&both->memory);
        both->memory = buffer_pair_random("memory", c->length);
    }
    if (ref_sound(&both->reference_table) && both->reference_table.memory_length == both->memory.length) {
        encode_table(&both->reference_table, last_sound);
    } else {
        decode_table(last_sound, &both->reference_table);
        copy_table_to_product(both);
    }
}

/* ---- how to see a difference again */

/* what runs now: a call that does not return must be told too */
static struct {
    const char *program;
    enum call_kind kind;
    uint64_t seed, calls, list_seed, list_calls;
} current;

static void print_how_to_repeat(void)
{
    printf("seed %" PRIu64 ", call %" PRIu64 "\n", current.seed, current.calls);
    printf("again: %s %" PRIu64 " %" PRIu64 "\n", current.program, current.seed, current.calls);
    printf("its list alone: %s %" PRIu64 " %" PRIu64 "\n", current.program, current.list_seed, current.list_calls);
}

static void print_difference(const call *c, const difference *d)
{
    printf("DIFFERENT: ");
    call_print(c);
    printf("%s", d->where);
    if (d->at != NO_OFFSET) printf(", byte %zu", d->at);
    printf(": %s", d->what);
    if (d->product != d->expected) printf(": product %02X, expected %02X (hexadecimal)", d->product, d->expected);
    printf("\n");
    print_how_to_repeat();
}

/* After a fault there is nothing to go on with, and all that is printed stands in `current`. */
static void fault(int number)
{
    printf("DIFFERENT: %s ended by signal %d\n", call_names[current.kind], number);
    print_how_to_repeat();
    fflush(stdout);
    _Exit(1);
}

static void catch_faults(void)
{
    static const int faults[] = { SIGSEGV, SIGILL, SIGFPE, SIGABRT };
    for (size_t i = 0; i < sizeof faults / sizeof faults[0]; i++) signal(faults[i], fault);
}

/* ---- lists of calls */

static enum call_kind random_kind(const ref_table *table)
{
    static const uint8_t shares[CALL_KINDS] = { 1, 21, 8, 11, 11, 22, 4, 4, 5, 4, 2, 2, 2, 3 };
    size_t n = random_below(100), k = 0, taken = 0;
    while (n >= shares[k]) n -= shares[k++];
    for (size_t i = 0; i < SLOTS; i++) taken += table->slots[i].status != ST_EMPTY;
    return k == CALL_LOAD && taken == SLOTS && !random_one_in(4) ? CALL_UNLOAD : (enum call_kind)k;
}

static void count(const call *c, const system_pair *both, counts *n)
{
    n->calls++;
    n->steps += c->steps;
    n->met[c->kind][c->refusal % REFUSAL_COUNT]++;
    n->loaded_where_fitted += c->fitted && !c->refusal;
    n->loaded_with_lock += c->kind == CALL_LOAD && !c->refusal && both->reference_table.slots[c->slot].locked;
    n->uncounted += c->taken_over == PF_UNCOUNTED_TABLE_BYTES;
    n->unlocked += c->taken_over == PF_UNLOCKED_TABLE_BYTES;
    if (c->kind != CALL_RUN || c->refusal) return;
    for (size_t k = 0; k < SLOTS; k++) n->statuses[both->reference_table.slots[k].status]++;
}

static int enough(const counts *n, const run_length *w) { return n->calls >= w->calls && n->steps >= w->steps; }

static int make_and_compare_call(system_pair *both, enum call_kind kind, uint8_t *last_sound, counts *n)
{
    call c;
    current.kind = kind;
    current.calls++;
    current.list_calls++;
    call_make(&c, kind, both);
    difference d = call_difference(&c, both);
    count(&c, both, n);
    if (d.what) print_difference(&c, &d);
    else keep_sound_table(both, &c, last_sound);
    call_free(&c);
    return d.what == NULL;
}

/* Answers whether all calls were alike; it ends with the first that is not. */
static int run_list(uint64_t seed, const run_length *w, counts *n)
{
    random_seed(seed);
    current.list_seed = seed;
    current.list_calls = 0;
    int sound = random_one_in(2);
    uint8_t last_sound[PF_TABLE_BYTES];
    system_pair both = system_pair_new(sound);
    ref_table empty;
    ref_new(&empty, both.memory.length);
    encode_table(sound ? &both.reference_table : &empty, last_sound);
    int alike = sound || make_and_compare_call(&both, CALL_NEW, last_sound, n);
    for (size_t left = random_between(20, 300); left && alike && !enough(n, w); left--) {
        change_from_outside(&both, n);
        alike = make_and_compare_call(&both, random_kind(&both.reference_table), last_sound, n);
    }
    system_pair_free(&both);
    n->lists++;
    return alike;
}

/* a linear congruence with the full period: seeds that lie close together have lists that do not */
static uint64_t next_seed(uint64_t seed) { return seed * 6364136223846793005u + 1442695040888963407u; }

/* ---- the summary */

static void print_row(const char *name, const uint64_t row[REFUSAL_COUNT])
{
    uint64_t all = 0;
    for (size_t r = 0; r < REFUSAL_COUNT; r++) all += row[r];
    printf("%-10s%9" PRIu64, name, all);
    for (size_t r = 0; r < REFUSAL_COUNT; r++) printf(" %6" PRIu64, row[r]);
    printf("\n");
}

static void print_counts(const run_length *w, const counts *n)
{
    uint64_t all[REFUSAL_COUNT] = { 0 };
    printf("seed %" PRIu64 ": %" PRIu64 " calls in %" PRIu64 " lists, at least %" PRIu64 " steps: no difference\n",
           w->seed, n->calls, n->lists, n->steps);
    printf("%-10s%9s", "refusal", "all");
    for (int r = 0; r < REFUSAL_COUNT; r++) printf(" %6d", r);
    printf("\n");
    for (int k = 0; k < CALL_KINDS; k++) {
        print_row(call_names[k], n->met[k]);
        for (int r = 0; r < REFUSAL_COUNT; r++) all[r] += n->met[k][r];
    }
    print_row("all", all);
    printf("slots after pf_run, by status:");
    for (int s = 0; s < STATUSES; s++) printf(" %d: %" PRIu64 "%s", s, n->statuses[s], s + 1 < STATUSES ? "," : "\n");
    printf("loaded where pf_fit said: %" PRIu64 " times; loaded with locked bytes: %" PRIu64 " times\n", n->loaded_where_fitted,
           n->loaded_with_lock);
    printf("tables of earlier versions taken over by pf_upgrade: %" PRIu64 " of %d bytes, %" PRIu64 " of %d\n", n->uncounted,
           PF_UNCOUNTED_TABLE_BYTES, n->unlocked, PF_UNLOCKED_TABLE_BYTES);
    printf("tables damaged: %" PRIu64 ", of these still sound: %" PRIu64 "\n", n->damaged, n->still_sound);
    printf("memory written from outside: %" PRIu64 " times\n", n->written_from_outside);
}

/* Each refusal is met at the calls that the header lists it for, in a full run, and at no other. */
static int refusals_missing(const counts *n)
{
    int missing = 0;
    for (int k = 0; k < CALL_KINDS; k++)
        for (int r = 0; r < REFUSAL_COUNT; r++) {
            int listed = call_refusals[k] >> r & 1, met = n->met[k][r] != 0;
            if (met ? listed : !listed || n->calls < FULL_RUN) continue;
            printf("%s: %s %d\n", met ? "NOT LISTED IN THE HEADER" : "NOT MET", call_names[k], r);
            missing = 1;
        }
    return missing;
}

static int statuses_missing(const counts *n)
{
    int missing = 0;
    for (int s = 0; s < STATUSES && n->calls >= FULL_RUN; s++)
        if (!n->statuses[s]) {
            printf("NOT MET: status %d\n", s);
            missing = 1;
        }
    return missing;
}

static int upgrades_missing(const counts *n)
{
    if ((n->uncounted && n->unlocked) || n->calls < FULL_RUN) return 0;
    printf("NOT MET: a table of each earlier version taken over\n");
    return 1;
}

static int compare(const char *program, const run_length *w)
{
    static counts n;
    current.program = program;
    current.seed = w->seed;
    for (uint64_t seed = w->seed; !enough(&n, w); seed = next_seed(seed))
        if (!run_list(seed, w, &n)) return 1;
    print_counts(w, &n);
    return refusals_missing(&n) | statuses_missing(&n) | upgrades_missing(&n);
}

int main(int argc, char **argv)
{
    if (argc < 3 || argc > 4) {
        fprintf(stderr, "usage: %s SEED CALLS [STEPS]\n", argv[0]);
        return 2;
    }
    run_length w = { strtoull(argv[1], NULL, 10), strtoull(argv[2], NULL, 10),
                     argc > 3 ? strtoull(argv[3], NULL, 10) : 0 };
    ref_level = PRODUCT_LEVEL;
    catch_faults();
    return compare(argv[0], &w);
}
