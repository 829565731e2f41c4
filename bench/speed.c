#define _POSIX_C_SOURCE 200809L
#include "speed.h"
#include "seconds.h"
#include "timed_systems.h"
#include <dirent.h>
#include <stdio.h>
#include <stdlib.h>
#include <string.h>

/* A machine alone, and rounds of 1, 2 and 8 slots: each at quanta of 255 and of 1. */
enum { QUANTA = 2, SETUPS = 4, ALONE = 0, SWEEPS = 20, RUNS = 21, STEPS = 60000, CALLS = 1000, MAX_PATTERNS = 64 };
static const uint8_t quanta[QUANTA] = { 255, 1 };
static const unsigned slots_in_setup[SETUPS] = { 0, 1, 2, 8 };

typedef struct {
    double reference, product;  /* seconds of the best run so far */
    double steps;
} timing;

typedef struct {
    char name[64];
    pattern pattern;
    timing timings[QUANTA][SETUPS];
    const char *different;
    int not_timed;
} row;

static row rows[MAX_PATTERNS];

/* Calls of pf_run that run nothing. */
static struct {
    timing best;
    const char *different;
    int not_timed;
} no_rounds = { { 1e9, 1e9, 0 }, NULL, 0 };

static void keep_best(timing *best, double start, double middle, double end)
{
    if (middle - start < best->reference) best->reference = middle - start;
    if (end - middle < best->product) best->product = end - middle;
}

static void time_alone(row *r, unsigned quantum, timing *best)
{
    uint64_t rounds = STEPS / quantum;
    machine_pair t = machine_pair_new(r->pattern.layout, 0);
    best->steps = (double)(rounds * quantum);
    for (int i = 0; i < RUNS && !r->different; i++) {
        pattern_load(&r->pattern, &t);
        double start = seconds_now();
        for (uint64_t k = 0; k < rounds; k++) ref_machine_run(&t.reference, quantum);
        double middle = seconds_now();
        pf_machine_run(t.state.bytes, t.state.length, t.partition.bytes, t.partition.length,
                       t.layout.window, t.layout.input, t.layout.output, t.layout.locked, quantum, rounds);
        keep_best(best, start, middle, seconds_now());
        r->different = machine_pair_difference(&t);
    }
    r->not_timed |= t.reference.status != ST_RUN;
    machine_pair_free(&t);
}

static void time_rounds(row *r, unsigned quantum, unsigned slots, timing *best)
{
    static timed_systems loaded, both;
    uint16_t rounds = (uint16_t)(STEPS / (quantum * slots));
    best->steps = (double)rounds * quantum * slots;
    if (!timed_systems_load(&loaded, &r->pattern, slots, (uint8_t)quantum)) {
        r->not_timed = 1;
        return;
    }
    for (int i = 0; i < RUNS && !r->different; i++) {
        both = loaded;
        double start = seconds_now();
        ref_run(&both.reference_table, both.reference_memory, sizeof both.reference_memory, rounds);
        double middle = seconds_now();
        pf_run(both.table, sizeof both.table, both.memory, sizeof both.memory, rounds);
        keep_best(best, start, middle, seconds_now());
        r->different = timed_systems_difference(&both);
    }
    r->not_timed |= !timed_systems_running(&both, slots);
}

static void time_row(row *r)
{
    for (int q = 0; q < QUANTA; q++)
        for (int setup = 0; setup < SETUPS; setup++) {
            timing *best = &r->timings[q][setup];
            if (setup == ALONE) time_alone(r, quanta[q], best);
            else time_rounds(r, quanta[q], slots_in_setup[setup], best);
        }
}

/* What a call costs before its first round: eight slots are loaded, and 0 rounds asked for. One call is too short for the clock. */
static void time_no_rounds(const pattern *p)
{
    static timed_systems loaded, both;
    no_rounds.not_timed |= !timed_systems_load(&loaded, p, PF_SLOTS, quanta[0]);
    for (int i = 0; i < RUNS && !no_rounds.not_timed && !no_rounds.different; i++) {
        pf_answer answers = 0, reference_answers = 0;
        both = loaded;
        double start = seconds_now();
        for (int k = 0; k < CALLS; k++)
            reference_answers |= (pf_answer)ref_run(&both.reference_table, both.reference_memory, sizeof both.reference_memory, 0);
        double middle = seconds_now();
        for (int k = 0; k < CALLS; k++) answers |= pf_run(both.table, sizeof both.table, both.memory, sizeof both.memory, 0);
        keep_best(&no_rounds.best, start, middle, seconds_now());
        no_rounds.different = answers || reference_answers ? "an answer"
            : memcmp(both.table, loaded.table, sizeof both.table) ? "a byte of the table" : timed_systems_difference(&both);
    }
}

static double ratio(const timing *t) { return t->reference / t->product; }
static double rate(const timing *t, double seconds) { return t->steps / seconds / 1e6; }

static int print_row(const row *r)
{
    printf("%-10s", r->name);
    if (r->different) {
        printf(" DIFFERENT: %s\n", r->different);
        return 1;
    }
    if (r->not_timed) {
        printf(" stops early, or does not fit: compared, not timed\n");
        return 0;
    }
    for (int q = 0; q < QUANTA; q++) {
        for (int setup = 0; setup < SETUPS; setup++) printf(" %5.2f", ratio(&r->timings[q][setup]));
        printf("  ");
    }
    const timing *alone = &r->timings[0][ALONE];
    for (int setup = 1; setup < SETUPS; setup++) {
        const timing *t = &r->timings[0][setup];
        printf(" %5.2f", rate(t, t->product) / rate(alone, alone->product));
    }
    printf("  ");
    for (int q = 0; q < QUANTA; q++) {
        const timing *t = &r->timings[q][ALONE];
        printf("  %4.0f (%4.0f)", rate(t, t->product), rate(t, t->reference));
    }
    printf("\n");
    return 0;
}

static double nanoseconds_of_call(double seconds) { return seconds / CALLS * 1e9; }

static int print_no_rounds(void)
{
    const timing *t = &no_rounds.best;
    printf("\npf_run of 0 rounds, 8 slots loaded:");
    if (no_rounds.different) printf(" DIFFERENT: %s\n", no_rounds.different);
    else if (no_rounds.not_timed) printf(" the first pattern does not fit eight times: not timed\n");
    else printf(" %.2f; nanoseconds of a call of the product (of the reference): %.0f (%.0f)\n", ratio(t),
                nanoseconds_of_call(t->product), nanoseconds_of_call(t->reference));
    return no_rounds.different != NULL;
}

static void print_head(void)
{
    printf("Product / reference, for a machine alone and for rounds of 1, 2 and 8 slots; the product's rounds / its machine alone; and\n"
           "millions of instructions a second of a machine alone, of the product (of the reference).\n\n");
    printf("%-10s %-24s   %-24s   %-18s   %-11s  %-11s\n", "", "quantum 255", "quantum 1", "rounds/alone, 255", "at 255", "at 1");
    printf("%-10s alone   x 1   x 2   x 8   alone   x 1   x 2   x 8     x 1   x 2   x 8\n", "");
}

static int is_pattern(const struct dirent *e)
{
    size_t n = strlen(e->d_name);
    return n > 4 && n - 4 < sizeof rows[0].name && !strcmp(e->d_name + n - 4, ".pat");
}

static int read_row(row *r, const char *directory, const char *name)
{
    char path[4096];
    snprintf(path, sizeof path, "%s/%s", directory, name);
    snprintf(r->name, sizeof r->name, "%.*s", (int)(strlen(name) - 4), name);
    for (int q = 0; q < QUANTA; q++)
        for (int setup = 0; setup < SETUPS; setup++) r->timings[q][setup] = (timing){ 1e9, 1e9, 0 };
    if (pattern_read(path, &r->pattern)) return 1;
    fprintf(stderr, "%s: not a pattern file\n", path);
    return 0;
}

int speed(const char *directory)
{
    struct dirent **names;
    int found = scandir(directory, &names, is_pattern, alphasort), failed = 0;
    if (found < 0) {
        perror(directory);
        return 2;
    }
    int count = found < MAX_PATTERNS ? found : MAX_PATTERNS;
    for (int i = 0; i < count; i++)
        if (!read_row(&rows[i], directory, names[i]->d_name)) return 2;
    /* several sweeps over all patterns: another program's busy second then spoils no pattern's number */
    for (int sweep = 0; sweep < SWEEPS; sweep++) {
        for (int i = 0; i < count; i++) time_row(&rows[i]);
        time_no_rounds(&rows[0].pattern);
    }
    print_head();
    for (int i = 0; i < count; i++) failed |= print_row(&rows[i]);
    failed |= print_no_rounds();
    for (int i = 0; i < found; i++) free(names[i]);
    free(names);
    return failed;
}
