/* Times two versions of the archive on the bench runs of crate `vectors`: this one, and another whose pf_listing is linked as
 * other_pf_listing.
 *
 *     versions DATA     prints the times of both, for runs of few and of many instructions, and how many texts differ. The times
 *                       leave such runs out: there the two versions do different work
 *
 * Both versions make each run by turns. A turn repeats the run so often that a trial at the start was long enough to time. A run's
 * time is its best turn. */
#define _POSIX_C_SOURCE 200809L
#include "pattern_floor.h"
#include "product_level.h"
#include "seconds.h"
#include "stored_runs.h"
#include <stdio.h>
#include <stdlib.h>
#include <string.h>

pf_answer other_pf_listing(const uint8_t *file, size_t file_length, uint8_t *memory, size_t memory_length,
                           uint8_t *text, size_t text_length);

enum { TURNS = 200, ROUNDS = 1000 };
static const double shortest_turn = 50e-6;

typedef pf_answer listing_call(const uint8_t *, size_t, uint8_t *, size_t, uint8_t *, size_t);

typedef struct {
    uint64_t steps;
    unsigned repetitions;       /* in a turn */
    double other, this;         /* seconds of the best turn, for one run */
    int text_differs;
} timed_run;

/* Runs by the instructions that they make. */
typedef struct {
    const char *name;
    uint64_t least, most;
} group;

static const group groups[] = {
    { "refused, or stopped at once", 0, 1 },
    { "2 to 99 instructions", 2, 99 },
    { "100 to 9,999", 100, 9999 },
    { "10,000 and more", 10000, UINT64_MAX },
    { "all", 0, UINT64_MAX },
};

static uint8_t file[STORED_FILE_MOST], memory[PF_LISTING_MEMORY], text[PF_LISTING_BYTES];
static timed_run timed[STORED_RUNS_MOST];

/* The steps of a run, whose file is in `file`. The reference counts them: a bench run makes 1,000 rounds at most. */
static uint64_t steps_of(const stored_run *r)
{
    static uint8_t partition[PF_LISTING_MEMORY];
    if (r->refusal) return 0;
    memset(partition, 0, sizeof partition);
    memcpy(partition, file + r->code_at, r->code_length);
    memcpy(partition + r->window, file + r->input_at, r->input_length);
    ref2650 m;
    memset(&m, 0, sizeof m);
    m.window = r->window;
    m.input = r->input;
    m.output = r->output;
    m.locked = r->locked;
    m.window_bytes = partition;
    m.input_bytes = partition + r->window;
    m.output_bytes = partition + r->window + r->input;
    ref_machine_fresh(&m, r->start);
    m.filled = r->input_length;
    return ref_machine_run(&m, (uint64_t)ROUNDS * r->quantum);
}

static size_t make_run(listing_call *version, size_t length)
{
    return pf_count(version(file, length, memory, sizeof memory, text, sizeof text));
}

static int text_differs(size_t length)
{
    static uint8_t other_text[PF_LISTING_BYTES];
    size_t other_length = make_run(other_pf_listing, length);
    memcpy(other_text, text, other_length);
    return make_run(pf_listing, length) != other_length || memcmp(text, other_text, other_length);
}

/* Seconds of a turn. */
static double take_turn(listing_call *version, size_t length, unsigned repetitions)
{
    double start = seconds_now();
    for (unsigned i = 0; i < repetitions; i++) make_run(version, length);
    return seconds_now() - start;
}

/* Finds how often a turn repeats the run. */
static void begin(timed_run *t, const stored_run *r)
{
    size_t length = stored_run_file(r, file);
    *t = (timed_run){ steps_of(r), 1, 1e9, 1e9, text_differs(length) };
    while (take_turn(other_pf_listing, length, t->repetitions) < shortest_turn
           || take_turn(pf_listing, length, t->repetitions) < shortest_turn)
        t->repetitions *= 2;
}

/* A turn that counts. */
static void take_counted_turn(double *best, listing_call *version, size_t length, unsigned repetitions)
{
    double seconds = take_turn(version, length, repetitions) / repetitions;
    if (seconds < *best) *best = seconds;
}

/* The second finds other bytes in the caches than the first, so each version goes first every other turn. */
static void take_turns(timed_run *t, const stored_run *r, int turn)
{
    size_t length = stored_run_file(r, file);
    if (turn % 2) take_counted_turn(&t->this, pf_listing, length, t->repetitions);
    take_counted_turn(&t->other, other_pf_listing, length, t->repetitions);
    if (turn % 2 == 0) take_counted_turn(&t->this, pf_listing, length, t->repetitions);
}

static int ascending(const void *a, const void *b)
{
    double x = *(const double *)a, y = *(const double *)b;
    return (x > y) - (x < y);
}

static void print_group(const group *g, size_t count)
{
    static double ratios[STORED_RUNS_MOST];
    double others = 0, these = 0, steps = 0;
    size_t n = 0;
    for (size_t k = 0; k < count; k++) {
        const timed_run *t = &timed[k];
        if (t->text_differs || t->steps < g->least || t->steps > g->most) continue;
        others += t->other;
        these += t->this;
        steps += (double)t->steps;
        ratios[n++] = t->other / t->this;
    }
    printf("%-28s %4zu %9.0f", g->name, n, steps);
    if (!n) {
        printf("\n");
        return;
    }
    qsort(ratios, n, sizeof ratios[0], ascending);
    printf("  %9.1f %9.1f   %6.3f   %5.2f %5.2f %5.2f\n", others * 1e6, these * 1e6, others / these,
           ratios[0], ratios[n / 2], ratios[n - 1]);
}

static void print_times(size_t count)
{
    size_t different = 0;
    for (size_t k = 0; k < count; k++) different += (size_t)timed[k].text_differs;
    printf("%zu bench runs by pf_listing, the best of %d turns each; %zu texts differ, and their runs are left out. Microseconds of\n"
           "the other version and of this one, all runs of a row together; other / this, of these sums and of single runs: least,\n"
           "median, most.\n\n",
           count, TURNS, different);
    printf("%-28s %4s %9s  %9s %9s   %6s   %5s %5s %5s\n", "", "runs", "steps", "other", "this", "ratio", "least", "med.", "most");
    for (size_t k = 0; k < sizeof groups / sizeof groups[0]; k++) print_group(&groups[k], count);
}

int main(int argc, char **argv)
{
    const stored_run *runs;
    ref_level = PRODUCT_LEVEL;
    if (argc != 2) {
        fprintf(stderr, "usage: versions DATA\n");
        return 2;
    }
    size_t count = stored_runs_read(argv[1], &runs);
    if (!count) return 2;
    for (size_t k = 0; k < count; k++) begin(&timed[k], &runs[k]);
    /* sweeps over all runs: another program's busy second then spoils no run's time */
    for (int turn = 0; turn < TURNS; turn++)
        for (size_t k = 0; k < count; k++) take_turns(&timed[k], &runs[k], turn);
    print_times(count);
    return 0;
}
