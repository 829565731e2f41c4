#include "random_machines.h"
#include "programs.h"
#include "random.h"
#include "machine_pair.h"
#include <inttypes.h>
#include <stdio.h>
#include <string.h>

/* small ones, ones about a page's end, and any up to the largest */
static uint16_t random_window(void)
{
    switch (random_below(8)) {
    case 0: return (uint16_t)(1 + random_below(8));
    case 1: return (uint16_t)(8192 * (1 + random_below(4)) - 4 + random_below(8) - (random_one_in(2) ? 0 : 1));
    case 2: return (uint16_t)(1 + random_below(32768));
    case 3: return 32768;
    default: return (uint16_t)(16 + random_below(600));
    }
}

static uint16_t random_capacity(void)
{
    return (uint16_t)(random_one_in(8) ? 1 + random_below(4096) : 1 + random_below(24));
}

/* Nothing in a quarter of the windows; else any front, or about the window's end. The product takes a number above the window too: then
 * every store inside it is to a locked byte. */
static uint16_t random_lock(uint16_t window)
{
    switch (random_below(8)) {
    case 0: case 1: return 0;
    case 2: return (uint16_t)(window - 1 + random_below(3));
    case 3: return random_one_in(4) ? 65535 : (uint16_t)random_below(65536);
    default: return (uint16_t)(1 + random_below(window));
    }
}

static layout random_layout(void)
{
    uint16_t window = random_window();
    if (window > 32768) window = 32768;
    return (layout){ window, random_capacity(), random_capacity(), random_lock(window) };
}

static void random_code(uint8_t *p, size_t n)
{
    for (size_t i = 0; i < n; i++) {
        p[i] = (uint8_t)random64();
        while (code_stops_at_once(p[i]) && !random_one_in(16)) p[i] = (uint8_t)random64();
    }
}

/* STRA to a byte on either side of the lock's end: direct, indirect, or indexed in one of three ways. */
static void put_store(uint8_t *p, uint16_t locked)
{
    const uint16_t address = (uint16_t)(locked - 2 + random_below(4));
    const uint8_t how = (uint8_t)(random_below(4) << 5 | (random_one_in(4) ? 0x80 : 0));
    p[0] = (uint8_t)(0xCC + random_below(4));
    p[1] = (uint8_t)((address >> 8 & 0x1F) | (random_one_in(2) ? 0 : how));
    p[2] = (uint8_t)address;
}

/* Stores here and there: in random bytes few are near the lock's end. */
static void put_stores(uint8_t *window, const layout *sizes)
{
    if (!sizes->locked || sizes->window < 3) return;
    for (size_t n = sizes->window / 24u + 1; n; n--) put_store(window + random_below(sizes->window - 2u), sizes->locked);
}

/* anywhere, most often inside the window, often where a page ends */
static uint16_t random_address(const machine_pair *t)
{
    if (random_one_in(16)) return (uint16_t)random_below(32768);
    if (random_one_in(4)) return (uint16_t)((8192 * (1 + random_below(4)) - 3 + random_below(6)) % 32768);
    return (uint16_t)random_below(t->layout.window);
}

/* statuses 3 and 4 as a sound machine has them: nothing unread, output full */
static uint8_t random_status(ref2650 *m)
{
    if (!random_one_in(32)) return ST_RUN;
    uint8_t status = (uint8_t)(1 + random_below(ST_LOCKED));
    if (status == ST_WANTS) m->read = m->filled;
    if (status == ST_FULL) m->written = m->output;
    return status;
}

/* any sound state */
static void random_machine(machine_pair *t)
{
    ref2650 *m = &t->reference;
    m->pc = random_address(t);
    m->r0 = (uint8_t)random64();
    random_bytes(&m->bank[0][0], sizeof m->bank);
    m->psu = (uint8_t)(random64() & PSU_STORED);
    m->psl = (uint8_t)random64();
    for (int i = 0; i < 8; i++) m->ras[i] = random_address(t);
    m->filled = (uint16_t)random_below(m->input + 1u);
    m->read = (uint16_t)random_below(m->filled + 1u);
    m->written = (uint16_t)random_below(m->output + 1u);
    m->status = random_status(m);
}

typedef struct {
    uint64_t cases, machines, pieces, steps, stopped[ST_LOCKED + 1];
    uint8_t met[256];  /* first bytes of instructions with which a piece began */
} counts;

static void note_code(const machine_pair *t, counts *n)
{
    const ref2650 *m = &t->reference;
    if (m->status == ST_RUN && m->pc < m->window) n->met[m->window_bytes[m->pc]] = 1;
}

/* Pieces of random length until the machine stops or a few are done. */
static const char *run_pieces(machine_pair *t, counts *n)
{
    size_t left = 1 + random_below(12);
    do {
        uint64_t quantum = random_one_in(8) ? random_below(256) : random_below(12);
        uint64_t rounds = random_one_in(8) ? random_below(20) : random_below(4);
        note_code(t, n);
        n->steps += machine_pair_run(t, quantum, rounds);
        n->pieces++;
        const char *what = machine_pair_difference(t);
        if (what) return what;
    } while (--left && t->reference.status == ST_RUN);
    return NULL;
}

/* One case: a window, and machines started in it one after the other, each in what the last one left. */
static const char *run_case(uint64_t seed, counts *n)
{
    random_seed(seed);
    machine_pair t = machine_pair_new(random_layout(), random_below(3) * random_below(40));
    if (random_one_in(4)) random_bytes(t.reference.window_bytes, t.layout.window);
    else random_code(t.reference.window_bytes, t.layout.window);
    if (random_one_in(2)) put_stores(t.reference.window_bytes, &t.layout);
    random_bytes(t.reference.input_bytes, (size_t)t.layout.input + t.layout.output);
    unsigned machines = t.layout.window > 1000 ? 200 : 20;
    const char *what = NULL;
    while (machines-- && !what) {
        random_machine(&t);
        machine_pair_copy_to_product(&t);
        what = run_pieces(&t, n);
        n->machines++;
        n->stopped[t.reference.status]++;
    }
    n->cases++;
    machine_pair_free(&t);
    return what;
}

static void print_counts(uint64_t seed, const counts *n)
{
    int met = 0;
    for (int i = 0; i < 256; i++) met += n->met[i];
    printf("%" PRIu64 " steps from seed %" PRIu64 ": no difference\n", n->steps, seed);
    printf("%" PRIu64 " windows, %" PRIu64 " machines, %" PRIu64 " pieces compared; %d of 256 codes began a piece\n",
           n->cases, n->machines, n->pieces, met);
    printf("ended with status");
    for (int i = ST_RUN; i <= ST_LOCKED; i++) printf(" %d: %" PRIu64 "%s", i, n->stopped[i], i < ST_LOCKED ? "," : "\n");
}

int random_machines(uint64_t seed, uint64_t steps)
{
    counts n;
    memset(&n, 0, sizeof n);
    do {
        const char *what = run_case(seed + n.cases, &n);
        if (what) {
            printf("DIFFERENT: %s, after %" PRIu64 " steps in all\nagain: make machines SEED=%" PRIu64 " STEPS=1\n",
                   what, n.steps, seed + n.cases - 1);
            return 1;
        }
    } while (n.steps < steps);
    print_counts(seed, &n);
    return 0;
}
