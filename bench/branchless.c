/* Checks that the compiled machine has no branch on the way from a result byte to CC. It runs each instruction with several bytes,
 * in both archives, follows the processor instruction by instruction, and compares the paths.
 *
 *     branchless     prints the cases that fail, and a line for each archive. Answers 1 if a case fails, or if no path is followed
 *
 * For x86-64 and Linux: the processor's trap flag raises a signal after each instruction. */
#define _GNU_SOURCE
#include "pattern_floor.h"
#include <signal.h>
#include <stdint.h>
#include <stdio.h>
#include <string.h>
#include <ucontext.h>

/* A partition: five instructions set R1, R0, PSL and PSU, and the followed one comes next. The last byte of the window is data.
 * Input and output have a byte each. */
enum {
    WINDOW = 32, INPUT = 1, OUTPUT = 1, PARTITION = WINDOW + INPUT + OUTPUT,
    STEPS_BEFORE = 5, AT_R1 = 1, AT_R0 = 3, AT_PSL = 7, AT_PSU = 9, AT_CODE = 10, AT_OPERAND = 11, AT_DATA = WINDOW - 1, AT_INPUT = WINDOW
};
static const uint8_t first_code[] = { 0x05, 0 /* R1 */, 0x04, 0 /* R0 */, 0x75, 0xFF, 0x77, 0 /* PSL */, 0x76, 0 /* PSU */ };

/* Bits of PSL and of PSU; then each CC as a bit, so that a number can be a set of them. */
enum { RS = 0x10, IDC = 0x20, WC = 0x08, C = 0x01, CC_SHIFT = 6, PSU_BITS = 0x67 };
enum { ZERO = 1, POSITIVE = 2, NEGATIVE = 4, ANY = ZERO | POSITIVE | NEGATIVE };

/* An instruction, with R0 and PSL before it; the place that gets the byte, and which of its bits. */
typedef struct {
    char name[24];
    uint8_t code[3], r0, psl;
    size_t place;
    uint8_t mask;
    unsigned ccs;               /* the CC of all results together */
} instruction;

/* The operations on R0 and an operand: if one of the two is 0, or FFh for AND, the other is the result. So a sum never carries, and a
 * difference never borrows. But for SUB, Sum::of makes a second test if the result is 0: if SUB alone fails, look there. */
static const struct {
    const char *name;
    uint8_t code, r0, carry_in;
    int uses_wc, byte_in_r0;
} operations[] = {
    { "LOD", 0x00, 0, 0, 0, 0 }, { "EOR", 0x20, 0, 0, 0, 0 }, { "AND", 0x40, 0xFF, 0, 0, 0 },
    { "IOR", 0x60, 0, 0, 0, 0 }, { "ADD", 0x80, 0, 0, 1, 0 }, { "SUB", 0xA0, 0, C, 1, 1 },
};

/* Where an operand is: in R1, in the instruction, at a displacement from the instruction's end, at an address. */
static const struct {
    char letter;
    uint8_t code[3];
    size_t place;
} modes[] = {
    { 'Z', { 0x01, 0, 0 }, AT_R1 },
    { 'I', { 0x04, 0, 0 }, AT_OPERAND },
    { 'R', { 0x08, AT_DATA - (AT_CODE + 2), 0 }, AT_DATA },
    { 'A', { 0x0C, 0, AT_DATA }, AT_DATA },
};

static const instruction others[] = {
    { "LODZ of R0", { 0x00, 0, 0 }, 0, 0, AT_R0, 0xFF, ANY },
    { "STRZ", { 0xC1, 0, 0 }, 0, 0, AT_R0, 0xFF, ANY },
    { "RRL", { 0xD0, 0, 0 }, 0, 0, AT_R0, 0xFF, ANY },
    { "RRL with WC", { 0xD0, 0, 0 }, 0, WC, AT_R0, 0xFF, ANY },
    { "RRR", { 0x50, 0, 0 }, 0, 0, AT_R0, 0xFF, ANY },
    /* C becomes the sign, so a case of its own sets C */
    { "RRR with WC", { 0x50, 0, 0 }, 0, WC, AT_R0, 0xFF, ZERO | POSITIVE },
    { "RRR with WC, by C", { 0x50, 0, 0 }, 0, WC, AT_PSL, C, ZERO | NEGATIVE },
    /* IDC and C are 1, so no digit is adjusted: whether one is takes a test */
    { "DAR", { 0x94, 0, 0 }, 0, IDC | C, AT_R0, 0xFF, ANY },
    /* Sense, the sign, stays 0, since there is no input: it has a test of its own */
    { "SPSU", { 0x12, 0, 0 }, 0, 0, AT_PSU, PSU_BITS, ZERO | POSITIVE },
    { "SPSL", { 0x13, 0, 0 }, 0, 0, AT_PSL, 0xFF & ~RS, ANY },
    { "REDD", { 0x70, 0, 0 }, 0, 0, AT_INPUT, 0xFF, ANY },
};

/* A branch through a pointer, which is read exactly if R0 is not zero: its path depends on the byte, and that must be seen. It leaves CC, which
 * is 0 before it. */
static const instruction control = { "BRNR", { 0x58, 0x80, 0 }, 0, 0, AT_R0, 0xFF, ZERO };

/* Both sides of each edge between two CC, and bytes that a rotate without WC turns into these. */
static const uint8_t bytes[] = { 0x00, 0x01, 0x7F, 0x80, 0xFF, 0x02, 0x40, 0xBF, 0xFE };
enum {
    BYTES = sizeof bytes, OPERATIONS = sizeof operations / sizeof operations[0], MODES = sizeof modes / sizeof modes[0],
    OTHERS = sizeof others / sizeof others[0], INSTRUCTIONS_MOST = OPERATIONS * MODES * 2 + OTHERS
};

static instruction instructions[INSTRUCTIONS_MOST];
static unsigned count;

static void add_operation(size_t o, size_t m, int with_wc)
{
    instruction *i = &instructions[count++];
    memset(i, 0, sizeof *i);
    snprintf(i->name, sizeof i->name, "%s%c%s", operations[o].name, modes[m].letter, with_wc ? " with WC" : "");
    memcpy(i->code, modes[m].code, sizeof i->code);
    i->code[0] |= operations[o].code;
    i->r0 = operations[o].r0;
    i->psl = with_wc ? WC | operations[o].carry_in : 0;
    i->place = operations[o].byte_in_r0 ? AT_R0 : modes[m].place;
    i->mask = 0xFF;
    i->ccs = ANY;
}

static void add_instructions(void)
{
    for (size_t o = 0; o < OPERATIONS; o++)
        for (size_t m = 0; m < MODES; m++)
            for (int with_wc = 0; with_wc <= operations[o].uses_wc; with_wc++) add_operation(o, m, with_wc);
    for (size_t k = 0; k < OTHERS; k++) instructions[count++] = others[k];
}

static void put_partition(uint8_t *partition, const instruction *i, uint8_t byte)
{
    memset(partition, 0, PARTITION);
    memcpy(partition, first_code, sizeof first_code);
    memcpy(partition + AT_CODE, i->code, sizeof i->code);
    partition[AT_R0] = i->r0;
    partition[AT_PSL] = i->psl;
    partition[i->place] |= byte & i->mask;
}

static uint8_t input_length(const instruction *i) { return i->place == AT_INPUT ? INPUT : 0; }

/* What the processor ran, and what the instruction left. */
typedef struct {
    uint64_t length, hash;
    uint8_t status, psl;
} path;

static volatile uint64_t followed_length, followed_hash;

static void on_trap(int number, siginfo_t *info, void *context)
{
    (void)number;
    (void)info;
    followed_length++;
    followed_hash = (followed_hash ^ (uint64_t)((ucontext_t *)context)->uc_mcontext.gregs[REG_RIP]) * 1099511628211u;
}

/* The 128 bytes below the stack pointer are the compiler's, so the flags are pushed below them. */
static inline void trap_on(void)
{
    followed_length = followed_hash = 0;
    __asm__ volatile("lea -128(%%rsp), %%rsp; pushfq; orq $0x100, (%%rsp); popfq; lea 128(%%rsp), %%rsp" ::: "cc", "memory");
}

static inline void trap_off(void)
{
    __asm__ volatile("lea -128(%%rsp), %%rsp; pushfq; andq $~0x100, (%%rsp); popfq; lea 128(%%rsp), %%rsp" ::: "cc", "memory");
}

/* This one and follow_host are not inlined: in an unrolled loop the call would have several addresses, each a path of its own. */
__attribute__((noinline)) static path follow_machine(const instruction *i, uint8_t byte)
{
    enum { PSL = 10, STATUS = 27, FILLED = 29 };
    uint8_t state[PF_STATE_BYTES] = { 0 }, partition[PARTITION];
    put_partition(partition, i, byte);
    state[STATUS] = PF_STATUS_RUNNING;
    state[FILLED] = input_length(i);
    pf_machine_run(state, sizeof state, partition, sizeof partition, WINDOW, INPUT, OUTPUT, 0, 1, STEPS_BEFORE);
    trap_on();
    pf_machine_run(state, sizeof state, partition, sizeof partition, WINDOW, INPUT, OUTPUT, 0, 1, 1);
    trap_off();
    return (path){ followed_length, followed_hash, state[STATUS], state[PSL] };
}

/* The file of a pattern with this partition, a quantum of 1 and nothing locked; answers its length. */
static size_t put_file(uint8_t *file, size_t length, const uint8_t *partition, uint8_t first_input_length)
{
    static const uint8_t parameters[PF_VALUES_BYTES] = { 0, WINDOW, 0, INPUT, 0, OUTPUT, 0, 0, 1, 0, 0 };
    return pf_count(pf_write(parameters, sizeof parameters, partition, WINDOW, partition + AT_INPUT, first_input_length, file, length));
}

__attribute__((noinline)) static path follow_host(const instruction *i, uint8_t byte)
{
    enum { PSL = 11 };
    uint8_t table[PF_TABLE_BYTES], memory[PARTITION], file[PF_FILE_LEAST + WINDOW + INPUT], report[PF_REPORT_BYTES] = { 0 };
    put_partition(memory, i, byte);
    size_t file_length = put_file(file, sizeof file, memory, input_length(i));
    pf_new(table, sizeof table, sizeof memory);
    pf_load(table, sizeof table, memory, sizeof memory, 0, 0, file, file_length);
    pf_run(table, sizeof table, memory, sizeof memory, STEPS_BEFORE);
    trap_on();
    pf_run(table, sizeof table, memory, sizeof memory, 1);
    trap_off();
    pf_report(table, sizeof table, 0, report, sizeof report);
    return (path){ followed_length, followed_hash, report[0], report[PSL] };
}

/* How many paths lead to the results, which CC these have, and whether the machine stopped. */
typedef struct {
    unsigned paths, ccs;
    int stopped;
} outcome;

typedef path (*follower)(const instruction *, uint8_t);

static outcome outcome_of(follower follow, const instruction *i)
{
    path seen[BYTES];
    outcome o = { 0, 0, 0 };
    for (size_t k = 0; k < BYTES; k++) {
        path p = follow(i, bytes[k]);
        unsigned j = 0;
        while (j < o.paths && (seen[j].length != p.length || seen[j].hash != p.hash)) j++;
        if (j == o.paths) seen[o.paths++] = p;
        o.ccs |= 1u << (p.psl >> CC_SHIFT);
        o.stopped |= p.status != PF_STATUS_RUNNING;
    }
    return o;
}

/* One path, or several, to the results that the instruction should have. */
static int is_expected(const char *archive, follower follow, const instruction *i, int one_path)
{
    outcome o = outcome_of(follow, i);
    int right_results = o.ccs == i->ccs && !o.stopped;
    if (right_results && (o.paths == 1) == one_path) return 1;
    printf("%s, %s: its path %s on the byte%s\n", archive, i->name, o.paths == 1 ? "does not depend" : "depends",
           right_results ? "" : "; its results are others than they should be");
    return 0;
}

static int is_branchless(const char *archive, follower follow)
{
    unsigned failed = 0;
    for (unsigned k = 0; k < count; k++) failed += !is_expected(archive, follow, &instructions[k], 1);
    int followed = is_expected(archive, follow, &control, 0);
    printf("%s: from a result byte to CC, %u cases with %d bytes each: %u failed%s\n", archive, count, BYTES, failed,
           followed ? "" : "; but BRNR, which branches on the byte, failed too, so this says nothing");
    return !failed && followed;
}

int main(void)
{
    struct sigaction action;
    memset(&action, 0, sizeof action);
    action.sa_sigaction = on_trap;
    action.sa_flags = SA_SIGINFO;
    if (sigaction(SIGTRAP, &action, NULL)) {
        perror("branchless");
        return 2;
    }
    add_instructions();
    int machine = is_branchless("libmachine.a", follow_machine), host = is_branchless("libhost.a", follow_host);
    return !(machine && host);
}
