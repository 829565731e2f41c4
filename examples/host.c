/* A small host: two patterns side by side in one memory.
 *
 *     host FIRST.pat SECOND.pat
 *
 * Each is loaded where it fits, and both run by turns. The second is fed a text, a few bytes whenever it wants input; what each puts out
 * is printed in hexadecimal, the one with more bytes first. At the end the first is unloaded. How much memory is free is printed after
 * the loads and after that; and of each pattern that locks the front of its window, how many bytes. */
#include <pattern_floor.h>
#include <stdio.h>
#include <string.h>

static uint8_t table[PF_TABLE_BYTES], memory[8192];

/* A number of two bytes in a file's parameters: 0 window, 2 input, 4 output, 9 how many bytes are locked. */
static size_t parameter_at(const uint8_t *parameters, size_t at) { return (size_t)parameters[at] << 8 | parameters[at + 1]; }

/* What a pattern takes of the memory. */
static size_t partition_size(const uint8_t *parameters)
{
    return parameter_at(parameters, 0) + parameter_at(parameters, 2) + parameter_at(parameters, 4);
}

/* The pattern cannot store in these bytes: at status 8 it has tried, and is unloaded as at any other fault. */
static void show_locked(size_t slot, size_t locked)
{
    if (locked) printf("slot %u: the first %u bytes of its window are locked\n", (unsigned)slot, (unsigned)locked);
}

static int load(const char *path, size_t slot)
{
    static uint8_t file[PF_FILE_MOST + 1];
    uint8_t parameters[PF_VALUES_BYTES];
    FILE *f = fopen(path, "rb");
    if (!f) {
        perror(path);
        return 0;
    }
    size_t length = fread(file, 1, sizeof file, f);
    fclose(f);
    pf_answer answer = pf_read(file, length, parameters, sizeof parameters);
    if (!pf_refusal(answer)) answer = pf_fit(table, sizeof table, partition_size(parameters));
    if (!pf_refusal(answer)) answer = pf_load(table, sizeof table, memory, sizeof memory, slot, pf_count(answer), file, length);
    if (pf_refusal(answer)) fprintf(stderr, "%s: refused by %u\n", path, pf_refusal(answer));
    else show_locked(slot, parameter_at(parameters, 9));
    return pf_refusal(answer) == 0;
}

static unsigned status(size_t slot)
{
    uint8_t report[PF_REPORT_BYTES];
    pf_report(table, sizeof table, slot, report, sizeof report);
    return report[0];
}

static void drain(size_t slot)
{
    uint8_t out[4096];
    unsigned count = pf_count(pf_drain(table, sizeof table, memory, sizeof memory, slot, out, sizeof out));
    printf("slot %u:", (unsigned)slot);
    for (unsigned i = 0; i < count; i++) printf(" %02X", out[i]);
    printf("\n");
}

/* Drains where something waits, in the order of the backlog's lines. The two bytes behind the lines are the total. */
static void drain_backlog(void)
{
    uint8_t backlog[PF_BACKLOG_BYTES];
    unsigned length = pf_count(pf_backlog(table, sizeof table, backlog, sizeof backlog));
    for (unsigned at = 0; at + 3 <= length; at += 3)
        if (backlog[at + 1] || backlog[at + 2]) drain(backlog[at]);
}

/* For the wall display, which needs only the table's bytes and the header. */
static void show_free(void)
{
    printf("free: %u bytes, the widest extent %u\n", (unsigned)pf_free(table), (unsigned)pf_widest(table));
}

/* Whether one of them runs, or the second waits while text is left. */
static int working(const char *text)
{
    return status(0) == PF_STATUS_RUNNING || status(1) == PF_STATUS_RUNNING
        || (status(1) == PF_STATUS_WANTS_INPUT && *text);
}

int main(int argc, char **argv)
{
    const char *text = "blue glass";
    if (argc != 3) {
        fprintf(stderr, "usage: host FIRST.pat SECOND.pat\n");
        return 2;
    }
    pf_new(table, sizeof table, sizeof memory);
    if (!load(argv[1], 0) || !load(argv[2], 1)) return 1;
    show_free();
    for (int turn = 0; turn < 1000 && working(text); turn++) {
        pf_run(table, sizeof table, memory, sizeof memory, 30);
        drain_backlog();
        if (status(1) == PF_STATUS_WANTS_INPUT && *text) {
            size_t piece = strlen(text) < 4 ? strlen(text) : 4;
            pf_feed(table, sizeof table, memory, sizeof memory, 1, (const uint8_t *)text, piece);
            text += piece;
        }
    }
    pf_unload(table, sizeof table, memory, sizeof memory, 0);
    show_free();
    return 0;
}
