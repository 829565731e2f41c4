#include "timed_systems.h"
#include "codec.h"
#include <string.h>

enum { PARTITION_STRIDE = 8192, QUANTUM_OFFSET = 18 };

int timed_systems_load(timed_systems *both, const pattern *p, unsigned slots, uint8_t quantum)
{
    static uint8_t file[PF_FILE_MOST + 1];
    memcpy(file, p->file, p->length);
    file[QUANTUM_OFFSET] = quantum;
    memset(both, 0, sizeof *both);
    ref_new(&both->reference_table, sizeof both->reference_memory);
    pf_answer refused = pf_new(both->table, sizeof both->table, sizeof both->memory);
    for (unsigned k = 0; k < slots; k++) {
        refused |= pf_load(both->table, sizeof both->table, both->memory, sizeof both->memory,
                           k, k * PARTITION_STRIDE, file, p->length);
        refused |= (pf_answer)ref_load(&both->reference_table, both->reference_memory, sizeof both->reference_memory,
                                       k, file, p->length, k * PARTITION_STRIDE);
    }
    return !refused;
}

static int same_report(const timed_systems *both, unsigned k)
{
    ref_reported r;
    uint8_t got[PF_REPORT_BYTES] = { 0 }, expected[PF_REPORT_BYTES] = { 0 };
    int refusal = ref_report(&both->reference_table, k, &r);
    if (!refusal) encode_report(&r, expected);
    return (int)pf_refusal(pf_report(both->table, sizeof both->table, k, got, sizeof got)) == refusal
        && !memcmp(got, expected, sizeof got);
}

const char *timed_systems_difference(const timed_systems *both)
{
    for (unsigned k = 0; k < PF_SLOTS; k++)
        if (!same_report(both, k)) return "a report";
    return memcmp(both->memory, both->reference_memory, sizeof both->memory) ? "a byte of the memory" : NULL;
}

int timed_systems_running(const timed_systems *both, unsigned slots)
{
    for (unsigned k = 0; k < slots; k++)
        if (both->reference_table.slots[k].status != PF_STATUS_RUNNING) return 0;
    return 1;
}
