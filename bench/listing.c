#include "listing.h"
#include "pattern_floor.h"
#include <stdio.h>

static uint8_t table[PF_TABLE_BYTES], memory[PF_LISTING_MEMORY];

static size_t put_refused(char *text, unsigned refusal) { return (size_t)sprintf(text, "refused %u\n", refusal); }

/* Status, counter, PSU, PSL, registers. */
static size_t put_report(char *text, const uint8_t *report)
{
    char *at = text + sprintf(text, "%u %02X%02X %02X %02X", report[0], report[1], report[2], report[10], report[11]);
    for (int i = 3; i < 10; i++) at += sprintf(at, " %02X", report[i]);
    return (size_t)(at + sprintf(at, "\n") - text);
}

static size_t put_output(char *text, const uint8_t *bytes, size_t n)
{
    char *at = text + sprintf(text, "out");
    for (size_t i = 0; i < n; i++) at += sprintf(at, " %02X", bytes[i]);
    return (size_t)(at + sprintf(at, "\n") - text);
}

size_t listing(const uint8_t *file, size_t length, char *text)
{
    uint8_t report[PF_REPORT_BYTES], output[4096];
    if (length > PF_FILE_MOST) return put_refused(text, PF_FRAME);
    pf_new(table, sizeof table, sizeof memory);
    pf_answer loaded = pf_load(table, sizeof table, memory, sizeof memory, 0, 0, file, length);
    if (pf_refusal(loaded)) return put_refused(text, pf_refusal(loaded));
    for (int round = 0; round < 1000; round++) {
        pf_report(table, sizeof table, 0, report, sizeof report);
        if (report[0] != PF_STATUS_RUNNING) break;
        pf_run(table, sizeof table, memory, sizeof memory, 1);
    }
    /* the report comes first: draining would take status 4 away */
    pf_report(table, sizeof table, 0, report, sizeof report);
    pf_answer drained = pf_drain(table, sizeof table, memory, sizeof memory, 0, output, sizeof output);
    size_t first = put_report(text, report);
    return first + put_output(text + first, output, pf_count(drained));
}
