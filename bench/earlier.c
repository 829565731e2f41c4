#include "earlier.h"
#include "pattern_floor.h"
#include <stdio.h>
#include <string.h>

/* A stored system is a table, as long as its version had it, and its memory. */
enum { MEMORY = 1024, ROUNDS = 50, SYSTEM_MOST = PF_TABLE_BYTES + MEMORY };

static int different(const char *what)
{
    printf("a system of an earlier version: DIFFERENT: %s\n", what);
    return 1;
}

/* The system before the rounds and after them, each with its memory behind a table of that length. */
static int compare(uint8_t *before, const uint8_t *after, size_t length)
{
    uint8_t table[PF_TABLE_BYTES], wanted[PF_TABLE_BYTES];
    if (pf_upgrade(before, length, table, sizeof table) || pf_upgrade(after, length, wanted, sizeof wanted)) return different("refused");
    if (pf_run(table, sizeof table, before + length, MEMORY, ROUNDS)) return different("not run");
    if (memcmp(table, wanted, sizeof table)) return different("a byte of the table");
    if (memcmp(before + length, after + length, MEMORY)) return different("a byte of the memory");
    printf("a system of an earlier version, with a table of %zu bytes, taken over: %d rounds alike\n", length, ROUNDS);
    return 0;
}

int earlier(const char *path)
{
    static uint8_t systems[2 * SYSTEM_MOST + 1];
    FILE *f = fopen(path, "rb");
    if (!f) {
        perror(path);
        return 2;
    }
    size_t size = fread(systems, 1, sizeof systems, f) / 2;
    fclose(f);
    return size > MEMORY ? compare(systems, systems + size, size - MEMORY) : different("the file is too short");
}
