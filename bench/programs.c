#include "programs.h"
#include "random.h"
#include <string.h>

int code_stops_at_once(uint8_t code)
{
    static const uint8_t unknown[] = { 0x10, 0x11, 0x90, 0x91, 0xB6, 0xB7, 0xC4, 0xC5, 0xC6, 0xC7 };
    const uint8_t halt = 0x40;
    for (size_t i = 0; i < sizeof unknown; i++)
        if (code == unknown[i]) return 1;
    return code == halt || (code & 0x7C) == 0x30 || (code & 0x7C) == 0x54;
}

static uint8_t lasting_code(void)
{
    uint8_t code = (uint8_t)random64();
    while (code_stops_at_once(code) && !random_one_in(64)) code = (uint8_t)random64();
    return code;
}

static void fill_lasting(uint8_t *window, size_t n)
{
    for (size_t i = 0; i < n; i++) window[i] = lasting_code();
}

/* bytes of an instruction: by its column, but for the one-byte codes among the second column */
static size_t code_length(uint8_t code)
{
    static const uint8_t columns[4] = { 1, 2, 2, 3 };
    if ((code & 0xDC) == 0x14 || (code & 0xFC) == 0x94) return 1;
    return columns[code >> 2 & 3];
}

/* a short way forward or back, seldom indirect */
static uint8_t relative(void) { return (uint8_t)(((random_below(32) - 16) & 0x7F) | (random_one_in(8) ? 0x80 : 0)); }

/* An address in the window, seldom indirect or indexed. A branch takes the index bits for an address far off. */
static void put_address(uint8_t *p, size_t n)
{
    size_t address = random_below(n);
    p[0] = (uint8_t)(address >> 8 | (random_one_in(8) ? 0x80 : 0) | (random_one_in(4) ? random_below(4) << 5 : 0));
    p[1] = (uint8_t)address;
}

static size_t put_instruction(uint8_t *p, size_t n)
{
    p[0] = lasting_code();
    size_t length = code_length(p[0]);
    if (length == 2) p[1] = (p[0] & 0x0C) == 8 ? relative() : (uint8_t)random64();
    if (length == 3) put_address(p + 1, n);
    return length;
}

/* Some instructions from address 0 on, 00h as filler between some of them, and then a branch back to address 0. The rest of the
 * window is noise or zero. */
static void fill_instructions(uint8_t *window, size_t n)
{
    static const uint8_t back[] = { 0x1F, 0x00, 0x00 };
    size_t at = 0, end = random_between(1, n < 120 ? n : 120);
    if (random_one_in(2)) memset(window, 0, n);
    else random_bytes(window, n);
    while (at + 6 <= end) {
        if (random_one_in(8)) window[at++] = 0;
        else at += put_instruction(window + at, n);
    }
    if (at + sizeof back <= n) memcpy(window + at, back, sizeof back);
}

typedef struct {
    size_t length;
    uint8_t code[12];
    int8_t free_offset;             /* the offset of a byte that may be anything, or -1 */
} loop;

static const loop loops[] = {
    { 6, { 0x70, 0x84, 0x01, 0xF0, 0x1B, 0x7A }, 2 },                       /* REDD ADDI WRTD BCTR: echo */
    { 4, { 0x73, 0xF3, 0x1B, 0x7C }, -1 },                                  /* REDD WRTD BCTR: copy */
    { 5, { 0x84, 0x01, 0xF0, 0x1B, 0x7B }, 1 },                             /* ADDI WRTD BCTR: writes till full */
    { 6, { 0x71, 0x81, 0x1B, 0x7C, 0x40, 0x40 }, -1 },                      /* REDD ADDZ BCTR: sums up */
    { 8, { 0x07, 0x05, 0x85, 0x01, 0xFB, 0x7C, 0x1B, 0x78 }, 1 },           /* LODI ADDI BDRR BCTR: counts for ever */
    { 7, { 0x84, 0x03, 0xCD, 0x20, 0x20, 0x1B, 0x79 }, 1 },                 /* ADDI STRA,+ BCTR: stores on */
    { 7, { 0x84, 0x03, 0xCD, 0x40, 0x20, 0x1B, 0x79 }, 4 },                 /* ADDI STRA,- BCTR: stores downwards, to a lock */
    { 9, { 0x77, 0x08, 0xD0, 0x84, 0x01, 0xA5, 0x07, 0x1B, 0x77 }, 4 },     /* PPSL RRL ADDI SUBI BCTR: for ever */
    { 7, { 0x3B, 0x02, 0x1B, 0x7C, 0x86, 0x01, 0x17 }, 5 },                 /* BSTR BCTR; ADDI RETC: calls for ever */
    { 8, { 0x07, 0x03, 0x73, 0xF3, 0xFB, 0x7C, 0x40, 0x40 }, 1 },           /* LODI REDD WRTD BDRR HALT */
    { 10, { 0xB4, 0x80, 0x98, 0x04, 0x70, 0xF0, 0x1B, 0x78, 0x1B, 0x76 }, -1 },  /* TPSU BCFR REDD WRTD: waits */
};

/* A loop at address 0, or as much of it as the window holds. */
static void fill_loop(uint8_t *window, size_t n)
{
    const loop *l = &RANDOM_OF(loops);
    if (random_one_in(2)) memset(window, 0, n);
    else fill_lasting(window, n);
    memcpy(window, l->code, l->length < n ? l->length : n);
    if (l->free_offset >= 0 && (size_t)l->free_offset < n && random_one_in(2))
        window[l->free_offset] = (uint8_t)random64();
}

/* A few instructions that do nothing, or set CC alone, and then one at which every machine stops. */
static void fill_stop(uint8_t *window, size_t n)
{
    static const uint8_t last[] = { 0x40, 0x10, 0x91, 0xB7, 0xC4, 0x30, 0x54, 0xB0, 0xD7 };
    memset(window, random_one_in(2) ? 0xC0 : 0x00, n);
    window[random_below(n < 40 ? n : 40)] = RANDOM_OF(last);
}

void program_fill(uint8_t *window, size_t n)
{
    if (!n) return;
    switch (random_below(16)) {
    case 0: random_bytes(window, n); break;
    case 1: case 2: fill_lasting(window, n); break;
    case 3: case 4: case 5: fill_instructions(window, n); break;
    case 6: fill_stop(window, n); break;
    default: fill_loop(window, n); break;
    }
}
