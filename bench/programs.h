/* Random 2650 programs: noise, instructions with likely operands, and small loops that read, write, count and store. */
#ifndef PROGRAMS_H
#define PROGRAMS_H
#include <stddef.h>
#include <stdint.h>

/* Codes at which a machine stops at once: a window without them runs longer. */
int code_stops_at_once(uint8_t code);

/* Fills all n bytes of a window. */
void program_fill(uint8_t *window, size_t n);
#endif
