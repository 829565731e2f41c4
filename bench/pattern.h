/* A pattern file, of form 1 or 2, as far as a test needs it. */
#ifndef PATTERN_H
#define PATTERN_H
#include "machine_pair.h"

typedef struct {
    uint8_t file[PF_FILE_MOST + 1];
    size_t length;
    layout layout;
    uint16_t start;
    const uint8_t *code, *first_input;
    uint16_t code_length, first_input_length;
} pattern;

/* Answers 0 if the file can't be read or its records are not where they should be. */
int pattern_read(const char *path, pattern *p);
/* Puts the pattern into two machines of its layout, fresh, at its start. */
void pattern_load(const pattern *p, machine_pair *t);
#endif
