/* The bench program for hosts: runs a pattern file through the entry points of the proved archive. */
#include "pattern_floor.h"
#include "earlier.h"
#include "listing.h"
#include "product_level.h"
#include "scripts.h"
#include "speed.h"
#include "vectors.h"
#include <stdio.h>
#include <string.h>

static int usage(void)
{
    fprintf(stderr,
            "usage: bench [FILE]          prints the two lines of a pattern file, or of standard input\n"
            "       bench --vectors DATA  reads and writes the stored pattern files, makes their bench runs and compares\n"
            "       bench --scripts DATA  makes the calls of the stored scripts and compares\n"
            "       bench --earlier DATA  takes over a system that an earlier version stored, runs it and compares\n"
            "       bench --speed DIR     prints instructions a second of the patterns in DIR, beside the reference's\n");
    return 2;
}

static int print_listing(FILE *f)
{
    /* one byte more than the longest file, so that a longer one is seen as such */
    static uint8_t file[PF_FILE_MOST + 1];
    static char text[PF_LISTING_BYTES + 1];
    size_t length = fread(file, 1, sizeof file, f);
    if (ferror(f)) {
        perror("bench");
        return 2;
    }
    return fwrite(text, 1, listing(file, length, text), stdout) == 0;
}

static int print_listing_of(const char *path)
{
    FILE *f = fopen(path, "rb");
    if (!f) {
        perror(path);
        return 2;
    }
    int failed = print_listing(f);
    fclose(f);
    return failed;
}

int main(int argc, char **argv)
{
    ref_level = PRODUCT_LEVEL;
    if (argc == 1) return print_listing(stdin);
    if (argc == 3 && !strcmp(argv[1], "--vectors")) return vectors(argv[2]);
    if (argc == 3 && !strcmp(argv[1], "--scripts")) return scripts(argv[2]);
    if (argc == 3 && !strcmp(argv[1], "--earlier")) return earlier(argv[2]);
    if (argc == 3 && !strcmp(argv[1], "--speed")) return speed(argv[2]);
    if (argc == 2 && argv[1][0] != '-') return print_listing_of(argv[1]);
    return usage();
}
