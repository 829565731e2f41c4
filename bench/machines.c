/* One machine on the reference and on the product: patterns, and random machines. README.md says what each command does. */
#include "random_machines.h"
#include "pattern.h"
#include "product_level.h"
#include <stdio.h>
#include <stdlib.h>
#include <string.h>

static const uint64_t quanta[2] = { 255, 1 };

static pattern the_pattern;

static const char *base_name(const char *path)
{
    const char *slash = strrchr(path, '/');
    return slash ? slash + 1 : path;
}

static int read_or_say(const char *path)
{
    if (pattern_read(path, &the_pattern)) return 1;
    printf("%s: not a pattern file\n", path);
    return 0;
}

/* A state of a wrong length is refused by 1, and no byte changes. */
static int refuses(size_t length)
{
    guarded_buffer state = guarded_new(length), partition = guarded_new(48);
    memset(state.bytes, 1, length);
    memset(partition.bytes, 0xC0, partition.length);
    int right = pf_machine_run(state.bytes, length, partition.bytes, partition.length, 16, 16, 16, 0, 3, 3) == 1
             && guards_intact(&state) && guards_intact(&partition);
    for (size_t i = 0; i < length; i++) right &= state.bytes[i] == 1;
    for (size_t i = 0; i < partition.length; i++) right &= partition.bytes[i] == 0xC0;
    guarded_free(&state);
    guarded_free(&partition);
    return right;
}

static int check_refusals(void)
{
    static const size_t lengths[] = { 0, 1, PF_STATE_BYTES - 1, PF_STATE_BYTES + 1, 2 * PF_STATE_BYTES };
    for (size_t i = 0; i < sizeof lengths / sizeof lengths[0]; i++)
        if (!refuses(lengths[i])) {
            printf("a state of %zu bytes: not refused, or something was touched\n", lengths[i]);
            return 1;
        }
    printf("states of another length: refused, nothing touched\n");
    return 0;
}

/* Many quanta of one pattern, compared after each of a few lengths. */
static int check_pattern(const char *path)
{
    static const uint64_t rounds[] = { 1, 2, 10, 100, 1000, 10000 };
    if (!read_or_say(path)) return 1;
    uint64_t steps = 0;
    for (int q = 0; q < 2; q++) {
        machine_pair t = machine_pair_new(the_pattern.layout, 5);
        pattern_load(&the_pattern, &t);
        for (size_t i = 0; i < sizeof rounds / sizeof rounds[0]; i++) {
            steps += machine_pair_run(&t, quanta[q], rounds[i]);
            const char *what = machine_pair_difference(&t);
            if (what) {
                printf("%s: DIFFERENT: %s, quantum %d\n", base_name(path), what, (int)quanta[q]);
                return 1;
            }
        }
        machine_pair_free(&t);
    }
    printf("%s: %llu steps alike\n", base_name(path), (unsigned long long)steps);
    return 0;
}

static int check(int count, char **paths)
{
    int failed = check_refusals();
    for (int i = 0; i < count; i++) failed |= check_pattern(paths[i]);
    return failed;
}

int main(int argc, char **argv)
{
    const char *command = argc > 1 ? argv[1] : "";
    ref_level = PRODUCT_LEVEL;
    if (!strcmp(command, "check")) return check(argc - 2, argv + 2);
    if (!strcmp(command, "random") && argc == 4)
        return random_machines(strtoull(argv[2], NULL, 10), strtoull(argv[3], NULL, 10));
    fprintf(stderr, "usage: machines check PATTERN.. | machines random SEED STEPS\n");
    return 2;
}
