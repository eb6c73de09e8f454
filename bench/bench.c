/*
 * This library against its peers: remainders of doubles one by one and in lists, of x87 numbers, of floats and halves; scaling and
 * splitting. Every answer is compared before anything is timed, and a difference ends the run with status 1; SLEEF's are counted.
 *
 *   bench [times] [libc]     the tables, in Markdown: times and ratios
 *   bench count [libc]       one pass of each row and peer, for callgrind.sh
 *   bench gaps64 [libc]      one gap a line, for the figures; gaps80 is x87's
 *
 * With libc only this library and the C library take part, and only in tables that have it.
 */
#include "peers.h"
#include "tables.h"

#include <stdio.h>

static const struct table *const subjects[] = {double_tables, x87_tables, float_tables, scaling_tables};

enum { SUBJECTS = sizeof subjects / sizeof *subjects };

static int agrees_on(const struct table *tables, long *compared) {
    int right = 1;
    for (; tables->title; tables++)
        right &= agrees(tables, compared);
    return right;
}

static int all_agree(void) {
    long compared = 0;
    int s, right = 1;
    for (s = 0; s < SUBJECTS; s++)
        right &= agrees_on(subjects[s], &compared);
    printf("%ld answers compared%s\n", compared, right ? "" : ", and some differ");
    return right;
}

static void on_each(const struct table *tables, void (*act)(const struct table *)) {
    for (; tables->title; tables++)
        act(tables);
}

static void on_all(void (*act)(const struct table *)) {
    int s;
    for (s = 0; s < SUBJECTS; s++)
        on_each(subjects[s], act);
}

static int print_all(void) {
    if (!all_agree())
        return 1;
    on_all(print_times);
    return 0;
}

static int print_figure(const struct table *t) {
    long compared = 0;
    if (!agrees(t, &compared))
        return 1;
    print_gaps(t);
    return 0;
}

static int run(const char *mode) {
    if (strcmp(mode, "times") == 0)
        return print_all();
    if (strcmp(mode, "gaps64") == 0)
        return print_figure(&double_gaps);
    if (strcmp(mode, "gaps80") == 0)
        return print_figure(&x87_gaps);
    if (strcmp(mode, "count") == 0) {
        on_all(count_passes);
        return 0;
    }
    fprintf(stderr, "usage: bench [times|count|gaps64|gaps80] [libc]\n");
    return 2;
}

int main(int argc, char **argv) {
    if (!find_peers()) {
        fprintf(stderr, "this C library lacks a function\n");
        return 2;
    }
    libc_only = argc > 1 && strcmp(argv[argc - 1], "libc") == 0;
    return run(argc - libc_only > 1 ? argv[1] : "times");
}
