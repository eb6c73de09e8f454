/*
 * Tables compared, timed, counted and printed as Markdown. All peers get the same operands in one run, in turns. A time is the median of
 * the rounds, and a ratio the median of each round's: this library's time by the peer's, below 1 where this library is quicker.
 */
#define _POSIX_C_SOURCE 199309L
#include "harness.h"
#include "peers.h"

#include <stdio.h>
#include <stdlib.h>
#include <time.h>

/* Instructions are counted on fewer operands, since valgrind is slow, and so is a pass over wide gaps, of which a figure has many. */
enum { COUNTED = 2048, GAPPED = 16384 };

/* Rounds, and so many where one takes longer than SLOW: then its turns are long, and less disturbed. */
enum { ROUNDS = 15, FEW = 5 };

/* Nanoseconds. A turn is of at least so many, and of one pass; the worst cases are many, and have short ones. */
static const double TURN = 4e6, SHORT_TURN = 5e5, SLOW = 2.5e8;

int libc_only;

static struct operands operands;

static int has_libc(const struct table *t) {
    return t->peers[1].name == libc_name;
}

static int takes_part(const struct table *t, int p, const struct row *row) {
    const size_t lanes = t->peers[p].lanes;
    return (!libc_only || (has_libc(t) && p < 2)) && (lanes == 0 || row->length % lanes == 0);
}

static size_t operands_in(const struct table *t) {
    return t->form == FIGURE ? GAPPED : N;
}

static void fill(const struct table *t, const struct row *row, size_t n) {
    operands.n = n;
    operands.format = row->format;
    operands.length = row->length == 0 ? n : row->length;
    t->fill(&operands, row);
}

/* One pass. It is also the name that callgrind is told to collect in. */
__attribute__((noinline)) void measured(const struct peer *p, struct answers *a);

void measured(const struct peer *p, struct answers *a) {
    p->pass(&operands, a);
}

/* ---- comparisons */

struct tally {
    long wrong, nans;
};

static int is_nan(uint64_t binary64) {
    return (binary64 & INT64_MAX) > UINT64_C(0x7FF0000000000000);
}

/* NaNs among the wrong answers are of binary64: only there a peer is inexact. */
static struct tally differences(const struct peer *p, const struct answers *ours, const struct answers *theirs) {
    struct tally t = {0, 0};
    size_t i;
    for (i = 0; i < operands.n; i++)
        if (p->differs(&operands, ours, theirs, i)) {
            if (t.wrong++ == 0 && !p->inexact)
                fprintf(stderr, "%s differs from zukemoriha at %s\n", p->name, text_of(&operands, i));
            t.nans += is_nan(theirs->values.binary64[i]);
        }
    return t;
}

/* A peer's answers to the operands of a row; 0 where it is exact and one differs. */
static int agrees_with(const struct table *t, const struct peer *p, const struct row *row, const struct answers *ours) {
    static struct answers theirs;
    struct tally tally;
    memset(&theirs, 0, sizeof theirs);
    measured(p, &theirs);
    tally = differences(p, ours, &theirs);
    if (tally.wrong > 0)
        printf("%s, %s, %s: of %lu answers %ld are wrong, %ld of them NaNs\n", p->name, t->title, row->name, (unsigned long)operands.n,
               tally.wrong, tally.nans);
    return p->inexact || tally.wrong == 0;
}

static int agrees_in(const struct table *t, const struct row *row, long *compared) {
    static struct answers ours;
    int p, right = 1;
    fill(t, row, operands_in(t));
    memset(&ours, 0, sizeof ours);
    measured(&t->peers[0], &ours);
    for (p = 1; t->peers[p].name; p++)
        if (takes_part(t, p, row)) {
            right &= agrees_with(t, &t->peers[p], row, &ours);
            *compared += (long)operands.n;
        }
    return right;
}

int agrees(const struct table *t, long *compared) {
    const struct row *row;
    int right = 1;
    for (row = t->rows; row->name; row++)
        right &= agrees_in(t, row, compared);
    return right;
}

/* ---- times */

/* Nanoseconds for one operand, of each peer that takes part, round by round. */
struct times {
    int rounds;
    double of[MOST_PEERS][ROUNDS];
};

static double now(void) {
    struct timespec t;
    clock_gettime(CLOCK_PROCESS_CPUTIME_ID, &t);
    return (double)t.tv_sec * 1e9 + (double)t.tv_nsec;
}

static double time_passes(const struct peer *p, long passes) {
    static struct answers a;
    double start = now();
    long i;
    for (i = 0; i < passes; i++)
        measured(p, &a);
    return now() - start;
}

/* How many passes are a turn of each peer, and what a whole round takes. */
static double passes_of(const struct table *t, const struct row *row, double turn, long *passes) {
    double once, round = 0;
    int p;
    for (p = 0; t->peers[p].name; p++)
        if (takes_part(t, p, row)) {
            once = time_passes(&t->peers[p], 1);
            passes[p] = 1 + (long)(turn / once);
            round += once * (double)passes[p];
        }
    return round;
}

static void time_round(const struct table *t, const struct row *row, const long *passes, int round, struct times *times) {
    int p;
    for (p = 0; t->peers[p].name; p++)
        if (takes_part(t, p, row))
            times->of[p][round] = time_passes(&t->peers[p], passes[p]) / (double)passes[p] / (double)operands.n;
}

/* All peers in turns, so that what the machine does meanwhile touches all of them. */
static void time_row(const struct table *t, const struct row *row, double turn, struct times *times) {
    long passes[MOST_PEERS];
    double round = passes_of(t, row, turn, passes);
    int r;
    times->rounds = turn < TURN || round > SLOW ? FEW : ROUNDS;
    for (r = 0; r < times->rounds; r++)
        time_round(t, row, passes, r, times);
}

static int ascending(const void *a, const void *b) {
    double x = *(const double *)a, y = *(const double *)b;
    return (x > y) - (x < y);
}

static double median(const double *list, int n) {
    double sorted[ROUNDS];
    memcpy(sorted, list, sizeof *list * (size_t)n);
    qsort(sorted, (size_t)n, sizeof *sorted, ascending);
    return sorted[n / 2];
}

static double median_ratio(const struct times *times, int p) {
    double ratios[ROUNDS];
    int r;
    for (r = 0; r < times->rounds; r++)
        ratios[r] = times->of[0][r] / times->of[p][r];
    return median(ratios, times->rounds);
}

/* ---- tables */

/* At least so wide that columns stand below each other. */
enum { ROW_NAME = 36, CELL = 14 };

static void print_cell(const char *text) {
    printf(" %*s |", CELL, text);
}

static void print_head(const struct table *t) {
    int p, last = libc_only ? 2 : MOST_PEERS;
    printf("\n%s: %s a %s\n\n| %-*s |", t->title, t->form == WORST ? "microseconds" : "ns", t->unit, ROW_NAME, t->corner);
    for (p = 0; p < last && t->peers[p].name; p++)
        print_cell(t->peers[p].name);
    printf("\n|---|");
    for (p = 0; p < last && t->peers[p].name; p++)
        printf("---|");
    printf("\n");
}

/* One decimal below a hundred, groups of three digits from a thousand. */
static int write_time(char *text, double time) {
    long whole = (long)(time + 0.5);
    if (time < 99.95)
        return sprintf(text, "%.1f", time);
    if (whole < 1000)
        return sprintf(text, "%ld", whole);
    return sprintf(text, "%ld,%03ld", whole / 1000, whole % 1000);
}

static void print_time(const struct times *times, int p) {
    char text[64];
    double ratio = median_ratio(times, p);
    int length = write_time(text, median(times->of[p], times->rounds));
    if (p > 0)
        sprintf(text + length, ratio < 0.0995 ? ", %.3f" : ", %.2f", ratio);
    print_cell(text);
}

static void print_row(const struct table *t, const struct row *row) {
    static struct times times;
    int p;
    fill(t, row, operands_in(t));
    time_row(t, row, TURN, &times);
    printf("| %-*s |", ROW_NAME, row->name);
    for (p = 0; t->peers[p].name; p++)
        if (takes_part(t, p, row))
            print_time(&times, p);
        else if (!libc_only)
            print_cell("");
    printf("\n");
    fflush(stdout);
}

static void print_rows(const struct table *t) {
    const struct row *row;
    for (row = t->rows; row->name; row++)
        print_row(t, row);
}

/* The slowest row of each peer. */
struct worst {
    double time[MOST_PEERS];
    const char *name[MOST_PEERS];
};

static void note_worst(const struct table *t, const struct row *row, struct worst *worst) {
    static struct times times;
    int p;
    fill(t, row, operands_in(t));
    time_row(t, row, SHORT_TURN, &times);
    for (p = 0; t->peers[p].name; p++)
        if (takes_part(t, p, row) && median(times.of[p], times.rounds) > worst->time[p]) {
            worst->time[p] = median(times.of[p], times.rounds);
            worst->name[p] = row->name;
        }
}

static void print_worst_times(const struct worst *worst) {
    char text[64];
    int p;
    printf("| %-*s |", ROW_NAME, "slowest");
    for (p = 0; p < MOST_PEERS && worst->name[p]; p++) {
        sprintf(text, "%.3f", worst->time[p] / 1000);
        print_cell(text);
    }
    printf("\n");
}

static void print_worst_names(const struct worst *worst) {
    int p;
    printf("| %-*s |", ROW_NAME, "of");
    for (p = 0; p < MOST_PEERS && worst->name[p]; p++)
        print_cell(worst->name[p]);
    printf("\n");
    fflush(stdout);
}

static void print_worst(const struct table *t) {
    struct worst worst = {{0}, {0}};
    const struct row *row;
    for (row = t->rows; row->name; row++)
        note_worst(t, row, &worst);
    print_worst_times(&worst);
    print_worst_names(&worst);
}

void print_times(const struct table *t) {
    if (libc_only && !has_libc(t))
        return;
    print_head(t);
    if (t->form == WORST)
        print_worst(t);
    else
        print_rows(t);
}

/* ---- instructions */

/* This library computes in integers, whatever the numbers are. */
static int is_countable(const struct row *row, int p) {
    return p == 0 || row->format != X87 || row->field == LEAST_DOUBLE;
}

/* A line for each pass, in the order of the passes: the table, its unit and its corner, the row, the peer, the number of operands. */
static void count_row(const struct table *t, const struct row *row) {
    static struct answers a;
    int p;
    fill(t, row, COUNTED);
    for (p = 0; t->peers[p].name; p++)
        if (takes_part(t, p, row) && is_countable(row, p)) {
            measured(&t->peers[p], &a);
            printf("%s\t%s\t%s\t%s\t%s\t%lu\n", t->title, t->unit, t->corner, row->name, t->peers[p].name, (unsigned long)operands.n);
        }
}

void count_passes(const struct table *t) {
    const struct row *row;
    if (t->form == WORST)
        return;
    for (row = t->rows; row->name; row++)
        count_row(t, row);
}

/* ---- figures */

static void print_gap(const struct table *t, const struct row *row) {
    static struct times times;
    int p;
    fill(t, row, operands_in(t));
    time_row(t, row, TURN, &times);
    printf("%d", row->least);
    for (p = 0; t->peers[p].name; p++)
        if (takes_part(t, p, row))
            printf(" %.2f", median(times.of[p], times.rounds));
    printf("\n");
    fflush(stdout);
}

void print_gaps(const struct table *t) {
    const struct row *row;
    int p;
    printf("\"%s\"", t->corner);
    for (p = 0; t->peers[p].name; p++)
        if (takes_part(t, p, t->rows))
            printf(" \"%s\"", t->peers[p].name);
    printf("\n");
    for (row = t->rows; row->name; row++)
        print_gap(t, row);
}
