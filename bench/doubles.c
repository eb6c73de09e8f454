/*
 * binary64 remainders: one call a pair, lists by one divisor, the worst cases, and the gaps of a figure. Rust's % and shift.rs have no
 * nearest kind.
 */
#include "peers.h"
#include "tables.h"

#include <stdio.h>

#define X o->x.binary64[i]
#define Y o->y.binary64[i]
#define VALUE a->values.binary64[i]
#define QUOTIENT a->quotients[i]
#define BYTE a->bytes[i]
#define OF_DOUBLES(function) VALUE = zk_pattern_of_double((double)function(zk_double_of_pattern(X), zk_double_of_pattern(Y)))

EACH(each_truncated, zk_rem64(X, Y, ZK_TRUNCATED, &VALUE, &QUOTIENT))
EACH(each_nearest, zk_rem64(X, Y, ZK_NEAREST, &VALUE, &QUOTIENT))
EACH(each_libc_fmod, OF_DOUBLES(libc_fmod))
EACH(each_libc_remainder, OF_DOUBLES(libc_remainder))
EACH(each_fprem, OF_DOUBLES(fprem))
EACH(each_fprem1, OF_DOUBLES(fprem1))
EACH(each_musl_fmod, OF_DOUBLES(musl_fmod))
EACH(each_musl_remainder, OF_DOUBLES(musl_remainder))
EACH(each_percent, OF_DOUBLES(rust_percent))
EACH(each_branching, shift_rem64_branching(X, Y, &VALUE, &QUOTIENT))
EACH(each_branch_free, shift_rem64_branch_free(X, Y, &VALUE, &QUOTIENT))

static inline void fold(const struct operands *o, size_t i, uint32_t kind, struct answers *a) {
    size_t marked;
    zk_fold64(&X, o->length, &VALUE, o->length, &BYTE, o->length, Y, kind, &marked);
}

LISTS(list_truncated, fold(o, i, ZK_TRUNCATED, a))
LISTS(list_nearest, fold(o, i, ZK_NEAREST, a))
LISTS(list_branching, shift_fold64_branching(&X, o->length, &VALUE, &BYTE, Y))
LISTS(list_branch_free, shift_fold64_branch_free(&X, o->length, &VALUE, &BYTE, Y))
LISTS(list_sleef_fmod, sleef_fmod(&X, o->length, Y, &VALUE))
LISTS(list_sleef_remainder, sleef_remainder(&X, o->length, Y, &VALUE))

static int value_differs(const struct operands *o, const struct answers *ours, const struct answers *theirs, size_t i) {
    (void)o;
    return ours->values.binary64[i] != theirs->values.binary64[i];
}

static int quotient_differs(const struct operands *o, const struct answers *ours, const struct answers *theirs, size_t i) {
    return value_differs(o, ours, theirs, i) || ours->quotients[i] != theirs->quotients[i];
}

static int byte_differs(const struct operands *o, const struct answers *ours, const struct answers *theirs, size_t i) {
    return value_differs(o, ours, theirs, i) || ours->bytes[i] != theirs->bytes[i];
}

/* A list against single calls. */
static int octant_differs(const struct operands *o, const struct answers *ours, const struct answers *theirs, size_t i) {
    return value_differs(o, ours, theirs, i) || ours->bytes[i] != theirs->quotients[i] % 8;
}

static const struct peer truncated[] = {
    {"zukemoriha", each_truncated, NULL, 0, 0},
    {libc_name, each_libc_fmod, value_differs, 0, 0},
    {"FPREM loop", each_fprem, value_differs, 0, 0},
    {"musl", each_musl_fmod, value_differs, 0, 0},
    {"Rust %", each_percent, value_differs, 0, 0},
    {"shift, branching", each_branching, quotient_differs, 0, 0},
    {"shift, branch-free", each_branch_free, quotient_differs, 0, 0},
    {NULL, NULL, NULL, 0, 0},
};

static const struct peer nearest[] = {
    {"zukemoriha", each_nearest, NULL, 0, 0},
    {libc_name, each_libc_remainder, value_differs, 0, 0},
    {"FPREM1 loop", each_fprem1, value_differs, 0, 0},
    {"musl", each_musl_remainder, value_differs, 0, 0},
    {NULL, NULL, NULL, 0, 0},
};

/* Peers that have no lists go over the elements as over pairs. */
static const struct peer truncated_lists[] = {
    {"zukemoriha", list_truncated, NULL, 0, 0},
    {libc_name, each_libc_fmod, value_differs, 0, 0},
    {"FPREM loop", each_fprem, value_differs, 0, 0},
    {"musl", each_musl_fmod, value_differs, 0, 0},
    {"Rust %", each_percent, value_differs, 0, 0},
    {"shift, branching", list_branching, byte_differs, 0, 0},
    {"shift, branch-free", list_branch_free, byte_differs, 0, 0},
    {sleef_name, list_sleef_fmod, value_differs, 8, 1},
    {NULL, NULL, NULL, 0, 0},
};

static const struct peer nearest_lists[] = {
    {"zukemoriha", list_nearest, NULL, 0, 0},
    {libc_name, each_libc_remainder, value_differs, 0, 0},
    {"FPREM1 loop", each_fprem1, value_differs, 0, 0},
    {"musl", each_musl_remainder, value_differs, 0, 0},
    {sleef_name, list_sleef_remainder, value_differs, 8, 1},
    {NULL, NULL, NULL, 0, 0},
};

static const struct peer truncated_short[] = {
    {"zukemoriha", list_truncated, NULL, 0, 0},
    {libc_name, each_libc_fmod, value_differs, 0, 0},
    {"single calls", each_truncated, octant_differs, 0, 0},
    {sleef_name, list_sleef_fmod, value_differs, 8, 1},
    {NULL, NULL, NULL, 0, 0},
};

static const struct peer nearest_short[] = {
    {"zukemoriha", list_nearest, NULL, 0, 0},
    {libc_name, each_libc_remainder, value_differs, 0, 0},
    {"single calls", each_nearest, octant_differs, 0, 0},
    {sleef_name, list_sleef_remainder, value_differs, 8, 1},
    {NULL, NULL, NULL, 0, 0},
};

static const struct peer gap_peers[] = {
    {"zukemoriha", each_truncated, NULL, 0, 0},    {libc_name, each_libc_fmod, value_differs, 0, 0},
    {"musl", each_musl_fmod, value_differs, 0, 0}, {"FPREM loop", each_fprem, value_differs, 0, 0},
    {NULL, NULL, NULL, 0, 0},
};

/* Half degrees up to four turns either way, by one turn: 725.5 by 360 is one of them. */
static void fill_angles(struct operands *o) {
    uint64_t state = 1;
    size_t i;
    for (i = 0; i < o->n; i++) {
        double angle = (double)(draw(&state) % 2881) / 2;
        o->x.binary64[i] = zk_pattern_of_double(draw(&state) & 1 ? angle : -angle);
        o->y.binary64[i] = zk_pattern_of_double(360);
    }
}

static void fill_pairs(struct operands *o, const struct row *row) {
    if (row->field == 0)
        fill_angles(o);
    else
        fill_gaps(o, row);
}

static void fill_lists(struct operands *o, const struct row *row) {
    size_t i;
    fill_pairs(o, row);
    for (i = 1; i < o->n; i++)
        o->y.binary64[i] = o->y.binary64[0];
}

static const struct row rows[] = {
    {"as used", BINARY64, 0, 0, 0, 0},
    {"0 to 10", BINARY64, 0, 10, 1000, 0},
    {"0 to 63", BINARY64, 0, 63, 1000, 0},
    {"64 to 319", BINARY64, 64, 319, 1000, 0},
    {"1,000 to 2,045", BINARY64, 1000, 2045, 1, 0},
    {NULL, BINARY64, 0, 0, 0, 0},
};

static const struct row short_rows[] = {
    {"1, D 0 to 63", BINARY64, 0, 63, 1000, 1},
    {"8, D 0 to 63", BINARY64, 0, 63, 1000, 8},
    {"32, D 0 to 63", BINARY64, 0, 63, 1000, 32},
    {"1, D 1,000 to 2,045", BINARY64, 1000, 2045, 1, 1},
    {"8, D 1,000 to 2,045", BINARY64, 1000, 2045, 1, 8},
    {"32, D 1,000 to 2,045", BINARY64, 1000, 2045, 1, 32},
    {NULL, BINARY64, 0, 0, 0, 0},
};

/*
 * What may be slowest: a pair at the widest gap of normal numbers, 2045, or by a denormal, repeated; and pairs like these that are all
 * different, since a processor learns the branches of a repeated one. The rows have the patterns of a pair as their names.
 */
#define PAIR(x, y) {x " by " y, BINARY64, 0, 0, 0, 0}
#define PAIRS_BY(y) PAIR("7FE0000000000000", y), PAIR("7FE5555555555555", y), PAIR("7FEFFFFFFFFFFFFF", y)

static const struct row worst_rows[] = {
    PAIRS_BY("0010000000000000"),
    PAIRS_BY("0010000000000001"),
    PAIRS_BY("001FFFFFFFFFFFFF"),
    PAIRS_BY("000FFFFFFFFFFFFF"),
    PAIRS_BY("0008000000000001"),
    PAIRS_BY("0000000000000003"),
    PAIRS_BY("0000000000000001"),
    {"different pairs of D 2,045", BINARY64, 2045, 2045, 1, 0},
    {"different pairs, by denormals", BINARY64, 2045, 2045, 0, 0},
    {NULL, BINARY64, 0, 0, 0, 0},
};

enum { REPEATS = 128, DIFFERENT = 4096 };

static void fill_repeated(struct operands *o, const char *pair) {
    unsigned long long x, y;
    size_t i;
    sscanf(pair, "%llX by %llX", &x, &y);
    for (i = 0; i < o->n; i++) {
        o->x.binary64[i] = x;
        o->y.binary64[i] = y;
    }
}

static void fill_widest(struct operands *o, const struct row *row) {
    uint64_t state = 2;
    size_t i;
    for (i = 0; i < o->n; i++) {
        put(&o->x, BINARY64, i, draw(&state), 2046);
        put(&o->y, BINARY64, i, row->field == 0 ? draw_denormal(&state, BINARY64) : draw(&state), row->field);
    }
}

static void fill_worst(struct operands *o, const struct row *row) {
    o->n = row->most == 0 ? REPEATS : DIFFERENT;
    if (row->most == 0)
        fill_repeated(o, row->name);
    else
        fill_widest(o, row);
}

/* The dividend has the largest exponent, so that only at the widest gap remainders are denormals. */
#define GAP(d) {#d, BINARY64, d, d, 2046 - d, 0}

static const struct row gaps[] = {
    GAP(1),  GAP(2),  GAP(3),   GAP(4),   GAP(6),   GAP(8),   GAP(11),  GAP(12),  GAP(16),  GAP(24),   GAP(32),   GAP(48),   GAP(63),
    GAP(64), GAP(96), GAP(127), GAP(128), GAP(192), GAP(256), GAP(384), GAP(512), GAP(768), GAP(1024), GAP(1536), GAP(2045),
    {NULL, BINARY64, 0, 0, 0, 0},
};

const struct table double_tables[] = {
    {"One call, truncated", "remainder", "D", truncated, rows, fill_pairs, WHOLE},
    {"One call, nearest", "remainder", "D", nearest, rows, fill_pairs, WHOLE},
    {"Lists of 65,536, truncated", "remainder", "D", truncated_lists, rows, fill_lists, WHOLE},
    {"Lists of 65,536, nearest", "remainder", "D", nearest_lists, rows, fill_lists, WHOLE},
    {"Short lists, truncated", "remainder", "List", truncated_short, short_rows, fill_lists, WHOLE},
    {"Short lists, nearest", "remainder", "List", nearest_short, short_rows, fill_lists, WHOLE},
    {"Worst case of one call, truncated", "remainder", "", truncated, worst_rows, fill_worst, WORST},
    {"Worst case of one call, nearest", "remainder", "", nearest, worst_rows, fill_worst, WORST},
    {NULL, NULL, NULL, NULL, NULL, NULL, WHOLE},
};

const struct table double_gaps = {"Time against the gap, binary64", "remainder", "D", gap_peers, gaps, fill_gaps, FIGURE};
