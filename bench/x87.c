/* x87 remainders: one call, one step, runs of steps, and the gaps of a figure. */
#include "peers.h"
#include "tables.h"

#define X o->x.x87[i].number
#define Y o->y.x87[i].number
#define VALUE a->values.x87[i].number
#define OF_PATTERN(number) number.pattern.significand, number.pattern.word
#define OPERANDS OF_PATTERN(o->x.x87[i]), OF_PATTERN(o->y.x87[i])
#define ANSWER &a->values.x87[i].pattern.significand, &a->values.x87[i].pattern.word, &a->quotients[i]

EACH(each_truncated, zk_rem80(OPERANDS, ZK_TRUNCATED, ANSWER))
EACH(each_nearest, zk_rem80(OPERANDS, ZK_NEAREST, ANSWER))
EACH(each_libc_fmodl, VALUE = libc_fmodl(X, Y))
EACH(each_libc_remainderl, VALUE = libc_remainderl(X, Y))
EACH(each_fprem, VALUE = fprem(X, Y))
EACH(each_fprem1, VALUE = fprem1(X, Y))
EACH(each_musl_fmodl, VALUE = musl_fmodl(X, Y))
EACH(each_musl_remainderl, VALUE = musl_remainderl(X, Y))

EACH(each_step, zk_step80(OPERANDS, ZK_SIZE_MOST, ZK_TRUNCATED, a->blocks[i], ZK_BLOCK_LENGTH))
EACH(each_run, zk_run80(OPERANDS, ZK_SIZE_MOST, ZK_TRUNCATED, UINT32_MAX, a->blocks[i], ZK_BLOCK_LENGTH))
EACH(each_fprem_step, VALUE = fprem_step(X, Y, &a->bytes[i]))

static int same(union x87 x, union x87 y) {
    return x.pattern.significand == y.pattern.significand && x.pattern.word == y.pattern.word;
}

static union x87 of_block(const uint8_t *block) {
    union x87 x;
    x.pattern.significand = zk_block_significand(block);
    x.pattern.word = zk_block_word(block);
    return x;
}

static union x87 remainder_of(union x87 x, union x87 y) {
    union x87 r;
    uint32_t quotient;
    zk_rem80(OF_PATTERN(x), OF_PATTERN(y), ZK_TRUNCATED, &r.pattern.significand, &r.pattern.word, &quotient);
    return r;
}

static int value_differs(const struct operands *o, const struct answers *ours, const struct answers *theirs, size_t i) {
    (void)o;
    return !same(ours->values.x87[i], theirs->values.x87[i]);
}

static int run_differs(const struct operands *o, const struct answers *ours, const struct answers *theirs, size_t i) {
    (void)o;
    return zk_block_number(ours->blocks[i]) != ZK_FINISHED || !same(of_block(ours->blocks[i]), theirs->values.x87[i]);
}

/* The processor takes partial steps of another size: what both leave has to have the same remainder. */
static int step_differs(const struct operands *o, const struct answers *ours, const struct answers *theirs, size_t i) {
    union x87 y = o->y.x87[i];
    if (zk_block_number(ours->blocks[i]) != theirs->bytes[i])
        return 1;
    if (theirs->bytes[i])
        return !same(remainder_of(of_block(ours->blocks[i]), y), remainder_of(theirs->values.x87[i], y));
    return run_differs(o, ours, theirs, i);
}

static const struct peer truncated[] = {
    {"zukemoriha", each_truncated, NULL, 0, 0},
    {libc_name, each_libc_fmodl, value_differs, 0, 0},
    {"FPREM loop", each_fprem, value_differs, 0, 0},
    {"musl", each_musl_fmodl, value_differs, 0, 0},
    {NULL, NULL, NULL, 0, 0},
};

static const struct peer nearest[] = {
    {"zukemoriha", each_nearest, NULL, 0, 0},
    {libc_name, each_libc_remainderl, value_differs, 0, 0},
    {"FPREM1 loop", each_fprem1, value_differs, 0, 0},
    {"musl", each_musl_remainderl, value_differs, 0, 0},
    {NULL, NULL, NULL, 0, 0},
};

static const struct peer steps[] = {
    {"zukemoriha", each_step, NULL, 0, 0},
    {"one FPREM", each_fprem_step, step_differs, 0, 0},
    {NULL, NULL, NULL, 0, 0},
};

static const struct peer runs[] = {
    {"zukemoriha", each_run, NULL, 0, 0},
    {"FPREM loop", each_fprem, run_differs, 0, 0},
    {NULL, NULL, NULL, 0, 0},
};

static const struct peer gap_peers[] = {
    {"zukemoriha", each_truncated, NULL, 0, 0},
    {libc_name, each_libc_fmodl, value_differs, 0, 0},
    {"FPREM loop", each_fprem, value_differs, 0, 0},
    {NULL, NULL, NULL, 0, 0},
};

static const struct row rows[] = {
    {"0 to 10", X87, 0, 10, LEAST_DOUBLE, 0},
    {"0 to 63", X87, 0, 63, LEAST_DOUBLE, 0},
    {"64 to 319", X87, 64, 319, LEAST_DOUBLE, 0},
    {"1,000 to 2,045", X87, 1000, 2045, LEAST_DOUBLE, 0},
    {"1,000 to 32,765", X87, 1000, 32765, 1, 0},
    {NULL, X87, 0, 0, 0, 0},
};

static const struct row step_rows[] = {
    {"0 to 63", X87, 0, 63, LEAST_DOUBLE, 0},
    {"64 to 2,045", X87, 64, 2045, LEAST_DOUBLE, 0},
    {NULL, X87, 0, 0, 0, 0},
};

/* The dividend has the largest exponent, so that only at the widest gap remainders are denormals. */
#define GAP(d) {#d, X87, d, d, 32766 - d, 0}

static const struct row gaps[] = {
    GAP(1),    GAP(2),    GAP(3),    GAP(4),    GAP(6),    GAP(8),     GAP(12),    GAP(16),    GAP(24),    GAP(32),    GAP(48),
    GAP(63),   GAP(64),   GAP(96),   GAP(127),  GAP(128),  GAP(192),   GAP(256),   GAP(384),   GAP(512),   GAP(768),   GAP(1024),
    GAP(1536), GAP(2048), GAP(3072), GAP(4096), GAP(6144), GAP(8192),  GAP(12288), GAP(16384), GAP(24576), GAP(32765),
    {NULL, X87, 0, 0, 0, 0},
};

const struct table x87_tables[] = {
    {"x87, one call, truncated", "remainder", "D", truncated, rows, fill_gaps, WHOLE},
    {"x87, one call, nearest", "remainder", "D", nearest, rows, fill_gaps, WHOLE},
    {"x87, one step of size 63, truncated", "step", "D", steps, step_rows, fill_gaps, WHOLE},
    {"x87, a run of size 63, truncated", "run", "D", runs, step_rows, fill_gaps, WHOLE},
    {NULL, NULL, NULL, NULL, NULL, NULL, WHOLE},
};

const struct table x87_gaps = {"Time against the gap, x87", "remainder", "D", gap_peers, gaps, fill_gaps, FIGURE};
