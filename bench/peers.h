/*
 * Other people's functions, for the tables: the C library that the program runs on; musl's, under names that the C library does not have;
 * Rust's % (percent.rs); shifting and subtracting one bit at a time (shift.rs); SLEEF's vectors (sleef.c); and the processor's FPREM and
 * FPREM1.
 */
#ifndef PEERS_H
#define PEERS_H

#include <stddef.h>
#include <stdint.h>

/* Known at run time only. */
extern char libc_name[32], sleef_name[16];

/* Looks up what follows, and the names above. To be called first; 0 where the C library has not all of it. */
int find_peers(void);

extern double (*libc_fmod)(double, double), (*libc_remainder)(double, double), (*libc_ldexp)(double, int), (*libc_frexp)(double, int *);
extern float (*libc_fmodf)(float, float), (*libc_remainderf)(float, float), (*libc_ldexpf)(float, int), (*libc_frexpf)(float, int *);
extern long double (*libc_fmodl)(long double, long double), (*libc_remainderl)(long double, long double);
extern long double (*libc_ldexpl)(long double, int), (*libc_frexpl)(long double, int *);

/* As many lanes as the processor has. */
extern void (*sleef_fmod)(const uint64_t *x, size_t n, uint64_t y, uint64_t *values);
extern void (*sleef_remainder)(const uint64_t *x, size_t n, uint64_t y, uint64_t *values);

double musl_fmod(double x, double y);
double musl_remainder(double x, double y);
float musl_fmodf(float x, float y);
float musl_remainderf(float x, float y);
long double musl_fmodl(long double x, long double y);
long double musl_remainderl(long double x, long double y);

double rust_percent(double x, double y);

uint8_t shift_rem64_branching(uint64_t x, uint64_t y, uint64_t *value, uint32_t *quotient);
uint8_t shift_rem64_branch_free(uint64_t x, uint64_t y, uint64_t *value, uint32_t *quotient);
size_t shift_fold64_branching(const uint64_t *x, size_t n, uint64_t *results, uint8_t *quotients, uint64_t y);
size_t shift_fold64_branch_free(const uint64_t *x, size_t n, uint64_t *results, uint8_t *quotients, uint64_t y);

/* Bit 10 of the status word, C2, says that a step was partial: bit 2 of the upper byte. */
static inline long double fprem(long double x, long double y) {
    long double r;
    __asm__("1:\tfprem\n\tfnstsw %%ax\n\ttestb $4, %%ah\n\tjnz 1b" : "=t"(r) : "0"(x), "u"(y) : "ax", "cc");
    return r;
}

static inline long double fprem1(long double x, long double y) {
    long double r;
    __asm__("1:\tfprem1\n\tfnstsw %%ax\n\ttestb $4, %%ah\n\tjnz 1b" : "=t"(r) : "0"(x), "u"(y) : "ax", "cc");
    return r;
}

/* One step, and whether it was partial. */
static inline long double fprem_step(long double x, long double y, uint8_t *partial) {
    long double r;
    uint16_t status;
    __asm__("fprem\n\tfnstsw %%ax" : "=t"(r), "=a"(status) : "0"(x), "u"(y));
    *partial = status >> 10 & 1;
    return r;
}

#endif
