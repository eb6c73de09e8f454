/* What of the peers is known at run time only. */
#include "peers.h"

#include <dlfcn.h>
#include <gnu/libc-version.h>
#include <stdio.h>
#include <string.h>

char libc_name[32], sleef_name[16];

double (*libc_fmod)(double, double), (*libc_remainder)(double, double), (*libc_ldexp)(double, int), (*libc_frexp)(double, int *);
float (*libc_fmodf)(float, float), (*libc_remainderf)(float, float), (*libc_ldexpf)(float, int), (*libc_frexpf)(float, int *);
long double (*libc_fmodl)(long double, long double), (*libc_remainderl)(long double, long double);
long double (*libc_ldexpl)(long double, int), (*libc_frexpl)(long double, int *);

void (*sleef_fmod)(const uint64_t *x, size_t n, uint64_t y, uint64_t *values);
void (*sleef_remainder)(const uint64_t *x, size_t n, uint64_t y, uint64_t *values);

void sleef4_fmod(const uint64_t *x, size_t n, uint64_t y, uint64_t *values);
void sleef4_remainder(const uint64_t *x, size_t n, uint64_t y, uint64_t *values);
void sleef8_fmod(const uint64_t *x, size_t n, uint64_t y, uint64_t *values);
void sleef8_remainder(const uint64_t *x, size_t n, uint64_t y, uint64_t *values);

static const struct {
    const char *name;
    void *place;
} wanted[] = {
    {"fmod", &libc_fmod},   {"remainder", &libc_remainder},   {"ldexp", &libc_ldexp},   {"frexp", &libc_frexp},
    {"fmodf", &libc_fmodf}, {"remainderf", &libc_remainderf}, {"ldexpf", &libc_ldexpf}, {"frexpf", &libc_frexpf},
    {"fmodl", &libc_fmodl}, {"remainderl", &libc_remainderl}, {"ldexpl", &libc_ldexpl}, {"frexpl", &libc_frexpl},
};

enum { WANTED = sizeof wanted / sizeof *wanted };

/*
 * Asked for by dlsym, which gives the version that a program gets that is linked with this C library. The linker would write down the
 * version of the machine that builds, and a newer C library keeps an older function for those.
 */
static int find_libc(void) {
    void *libm = dlopen("libm.so.6", RTLD_NOW), *found = libm;
    int i;
    snprintf(libc_name, sizeof libc_name, "glibc %s", gnu_get_libc_version());
    for (i = 0; found && i < WANTED; i++) {
        found = dlsym(libm, wanted[i].name);
        memcpy(wanted[i].place, &found, sizeof found);
    }
    return found != NULL;
}

static void find_lanes(void) {
    int wide = __builtin_cpu_supports("avx512f");
    strcpy(sleef_name, wide ? "SLEEF 8 lanes" : "SLEEF 4 lanes");
    sleef_fmod = wide ? sleef8_fmod : sleef4_fmod;
    sleef_remainder = wide ? sleef8_remainder : sleef4_remainder;
}

int find_peers(void) {
    find_lanes();
    return find_libc();
}
