/*
 * Lists by SLEEF's vector functions, for bench.c. Compiled once with LANES=8 and AVX-512, once with LANES=4 and AVX: bench.c takes what the
 * processor has. A list's length is a multiple of 8.
 */
#include <sleef.h>
#include <stddef.h>
#include <stdint.h>
#include <string.h>

#if LANES == 8
typedef __m512d vector;
#define NAMED(name) sleef8_##name
#define SLEEF(name) Sleef_##name##d8
#define ALL(number) _mm512_set1_pd(number)
#else
typedef __m256d vector;
#define NAMED(name) sleef4_##name
#define SLEEF(name) Sleef_##name##d4
#define ALL(number) _mm256_set1_pd(number)
#endif

#define LIST(name) \
    void NAMED(name)(const uint64_t *x, size_t n, uint64_t y, uint64_t *values); \
    void NAMED(name)(const uint64_t *x, size_t n, uint64_t y, uint64_t *values) { \
        size_t i; \
        double number; \
        vector divisor, some; \
        memcpy(&number, &y, sizeof number); \
        divisor = ALL(number); \
        for (i = 0; i < n; i += LANES) { \
            memcpy(&some, &x[i], sizeof some); \
            some = SLEEF(name)(some, divisor); \
            memcpy(&values[i], &some, sizeof some); \
        } \
    }

LIST(fmod)
LIST(remainder)
