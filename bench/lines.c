/*
 * The line program's job done the usual way: scanf, fmod, printf. `lines make N` writes N input lines with near gaps (D below 64),
 * the same ones each time; without arguments it answers standard input. Its three quotient bits come from remquo and are those of the
 * nearest remainder, so only the value is the same as the line program's.
 */
#include <inttypes.h>
#include <math.h>
#include <stdint.h>
#include <stdio.h>
#include <stdlib.h>
#include <string.h>

static uint64_t state = 1;

/* xorshift64: a full period over the nonzero states */
static uint64_t next(void)
{
    state ^= state << 13;
    state ^= state >> 7;
    state ^= state << 17;
    return state;
}

/* a positive number with the given exponent field */
static uint64_t pattern(uint64_t field)
{
    return (field << 52) | (next() >> 12);
}

static void make(long n)
{
    for (long i = 0; i < n; i++) {
        uint64_t low = 1000 + next() % 20;
        uint64_t x = pattern(low + next() % 60), y = pattern(low);
        printf("%016" PRIX64 " %016" PRIX64 "\n", x, y);
    }
}

static void answer(void)
{
    uint64_t x, y;
    while (scanf("%" SCNx64 " %" SCNx64, &x, &y) == 2) {
        double a, b, r;
        int q;
        memcpy(&a, &x, 8);
        memcpy(&b, &y, 8);
        r = fmod(a, b);
        remquo(a, b, &q);
        memcpy(&x, &r, 8);
        printf("%016" PRIX64 " %d %d\n", x, q & 7, 0);
    }
}

int main(int argc, char **argv)
{
    if (argc == 3 && strcmp(argv[1], "make") == 0)
        make(atol(argv[2]));
    else
        answer();
    return 0;
}
