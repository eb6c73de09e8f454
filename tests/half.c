/*
 * binary16 by binary16, both kinds, rem and remquo, against whole-number division, and binary16 scaled by every power that tells something:
 * every finite binary16 value is a count of 2^-24 below 2^40, so that the scope's definition can be run as it is written.
 *
 *   half [STRIDE]    every STRIDE-th divisor for each dividend (251); 1 is all 2^32 pairs
 */
#include "calls.h"

enum { PATTERNS = 65536, SIGN = 0x8000, INFINITY_PATTERN = 0x7C00, COUNT_BITS = 40 };

static uint64_t counts[PATTERNS]; /* of finite patterns */

static uint64_t count_of(unsigned pattern) {
    unsigned field = pattern >> 10 & 31, fraction = pattern & 1023;
    return field ? (uint64_t)(1024 + fraction) << (field - 1) : fraction;
}

/* The inverse, for a count that the format can hold. */
static uint16_t pattern_of(uint64_t count) {
    unsigned field = 0;
    while (count >> field >= 2048)
        field++;
    return (uint16_t)((field << 10) + (count >> field));
}

static int number_of(unsigned x, unsigned y) {
    if ((x & 0x7FFF) > INFINITY_PATTERN || (y & 0x7FFF) > INFINITY_PATTERN)
        return ZK_NAN;
    if ((x & 0x7FFF) == INFINITY_PATTERN)
        return ZK_INFINITE;
    return (y & 0x7FFF) == 0 ? ZK_ZERO_DIVISOR : ZK_FINISHED;
}

struct remainder {
    uint16_t value;
    uint32_t quotient;
};

static uint64_t cut_quotients; /* that were 2^31 and more */

static struct remainder expected(unsigned x, unsigned y, int nearest) {
    uint64_t n = counts[x], m = counts[y], q, left;
    struct remainder r = {(uint16_t)x, 0};
    int turned;
    if ((y & 0x7FFF) == INFINITY_PATTERN)
        return r;
    q = n / m;
    left = n % m;
    turned = nearest && (2 * left > m || (2 * left == m && q % 2 == 1));
    if (turned) {
        left = m - left;
        q++;
    }
    r.value = (uint16_t)(pattern_of(left) | ((x & SIGN) ^ (turned ? SIGN : 0)));
    r.quotient = (uint32_t)(q % ZK_QUOTIENT_MODULUS);
    cut_quotients += q >= ZK_QUOTIENT_MODULUS;
    return r;
}

/* Memory lent on refusals is another test's: here the two places are as they were or as expected. */
static void compare_rem(unsigned x, unsigned y, int nearest, int number, struct remainder want) {
    struct remainder got = {0xA5A5, 0x25A5A5A5};
    uint8_t got_number = zk_rem16((uint16_t)x, (uint16_t)y, (uint32_t)nearest, &got.value, &got.quotient);
    if (got_number == number && got.value == want.value && got.quotient == want.quotient)
        return;
    if (differs())
        printf("%04X by %04X kind %d:\n  zukemoriha %04X quotient %lu number %u\n  expected   %04X quotient %lu number %d\n", x, y,
               nearest, got.value, (unsigned long)got.quotient, got_number, want.value, (unsigned long)want.quotient, number);
}

static void compare_remquo(unsigned x, unsigned y, int nearest, int number, struct remainder want) {
    int32_t quotient = number == 0 && (x & SIGN) != (y & SIGN) ? -(int32_t)want.quotient : (int32_t)want.quotient, got = 0x25A5A5A5;
    uint16_t value = 0xA5A5;
    uint8_t got_number = zk_remquo16((uint16_t)x, (uint16_t)y, (uint32_t)nearest, &value, &got);
    if (got_number == number && value == want.value && got == quotient)
        return;
    if (differs())
        printf("remquo of %04X by %04X kind %d:\n  zukemoriha %04X quotient %ld number %u\n  expected   %04X quotient %ld number %d\n", x,
               y, nearest, value, (long)got, got_number, want.value, (long)quotient, number);
}

static void compare(unsigned x, unsigned y, int nearest) {
    struct remainder want = {0xA5A5, 0x25A5A5A5};
    int number = number_of(x, y);
    if (number == 0)
        want = expected(x, y, nearest);
    compare_rem(x, y, nearest, number, want);
    compare_remquo(x, y, nearest, number, want);
}

struct scaled {
    uint16_t value;
    uint8_t says;
    int at_a_half;
};

/* A count / 2^places: what is left over against half of what is cut. With a place more than a count has bits it is always less. */
static struct scaled lowered(uint64_t n, int64_t places) {
    int cut = places > COUNT_BITS + 1 ? COUNT_BITS + 1 : (int)places;
    uint64_t whole = UINT64_C(1) << cut, quotient = n >> cut, left = n % whole;
    int up = 2 * left > whole || (2 * left == whole && quotient % 2 == 1);
    struct scaled s = {pattern_of(up ? quotient + 1 : quotient), ZK_EXACT, 2 * left == whole};
    if (left > 0)
        s.says = up ? ZK_UP : ZK_DOWN;
    return s;
}

/* A count above 0 * 2^power: exact, or beyond the range. */
static struct scaled raised(uint64_t n, int32_t power) {
    struct scaled s = {INFINITY_PATTERN, ZK_UP, 0};
    if (power < COUNT_BITS && n >> (COUNT_BITS - power) == 0) {
        s.value = pattern_of(n << power);
        s.says = ZK_EXACT;
    }
    return s;
}

/* Of a number. Zeros and infinities stay as they are. */
static struct scaled expected_scaling(unsigned x, int32_t power) {
    struct scaled s = {x & 0x7FFF, ZK_EXACT, 0};
    if (s.value != 0 && s.value != INFINITY_PATTERN)
        s = power < 0 ? lowered(counts[x], -(int64_t)power) : raised(counts[x], power);
    s.value |= x & SIGN;
    return s;
}

static struct {
    uint64_t said[3], halves, refused;
} scalings;

static void compare_scaling(unsigned x, int32_t power) {
    int number = (x & 0x7FFF) > INFINITY_PATTERN ? ZK_NAN : ZK_FINISHED;
    struct scaled want = {0xA5A5, 0xA5, 0}, got = {0xA5A5, 0xA5, 0};
    uint8_t got_number = zk_scale16((uint16_t)x, power, &got.value, &got.says);
    if (number == 0) {
        want = expected_scaling(x, power);
        scalings.said[want.says]++;
        scalings.halves += (uint64_t)want.at_a_half;
    } else {
        scalings.refused++;
    }
    if (got_number == number && got.value == want.value && got.says == want.says)
        return;
    if (differs())
        printf("%04X scaled by %ld:\n  zukemoriha %04X says %u number %u\n  expected   %04X says %u number %d\n", x, (long)power, got.value,
               got.says, got_number, want.value, want.says, number);
}

/* By every power from one that leaves nothing of any value to one that takes each beyond the range, and by some that are farther. */
static void compare_scalings(void) {
    static const int32_t far[] = {INT32_MIN, INT32_MIN + 1, -65536, -256, -64, 64, 256, 65536, INT32_MAX - 1, INT32_MAX};
    unsigned x, i;
    int32_t power;
    for (x = 0; going(x, PATTERNS); x++) {
        for (power = -COUNT_BITS - 2; power <= COUNT_BITS + 1; power++)
            compare_scaling(x, power);
        for (i = 0; i < sizeof far / sizeof *far; i++)
            compare_scaling(x, far[i]);
    }
    printf("binary16: %" PRIu64 " scaled exactly, %" PRIu64 " up, %" PRIu64 " down, %" PRIu64 " refused; %" PRIu64 " were at a half\n",
           scalings.said[ZK_EXACT], scalings.said[ZK_UP], scalings.said[ZK_DOWN], scalings.refused, scalings.halves);
}

int main(int argc, char **argv) {
    unsigned stride = argc > 1 ? (unsigned)strtoul(argv[1], NULL, 10) : 251, x, y;
    uint64_t pairs = 0;
    if (stride == 0)
        stride = 1;
    for (x = 0; x < PATTERNS; x++)
        counts[x] = count_of(x);
    for (x = 0; going(x, PATTERNS); x++)
        for (y = x % stride; y < PATTERNS; y += stride, pairs++) {
            compare(x, y, 0);
            compare(x, y, 1);
        }
    printf("binary16: %" PRIu64 " pairs, both kinds; %" PRIu64 " quotients from 2^31 on\n", pairs, cut_quotients);
    next_part();
    compare_scalings();
    return verdict();
}
