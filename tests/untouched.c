/*
 * What lent memory holds afterwards: on every refusal what it held before, on an answer exactly what the header says, and nothing beyond.
 * All of it runs twice, with two fillings, so that no byte is right by chance.
 */
#define _DEFAULT_SOURCE
#include "calls.h"

#include <sys/mman.h>

static uint64_t checks;

static void check(int right, const char *what, int f) {
    checks++;
    if (!right && differs())
        printf("%s, %s (filling %02X)\n", what, formats[f].name, filling);
}

static void check_number(unsigned got, int want, const char *what, int f) {
    checks++;
    if (got != (unsigned)want && differs())
        printf("number of %s, %s: %u, expected %d (filling %02X)\n", what, formats[f].name, got, want, filling);
}

static void print_bytes(const char *who, const unsigned char *bytes, size_t n) {
    size_t i;
    printf("  %-10s", who);
    for (i = 0; i < n; i++)
        printf(" %02X", bytes[i]);
    printf("\n");
}

static void check_bytes(const void *got, const void *want, size_t n, const char *what, int f) {
    checks++;
    if (memcmp(got, want, n) == 0 || !differs())
        return;
    printf("memory after %s, %s (filling %02X):\n", what, formats[f].name, filling);
    print_bytes("zukemoriha", (const unsigned char *)got, n);
    print_bytes("expected", (const unsigned char *)want, n);
}

/* One pattern of each class, for each format. The first two are in x87 alone. */
enum { UNSUPPORTED, PSEUDO_DENORMAL, NAN_QUIET, NAN_SIGNALLING, INFINITE, ZERO, DENORMAL, NORMAL, CLASSES };

static const struct pattern samples[FORMATS][CLASSES] = {
    {{0, 0}, {0, 0}, {0xFE01, 0}, {0x7C01, 0}, {0xFC00, 0}, {0x8000, 0}, {0x8001, 0}, {0x3C00, 0}},
    {{0, 0}, {0, 0}, {0xFFC00001, 0}, {0x7F800001, 0}, {0xFF800000, 0}, {0x80000000, 0}, {0x80000001, 0}, {0x3F800000, 0}},
    {{0, 0},
     {0, 0},
     {UINT64_C(0xFFF8000000000001), 0},
     {UINT64_C(0x7FF0000000000001), 0},
     {UINT64_C(0xFFF0000000000000), 0},
     {UINT64_C(0x8000000000000000), 0},
     {UINT64_C(0x8000000000000001), 0},
     {UINT64_C(0x3FF0000000000000), 0}},
    {{UINT64_C(0x4000000000000000), 0x3FFF},
     {UINT64_C(0x8000000000000001), 0x8000},
     {UINT64_C(0xC000000000000001), 0xFFFF},
     {UINT64_C(0x8000000000000001), 0x7FFF},
     {UINT64_C(0x8000000000000000), 0xFFFF},
     {0, 0x8000},
     {1, 0x8000},
     {UINT64_C(0x8000000000000000), 0x3FFF}},
};

/* All three ways in which an x87 pattern is unsupported, with either sign. */
static const struct pattern unsupported[] = {
    {UINT64_C(0x4000000000000000), 0x3FFF}, {UINT64_C(0x7FFFFFFFFFFFFFFF), 0x8001}, /* e from 1 with J = 0 */
    {0, 0x7FFE},                            {1, 0xFFFE},
    {0, 0x0001},                            {1, 0xBFFF},
    {0, 0x7FFF},                            {0, 0xFFFF}, /* an infinity with J = 0 */
    {UINT64_C(0x4000000000000000), 0xFFFF}, {1, 0x7FFF}, /* a NaN with J = 0 */
};

static int first_class(int f) {
    return f == X87 ? UNSUPPORTED : NAN_QUIET;
}

static int is_nan_class(int class) {
    return class == NAN_QUIET || class == NAN_SIGNALLING;
}

/* The order of the checks on two operands, 2, 3, 4, 5: what two classes give. */
static int number_of(int x, int y) {
    if (x == UNSUPPORTED || y == UNSUPPORTED)
        return ZK_UNSUPPORTED;
    if (is_nan_class(x) || is_nan_class(y))
        return ZK_NAN;
    if (x == INFINITE)
        return ZK_INFINITE;
    return y == ZERO ? ZK_ZERO_DIVISOR : ZK_FINISHED;
}

/* Every class by every class, so every refusal in its order. */
static void remainders(void) {
    int f, x, y, kind;
    for (f = 0; f < FORMATS; f++)
        for (x = first_class(f); x < CLASSES; x++)
            for (y = first_class(f); y < CLASSES; y++)
                for (kind = 0; kind < 2; kind++) {
                    struct reply r = call_rem(f, samples[f][x], samples[f][y], (uint32_t)kind);
                    struct reply signed_one = call_remquo(f, samples[f][x], samples[f][y], (uint32_t)kind);
                    check_number(r.number, number_of(x, y), "a remainder", f);
                    check(!r.touched, "memory after a remainder", f);
                    check_number(signed_one.number, number_of(x, y), "a remquo", f);
                    check(!signed_one.touched, "memory after a remquo", f);
                }
}

/* The same for step and run, with a length and a size that may be refused before the operands are looked at. */
static void steps_with(struct pattern x, struct pattern y, size_t length, uint32_t size, int number) {
    int bad_size = size < ZK_SIZE_LEAST || size > ZK_SIZE_MOST;
    int expected = length != ZK_BLOCK_LENGTH ? ZK_BAD_LENGTH : bad_size ? ZK_BAD_SIZE : number;
    struct reply step = call_step(x, y, size, ZK_NEAREST, length);
    struct reply run = call_run(x, y, size, ZK_TRUNCATED, UINT32_MAX, length);
    struct reply none = call_run(x, y, size, ZK_TRUNCATED, 0, length);
    check_number(step.number, expected, "a step", X87);
    check_number(run.number, expected, "a run", X87);
    check_number(none.number, expected ? expected : ZK_SPENT, "a run with no budget", X87);
    check(!step.touched && !run.touched && !none.touched, "memory after a step and a run", X87);
}

/* Every length to twice the block's, 16 among them, which has no room for the quotient; and some that end in the bits of its own. */
static void steps_of(struct pattern x, struct pattern y, int number) {
    static const size_t far[] = {256, 256 + ZK_BLOCK_LENGTH, 65536 + ZK_BLOCK_LENGTH};
    static const uint32_t sizes[] = {0, 31, 32, 63, 64, 256 + 40, 65536 + 40, UINT32_C(0x80000000) + 40, UINT32_MAX};
    size_t l, s;
    for (s = 0; s < sizeof sizes / sizeof *sizes; s++) {
        for (l = 0; l <= 2 * ZK_BLOCK_LENGTH; l++)
            steps_with(x, y, l, sizes[s], number);
        for (l = 0; l < sizeof far / sizeof *far; l++)
            steps_with(x, y, far[l], sizes[s], number);
    }
}

/* A normal number by the smallest denormal, or by a pseudo-denormal, is far: its step is partial. */
static int is_far(int x, int y) {
    return x == NORMAL && (y == DENORMAL || y == PSEUDO_DENORMAL);
}

static void steps(void) {
    int x, y;
    size_t i;
    for (x = UNSUPPORTED; x < CLASSES; x++)
        for (y = UNSUPPORTED; y < CLASSES; y++)
            if (!is_far(x, y))
                steps_of(samples[X87][x], samples[X87][y], number_of(x, y));
    for (i = 0; i < sizeof unsupported / sizeof *unsupported; i++) {
        struct reply dividend = call_rem(X87, unsupported[i], samples[X87][NORMAL], ZK_TRUNCATED);
        struct reply divisor = call_rem(X87, samples[X87][NAN_QUIET], unsupported[i], ZK_NEAREST);
        struct reply of_remquo = call_remquo(X87, unsupported[i], samples[X87][NORMAL], ZK_NEAREST);
        struct reply by_remquo = call_remquo(X87, samples[X87][NAN_QUIET], unsupported[i], ZK_TRUNCATED);
        check(dividend.number == ZK_UNSUPPORTED && !dividend.touched, "an unsupported dividend", X87);
        check(divisor.number == ZK_UNSUPPORTED && !divisor.touched, "an unsupported divisor", X87);
        check(of_remquo.number == ZK_UNSUPPORTED && !of_remquo.touched, "an unsupported dividend of remquo", X87);
        check(by_remquo.number == ZK_UNSUPPORTED && !by_remquo.touched, "an unsupported divisor of remquo", X87);
        steps_of(unsupported[i], samples[X87][NORMAL], ZK_UNSUPPORTED);
        steps_of(samples[X87][NAN_QUIET], unsupported[i], ZK_UNSUPPORTED);
    }
}

/* A block of 2^32 + 20 bytes, none of which is written, so that the system need not have them. */
static void long_block(void) {
    const size_t length = ((size_t)1 << 32) + ZK_BLOCK_LENGTH;
    struct pattern x = samples[X87][NORMAL];
    uint8_t *block = (uint8_t *)mmap(NULL, length, PROT_READ | PROT_WRITE, MAP_PRIVATE | MAP_ANONYMOUS | MAP_NORESERVE, -1, 0);
    if (block == MAP_FAILED) {
        printf("no room for a long block: not tried\n");
        return;
    }
    check_number(zk_step80(x.bits, x.word, x.bits, x.word, 32, 0, block, length), ZK_BAD_LENGTH, "a step with a long block", X87);
    check_number(zk_run80(x.bits, x.word, x.bits, x.word, 32, 0, 1, block, length), ZK_BAD_LENGTH, "a run with a long block", X87);
    munmap(block, length);
}

static void scalings_and_splits(void) {
    static const int32_t powers[] = {INT32_MIN, -1, 0, 1, INT32_MAX};
    int f, x;
    size_t p, i;
    for (f = 0; f < FORMATS; f++)
        for (x = first_class(f); x < CLASSES; x++) {
            int bad = x == UNSUPPORTED ? ZK_UNSUPPORTED : is_nan_class(x) ? ZK_NAN : 0;
            struct reply split = call_split(f, samples[f][x]);
            for (p = 0; p < sizeof powers / sizeof *powers; p++) {
                struct reply r = call_scale(f, samples[f][x], powers[p]);
                check_number(r.number, bad, "a scaling", f);
                check(!r.touched, "memory after a scaling", f);
            }
            check_number(split.number, bad ? bad : x == INFINITE ? ZK_INFINITE : x == ZERO ? ZK_ZERO_SPLIT : 0, "a split", f);
            check(!split.touched, "memory after a split", f);
        }
    for (i = 0; i < sizeof unsupported / sizeof *unsupported; i++) {
        struct reply scale = call_scale(X87, unsupported[i], 1), split = call_split(X87, unsupported[i]);
        check(scale.number == ZK_UNSUPPORTED && !scale.touched, "scaling of an unsupported pattern", X87);
        check(split.number == ZK_UNSUPPORTED && !split.touched, "split of an unsupported pattern", X87);
    }
}

/* Lists lie in the middle of longer ones, whose other places must stay. */
enum { LIST = 12, FIRST = 4 };

struct lists {
    uint64_t x[LIST], results[LIST];
    uint8_t quotients[LIST];
    size_t marked[3];
};

static const uint64_t nan64 = UINT64_C(0xFFF8000000000001), infinite64 = UINT64_C(0x7FF0000000000000);
static const uint64_t signalling64 = UINT64_C(0xFFF0000000000001); /* nan64 is what it becomes */
static const uint64_t seven = UINT64_C(0x401C000000000000), two = UINT64_C(0x4000000000000000), one = UINT64_C(0x3FF0000000000000);

static void fill_lists(struct lists *l) {
    const uint64_t x[4] = {seven, signalling64, UINT64_C(0xFFF0000000000000), UINT64_C(0xC01C000000000000)};
    memset(l, filling, sizeof *l);
    memcpy(l->x + FIRST, x, sizeof x);
}

static uint8_t fold(struct lists *l, size_t nx, size_t nr, size_t nq, uint64_t y, uint32_t kind) {
    return zk_fold64(l->x + FIRST, nx, l->results + FIRST, nr, l->quotients + FIRST, nq, y, kind, l->marked + 1);
}

static void refused_fold(size_t nx, size_t nr, size_t nq, uint64_t y, int number) {
    struct lists before, l;
    fill_lists(&before);
    fill_lists(&l);
    check_number(fold(&l, nx, nr, nq, y, ZK_TRUNCATED), number, "a refused list", BINARY64);
    check_bytes(&l, &before, sizeof l, "a refused list", BINARY64);
}

static void folds(void) {
    static const size_t lengths[][3] = {{4, 4, 3}, {4, 3, 4}, {3, 4, 4}, {4, 4, 5}, {0, 0, 1}, {0, 1, 0}, {1, 0, 0}, {3, 4, 5}};
    const uint64_t divisors[] = {two, nan64, UINT64_C(0x7FF0000000000001), 0, UINT64_C(1) << 63, infinite64};
    struct lists want, l;
    size_t i, d, n;
    for (i = 0; i < sizeof lengths / sizeof *lengths; i++)
        for (d = 0; d < sizeof divisors / sizeof *divisors; d++)
            refused_fold(lengths[i][0], lengths[i][1], lengths[i][2], divisors[d], ZK_BAD_LENGTH);
    for (n = 0; n <= 4; n++) {
        refused_fold(n, n, n, nan64, ZK_NAN);
        refused_fold(n, n, n, UINT64_C(0x7FF0000000000001), ZK_NAN);
        refused_fold(n, n, n, 0, ZK_ZERO_DIVISOR);
        refused_fold(n, n, n, UINT64_C(1) << 63, ZK_ZERO_DIVISOR);
    }
    /* 7, NaN, -infinity and -7 by 2, nearest: the quotient 3.5 becomes 4 */
    for (n = 0; n <= 4; n++) {
        static const uint8_t bytes[] = {4, 255, 255, 4};
        const uint64_t results[] = {UINT64_C(0xBFF0000000000000), nan64, ZK_HOUSE_NAN64, one};
        fill_lists(&want);
        fill_lists(&l);
        memcpy(want.results + FIRST, results, n * sizeof *results);
        memcpy(want.quotients + FIRST, bytes, n);
        want.marked[1] = n < 2 ? 0 : n == 2 ? 1 : 2;
        check_number(fold(&l, n, n, n, two, ZK_NEAREST), 0, "a list", BINARY64);
        check_bytes(&l, &want, sizeof l, "a list", BINARY64);
    }
    /* by infinity: finite places are returned, the others are marked all the same */
    fill_lists(&want);
    fill_lists(&l);
    memcpy(want.results + FIRST, want.x + FIRST, 4 * sizeof *want.x);
    want.results[FIRST + 1] = nan64;
    want.results[FIRST + 2] = ZK_HOUSE_NAN64;
    memset(want.quotients + FIRST, 0, 4);
    want.quotients[FIRST + 1] = want.quotients[FIRST + 2] = ZK_MARK;
    want.marked[1] = 2;
    check_number(fold(&l, 4, 4, 4, infinite64, ZK_TRUNCATED), 0, "a list by infinity", BINARY64);
    check_bytes(&l, &want, sizeof l, "a list by infinity", BINARY64);
}

/* Lists whose lengths are equal in their lower 32 bits: refused, so that the long one is not looked at. */
static void long_lists(void) {
    const size_t n = 2, far = ((size_t)1 << 32) + n;
    uint64_t x[2] = {two, two}, results[2] = {1, 1};
    uint8_t quotients[2] = {1, 1};
    size_t marked = 12345;
    void *room = mmap(NULL, 8 * far, PROT_READ | PROT_WRITE, MAP_PRIVATE | MAP_ANONYMOUS | MAP_NORESERVE, -1, 0);
    if (room == MAP_FAILED) {
        printf("no room for long lists: not tried\n");
        return;
    }
    check_number(zk_fold64(room, far, results, n, quotients, n, two, 0, &marked), ZK_BAD_LENGTH, "a long list of dividends", BINARY64);
    check_number(zk_fold64(x, n, room, far, quotients, n, two, 0, &marked), ZK_BAD_LENGTH, "a long list of results", BINARY64);
    check_number(zk_fold64(x, n, results, n, room, far, two, 0, &marked), ZK_BAD_LENGTH, "a long list of quotients", BINARY64);
    check(results[0] == 1 && results[1] == 1 && quotients[0] == 1 && quotients[1] == 1 && marked == 12345, "a refused long list", BINARY64);
    munmap(room, 8 * far);
}

/* Blocks to the last byte: value, number, octant, steps, quotient. */
struct block_case {
    struct pattern x, y;
    uint32_t size, kind, budget; /* budget 0: a step */
    uint8_t block[ZK_BLOCK_LENGTH];
};

#define TOP UINT64_C(0x8000000000000000)
#define THREE UINT64_C(0xC000000000000000), 0x4000
/* N * y - 2^31 by y, with y = 2^63 + 1 and N = 2^65 + 2^31 */
#define BELOW_N UINT64_C(0x8000000020000001), 0x407F
#define ODD UINT64_C(0x8000000000000001), 0x403E

static const struct block_case block_cases[] = {
    /* 2^65 by 3, size 63: partial value 2, part (2^65 - 2) / 3 */
    {{TOP, 0x4040}, {THREE}, 63, 0, 0, {0, 0, 0, 0, 0, 0, 0, 0x80, 0x00, 0x40, 1, 2, 1, 0, 0, 0, 0xAA, 0xAA, 0xAA, 0x2A}},
    /* ... its end, truncated: 2 by 3 */
    {{TOP, 0x4000}, {THREE}, 63, 0, 0, {0, 0, 0, 0, 0, 0, 0, 0x80, 0x00, 0x40, 0, 0, 1, 0, 0, 0, 0, 0, 0, 0}},
    /* ... and nearest: -1 with quotient 1 */
    {{TOP, 0x4000}, {THREE}, 63, 1, 0, {0, 0, 0, 0, 0, 0, 0, 0x80, 0xFF, 0xBF, 0, 1, 1, 0, 0, 0, 1, 0, 0, 0}},
    /* ... as one run, truncated: the part alone, in two steps */
    {{TOP, 0x4040}, {THREE}, 63, 0, 9, {0, 0, 0, 0, 0, 0, 0, 0x80, 0x00, 0x40, 0, 2, 2, 0, 0, 0, 0xAA, 0xAA, 0xAA, 0x2A}},
    /* ... and nearest: one more */
    {{TOP, 0x4040}, {THREE}, 63, 7, 9, {0, 0, 0, 0, 0, 0, 0, 0x80, 0xFF, 0xBF, 0, 3, 2, 0, 0, 0, 0xAB, 0xAA, 0xAA, 0x2A}},
    /* ... with a budget of one step: spent, at the partial value */
    {{TOP, 0x4040}, {THREE}, 63, 0, 1, {0, 0, 0, 0, 0, 0, 0, 0x80, 0x00, 0x40, 7, 2, 1, 0, 0, 0, 0xAA, 0xAA, 0xAA, 0x2A}},
    /* 2^65 by 3, size 32: partial value 2^33, the part a multiple of 2^32 */
    {{TOP, 0x4040}, {THREE}, 32, 0, 0, {0, 0, 0, 0, 0, 0, 0, 0x80, 0x20, 0x40, 1, 0, 1, 0, 0, 0, 0, 0, 0, 0}},
    /* just below N, size 63: partial value 4 * y - 2^31, part N - 4 */
    {{BELOW_N}, {ODD}, 63, 1, 0, {2, 0, 0, 0xC0, 0xFF, 0xFF, 0xFF, 0xFF, 0x3F, 0x40, 1, 4, 1, 0, 0, 0, 0xFC, 0xFF, 0xFF, 0x7F}},
    /* ... as one run, truncated: the quotient N - 1 is all ones */
    {{BELOW_N}, {ODD}, 63, 0, 9, {2, 0, 0, 0, 0xFF, 0xFF, 0xFF, 0xFF, 0x3D, 0x40, 0, 7, 2, 0, 0, 0, 0xFF, 0xFF, 0xFF, 0x7F}},
    /* ... and nearest: the parts N - 4 and 4 are nothing modulo 2^31 */
    {{BELOW_N}, {ODD}, 63, 1, 9, {0, 0, 0, 0, 0, 0, 0, 0x80, 0x1E, 0xC0, 0, 0, 2, 0, 0, 0, 0, 0, 0, 0}},
    /* ... size 32: so are the parts 2^65 and 2^31 */
    {{BELOW_N}, {ODD}, 32, 1, 9, {0, 0, 0, 0, 0, 0, 0, 0x80, 0x1E, 0xC0, 0, 0, 2, 0, 0, 0, 0, 0, 0, 0}},
    /* 2^63 by 1 takes one step, 2^64 by 1 two: a zero partial value does not end a run */
    {{TOP, 0x403E}, {TOP, 0x3FFF}, 32, 0, 9, {0, 0, 0, 0, 0, 0, 0, 0, 0, 0, 0, 0, 1, 0, 0, 0, 0, 0, 0, 0}},
    {{TOP, 0x403F}, {TOP, 0x3FFF}, 32, 0, 9, {0, 0, 0, 0, 0, 0, 0, 0, 0, 0, 0, 0, 2, 0, 0, 0, 0, 0, 0, 0}},
    /* -2^64 by 1: the zero partial value is a negative one, and partial */
    {{TOP, 0xC03F}, {TOP, 0x3FFF}, 32, 0, 0, {0, 0, 0, 0, 0, 0, 0, 0, 0, 0x80, 1, 0, 1, 0, 0, 0, 0, 0, 0, 0}},
    /* the largest finite by the smallest denormal, size 32: three steps */
    {{UINT64_C(0xFFFFFFFFFFFFFFFF), 0x7FFE}, {1, 0}, 32, 0, UINT32_MAX, {0, 0, 0, 0, 0, 0, 0, 0, 0, 0, 0, 0, 3, 0, 0, 0, 0, 0, 0, 0}},
    /* by infinity: x itself, with each byte of it in its place */
    {{UINT64_C(0x8877665544332211), 0x9234}, {TOP, 0x7FFF}, 32, 1, 0,
     {0x11, 0x22, 0x33, 0x44, 0x55, 0x66, 0x77, 0x88, 0x34, 0x92, 0, 0, 1, 0, 0, 0, 0, 0, 0, 0}},
    /* ... and a pseudo-denormal: its ordinary pattern */
    {{UINT64_C(0x8877665544332211), 0x8000}, {TOP, 0x7FFF}, 32, 1, 0,
     {0x11, 0x22, 0x33, 0x44, 0x55, 0x66, 0x77, 0x88, 0x01, 0x80, 0, 0, 1, 0, 0, 0, 0, 0, 0, 0}},
    /* one pseudo-denormal by another, a place smaller: that place is left */
    {{TOP | 1, 0x8000}, {TOP, 0}, 32, 0, 9, {1, 0, 0, 0, 0, 0, 0, 0, 0x00, 0x80, 0, 1, 1, 0, 0, 0, 1, 0, 0, 0}},
};

static void blocks(void) {
    size_t i;
    for (i = 0; i < sizeof block_cases / sizeof *block_cases; i++) {
        const struct block_case *c = &block_cases[i];
        struct room room;
        uint8_t *block = (uint8_t *)lend(&room);
        uint8_t number = c->budget ? zk_run80(c->x.bits, c->x.word, c->y.bits, c->y.word, c->size, c->kind, c->budget, block, 20)
                                   : zk_step80(c->x.bits, c->x.word, c->y.bits, c->y.word, c->size, c->kind, block, 20);
        check_number(number, c->block[10], "a written block", X87);
        check_bytes(block, c->block, 20, "a written block", X87);
        check(kept(&room, 20), "bytes around a block", X87);
    }
}

/* A run of budget 0 gives the dividend. Steps take four bytes: on a far pair a budget of 300 is spent. */
static void spent_blocks(void) {
    static const uint8_t steps_300[] = {44, 1, 0, 0};
    struct pattern x = {UINT64_C(0xFFFFFFFFFFFFFFFF), 0x7FFE}, y = {UINT64_C(0xF123456789ABCDEF), 1};
    struct reply none = call_run(x, y, 32, 0, 0, 20);
    struct room room;
    uint8_t *block = (uint8_t *)lend(&room);
    check_number(none.number, ZK_SPENT, "a run with no budget", X87);
    check(same(none.value, x) && none.quotient == 0 && none.steps == 0, "a run with no budget gives the dividend", X87);
    check_number(zk_run80(x.bits, x.word, y.bits, y.word, 32, 0, 300, block, 20), ZK_SPENT, "a run with a budget of 300", X87);
    check_bytes(block + 12, steps_300, 4, "a run with a budget of 300", X87);
}

/* A remainder that one step finishes, in all ways to ask for it. */
static void check_finished(struct pattern x, struct pattern y, uint32_t kind, struct pattern value, uint32_t quotient, const char *what) {
    static const char *const names[3] = {"remainder", "step", "run"};
    const struct reply replies[3] = {call_rem(X87, x, y, kind), call_step(x, y, 32, kind, 20), call_run(x, y, 63, kind, 1, 20)};
    struct reply s = call_remquo(X87, x, y, kind);
    uint32_t i;
    checks++;
    if ((s.number || s.touched || !same(s.value, value) || s.signed_quotient != with_sign(X87, x, y, quotient)) && differs())
        printf("remquo of %s: %s quotient %ld number %u, expected %s quotient %ld (filling %02X)\n", what, text(X87, s.value),
               (long)s.signed_quotient, s.number, text(X87, value), (long)with_sign(X87, x, y, quotient), filling);
    for (i = 0; i < 3; i++) {
        struct reply r = replies[i];
        checks++;
        if (r.number == 0 && same(r.value, value) && r.quotient == quotient && r.steps == (i > 0) && !r.touched)
            continue;
        if (differs())
            printf("%s of %s: %s quotient %u number %u, expected %s quotient %u (filling %02X)\n", names[i], what, text(X87, r.value),
                   (unsigned)r.quotient, r.number, text(X87, value), (unsigned)quotient, filling);
    }
}

/* A pseudo-denormal, and the ordinary pattern of its value, which is what every result is written in. */
static const struct pattern pseudo_denormals[][2] = {
    {{TOP, 0}, {TOP, 1}},
    {{TOP | 1, 0x8000}, {TOP | 1, 0x8001}},
    {{UINT64_C(0xC000000000000000), 0}, {UINT64_C(0xC000000000000000), 1}},
    {{UINT64_C(0xFFFFFFFFFFFFFFFF), 0x8000}, {UINT64_C(0xFFFFFFFFFFFFFFFF), 0x8001}},
};

static void pseudo_denormal_remainders(struct pattern x, struct pattern ordinary) {
    struct pattern infinite = samples[X87][INFINITE], normal = samples[X87][NORMAL], minus_zero = samples[X87][ZERO], zero = {0, x.word};
    uint32_t kind;
    for (kind = 0; kind < 2; kind++) {
        check_finished(x, infinite, kind, ordinary, 0, "a pseudo-denormal by infinity");
        check_finished(x, normal, kind, ordinary, 0, "a pseudo-denormal by 1");
        check_finished(x, x, kind, zero, 1, "a pseudo-denormal by itself");
        check_finished(x, ordinary, kind, zero, 1, "a pseudo-denormal by its ordinary pattern");
        check_finished(ordinary, x, kind, zero, 1, "an ordinary pattern by its pseudo-denormal");
        check_finished(minus_zero, x, kind, minus_zero, 0, "a zero by a pseudo-denormal");
    }
}

static void pseudo_denormal_values(struct pattern x, struct pattern ordinary) {
    struct pattern significand = {x.bits, x.word | 0x3FFF};
    struct reply none = call_run(x, x, 32, 0, 0, 20), scaled = call_scale(X87, x, 0), split = call_split(X87, x);
    struct reply back = call_scale(X87, split.value, split.exponent);
    check(none.number == ZK_SPENT && same(none.value, ordinary) && none.quotient == 0 && none.steps == 0 && !none.touched,
          "a run of a pseudo-denormal with no budget", X87);
    check(scaled.number == 0 && same(scaled.value, ordinary) && scaled.says == ZK_EXACT, "a pseudo-denormal scaled by 0", X87);
    check(split.number == 0 && same(split.value, significand) && split.exponent == -16382, "a pseudo-denormal split", X87);
    check(back.number == 0 && same(back.value, ordinary) && back.says == ZK_EXACT, "a pseudo-denormal split and scaled back", X87);
}

static void pseudo_denormal_operands(void) {
    size_t i;
    for (i = 0; i < sizeof pseudo_denormals / sizeof *pseudo_denormals; i++) {
        pseudo_denormal_remainders(pseudo_denormals[i][0], pseudo_denormals[i][1]);
        pseudo_denormal_values(pseudo_denormals[i][0], pseudo_denormals[i][1]);
    }
}

/* 0 is truncated, and any other kind nearest: 7 by 2 is 1 with quotient 3, or -1 with 4. */
static void kinds(void) {
    static const uint32_t numbers[] = {0, 1, 2, 255, 256, 65536, UINT32_C(0x80000000), UINT32_MAX};
    static const struct pattern sevens[FORMATS] = {{0x4700, 0}, {0x40E00000, 0}, {UINT64_C(0x401C000000000000), 0},
                                                   {UINT64_C(0xE000000000000000), 0x4001}};
    static const struct pattern twos[FORMATS] = {{0x4000, 0}, {0x40000000, 0}, {UINT64_C(0x4000000000000000), 0}, {TOP, 0x4000}};
    static const struct pattern ones[FORMATS] = {{0x3C00, 0}, {0x3F800000, 0}, {UINT64_C(0x3FF0000000000000), 0}, {TOP, 0x3FFF}};
    static const struct pattern less[FORMATS] = {{0xBC00, 0}, {0xBF800000, 0}, {UINT64_C(0xBFF0000000000000), 0}, {TOP, 0xBFFF}};
    size_t i;
    int f;
    for (i = 0; i < sizeof numbers / sizeof *numbers; i++) {
        uint32_t quotient = numbers[i] ? 4 : 3;
        struct reply step = call_step(sevens[X87], twos[X87], 63, numbers[i], 20);
        struct reply run = call_run(sevens[X87], twos[X87], 63, numbers[i], 1, 20);
        struct lists l;
        for (f = 0; f < FORMATS; f++) {
            struct reply r = call_rem(f, sevens[f], twos[f], numbers[i]);
            check(r.number == 0 && same(r.value, numbers[i] ? less[f] : ones[f]) && r.quotient == quotient, "a kind", f);
            check(!r.touched, "memory after a kind", f);
            check(agrees_with_rem(f, sevens[f], twos[f], call_remquo(f, sevens[f], twos[f], numbers[i]), r), "a kind of a remquo", f);
        }
        check(same(step.value, numbers[i] ? less[X87] : ones[X87]) && step.quotient == quotient, "a kind of a step", X87);
        check(same(run.value, numbers[i] ? less[X87] : ones[X87]) && run.quotient == quotient, "a kind of a run", X87);
        fill_lists(&l);
        check(fold(&l, 1, 1, 1, two, numbers[i]) == 0 && l.quotients[FIRST] == quotient, "a kind of a list", BINARY64);
        check(l.x[FIRST] == seven, "the dividends of a list", BINARY64);
    }
}

/* Operands above zero whose quotient reaches its 31 bits' end, or is 0: what both kinds give. */
struct quotient_case {
    int f;
    struct pattern x, y;
    struct {
        struct pattern value;
        uint32_t quotient;
    } of[2];
};

static const struct quotient_case quotient_cases[] = {
    /* by the smallest place of binary16, and by 1: as much below 2^31 as the format can be, */
    {BINARY16, {0x57FF, 0}, {1, 0}, {{{0, 0}, 0x7FF00000}, {{0, 0}, 0x7FF00000}}},
    {BINARY32, {0x4EFFFFFF, 0}, {0x3F800000, 0}, {{{0, 0}, 0x7FFFFF80}, {{0, 0}, 0x7FFFFF80}}},
    /* which is 2^31 - 1/2, rounded to all ones or to nothing, */
    {BINARY64, {UINT64_C(0x41DFFFFFFFE00000), 0}, {UINT64_C(0x3FF0000000000000), 0},
     {{{UINT64_C(0x3FE0000000000000), 0}, 0x7FFFFFFF}, {{UINT64_C(0xBFE0000000000000), 0}, 0}}},
    {X87, {UINT64_C(0xFFFFFFFF00000000), 0x401D}, {TOP, 0x3FFF}, {{{TOP, 0x3FFE}, 0x7FFFFFFF}, {{TOP, 0xBFFE}, 0}}},
    /* 2^31, */
    {BINARY16, {0x5800, 0}, {1, 0}, {{{0, 0}, 0}, {{0, 0}, 0}}},
    {BINARY32, {0x4F000000, 0}, {0x3F800000, 0}, {{{0, 0}, 0}, {{0, 0}, 0}}},
    {BINARY64, {UINT64_C(0x41E0000000000000), 0}, {UINT64_C(0x3FF0000000000000), 0}, {{{0, 0}, 0}, {{0, 0}, 0}}},
    {X87, {TOP, 0x401E}, {TOP, 0x3FFF}, {{{0, 0}, 0}, {{0, 0}, 0}}},
    /* and 2^31 + 2^30 */
    {BINARY16, {0x5A00, 0}, {1, 0}, {{{0, 0}, 0x40000000}, {{0, 0}, 0x40000000}}},
    {BINARY32, {0x4F400000, 0}, {0x3F800000, 0}, {{{0, 0}, 0x40000000}, {{0, 0}, 0x40000000}}},
    {BINARY64, {UINT64_C(0x41E8000000000000), 0}, {UINT64_C(0x3FF0000000000000), 0}, {{{0, 0}, 0x40000000}, {{0, 0}, 0x40000000}}},
    {X87, {UINT64_C(0xC000000000000000), 0x401E}, {TOP, 0x3FFF}, {{{0, 0}, 0x40000000}, {{0, 0}, 0x40000000}}},
    /* 1 by infinity, and the smallest place by 1 */
    {BINARY16, {0x3C00, 0}, {0x7C00, 0}, {{{0x3C00, 0}, 0}, {{0x3C00, 0}, 0}}},
    {BINARY32, {0x3F800000, 0}, {0x7F800000, 0}, {{{0x3F800000, 0}, 0}, {{0x3F800000, 0}, 0}}},
    {BINARY64, {UINT64_C(0x3FF0000000000000), 0}, {UINT64_C(0x7FF0000000000000), 0},
     {{{UINT64_C(0x3FF0000000000000), 0}, 0}, {{UINT64_C(0x3FF0000000000000), 0}, 0}}},
    {X87, {TOP, 0x3FFF}, {TOP, 0x7FFF}, {{{TOP, 0x3FFF}, 0}, {{TOP, 0x3FFF}, 0}}},
    {BINARY16, {1, 0}, {0x3C00, 0}, {{{1, 0}, 0}, {{1, 0}, 0}}},
    {BINARY32, {1, 0}, {0x3F800000, 0}, {{{1, 0}, 0}, {{1, 0}, 0}}},
    {BINARY64, {1, 0}, {UINT64_C(0x3FF0000000000000), 0}, {{{1, 0}, 0}, {{1, 0}, 0}}},
    {X87, {1, 0}, {TOP, 0x3FFF}, {{{1, 0}, 0}, {{1, 0}, 0}}},
};

/* With all signs: the value has the dividend's, rem's quotient none, and remquo's that of x/y. */
static void quotients(void) {
    size_t i;
    int signs, kind;
    for (i = 0; i < sizeof quotient_cases / sizeof *quotient_cases; i++)
        for (signs = 0; signs < 4; signs++)
            for (kind = 0; kind < 2; kind++) {
                const struct quotient_case *c = &quotient_cases[i];
                struct pattern x = negated(c->f, c->x, signs & 1), y = negated(c->f, c->y, signs >> 1);
                struct pattern value = negated(c->f, c->of[kind].value, signs & 1);
                int32_t quotient = (int32_t)c->of[kind].quotient;
                struct reply r = call_rem(c->f, x, y, (uint32_t)kind), s = call_remquo(c->f, x, y, (uint32_t)kind);
                check(r.number == 0 && same(r.value, value) && r.quotient == c->of[kind].quotient && !r.touched, "a quotient", c->f);
                check(s.number == 0 && same(s.value, value) && !s.touched, "a value of remquo", c->f);
                check(s.signed_quotient == (signs == 1 || signs == 2 ? -quotient : quotient), "a quotient of remquo", c->f);
            }
}

/* What scaling and splitting write, one value a format: three quarters of the smallest place up, a quarter down, and there and back. */
static void scaled_values(void) {
    int f;
    for (f = 0; f < FORMATS; f++) {
        struct pattern three = {3, 0}, one_place = {1, 0}, none = {0, 0};
        struct reply up = call_scale(f, three, -2), down = call_scale(f, one_place, -2), half = call_scale(f, one_place, -1);
        struct reply split = call_split(f, three), back = call_scale(f, split.value, split.exponent);
        check(same(up.value, one_place) && up.says == ZK_UP, "scaling up", f);
        check(same(down.value, none) && down.says == ZK_DOWN, "scaling down", f);
        check(same(half.value, none) && half.says == ZK_DOWN, "scaling at a half", f);
        check(split.exponent == formats[f].smallest + 1, "an exponent", f);
        check(same(back.value, three) && back.says == ZK_EXACT, "splitting and back", f);
    }
}

static void everything(void) {
    static void (*const parts[])(void) = {
        remainders,   steps,                    long_block, scalings_and_splits, folds,         long_lists, blocks,
        spent_blocks, pseudo_denormal_operands, kinds,      quotients,           scaled_values,
    };
    size_t i;
    for (i = 0; i < sizeof parts / sizeof *parts; i++) {
        next_part();
        parts[i]();
    }
}

int main(void) {
    everything();
    filling = 0x5A;
    everything();
    printf("%" PRIu64 " checks\n", checks);
    return verdict();
}
