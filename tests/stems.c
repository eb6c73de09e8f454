/*
 * Stem files: zk_stem_open against a judge of bytes that is written here, zk_stem_fold against the C library's subtraction and fmod.
 *
 *   stems [POINTS [SEED]]    POINTS are folded, and a twentieth as many files are changed at random
 *
 * Every file is judged twice, with two fillings of what is lent for the outputs, so that no byte is right by chance, and in two places: an
 * unreadable page begins behind its last byte, then one ends before its first. A byte that is read outside of the file is seen there,
 * whatever reads it.
 */
#define _GNU_SOURCE
#include "stems.h"

#include <math.h>

static const uint64_t most64 = UINT64_C(0x7FEFFFFFFFFFFFFF);

static uint64_t files, accepted, numbers[16];

/* ---- a second judge */

static uint8_t first_refusal(const uint8_t *file, size_t length) {
    if (length < HEADER)
        return 14;
    if (memcmp(file, "STM", 3) != 0)
        return 10;
    if (file[3] != 1 || file[4] != 0)
        return 11;
    if (file[5] != 0 && file[5] != 1)
        return 12;
    if (little(file + 6, 4) > MOST)
        return 13;
    if (length != HEADER + POINT * little(file + 6, 4))
        return 14;
    return has_gauge(file) ? 0 : 15;
}

static struct opened judge(const uint8_t *file, size_t length) {
    struct opened o;
    memset(&o, 0, sizeof o);
    o.number = first_refusal(file, length);
    if (o.number)
        return o;
    o.kind = file[5];
    o.period = little(file + 10, 8);
    o.origin = little(file + 18, 8);
    o.start = HEADER;
    o.count = (length - HEADER) / POINT;
    return o;
}

/* ---- the library on a file */

static void print_opened(const char *who, struct opened o) {
    printf("  %-10s number %u kind %u period %016" PRIX64 " origin %016" PRIX64 " start %lu count %lu\n", who, o.number, (unsigned)o.kind,
           o.period, o.origin, (unsigned long)o.start, (unsigned long)o.count);
}

static int tell(const char *what, const uint8_t *file, size_t length) {
    size_t i;
    if (!differs())
        return 0;
    printf("%s: %s, %lu bytes", part, what, (unsigned long)length);
    for (i = 0; i < length && i < HEADER; i++)
        printf(" %02X", file[i]);
    printf("\n");
    return 1;
}

/* What a host would do: the points are taken from where the library says that they are, every byte of them. */
static int points_differ(const uint8_t *lent, struct opened got, const uint8_t *file, struct opened want) {
    static uint8_t points[POINT * (MOST + 1)];
    memcpy(points, lent + got.start, POINT * (got.count <= MOST ? got.count : MOST + 1));
    return memcmp(points, file + HEADER, POINT * want.count) != 0;
}

/* A file as it lies at `lent`, a copy of `file`. */
struct trial {
    const uint8_t *lent, *file;
    size_t length;
    struct opened want;
};

static void compare_lent(const void *trial) {
    const struct trial *t = (const struct trial *)trial;
    struct opened got = call_open(t->lent, t->length), want = t->want;
    int right = got.number == want.number && got.kind == want.kind && got.period == want.period && got.origin == want.origin &&
                got.start == want.start && got.count == want.count;
    if (!right && tell(got.number == want.number ? "what is written" : "the number", t->file, t->length)) {
        print_opened("zukemoriha", got);
        print_opened("expected", want);
    }
    if (got.touched)
        tell("an output is touched", t->file, t->length);
    if (memcmp(t->lent, t->file, t->length) != 0)
        tell("the file is changed", t->file, t->length);
    if (got.number == 0 && points_differ(t->lent, got, t->file, want))
        tell("other points", t->file, t->length);
}

static struct area between_walls;

static void compare_placed(const uint8_t *file, size_t length, struct opened want) {
    int end;
    for (end = 0; end < ENDS; end++, filling ^= 0xFF) {
        struct trial t = {lend_at(&between_walls, end, file, length), file, length, want};
        if (!stays_inside(compare_lent, &t))
            tell("a byte outside of the file is read", file, length);
    }
}

static void compare_file(const uint8_t *file, size_t length) {
    struct opened want = judge(file, length);
    files++;
    accepted += want.number == 0;
    numbers[want.number]++;
    compare_placed(file, length, want);
}

/* ---- files */

static void good_files(void) {
    static const uint32_t counts[] = {0, 1, 2, 3999, 4000};
    uint32_t kind;
    size_t i;
    for (kind = 0; kind < 2; kind++)
        for (i = 0; i < sizeof counts / sizeof *counts; i++)
            compare_file(room, good_file(kind, counts[i]));
}

/* Files of many points are judged as those of few are: one byte of the header changed, all lengths right. */
static void changed_bytes_of_many(void) {
    static const uint32_t counts[] = {8, 100, 1000, MOST - 1, MOST};
    size_t c;
    uint32_t kind;
    int byte, bit;
    for (c = 0; c < sizeof counts / sizeof *counts; c++)
        for (kind = 0; kind < 2; kind++)
            for (byte = 0; byte < HEADER; byte++)
                for (bit = 0; bit < 8; bit++) {
                    size_t length = good_file(kind, counts[c]);
                    room[byte] ^= (uint8_t)(1 << bit);
                    compare_file(room, length);
                }
}

/* Every byte of the header with every other value. */
static void changed_bytes(void) {
    uint32_t kind;
    int byte, value;
    for (kind = 0; kind < 2; kind++)
        for (byte = 0; byte < HEADER; byte++)
            for (value = 0; value < 256; value++) {
                size_t length = good_file(kind, 3 * kind);
                room[byte] = (uint8_t)value;
                compare_file(room, length);
            }
}

/* Every length from nothing to the whole file, and beyond it. */
static void lengths(void) {
    uint32_t kind, count;
    size_t length;
    for (kind = 0; kind < 2; kind++)
        for (count = 0; count < 8; count++)
            for (length = 0; length <= HEADER + POINT * (size_t)count + 17; length++) {
                good_file(kind, count);
                compare_file(room, length);
            }
}

/* Counts near the ends, and some between, with the length that they ask for and ones beside it. Those above the limit have it too. */
static void counts_and_lengths(void) {
    static const int beside[] = {-16, -1, 0, 1, 16};
    uint32_t count;
    size_t i;
    for (count = 0; count <= MOST + 100; count += count < 64 || count >= MOST - 64 ? 1 : 61)
        for (i = 0; i < sizeof beside / sizeof *beside; i++) {
            size_t length = good_file(count & 1, count) + (size_t)beside[i];
            if (length <= LONGEST)
                compare_file(room, length);
        }
}

static void far_counts_files(void) {
    uint32_t kind;
    size_t i;
    for (kind = 0; kind < 2; kind++)
        for (i = 0; i < FAR_COUNTS; i++) {
            uint32_t wrapped = UINT32_C(26) + UINT32_C(16) * far_counts[i];
            good_file(kind, far_counts[i]);
            compare_file(room, HEADER);
            compare_file(room, HEADER + POINT);
            compare_file(room, HEADER + POINT * (far_counts[i] & 4095));
            if (wrapped <= LONGEST)
                compare_file(room, wrapped);
        }
}

static void gauges(void) {
    uint32_t kind;
    int p, o;
    for (kind = 0; kind < 2; kind++)
        for (p = 0; p < CLASSES; p++)
            for (o = 0; o < CLASSES; o++)
                compare_file(room, make_file(kind, 1, classes[p], classes[o]));
}

/* Several faults in one file: the first in the order is told. */
static void faults_together(void) {
    static const char *const marks[] = {"STM", "sTM", "StM", "STm"};
    static const unsigned versions[] = {1, 2, 0x101}, kinds[] = {0, 1, 255};
    static const uint32_t counts[] = {0, 2, MOST + 1, UINT32_MAX};
    static const size_t off[] = {0, 1, 16};
    static const uint64_t periods[] = {UINT64_C(0x4076800000000000), 0, UINT64_C(0xFFF8000000000000)};
    static const uint64_t origins[] = {0, UINT64_C(0x4076800000000000), UINT64_C(0x7FF0000000000000)};
    size_t m, v, k, c, l, p, o;
    for (m = 0; m < sizeof marks / sizeof *marks; m++)
        for (v = 0; v < sizeof versions / sizeof *versions; v++)
            for (k = 0; k < sizeof kinds / sizeof *kinds; k++)
                for (c = 0; c < sizeof counts / sizeof *counts; c++)
                    for (p = 0; p < sizeof periods / sizeof *periods; p++)
                        for (o = 0; o < sizeof origins / sizeof *origins; o++) {
                            make_file(kinds[k], counts[c], periods[p], origins[o]);
                            memcpy(room, marks[m], 3);
                            put(room + 3, versions[v], 2);
                            compare_file(room, HEADER - 1);
                            for (l = 0; l < sizeof off / sizeof *off; l++)
                                compare_file(room, HEADER + POINT * (size_t)(counts[c] % MOST) + off[l]);
                        }
}

#ifdef __SANITIZE_ADDRESS__

static void long_file(void) {}

#else

/* A length that only its upper bits tell from that of a good file. The bytes are never read, so that the system need not have them. */
static const size_t far_length = ((size_t)1 << 32) + HEADER + POINT;

static void compare_long(const void *file) {
    struct opened got = call_open((const uint8_t *)file, far_length);
    if (got.number != ZK_STEM_LENGTH)
        tell("the number", room, HEADER);
    if (got.touched)
        tell("an output is touched", room, HEADER);
}

static void long_file(void) {
    size_t length = good_file(ZK_TURN, 1);
    uint8_t *file = (uint8_t *)mmap(NULL, far_length, PROT_READ | PROT_WRITE, MAP_PRIVATE | MAP_ANONYMOUS | MAP_NORESERVE, -1, 0);
    if (file == MAP_FAILED) {
        printf("no room for a long file: not tried\n");
        return;
    }
    memcpy(file, room, length);
    files++;
    if (!stays_inside(compare_long, file))
        tell("a byte outside of the file is read", room, length);
    munmap(file, far_length);
}

#endif

static void written_files(void) {
    try_part("a good file", good_files);
    try_part("a byte of the header", changed_bytes);
    try_part("a byte before many points", changed_bytes_of_many);
    try_part("a length", lengths);
    try_part("a count", counts_and_lengths);
    try_part("a far count", far_counts_files);
    try_part("a gauge", gauges);
    try_part("faults together", faults_together);
    try_part("a long file", long_file);
}

static void random_files(uint64_t cases, uint64_t seed) {
    uint64_t state = seed, i;
    begin("a random file");
    for (i = 0; going(i, cases); i++)
        compare_file(room, random_file(&state));
}

/* ---- points */

struct point {
    uint32_t kind;
    uint64_t period, origin, reading;
};

/* What becomes of a point; each has to come up. */
enum { OTHER_KIND, BAD_GAUGE, NOT_FINITE, TOO_LARGE, TURNED, EXACT, ROUNDED, TIED, OUTCOMES };

static const char *const outcome_names[OUTCOMES] = {"kind refused", "gauge refused", "reading not finite", "difference infinite",
                                                    "of a turn", "difference exact", "rounded", "at a half"};
static uint64_t outcomes[OUTCOMES], zeros[2];

static int gauge_is_good(struct point p) {
    double period = zk_double_of_pattern(p.period);
    return isfinite(period) && period > 0 && (p.kind == ZK_TURN ? p.origin == 0 : isfinite(zk_double_of_pattern(p.origin)));
}

/* How reading - origin was rounded: what it has lost, found by Knuth's sum, is nothing, half of the last place, or something else. */
static int rounding_of(volatile double reading, volatile double origin, volatile double left) {
    volatile double back = left - reading, kept = left - back, lost_of_origin = -origin - back, lost = (reading - kept) + lost_of_origin;
    if (!isfinite(lost) || lost == 0)
        return EXACT;
    return 2 * fabs(lost) == nextafter(fabs(left), INFINITY) - fabs(left) ? TIED : ROUNDED;
}

/* What C says of a point: one subtraction, then fmod. */
static struct reply theirs(struct point p, int *outcome) {
    volatile double reading = zk_double_of_pattern(p.reading), origin = zk_double_of_pattern(p.origin), left = reading;
    struct reply r = {0};
    if (p.kind > 1 || !gauge_is_good(p)) {
        r.number = p.kind > 1 ? 12 : 15;
        *outcome = p.kind > 1 ? OTHER_KIND : BAD_GAUGE;
        return r;
    }
    if (p.kind == ZK_ROLLER)
        left = reading - origin;
    *outcome = !isfinite(reading)   ? NOT_FINITE
               : !isfinite(left)    ? TOO_LARGE
               : p.kind == ZK_TURN ? TURNED
                                    : rounding_of(reading, origin, left);
    r.value.bits = isfinite(left) ? zk_pattern_of_double(fmod(left, zk_double_of_pattern(p.period))) : UINT64_C(0x7FF8000000000000);
    return r;
}

static void compare_point(struct point p) {
    int outcome;
    struct reply got = call_stem_fold(p.kind, p.period, p.origin, p.reading), want = theirs(p, &outcome);
    outcomes[outcome]++;
    if (want.number == 0 && (want.value.bits & ~sign64) == 0)
        zeros[want.value.bits >> 63]++;
    if ((got.number == want.number && same(got.value, want.value) && !got.touched) || !differs())
        return;
    printf("%s: %s, kind %08X period %016" PRIX64 " origin %016" PRIX64 " reading %016" PRIX64 "\n", part,
           got.touched ? "wrote where it may not" : got.number == want.number ? outcome_names[outcome] : "the number", (unsigned)p.kind,
           p.period, p.origin, p.reading);
    printf("  zukemoriha %016" PRIX64 " number %u\n", got.value.bits, got.number);
    printf("  C library  %016" PRIX64 " number %u\n", want.value.bits, want.number);
}

/* Every class by every class by every class, and kinds that have a good one in their lower bits. */
static void classes_of_points(void) {
    struct point p;
    uint32_t k;
    int period, origin, reading;
    /* 0 and 1, and both with each higher bit */
    for (k = 0; k < 64; k++)
        for (period = 0; period < CLASSES; period++)
            for (origin = 0; origin < CLASSES; origin++)
                for (reading = 0; reading < CLASSES; reading += k > 1 ? 13 : 1) {
                    p.kind = (k & 1) | (k > 1 ? UINT32_C(1) << (k >> 1) : 0);
                    p.period = classes[period];
                    p.origin = classes[origin];
                    p.reading = classes[reading];
                    compare_point(p);
                }
}

static uint64_t bits_of(struct operand o) {
    return encode(BINARY64, o).bits;
}

/* An odd number of halves of the reading's last place. */
static struct point tied_point(uint64_t *state) {
    struct operand o = {below(state, 2), between(state, -1000, 1023), any_significand(state)}, halves;
    struct point p;
    p.reading = bits_of(o);
    halves = operand_of(below(state, 2) ? 1 : draw(state) >> between(state, 11, 62) | 1, o.exponent - 53);
    halves.negative = below(state, 2);
    p.origin = bits_of(halves);
    return p;
}

/* Two values at the end of the range, or whose difference is there. */
static struct point large_point(uint64_t *state) {
    struct operand o = {below(state, 2), 1023 - below(state, 3), any_significand(state)};
    struct operand other = {!o.negative, 1023 - below(state, 57), any_significand(state)};
    struct point p;
    p.reading = below(state, 2) ? most64 | (uint64_t)o.negative << 63 : bits_of(o);
    p.origin = below(state, 2) ? bits_of(other) : bits_of(other) & UINT64_C(0xFFF0000000000000);
    return p;
}

/* What leaves nothing, or little: equal values, neighbours, opposite signs. */
static struct point near_point(uint64_t *state) {
    struct point p;
    p.reading = any_finite(BINARY64, state).bits;
    p.origin = p.reading + (uint64_t)between(state, -2, 2);
    if (below(state, 4) == 0)
        p.reading &= UINT64_C(0xFFF0000000000000); /* a power of two: its neighbour below is half as far */
    if (below(state, 8) == 0)
        p.origin ^= sign64;
    return p;
}

static struct point denormal_point(uint64_t *state) {
    struct point p;
    p.reading = draw(state) >> between(state, 10, 63) | draw(state) << 63;
    p.origin = draw(state) >> between(state, 10, 63) | draw(state) << 63;
    return p;
}

static struct point two_of(struct pair q) {
    struct point p;
    p.reading = q.x.bits;
    p.origin = q.y.bits;
    return p;
}

static struct point any_values(uint64_t *state) {
    struct pair zeros = {{draw(state) << 63, 0}, {draw(state) << 63, 0}}, one = {any_bits(BINARY64, state), any_finite(BINARY64, state)};
    switch (below(state, 16)) {
    case 0: return two_of(zeros);
    case 1: return two_of(one);
    case 2:
    case 3:
    case 4: return tied_point(state);
    case 5:
    case 6: return large_point(state);
    case 7:
    case 8: return near_point(state);
    case 9:
    case 10: return denormal_point(state);
    default: return two_of(any_pair(BINARY64, state));
    }
}

/* A period some places below the reading, as far as the range goes; some that are none. */
static uint64_t any_period(uint64_t reading, uint64_t *state) {
    struct pattern x = {reading, 0};
    struct operand o = {0, 0, any_significand(state)};
    if (below(state, 32) == 0)
        return any_bits(BINARY64, state).bits;
    if (below(state, 32) == 0)
        return classes[below(state, CLASSES)];
    if (!leading_place(BINARY64, x, &o.exponent) || below(state, 8) == 0)
        o.exponent = between(state, -1074, 1023);
    o.exponent -= gap_in(BINARY64, any_band(state), state);
    o.exponent = o.exponent < -1074 ? -1074 : o.exponent > 1023 ? 1023 : o.exponent;
    return bits_of(o);
}

static struct point any_point(uint64_t *state) {
    struct point p = any_values(state);
    p.period = any_period(p.reading, state);
    p.kind = below(state, 8) != 0;
    if (p.kind == ZK_TURN && below(state, 16))
        p.origin = 0;
    if (below(state, 64) == 0)
        p.kind = (uint32_t)draw(state);
    return p;
}

static void print_outcomes(uint64_t points) {
    int i;
    printf("%" PRIu64 " points:", points);
    for (i = 0; i < OUTCOMES; i++) {
        if (outcomes[i])
            printf(" %s %" PRIu64 ",", outcome_names[i], outcomes[i]);
        else if (differs())
            printf(" %s has no point,", outcome_names[i]);
    }
    printf(" zeros left %" PRIu64 " and %" PRIu64 "\n", zeros[0], zeros[1]);
}

static void points(uint64_t cases, uint64_t seed) {
    uint64_t state = seed, i;
    begin("a point");
    memset(outcomes, 0, sizeof outcomes);
    memset(zeros, 0, sizeof zeros);
    for (i = 0; going(i, cases); i++)
        compare_point(any_point(&state));
    print_outcomes(cases);
}

/* A whole file as a host takes it: opened, and each of its points folded by the gauge that was given. */
static void whole_files(uint64_t cases, uint64_t seed) {
    uint64_t state = seed, i, folded = 0;
    size_t j;
    begin("a point of a file");
    for (i = 0; i < cases; i++) {
        struct opened o;
        struct point p;
        size_t length = good_file((uint32_t)below(&state, 2), (uint32_t)below(&state, 40));
        for (j = HEADER; j < length; j += 8)
            put(room + j, any_pair(BINARY64, &state).x.bits, 8);
        compare_file(room, length);
        o = call_open(room, length);
        folded += o.count;
        p.kind = o.kind;
        p.period = o.period;
        p.origin = o.origin;
        for (j = 0; j < o.count; j++) {
            p.reading = little(room + o.start + POINT * j, 8);
            compare_point(p);
        }
    }
    printf("%" PRIu64 " points of %" PRIu64 " files\n", folded, cases);
}

/* ---- memory */

/* In little memory, the largest counts get their numbers, and nothing is kept. */
static void largest_files(void) {
    size_t i;
    for (i = 0; i < 100; i++) {
        good_file(i & 1, far_counts[i % FAR_COUNTS]);
        compare_file(room, HEADER);
        compare_file(room, HEADER + POINT * MOST);
        compare_file(room, good_file(i & 1, MOST - i % 2));
    }
}

static void little_memory(void) {
    if (grows_in_little_memory(largest_files))
        tell("the process has grown", room, HEADER);
}

int main(int argc, char **argv) {
    uint64_t cases = pairs_asked(argc, argv, 1000000), seed = seed_asked(argc, argv), i;
    between_walls = area_of(LONGEST);
    for (i = 0; i < LONGEST; i++)
        room[i] = (uint8_t)(i * 37 + i / 256);
    written_files();
    random_files(cases / 20 + 1, seed);
    try_part("a class of point", classes_of_points);
    points(cases, seed);
    whole_files(cases / 1000 + 1, seed);
    try_part("little memory", little_memory);
    printf("%" PRIu64 " files, %" PRIu64 " accepted; refused:", files, accepted);
    for (i = 10; i < 16; i++)
        printf(" %u: %" PRIu64 "%s", (unsigned)i, numbers[i], i < 15 ? "," : "\n");
    return verdict();
}
