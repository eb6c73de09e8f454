/*
 * Values whose scaling cuts off every number of places, with left-overs around a half of what is cut. A significand has its leading one at
 * bit 63, and places are counted from its bit 0: a format of p digits has nothing there in the first 64 - p of them. With fewer than 24
 * places a value of binary16 is beyond the range.
 */
#ifndef HALVES_H
#define HALVES_H

#include "operands.h"

/* From 64 places on nothing is kept, and from 65 on nothing goes up. Quotients are few from 58 places on: 32, and fewer. */
enum { MOST_PLACES = 130, FEW_QUOTIENTS = 58, DRAWN_QUOTIENTS = 8, STARTS = 5 };

typedef void scaling(int f, struct pattern x, int power);

/* The cases of one format: where they are, and how many of them were halves at each number of places. */
struct halves {
    int f, places;
    scaling *compare;
    uint64_t state, found[65];
};

static inline uint64_t last_digit(int f) {
    return UINT64_C(1) << (64 - formats[f].precision);
}

static inline int is_half(uint64_t significand, int places) {
    return places >= 1 && places <= 64 && significand << (64 - places) == UINT64_C(1) << 63;
}

/* The lowest exponent that leaves room for the last one of a significand; often it is a denormal's, which is then odd. */
static inline int lowest_exponent(int f, uint64_t significand) {
    int exponent = formats[f].smallest + 63;
    for (; significand % 2 == 0; significand /= 2)
        exponent--;
    return exponent;
}

static inline void scale_pattern(struct halves *h, struct pattern x, struct operand o) {
    h->compare(h->f, x, formats[h->f].smallest + 63 - o.exponent - h->places);
    if (is_half(o.significand, h->places))
        h->found[h->places]++;
}

/* Where a value has a pseudo-denormal too, from both patterns. */
static inline void scale_from(struct halves *h, struct operand o) {
    struct pattern x = encode(h->f, o);
    scale_pattern(h, x, o);
    if (has_pseudo_denormal(x))
        scale_pattern(h, pseudo_denormal_of(x), o);
}

/* From the lowest exponent, and where it is above that from the largest of a denormal, the smallest of a normal number, 0 and the largest;
 * with both signs. */
static inline void scale_significand(struct halves *h, uint64_t significand) {
    int bias = formats[h->f].bias, lowest = lowest_exponent(h->f, significand), i;
    int from[STARTS] = {lowest, -bias, 1 - bias, 0, bias};
    for (i = 0; i < 2 * STARTS; i++) {
        struct operand o = {i % 2, from[i / 2], significand};
        if (i < 2 || o.exponent > lowest)
            scale_from(h, o);
    }
}

/* Where nothing can be left over, or nothing can go up: the first digit, with the last, all, all but the last, and some. */
static inline void scale_digits(struct halves *h) {
    uint64_t top = UINT64_C(1) << 63, last = last_digit(h->f), all = ~(last - 1), drawn = draw(&h->state) & all;
    uint64_t significands[] = {top, top | last, all, all ^ last, top | drawn, top | (drawn ^ all)};
    size_t i;
    for (i = 0; i < sizeof significands / sizeof *significands; i++)
        scale_significand(h, significands[i]);
}

/*
 * A quotient with nothing left over, the least, some, just below a half, a half, just above it, some more, and the most. Each is above
 * those before it; where the digits are few one is not, and was there already. Quotient 0 has its leading one in what is left over.
 */
static inline void scale_quotient(struct halves *h, uint64_t quotient) {
    uint64_t half = UINT64_C(1) << (h->places - 1), last = last_digit(h->f), below_half = half - last, some = draw(&h->state) & below_half;
    uint64_t left[] = {0, last, some, below_half, half, half | last, half | some, half | below_half};
    uint64_t kept = h->places == 64 ? 0 : quotient << h->places, reached = 0;
    size_t i;
    for (i = 0; i < sizeof left / sizeof *left; i++) {
        if (i > 0 && left[i] <= reached)
            continue;
        reached = left[i];
        if ((kept | left[i]) >> 63)
            scale_significand(h, kept | left[i]);
    }
}

static inline void scale_every_quotient(struct halves *h) {
    uint64_t first = h->places == 64 ? 0 : UINT64_C(1) << (63 - h->places), quotient = first;
    do
        scale_quotient(h, quotient++);
    while (quotient < 2 * first);
}

/* Both ends of their range, and drawn ones, even and odd by turns. */
static inline void scale_some_quotients(struct halves *h) {
    uint64_t first = UINT64_C(1) << (63 - h->places), i;
    for (i = 0; i < 2; i++) {
        scale_quotient(h, first + i);
        scale_quotient(h, 2 * first - 1 - i);
    }
    for (i = 0; i < DRAWN_QUOTIENTS; i++)
        scale_quotient(h, first | (draw(&h->state) & (first - 2)) | i % 2);
}

static inline void scale_places(struct halves *h) {
    if (h->places > 64 || h->places <= 64 - formats[h->f].precision)
        scale_digits(h);
    else if (h->places >= FEW_QUOTIENTS)
        scale_every_quotient(h);
    else
        scale_some_quotients(h);
}

/* How many of the cases lie at a half. A number of places without one, where the format has some, counts as a difference. */
static inline uint64_t halves_found(const struct halves *h) {
    uint64_t all = 0;
    int places;
    for (places = 65 - formats[h->f].precision; places <= 64; places++) {
        all += h->found[places];
        if (h->found[places] == 0 && differs())
            printf("%s has no half at %d places\n", formats[h->f].name, places);
    }
    return all;
}

/* Calls `compare` for every number of places up to `most`. Returns how many of the cases lie at a half. */
static inline uint64_t around_halves(int f, int most, scaling *compare) {
    struct halves h = {f, 0, compare, 1, {0}};
    for (; h.places <= most; h.places++)
        scale_places(&h);
    return halves_found(&h);
}

/* The third argument of a comparison: how many places at most. */
static inline int places_asked(int argc, char **argv) {
    return argc > 3 ? (int)strtol(argv[3], NULL, 10) : MOST_PLACES;
}

#endif
