/* Operands of all formats, for the tables. The same ones in every run. */
#include "harness.h"

#include <stdio.h>

/* How many digits a significand has behind its leading one. */
static const unsigned places[] = {10, 23, 52, 63};

uint64_t draw(uint64_t *state) {
    uint64_t z = *state += UINT64_C(0x9E3779B97F4A7C15);
    z = (z ^ z >> 30) * UINT64_C(0xBF58476D1CE4E5B9);
    z = (z ^ z >> 27) * UINT64_C(0x94D049BB133111EB);
    return z ^ z >> 31;
}

/* The fields of a binary16, put where a binary32 has them, are 112 too low an exponent. */
uint32_t widened(uint16_t binary16) {
    uint32_t magnitude = (uint32_t)(binary16 & 0x7FFF) << 13, sign = (uint32_t)(binary16 >> 15) << 31;
    return sign | zk_pattern_of_float(zk_float_of_pattern(magnitude) * 0x1p112f);
}

void put(struct numbers *to, enum format format, size_t i, uint64_t random, unsigned field) {
    uint64_t sign = random >> 63, exponent = field, fraction = random & ((UINT64_C(1) << places[format]) - 1);
    switch (format) {
    case BINARY16:
        to->binary16[i] = (uint16_t)(sign << 15 | exponent << 10 | fraction);
        to->binary32[i] = widened(to->binary16[i]);
        break;
    case BINARY32:
        to->binary32[i] = (uint32_t)(sign << 31 | exponent << 23 | fraction);
        break;
    case BINARY64:
        to->binary64[i] = sign << 63 | exponent << 52 | fraction;
        break;
    case X87:
        to->x87[i].pattern.significand = (uint64_t)(field > 0) << 63 | fraction;
        to->x87[i].pattern.word = (uint16_t)(sign << 15 | exponent);
        break;
    }
}

uint64_t draw_denormal(uint64_t *state, enum format format) {
    uint64_t digits = 2 + draw(state) % (places[format] - 1), random = draw(state);
    return (random & UINT64_C(1) << 63) | random << 1 >> (64 - digits) | 1;
}

void fill_gaps(struct operands *o, const struct row *row) {
    uint64_t state = 1;
    size_t i;
    for (i = 0; i < o->n; i++) {
        unsigned gap = (unsigned)row->least + (unsigned)(draw(&state) % (uint64_t)(row->most - row->least + 1));
        put(&o->y, row->format, i, draw(&state), row->field);
        put(&o->x, row->format, i, draw(&state), row->field + gap);
    }
}

static void write_pattern(char *text, const struct numbers *x, enum format format, size_t i) {
    switch (format) {
    case BINARY16:
        sprintf(text, "%04X", (unsigned)x->binary16[i]);
        break;
    case BINARY32:
        sprintf(text, "%08lX", (unsigned long)x->binary32[i]);
        break;
    case BINARY64:
        sprintf(text, "%016llX", (unsigned long long)x->binary64[i]);
        break;
    case X87:
        sprintf(text, "%04X%016llX", (unsigned)x->x87[i].pattern.word, (unsigned long long)x->x87[i].pattern.significand);
        break;
    }
}

const char *text_of(const struct operands *o, size_t i) {
    static char text[80];
    char x[24], y[24];
    write_pattern(x, &o->x, o->format, i);
    write_pattern(y, &o->y, o->format, i);
    sprintf(text, "x %s, y %s, power %ld", x, y, (long)o->powers[i]);
    return text;
}
