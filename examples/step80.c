/*
 * Steps an 80-bit reading to its end, as a host with an x87 unit would with FPREM, and prints the quotient and the octant.
 *
 *   step80 [X Y SIZE KIND]    X and Y as 20 hex digits, the sign-and-exponent word first; KIND 0 truncated, 1 nearest
 *
 * Both are in the sum of the steps' quotient parts, not in the last step's alone: 2^65 by 3 in steps of size 63 shows the difference. Parts
 * are told modulo 2^31, and so is their sum; the octant is the sum modulo 8.
 * Of a step that is refused it prints the number, and which operand was bad.
 */
#include "zukemoriha.h"

#include <inttypes.h>
#include <stdio.h>
#include <stdlib.h>
#include <string.h>

struct x87 {
    uint64_t significand;
    uint16_t word;
};

/* Gives 0 if the text is not 20 hex digits. */
static int read_x87(const char *digits, struct x87 *x) {
    char word[5] = "";
    if (strlen(digits) != 20 || strspn(digits, "0123456789abcdefABCDEF") != 20)
        return 0;
    memcpy(word, digits, 4);
    x->word = (uint16_t)strtoul(word, NULL, 16);
    x->significand = strtoull(digits + 4, NULL, 16);
    return 1;
}

static void print_quotient(uint32_t sum, uint8_t last) {
    printf("quotient %lu, octant %u; the last step's flags show %u: C0 %d C3 %d C1 %d\n", (unsigned long)sum, (unsigned)(sum % 8), last,
           zk_c0(last), zk_c3(last), zk_c1(last));
}

/* A refusal has written nothing: which NaN it speaks of, and whether an operand was denormal, is asked. */
static void print_refusal(struct x87 x, struct x87 y, uint8_t number) {
    struct x87 nan;
    printf("refused with %u", number);
    if (number == ZK_NAN) {
        zk_nan80(x.significand, x.word, y.significand, y.word, &nan.significand, &nan.word);
        printf(": the NaN %04X%016" PRIX64, nan.word, nan.significand);
    }
    if (number != ZK_BAD_SIZE && (zk_denormal80(x.significand, x.word) || zk_denormal80(y.significand, y.word)))
        printf(", with a denormal operand");
    printf("\n");
}

static int step_to_end(struct x87 x, struct x87 y, uint32_t size, uint32_t kind) {
    uint8_t block[ZK_BLOCK_LENGTH];
    uint32_t sum = 0, steps = 0;
    uint8_t number;
    printf("%04X%016" PRIX64 " by %04X%016" PRIX64 ", size %u, %s\n", x.word, x.significand, y.word, y.significand, (unsigned)size,
           kind == ZK_TRUNCATED ? "truncated" : "nearest");
    do {
        number = zk_step80(x.significand, x.word, y.significand, y.word, size, kind, block, sizeof block);
        if (!zk_is_answer(number)) {
            print_refusal(x, y, number);
            return 1;
        }
        x.significand = zk_block_significand(block);
        x.word = zk_block_word(block);
        sum = (sum + zk_block_quotient(block)) % ZK_QUOTIENT_MODULUS;
        steps += zk_block_steps(block);
        printf("step %u: %04X%016" PRIX64 " %s, quotient part %lu\n", (unsigned)steps, x.word, x.significand,
               number == ZK_PARTIAL ? "partial" : "finished", (unsigned long)zk_block_quotient(block));
    } while (number == ZK_PARTIAL);
    print_quotient(sum, zk_block_octant(block));
    return 0;
}

int main(int argc, char **argv) {
    static const struct x87 two_to_65 = {UINT64_C(0x8000000000000000), 0x4040}, three = {UINT64_C(0xC000000000000000), 0x4000};
    static const struct x87 reading = {UINT64_C(0x9A209A84FBCFF799), 0x40A8}, quarter_pi = {UINT64_C(0xC90FDAA22168C235), 0x3FFE};
    static const struct x87 denormal = {1, 0}, signalling = {UINT64_C(0x8000000000000007), 0xFFFF};
    struct x87 x, y;
    if (argc == 5 && read_x87(argv[1], &x) && read_x87(argv[2], &y))
        return step_to_end(x, y, (uint32_t)strtoul(argv[3], NULL, 10), (uint32_t)strtoul(argv[4], NULL, 10));
    if (argc != 1) {
        fprintf(stderr, "usage: step80 [X Y SIZE KIND]\n");
        return 2;
    }
    if (step_to_end(two_to_65, three, 63, ZK_TRUNCATED) || step_to_end(two_to_65, three, 63, ZK_NEAREST) ||
        step_to_end(reading, quarter_pi, 40, ZK_TRUNCATED))
        return 1;
    return !step_to_end(denormal, signalling, 63, ZK_TRUNCATED);
}
