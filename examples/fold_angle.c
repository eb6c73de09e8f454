/*
 * A host that folds angles onto one turn and feed lengths onto one roller, exactly.
 *
 *   gcc fold_angle.c $(pkg-config --cflags --libs zukemoriha)      (after make install)
 */
#include "zukemoriha.h"

#include <math.h>
#include <stdio.h>

enum { READINGS = 6 };

/*
 * One angle a call. The truncated remainder keeps the angle's sign, and zk_rem64 counts the whole turns without one. The nearest remainder
 * is at most half a turn from a mark, and zk_remquo64 tells which one: the angle is so many turns, with their sign, and what is left. Both
 * count modulo 2^31.
 */
static void fold_angle(double degrees) {
    const double countable = 360.0 * INT32_MAX;
    uint64_t turn = zk_pattern_of_double(360.0), angle = zk_pattern_of_double(degrees), truncated, nearest;
    uint32_t whole_turns;
    int32_t nearest_turn;
    if (zk_rem64(angle, turn, ZK_TRUNCATED, &truncated, &whole_turns) != ZK_FINISHED ||
        zk_remquo64(angle, turn, ZK_NEAREST, &nearest, &nearest_turn) != ZK_FINISHED)
        return;
    printf("%8g degrees: %g after %lu whole turns, %g from the mark of turn %ld%s\n", degrees, zk_double_of_pattern(truncated),
           (unsigned long)whole_turns, zk_double_of_pattern(nearest), (long)nearest_turn,
           degrees > -countable && degrees < countable ? "" : ", turns modulo 2^31");
}

/* A NaN whose last byte is the number of a fault, as the gauge writes it. */
static uint64_t faulty(uint8_t number) {
    return ZK_HOUSE_NAN64 | number;
}

/*
 * A whole list a call, with a byte for each quotient. One reading is infinite: the gauge had lost the log there. One is a NaN, which stays
 * what it is: the gauge's number can be read from the result.
 */
static void fold_feed(uint64_t roller) {
    static const double feed[READINGS - 1] = {100.5, 3300.0, 1e15 + 0.125, -812.75, INFINITY};
    uint64_t x[READINGS], on_roller[READINGS];
    uint8_t quotients[READINGS];
    size_t marked, i;
    uint8_t number;
    for (i = 0; i < READINGS - 1; i++)
        x[i] = zk_pattern_of_double(feed[i]);
    x[READINGS - 1] = faulty(7);
    number = zk_fold64(x, READINGS, on_roller, READINGS, quotients, READINGS, roller, ZK_TRUNCATED, &marked);
    printf("roller %g mm: ", zk_double_of_pattern(roller));
    if (number != ZK_FINISHED) {
        /* nothing was written, marked included; which NaN it was is asked */
        printf("refused with %u", number);
        if (number == ZK_NAN)
            printf(", the gauge's fault %u", (unsigned)(zk_nan64(roller, roller) & 255));
        printf("\n");
        return;
    }
    printf("%u of %u readings have no place on it\n", (unsigned)marked, (unsigned)READINGS);
    for (i = 0; i < READINGS; i++) {
        printf("%24.17g mm: ", zk_double_of_pattern(x[i]));
        if (quotients[i] != ZK_MARK)
            printf("%.17g mm on the roller, turn %u modulo 8\n", zk_double_of_pattern(on_roller[i]), quotients[i]);
        else if (on_roller[i] == ZK_HOUSE_NAN64)
            printf("marked\n");
        else
            printf("marked, the gauge's fault %u\n", (unsigned)(on_roller[i] & 255));
    }
}

int main(void) {
    fold_angle(725.5);
    fold_angle(-30.25);
    fold_angle(540.0);
    fold_angle(-1000.0);
    fold_angle(1e11);
    fold_angle(1e22);
    fold_feed(zk_pattern_of_double(812.5));
    fold_feed(zk_pattern_of_double(0.0));
    fold_feed(faulty(3));
    return 0;
}
