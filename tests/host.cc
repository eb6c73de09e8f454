// The header and the archive from C++: 21.5 by 2 is 1.5 with quotient 10, and -21.5 is 0.5 from -11 times 2. Of a refusal, the NaN.
#include "zukemoriha.h"

#include <cstdio>

int main() {
    const uint64_t two = zk_pattern_of_double(2), signalling = UINT64_C(0xFFF0000000000001), quiet = UINT64_C(0xFFF8000000000001);
    uint64_t value = 0, from_nearest = 0, none = 0, significand = 0;
    uint32_t quotient = 0, no_quotient = 0;
    int32_t nearest = 0;
    uint16_t word = 0;
    uint8_t number = zk_rem64(zk_pattern_of_double(21.5), two, ZK_TRUNCATED, &value, &quotient);
    uint8_t other = zk_remquo64(zk_pattern_of_double(-21.5), two, ZK_NEAREST, &from_nearest, &nearest);
    uint8_t refused = zk_rem64(two, signalling, ZK_TRUNCATED, &none, &no_quotient);
    zk_nan80(1, 0, UINT64_C(0x8000000000000001), 0xFFFF, &significand, &word);
    bool right = number == ZK_FINISHED && zk_double_of_pattern(value) == 1.5 && quotient == 10;
    bool right_too = other == ZK_FINISHED && zk_double_of_pattern(from_nearest) == 0.5 && nearest == -11;
    bool right_nan = refused == ZK_NAN && zk_nan64(two, signalling) == quiet;
    bool right_nan_too = significand == UINT64_C(0xC000000000000001) && word == 0xFFFF;
    bool right_class = zk_denormal64(1) == 1 && zk_denormal64(0) == 0;
    bool all = right && right_too && right_nan && right_nan_too && right_class;
    std::printf("C++ host: %s\n", all ? "ok" : "FAILED");
    return all ? 0 : 1;
}
