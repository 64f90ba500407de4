/* Document 01, 'Sine'. */
#include "baseline.h"

static int64_t quarter(uint64_t r) {
    const uint64_t one = 1 << 30;
    uint64_t y = r * 1686629713 / one;
    uint64_t z = y * y / one;
    uint64_t h = one - z / 156;
    h = one - z * h / (110 * one);
    h = one - z * h / (72 * one);
    h = one - z * h / (42 * one);
    h = one - z * h / (20 * one);
    h = one - z * h / (6 * one);
    uint64_t s = y * h / one;
    return s < one ? s : one;
}

int64_t base_sine(uint32_t tick) {
    uint64_t r = tick % (1u << 30);
    switch (tick / (1u << 30)) {
    case 0: return quarter(r);
    case 1: return quarter((1 << 30) - r);
    case 2: return -quarter(r);
    default: return -quarter((1 << 30) - r);
    }
}

int64_t base_cosine(uint32_t tick) { return base_sine(tick + (1u << 30)); }
