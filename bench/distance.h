// The rules' distance, for the peers: per dimension the gap between the nearer ends, and the sum of the two gaps' squares.
#pragma once
#include "yards.h"

#include <algorithm>

inline uint64_t gap(uint32_t alo, uint32_t ahi, uint32_t blo, uint32_t bhi) {
    const int64_t after = int64_t(blo) - int64_t(ahi);
    const int64_t before = int64_t(alo) - int64_t(bhi);
    return uint64_t(std::max<int64_t>(0, std::max(after, before)));
}

inline uint64_t square(const Rect &a, const Rect &b) {
    const uint64_t dx = gap(a.xlo, a.xhi, b.xlo, b.xhi);
    const uint64_t dy = gap(a.ylo, a.yhi, b.ylo, b.yhi);
    return dx * dx + dy * dy;
}

inline uint64_t square(Point q, const Rect &a) {
    return square(Rect{q.x, q.y, q.x, q.y}, a);
}

inline uint64_t squared(uint32_t r) {
    return uint64_t(r) * r;
}
