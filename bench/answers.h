// What the peers answer.
#pragma once
#include <cstdint>
#include <vector>

// Numbers of footprints.
using Hits = std::vector<uint32_t>;

// A row that a walk gives.
struct Given {
    uint64_t footprint, square;
};

using Rows = std::vector<Given>;

// A footprint of R and one of S.
struct Pair {
    uint32_t r, s;
};

using Pairs = std::vector<Pair>;

inline bool operator==(Given a, Given b) {
    return a.footprint == b.footprint && a.square == b.square;
}

inline bool operator==(Pair a, Pair b) {
    return a.r == b.r && a.s == b.s;
}

inline bool operator<(Pair a, Pair b) {
    return a.r != b.r ? a.r < b.r : a.s < b.s;
}
