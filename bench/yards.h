// What is searched: yards, points and digs, made from fixed seeds, so that every contender and every run has the same.
#pragma once
#include <cstddef>
#include <cstdint>
#include <vector>

struct Grid {
    uint32_t n, side;
};

struct Point {
    uint32_t x, y;
};

// Both ends belong to it.
struct Rect {
    uint32_t xlo, ylo, xhi, yhi;
};

// Four numbers a footprint: xlo, ylo, xhi, yhi. Its number is its place from 0.
using Register = std::vector<uint32_t>;

// Small footprints everywhere; long ducts everywhere; small footprints in the left half and nothing in the right.
enum class Kind { small, ducts, bare };

const char *name_of(Kind kind);

Register yard(Kind kind, Grid g, size_t footprints);

// Digs: small rectangles everywhere.
Register digs(Grid g, size_t many);

// Points everywhere, also in a bare half.
std::vector<Point> points(Grid g, size_t many);

inline size_t count(const Register &reg) {
    return reg.size() / 4;
}

inline Rect footprint(const Register &reg, size_t i) {
    return {reg[4 * i], reg[4 * i + 1], reg[4 * i + 2], reg[4 * i + 3]};
}
