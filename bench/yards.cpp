#include "yards.h"

#include <algorithm>
#include <random>

namespace {

// Numbers from a seed, the same with every library: the engine is fixed by the language, its distributions are not, and are not used.
class Numbers {
public:
    explicit Numbers(uint64_t seed) : engine(seed) {}

    // from lo up to hi, both included
    uint32_t between(uint32_t lo, uint32_t hi) {
        return lo + uint32_t(engine() % (uint64_t(hi) - lo + 1));
    }

private:
    std::mt19937_64 engine;
};

// A rectangle of so many centimetres more in x and y, cut at the grid's edge.
void add(Register &reg, Grid g, Point at, uint32_t wide, uint32_t high) {
    const uint32_t last = g.n * g.side - 1;
    reg.insert(reg.end(), {at.x, at.y, std::min(at.x + wide, last), std::min(at.y + high, last)});
}

Point anywhere(Numbers &numbers, uint32_t columns, uint32_t rows) {
    const uint32_t x = numbers.between(0, columns - 1);
    const uint32_t y = numbers.between(0, rows - 1);
    return {x, y};
}

void add_small(Register &reg, Grid g, Numbers &numbers, uint32_t columns) {
    const Point at = anywhere(numbers, columns, g.n * g.side);
    const uint32_t wide = numbers.between(10, 300);
    const uint32_t high = numbers.between(10, 300);
    add(reg, g, at, wide, high);
}

void add_duct(Register &reg, Grid g, Numbers &numbers) {
    const Point at = anywhere(numbers, g.n * g.side, g.n * g.side);
    const uint32_t length = numbers.between(2000, 40000);
    const uint32_t width = numbers.between(10, 100);
    if (numbers.between(0, 1) == 0) {
        add(reg, g, at, length, width);
    } else {
        add(reg, g, at, width, length);
    }
}

} // namespace

const char *name_of(Kind kind) {
    switch (kind) {
    case Kind::small:
        return "small";
    case Kind::ducts:
        return "ducts";
    default:
        return "bare half";
    }
}

Register yard(Kind kind, Grid g, size_t footprints) {
    Numbers numbers(1 + uint64_t(kind));
    const uint32_t extent = g.n * g.side;
    Register reg;
    reg.reserve(4 * footprints);
    while (count(reg) < footprints) {
        if (kind == Kind::ducts) {
            add_duct(reg, g, numbers);
        } else {
            add_small(reg, g, numbers, kind == Kind::bare ? extent / 2 : extent);
        }
    }
    return reg;
}

Register digs(Grid g, size_t many) {
    Numbers numbers(11);
    Register reg;
    reg.reserve(4 * many);
    while (count(reg) < many) {
        add_small(reg, g, numbers, g.n * g.side);
    }
    return reg;
}

std::vector<Point> points(Grid g, size_t many) {
    Numbers numbers(12);
    std::vector<Point> list;
    while (list.size() < many) {
        list.push_back(anywhere(numbers, g.n * g.side, g.n * g.side));
    }
    return list;
}
