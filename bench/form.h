// The same method in plain C++: a grid of two layers with sixteen classes, over vectors. It keeps the orders of the rules, but it trusts its
// own tables: nothing is judged and nothing is refused.
#pragma once
#include "answers.h"
#include "yards.h"

class Form {
public:
    Form(Grid g, const Register &reg);

    void build();

    void search(Point q, uint32_t r, Hits &out) const;

    // The pairs of these footprints with S's, for r up to side.
    void join(const Form &s, uint32_t r, Pairs &out) const;

    // What a tile covers, and the classes that it gives to a point of tile (qrow, qcol), bit c for class c.
    Rect cover(uint32_t row, uint32_t col) const;
    static uint16_t allowed(uint32_t row, uint32_t col, uint32_t qrow, uint32_t qcol);

    const Grid g;
    const Register reg;
    std::vector<uint32_t> starts, entries;

    // Where the next entry of each run goes, while it builds.
    std::vector<uint32_t> next;

private:
    void join_tiles(const Form &s, uint32_t t, uint32_t u, int position, uint64_t most, Pairs &out) const;
};
