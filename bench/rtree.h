// Boost.Geometry's R-tree, packed: built at once from all footprints. Its boxes have numbers of 32 bits, squares have 64.
#pragma once
#include "answers.h"
#include "yards.h"

#include <memory>

class Rtree {
public:
    explicit Rtree(const Register &reg);
    ~Rtree();

    // Packs the tree again, in memory that it asks for anew.
    void build();

    // Leaves the tree empty until it is packed again.
    void drop();

    // What meets the box around the circle, and of that what lies within r.
    void search(Point q, uint32_t r, Hits &out) const;

    // A walk by the nearest k: the first ask asks the tree for as many as it wants, and later ones for twice as many whenever all are given.
    void start(Point q);
    void ask(uint32_t j, Rows &out);

    // A walk by the tree's own iterator, which like the product is not told how many will be asked for.
    void start_iterator(Point q);
    void ask_iterator(uint32_t j, Rows &out);

    // The pairs of digs with these footprints: a search around each dig.
    void join(const Register &digs, uint32_t r, Pairs &out) const;

private:
    struct Inside;
    std::unique_ptr<Inside> in;
};
