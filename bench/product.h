// The product, called as C++ programs call it, with what it is lent.
#pragma once
#include "luvgarden.h"
#include "yards.h"

using Probes = std::vector<luv_probe>;

class Product {
public:
    // Lends starts and as many entries as it says that it needs, and builds.
    Product(Grid g, const Register &reg);

    void build();

    // How many hits; `hits` has them.
    size_t search(Point q, uint32_t r);

    // All probes in one call, and each in a call of its own with what is left of the same output. How many hits; `lists` has them, `ends` where
    // each list ends.
    size_t search_all(const Probes &probes);
    size_t search_each(const Probes &probes);

    // Lends as much as the lists of these probes need.
    void make_room(const Probes &probes);

    void start(Point q);

    // How many rows; `rows` has them.
    size_t ask(uint32_t j);

    // How many pairs of these footprints with S's; `pairs` has them.
    size_t join(const Product &s, uint32_t r);

    // Lends as much as the pairs need.
    void make_room(const Product &s, uint32_t r);

    const Grid g;
    const Register reg;
    std::vector<uint32_t> starts, entries;
    std::vector<uint32_t> hits, lists, pairs;
    std::vector<uint64_t> ends, front, rows;
    uint64_t waiting = 0;

private:
    Point at{};
    uint32_t mark = 0;
};

// Builds into lent memory.
void product_build(Grid g, const Register &reg, uint32_t *starts, size_t starts_length, uint32_t *entries, size_t entries_length);
