// The plain scan: every footprint is looked at, and nothing is built.
#pragma once
#include "answers.h"
#include "yards.h"

class Scan {
public:
    explicit Scan(const Register &reg) : reg(reg) {}

    void search(Point q, uint32_t r, Hits &out) const;

    // A walk: the squares of all footprints, as a heap; each ask takes the least.
    void start(Point q);
    void ask(uint32_t j, Rows &out);

    // The pairs of these footprints with S's.
    void join(const Scan &s, uint32_t r, Pairs &out) const;

private:
    const Register reg;
    Rows heap;
};
