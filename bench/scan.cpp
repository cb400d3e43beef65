#include "scan.h"

#include "distance.h"

#include <algorithm>

// Whether a comes later in a walk: heaps have the greatest first.
static bool later(Given a, Given b) {
    return a.square != b.square ? a.square > b.square : a.footprint > b.footprint;
}

void Scan::search(Point q, uint32_t r, Hits &out) const {
    out.clear();
    const uint64_t most = squared(r);
    const size_t all = count(reg);
    for (size_t i = 0; i < all; ++i) {
        if (square(q, footprint(reg, i)) <= most) {
            out.push_back(uint32_t(i));
        }
    }
}

void Scan::start(Point q) {
    const size_t all = count(reg);
    heap.resize(all);
    for (size_t i = 0; i < all; ++i) {
        heap[i] = {i, square(q, footprint(reg, i))};
    }
    std::make_heap(heap.begin(), heap.end(), later);
}

void Scan::ask(uint32_t j, Rows &out) {
    out.clear();
    while (out.size() < j && !heap.empty()) {
        std::pop_heap(heap.begin(), heap.end(), later);
        out.push_back(heap.back());
        heap.pop_back();
    }
}

void Scan::join(const Scan &s, uint32_t r, Pairs &out) const {
    out.clear();
    const uint64_t most = squared(r);
    const size_t all_r = count(reg);
    const size_t all_s = count(s.reg);
    for (size_t i = 0; i < all_r; ++i) {
        const Rect a = footprint(reg, i);
        for (size_t j = 0; j < all_s; ++j) {
            if (square(a, footprint(s.reg, j)) <= most) {
                out.push_back({uint32_t(i), uint32_t(j)});
            }
        }
    }
}
