#include "agree.h"
#include "measure.h"
#include "rows.h"
#include "table.h"

#include <cstring>
#include <string>

namespace {

// Zeroes as much memory as a front has: no start and no ask can do with less than this.
class Zeroing {
public:
    explicit Zeroing(const Product &product) : memory(product.front.size(), 1) {}

    void once() {
        std::memset(memory.data(), 0, memory.size() * sizeof memory[0]);
        // the compiler may not leave the zeros out
        asm volatile("" : : "r"(memory.data()) : "memory");
    }

private:
    std::vector<uint64_t> memory;
};

// A walk's turn: a start and its asks from every point.
template <typename Start, typename Ask> Turn walks(const std::vector<Point> &from, const std::vector<uint32_t> &asks, Start start, Ask ask) {
    return [&from, &asks, start, ask] {
        for (Point q : from) {
            start(q);
            for (uint32_t j : asks) {
                ask(j);
            }
        }
    };
}

// The product's time by that of the R-tree's iterator.
double to_iterator(Bed &bed, const std::vector<uint32_t> &asks) {
    const std::vector<Point> from = points(main_grid, iterator_points);
    agree_on_iterator(bed, from, asks);
    Rows out;
    const Rounds rounds(
        {
            walks(from, asks, [&](Point q) { bed.product.start(q); }, [&](uint32_t j) { bed.product.ask(j); }),
            walks(from, asks, [&](Point q) { bed.rtree.start_iterator(q); }, [&](uint32_t j) { bed.rtree.ask_iterator(j, out); }),
        },
        iterator_rounds);
    return rounds.ratio(0, 1);
}

void walk_row(const std::string &name, Bed &bed, const std::vector<Point> &from, const std::vector<uint32_t> &asks) {
    agree_on_walk(bed, from, asks);
    Zeroing zeroing(bed.product);
    Rows out;
    const Rounds rounds(
        {
            walks(from, asks, [&](Point q) { bed.product.start(q); }, [&](uint32_t j) { bed.product.ask(j); }),
            walks(from, asks, [&](Point q) { bed.rtree.start(q); }, [&](uint32_t j) { bed.rtree.ask(j, out); }),
            walks(from, asks, [&](Point q) { bed.scan.start(q); }, [&](uint32_t j) { bed.scan.ask(j, out); }),
            walks(from, asks, [&](Point q) { bed.walk.start(q); }, [&](uint32_t j) { bed.walk.ask(j, out); }),
            walks(from, asks, [&](Point) { zeroing.once(); }, [&](uint32_t) { zeroing.once(); }),
        },
        few_rounds);
    const double to_scan = rounds.ratio(0, 2), to_form = rounds.ratio(0, 3), zeros = rounds.ratio(4, 0);
    if (asks.empty()) {
        // the R-tree does nothing before the first ask
        line(name, {none, to_scan, to_form, zeros, none, none});
    } else {
        line(name, {rounds.ratio(0, 1), to_scan, to_form, zeros, rounds.ratio(4, 1), to_iterator(bed, asks)});
    }
}

} // namespace

void walk_rows(Kind kind, Bed &bed) {
    const std::vector<Point> from = points(main_grid, 50);
    const std::string name = std::string("walk, ") + name_of(kind) + ", a start";
    walk_row(name, bed, from, {});
    for (uint32_t j : {1u, 10u, 100u, 1000u}) {
        walk_row(name + " and an ask of " + spaced(j), bed, from, {j});
    }
    walk_row(name + " and 100 asks of 1", bed, points(main_grid, 10), std::vector<uint32_t>(100, 1));
}
