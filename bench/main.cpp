// The product against its peers: ratios, never times.
#include "measure.h"
#include "rows.h"
#include "table.h"

#include <cstdio>

static void preface() {
    std::printf(
        "Product / peer, by the processor's time that each takes: below 1 the product is faster.\n"
        "Peers: Boost.Geometry's packed R-tree, a plain scan, and the same method in plain C++, which trusts its tables and judges nothing.\n"
        "Grid: n %u, side %s; %s footprints; %s digs. Yards: small footprints, long ducts, small ones with a bare half.\n"
        "Each row's answers are compared first. Then all take turns in one process: medians over %d to %d rounds.\n"
        "Buffers: tables, outputs and fronts are made once, touched before, and reused; the R-tree asks for its nodes anew in every build,\n"
        "from memory touched before. Fresh builds, the R-tree's too, go into new memory, never touched.\n",
        unsigned(main_grid.n), spaced(main_grid.side).c_str(), spaced(main_footprints).c_str(), spaced(main_digs).c_str(), few_rounds,
        many_rounds);
}

static void forty_preface() {
    std::printf("\nForty probes in one call of the product, by forty calls of it that write the same lists one behind the other.\n");
}

static void walk_preface() {
    std::printf(
        "\nIn a walk the R-tree is asked for the nearest k: as many as the first ask wants, then twice as many whenever all are given.\n"
        "zeros: one zeroing of the front for each start and each ask, which the rules demand, by itself.\n"
        "iterator: the R-tree's own, which like the product is not told how many will be asked for; from %d points, over %d rounds.\n",
        int(iterator_points), iterator_rounds);
}

// The main rows, yard by yard.
static void main_rows() {
    const std::vector<Kind> kinds = {Kind::small, Kind::ducts, Kind::bare};
    std::vector<std::unique_ptr<Bed>> beds;
    for (Kind kind : kinds) {
        beds.push_back(std::make_unique<Bed>(main_grid, yard(kind, main_grid, main_footprints)));
    }
    Bed dig_bed(main_grid, digs(main_grid, main_digs));
    const auto each = [&](auto rows) {
        for (size_t k = 0; k < kinds.size(); ++k) {
            rows(kinds[k], *beds[k]);
        }
    };

    heading("build", {"/ R-tree", "/ scan", "/ C++ form"});
    each(build_rows);
    heading("radius", {"/ R-tree", "/ scan", "/ C++ form"});
    each(radius_rows);
    forty_preface();
    heading("forty", {"/ single calls"});
    each(forty_rows);
    walk_preface();
    heading("walk", {"/ R-tree", "/ scan", "/ C++ form", "zeros/product", "zeros/R-tree", "/ iterator"});
    each(walk_rows);
    heading("join", {"/ R-tree", "/ scan", "/ C++ form"});
    each([&](Kind kind, Bed &bed) { join_rows(kind, dig_bed, bed); });
}

int main() {
    preface();
    main_rows();
    growth_with_n();
    growth_with_register();
    growth_with_r();
    const Noise n = noise();
    std::printf("\nNoise: the middle half of a ratio's rounds lay within %.0f%% of its median (the median of all rows), %.0f%% at worst.\n",
                100 * n.middle, 100 * n.worst);
    return 0;
}
