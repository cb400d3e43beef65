#include "agree.h"
#include "measure.h"
#include "rows.h"
#include "table.h"

#include <string>

namespace {

// A yard and the digs of its joins.
struct Site {
    Site(Grid g, size_t footprints) : yard_bed(g, yard(Kind::small, g, footprints)), dig_bed(g, digs(g, main_digs)) {}

    Bed yard_bed, dig_bed;
    Hits hits;
    Rows rows;
    Pairs pairs;
};

using Sites = std::vector<std::unique_ptr<Site>>;

const uint32_t growth_radius = 2500;
const uint32_t growth_ask = 100;
const uint32_t growth_join = 500;

// One line of a table of growth: a contender's turns, the first being the one that the others are measured by.
struct Line {
    std::string name;
    std::vector<Turn> turns;
};

// All lines' contenders take turns with each other.
void growth_lines(const std::vector<Line> &lines, int rounds) {
    std::vector<Turn> all;
    for (const Line &one : lines) {
        all.insert(all.end(), one.turns.begin(), one.turns.end());
    }
    const Rounds times(all, rounds);
    size_t first = 0;
    for (const Line &one : lines) {
        std::vector<double> ratios;
        for (size_t k = 0; k < one.turns.size(); ++k) {
            ratios.push_back(times.ratio(first + k, first));
        }
        line(one.name, ratios);
        first += one.turns.size();
    }
}

// The turns of one work at all sites.
template <typename Work> Line over(const std::string &name, const Sites &sites, Work work) {
    Line one{name, {}};
    for (const auto &site : sites) {
        one.turns.push_back([&s = *site, work] { work(s); });
    }
    return one;
}

void build_growth(const Sites &sites) {
    for (const auto &site : sites) {
        agree_on_build(site->yard_bed);
    }
    growth_lines(
        {
            over("build, product", sites, [](Site &s) { s.yard_bed.product.build(); }),
            over("build, R-tree", sites, [](Site &s) { s.yard_bed.rtree.build(); }),
            over("build, C++ form", sites, [](Site &s) { s.yard_bed.form.build(); }),
        },
        few_rounds);
}

void radius_growth(const Sites &sites) {
    const std::vector<Point> from = points(sites[0]->yard_bed.product.g, 200);
    for (const auto &site : sites) {
        agree_on_search(site->yard_bed, from, growth_radius);
    }
    const auto each = [&from](auto search) {
        return [&from, search](Site &s) {
            for (Point q : from) {
                search(s, q);
            }
        };
    };
    growth_lines(
        {
            over("radius, product", sites, each([](Site &s, Point q) { s.yard_bed.product.search(q, growth_radius); })),
            over("radius, R-tree", sites, each([](Site &s, Point q) { s.yard_bed.rtree.search(q, growth_radius, s.hits); })),
            over("radius, C++ form", sites, each([](Site &s, Point q) { s.yard_bed.form.search(q, growth_radius, s.hits); })),
        },
        many_rounds);
}

void walk_growth(const Sites &sites) {
    const std::vector<Point> from = points(sites[0]->yard_bed.product.g, 50);
    for (const auto &site : sites) {
        agree_on_walk(site->yard_bed, from, {growth_ask});
    }
    const auto each = [&from](auto walk) {
        return [&from, walk](Site &s) {
            for (Point q : from) {
                walk(s, q);
            }
        };
    };
    growth_lines(
        {
            over("walk, product", sites, each([](Site &s, Point q) {
                     s.yard_bed.product.start(q);
                     s.yard_bed.product.ask(growth_ask);
                 })),
            over("walk, R-tree", sites, each([](Site &s, Point q) {
                     s.yard_bed.rtree.start(q);
                     s.yard_bed.rtree.ask(growth_ask, s.rows);
                 })),
            over("walk, C++ form", sites, each([](Site &s, Point q) {
                     s.yard_bed.walk.start(q);
                     s.yard_bed.walk.ask(growth_ask, s.rows);
                 })),
        },
        few_rounds);
}

void join_growth(const Sites &sites) {
    for (const auto &site : sites) {
        agree_on_join(site->dig_bed, site->yard_bed, growth_join);
    }
    growth_lines(
        {
            over("join, product", sites, [](Site &s) { s.dig_bed.product.join(s.yard_bed.product, growth_join); }),
            over("join, R-tree", sites, [](Site &s) { s.yard_bed.rtree.join(s.dig_bed.product.reg, growth_join, s.pairs); }),
            over("join, C++ form", sites, [](Site &s) { s.dig_bed.form.join(s.yard_bed.form, growth_join, s.pairs); }),
        },
        few_rounds);
}

void all_growth(const Sites &sites) {
    build_growth(sites);
    radius_growth(sites);
    walk_growth(sites);
    join_growth(sites);
}

} // namespace

// The same yard of 128,000 cm under finer and finer tiles.
void growth_with_n() {
    Sites sites;
    for (uint32_t n : {8u, 16u, 32u, 64u}) {
        sites.push_back(std::make_unique<Site>(Grid{n, 128000 / n}, main_footprints));
    }
    heading("growth with n, the yard staying as it is", {"n 8", "n 16", "n 32", "n 64"});
    all_growth(sites);
}

void growth_with_register() {
    Sites sites;
    std::vector<std::string> columns;
    for (size_t footprints : {size_t(8192), size_t(16384), size_t(32768), main_footprints}) {
        sites.push_back(std::make_unique<Site>(main_grid, footprints));
        columns.push_back(spaced(footprints));
    }
    heading("growth with the register", columns);
    all_growth(sites);
}

void growth_with_r() {
    Site site(main_grid, main_footprints);
    const std::vector<Point> from = points(main_grid, 200);
    std::vector<std::string> columns;
    Line product{"radius, product", {}}, rtree{"radius, R-tree", {}}, form{"radius, C++ form", {}};
    for (uint32_t r : {500u, 1000u, 2500u, 5000u, 10000u}) {
        agree_on_search(site.yard_bed, from, r);
        const auto each = [&from, r, &site](auto search) {
            return [&from, r, &site, search] {
                for (Point q : from) {
                    search(site, q, r);
                }
            };
        };
        product.turns.push_back(each([](Site &s, Point q, uint32_t r) { s.yard_bed.product.search(q, r); }));
        rtree.turns.push_back(each([](Site &s, Point q, uint32_t r) { s.yard_bed.rtree.search(q, r, s.hits); }));
        form.turns.push_back(each([](Site &s, Point q, uint32_t r) { s.yard_bed.form.search(q, r, s.hits); }));
        columns.push_back("r " + spaced(r));
    }
    heading("growth with r", columns);
    growth_lines({product, rtree, form}, many_rounds);
}
