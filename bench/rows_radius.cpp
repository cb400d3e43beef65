#include "agree.h"
#include "measure.h"
#include "rows.h"
#include "table.h"

#include <string>

void radius_rows(Kind kind, Bed &bed) {
    const std::vector<Point> from = points(main_grid, 200);
    Hits out;
    for (uint32_t r : {500u, 2500u, 10000u}) {
        const size_t found = agree_on_search(bed, from, r);
        const auto each = [&](auto search) {
            return [&from, search] {
                for (Point q : from) {
                    search(q);
                }
            };
        };
        const Rounds rounds(
            {
                each([&](Point q) { bed.product.search(q, r); }),
                each([&](Point q) { bed.rtree.search(q, r, out); }),
                each([&](Point q) { bed.scan.search(q, r, out); }),
                each([&](Point q) { bed.form.search(q, r, out); }),
            },
            many_rounds);
        const std::string name = std::string("radius, ") + name_of(kind) + ", r " + spaced(r);
        line(name + " (" + spaced(found / from.size()) + " hits)", {rounds.ratio(0, 1), rounds.ratio(0, 2), rounds.ratio(0, 3)});
    }
}
