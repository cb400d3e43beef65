#include "agree.h"
#include "measure.h"
#include "rows.h"
#include "table.h"

#include <string>

void forty_rows(Kind kind, Bed &bed) {
    for (uint32_t r : {500u, 2500u}) {
        Probes probes;
        for (Point q : points(main_grid, 40)) {
            probes.push_back({q.x, q.y, r});
        }
        const size_t found = agree_on_lists(bed, probes);
        const Rounds rounds({[&] { bed.product.search_all(probes); }, [&] { bed.product.search_each(probes); }}, many_rounds);
        const std::string name = std::string("forty, ") + name_of(kind) + ", r " + spaced(r);
        line(name + " (" + spaced(found) + " hits)", {rounds.ratio(0, 1)});
    }
}
