#include "agree.h"
#include "measure.h"
#include "rows.h"
#include "table.h"

#include <string>

void join_rows(Kind kind, Bed &digs, Bed &bed) {
    Pairs out;
    for (uint32_t r : {500u, 2500u}) {
        const size_t found = agree_on_join(digs, bed, r);
        const Rounds rounds(
            {
                [&] { digs.product.join(bed.product, r); },
                [&] { bed.rtree.join(digs.product.reg, r, out); },
                [&] { digs.scan.join(bed.scan, r, out); },
                [&] { digs.form.join(bed.form, r, out); },
            },
            few_rounds);
        const std::string name = std::string("join, ") + name_of(kind) + ", r " + spaced(r);
        line(name + " (" + spaced(found) + " pairs)", {rounds.ratio(0, 1), rounds.ratio(0, 2), rounds.ratio(0, 3)});
    }
}
