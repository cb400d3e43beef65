#include "agree.h"
#include "measure.h"
#include "rows.h"
#include "table.h"

#include <malloc.h>
#include <memory>
#include <string>

// Memory that was given back goes to the system, so that new memory is untouched.
static void give_back() {
    malloc_trim(0);
}

// The product with tables of its own for every build.
struct FreshProduct {
    const Product &like;
    std::unique_ptr<uint32_t[]> starts{}, entries{};

    void drop() {
        starts.reset();
        entries.reset();
        give_back();
    }

    void build() {
        starts.reset(new uint32_t[like.starts.size()]);
        entries.reset(new uint32_t[like.entries.size()]);
        product_build(like.g, like.reg, starts.get(), like.starts.size(), entries.get(), like.entries.size());
    }
};

static void drop(Form &form) {
    form.starts = std::vector<uint32_t>();
    form.entries = std::vector<uint32_t>();
    form.next = std::vector<uint32_t>();
    give_back();
}

static void drop(Rtree &rtree) {
    rtree.drop();
    give_back();
}

void build_rows(Kind kind, Bed &bed) {
    agree_on_build(bed);
    const std::string name = std::string("build, ") + name_of(kind);
    const Rounds reused({[&] { bed.product.build(); }, [&] { bed.rtree.build(); }, [&] { bed.form.build(); }}, many_rounds);
    line(name + ", reused", {reused.ratio(0, 1), none, reused.ratio(0, 2)});
    FreshProduct product{bed.product};
    const Rounds fresh(
        {
            {[&] { product.drop(); }, [&] { product.build(); }},
            {[&] { drop(bed.rtree); }, [&] { bed.rtree.build(); }},
            {[&] { drop(bed.form); }, [&] { bed.form.build(); }},
        },
        many_rounds);
    line(name + ", fresh", {fresh.ratio(0, 1), none, fresh.ratio(0, 2)});
}
