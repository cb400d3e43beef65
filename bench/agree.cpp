#include "agree.h"

#include <algorithm>
#include <cstdio>
#include <cstdlib>

namespace {

void must(bool same, const char *what, const char *whose) {
    if (!same) {
        std::fprintf(stderr, "bench: the %s of %s are not the product's\n", what, whose);
        std::exit(1);
    }
}

template <typename List> List sorted(List list) {
    std::sort(list.begin(), list.end());
    return list;
}

Hits product_hits(Product &product, Point q, uint32_t r) {
    const size_t found = product.search(q, r);
    return Hits(product.hits.begin(), product.hits.begin() + ptrdiff_t(found));
}

Rows product_rows(Product &product, uint32_t j) {
    const size_t given = product.ask(j);
    Rows rows;
    for (size_t k = 0; k < given; ++k) {
        rows.push_back({product.rows[2 * k], product.rows[2 * k + 1]});
    }
    return rows;
}

Pairs product_pairs(Product &digs, const Product &yard, uint32_t r) {
    const size_t found = digs.join(yard, r);
    Pairs pairs;
    for (size_t k = 0; k < found; ++k) {
        pairs.push_back({digs.pairs[2 * k], digs.pairs[2 * k + 1]});
    }
    return pairs;
}

bool same_squares(const Rows &a, const Rows &b) {
    return std::equal(a.begin(), a.end(), b.begin(), b.end(), [](Given x, Given y) { return x.square == y.square; });
}

bool same_front(const Product &product, const FormWalk &walk) {
    return product.waiting == walk.waiting && product.front == walk.front;
}

} // namespace

void agree_on_build(const Bed &bed) {
    must(bed.form.starts == bed.product.starts, "starts", "the C++ form");
    must(bed.form.entries == bed.product.entries, "entries", "the C++ form");
}

size_t agree_on_search(Bed &bed, const std::vector<Point> &from, uint32_t r) {
    size_t found = 0;
    Hits theirs;
    for (Point q : from) {
        const Hits hits = product_hits(bed.product, q, r);
        found += hits.size();
        bed.form.search(q, r, theirs);
        must(theirs == hits, "hits", "the C++ form");
        const Hits set = sorted(hits);
        bed.scan.search(q, r, theirs);
        must(theirs == set, "hits", "the scan");
        bed.rtree.search(q, r, theirs);
        must(sorted(theirs) == set, "hits", "the R-tree");
    }
    return found;
}

size_t agree_on_lists(Bed &bed, const Probes &probes) {
    Product &product = bed.product;
    product.make_room(probes);
    const size_t found = product.search_all(probes);
    const Hits lists = product.lists;
    const std::vector<uint64_t> ends = product.ends;
    product.make_room(probes);
    must(product.search_each(probes) == found, "counts", "single calls");
    must(product.lists == lists, "lists", "single calls");
    must(product.ends == ends, "ends", "single calls");
    Hits theirs, all;
    for (const luv_probe &probe : probes) {
        bed.form.search({probe.x, probe.y}, probe.r, theirs);
        all.insert(all.end(), theirs.begin(), theirs.end());
    }
    must(all == Hits(lists.begin(), lists.begin() + ptrdiff_t(found)), "lists", "the C++ form");
    return found;
}

void agree_on_walk(Bed &bed, const std::vector<Point> &from, const std::vector<uint32_t> &asks) {
    Rows theirs;
    for (Point q : from) {
        bed.product.start(q);
        bed.walk.start(q);
        bed.scan.start(q);
        bed.rtree.start(q);
        must(same_front(bed.product, bed.walk), "rows that wait after a start", "the C++ form");
        for (uint32_t j : asks) {
            const Rows rows = product_rows(bed.product, j);
            bed.walk.ask(j, theirs);
            must(theirs == rows, "rows", "the C++ form");
            must(same_front(bed.product, bed.walk), "rows that wait after an ask", "the C++ form");
            bed.scan.ask(j, theirs);
            must(theirs == rows, "rows", "the scan");
            bed.rtree.ask(j, theirs);
            must(same_squares(theirs, rows), "squares", "the R-tree's nearest");
        }
    }
}

void agree_on_iterator(Bed &bed, const std::vector<Point> &from, const std::vector<uint32_t> &asks) {
    Rows theirs;
    for (Point q : from) {
        bed.product.start(q);
        bed.rtree.start_iterator(q);
        for (uint32_t j : asks) {
            const Rows rows = product_rows(bed.product, j);
            bed.rtree.ask_iterator(j, theirs);
            must(same_squares(theirs, rows), "squares", "the R-tree's iterator");
        }
    }
}

size_t agree_on_join(Bed &digs, Bed &yard, uint32_t r) {
    digs.product.make_room(yard.product, r);
    const Pairs pairs = product_pairs(digs.product, yard.product, r);
    Pairs theirs;
    digs.form.join(yard.form, r, theirs);
    must(theirs == pairs, "pairs", "the C++ form");
    const Pairs set = sorted(pairs);
    digs.scan.join(yard.scan, r, theirs);
    must(theirs == set, "pairs", "the scan");
    yard.rtree.join(digs.product.reg, r, theirs);
    must(sorted(theirs) == set, "pairs", "the R-tree");
    return pairs.size();
}
