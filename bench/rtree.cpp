#include "rtree.h"

#include "distance.h"

#include <boost/geometry.hpp>
#include <boost/geometry/index/rtree.hpp>
#include <boost/iterator/function_output_iterator.hpp>

namespace {

namespace bg = boost::geometry;
namespace bgi = boost::geometry::index;

using Corner = bg::model::point<int32_t, 2, bg::cs::cartesian>;
using Box = bg::model::box<Corner>;
using Value = std::pair<Box, uint32_t>;
using Tree = bgi::rtree<Value, bgi::rstar<16>>;

Corner corner(uint32_t x, uint32_t y) {
    return {int32_t(x), int32_t(y)};
}

Rect rect_of(const Box &b) {
    const Corner &lo = b.min_corner();
    const Corner &hi = b.max_corner();
    return {uint32_t(lo.get<0>()), uint32_t(lo.get<1>()), uint32_t(hi.get<0>()), uint32_t(hi.get<1>())};
}

// All that lies within r of a rectangle meets this box.
Box grown(const Rect &a, uint32_t r) {
    const int32_t more = int32_t(r);
    return {{int32_t(a.xlo) - more, int32_t(a.ylo) - more}, {int32_t(a.xhi) + more, int32_t(a.yhi) + more}};
}

Given given(Point q, const Value &v) {
    return {v.second, square(q, rect_of(v.first))};
}

} // namespace

struct Rtree::Inside {
    std::vector<Value> values;
    Tree tree;

    // the walk
    Point q{};
    Rows found;
    size_t taken = 0;
    Tree::const_query_iterator next, last;

    // The nearest k, in order.
    void find(size_t k) {
        found.clear();
        const auto keep = [&](const Value &v) { found.push_back(given(q, v)); };
        tree.query(bgi::nearest(corner(q.x, q.y), unsigned(k)), boost::make_function_output_iterator(keep));
        std::sort(found.begin(), found.end(), [](Given a, Given b) { return a.square < b.square; });
    }
};

Rtree::Rtree(const Register &reg) : in(new Inside) {
    for (size_t i = 0; i < count(reg); ++i) {
        const Rect a = footprint(reg, i);
        in->values.emplace_back(Box(corner(a.xlo, a.ylo), corner(a.xhi, a.yhi)), uint32_t(i));
    }
    build();
}

Rtree::~Rtree() = default;

void Rtree::build() {
    in->tree = Tree(in->values);
}

void Rtree::drop() {
    in->tree.clear();
}

void Rtree::search(Point q, uint32_t r, Hits &out) const {
    out.clear();
    const uint64_t most = squared(r);
    const auto filter = [&](const Value &v) {
        if (square(q, rect_of(v.first)) <= most) {
            out.push_back(v.second);
        }
    };
    in->tree.query(bgi::intersects(grown({q.x, q.y, q.x, q.y}, r)), boost::make_function_output_iterator(filter));
}

void Rtree::start(Point q) {
    in->q = q;
    in->found.clear();
    in->taken = 0;
}

void Rtree::ask(uint32_t j, Rows &out) {
    out.clear();
    const size_t wanted = std::min(in->taken + j, in->tree.size());
    if (in->found.size() < wanted) {
        in->find(std::max(wanted, 2 * in->found.size()));
    }
    while (in->taken < wanted) {
        out.push_back(in->found[in->taken]);
        ++in->taken;
    }
}

void Rtree::start_iterator(Point q) {
    in->q = q;
    in->next = in->tree.qbegin(bgi::nearest(corner(q.x, q.y), unsigned(in->tree.size())));
    in->last = in->tree.qend();
}

void Rtree::ask_iterator(uint32_t j, Rows &out) {
    out.clear();
    while (out.size() < j && in->next != in->last) {
        out.push_back(given(in->q, *in->next));
        ++in->next;
    }
}

void Rtree::join(const Register &digs, uint32_t r, Pairs &out) const {
    out.clear();
    const uint64_t most = squared(r);
    for (size_t i = 0; i < count(digs); ++i) {
        const Rect a = footprint(digs, i);
        const auto filter = [&](const Value &v) {
            if (square(a, rect_of(v.first)) <= most) {
                out.push_back({uint32_t(i), v.second});
            }
        };
        in->tree.query(bgi::intersects(grown(a, r)), boost::make_function_output_iterator(filter));
    }
}
