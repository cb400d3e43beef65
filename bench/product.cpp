#include "product.h"

#include <cstdio>
#include <cstdlib>

// The longest ask of a row.
static const size_t most_rows = 1000;

// A call on good tables is never refused, so a refusal ends the run.
static void accepted(const char *call, uint32_t number) {
    if (number != LUV_ACCEPTED) {
        std::fprintf(stderr, "bench: %s was refused with %u\n", call, unsigned(number));
        std::exit(1);
    }
}

// What a refusal for room says is needed.
static size_t needed(const char *call, uint32_t number, uint64_t value) {
    if (number != LUV_ROOM) {
        accepted(call, number);
        return 0;
    }
    return size_t(value);
}

void product_build(Grid g, const Register &reg, uint32_t *starts, size_t starts_length, uint32_t *entries, size_t entries_length) {
    uint64_t value = 0;
    accepted("build", luv_build_n(g.n, g.side, reg.data(), reg.size(), starts, starts_length, entries, entries_length, &value));
}

Product::Product(Grid g, const Register &reg)
    : g(g), reg(reg), starts(LUV_STARTS(g.n)), entries(1), hits(count(reg)), lists(1), pairs(1), ends(1), front(LUV_FRONT(count(reg), g.n)),
      rows(2 * most_rows) {
    uint64_t value = 0;
    const uint32_t number = luv_build_n(g.n, g.side, reg.data(), reg.size(), starts.data(), starts.size(), entries.data(), 0, &value);
    entries.resize(needed("build", number, value));
    build();
}

void Product::build() {
    product_build(g, reg, starts.data(), starts.size(), entries.data(), entries.size());
}

size_t Product::search(Point q, uint32_t r) {
    uint64_t value = 0;
    accepted("search", luv_search_n(g.n, g.side, reg.data(), reg.size(), starts.data(), starts.size(), entries.data(), entries.size(), q.x, q.y,
                                    r, hits.data(), hits.size(), &value));
    return size_t(value);
}

static uint32_t call_search_all(const Product &p, const Probes &probes, uint32_t *out, size_t out_length, uint64_t *ends, size_t ends_length,
                                uint64_t *value) {
    return luv_search_all_n(p.g.n, p.g.side, p.reg.data(), p.reg.size(), p.starts.data(), p.starts.size(), p.entries.data(), p.entries.size(),
                            probes.data(), probes.size(), out, out_length, ends, ends_length, value);
}

size_t Product::search_all(const Probes &probes) {
    uint64_t value = 0;
    accepted("list of searches", call_search_all(*this, probes, lists.data(), lists.size(), ends.data(), ends.size(), &value));
    return size_t(value);
}

size_t Product::search_each(const Probes &probes) {
    size_t total = 0;
    for (size_t k = 0; k < probes.size(); ++k) {
        uint64_t value = 0;
        accepted("search", luv_search_n(g.n, g.side, reg.data(), reg.size(), starts.data(), starts.size(), entries.data(), entries.size(),
                                        probes[k].x, probes[k].y, probes[k].r, lists.data() + total, lists.size() - total, &value));
        total += size_t(value);
        ends[k] = total;
    }
    return total;
}

void Product::make_room(const Probes &probes) {
    uint64_t value = 0;
    const uint32_t number = call_search_all(*this, probes, lists.data(), 0, ends.data(), 0, &value);
    lists.assign(needed("list of searches", number, value) + 1, 0);
    ends.assign(probes.size(), 0);
}

void Product::start(Point q) {
    uint64_t value = 0;
    accepted("start", luv_start_n(g.n, g.side, reg.data(), reg.size(), starts.data(), starts.size(), entries.data(), entries.size(), q.x, q.y,
                                  front.data(), front.size(), &at.x, &at.y, &waiting, &mark, &value));
}

size_t Product::ask(uint32_t j) {
    uint64_t value = 0;
    Point after{};
    uint64_t waiting_after = 0;
    uint32_t mark_after = 0;
    accepted("ask", luv_ask_n(g.n, g.side, reg.data(), reg.size(), starts.data(), starts.size(), entries.data(), entries.size(), front.data(),
                              front.size(), at.x, at.y, waiting, mark, j, rows.data(), rows.size(), &after.x, &after.y, &waiting_after,
                              &mark_after, &value));
    at = after;
    waiting = waiting_after;
    mark = mark_after;
    return size_t(value);
}

static uint32_t call_join(const Product &r, const Product &s, uint32_t by, uint32_t *out, size_t out_length, uint64_t *value) {
    return luv_join_n(r.g.n, r.g.side, r.reg.data(), r.reg.size(), r.starts.data(), r.starts.size(), r.entries.data(), r.entries.size(),
                      s.reg.data(), s.reg.size(), s.starts.data(), s.starts.size(), s.entries.data(), s.entries.size(), by, out, out_length,
                      value);
}

size_t Product::join(const Product &s, uint32_t r) {
    uint64_t value = 0;
    accepted("join", call_join(*this, s, r, pairs.data(), pairs.size(), &value));
    return size_t(value);
}

void Product::make_room(const Product &s, uint32_t r) {
    uint64_t value = 0;
    const uint32_t number = call_join(*this, s, r, pairs.data(), 0, &value);
    pairs.assign(needed("join", number, value) + 1, 0);
}
