#include "form_walk.h"

#include "distance.h"

#include <tuple>

namespace {

enum Direction : uint32_t { up, right, down, left };

// Whether a comes later: heaps have the greatest first.
bool later(const FormWalk::Row &a, const FormWalk::Row &b) {
    return std::tie(a.square, a.kind, a.number) > std::tie(b.square, b.kind, b.number);
}

} // namespace

FormWalk::FormWalk(const Form &form) : front(3 * (count(form.reg) + size_t(form.g.n) * form.g.n + 4)), form(form) {}

void FormWalk::push(Row row) {
    heap.push_back(row);
    std::push_heap(heap.begin(), heap.end(), later);
}

FormWalk::Row FormWalk::pop() {
    std::pop_heap(heap.begin(), heap.end(), later);
    const Row row = heap.back();
    heap.pop_back();
    return row;
}

// A group waits if its row or column is on the grid, by the gap to that alone.
void FormWalk::push_group(uint32_t direction, uint32_t level) {
    const int n = int(form.g.n), by = int(level);
    const int row = direction == up ? qrow + by : direction == down ? qrow - by : qrow;
    const int col = direction == right ? qcol + by : direction == left ? qcol - by : qcol;
    if (0 <= row && row < n && 0 <= col && col < n) {
        push({square(q, form.cover(uint32_t(row), uint32_t(col))), 0, uint64_t(direction) * 64 + level});
    }
}

void FormWalk::push_tile(int row, int col) {
    const int n = int(form.g.n);
    if (0 <= row && row < n && 0 <= col && col < n) {
        push({square(q, form.cover(uint32_t(row), uint32_t(col))), 1, uint64_t(row * n + col)});
    }
}

// A group brings its tiles and the next group of its direction.
void FormWalk::open_group(uint32_t direction, uint32_t level) {
    const int by = int(level);
    for (int k = -by; k < by; ++k) {
        switch (direction) {
        case up:
            push_tile(qrow + by, qcol + k);
            break;
        case right:
            push_tile(qrow + k + 1, qcol + by);
            break;
        case down:
            push_tile(qrow - by, qcol + k + 1);
            break;
        default:
            push_tile(qrow + k, qcol - by);
        }
    }
    push_group(direction, level + 1);
}

// A tile brings the footprints of its allowed classes.
void FormWalk::open_tile(uint32_t tile) {
    const uint32_t n = form.g.n;
    const uint16_t set = Form::allowed(tile / n, tile % n, uint32_t(qrow), uint32_t(qcol));
    for (int c = 0; c < 16; ++c) {
        if (set >> c & 1) {
            const size_t run = 16 * size_t(tile) + c;
            for (uint32_t k = form.starts[run]; k < form.starts[run + 1]; ++k) {
                const uint32_t i = form.entries[k];
                push({square(q, footprint(form.reg, i)), 2, i});
            }
        }
    }
}

// The rows of the front, which are in order and so a heap.
void FormWalk::lift() {
    heap.clear();
    for (size_t k = 0; k < waiting; ++k) {
        heap.push_back({front[3 * k], front[3 * k + 1], front[3 * k + 2]});
    }
}

// The waiting rows in order, then zeros.
void FormWalk::settle() {
    std::sort_heap(heap.begin(), heap.end(), later);
    waiting = heap.size();
    for (size_t k = 0; k < waiting; ++k) {
        const Row &row = heap[waiting - 1 - k];
        front[3 * k] = row.square;
        front[3 * k + 1] = row.kind;
        front[3 * k + 2] = row.number;
    }
    std::fill(front.begin() + ptrdiff_t(3 * waiting), front.end(), 0);
}

void FormWalk::start(Point from) {
    q = from;
    qrow = int(q.y / form.g.side);
    qcol = int(q.x / form.g.side);
    heap.clear();
    open_tile(uint32_t(qrow) * form.g.n + uint32_t(qcol));
    for (uint32_t direction = up; direction <= left; ++direction) {
        push_group(direction, 1);
    }
    settle();
}

void FormWalk::ask(uint32_t j, Rows &out) {
    out.clear();
    lift();
    while (out.size() < j && !heap.empty()) {
        const Row row = pop();
        if (row.kind == 0) {
            open_group(uint32_t(row.number / 64), uint32_t(row.number % 64));
        } else if (row.kind == 1) {
            open_tile(uint32_t(row.number));
        } else {
            out.push_back({row.number, row.square});
        }
    }
    settle();
}
