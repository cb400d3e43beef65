// The walk of the plain C++ form: the waiting rows are a heap while an ask runs; after it they stand in order in the front, three numbers
// each, with zeros behind them, as the rules say.
#pragma once
#include "form.h"

class FormWalk {
public:
    explicit FormWalk(const Form &form);

    void start(Point q);
    void ask(uint32_t j, Rows &out);

    // The front, and how many of its rows wait.
    std::vector<uint64_t> front;
    size_t waiting = 0;

    // A waiting row: kind 0 a group, 1 a tile, 2 a footprint.
    struct Row {
        uint64_t square, kind, number;
    };

private:
    void push(Row row);
    Row pop();
    void push_group(uint32_t direction, uint32_t level);
    void push_tile(int row, int col);
    void open_group(uint32_t direction, uint32_t level);
    void open_tile(uint32_t tile);
    void lift();
    void settle();

    const Form &form;
    Point q{};
    int qrow = 0, qcol = 0;
    std::vector<Row> heap;
};
