// Contenders that take turns. Only ratios come out of here, never times.
#pragma once
#include <cstddef>
#include <functional>
#include <vector>

// What a contender does in a turn; what is done before it is not timed.
struct Turn {
    template <typename Work> Turn(Work work) : work(work) {}
    template <typename Before, typename Work> Turn(Before before, Work work) : work(work), before(before) {}

    std::function<void()> work, before;
};

// The time of each contender in each round.
class Rounds {
public:
    // Every contender has one turn a round, each round beginning with another. A turn is the work once untimed, where that is short, and
    // then as often as makes it long enough to be timed.
    Rounds(const std::vector<Turn> &contenders, int rounds);

    // The median, over the rounds, of contender a's time divided by b's.
    double ratio(size_t a, size_t b) const;

private:
    std::vector<std::vector<double>> times;
};

// How far apart the rounds were: of each ratio handed out so far, half the distance of its quartiles from each other by its median. The middle
// and the worst of these.
struct Noise {
    double middle, worst;
};

Noise noise();
