#include "measure.h"

#include <algorithm>
#include <cmath>
#include <ctime>

namespace {

// In seconds: work is repeated until a turn takes as long as the first, and is run untimed before where once takes less than the second.
const double shortest = 0.004;
const double long_turn = 0.1;

std::vector<double> spreads;

// The processor's time that this program has had: what others have in between does not count.
double now() {
    timespec t;
    clock_gettime(CLOCK_PROCESS_CPUTIME_ID, &t);
    return double(t.tv_sec) + 1e-9 * double(t.tv_nsec);
}

double seconds_once(const Turn &turn) {
    turn.before();
    const double began = now();
    turn.work();
    return now() - began;
}

double seconds(const Turn &turn, long times) {
    double sum = 0;
    if (turn.before) {
        for (long k = 0; k < times; ++k) {
            sum += seconds_once(turn);
        }
        return sum;
    }
    const double began = now();
    for (long k = 0; k < times; ++k) {
        turn.work();
    }
    return now() - began;
}

double at_part(const std::vector<double> &sorted, double part) {
    return sorted[size_t(std::lround(part * double(sorted.size() - 1)))];
}

} // namespace

Rounds::Rounds(const std::vector<Turn> &contenders, int rounds) : times(contenders.size()) {
    std::vector<long> often;
    std::vector<bool> warm;
    for (const Turn &turn : contenders) {
        seconds(turn, 1);
        const double once = seconds(turn, 1);
        often.push_back(std::max(1L, std::lround(std::ceil(shortest / std::max(once, 1e-9)))));
        warm.push_back(once < long_turn);
    }
    for (int round = 0; round < rounds; ++round) {
        for (size_t k = 0; k < contenders.size(); ++k) {
            const size_t who = (k + size_t(round)) % contenders.size();
            if (warm[who]) {
                seconds(contenders[who], 1);
            }
            times[who].push_back(seconds(contenders[who], often[who]) / double(often[who]));
        }
    }
}

double Rounds::ratio(size_t a, size_t b) const {
    if (a == b) {
        return 1;
    }
    std::vector<double> ratios;
    for (size_t round = 0; round < times[a].size(); ++round) {
        ratios.push_back(times[a][round] / times[b][round]);
    }
    std::sort(ratios.begin(), ratios.end());
    const double middle = at_part(ratios, 0.5);
    spreads.push_back((at_part(ratios, 0.75) - at_part(ratios, 0.25)) / 2 / middle);
    return middle;
}

Noise noise() {
    std::sort(spreads.begin(), spreads.end());
    return {at_part(spreads, 0.5), spreads.back()};
}
