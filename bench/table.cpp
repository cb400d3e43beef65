#include "table.h"

#include <cstdio>

void heading(const std::string &title, const std::vector<std::string> &columns) {
    std::printf("\n%-46s", title.c_str());
    for (const std::string &column : columns) {
        std::printf("%16s", column.c_str());
    }
    std::printf("\n");
}

void line(const std::string &name, const std::vector<double> &ratios) {
    std::printf("%-46s", name.c_str());
    for (double ratio : ratios) {
        if (ratio < 0) {
            std::printf("%16s", "-");
        } else {
            std::printf("%16.*f", ratio < 0.1 ? 4 : 2, ratio);
        }
    }
    std::printf("\n");
    std::fflush(stdout);
}

std::string spaced(size_t number) {
    std::string text = std::to_string(number);
    for (size_t at = text.size(); at > 3; at -= 3) {
        text.insert(at - 3, ",");
    }
    return text;
}
