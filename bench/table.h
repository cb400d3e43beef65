// The tables that are printed: a name and ratios.
#pragma once
#include <string>
#include <vector>

// A heading line, and the names of the columns.
void heading(const std::string &title, const std::vector<std::string> &columns);

// A negative ratio is one that there is not.
void line(const std::string &name, const std::vector<double> &ratios);

const double none = -1;

// 65536 as 65,536.
std::string spaced(size_t number);
