// Every contender's answers against the product's, before anything is timed. A difference ends the run with status 1.
#pragma once
#include "bed.h"

// The tables of the C++ form, number by number.
void agree_on_build(const Bed &bed);

// The hits, as sets; those of the C++ form in their order too. Returns how many there are, for all points.
size_t agree_on_search(Bed &bed, const std::vector<Point> &from, uint32_t r);

// The lists of one call, their ends and the output past them, with those of single calls and of the C++ form. Returns how many hits all lists have.
// Leaves the room that the product needs.
size_t agree_on_lists(Bed &bed, const Probes &probes);

// The rows of these asks: squares with the R-tree, which leaves ties open, footprints too with the scan; with the C++ form also the front.
void agree_on_walk(Bed &bed, const std::vector<Point> &from, const std::vector<uint32_t> &asks);

// The squares of the R-tree's iterator.
void agree_on_iterator(Bed &bed, const std::vector<Point> &from, const std::vector<uint32_t> &asks);

// The pairs, as sets; those of the C++ form in their order too. Returns how many there are. Leaves the room that the product needs.
size_t agree_on_join(Bed &digs, Bed &yard, uint32_t r);
