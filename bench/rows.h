// The rows of the tables: each is compared first, then timed.
#pragma once
#include "bed.h"

#include <memory>

// The yard's grid and register of the main rows.
const Grid main_grid = {64, 2500};
const size_t main_footprints = 65536;
const size_t main_digs = 10000;

// Rounds of short rows, and of rows whose turns are long.
const int many_rounds = 15;
const int few_rounds = 7;

// The R-tree's iterator can be very slow.
const size_t iterator_points = 4;
const int iterator_rounds = 3;

void build_rows(Kind kind, Bed &bed);
void radius_rows(Kind kind, Bed &bed);
void forty_rows(Kind kind, Bed &bed);
void walk_rows(Kind kind, Bed &bed);
void join_rows(Kind kind, Bed &digs, Bed &bed);

// How the work grows with n, with the register and with r.
void growth_with_n();
void growth_with_register();
void growth_with_r();
