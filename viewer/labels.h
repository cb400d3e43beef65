/*
 * Room for labels on the plan. No two labels overlap, and each stands where it is least doubtful whose label it is: on a duct, within a
 * rectangle (near the edge of a large one), beside a small one, around a dig. Where all such places are taken, it stands nearby.
 * The unit is a tenth of a pixel, so that all coordinates are whole numbers.
 */
#ifndef LABELS_H
#define LABELS_H

#include <stdbool.h>
#include <stddef.h>

#include "yard.h"

enum {
    PLAN = 8000, /* width and height of the plan on the page, and where it stands */
    LEFT = 850,
    TOP = 1000,
    LETTER = 85, /* room for a letter of a label, and half its height */
    HALF = 75,
    CROSS = 95,  /* half a dig's cross */
    CELL = 50,   /* room is kept in cells */
    CELLS = PLAN / CELL
};

struct spot {
    long x, y;
};

struct box {
    long left, top, right, bottom;
};

/* What stands on the plan: the footprints as drawn, which of them are hits, and the cells that labels and crosses have taken. */
struct room {
    size_t footprints;
    struct box drawn[SHEET_FOOTPRINTS];
    bool is_hit[SHEET_FOOTPRINTS];
    bool taken[CELLS][CELLS];
};

/* Places for a label of a width, best first. */
struct spots {
    long half_width;
    size_t count;
    struct spot at[48];
};

/* Whose label it is: a footprint's, or none's. */
enum { NO_FOOTPRINT = SHEET_FOOTPRINTS };

enum found { NO_ROOM, AT_A_SPOT, NEARBY };

/* On the drawn footprint: how large it is, larger than a quarter of the plan both ways, too thin for a label inside. */
long size_of(struct box b);
bool is_large(struct box b);
bool is_thin(struct box b);

struct spot middle_of(struct box b);

/* Keeps other labels away from a place. */
void take(struct room *room, struct spot at, long half_width, long half_height);

/* Where the label of a footprint or of a dig may stand. */
struct spots footprint_spots(struct box footprint, long half_width);
struct spots dig_spots(struct spot dig, long radius, long half_width);

/* Some free spot has nothing under it that makes its label doubtful. */
bool stands_clear(const struct room *room, const struct spots *spots, size_t own);

/* Takes room for a label: at one of its spots, else near the place. */
enum found find_room(struct room *room, struct spot place, const struct spots *spots, size_t own, struct spot *at);

#endif
