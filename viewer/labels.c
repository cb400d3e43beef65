#include "labels.h"

#include <limits.h>
#include <stdlib.h>

enum {
    MARGIN = 40, /* between a label and what it stands at */
    EDGE = 25,   /* between a label and an edge that it stands beside */
    NEAR = 1600  /* how far a label may stand from what it belongs to */
};

/* ---- boxes */

long size_of(struct box b)
{
    return (b.right - b.left) * (b.bottom - b.top);
}

bool is_large(struct box b)
{
    return b.right - b.left > PLAN / 4 && b.bottom - b.top > PLAN / 4;
}

bool is_thin(struct box b)
{
    return b.right - b.left < 2 * HALF || b.bottom - b.top < 2 * HALF;
}

struct spot middle_of(struct box b)
{
    return (struct spot){(b.left + b.right) / 2, (b.top + b.bottom) / 2};
}

static struct box around(struct spot s, long half_width, long half_height)
{
    return (struct box){s.x - half_width, s.y - half_height, s.x + half_width, s.y + half_height};
}

static bool inside(struct box a, struct box b)
{
    return b.left <= a.left && a.right <= b.right && b.top <= a.top && a.bottom <= b.bottom;
}

static bool meet(struct box a, struct box b)
{
    return a.left <= b.right && b.left <= a.right && a.top <= b.bottom && b.top <= a.bottom;
}

static long drawn_into(long at, long low, long high)
{
    return at < low ? low : at > high ? high : at;
}

/* The square of a distance. */
static long far(struct spot a, struct spot b)
{
    return (a.x - b.x) * (a.x - b.x) + (a.y - b.y) * (a.y - b.y);
}

/* ---- cells */

static struct box cells_of(struct box b)
{
    struct box c = {(b.left - LEFT) / CELL, (b.top - TOP) / CELL, (b.right - LEFT) / CELL, (b.bottom - TOP) / CELL};
    return (struct box){drawn_into(c.left, 0, CELLS - 1), drawn_into(c.top, 0, CELLS - 1), drawn_into(c.right, 0, CELLS - 1),
                        drawn_into(c.bottom, 0, CELLS - 1)};
}

void take(struct room *room, struct spot at, long half_width, long half_height)
{
    struct box c = cells_of(around(at, half_width, half_height));
    for (long row = c.top; row <= c.bottom; row++) {
        for (long column = c.left; column <= c.right; column++) {
            room->taken[row][column] = true;
        }
    }
}

static bool is_free(const struct room *room, struct box label)
{
    static const struct box plan = {LEFT, TOP, LEFT + PLAN - 1, TOP + PLAN - 1};
    struct box c = cells_of(label);
    for (long row = c.top; row <= c.bottom; row++) {
        for (long column = c.left; column <= c.right; column++) {
            if (room->taken[row][column]) {
                return false;
            }
        }
    }
    return inside(label, plan);
}

/* The free place nearest to a spot. */
static bool nearest_free(const struct room *room, struct spot from, long half_width, struct spot *at)
{
    long least = NEAR * NEAR;
    bool found = false;
    for (long y = TOP + HALF; y < TOP + PLAN; y += CELL) {
        for (long x = LEFT + half_width; x < LEFT + PLAN; x += CELL) {
            struct spot to = {x, y};
            if (far(from, to) < least && is_free(room, around(to, half_width, HALF))) {
                least = far(from, to);
                *at = to;
                found = true;
            }
        }
    }
    return found;
}

/* ---- spots */

/* Adds a spot, drawn onto the plan unless it is far off it. */
static void add(struct spots *s, long x, long y)
{
    long width = s->half_width + EDGE, height = HALF + EDGE;
    struct spot at = {drawn_into(x, LEFT + width, LEFT + PLAN - width), drawn_into(y, TOP + height, TOP + PLAN - height)};
    if (labs(at.x - x) <= width && labs(at.y - y) <= 2 * HALF) {
        s->at[s->count++] = at;
    }
}

/* Along an edge or a duct: its middle first, then between ever nearer places. */
static void add_along(struct spots *s, struct spot from, struct spot to)
{
    static const int sixteenths[] = {8, 4, 12, 2, 6, 10, 14, 1, 15, 3, 13, 5, 11};
    for (size_t k = 0; k < sizeof sixteenths / sizeof *sixteenths; k++) {
        add(s, from.x + (to.x - from.x) * sixteenths[k] / 16, from.y + (to.y - from.y) * sixteenths[k] / 16);
    }
}

static void add_corners(struct spots *s, struct box b, long x, long y)
{
    add(s, b.left + x, b.top + y);
    add(s, b.right - x, b.top + y);
    add(s, b.left + x, b.bottom - y);
    add(s, b.right - x, b.bottom - y);
}

struct spots footprint_spots(struct box b, long half_width)
{
    struct spots s = {.half_width = half_width, .count = 0};
    struct spot middle = middle_of(b);
    long x = half_width + MARGIN, y = HALF + MARGIN;
    bool wide = b.right - b.left > 2 * x, high = b.bottom - b.top > 2 * y;
    if (wide && high && !is_large(b)) {
        add(&s, middle.x, middle.y);
    }
    if (wide && high) {
        add_corners(&s, b, x, y);
    }
    if (wide) {
        long row = high ? b.top + y : middle.y;
        add_along(&s, (struct spot){b.left, row}, (struct spot){b.right, row});
    }
    if (high) {
        long column = wide ? b.left + x : middle.x;
        add_along(&s, (struct spot){column, b.top}, (struct spot){column, b.bottom});
    }
    add(&s, b.right + half_width + EDGE, middle.y);
    add(&s, b.left - half_width - EDGE, middle.y);
    add(&s, middle.x, b.top - HALF - EDGE);
    add(&s, middle.x, b.bottom + HALF + EDGE);
    return s;
}

/* Eight spots at a distance around a dig, beside it first. */
static void add_around(struct spots *s, struct spot dig, long distance)
{
    long beside = s->half_width + distance, over = HALF + distance;
    add(s, dig.x + beside, dig.y);
    add(s, dig.x - beside, dig.y);
    add(s, dig.x, dig.y - over);
    add(s, dig.x, dig.y + over);
    add_corners(s, (struct box){dig.x, dig.y - over, dig.x, dig.y + over}, s->half_width, 0);
}

/* The circle's line runs under the box: its nearest point is within the radius, its farthest is not. */
static bool on_circle(struct spot middle, long radius, struct box b)
{
    struct spot nearest = {drawn_into(middle.x, b.left, b.right), drawn_into(middle.y, b.top, b.bottom)};
    struct spot farthest = {middle.x < middle_of(b).x ? b.right : b.left, middle.y < middle_of(b).y ? b.bottom : b.top};
    return far(middle, nearest) <= radius * radius && radius * radius <= far(middle, farthest);
}

struct spots dig_spots(struct spot dig, long radius, long half_width)
{
    struct spots all = {.half_width = half_width, .count = 0}, s = all;
    add_around(&all, dig, CROSS + CELL);
    add_around(&all, dig, radius + MARGIN);
    for (size_t k = 0; k < all.count; k++) {
        if (!on_circle(dig, radius, around(all.at[k], half_width, HALF))) {
            s.at[s.count++] = all.at[k];
        }
    }
    return s;
}

/* ---- the choice */

/* How doubtful it is whose label this is: another footprint's edge runs under it, a hit's most, or another one that is smaller holds it. */
static long doubts(const struct room *room, size_t own, struct box label)
{
    long count = 0;
    for (size_t other = 0; other < room->footprints; other++) {
        struct box b = room->drawn[other];
        bool edge = meet(label, b) && !inside(label, b);
        bool smaller = own != NO_FOOTPRINT && inside(label, b) && size_of(b) < size_of(room->drawn[own]);
        if (other != own && (edge || smaller)) {
            count += room->is_hit[other] ? 3 : 1;
        }
    }
    return count;
}

/* The free spot with the fewest doubts, the first of equals; gives the doubts, LONG_MAX where none is free. */
static long best_spot(const struct room *room, const struct spots *s, size_t own, struct spot *at)
{
    long fewest = LONG_MAX;
    for (size_t k = 0; k < s->count; k++) {
        struct box label = around(s->at[k], s->half_width, HALF);
        long count = is_free(room, label) ? doubts(room, own, label) : LONG_MAX;
        if (count < fewest) {
            fewest = count;
            *at = s->at[k];
        }
    }
    return fewest;
}

bool stands_clear(const struct room *room, const struct spots *spots, size_t own)
{
    struct spot at;
    return best_spot(room, spots, own, &at) == 0;
}

enum found find_room(struct room *room, struct spot place, const struct spots *spots, size_t own, struct spot *at)
{
    enum found found = AT_A_SPOT;
    if (best_spot(room, spots, own, at) == LONG_MAX) {
        if (!nearest_free(room, place, spots->half_width, at)) {
            return NO_ROOM;
        }
        found = NEARBY;
    }
    take(room, *at, spots->half_width, HALF);
    return found;
}
