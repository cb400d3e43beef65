/* The plan as an SVG picture. */
#ifndef PICTURE_H
#define PICTURE_H

#include <stdio.h>

#include "yard.h"

/*
 * Draws a yard whose tables are built: grid, footprints with their numbers, digs with their circles, and a list of each dig's hits.
 * Digs are searched up to the first refusal: gives its number, 0 for none, and how many digs were answered before it.
 */
struct answer draw_plan(FILE *out, const struct yard *yard);

#endif
