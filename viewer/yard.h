/*
 * A yard as a text register tells it: the text judged, its tables built and checked, its digs searched.
 * Tables are as long as a text may need them; what lies where is answered by luv_build, luv_check and luv_search alone.
 */
#ifndef YARD_H
#define YARD_H

#include <stdbool.h>
#include <stddef.h>
#include <stdint.h>

#include "luvgarden.h"

/* Limits of a text. */
enum {
    MOST_BYTES = 65536,
    MOST_DIGITS = 7,
    MOST_NUMBERS = MOST_BYTES / 4, /* the shortest line is `x=0` */
    MOST_DIGS = MOST_BYTES / 12,   /* three such lines */
    SHEET_TILES = 16,
    SHEET_FOOTPRINTS = 512,
    SHEET_ENTRIES = 8192
};

/* A refusal's number, 0 for accepted, and the value that goes with it. */
struct answer {
    uint32_t number;
    uint64_t value;
};

/* The keys of lines; START stands before the first. */
enum key { START, TILES, SIDE, XLO, YLO, XHI, YHI, X, Y, R };

/* A text's numbers up to the first bad or missing line, how many whole footprints they have, and the refusal that names that line. */
struct told {
    uint32_t said[MOST_NUMBERS];
    size_t numbers;
    size_t footprints;
    enum key last;
    struct answer refusal;
};

/* From lo to hi, both ends belonging to it. */
struct span {
    uint32_t lo, hi;
};

struct footprint {
    struct span x, y;
};

struct dig {
    uint32_t x, y, r;
};

struct yard {
    uint32_t n, side;
    size_t footprints, digs;
    uint8_t reg[SHEET_FOOTPRINTS * LUV_FOOTPRINT_NUMBERS * LUV_NUMBER_BYTES];
    uint8_t starts[LUV_STARTS(SHEET_TILES) * LUV_NUMBER_BYTES];
    uint8_t entries[SHEET_ENTRIES * LUV_NUMBER_BYTES];
    uint64_t entry_count;
    struct dig dig[MOST_DIGS];
};

/* What a dig's search answers, and the numbers of its hits in their order. */
struct hits {
    struct answer answer;
    uint32_t number[SHEET_FOOTPRINTS];
};

/* Judges a text whole: its numbers, or refusal 8 with the first bad or missing line, 0 for too many bytes. */
void judge_text(const char *text, size_t length, struct told *told);

/* The word of a key, and the two keys that may follow it; both are one where only one may. */
const char *word_of(enum key key);
const enum key *keys_after(enum key last);

/* Takes over what a good text says and builds the tables; gives the refusal of the text, of its limits or of the build. */
struct answer build_yard(const struct told *told, struct yard *yard);

/* Whether the tables are what the build leaves. */
bool check_yard(const struct yard *yard);

/* Searches a dig. */
void search_dig(const struct yard *yard, struct dig dig, struct hits *hits);

/* A footprint of the register, and the square of its distance from a dig. */
struct footprint footprint_at(const struct yard *yard, size_t footprint);
uint64_t square(struct dig dig, struct footprint footprint);

/* The last coordinate on the grid. */
uint32_t last_of(const struct yard *yard);

/* Why a dig is refused, in words. */
const char *dig_refusal_words(uint32_t number);

#endif
