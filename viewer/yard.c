#include "yard.h"

#include <string.h>

/* ---- the text */

const char *word_of(enum key key)
{
    static const char *const words[] = {"", "tiles=", "side=", "xlo=", "ylo=", "xhi=", "yhi=", "x=", "y=", "r="};
    return words[key];
}

const enum key *keys_after(enum key last)
{
    static const enum key follow[][2] = {
        {TILES, TILES}, {SIDE, SIDE}, {XLO, X}, {YLO, YLO}, {XHI, XHI}, {YHI, YHI}, {XLO, X}, {Y, Y}, {R, R}, {X, X}
    };
    return follow[last];
}

static bool may_end(enum key last)
{
    return last == SIDE || last == YHI || last == R;
}

/* Reads a decimal of 1 to 7 digits, no leading zero, and the LF behind it; gives the bytes read, 0 where it is bad. */
static size_t read_decimal(const char *text, size_t length, uint32_t *number)
{
    size_t digits = 0;
    *number = 0;
    while (digits < length && digits < MOST_DIGITS && text[digits] >= '0' && text[digits] <= '9') {
        *number = 10 * *number + (uint32_t)(text[digits] - '0');
        digits++;
    }
    if (digits == 0 || (digits > 1 && text[0] == '0')) {
        return 0;
    }
    return digits < length && text[digits] == '\n' ? digits + 1 : 0;
}

/* Reads a line that may follow one of key `last`; gives the bytes read, 0 where it is bad. */
static size_t read_line(const char *text, size_t length, enum key last, enum key *key, uint32_t *number)
{
    for (int choice = 0; choice < 2; choice++) {
        *key = keys_after(last)[choice];
        size_t word = strlen(word_of(*key));
        if (word <= length && memcmp(text, word_of(*key), word) == 0) {
            size_t rest = read_decimal(text + word, length - word, number);
            return rest == 0 ? 0 : word + rest;
        }
    }
    return 0;
}

/* Reads good lines; gives the bytes read. */
static size_t read_lines(const char *text, size_t length, struct told *told)
{
    size_t place = 0;
    while (place < length) {
        enum key key;
        size_t line = read_line(text + place, length - place, told->last, &key, &told->said[told->numbers]);
        if (line == 0) {
            break;
        }
        place += line;
        told->last = key;
        told->numbers++;
        told->footprints += key == YHI;
    }
    return place;
}

void judge_text(const char *text, size_t length, struct told *told)
{
    told->numbers = 0;
    told->footprints = 0;
    told->last = START;
    told->refusal = (struct answer){LUV_TEXT, 0};
    if (length > MOST_BYTES) {
        return;
    }
    size_t read = read_lines(text, length, told);
    told->refusal.value = told->numbers + 1;
    if (read == length && may_end(told->last)) {
        told->refusal = (struct answer){LUV_ACCEPTED, 0};
    }
}

/* ---- numbers in bytes, the lowest first */

static uint32_t number_at(const uint8_t *table, size_t place)
{
    const uint8_t *b = table + place * LUV_NUMBER_BYTES;
    return (uint32_t)b[0] | (uint32_t)b[1] << 8 | (uint32_t)b[2] << 16 | (uint32_t)b[3] << 24;
}

static void put_number(uint8_t *table, size_t place, uint32_t number)
{
    for (size_t byte = 0; byte < LUV_NUMBER_BYTES; byte++) {
        table[place * LUV_NUMBER_BYTES + byte] = (uint8_t)(number >> 8 * byte);
    }
}

struct footprint footprint_at(const struct yard *yard, size_t footprint)
{
    size_t place = footprint * LUV_FOOTPRINT_NUMBERS;
    struct footprint a;
    a.x = (struct span){number_at(yard->reg, place), number_at(yard->reg, place + 2)};
    a.y = (struct span){number_at(yard->reg, place + 1), number_at(yard->reg, place + 3)};
    return a;
}

/* ---- the yard */

static uint64_t gap(uint32_t at, struct span span)
{
    return at < span.lo ? span.lo - at : at > span.hi ? at - span.hi : 0;
}

uint64_t square(struct dig dig, struct footprint footprint)
{
    uint64_t x = gap(dig.x, footprint.x), y = gap(dig.y, footprint.y);
    return x * x + y * y;
}

uint32_t last_of(const struct yard *yard)
{
    return yard->n * yard->side - 1;
}

static size_t reg_bytes(const struct yard *yard)
{
    return yard->footprints * LUV_FOOTPRINT_NUMBERS * LUV_NUMBER_BYTES;
}

static size_t starts_bytes(const struct yard *yard)
{
    return LUV_STARTS(yard->n) * LUV_NUMBER_BYTES;
}

/* The limits of a text: sizes, then footprints. */
static uint32_t judge_limits(const struct yard *yard)
{
    if (yard->n < 1 || yard->n > SHEET_TILES || yard->side < 1 || yard->side > LUV_MOST_SIDE) {
        return LUV_SIZES;
    }
    return yard->footprints > SHEET_FOOTPRINTS ? LUV_LENGTHS : LUV_ACCEPTED;
}

static void take_over(const uint32_t *said, struct yard *yard)
{
    for (size_t place = 0; place < LUV_FOOTPRINT_NUMBERS * yard->footprints; place++) {
        put_number(yard->reg, place, *said++);
    }
    for (size_t dig = 0; dig < yard->digs; dig++, said += 3) {
        yard->dig[dig] = (struct dig){said[0], said[1], said[2]};
    }
}

struct answer build_yard(const struct told *told, struct yard *yard)
{
    struct answer a = told->refusal;
    if (a.number != LUV_ACCEPTED) {
        return a;
    }
    yard->n = told->said[0];
    yard->side = told->said[1];
    yard->footprints = told->footprints;
    yard->digs = (told->numbers - 2 - LUV_FOOTPRINT_NUMBERS * told->footprints) / 3;
    a.number = judge_limits(yard);
    if (a.number != LUV_ACCEPTED) {
        return a;
    }
    take_over(told->said + 2, yard);
    a.number = luv_build(yard->n, yard->side, yard->reg, reg_bytes(yard), yard->starts, starts_bytes(yard),
                         yard->entries, sizeof yard->entries, &a.value);
    yard->entry_count = a.value;
    return a;
}

bool check_yard(const struct yard *yard)
{
    uint64_t yes;
    uint32_t number = luv_check(yard->n, yard->side, yard->reg, reg_bytes(yard), yard->starts, starts_bytes(yard),
                                yard->entries, sizeof yard->entries, &yes);
    return number == LUV_ACCEPTED && yes == 1;
}

void search_dig(const struct yard *yard, struct dig dig, struct hits *hits)
{
    uint8_t out[SHEET_FOOTPRINTS * LUV_NUMBER_BYTES];
    struct answer a;
    a.number = luv_search(yard->n, yard->side, yard->reg, reg_bytes(yard), yard->starts, starts_bytes(yard),
                          yard->entries, sizeof yard->entries, dig.x, dig.y, dig.r, out, sizeof out, &a.value);
    hits->answer = a;
    for (size_t hit = 0; a.number == LUV_ACCEPTED && hit < a.value; hit++) {
        hits->number[hit] = number_at(out, hit);
    }
}

const char *dig_refusal_words(uint32_t number)
{
    switch (number) {
    case LUV_PLACE:
        return "its point is off the grid";
    case LUV_RADIUS:
        return "its radius is too large";
    default:
        return "the tables are damaged";
    }
}
