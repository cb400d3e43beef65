/*
 * The plan viewer: reads a text register, builds and checks its tables, asks what lies under each dig, and draws the yard as an SVG picture.
 *
 *     plan [--text] [TEXT [OUTPUT]]
 *
 * TEXT is a file, standard input where it is missing or `-`; OUTPUT is a file, standard output where it is missing. With --text the hits are
 * told in the text program's lines instead of a picture. A refusal is told in words on standard error, and the exit status is 1; digs that
 * were answered before it stand. Status 2: the arguments are wrong, or a file cannot be read or written.
 */
#include <inttypes.h>
#include <stdio.h>
#include <string.h>

#include "picture.h"
#include "yard.h"

enum status { DONE = 0, REFUSED = 1, FAILED = 2 };

/* ---- refusals in words */

static void say_text_refusal(const struct told *told)
{
    const enum key *next = keys_after(told->last);
    if (told->refusal.value == 0) {
        fprintf(stderr, "the text has more than %d bytes\n", MOST_BYTES);
        return;
    }
    fprintf(stderr, "line %" PRIu64 " is bad or missing: only %s", told->refusal.value, word_of(next[0]));
    if (next[1] != next[0]) {
        fprintf(stderr, " or %s", word_of(next[1]));
    }
    fprintf(stderr, " may stand there, with 1 to %d digits, no leading zero, and a line feed at once behind them\n", MOST_DIGITS);
}

static void say_footprint_refusal(const struct yard *yard, uint64_t number)
{
    struct footprint a = footprint_at(yard, (size_t)number);
    fprintf(stderr, "footprint %" PRIu64 " (lines %" PRIu64 " to %" PRIu64 ")", number, 4 * number + 3, 4 * number + 6);
    fprintf(stderr, " from (%" PRIu32 ", %" PRIu32 ") to (%" PRIu32 ", %" PRIu32 ")", a.x.lo, a.y.lo, a.x.hi, a.y.hi);
    fprintf(stderr, " ends before it begins, or off the grid 0..%" PRIu32 "\n", last_of(yard));
}

/* Why no tables are built. */
static void say_refusal(const struct told *told, const struct yard *yard, struct answer a)
{
    fprintf(stderr, "plan: refusal %" PRIu32 ": ", a.number);
    switch (a.number) {
    case LUV_SIZES:
        fprintf(stderr, "%" PRIu32 " tiles of side %" PRIu32 "; tiles may be 1..%d, side 1..%u\n", yard->n, yard->side, SHEET_TILES, LUV_MOST_SIDE);
        break;
    case LUV_LENGTHS:
        fprintf(stderr, "%zu footprints; a text may have %d\n", yard->footprints, SHEET_FOOTPRINTS);
        break;
    case LUV_FOOTPRINT:
        say_footprint_refusal(yard, a.value);
        break;
    case LUV_ROOM:
        fprintf(stderr, "the footprints need %" PRIu64 " entries; there is room for %d\n", a.value, SHEET_ENTRIES);
        break;
    default:
        say_text_refusal(told);
    }
}

static void say_dig_refusal(const struct yard *yard, size_t dig, uint32_t number)
{
    struct dig d = yard->dig[dig];
    size_t line = 3 + LUV_FOOTPRINT_NUMBERS * yard->footprints + 3 * dig;
    fprintf(stderr, "plan: refusal %" PRIu32 ": dig %zu (lines %zu to %zu)", number, dig + 1, line, line + 2);
    fprintf(stderr, " at (%" PRIu32 ", %" PRIu32 ") r %" PRIu32 ": %s", d.x, d.y, d.r, dig_refusal_words(number));
    if (number == LUV_PLACE) {
        fprintf(stderr, " 0..%" PRIu32, last_of(yard));
    } else if (number == LUV_RADIUS) {
        fprintf(stderr, ", over %u", LUV_MOST_RADIUS);
    }
    fputc('\n', stderr);
}

/* ---- the text program's lines */

static enum status tell_refusal(FILE *out, struct answer a)
{
    fprintf(out, "refused=%" PRIu32 "\n", a.number);
    if (a.number == LUV_TEXT) {
        fprintf(out, "line=%" PRIu64 "\n", a.value);
    }
    return REFUSED;
}

static void tell_hits(FILE *out, const struct yard *yard, struct dig dig, const struct hits *hits)
{
    fprintf(out, "found=%" PRIu64 "\n", hits->answer.value);
    for (size_t hit = 0; hit < hits->answer.value; hit++) {
        uint32_t number = hits->number[hit];
        fprintf(out, "no=%" PRIu32 "\nsquare=%" PRIu64 "\n", number, square(dig, footprint_at(yard, number)));
    }
}

static enum status tell(FILE *out, const struct yard *yard)
{
    static struct hits hits;
    for (size_t dig = 0; dig < yard->digs; dig++) {
        search_dig(yard, yard->dig[dig], &hits);
        if (hits.answer.number != LUV_ACCEPTED) {
            say_dig_refusal(yard, dig, hits.answer.number);
            return tell_refusal(out, hits.answer);
        }
        tell_hits(out, yard, yard->dig[dig], &hits);
    }
    return DONE;
}

static enum status show(FILE *out, const struct yard *yard)
{
    struct answer a = draw_plan(out, yard);
    if (a.number != LUV_ACCEPTED) {
        say_dig_refusal(yard, (size_t)a.value, a.number);
        return REFUSED;
    }
    return DONE;
}

/* ---- the program */

struct order {
    bool text;
    const char *input, *output;
};

static bool read_order(int count, char **words, struct order *order)
{
    int files = 0;
    *order = (struct order){false, "-", NULL};
    for (int word = 1; word < count; word++) {
        if (strcmp(words[word], "--text") == 0) {
            order->text = true;
        } else if ((words[word][0] == '-' && words[word][1] != '\0') || files == 2) {
            return false;
        } else if (files++ == 0) {
            order->input = words[word];
        } else {
            order->output = words[word];
        }
    }
    return true;
}

/* Reads at most one byte more than a text may have. */
static bool read_text(const char *name, char *text, size_t *length)
{
    FILE *in = strcmp(name, "-") == 0 ? stdin : fopen(name, "rb");
    if (in == NULL) {
        return false;
    }
    *length = fread(text, 1, MOST_BYTES + 1, in);
    bool good = !ferror(in);
    if (in != stdin) {
        fclose(in);
    }
    return good;
}

static FILE *open_output(const struct order *order)
{
    FILE *out = order->output == NULL ? stdout : fopen(order->output, "wb");
    if (out == NULL) {
        fprintf(stderr, "plan: %s cannot be written\n", order->output);
    }
    return out;
}

static enum status close_output(FILE *out, enum status status)
{
    bool bad = ferror(out);
    if (fclose(out) != 0 || bad) {
        fputs("plan: the output cannot be written whole\n", stderr);
        return FAILED;
    }
    return status;
}

/* Where no tables are built there is no picture, and no output is opened for one. */
static enum status answer(const struct order *order, const struct told *told)
{
    static struct yard yard;
    struct answer a = build_yard(told, &yard);
    bool built = a.number == LUV_ACCEPTED;
    if (!built) {
        say_refusal(told, &yard, a);
    }
    if (!built && !order->text) {
        return REFUSED;
    }
    if (built && !check_yard(&yard)) {
        fputs("plan: the check says no to the tables that the build left\n", stderr);
        return FAILED;
    }
    FILE *out = open_output(order);
    if (out == NULL) {
        return FAILED;
    }
    return close_output(out, !built ? tell_refusal(out, a) : order->text ? tell(out, &yard) : show(out, &yard));
}

int main(int count, char **words)
{
    static char text[MOST_BYTES + 1];
    static struct told told;
    struct order order;
    size_t length;
    if (!read_order(count, words, &order)) {
        fputs("usage: plan [--text] [TEXT [OUTPUT]]\n", stderr);
        return FAILED;
    }
    if (!read_text(order.input, text, &length)) {
        fprintf(stderr, "plan: %s cannot be read\n", order.input);
        return FAILED;
    }
    judge_text(text, length, &told);
    return answer(&order, &told);
}
