/*
 * The plan viewer's three functions, called as a C program calls them: yard Y of the rules, exact and one-short room, every refusal with the
 * value that it names, and their order. Every slice stands at an odd address with guard bytes around it. After each call, refused ones too,
 * all lent memory and its guards are compared with what the rules say. Prints `doors: N checks, F failed`.
 */
#include <inttypes.h>
#include <stdbool.h>
#include <stdio.h>
#include <string.h>

#include "luvgarden.h"

enum { GUARD = 32, FOOTPRINTS = 5, ENTRY_COUNT = 23, START_COUNT = 257, OUT_ROOM = 8, MOST_HITS = 5 };

/* ---- yard Y, and its tables written by hand: the class of each footprint in each of its tiles */

static const uint32_t yard_y[] = {
    120, 120, 180, 180,
    50, 220, 250, 260,
    199, 200, 200, 299,
    0, 0, 399, 399,
    300, 300, 300, 300
};

static const struct entry {
    uint32_t tile, class, footprint;
} entries_y[ENTRY_COUNT] = {
    {0, 5, 3}, {1, 13, 3}, {2, 13, 3}, {3, 9, 3},
    {4, 7, 3}, {5, 0, 0}, {5, 15, 3}, {6, 15, 3}, {7, 11, 3},
    {8, 4, 1}, {8, 7, 3}, {9, 4, 2}, {9, 12, 1}, {9, 15, 3}, {10, 8, 1}, {10, 8, 2}, {10, 15, 3}, {11, 11, 3},
    {12, 6, 3}, {13, 14, 3}, {14, 14, 3}, {15, 0, 4}, {15, 10, 3}
};

/* ---- a call: yard Y with so many bytes more or fewer in each slice, and with numbers written over */

enum function { BUILD, CHECK, SEARCH };

enum slice { NONE, REG, STARTS, ENTRIES, OUT, SLICES };

struct call {
    enum function function;
    const char *words;
    uint32_t n, side;
    bool empty;           /* the register has no footprints, the tables are those of none */
    long more[SLICES];    /* bytes */
    struct {
        enum slice slice;
        size_t place;
        uint32_t number;
    } over[2];
    uint32_t x, y, r;
    uint32_t number;      /* expected */
    uint64_t value;
    uint32_t hits[MOST_HITS];
};

#define Y .n = 4, .side = 100
#define FROM_150 Y, .x = 150, .y = 150
#define LENT(slice, bytes) .more[slice] = (bytes)
#define NO_ENTRIES LENT(ENTRIES, -4 * ENTRY_COUNT)
#define REFUSED(refusal) .number = (refusal)

static const struct call calls[] = {
    /* build: 1, 2, 3, 6 */
    {BUILD, "case 1, exact room", Y, .value = 23},
    {BUILD, "room to spare stays as it was", Y, LENT(ENTRIES, 28), .value = 23},
    {BUILD, "case 1, room 22", Y, LENT(ENTRIES, -4), REFUSED(6), .value = 23},
    {BUILD, "no room", Y, NO_ENTRIES, REFUSED(6), .value = 23},
    {BUILD, "case 12, no footprints, room to spare", Y, .empty = true},
    {BUILD, "no footprints, no room", Y, .empty = true, NO_ENTRIES},
    {BUILD, "n 0", .n = 0, .side = 100, REFUSED(1)},
    {BUILD, "n 65", .n = 65, .side = 100, REFUSED(1)},
    {BUILD, "n wild", .n = UINT32_MAX, .side = 100, REFUSED(1)},
    {BUILD, "side 0", .n = 4, .side = 0, REFUSED(1)},
    {BUILD, "side 16,385", .n = 4, .side = 16385, REFUSED(1)},
    {BUILD, "side 16,384", .n = 4, .side = 16384, .over = {{REG, 0, 65535}, {REG, 2, 65535}}, NO_ENTRIES, REFUSED(6), .value = 5},
    {BUILD, "register bytes off four, one fewer", Y, LENT(REG, -1), REFUSED(2)},
    {BUILD, "register bytes off four, one more", Y, LENT(REG, 1), REFUSED(2)},
    {BUILD, "register bytes off four, two more", Y, LENT(REG, 2), REFUSED(2)},
    {BUILD, "register bytes off four, three more", Y, LENT(REG, 3), REFUSED(2)},
    {BUILD, "register of no whole footprints, one number more", Y, LENT(REG, 4), REFUSED(2)},
    {BUILD, "register of no whole footprints, two numbers fewer", Y, LENT(REG, -8), REFUSED(2)},
    {BUILD, "register of no whole footprints, three numbers more", Y, LENT(REG, 12), REFUSED(2)},
    {BUILD, "starts bytes off four, one fewer", Y, LENT(STARTS, -1), REFUSED(2)},
    {BUILD, "starts bytes off four, three more", Y, LENT(STARTS, 3), REFUSED(2)},
    {BUILD, "one start too few", Y, LENT(STARTS, -4), REFUSED(2)},
    {BUILD, "one start too many", Y, LENT(STARTS, 4), REFUSED(2)},
    {BUILD, "no starts", Y, LENT(STARTS, -4 * START_COUNT), REFUSED(2)},
    {BUILD, "starts of another n", .n = 3, .side = 100, REFUSED(2)},
    {BUILD, "entries bytes off four, one fewer", Y, LENT(ENTRIES, -1), REFUSED(2)},
    {BUILD, "entries bytes off four, one more", Y, LENT(ENTRIES, 1), REFUSED(2)},
    {BUILD, "entries bytes off four, two more", Y, LENT(ENTRIES, 2), REFUSED(2)},
    {BUILD, "xlo over xhi", Y, .over = {{REG, 4, 251}}, REFUSED(3), .value = 1},
    {BUILD, "ylo over yhi", Y, .over = {{REG, 9, 300}}, REFUSED(3), .value = 2},
    {BUILD, "xhi off the grid", Y, .over = {{REG, 14, 400}}, REFUSED(3), .value = 3},
    {BUILD, "yhi off the grid", Y, .over = {{REG, 19, 400}}, REFUSED(3), .value = 4},
    {BUILD, "yhi wild", Y, .over = {{REG, 3, UINT32_MAX}}, REFUSED(3), .value = 0},
    {BUILD, "the lowest of two bad footprints", Y, .over = {{REG, 19, 400}, {REG, 8, 201}}, REFUSED(3), .value = 2},
    {BUILD, "1 before 2, register", .n = 0, .side = 100, LENT(REG, 1), REFUSED(1)},
    {BUILD, "1 before 2, starts", .n = 4, .side = 0, LENT(STARTS, -1), REFUSED(1)},
    {BUILD, "1 before 2, entries", .n = 65, .side = 100, LENT(ENTRIES, 1), REFUSED(1)},
    {BUILD, "1 before 3", .n = 4, .side = 16385, .over = {{REG, 0, 181}}, REFUSED(1)},
    {BUILD, "1 before 6", .n = 0, .side = 100, NO_ENTRIES, REFUSED(1)},
    {BUILD, "2 before 3, starts", Y, LENT(STARTS, 4), .over = {{REG, 0, 181}}, REFUSED(2)},
    {BUILD, "2 before 3, entries off four", Y, LENT(ENTRIES, -3), .over = {{REG, 0, 181}}, REFUSED(2)},
    {BUILD, "2 before 6", Y, LENT(REG, 4), NO_ENTRIES, REFUSED(2)},
    {BUILD, "3 before 6", Y, .over = {{REG, 16, 301}}, NO_ENTRIES, REFUSED(3), .value = 4},

    /* check: 1, 2, 3; yes is value 1, no is value 0 */
    {CHECK, "built tables", Y, .value = 1},
    {CHECK, "built tables with room to spare", Y, LENT(ENTRIES, 12), .value = 1},
    {CHECK, "another entry past the count", Y, LENT(ENTRIES, 4), .over = {{ENTRIES, 23, 77}}, .value = 1},
    {CHECK, "no footprints", Y, .empty = true, .value = 1},
    {CHECK, "no footprints, no entries", Y, .empty = true, NO_ENTRIES, .value = 1},
    {CHECK, "one entry short", Y, LENT(ENTRIES, -4)},
    {CHECK, "no entries", Y, NO_ENTRIES},
    {CHECK, "another first start", Y, .over = {{STARTS, 0, 1}}},
    {CHECK, "a last start too high", Y, .over = {{STARTS, 256, 24}}},
    {CHECK, "a last start too low", Y, .over = {{STARTS, 256, 22}}},
    {CHECK, "a start too low", Y, .over = {{STARTS, 16 * 9, 10}}},
    {CHECK, "a start that falls is no, and never 7", Y, .over = {{STARTS, 100, UINT32_MAX}}},
    {CHECK, "another entry", Y, .over = {{ENTRIES, 5, 1}}},
    {CHECK, "an entry that names no footprint is no", Y, .over = {{ENTRIES, 22, 5}}},
    {CHECK, "two entries of a run exchanged", Y, .over = {{ENTRIES, 14, 2}, {ENTRIES, 15, 1}}},
    {CHECK, "tables of another register", Y, .over = {{REG, 16, 299}}},
    {CHECK, "n 0", .n = 0, .side = 100, REFUSED(1)},
    {CHECK, "n 65", .n = 65, .side = 100, REFUSED(1)},
    {CHECK, "side 0", .n = 4, .side = 0, REFUSED(1)},
    {CHECK, "side 16,385", .n = 4, .side = 16385, REFUSED(1)},
    {CHECK, "register bytes off four", Y, LENT(REG, 2), REFUSED(2)},
    {CHECK, "register of no whole footprints", Y, LENT(REG, 8), REFUSED(2)},
    {CHECK, "starts bytes off four", Y, LENT(STARTS, 1), REFUSED(2)},
    {CHECK, "one start too few", Y, LENT(STARTS, -4), REFUSED(2)},
    {CHECK, "one start too many", Y, LENT(STARTS, 4), REFUSED(2)},
    {CHECK, "no starts", Y, LENT(STARTS, -4 * START_COUNT), REFUSED(2)},
    {CHECK, "entries bytes off four", Y, LENT(ENTRIES, -1), REFUSED(2)},
    {CHECK, "xlo over xhi", Y, .over = {{REG, 0, 181}}, REFUSED(3), .value = 0},
    {CHECK, "the lowest of two bad footprints", Y, .over = {{REG, 19, 400}, {REG, 6, 400}}, REFUSED(3), .value = 1},
    {CHECK, "1 before 2", .n = 0, .side = 100, LENT(ENTRIES, 1), REFUSED(1)},
    {CHECK, "1 before 3", .n = 4, .side = 0, .over = {{REG, 0, 181}}, REFUSED(1)},
    {CHECK, "2 before 3, entries off four", Y, LENT(ENTRIES, 1), .over = {{REG, 0, 181}}, REFUSED(2)},
    {CHECK, "2 before 3, starts", Y, LENT(STARTS, -4), .over = {{REG, 0, 181}}, REFUSED(2)},
    {CHECK, "3 before no", Y, NO_ENTRIES, .over = {{REG, 19, 400}}, REFUSED(3), .value = 4},

    /* search: 1, 2, 4, 5, 7, 6 */
    {SEARCH, "case 4, r 69", FROM_150, .r = 69, .value = 2, .hits = {0, 3}},
    {SEARCH, "case 5, r 70", FROM_150, .r = 70, .value = 3, .hits = {0, 3, 1}},
    {SEARCH, "case 6, r 71", FROM_150, .r = 71, .value = 4, .hits = {0, 3, 2, 1}},
    {SEARCH, "case 7, r 0", FROM_150, .r = 0, .value = 2, .hits = {0, 3}},
    {SEARCH, "the largest radius", FROM_150, .r = 2097151, .value = 5, .hits = {0, 3, 2, 1, 4}},
    {SEARCH, "case 11, (399,399)", Y, .x = 399, .y = 399, .value = 1, .hits = {3}},
    {SEARCH, "exact room", FROM_150, .r = 70, LENT(OUT, -4 * 5), .value = 3, .hits = {0, 3, 1}},
    {SEARCH, "one short", FROM_150, .r = 70, LENT(OUT, -4 * 6), REFUSED(6), .value = 3},
    {SEARCH, "no room", FROM_150, .r = 71, LENT(OUT, -4 * OUT_ROOM), REFUSED(6), .value = 4},
    {SEARCH, "case 12, no footprints", FROM_150, .r = 70, .empty = true},
    {SEARCH, "no footprints, no entries, no room", FROM_150, .r = 70, .empty = true, NO_ENTRIES, LENT(OUT, -4 * OUT_ROOM)},
    {SEARCH, "n 0", .n = 0, .side = 100, REFUSED(1)},
    {SEARCH, "n 65", .n = 65, .side = 100, REFUSED(1)},
    {SEARCH, "side 0", .n = 4, .side = 0, REFUSED(1)},
    {SEARCH, "side 16,385", .n = 4, .side = 16385, REFUSED(1)},
    {SEARCH, "register bytes off four", FROM_150, LENT(REG, -2), REFUSED(2)},
    {SEARCH, "register of no whole footprints", FROM_150, LENT(REG, 4), REFUSED(2)},
    {SEARCH, "starts bytes off four", FROM_150, LENT(STARTS, 2), REFUSED(2)},
    {SEARCH, "one start too few", FROM_150, LENT(STARTS, -4), REFUSED(2)},
    {SEARCH, "one start too many", FROM_150, LENT(STARTS, 4), REFUSED(2)},
    {SEARCH, "no starts", FROM_150, LENT(STARTS, -4 * START_COUNT), REFUSED(2)},
    {SEARCH, "entries bytes off four", FROM_150, LENT(ENTRIES, 3), REFUSED(2)},
    {SEARCH, "output bytes off four, one more", FROM_150, LENT(OUT, 1), REFUSED(2)},
    {SEARCH, "output bytes off four, one fewer", FROM_150, LENT(OUT, -1), REFUSED(2)},
    {SEARCH, "output of two bytes", FROM_150, LENT(OUT, 2 - 4 * OUT_ROOM), REFUSED(2)},
    {SEARCH, "case 11, (400,0)", Y, .x = 400, .y = 0, REFUSED(4)},
    {SEARCH, "y off the grid", Y, .x = 0, .y = 400, REFUSED(4)},
    {SEARCH, "x wild", Y, .x = UINT32_MAX, .y = 0, REFUSED(4)},
    {SEARCH, "radius 2,097,152", FROM_150, .r = 2097152, REFUSED(5)},
    {SEARCH, "radius wild", FROM_150, .r = UINT32_MAX, REFUSED(5)},
    {SEARCH, "a start below its predecessor", FROM_150, .over = {{STARTS, 16 * 5 + 1, 4}}, REFUSED(7)},
    {SEARCH, "an end beyond the entries", FROM_150, LENT(ENTRIES, -4 * 17), REFUSED(7)},
    {SEARCH, "an end wild", FROM_150, .over = {{STARTS, 16 * 5 + 16, UINT32_MAX}}, REFUSED(7)},
    {SEARCH, "an entry not below the footprint count", FROM_150, .over = {{ENTRIES, 5, 5}}, REFUSED(7)},
    {SEARCH, "an entry of a footprint with lo over hi", FROM_150, .over = {{REG, 0, 181}}, REFUSED(7)},
    {SEARCH, "an entry of a footprint off the grid", FROM_150, .over = {{REG, 15, 400}}, REFUSED(7)},
    {SEARCH, "a bad footprint that no run read names", FROM_150, .over = {{REG, 19, 400}}, .value = 2, .hits = {0, 3}},
    {SEARCH, "a bad entry in a tile that is not visited", FROM_150, .over = {{ENTRIES, 21, 99}}, .value = 2, .hits = {0, 3}},
    {SEARCH, "bad starts in a tile that is not visited", FROM_150, .over = {{STARTS, 16 * 10, UINT32_MAX}}, .value = 2, .hits = {0, 3}},
    {SEARCH, "1 before 2, output", .n = 0, .side = 100, LENT(OUT, 1), REFUSED(1)},
    {SEARCH, "1 before 4", .n = 4, .side = 0, .x = 400, REFUSED(1)},
    {SEARCH, "2 before 4, output off four", Y, .x = 400, LENT(OUT, 1), REFUSED(2)},
    {SEARCH, "2 before 4, starts", Y, .x = 400, LENT(STARTS, 4), REFUSED(2)},
    {SEARCH, "2 before 6, output of three bytes", FROM_150, LENT(OUT, 3 - 4 * OUT_ROOM), REFUSED(2)},
    {SEARCH, "4 before 5", Y, .x = 0, .y = 400, .r = 2097152, REFUSED(4)},
    {SEARCH, "4 before 7", Y, .x = 400, .y = 150, .over = {{ENTRIES, 5, 5}}, REFUSED(4)},
    {SEARCH, "5 before 7", FROM_150, .r = 2097152, .over = {{ENTRIES, 5, 5}}, REFUSED(5)},
    {SEARCH, "5 before 6", FROM_150, .r = 2097152, LENT(OUT, -4 * OUT_ROOM), REFUSED(5)},
    {SEARCH, "7 before 6", FROM_150, .over = {{ENTRIES, 6, 5}}, LENT(OUT, -4 * OUT_ROOM), REFUSED(7)},
    {SEARCH, "7 before 6, damage behind the hits that fit", FROM_150, .r = 71, .over = {{ENTRIES, 12, 5}}, LENT(OUT, -4 * 7), REFUSED(7)}
};

/* ---- lent memory: a guard, the bytes from an odd address on, a guard */

enum { MOST_BYTES = 65537 * 16, ROOM = GUARD + 8 + MOST_BYTES + GUARD };

struct lent {
    size_t length, guarded;   /* the bytes that are lent, and those with the guards */
    uint8_t *bytes;           /* in memory */
    uint8_t memory[ROOM];     /* what the call is lent */
    uint8_t expected[ROOM];   /* what it shall leave */
};

struct score {
    long checks, failed;
};

static void put_number(uint8_t *bytes, size_t place, uint32_t number)
{
    for (size_t byte = 0; byte < 4; byte++) {
        bytes[4 * place + byte] = (uint8_t)(number >> 8 * byte);
    }
}

/* Lends bytes at an odd address, filled like the guards around them: with zeros, which are good numbers for all tables, or with bad ones. */
static void lend(struct lent *lent, size_t length, size_t odd, bool zeros)
{
    lent->length = length;
    lent->guarded = GUARD + 8 + length + GUARD;
    for (size_t place = 0; place < lent->guarded; place++) {
        lent->memory[place] = zeros ? 0 : (uint8_t)(0xA5 + 7 * place);
    }
    lent->bytes = lent->memory + GUARD + odd % 8;
    lent->bytes += (uintptr_t)lent->bytes % 2 == 0;
}

/* What was lent is what shall be left, up to where the call says otherwise. */
static uint8_t *expect_unchanged(struct lent *lent)
{
    memcpy(lent->expected, lent->memory, lent->guarded);
    return lent->expected + (lent->bytes - lent->memory);
}

static void check(struct score *score, bool good, const char *function, const char *words, const char *what)
{
    score->checks++;
    if (!good) {
        score->failed++;
        printf("doors: %s, %s: %s\n", function, words, what);
    }
}

/* ---- tables of yard Y, or of a register without footprints */

static void put_register(uint8_t *bytes)
{
    for (size_t place = 0; place < 4 * FOOTPRINTS; place++) {
        put_number(bytes, place, yard_y[place]);
    }
}

/* Start k counts the entries of the runs before run k. */
static void put_starts(uint8_t *bytes, bool empty)
{
    for (uint32_t run = 0; run < START_COUNT; run++) {
        uint32_t before = 0;
        for (size_t place = 0; place < ENTRY_COUNT && !empty; place++) {
            before += 16 * entries_y[place].tile + entries_y[place].class < run;
        }
        put_number(bytes, run, before);
    }
}

static void put_entries(uint8_t *bytes)
{
    for (size_t place = 0; place < ENTRY_COUNT; place++) {
        put_number(bytes, place, entries_y[place].footprint);
    }
}

/* ---- the calls of the table */

static struct lent lent[SLICES];

static const char *name_of(enum function function)
{
    return function == BUILD ? "build" : function == CHECK ? "check" : "search";
}

/* Fills a slice with a table; what is lent shorter cuts the table off. */
static void fill(struct lent *lent, const uint8_t *table, size_t bytes)
{
    memcpy(lent->bytes, table, lent->length < bytes ? lent->length : bytes);
}

/* Lends all slices as the call has them: yard Y's register, for a build no tables yet. */
static void lend_all(const struct call *call, size_t odd, bool zeros)
{
    static const long bytes[SLICES] = {0, 16 * FOOTPRINTS, 4 * START_COUNT, 4 * ENTRY_COUNT, 4 * OUT_ROOM};
    uint8_t reg[16 * FOOTPRINTS], starts[4 * START_COUNT], entries[4 * ENTRY_COUNT];
    for (int slice = REG; slice < SLICES; slice++) {
        long length = call->empty && slice == REG ? 0 : bytes[slice] + call->more[slice];
        lend(&lent[slice], (size_t)length, odd + 2 * (size_t)slice, zeros);
    }
    put_register(reg);
    fill(&lent[REG], reg, sizeof reg);
    if (call->function != BUILD) {
        put_starts(starts, call->empty);
        put_entries(entries);
        fill(&lent[STARTS], starts, sizeof starts);
        fill(&lent[ENTRIES], entries, sizeof entries);
    }
}

static void write_over(const struct call *call)
{
    for (size_t k = 0; k < 2; k++) {
        if (call->over[k].slice != NONE) {
            put_number(lent[call->over[k].slice].bytes, call->over[k].place, call->over[k].number);
        }
    }
}

static void expect_all(const struct call *call)
{
    uint8_t *left[SLICES];
    for (int slice = REG; slice < SLICES; slice++) {
        left[slice] = expect_unchanged(&lent[slice]);
    }
    if (call->function == BUILD && call->number == LUV_ACCEPTED) {
        put_starts(left[STARTS], call->empty);
        for (size_t place = 0; place < call->value; place++) {
            put_number(left[ENTRIES], place, entries_y[place].footprint);
        }
    }
    for (size_t hit = 0; call->function == SEARCH && call->number == LUV_ACCEPTED && hit < call->value; hit++) {
        put_number(left[OUT], hit, call->hits[hit]);
    }
}

static uint32_t make_call(const struct call *c, uint64_t *value)
{
    const struct lent *reg = &lent[REG], *starts = &lent[STARTS], *entries = &lent[ENTRIES], *out = &lent[OUT];
    switch (c->function) {
    case BUILD:
        return luv_build(c->n, c->side, reg->bytes, reg->length, starts->bytes, starts->length, entries->bytes, entries->length, value);
    case CHECK:
        return luv_check(c->n, c->side, reg->bytes, reg->length, starts->bytes, starts->length, entries->bytes, entries->length, value);
    default:
        return luv_search(c->n, c->side, reg->bytes, reg->length, starts->bytes, starts->length, entries->bytes, entries->length,
                          c->x, c->y, c->r, out->bytes, out->length, value);
    }
}

static void check_memory(struct score *score, const char *function, const char *words)
{
    static const char *const what[] = {"", "the register", "the starts", "the entries", "the output"};
    for (int slice = REG; slice < SLICES; slice++) {
        bool same = memcmp(lent[slice].memory, lent[slice].expected, lent[slice].guarded) == 0;
        check(score, same, function, words, what[slice]);
    }
}

static void run(struct score *score, const struct call *call, size_t odd, bool zeros)
{
    uint64_t value = UINT64_C(0x0123456789ABCDEF);
    lend_all(call, odd, zeros);
    write_over(call);
    expect_all(call);
    uint32_t number = make_call(call, &value);
    check(score, number == call->number, name_of(call->function), call->words, "the refusal's number");
    check(score, value == call->value, name_of(call->function), call->words, "the value");
    check_memory(score, name_of(call->function), call->words);
}

/* ---- the register's limit: 65,536 footprints at the one point of a yard of one tile, and one more */

static void run_limit(struct score *score, size_t footprints, uint32_t number, uint64_t value)
{
    static const char words[] = "65,536 footprints, and one more";
    uint64_t told = 1;
    lend(&lent[REG], 16 * footprints, 1, false);
    lend(&lent[STARTS], 4 * LUV_STARTS(1), 3, false);
    lend(&lent[ENTRIES], 4 * footprints, 5, false);
    lend(&lent[OUT], 0, 7, false);
    memset(lent[REG].bytes, 0, lent[REG].length);
    expect_unchanged(&lent[REG]);
    uint8_t *starts = expect_unchanged(&lent[STARTS]), *entries = expect_unchanged(&lent[ENTRIES]);
    expect_unchanged(&lent[OUT]);
    for (uint32_t run = 0; number == LUV_ACCEPTED && run < LUV_STARTS(1); run++) {
        put_number(starts, run, run == 0 ? 0 : (uint32_t)footprints);
    }
    for (uint32_t place = 0; number == LUV_ACCEPTED && place < footprints; place++) {
        put_number(entries, place, place);
    }
    uint32_t answer = luv_build(1, 1, lent[REG].bytes, lent[REG].length, lent[STARTS].bytes, lent[STARTS].length,
                                lent[ENTRIES].bytes, lent[ENTRIES].length, &told);
    check(score, answer == number && told == value, "build", words, "number or value");
    check_memory(score, "build", words);
}

int main(void)
{
    struct score score = {0, 0};
    for (size_t odd = 1; odd < 8; odd += 2) {
        for (size_t k = 0; k < sizeof calls / sizeof *calls; k++) {
            run(&score, &calls[k], odd, false);
            run(&score, &calls[k], odd, true);
        }
    }
    run_limit(&score, LUV_MOST_FOOTPRINTS, LUV_ACCEPTED, LUV_MOST_FOOTPRINTS);
    run_limit(&score, LUV_MOST_FOOTPRINTS + 1, LUV_LENGTHS, 0);
    printf("doors: %ld checks, %ld failed\n", score.checks, score.failed);
    return score.failed == 0 ? 0 : 1;
}
