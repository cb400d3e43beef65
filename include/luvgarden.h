/*
 * Luvgarden from C and C++: what lies under a yard, searched so that nothing is missed.
 *
 * The caller owns all memory. A call reads and writes only what it is lent, keeps nothing when it returns and has no memory of its own but
 * some kilobytes of stack (a search under ten, a list of searches the most: under thirty).
 * Nothing needs to be checked before a call: every number is judged, and tables of any origin are answered or refused.
 *
 * Every function returns a number of luv_refusal, LUV_ACCEPTED for none, and writes *value on every call, refused ones too:
 *     accepted         the count that the function names
 *     LUV_FOOTPRINT    the lowest bad footprint
 *     LUV_ROOM         the numbers needed, all of them and not only those that are missing
 *     other refusals   0, but for luv_search_all_n the index of the probe that is refused
 * A refused call leaves all lent memory as it was (luv_ask_n says its one exception).
 *
 * A slice is a pointer and a length behind it. Pointers are never NULL, also for length 0. What a call writes (a slice that is not const, *value,
 * the other answer pointers) overlaps nothing else that it is lent; slices that it only reads may be the same memory.
 *
 * The tables of a yard:
 *     reg      the register: xlo, ylo, xhi, yhi of each footprint, both ends belonging to it; its number is its place from 0
 *     starts   LUV_STARTS(n) numbers: where each run of entries begins; the last is the count of entries
 *     entries  footprint numbers, run by run; luv_build needs room for all, and says by LUV_ROOM how many they are
 * Coordinates are whole centimetres, 0..n*side-1. Only luv_build writes starts and entries; the other calls read what it left.
 */
#ifndef LUVGARDEN_H
#define LUVGARDEN_H

#include <stddef.h>
#include <stdint.h>

#ifdef __cplusplus
extern "C" {
#endif

/* ---- limits */

#define LUV_MOST_TILES 64u           /* n, tiles in a row: 1..64 */
#define LUV_MOST_SIDE 16384u         /* side of a tile in centimetres: 1..16,384 */
#define LUV_MOST_FOOTPRINTS 65536u   /* footprints in a register */
#define LUV_MOST_ENTRIES 268435456u  /* entries that a run may end at: 65,536 footprints in 4,096 tiles */
#define LUV_MOST_RADIUS 2097151u     /* radius of a search in centimetres; that of a join is at most side */
#define LUV_MOST_PROBES 65536u       /* probes in a list of searches */

/* ---- lengths, in numbers */

#define LUV_FOOTPRINT_NUMBERS 4u     /* a footprint in the register */
#define LUV_NUMBER_BYTES 4u          /* a number, where tables travel as bytes */
#define LUV_STARTS(n) ((size_t)16 * (n) * (n) + 1)                                      /* the starts, exactly */
#define LUV_FRONT(footprints, n) ((size_t)3 * ((size_t)(footprints) + (size_t)(n) * (n) + 4))   /* the front of a walk, at least */

/* ---- refusals, judged in the order 1, 2, 3, 4, 5, 7, 6 (luv_ask_n and luv_search_all_n say theirs) */

enum luv_refusal {
    LUV_ACCEPTED = 0,
    LUV_SIZES = 1,      /* n or side outside its range */
    LUV_LENGTHS = 2,    /* a register of no whole footprints or of too many, a wrong count of starts, too many probes, a byte length off four */
    LUV_FOOTPRINT = 3,  /* build and check: a footprint with lo > hi or hi off the grid; value: the lowest such number */
    LUV_PLACE = 4,      /* a point off the grid; for a run, no such tile or class */
    LUV_RADIUS = 5,     /* a search over LUV_MOST_RADIUS, a join over side */
    LUV_ROOM = 6,       /* too little room; value: the numbers needed. An exact fit is accepted */
    LUV_DAMAGE = 7,     /* tables that no build left: starts that fall or pass the entries, entries that name no good footprint */
    LUV_TEXT = 8        /* no function's: the programs' refusal of a text; it goes with the line */
};

/*
 * ---- Tables as bytes: the plan viewer's functions
 *
 * Each number of a table is four bytes, the lowest first; lengths (reg_bytes ..) count bytes, so a table of k numbers is lent as 4*k bytes.
 * Counts and room in *value are numbers, not bytes. Pointers need no alignment.
 */

/*
 * Builds starts and entries from the register; *value: the count of entries.
 * Lend 4*LUV_STARTS(n) bytes of starts. If the entries are too short, LUV_ROOM says how many numbers they need. Entries past the count
 * stay as they were. Refusals: 1, 2, 3, 6.
 */
uint32_t luv_build(uint32_t n, uint32_t side,
                   const uint8_t *reg, size_t reg_bytes,
                   uint8_t *starts, size_t starts_bytes,
                   uint8_t *entries, size_t entries_bytes,
                   uint64_t *value);

/*
 * Says whether starts and the counted entries are what the build leaves; *value: 1 for yes, 0 for no. Nothing is written but *value.
 * Damaged tables are a plain no. Refusals: 1, 2, 3.
 */
uint32_t luv_check(uint32_t n, uint32_t side,
                   const uint8_t *reg, size_t reg_bytes,
                   const uint8_t *starts, size_t starts_bytes,
                   const uint8_t *entries, size_t entries_bytes,
                   uint64_t *value);

/*
 * Writes the number of every footprint within r of the point (x, y) to out, each once; *value: how many they are.
 * They come in the order of their tile, class and number, which is not the order of distance. As many numbers as there are footprints are
 * always enough room on built tables; else LUV_ROOM says how many are needed. Output past the hits stays as it was. Refusals: 1, 2, 4, 5, 7, 6.
 */
uint32_t luv_search(uint32_t n, uint32_t side,
                    const uint8_t *reg, size_t reg_bytes,
                    const uint8_t *starts, size_t starts_bytes,
                    const uint8_t *entries, size_t entries_bytes,
                    uint32_t x, uint32_t y, uint32_t r,
                    uint8_t *out, size_t out_bytes,
                    uint64_t *value);

/*
 * ---- Tables as numbers: every function
 *
 * Lengths count numbers. Pointers are aligned as their numbers need it. Otherwise as above; luv_build_n, luv_check_n and luv_search_n
 * are the three functions above on numbers.
 */

uint32_t luv_build_n(uint32_t n, uint32_t side,
                     const uint32_t *reg, size_t reg_length,
                     uint32_t *starts, size_t starts_length,
                     uint32_t *entries, size_t entries_length,
                     uint64_t *value);

uint32_t luv_check_n(uint32_t n, uint32_t side,
                     const uint32_t *reg, size_t reg_length,
                     const uint32_t *starts, size_t starts_length,
                     const uint32_t *entries, size_t entries_length,
                     uint64_t *value);

/*
 * The run of a class (0..15) in a tile (row*n+column): the part of entries that begins at *from and has *value numbers, also where it is empty.
 * Both are written on every call; a refused run gives from 0 and value 0. Refusals: 1, 2, 4, 7.
 */
uint32_t luv_run_n(uint32_t n, uint32_t side,
                   const uint32_t *starts, size_t starts_length,
                   const uint32_t *entries, size_t entries_length,
                   uint32_t tile, uint32_t cls,
                   uint64_t *from, uint64_t *value);

uint32_t luv_search_n(uint32_t n, uint32_t side,
                      const uint32_t *reg, size_t reg_length,
                      const uint32_t *starts, size_t starts_length,
                      const uint32_t *entries, size_t entries_length,
                      uint32_t x, uint32_t y, uint32_t r,
                      uint32_t *out, size_t out_length,
                      uint64_t *value);

/* A search of a list: its point (x, y) and its radius r. */
struct luv_probe {
    uint32_t x, y, r;
};

/*
 * Searches for every probe of a list: writes their lists to out one behind the other, each as luv_search_n writes it; *value: the numbers
 * written in all. ends[i] becomes the end of list i, its place in out: the list stands from ends[i-1], the first from 0, up to ends[i].
 * probes_length counts probes, which are aligned as a uint32_t. Lend as many ends as probes. Output past the lists and ends past the probes
 * stay as they were. Refusals, in this order:
 *     1, 2     before any probe is looked at, so without probes too; 2 also for more than LUV_MOST_PROBES; *value: 0
 *     4, 5, 7  the first probe in the list that luv_search_n would refuse so; *value: its index
 *     6        out is shorter than all lists, *value: their numbers in all; then ends is shorter than the probes, *value: how many these are
 * Without probes the tables' contents are not looked at. All probes are judged before anything is written: where the lists have over 4,096
 * numbers in all, or there are over 512 probes, each is searched twice.
 */
uint32_t luv_search_all_n(uint32_t n, uint32_t side,
                          const uint32_t *reg, size_t reg_length,
                          const uint32_t *starts, size_t starts_length,
                          const uint32_t *entries, size_t entries_length,
                          const struct luv_probe *probes, size_t probes_length,
                          uint32_t *out, size_t out_length,
                          uint64_t *ends, size_t ends_length,
                          uint64_t *value);

/*
 * Starts a walk outward from the point (x, y); *value: 0. The front is the walk's memory: lend at least LUV_FRONT(footprints, n) numbers,
 * and lend the same, unchanged, to each ask. The state of the walk is the point, the count of waiting rows and a damage mark; it goes out
 * through the _after pointers, written on every call. A refused start gives point 0, 0, count 0 and mark 1. Refusals: 1, 2, 4, 7, 6.
 */
uint32_t luv_start_n(uint32_t n, uint32_t side,
                     const uint32_t *reg, size_t reg_length,
                     const uint32_t *starts, size_t starts_length,
                     const uint32_t *entries, size_t entries_length,
                     uint32_t x, uint32_t y,
                     uint64_t *front, size_t front_length,
                     uint32_t *x_after, uint32_t *y_after, uint64_t *waiting_after, uint32_t *mark_after,
                     uint64_t *value);

/*
 * Asks a walk for its next j footprints, nearest first; *value: how many were given, fewer than j only where no more are left.
 * Each is two numbers of out, the footprint and its square; lend 2*j. Output past them stays as it was. The state goes in by value (a mark is
 * 0 for unset, any other number for set) and out through the _after pointers (mark 0 or 1), written on every call. Refusals: 1, 2, 4, 6, 7.
 * LUV_DAMAGE ends the walk: the mark is set, the count of waiting rows 0, and the front and the 2*j numbers of out are filled with 0.
 * Every other refusal leaves memory and state as they were.
 */
uint32_t luv_ask_n(uint32_t n, uint32_t side,
                   const uint32_t *reg, size_t reg_length,
                   const uint32_t *starts, size_t starts_length,
                   const uint32_t *entries, size_t entries_length,
                   uint64_t *front, size_t front_length,
                   uint32_t x, uint32_t y, uint64_t waiting, uint32_t mark,
                   uint32_t j,
                   uint64_t *out, size_t out_length,
                   uint32_t *x_after, uint32_t *y_after, uint64_t *waiting_after, uint32_t *mark_after,
                   uint64_t *value);

/*
 * Writes every pair of a footprint of R and one of S within r of each other to out, two numbers a pair; *value: how many pairs.
 * Both registers have the same n and side; r is at most side. LUV_ROOM says how many numbers are needed, two a pair. Output past the pairs
 * stays as it was. Refusals: 1, 2, 5, 7, 6.
 */
uint32_t luv_join_n(uint32_t n, uint32_t side,
                    const uint32_t *reg_r, size_t reg_r_length,
                    const uint32_t *starts_r, size_t starts_r_length,
                    const uint32_t *entries_r, size_t entries_r_length,
                    const uint32_t *reg_s, size_t reg_s_length,
                    const uint32_t *starts_s, size_t starts_s_length,
                    const uint32_t *entries_s, size_t entries_s_length,
                    uint32_t r,
                    uint32_t *out, size_t out_length,
                    uint64_t *value);

#ifdef __cplusplus
}
#endif

#endif
