/*
 * Runs calls that are written as numbers on standard input through the library's functions for C, and answers each with numbers on standard
 * output: the format of the program replay, without its limit on tables.
 *
 * A call is its code and its parameters; a table is its length and its numbers. The answer is the refusal's number, 0 for accepted, and the
 * value, then every lent output table and state as it is afterwards. Codes 1 to 8 are build, check, run, search, start, ask, join and a list of
 * searches on numbers, whose probes are a table of three numbers a probe; 11, 12 and 14 are build, check and search on bytes; 23 is a run whose
 * entries are a length alone, and its answer ends with where the part begins. What is no such call, or has no memory, prints "stop" and ends.
 */
#define _DEFAULT_SOURCE
#include <stdint.h>
#include <stdio.h>
#include <stdlib.h>
#include <sys/mman.h>

#include "luvgarden.h"

/* what stands behind an answer's pointers before a call, so that an answer that is not written shows */
#define UNWRITTEN 0xa5a5a5a5u

/* ---- output */

static unsigned char output[1 << 16];
static size_t output_length;

static void flush(void)
{
    size_t written = fwrite(output, 1, output_length, stdout);
    if (written != output_length || fflush(stdout) != 0)
        exit(1);
    output_length = 0;
}

static void put(uint64_t number)
{
    unsigned char digits[20];
    size_t count = 0;
    do {
        digits[count++] = (unsigned char)('0' + number % 10);
        number /= 10;
    } while (number != 0);
    if (sizeof output - output_length < sizeof digits + 1)
        flush();
    while (count != 0)
        output[output_length++] = digits[--count];
    output[output_length++] = '\n';
}

static void stop(void)
{
    flush();
    fputs("stop\n", stdout);
    exit(fflush(stdout) != 0);
}

/* ---- input */

static unsigned char input[1 << 16];
static size_t input_read, input_held;

/* the next byte, or -1 at the input's end */
static int next_byte(void)
{
    if (input_read == input_held) {
        input_held = fread(input, 1, sizeof input, stdin);
        input_read = 0;
        if (input_held == 0)
            return -1;
    }
    return input[input_read++];
}

/* the number that begins with a byte, which is at most most: digits, then LF */
static uint64_t number_from(int byte, uint64_t most)
{
    uint64_t number = 0;
    do {
        uint64_t digit = (uint64_t)byte - '0';
        if (byte < '0' || byte > '9' || digit > most || number > (most - digit) / 10)
            stop();
        number = 10 * number + digit;
        byte = next_byte();
    } while (byte != '\n');
    return number;
}

static uint64_t next_long(void)
{
    return number_from(next_byte(), UINT64_MAX);
}

static uint32_t next_word(void)
{
    return (uint32_t)number_from(next_byte(), UINT32_MAX);
}

/* ---- tables: each has memory of exactly its length */

struct words {
    uint32_t *numbers;
    size_t length;
};

struct longs {
    uint64_t *numbers;
    size_t length;
};

/* the register, the starts and the entries */
struct tables {
    struct words reg, starts, entries;
};

/* memory for a table; never NULL, also for length 0 */
static void *memory(uint64_t length, size_t width)
{
    void *lent = NULL;
    if (length <= SIZE_MAX / width)
        lent = malloc(length == 0 ? 1 : (size_t)length * width);
    if (lent == NULL)
        stop();
    return lent;
}

static struct words next_words(void)
{
    struct words table;
    uint64_t length = next_long();
    table.numbers = memory(length, sizeof *table.numbers);
    table.length = (size_t)length;
    for (size_t i = 0; i < table.length; i++)
        table.numbers[i] = next_word();
    return table;
}

static struct longs next_longs(void)
{
    struct longs table;
    uint64_t length = next_long();
    table.numbers = memory(length, sizeof *table.numbers);
    table.length = (size_t)length;
    for (size_t i = 0; i < table.length; i++)
        table.numbers[i] = next_long();
    return table;
}

static struct tables next_tables(void)
{
    struct tables t;
    t.reg = next_words();
    t.starts = next_words();
    t.entries = next_words();
    return t;
}

static void put_words(struct words table)
{
    for (size_t i = 0; i < table.length; i++)
        put(table.numbers[i]);
}

static void put_longs(struct longs table)
{
    for (size_t i = 0; i < table.length; i++)
        put(table.numbers[i]);
}

static void free_tables(struct tables t)
{
    free(t.reg.numbers);
    free(t.starts.numbers);
    free(t.entries.numbers);
}

/* a slice, and three of them, as the functions take them */
#define SLICE(table) (table).numbers, (table).length
#define TABLES(t) SLICE((t).reg), SLICE((t).starts), SLICE((t).entries)

static void put_answer(uint32_t refusal, uint64_t value)
{
    put(refusal);
    put(value);
}

/* ---- the calls on numbers */

static void build(uint32_t n, uint32_t side)
{
    struct tables t = next_tables();
    uint64_t value = UNWRITTEN;
    uint32_t refusal = luv_build_n(n, side, TABLES(t), &value);
    put_answer(refusal, value);
    put_words(t.starts);
    put_words(t.entries);
    free_tables(t);
}

static void check(uint32_t n, uint32_t side)
{
    struct tables t = next_tables();
    uint64_t value = UNWRITTEN;
    uint32_t refusal = luv_check_n(n, side, TABLES(t), &value);
    put_answer(refusal, value);
    free_tables(t);
}

static void run(uint32_t n, uint32_t side)
{
    struct words starts = next_words();
    struct words entries = next_words();
    uint32_t tile = next_word();
    uint32_t cls = next_word();
    uint64_t from = UNWRITTEN, value = UNWRITTEN;
    uint32_t refusal = luv_run_n(n, side, SLICE(starts), SLICE(entries), tile, cls, &from, &value);
    put_answer(refusal, value);
    put(from);
    for (uint64_t i = 0; i < value; i++)
        put(entries.numbers[from + i]);
    free(starts.numbers);
    free(entries.numbers);
}

static void search(uint32_t n, uint32_t side)
{
    struct tables t = next_tables();
    uint32_t x = next_word();
    uint32_t y = next_word();
    uint32_t r = next_word();
    struct words out = next_words();
    uint64_t value = UNWRITTEN;
    uint32_t refusal = luv_search_n(n, side, TABLES(t), x, y, r, SLICE(out), &value);
    put_answer(refusal, value);
    put_words(out);
    free_tables(t);
    free(out.numbers);
}

/* a walk's state as a call hands it back */
struct state {
    uint32_t x, y;
    uint64_t waiting;
    uint32_t mark;
};

static const struct state unwritten = { UNWRITTEN, UNWRITTEN, UNWRITTEN, UNWRITTEN };

static void put_state(struct state after)
{
    put(after.x);
    put(after.y);
    put(after.waiting);
    put(after.mark);
}

static void start(uint32_t n, uint32_t side)
{
    struct tables t = next_tables();
    uint32_t x = next_word();
    uint32_t y = next_word();
    struct longs front = next_longs();
    struct state after = unwritten;
    uint64_t value = UNWRITTEN;
    uint32_t refusal = luv_start_n(n, side, TABLES(t), x, y, SLICE(front), &after.x, &after.y, &after.waiting, &after.mark, &value);
    put_answer(refusal, value);
    put_state(after);
    put_longs(front);
    free_tables(t);
    free(front.numbers);
}

static void ask(uint32_t n, uint32_t side)
{
    struct tables t = next_tables();
    struct longs front = next_longs();
    uint32_t x = next_word();
    uint32_t y = next_word();
    uint64_t waiting = next_long();
    uint32_t mark = next_word();
    uint32_t j = next_word();
    struct longs out = next_longs();
    struct state after = unwritten;
    uint64_t value = UNWRITTEN;
    uint32_t refusal = luv_ask_n(n, side, TABLES(t), SLICE(front), x, y, waiting, mark, j, SLICE(out),
                                 &after.x, &after.y, &after.waiting, &after.mark, &value);
    put_answer(refusal, value);
    put_state(after);
    put_longs(front);
    put_longs(out);
    free_tables(t);
    free(front.numbers);
    free(out.numbers);
}

static void join(uint32_t n, uint32_t side)
{
    struct tables r_tables = next_tables();
    struct tables s_tables = next_tables();
    uint32_t r = next_word();
    struct words out = next_words();
    uint64_t value = UNWRITTEN;
    uint32_t refusal = luv_join_n(n, side, TABLES(r_tables), TABLES(s_tables), r, SLICE(out), &value);
    put_answer(refusal, value);
    put_words(out);
    free_tables(r_tables);
    free_tables(s_tables);
    free(out.numbers);
}

/* probes and how many they are */
struct probes {
    struct luv_probe *numbers;
    size_t length;
};

/* the probes of a table that has three numbers for each */
static struct probes next_probes(void)
{
    struct probes list;
    struct words table = next_words();
    if (table.length % 3 != 0)
        stop();
    list.length = table.length / 3;
    list.numbers = memory(list.length, sizeof *list.numbers);
    for (size_t i = 0; i < list.length; i++) {
        list.numbers[i].x = table.numbers[3 * i];
        list.numbers[i].y = table.numbers[3 * i + 1];
        list.numbers[i].r = table.numbers[3 * i + 2];
    }
    free(table.numbers);
    return list;
}

static void search_all(uint32_t n, uint32_t side)
{
    struct tables t = next_tables();
    struct probes probes = next_probes();
    struct words out = next_words();
    struct longs ends = next_longs();
    uint64_t value = UNWRITTEN;
    uint32_t refusal = luv_search_all_n(n, side, TABLES(t), SLICE(probes), SLICE(out), SLICE(ends), &value);
    put_answer(refusal, value);
    put_words(out);
    put_longs(ends);
    free_tables(t);
    free(probes.numbers);
    free(out.numbers);
    free(ends.numbers);
}

/* a run among so many entries, which are zeros that cost no memory and cannot be written */
static void long_run(uint32_t n, uint32_t side)
{
    struct words starts = next_words();
    uint64_t length = next_long();
    uint32_t tile = next_word();
    uint32_t cls = next_word();
    if (length > SIZE_MAX / sizeof(uint32_t) - 1)
        stop();
    size_t bytes = ((size_t)length + 1) * sizeof(uint32_t);
    uint32_t *entries = mmap(NULL, bytes, PROT_READ, MAP_PRIVATE | MAP_ANONYMOUS | MAP_NORESERVE, -1, 0);
    if (entries == MAP_FAILED)
        stop();
    uint64_t from = UNWRITTEN, value = UNWRITTEN;
    uint32_t refusal = luv_run_n(n, side, SLICE(starts), entries, (size_t)length, tile, cls, &from, &value);
    put_answer(refusal, value);
    put(from);
    munmap(entries, bytes);
    free(starts.numbers);
}

/* ---- the calls on bytes, which ask for no alignment: every table is lent from an odd address on */

struct bytes {
    uint8_t *memory;
    uint8_t *numbers;
    size_t length;
};

struct byte_tables {
    struct bytes reg, starts, entries;
};

static struct bytes next_bytes(void)
{
    struct bytes table;
    uint64_t length = next_long();
    if (length == UINT64_MAX)
        stop();
    table.memory = memory(length + 1, 1);
    table.numbers = table.memory + 1;
    table.length = (size_t)length;
    for (size_t i = 0; i < table.length; i++)
        table.numbers[i] = (uint8_t)number_from(next_byte(), UINT8_MAX);
    return table;
}

static struct byte_tables next_byte_tables(void)
{
    struct byte_tables t;
    t.reg = next_bytes();
    t.starts = next_bytes();
    t.entries = next_bytes();
    return t;
}

static void put_bytes(struct bytes table)
{
    for (size_t i = 0; i < table.length; i++)
        put(table.numbers[i]);
}

static void free_byte_tables(struct byte_tables t)
{
    free(t.reg.memory);
    free(t.starts.memory);
    free(t.entries.memory);
}

static void build_bytes(uint32_t n, uint32_t side)
{
    struct byte_tables t = next_byte_tables();
    uint64_t value = UNWRITTEN;
    uint32_t refusal = luv_build(n, side, TABLES(t), &value);
    put_answer(refusal, value);
    put_bytes(t.starts);
    put_bytes(t.entries);
    free_byte_tables(t);
}

static void check_bytes(uint32_t n, uint32_t side)
{
    struct byte_tables t = next_byte_tables();
    uint64_t value = UNWRITTEN;
    uint32_t refusal = luv_check(n, side, TABLES(t), &value);
    put_answer(refusal, value);
    free_byte_tables(t);
}

static void search_bytes(uint32_t n, uint32_t side)
{
    struct byte_tables t = next_byte_tables();
    uint32_t x = next_word();
    uint32_t y = next_word();
    uint32_t r = next_word();
    struct bytes out = next_bytes();
    uint64_t value = UNWRITTEN;
    uint32_t refusal = luv_search(n, side, TABLES(t), x, y, r, SLICE(out), &value);
    put_answer(refusal, value);
    put_bytes(out);
    free_byte_tables(t);
    free(out.memory);
}

/* ---- calls until the input ends before one */

typedef void call(uint32_t n, uint32_t side);

/* the call of a code, or NULL */
static call *call_of(uint64_t code)
{
    switch (code) {
    case 1: return build;
    case 2: return check;
    case 3: return run;
    case 4: return search;
    case 5: return start;
    case 6: return ask;
    case 7: return join;
    case 8: return search_all;
    case 11: return build_bytes;
    case 12: return check_bytes;
    case 14: return search_bytes;
    case 23: return long_run;
    default: return NULL;
    }
}

int main(void)
{
    int byte;
    while ((byte = next_byte()) != -1) {
        call *answer = call_of(number_from(byte, UINT64_MAX));
        if (answer == NULL)
            stop();
        uint32_t n = next_word();
        uint32_t side = next_word();
        answer(n, side);
    }
    flush();
    return 0;
}
