/* Which counter is bad: a read and a store answer refusal 4 with the index of the first counter above K, and leave every buffer as it was. */
#include <string.h>

#include "cases_block.h"

/* At K = 2 a counter has two bits, so 3 alone is above K. From K = 4 on it has three, and the first above K need not be the greatest. */
static const struct bad_counter {
    const char *name;
    size_t columns, k;
    const char *cells, *counters; /* a picture, which is the data of the store too, and bytes; what is expected: */
    size_t index;
} bad_counters[] = {
    {"G10 row 0, all others 1", 2, 2, "10 01", "57", 0},
    {"G10 column 1, all others 0", 2, 2, "10 01", "C0", 3},
    {"A4  one cell, its row", 1, 2, "1", "03", 0},
    {"A4  one cell, its column", 1, 2, "1", "0C", 1},
    {"A4  row 1 of two, and column 2 of three", 3, 2, "101 010", "0C 03", 1},
    {"A4  column 0 of three, after two rows", 3, 2, "101 010", "30 00", 2},
    {"A4  row 2 of three, the same bytes", 2, 2, "10 01 11", "30 00", 2},
    {"A4  column 0 of two, after three rows", 2, 2, "10 01 11", "C0 00", 3},
    {"A4  two rows", 2, 2, "10 01 11", "3C 00", 1},
    {"A4  two columns", 3, 2, "101 010", "C0 03", 3},
    {"A4  every counter", 3, 2, "101 010", "FF 03", 0},
    {"A4  the last counter", 3, 2, "101 010", "00 03", 4},
    {"A4  column 0, after rows of K", 3, 2, "101 010", "3A 00", 2},
    {"A8  K = 4, 5 in row 1 and 7 in column 1", 3, 4, "101 010", "28 0E", 1},
    {"A8  K = 4, 7 in row 1 and 5 in column 1", 3, 4, "101 010", "38 0A", 1},
    {"A8  K = 4, 5 in column 1 and 7 in column 2", 3, 4, "101 010", "00 7A", 3},
    {"A8  K = 4, 5 in column 0, over the end of a byte", 3, 4, "101 010", "64 0F", 2},
    {"A8  K = 5, 6 in row 1 and 7 in column 1", 3, 5, "101 010", "30 0E", 1},
    {"A8  K = 6, 7 in column 0", 3, 6, "101 010", "F6 6D", 2},
};

/* A store of data that fits the cells, with a stuck cell that would read wrong: 4 goes before 13. */
static int named(size_t rows, size_t columns, size_t k, struct block *b, size_t bytes, size_t index)
{
    struct block want;
    ernavluq_grid_read_answer read;
    ernavluq_grid_answer stored;
    size_t lengths[BUFFERS] = {rows, rows, rows, bytes, rows, rows};

    memcpy(b->data, b->cells, rows * sizeof *b->data);
    b->mask[0] = 1;
    b->values[0] = ~b->data[0] & 1;
    want = *b;
    read = read_block(rows, columns, k, b, lengths);
    stored = store_block(rows, columns, k, b, lengths);
    return read.number == ERNAVLUQ_MALFORMED && read.index == index && stored.number == ERNAVLUQ_MALFORMED && stored.index == index
        && stored.levels == 0 && stored.faults == 0 && stored.wrong == 0 && stored.right == 0 && same(b, &want);
}

static void try_bad_counter(const struct bad_counter *c)
{
    struct block now = new_block();
    size_t rows = put_picture(c->cells, "1", now.cells);
    report(c->name, named(rows, c->columns, c->k, &now, put_hex(c->counters, now.counters), c->index));
}

/* Each of the 128 counters of 64 by 64 alone, and with every counter after it. */
static void try_every_counter(void)
{
    int alone = 1, with_all_after = 1;
    for (size_t t = 0; t < 128; t++) {
        struct block now = new_block();
        memset(now.cells, 0, 64 * sizeof *now.cells);
        memset(now.counters, 0, 32);
        now.counters[t / 4] = (uint8_t)(3 << (2 * (t % 4)));
        alone = alone && named(64, 64, 2, &now, 32, t);
        for (size_t u = t; u < 128; u++)
            now.counters[u / 4] |= (uint8_t)(3 << (2 * (u % 4)));
        with_all_after = with_all_after && named(64, 64, 2, &now, 32, t);
    }
    report("A4  each of 128 counters alone", alone);
    report("A4  each of 128 counters, and all after it", with_all_after);
}

/* The same of counters of three bits, with 5, then 6 and then 7 above K = 4. */
static void try_every_wide_counter(void)
{
    int alone = 1, with_all_after = 1;
    for (size_t t = 0; t < 128; t++) {
        struct block now = new_block();
        memset(now.cells, 0, 64 * sizeof *now.cells);
        memset(now.counters, 0, 48);
        put_counter(now.counters, 3, t, 5 + t % 3);
        alone = alone && named(64, 64, 4, &now, 48, t);
        for (size_t u = t + 1; u < 128; u++)
            put_counter(now.counters, 3, u, 5 + u % 3);
        with_all_after = with_all_after && named(64, 64, 4, &now, 48, t);
    }
    report("A8  each of 128 counters of three bits alone", alone);
    report("A8  each of 128 counters of three bits, and all after it", with_all_after);
}

void try_block_index(void)
{
    for (size_t i = 0; i < sizeof bad_counters / sizeof *bad_counters; i++)
        try_bad_counter(&bad_counters[i]);
    try_every_counter();
    try_every_wide_counter();
}
