/* The cases of grid blocks: a plan, a store with its counters and a read; a store with other counters; a read. */
#include <string.h>

#include "cases_block.h"

/* Old cells and counters, and an output, are only measured: they hold FILL, with bits past the last column. */
struct block new_block(void)
{
    struct block b;
    memset(&b, 0, sizeof b);
    memset(b.cells, FILL, sizeof b.cells);
    memset(b.out, FILL, sizeof b.out);
    memset(b.counters, FILL, sizeof b.counters);
    return b;
}

size_t put_picture(const char *picture, const char *signs, uint64_t *words)
{
    size_t row = 0, column = 0;
    memset(words, 0, 8);
    for (; *picture; picture++) {
        if (*picture == ' ') {
            words[++row] = 0;
            column = 0;
        } else {
            words[row] |= (uint64_t)(strchr(signs, *picture) != NULL) << column++;
        }
    }
    return row + 1;
}

ernavluq_grid_answer plan_block(size_t rows, size_t columns, size_t k, struct block *b, const size_t *lengths)
{
    return ernavluq_grid_plan(rows, columns, k, b->data, lengths[DATA], b->mask, lengths[MASK], b->values, lengths[VALUES], b->counters, lengths[COUNTERS]);
}

ernavluq_grid_answer store_block(size_t rows, size_t columns, size_t k, struct block *b, const size_t *lengths)
{
    return ernavluq_grid_store(rows, columns, k, b->data, lengths[DATA], b->mask, lengths[MASK], b->values, lengths[VALUES], b->counters, lengths[COUNTERS],
        b->cells, lengths[CELLS]);
}

ernavluq_grid_read_answer read_block(size_t rows, size_t columns, size_t k, struct block *b, const size_t *lengths)
{
    return ernavluq_grid_read(rows, columns, k, b->cells, lengths[CELLS], b->counters, lengths[COUNTERS], b->out, lengths[OUT]);
}

void put_counter(uint8_t *bytes, size_t width, size_t t, size_t number)
{
    for (size_t q = 0, p = width * t; q < width; q++, p++)
        bytes[p / 8] |= (uint8_t)((number >> q & 1) << p % 8);
}

int answers(ernavluq_grid_answer a, size_t number, size_t levels, size_t wrong, size_t right)
{
    return a.number == number && a.levels == levels && a.faults == wrong + right && a.wrong == wrong && a.right == right && a.index == 0;
}

int shows(ernavluq_grid_read_answer a, size_t number)
{
    return a.number == number && a.index == 0;
}

int same(const struct block *now, const struct block *want)
{
    return memcmp(now, want, sizeof *now) == 0;
}

/* The words of data and faults; the answer is how many rows they have. */
static size_t put_block(const char *data, const char *faults, struct block *b)
{
    put_picture(faults, "01", b->mask);
    put_picture(faults, "1v", b->values);
    return put_picture(data, "1", b->data);
}

/* A store and a read: both are as expected, and where the store is accepted the read gives the data. */
static int stored(size_t rows, size_t columns, size_t k, struct block *now, const size_t *lengths, size_t number, size_t levels, size_t wrong,
    size_t right, const char *cells)
{
    struct block want = *now;
    int good;
    if (number == 0)
        put_picture(cells, "1", want.cells);
    good = answers(store_block(rows, columns, k, now, lengths), number, levels, wrong, right) && same(now, &want);
    if (number != 0)
        return good;
    memcpy(want.out, want.data, rows * sizeof *want.out);
    return good && shows(read_block(rows, columns, k, now, lengths), 0) && same(now, &want);
}

#define ZEROS "0000000 0000000 0000000 0000000 0000000 0000000 0000000"
#define STAIRCASE "10..... .10.... ..10... ...10.. ....10. .....10 ......1"

static const struct block_plan {
    const char *name;
    size_t columns, k;
    const char *data, *faults; /* pictures; of the faults: 0 and 1 are stuck at that, v is a sound cell whose value bit is 1. What is expected: */
    size_t number, levels, wrong, right;
    const char *counters, *cells; /* the cells after a store with these counters */
} block_plans[] = {
    {"G1* no stuck cell", 2, 1, "10 01", ".. ..", 0, 0, 0, 0, "00", "10 01"},
    {"G1  value bits of sound cells", 2, 1, "10 01", "vv vv", 0, 0, 0, 0, "00", "10 01"},
    {"G2* one cell, stuck at the wrong bit", 1, 1, "1", "0", 0, 1, 1, 0, "03", "0"},
    {"G2  one cell, stuck at the right bit", 1, 1, "1", "1", 0, 0, 0, 1, "00", "1"},
    {"G3* a chain of three, K = 3", 2, 3, "00 00", "10 .1", 0, 2, 2, 1, "96", "10 11"},
    {"G3  a chain of three, K = 2", 2, 2, "00 00", "10 .1", 0, 2, 2, 1, "96", "10 11"},
    {"G4* a chain of three, K = 1", 2, 1, "00 00", "10 .1", 7, 0, 0, 0, "FF", ""},
    {"G5* a loop, K = 1", 2, 1, "00 00", "10 01", 7, 0, 0, 0, "FF", ""},
    {"G5* a loop, K = 2", 2, 2, "00 00", "10 01", 7, 0, 0, 0, "FF", ""},
    {"G5* a loop, K = 3", 2, 3, "00 00", "10 01", 7, 0, 0, 0, "FF", ""},
    {"G5* a loop, K = 4", 2, 4, "00 00", "10 01", 7, 0, 0, 0, "FF FF", ""},
    {"G5* a loop, K = 5", 2, 5, "00 00", "10 01", 7, 0, 0, 0, "FF FF", ""},
    {"G5* a loop, K = 6", 2, 6, "00 00", "10 01", 7, 0, 0, 0, "FF FF", ""},
    {"G5* a loop, K = 7", 2, 7, "00 00", "10 01", 7, 0, 0, 0, "FF FF", ""},
    {"G6* a chain of five, K = 3", 3, 3, "000 000 000", "10. .10 ..1", 0, 3, 3, 2, "5E 0B", "100 110 111"},
    {"G6* a chain of five, K = 2", 3, 2, "000 000 000", "10. .10 ..1", 7, 0, 0, 0, "FF FF", ""},
    {"G6  a chain of five in 4 by 4", 4, 3, "0000 0000 0000 0000", "10.. .10. ..1. ....", 0, 3, 3, 2, "1E 2D", "1000 1100 1110 0000"},
    {"G7  a chain of seven", 4, 3, "0000 0000 0000 0000", "10.. .10. ..10 ...1", 7, 0, 0, 0, "FF FF", ""},
    {"A8* a chain of thirteen, K = 7", 7, 7, ZEROS, STAIRCASE, 0, 7, 7, 6, "A2 DF 25 EB 4D 01", "1000000 1100000 1110000 1111000 1111100 1111110 1111111"},
    {"A8* a chain of thirteen, K = 6", 7, 6, ZEROS, STAIRCASE, 7, 0, 0, 0, "FF FF FF FF FF FF", ""},
    {"A8* a chain of three, K = 4", 2, 4, "00 00", "10 .1", 0, 2, 2, 1, "4A 04", "10 11"},
    {"A8* a chain of five, K = 7", 3, 7, "000 000 000", "10. .10 ..1", 0, 3, 3, 2, "5A 32 01", "100 110 111"},
    {"A8  a chain of seven, K = 4", 4, 4, "0000 0000 0000 0000", "10.. .10. ..10 ...1", 0, 4, 4, 3, "E2 92 51", "1000 1100 1110 1111"},
    {"G8* three in turn, the ends are right", 2, 1, "00 00", "01 .0", 0, 1, 1, 2, "09", "01 00"},
    {"A9  one wrong and three right, sound values equal", 5, 1, "10110 01001", "v00v0 0v..v", 0, 1, 1, 3, "11", "10010 01001"},
    {"A9  one wrong and three right, sound values differ", 5, 1, "10110 01001", ".00.0 0.vv.", 0, 1, 1, 3, "11", "10010 01001"},
    {"A9  three wrong and one right", 5, 1, "01001 10110", "v00v0 0v..v", 0, 1, 3, 1, "4F", "10000 01111"},
    {"    data past the last column", 1, 1, "01", ".", 3, 0, 0, 0, "FF", ""},
    {"    mask past the last column", 1, 1, "0", ".0", 3, 0, 0, 0, "FF", ""},
    {"    values past the last column", 1, 1, "0", ".v", 3, 0, 0, 0, "FF", ""},
    {"    a bit past the last column before a loop", 2, 1, "001 00", "10 01", 3, 0, 0, 0, "FF", ""},
};

static void try_block_plan(const struct block_plan *c)
{
    struct block now = new_block(), want;
    size_t rows = put_block(c->data, c->faults, &now), bytes;
    int good;

    want = now;
    bytes = put_hex(c->counters, want.counters);
    if (c->number != 0)
        memcpy(want.counters, now.counters, sizeof want.counters);
    size_t lengths[BUFFERS] = {rows, rows, rows, bytes, rows, rows};
    good = answers(plan_block(rows, c->columns, c->k, &now, lengths), c->number, c->levels, c->wrong, c->right) && same(&now, &want);
    if (c->number == 0)
        good = good && stored(rows, c->columns, c->k, &now, lengths, 0, c->levels, c->wrong, c->right, c->cells);
    report(c->name, good);
}

static const struct block_store {
    const char *name;
    size_t columns, k;
    const char *data, *faults, *counters; /* as above, and bytes; what is expected: */
    size_t number, levels, wrong, right;
    const char *cells;
} block_stores[] = {
    {"G1  store, every counter 1", 2, 1, "10 01", ".. ..", "0F", 0, 1, 0, 0, "01 10"},
    {"G1  store, a row's counter alone", 2, 1, "10 01", ".. ..", "01", 0, 1, 0, 0, "10 01"},
    {"G2  store, the row's counter alone", 1, 1, "1", "0", "01", 13, 0, 0, 0, ""},
    {"G2  store, the column's counter alone", 1, 1, "1", "0", "02", 13, 0, 0, 0, ""},
    {"G2  store, both counters, stuck at the right bit", 1, 1, "1", "1", "03", 13, 0, 0, 0, ""},
    {"G2  store, counters 1 and 3", 1, 3, "1", "0", "0D", 0, 3, 1, 0, "0"},
    {"G2  store, counters 2 and 3", 1, 3, "1", "0", "0E", 13, 0, 0, 0, ""},
    {"G3  store, every counter 0", 2, 3, "00 00", "10 .1", "00", 13, 0, 0, 0, ""},
    {"G3  store, rows 3 and 1, columns 3 and 2", 2, 3, "00 00", "10 .1", "B7", 0, 3, 2, 1, "10 11"},
    {"G3  store, other data in the sound cell", 2, 3, "00 10", "10 .1", "96", 0, 2, 2, 1, "10 01"},
    {"G3  store, other data in a stuck cell", 2, 3, "10 00", "10 .1", "96", 13, 0, 0, 0, ""},
    {"G3  store, only the last cell would read wrong", 2, 3, "00 00", "10 .0", "96", 13, 0, 0, 0, ""},
    {"G6  store, row 1 has 2 in place of 3", 3, 3, "000 000 000", "10. .10 ..1", "5A 0B", 13, 0, 0, 0, ""},
    {"G10 store, K = 2, both counters are 2", 1, 2, "1", ".", "0A", 0, 2, 0, 0, "1"},
    {"G10 store, K = 3, both counters are 3", 1, 3, "1", ".", "0F", 0, 3, 0, 0, "0"},
    {"    store, the first spare bit, K = 1", 2, 1, "00 00", ".. ..", "10", 3, 0, 0, 0, ""},
    {"    store, the last bit of the counters, K = 1", 2, 1, "00 00", ".. ..", "08", 0, 1, 0, 0, "00 00"},
    {"    store, the first spare bit, K = 2", 1, 2, "0", ".", "10", 3, 0, 0, 0, ""},
    {"    store, a spare bit before a counter above K", 1, 2, "0", ".", "13", 3, 0, 0, 0, ""},
    {"    store, data past the last column", 1, 1, "01", ".", "00", 3, 0, 0, 0, ""},
    {"    store, mask past the last column", 1, 1, "0", ".0", "00", 3, 0, 0, 0, ""},
    {"    store, values past the last column", 1, 1, "0", ".v", "00", 3, 0, 0, 0, ""},
    {"    store, a bit past the last column before a counter above K", 1, 2, "01", ".", "03", 3, 0, 0, 0, ""},
};

static void try_block_store(const struct block_store *c)
{
    struct block now = new_block();
    size_t rows = put_block(c->data, c->faults, &now);
    size_t lengths[BUFFERS] = {rows, rows, rows, put_hex(c->counters, now.counters), rows, rows};
    report(c->name, stored(rows, c->columns, c->k, &now, lengths, c->number, c->levels, c->wrong, c->right, c->cells));
}

/* A loop would read wrong by whatever counters. */
static void try_loop(void)
{
    int good = 1;
    for (int byte = 0; byte < 256; byte++) {
        struct block now = new_block();
        size_t lengths[BUFFERS] = {2, 2, 2, 1, 2, 2};
        put_block("00 00", "10 01", &now);
        now.counters[0] = (uint8_t)byte;
        good = good && stored(2, 2, 3, &now, lengths, 13, 0, 0, 0, "");
    }
    report("G5  store, a loop, all counters up to 3", good);
}

static const struct block_read {
    const char *name;
    size_t columns, k;
    const char *cells, *counters; /* a picture, and bytes; what is expected: */
    size_t number;
    const char *shown;
} block_reads[] = {
    {"G3* read", 2, 3, "10 11", "96", 0, "00 00"},
    {"G6* read", 3, 3, "100 110 111", "5E 0B", 0, "000 000 000"},
    {"G10 K = 2, both counters are 2", 1, 2, "1", "0A", 0, "1"},
    {"G10 K = 3, both counters are 3", 1, 3, "1", "0F", 0, "0"},
    {"    counters 1 and 0", 1, 1, "1", "01", 0, "1"},
    {"    counters 1 and 1", 1, 1, "1", "03", 0, "0"},
    {"    counters 1 and 2", 1, 3, "1", "09", 0, "0"},
    {"    counters 2 and 3", 1, 3, "1", "0E", 0, "1"},
    {"    read, the last bit of the counters, K = 1", 2, 1, "00 00", "08", 0, "00 00"},
    {"    read, the first spare bit, K = 1", 2, 1, "00 00", "10", 3, ""},
    {"    read, the first spare bit, K = 2", 1, 2, "0", "10", 3, ""},
    {"    read, a spare bit before a counter above K", 1, 2, "0", "13", 3, ""},
    {"    read, cells past the last column", 1, 1, "01", "00", 3, ""},
    {"    read, cells past the last column before a counter above K", 1, 2, "01", "03", 3, ""},
};

static void try_block_read(const struct block_read *c)
{
    struct block now = new_block(), want;
    size_t rows = put_picture(c->cells, "1", now.cells);
    size_t lengths[BUFFERS] = {rows, rows, rows, put_hex(c->counters, now.counters), rows, rows};
    want = now;
    if (c->number == 0)
        put_picture(c->shown, "1", want.out);
    report(c->name, shows(read_block(rows, c->columns, c->k, &now, lengths), c->number) && same(&now, &want));
}

void try_blocks(void)
{
    for (size_t i = 0; i < sizeof block_plans / sizeof *block_plans; i++)
        try_block_plan(&block_plans[i]);
    for (size_t i = 0; i < sizeof block_stores / sizeof *block_stores; i++)
        try_block_store(&block_stores[i]);
    try_loop();
    for (size_t i = 0; i < sizeof block_reads / sizeof *block_reads; i++)
        try_block_read(&block_reads[i]);
    try_block_index();
    try_block_edges();
    try_conversions();
}
