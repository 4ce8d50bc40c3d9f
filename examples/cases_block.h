/* What the cases of grid blocks share: a block with all its buffers, and the calls on it. */
#ifndef CASES_BLOCK_H
#define CASES_BLOCK_H

#include "cases.h"

struct block {
    uint64_t data[ROOM], mask[ROOM], values[ROOM], cells[ROOM], out[ROOM];
    uint8_t counters[ROOM];
};

/* A plan is lent the first four, a store the first five, a read the last three. */
enum { DATA, MASK, VALUES, COUNTERS, CELLS, OUT, BUFFERS };

struct block new_block(void);

/* The calls, with a length for each buffer. */
ernavluq_grid_answer plan_block(size_t rows, size_t columns, size_t k, struct block *b, const size_t *lengths);
ernavluq_grid_answer store_block(size_t rows, size_t columns, size_t k, struct block *b, const size_t *lengths);
ernavluq_grid_read_answer read_block(size_t rows, size_t columns, size_t k, struct block *b, const size_t *lengths);

/* A picture has a row after a row, column 0 first: where it has one of these signs, the words get a bit. The answer is how many rows it has. */
size_t put_picture(const char *picture, const char *signs, uint64_t *words);

/* Puts the bits of counter t, of so many bits a counter, into bytes where they are 0. */
void put_counter(uint8_t *bytes, size_t width, size_t t, size_t number);

/* Whether this is the answer of a plan or a store, and of a read: with any number but 4 the index has to be 0. */
int answers(ernavluq_grid_answer a, size_t number, size_t levels, size_t wrong, size_t right);
int shows(ernavluq_grid_read_answer a, size_t number);

/* Whether all buffers are as they should be. */
int same(const struct block *now, const struct block *want);

/* Numbers and lengths at the edges of their ranges; which counter is bad; and conversions of counters. */
void try_block_edges(void);
void try_block_index(void);
void try_conversions(void);

#endif
