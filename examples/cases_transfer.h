/* What the cases of transfers share: a reader with its record and its output. After every call both are compared whole, the output with the room behind it. */
#ifndef CASES_TRANSFER_H
#define CASES_TRANSFER_H

#include "cases_block.h"

/* All of it holds FILL when it is new: the record too, so that a start has to fill it. */
struct reader {
    ernavluq_transfer record;
    uint64_t out[ROOM];
};

struct reader new_reader(void);

/* A start answers this number. Refused or not, the record has what it was given, and no byte. After it and after a lump it is asked what is missing. */
int starts(struct reader *r, size_t rows, size_t columns, size_t k, size_t number);

/* A lump answers this number. Accepted, its bytes follow those before. Refused with 9 for the first time, only `taken` changes. Else nothing does. */
int takes(struct reader *r, const uint8_t *bytes, size_t length, size_t number);

/* A finish with an output of this length answers this. Accepted, the output shows these words. Refused, as the second has it, it is what it was. */
int finishes(struct reader *r, size_t length, size_t number, size_t index, const uint64_t *shown);
int refuses(struct reader *r, size_t length, size_t number);

/* From here on every call answers this number, 1 or 9, and changes nothing: lumps of no byte, of one and of many, and a finish with any output. */
int stays(struct reader *r, size_t number);

/* A block as it is sent, and how an ordinary read of it ends. Behind the longest block there is room for one byte more. */
struct sent {
    size_t rows, columns, k, length, number, index;
    uint8_t bytes[ERNAVLUQ_MAX_BLOCK_BYTES + 1];
    uint64_t shown[ROOM];
};

struct sent send_block(size_t rows, size_t columns, size_t k, struct block *b);

/* 64 by 64, with counters from 0 to K and cells of many patterns. */
struct sent send_long_block(size_t k);

/* Starts, and takes the first bytes in lumps of so many, with an empty one before each. */
int brings(struct reader *r, const struct sent *s, size_t upto, size_t lump);

/* All bytes are there: a finish ends as the ordinary read, as often as it is made. */
int ends(struct reader *r, const struct sent *s);

/* Numbers at the edges of their ranges; records that no call made; and the layout of the record. */
void try_transfer_edges(void);

#endif
