/* The cases of pointer rows. */
#include <stdio.h>
#include <string.h>

#include "cases.h"

struct row {
    uint8_t data[ROOM], mask[ROOM], values[ROOM], cells[ROOM], metadata[ROOM], out[ROOM];
};

enum { DATA, MASK, VALUES, CELLS, METADATA, OUT, BUFFERS };

static struct row new_row(void)
{
    struct row r;
    memset(&r, 0, sizeof r);
    memset(r.cells, FILL, ROOM);
    memset(r.out, FILL, ROOM);
    return r;
}

/* "3 300" marks two positions. */
static void mark(const char *positions, uint8_t *bytes)
{
    int p, read;
    for (; sscanf(positions, "%d%n", &p, &read) == 1; positions += read)
        bytes[p / 8] |= (uint8_t)(1 << p % 8);
}

static ernavluq_pointer_write_answer write_row(size_t n, struct row *r, const size_t *lengths)
{
    return ernavluq_pointer_write(n, r->data, lengths[DATA], r->mask, lengths[MASK], r->values, lengths[VALUES], r->cells, lengths[CELLS],
        r->metadata, lengths[METADATA]);
}

static size_t read_row(size_t n, struct row *r, const size_t *lengths)
{
    return ernavluq_pointer_read(n, r->cells, lengths[CELLS], r->metadata, lengths[METADATA], r->out, lengths[OUT]).number;
}

static const struct row_write {
    const char *name;
    size_t n;
    const char *data, *at_0, *at_1; /* positions: of the ones of the data, and of the cells stuck at 0 and at 1 */
    const char *before;             /* the metadata, and what is expected: */
    size_t number, active, new_entries;
    const char *after;
} row_writes[] = {
    {"P1* one entry, position 5", 2, "5", "5", "", "00 00 00", 0, 1, 1, "0A 0C 00"},
    {"P1  the cell stuck at the right bit", 2, "5", "", "5", "00 00 00", 0, 0, 0, "00 00 00"},
    {"P2* one entry, position 511, full", 1, "", "", "511", "00 00", 0, 1, 1, "FF 03"},
    {"P2  the same cell again", 1, "", "", "511", "FF 03", 0, 1, 0, "FF 03"},
    {"P2  the same cell for other data", 1, "511", "", "511", "FF 03", 0, 1, 0, "FF 07"},
    {"P3* no entry left", 1, "", "", "3", "FF 03", 6, 0, 0, ""},
    {"P3  cell 3 stuck at the right bit", 1, "", "3", "", "FF 03", 0, 1, 0, "FF 03"},
    {"P4* two entries, full", 2, "", "", "3 300", "00 00 00", 0, 2, 2, "07 60 09"},
    {"P4  a third position", 2, "", "", "3 300 301", "00 00 00", 6, 0, 0, ""},
    {"    data 1, and the cell stuck at 0", 1, "3", "3", "", "00 00", 0, 1, 1, "07 04"},
    {"    data 1, and the cell stuck at 1", 1, "3", "", "3", "00 00", 0, 0, 0, "00 00"},
    {"    two active entries, 300 and then 3, stay in their order", 3, "", "", "", "58 1A 60 00", 0, 2, 0, "58 1A 60 00"},
    {"    a third entry comes after them", 3, "", "", "7", "58 1A 60 00", 0, 3, 1, "59 1A E0 00"},
    {"    an active entry stays though its cell is stuck at the right bit", 2, "5", "", "5", "0A 08 00", 0, 1, 0, "0A 0C 00"},
    {"P5* unary broken", 3, "", "", "", "00 00 40 00", 4, 0, 0, ""},
    {"P5  unary whole", 3, "", "", "", "00 00 20 00", 0, 1, 0, "00 00 20 00"},
    {"P6  both entries name 0", 2, "", "", "", "01 00 00", 5, 0, 0, ""},
    {"P6  entries name 0 and 1", 2, "1", "", "", "01 08 00", 0, 2, 0, "01 08 10"},
    {"    spare bit 21 of n = 2", 2, "", "", "", "00 00 20", 3, 0, 0, ""},
    {"    bit 20 of n = 2, the last replacement bit", 2, "", "", "", "00 00 10", 4, 0, 0, ""},
    {"    spare bit before broken unary", 3, "", "", "", "00 00 40 80", 3, 0, 0, ""},
    {"    malformed before no entry left", 1, "", "", "3", "02 00", 4, 0, 0, ""},
    {"    ten entries for ten positions", 10, "", "", "0 1 2 3 4 5 6 7 8 9", "00 00 00 00 00 00 00 00 00 00 00 00 00", 0, 10, 10,
        "01 08 40 80 01 08 28 C0 80 03 10 48 00"},
    {"    ten entries for eleven positions", 10, "", "", "0 1 2 3 4 5 6 7 8 9 10", "00 00 00 00 00 00 00 00 00 00 00 00 00", 6, 0, 0, ""},
};

static void try_row_write(const struct row_write *c)
{
    struct row now = new_row(), want;
    size_t lengths[BUFFERS] = {64, 64, 64, 64, put_hex(c->before, now.metadata), 64};
    ernavluq_pointer_write_answer a;
    int good;

    mark(c->data, now.data);
    mark(c->at_0, now.mask);
    mark(c->at_1, now.mask);
    mark(c->at_1, now.values);
    want = now;
    if (c->number == 0) {
        for (int i = 0; i < 64; i++)
            want.cells[i] = (uint8_t)((now.data[i] & ~now.mask[i]) | (now.values[i] & now.mask[i]));
        put_hex(c->after, want.metadata);
    }
    a = write_row(c->n, &now, lengths);
    good = a.number == c->number && a.active == c->active && a.new_entries == c->new_entries && memcmp(&now, &want, sizeof now) == 0;
    if (c->number == 0) {
        memcpy(want.out, want.data, 64);
        good = good && read_row(c->n, &now, lengths) == 0 && memcmp(&now, &want, sizeof now) == 0;
    }
    report(c->name, good);
}

static const struct row_read {
    const char *name;
    size_t n;
    const char *cells, *metadata; /* the cells that are 1, and what is expected: */
    size_t number;
    const char *shown;
} row_reads[] = {
    {"P1* read", 2, "7", "0A 0C 00", 0, "5 7"},
    {"P2* read", 1, "7 511", "FF 03", 0, "7"},
    {"P5* read", 3, "7", "00 00 40 00", 4, ""},
    {"P6  read", 2, "7", "01 00 00", 5, ""},
    {"P6  read, entries name 0 and 1", 2, "0 1 7", "01 08 10", 0, "1 7"},
    {"    read, spare bit 11 of n = 1", 1, "7", "00 08", 3, ""},
    {"    read, bit 10 of n = 1, the replacement bit", 1, "7", "00 04", 4, ""},
    {"    read, a bit of an entry that is not active", 3, "7", "02 00 00 00", 4, ""},
};

static void try_row_read(const struct row_read *c)
{
    struct row now = new_row(), want;
    size_t lengths[BUFFERS] = {64, 64, 64, 64, put_hex(c->metadata, now.metadata), 64};
    memset(now.cells, 0, 64);
    mark(c->cells, now.cells);
    want = now;
    if (c->number == 0) {
        memset(want.out, 0, 64);
        mark(c->shown, want.out);
    }
    report(c->name, read_row(c->n, &now, lengths) == c->number && memcmp(&now, &want, sizeof now) == 0);
}

/* A write and a read of a new row with these lengths: both numbers are as expected. A refusal leaves all as it was. */
static void try_row_sizes(const char *what, size_t n, const size_t *lengths, size_t written, size_t shown)
{
    struct row now = new_row(), was = now;
    char name[80];
    int good = write_row(n, &now, lengths).number == written && (written == 0 || memcmp(&now, &was, sizeof now) == 0);
    was = now;
    good = good && read_row(n, &now, lengths) == shown && (shown == 0 || memcmp(&now, &was, sizeof now) == 0);
    snprintf(name, sizeof name, "P7  n = %zu, %s", n, what);
    report(name, good);
}

void try_rows(void)
{
    static const char *const buffers[] = {"data", "mask", "values", "cells", "metadata", "output"};
    static const struct { size_t n, bytes, number; } edges[] = {
        {0, 1, 1}, {1, 2, 0}, {10, 13, 0}, {11, 14, 1}, {((size_t)1 << 32) + 6, 8, 1}, {(size_t)-1, 8, 1},
    };
    size_t nothing[BUFFERS] = {0};
    char what[40];

    for (size_t i = 0; i < sizeof row_writes / sizeof *row_writes; i++)
        try_row_write(&row_writes[i]);
    for (size_t i = 0; i < sizeof row_reads / sizeof *row_reads; i++)
        try_row_read(&row_reads[i]);
    for (size_t i = 0; i < sizeof edges / sizeof *edges; i++) {
        size_t lengths[BUFFERS] = {64, 64, 64, 64, edges[i].bytes, 64};
        try_row_sizes("all lengths right", edges[i].n, lengths, edges[i].number, edges[i].number);
        try_row_sizes("all lengths 0", edges[i].n, nothing, edges[i].number ? 1 : 2, edges[i].number ? 1 : 2);
    }
    for (int b = 0; b < BUFFERS; b++)
        for (int more = -1; more <= 1; more++) {
            size_t lengths[BUFFERS] = {64, 64, 64, 64, ERNAVLUQ_METADATA_BYTES(6), 64};
            lengths[b] = (size_t)((int)lengths[b] + more);
            snprintf(what, sizeof what, "%zu bytes of %s", lengths[b], buffers[b]);
            try_row_sizes(what, 6, lengths, more && b != OUT ? 2 : 0, more && b >= CELLS ? 2 : 0);
        }
    report("    NULL with length 0", ernavluq_pointer_write(6, NULL, 0, NULL, 0, NULL, 0, NULL, 0, NULL, 0).number == ERNAVLUQ_WRONG_LENGTH
        && ernavluq_pointer_read(6, NULL, 0, NULL, 0, NULL, 0).number == ERNAVLUQ_WRONG_LENGTH);
}
