/* The cases of blocks that arrive in lumps: cut anywhere, byte by byte, short, and with a byte too many. */
#include <stdio.h>
#include <string.h>

#include "cases_transfer.h"

struct reader new_reader(void)
{
    struct reader r;
    memset(&r, FILL, sizeof r);
    return r;
}

static size_t whole(const ernavluq_transfer *t)
{
    return ERNAVLUQ_BLOCK_BYTES(t->rows, t->columns, t->k);
}

/* Says what is missing, as the last start or lump answered this number, and changes nothing. */
static int misses(const struct reader *r, size_t number)
{
    struct reader before = *r;
    ernavluq_transfer_missing_answer a = ernavluq_transfer_missing(&r->record);
    size_t bytes = number == ERNAVLUQ_ACCEPTED ? whole(&r->record) - r->record.taken : 0;
    return a.number == number && a.bytes == bytes && memcmp(r, &before, sizeof before) == 0;
}

int starts(struct reader *r, size_t rows, size_t columns, size_t k, size_t number)
{
    struct reader want = *r;
    memset(&want.record, 0, sizeof want.record);
    want.record.rows = rows;
    want.record.columns = columns;
    want.record.k = k;
    return ernavluq_transfer_start(&r->record, rows, columns, k) == number && memcmp(r, &want, sizeof want) == 0 && misses(r, number);
}

int takes(struct reader *r, const uint8_t *bytes, size_t length, size_t number)
{
    struct reader want = *r;
    ernavluq_transfer *record = &want.record;
    if (number == ERNAVLUQ_ACCEPTED && length > 0)
        memcpy(record->bytes + record->taken, bytes, length);
    if (number == ERNAVLUQ_ACCEPTED)
        record->taken += length;
    else if (number == ERNAVLUQ_LONG_BLOCK && record->taken <= whole(record))
        record->taken = ERNAVLUQ_MAX_BLOCK_BYTES + 1;
    return ernavluq_transfer_lump(&r->record, bytes, length) == number && memcmp(r, &want, sizeof want) == 0 && misses(r, number);
}

int finishes(struct reader *r, size_t length, size_t number, size_t index, const uint64_t *shown)
{
    struct reader want = *r;
    ernavluq_grid_read_answer a = ernavluq_transfer_finish(&r->record, r->out, length);
    if (number == ERNAVLUQ_ACCEPTED)
        memcpy(want.out, shown, length * sizeof *shown);
    return a.number == number && a.index == index && memcmp(r, &want, sizeof want) == 0;
}

int refuses(struct reader *r, size_t length, size_t number)
{
    return finishes(r, length, number, 0, NULL);
}

int stays(struct reader *r, size_t number)
{
    static const uint8_t zeros[ERNAVLUQ_MAX_BLOCK_BYTES + 1];
    int good = takes(r, NULL, 0, number) && takes(r, zeros, 0, number) && takes(r, zeros, 1, number) && takes(r, zeros, sizeof zeros, number);
    for (size_t length = 0; length < ROOM; length++)
        good = good && refuses(r, length, number);
    return good && ernavluq_transfer_finish(&r->record, NULL, 0).number == number && takes(r, NULL, 0, number);
}

struct sent send_block(size_t rows, size_t columns, size_t k, struct block *b)
{
    size_t count = ERNAVLUQ_COUNTER_BYTES(rows, columns, k), lengths[BUFFERS] = {rows, rows, rows, count, rows, rows};
    ernavluq_grid_read_answer a = read_block(rows, columns, k, b, lengths);
    struct sent s = {rows, columns, k, count + 8 * rows, a.number, a.index, {0}, {0}};
    memcpy(s.bytes, b->counters, count);
    for (size_t i = 0; i < 8 * rows; i++)
        s.bytes[count + i] = (uint8_t)(b->cells[i / 8] >> 8 * (i % 8));
    memcpy(s.shown, b->out, sizeof s.shown);
    return s;
}

int brings(struct reader *r, const struct sent *s, size_t upto, size_t lump)
{
    int good = starts(r, s->rows, s->columns, s->k, 0);
    for (size_t from = 0, length; from < upto; from += length) {
        length = upto - from < lump ? upto - from : lump;
        good = good && takes(r, NULL, 0, 0) && takes(r, s->bytes + from, length, 0);
    }
    return good;
}

int ends(struct reader *r, const struct sent *s)
{
    return finishes(r, s->rows, s->number, s->index, s->shown) && takes(r, NULL, 0, 0) && finishes(r, s->rows, s->number, s->index, s->shown);
}

/* A block of these bytes, cut in two at every place, and in lumps of many lengths. Before its last byte each finish is refused with 8, and one with an
 * output of another length with 2. */
static int comes(const struct sent *s)
{
    int good = 1;
    for (size_t cut = 0; cut <= s->length; cut++) {
        struct reader r = new_reader();
        good = good && starts(&r, s->rows, s->columns, s->k, 0) && takes(&r, s->bytes, cut, 0);
        good = good && refuses(&r, s->rows - 1, 2) && refuses(&r, s->rows + 1, 2);
        if (cut < s->length)
            good = good && refuses(&r, s->rows, 8) && refuses(&r, s->rows, 8);
        good = good && takes(&r, s->bytes + cut, s->length - cut, 0);
        good = good && refuses(&r, s->rows - 1, 2) && refuses(&r, s->rows + 1, 2) && ends(&r, s);
    }
    for (size_t lump = 1; lump <= s->length; lump += lump < 20 ? 1 : 97) {
        struct reader r = new_reader();
        good = good && brings(&r, s, s->length, lump) && ends(&r, s);
    }
    return good;
}

/* A finish after every single byte: 8 up to the last. */
static int drips(const struct sent *s)
{
    struct reader r = new_reader();
    int good = starts(&r, s->rows, s->columns, s->k, 0);
    for (size_t i = 0; i < s->length; i++)
        good = good && refuses(&r, s->rows, 8) && takes(&r, s->bytes + i, 1, 0);
    return good && ends(&r, s);
}

/* After any number of bytes one too many comes: nothing of the lump is taken, and all is refused until a new start. */
static int overflows(const struct sent *s)
{
    int good = 1;
    for (size_t cut = 0; cut <= s->length; cut++) {
        struct reader r = new_reader();
        good = good && brings(&r, s, cut, s->length) && takes(&r, s->bytes + cut, s->length + 1 - cut, 9) && stays(&r, 9);
        good = good && brings(&r, s, s->length, s->length) && ends(&r, s);
    }
    return good;
}

/* An accepted finish, and then a byte more: from then on 9, and the output stays what it was. */
static int goes_on(const struct sent *s)
{
    struct reader r = new_reader();
    int good = brings(&r, s, s->length, s->length) && ends(&r, s) && takes(&r, s->bytes, 1, 9) && stays(&r, 9);
    return good && (s->number != 0 || memcmp(r.out, s->shown, s->rows * sizeof *r.out) == 0);
}

static void try_sent(const char *name, const struct sent *s)
{
    char line[120];
    snprintf(line, sizeof line, "A1  %s, cut anywhere", name);
    report(line, comes(s));
    snprintf(line, sizeof line, "A1  %s, byte by byte", name);
    report(line, drips(s));
    snprintf(line, sizeof line, "A1  %s, one byte too many", name);
    report(line, overflows(s));
    snprintf(line, sizeof line, "A1  %s, one byte more after a finish", name);
    report(line, goes_on(s));
}

static const struct transfer_case {
    const char *name;
    size_t columns, k;
    const char *cells, *counters; /* a picture, and bytes; what is expected: */
    size_t number, index;
    const char *shown;
} transfer_cases[] = {
    {"1 by 1, K = 1", 1, 1, "1", "03", 0, 0, "0"},
    {"G3", 2, 3, "10 11", "96", 0, 0, "00 00"},
    {"G6, K = 7", 3, 7, "100 110 111", "5A 32 01", 0, 0, "000 000 000"},
    {"2 by 3", 3, 1, "101 010", "0D", 0, 0, "011 010"},
    {"3 by 2", 2, 1, "10 01 11", "15", 0, 0, "11 01 10"},
    {"the first spare bit", 2, 1, "00 00", "10", 3, 0, ""},
    {"cells past the last column", 2, 3, "10 001", "96", 3, 0, ""},
    {"a spare bit and a counter above K", 3, 2, "101 010", "0C 04", 3, 0, ""},
    {"row 0 above K", 2, 2, "10 01", "57", 4, 0, ""},
    {"column 0 and column 2 above K", 3, 2, "101 010", "30 03", 4, 2, ""},
    {"row 1 above K, K = 4", 3, 4, "101 010", "28 0E", 4, 1, ""},
};

static void try_transfer_case(const struct transfer_case *c)
{
    struct block now = new_block();
    size_t rows = put_picture(c->cells, "1", now.cells);
    uint64_t shown[ROOM];
    char line[120];
    struct sent s;

    put_hex(c->counters, now.counters);
    memset(shown, FILL, sizeof shown);
    if (c->number == 0)
        put_picture(c->shown, "1", shown);
    s = send_block(rows, c->columns, c->k, &now);
    snprintf(line, sizeof line, "A1  %s, the ordinary read", c->name);
    report(line, s.number == c->number && s.index == c->index && memcmp(s.shown, shown, sizeof shown) == 0);
    try_sent(c->name, &s);
}

struct sent send_long_block(size_t k)
{
    struct block b = new_block();
    memset(b.counters, 0, sizeof b.counters);
    for (size_t t = 0; t < 128; t++)
        put_counter(b.counters, k == 1 ? 1 : k <= 3 ? 2 : 3, t, (5 * t + t / 7) % (k + 1));
    for (size_t i = 0; i < 64; i++)
        b.cells[i] = (i + 1) * UINT64_C(0x9E3779B97F4A7C15);
    return send_block(64, 64, k, &b);
}

void try_transfers(void)
{
    char name[120];
    for (size_t i = 0; i < sizeof transfer_cases / sizeof *transfer_cases; i++)
        try_transfer_case(&transfer_cases[i]);
    for (size_t k = 1; k <= 7; k++) {
        struct sent s = send_long_block(k);
        snprintf(name, sizeof name, "64 by 64, K = %zu, %zu bytes", k, s.length);
        try_sent(name, &s);
    }
    try_transfer_edges();
}
