/* Conversions of counters from K to an equal or a larger one: the bytes, each refusal, and that every reading stays what it was. */
#include <stdio.h>
#include <string.h>

#include "cases_block.h"

static const struct conversion {
    const char *name;
    size_t rows, columns, k, to;
    const char *counters; /* bytes; what is expected: */
    size_t number, index;
    const char *out; /* its length is that of the output, refused or not */
} conversions[] = {
    {"A8* one bit to two", 2, 3, 1, 2, "0D", 0, 0, "51 00"},
    {"A8* one bit to three", 2, 3, 1, 4, "0D", 0, 0, "41 02"},
    {"A8* two bits to three", 2, 3, 3, 4, "E4 01", 0, 0, "88 16"},
    {"A8* three rows, two columns", 3, 2, 3, 6, "63 03", 0, 0, "83 32"},
    {"A8* G6, K = 3 to 7", 3, 3, 3, 7, "5E 0B", 0, 0, "5A 32 01"},
    {"A8* as many bits, K = 2 to 3", 2, 3, 2, 3, "92 01", 0, 0, "92 01"},
    {"A8* as many bits, K = 4 to 7", 2, 3, 4, 7, "C4 22", 0, 0, "C4 22"},
    {"A8* an equal target, K = 1", 1, 1, 1, 1, "03", 0, 0, "03"},
    {"A8* an equal target, K = 7", 2, 3, 7, 7, "FF 7F", 0, 0, "FF 7F"},
    {"A8* a smaller target", 2, 3, 4, 3, "00 00", 1, 0, "00 00"},
    {"A8* a smaller target, as many bits", 2, 3, 7, 6, "C4 22", 1, 0, "00 00"},
    {"A8* K = 0", 2, 3, 0, 2, "00", 1, 0, "00 00"},
    {"A8* K = 8", 2, 3, 8, 8, "00 00", 1, 0, "00 00"},
    {"A8* target 8", 2, 3, 4, 8, "00 00", 1, 0, "00 00"},
    {"A8  target 2^64 - 1", 2, 3, 4, (size_t)-1, "00 00", 1, 0, "00 00"},
    {"A8* no row", 0, 5, 3, 4, "00 00", 1, 0, "00 00"},
    {"A8* 65 columns", 2, 65, 3, 4, "00 00", 1, 0, "00 00"},
    {"A8* an output as long as the counters", 2, 2, 3, 4, "96", 2, 0, "00"},
    {"A8* counters as long as the output", 2, 2, 3, 4, "96 00", 2, 0, "00 00"},
    {"A8* a spare bit, K = 3", 2, 3, 3, 4, "E4 05", 3, 0, "00 00"},
    {"A8* a spare bit, K = 4", 2, 3, 4, 7, "C4 A2", 3, 0, "00 00"},
    {"A8* a counter above K, not above the target", 2, 3, 2, 4, "30 00", 4, 2, "00 00"},
    {"A8* the first, not the greatest", 2, 3, 4, 7, "28 0E", 4, 1, "00 00"},
    {"A8* 1 before 2, 3 and 4", 2, 3, 2, 1, "0C 07", 1, 0, "00 00"},
    {"A8* 2 before 3 and 4", 2, 3, 2, 4, "0C 07", 2, 0, "00"},
    {"A8* 3 before 4", 2, 3, 2, 4, "0C 07", 3, 0, "00 00"},
};

static void try_conversion(const struct conversion *c)
{
    uint8_t counters[ROOM], kept[ROOM], out[ROOM], want[ROOM], bytes[ROOM];
    ernavluq_grid_convert_answer a;
    size_t count, room;

    memset(counters, FILL, sizeof counters);
    memset(out, FILL, sizeof out);
    count = put_hex(c->counters, counters);
    room = put_hex(c->out, bytes);
    memcpy(kept, counters, sizeof kept);
    memcpy(want, out, sizeof want);
    if (c->number == 0)
        memcpy(want, bytes, room);
    a = ernavluq_grid_convert(c->rows, c->columns, c->k, c->to, counters, count, out, room);
    report(c->name, a.number == c->number && a.index == c->index && memcmp(out, want, sizeof out) == 0 && memcmp(counters, kept, sizeof kept) == 0);
}

static size_t width_of(size_t k)
{
    return k == 1 ? 1 : k <= 3 ? 2 : 3;
}

/* 64 by 64, all counters from 0 to K, from each K to each target: the bytes are those of the same counters, and cells read as before. */
static void try_whole_conversions(void)
{
    char name[120];
    for (size_t k = 1; k <= 7; k++)
        for (size_t to = k; to <= 7; to++) {
            struct block now = new_block();
            uint8_t out[ERNAVLUQ_MAX_COUNTER_BYTES], want[ERNAVLUQ_MAX_COUNTER_BYTES] = {0};
            uint64_t shown[64];
            size_t count = ERNAVLUQ_COUNTER_BYTES(64, 64, k), room = ERNAVLUQ_COUNTER_BYTES(64, 64, to);
            int good;

            memset(now.counters, 0, sizeof now.counters);
            memset(out, FILL, sizeof out);
            for (size_t t = 0; t < 128; t++) {
                put_counter(now.counters, width_of(k), t, (5 * t + t / 7) % (k + 1));
                put_counter(want, width_of(to), t, (5 * t + t / 7) % (k + 1));
            }
            good = ernavluq_grid_convert(64, 64, k, to, now.counters, count, out, room).number == 0 && memcmp(out, want, room) == 0;
            good = good && ernavluq_grid_read(64, 64, k, now.cells, 64, now.counters, count, now.out, 64).number == 0
                && ernavluq_grid_read(64, 64, to, now.cells, 64, out, room, shown, 64).number == 0 && memcmp(shown, now.out, sizeof shown) == 0;
            snprintf(name, sizeof name, "A8  64 by 64, K = %zu to %zu", k, to);
            report(name, good);
        }
}

void try_conversions(void)
{
    for (size_t i = 0; i < sizeof conversions / sizeof *conversions; i++)
        try_conversion(&conversions[i]);
    try_whole_conversions();
    report("A8  NULL with length 0", ernavluq_grid_convert(1, 1, 1, 1, NULL, 0, NULL, 0).number == ERNAVLUQ_WRONG_LENGTH);
}
