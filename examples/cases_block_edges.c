/* The edges of grid blocks: rows, columns and K, the length of each buffer, and the largest block. */
#include <stdio.h>
#include <string.h>

#include "cases_block.h"

/* A plan, a store and a read of a block of zeros with these lengths: the numbers are as expected. A refusal leaves all as it was. */
static void try_block_sizes(
    const char *name, size_t rows, size_t columns, size_t k, const size_t *lengths, size_t planned, size_t written, size_t shown)
{
    struct block now = new_block(), want = now;
    int good;
    if (planned == 0)
        memset(want.counters, 0, lengths[COUNTERS]);
    good = answers(plan_block(rows, columns, k, &now, lengths), planned, 0, 0, 0) && same(&now, &want);
    memset(now.counters, 0, lengths[COUNTERS]);
    want = now;
    if (written == 0)
        memset(want.cells, 0, lengths[CELLS] * sizeof *want.cells);
    good = good && answers(store_block(rows, columns, k, &now, lengths), written, 0, 0, 0) && same(&now, &want);
    memset(now.cells, 0, lengths[CELLS] * sizeof *now.cells);
    want = now;
    if (shown == 0)
        memset(want.out, 0, lengths[OUT] * sizeof *want.out);
    report(name, good && shows(read_block(rows, columns, k, &now, lengths), shown) && same(&now, &want));
}

static void try_numbers(void)
{
    static const size_t edges[][3] = {
        {0, 1, 1}, {1, 1, 1}, {64, 1, 1}, {65, 1, 1}, {1, 0, 1}, {1, 64, 1}, {1, 65, 1}, {64, 64, 3}, {64, 64, 7}, {2, 2, 0}, {2, 2, 2}, {2, 2, 3}, {2, 2, 4},
        {2, 2, 7}, {2, 2, 8},
        {((size_t)1 << 32) + 1, 1, 1}, {1, ((size_t)1 << 32) + 1, 1}, {1, 1, ((size_t)1 << 32) + 1}, {(size_t)-1, (size_t)-1, (size_t)-1},
    };
    static const size_t nothing[BUFFERS] = {0};
    char name[120];
    for (size_t i = 0; i < sizeof edges / sizeof *edges; i++) {
        size_t m = edges[i][0], n = edges[i][1], k = edges[i][2], rows = m > 65 ? 1 : m, columns = n > 65 ? 1 : n;
        size_t lengths[BUFFERS] = {rows, rows, rows, ERNAVLUQ_COUNTER_BYTES(rows, columns, k), rows, rows};
        size_t number = m < 1 || m > 64 || n < 1 || n > 64 || k < 1 || k > 7;
        snprintf(name, sizeof name, "G9  %zu by %zu, K = %zu", m, n, k);
        try_block_sizes(name, m, n, k, lengths, number, number, number);
        snprintf(name, sizeof name, "G9  %zu by %zu, K = %zu, all lengths 0", m, n, k);
        number = number ? 1 : 2;
        try_block_sizes(name, m, n, k, nothing, number, number, number);
    }
}

static void try_lengths(void)
{
    static const char *const buffers[] = {"words of data", "words of mask", "words of values", "bytes of counters", "words of cells", "words of output"};
    char name[120];
    for (size_t k = 1; k <= 7; k++)
        for (int b = 0; b < BUFFERS; b++)
            for (int more = -1; more <= 1; more++) {
                size_t lengths[BUFFERS] = {9, 9, 9, ERNAVLUQ_COUNTER_BYTES(9, 8, k), 9, 9};
                lengths[b] = (size_t)((int)lengths[b] + more);
                snprintf(name, sizeof name, "    9 by 8, K = %zu, %zu %s", k, lengths[b], buffers[b]);
                try_block_sizes(name, 9, 8, k, lengths, more && b <= COUNTERS ? 2 : 0, more && b <= CELLS ? 2 : 0, more && b >= COUNTERS ? 2 : 0);
            }
    report("    NULL with length 0", ernavluq_grid_plan(1, 1, 1, NULL, 0, NULL, 0, NULL, 0, NULL, 0).number == ERNAVLUQ_WRONG_LENGTH
        && ernavluq_grid_store(1, 1, 1, NULL, 0, NULL, 0, NULL, 0, NULL, 0, NULL, 0).number == ERNAVLUQ_WRONG_LENGTH
        && ernavluq_grid_read(1, 1, 1, NULL, 0, NULL, 0, NULL, 0).number == ERNAVLUQ_WRONG_LENGTH);
}

/* Every cell of 64 by 64 is stuck at 0, for data of ones: one level takes all. And the last of 64 columns is past the last of 63. */
static void try_whole(void)
{
    struct block now = new_block(), want;
    size_t lengths[BUFFERS] = {64, 64, 64, 16, 64, 64};

    memset(now.data, 0xFF, 64 * 8);
    memset(now.mask, 0xFF, 64 * 8);
    want = now;
    report("    63 columns, bit 63", plan_block(64, 63, 1, &now, lengths).number == ERNAVLUQ_BIT_PAST_END
        && store_block(64, 63, 1, &now, lengths).number == ERNAVLUQ_BIT_PAST_END && same(&now, &want));
    memset(want.counters, 0xFF, 16);
    report("    64 columns, all stuck at the wrong bit", answers(plan_block(64, 64, 1, &now, lengths), 0, 1, 4096, 0) && same(&now, &want));
    memset(want.cells, 0, 64 * 8);
    report("    64 columns, stored", answers(store_block(64, 64, 1, &now, lengths), 0, 1, 4096, 0) && same(&now, &want));
    memset(want.out, 0xFF, 64 * 8);
    report("    64 columns, read back", shows(read_block(64, 64, 1, &now, lengths), 0) && same(&now, &want));
    now.counters[15] = want.counters[15] = 0x7F;
    report("    64 columns, the last counter 0", answers(store_block(64, 64, 1, &now, lengths), 13, 0, 0, 0) && same(&now, &want));
}

void try_block_edges(void)
{
    try_numbers();
    try_lengths();
    try_whole();
}
