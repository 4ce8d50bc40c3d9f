/* Read this for blocks that arrive in lumps: a sensor module sends a stored block over a cable that drops out, and the reader gets its data all the same.
 *
 *     ./run archive
 *     cc -std=c99 -Iinclude examples/transfer.c target/staticlib/$(uname -m)/libernavluq.a -o target/transfer && target/transfer
 */
#include <inttypes.h>
#include <stdio.h>
#include <string.h>

#include "ernavluq.h"

/* Four readings of a temperature, 12 bits each. The cable carries at most ten bytes at a time. */
enum { ROWS = 4, COLUMNS = 12, K = 3, LUMP = 10 };
enum { COUNTERS = ERNAVLUQ_COUNTER_BYTES(ROWS, COLUMNS, K), BLOCK = ERNAVLUQ_BLOCK_BYTES(ROWS, COLUMNS, K) };

static const uint64_t readings[ROWS] = {0x9C4, 0x9C6, 0x9C1, 0x9BF};

static void print_words(const char *label, const uint64_t *words, size_t count)
{
    printf("%s", label);
    for (size_t i = 0; i < count; i++)
        printf(" %" PRIx64, words[i]);
    printf("\n");
}

/* The module stores its readings, though bit 3 of reading 1 is stuck at 1 and bit 6 of reading 2 at 0. Both are wrong for these readings. Where the rows and
 * the columns of the two cross, four cells are read inverted. What is sent are the counters, and then the cell words, 8 bytes each, the lowest byte first. */
static int store_a_block(uint8_t *block)
{
    const uint64_t mask[ROWS] = {0, 0x008, 0x040, 0}, values[ROWS] = {0, 0x008, 0, 0};
    uint64_t cells[ROWS] = {0};
    ernavluq_grid_answer planned, stored;

    planned = ernavluq_grid_plan(ROWS, COLUMNS, K, readings, ROWS, mask, ROWS, values, ROWS, block, COUNTERS);
    if (planned.number != ERNAVLUQ_ACCEPTED)
        return 0;
    stored = ernavluq_grid_store(ROWS, COLUMNS, K, readings, ROWS, mask, ROWS, values, ROWS, block, COUNTERS, cells, ROWS);
    for (size_t i = 0; i < ROWS; i++)
        for (size_t q = 0; q < 8; q++)
            block[COUNTERS + 8 * i + q] = (uint8_t)(cells[i] >> 8 * q);
    printf("block, stored: %s; %zu stuck cells, %zu of them wrong\n", ernavluq_in_words(stored.number), stored.faults, stored.wrong);
    print_words("  the data:   ", readings, ROWS);
    print_words("  the cells:  ", cells, ROWS);
    printf("  to be sent:  %d bytes, %d of counters and %d of cells\n", BLOCK, COUNTERS, BLOCK - COUNTERS);
    return stored.number == ERNAVLUQ_ACCEPTED && stored.faults == 2 && stored.wrong == 2 && cells[1] == 0x98E && cells[2] == 0x989;
}

/* What is still missing, by the transfer itself. */
static void print_missing(const ernavluq_transfer *transfer)
{
    ernavluq_transfer_missing_answer missing = ernavluq_transfer_missing(transfer);
    if (missing.number == ERNAVLUQ_ACCEPTED)
        printf("accepted; %zu of %d bytes are missing\n", missing.bytes, BLOCK);
    else
        printf("refused with number %zu: %s\n", missing.number, ernavluq_in_words(missing.number));
}

/* A new start, for this block. Whatever the transfer was before is given up. */
static size_t start(ernavluq_transfer *transfer)
{
    size_t number = ernavluq_transfer_start(transfer, ROWS, COLUMNS, K);
    printf("start:         ");
    print_missing(transfer);
    return number;
}

/* A lump comes. A refusal is noted in the transfer, so a reader that does not look at the number loses nothing: the finish answers it too. */
static size_t take(ernavluq_transfer *transfer, const uint8_t *bytes, size_t length)
{
    size_t number = ernavluq_transfer_lump(transfer, bytes, length);
    printf("lump of %2zu:    ", length);
    print_missing(transfer);
    return number;
}

/* The reader takes the block to be complete. By the number it knows whether there is data: refused, the output is what it was. */
static size_t finish(const ernavluq_transfer *transfer, uint64_t *out)
{
    ernavluq_grid_read_answer read = ernavluq_transfer_finish(transfer, out, ROWS);
    if (read.number == ERNAVLUQ_ACCEPTED) {
        printf("finish:        accepted\n");
        print_words("  the data:   ", out, ROWS);
    } else {
        printf("finish:        refused with number %zu: %s\n", read.number, ernavluq_in_words(read.number));
    }
    return read.number;
}

/* The bytes from here to the block's end, ten at a time. The answer is the first refusal, or 0. */
static size_t take_from(ernavluq_transfer *transfer, const uint8_t *block, size_t from)
{
    for (size_t number, length; from < BLOCK; from += length) {
        length = BLOCK - from < LUMP ? BLOCK - from : LUMP;
        number = take(transfer, block + from, length);
        if (number != ERNAVLUQ_ACCEPTED)
            return number;
    }
    return ERNAVLUQ_ACCEPTED;
}

/* Two lumps come whole. Of the third only four bytes come. */
static int drop_out(ernavluq_transfer *transfer, const uint8_t *block)
{
    int good = start(transfer) == ERNAVLUQ_ACCEPTED;
    good = take(transfer, block, LUMP) == ERNAVLUQ_ACCEPTED && good;
    good = take(transfer, block + LUMP, LUMP) == ERNAVLUQ_ACCEPTED && good;
    printf("the cable drops out\n");
    good = take(transfer, block + 2 * LUMP, 4) == ERNAVLUQ_ACCEPTED && good;
    return good && transfer->taken == 2 * LUMP + 4;
}

/* A finish that comes too early harms nothing. `taken` says how many bytes are there, so it is the place of the next one. From there the module sends on. */
static int go_on(const uint8_t *block)
{
    uint64_t out[ROWS], before[ROWS] = {1, 2, 3, 4};
    ernavluq_transfer transfer;
    int good, untouched;

    memcpy(out, before, sizeof out);
    printf("\nthe reader goes on where the cable dropped out\n");
    good = drop_out(&transfer, block);
    good = finish(&transfer, out) == ERNAVLUQ_SHORT_BLOCK && good;
    untouched = memcmp(out, before, sizeof out) == 0;
    printf("  the output:  %s\n", untouched ? "as before" : "altered");

    printf("the cable is back: the reader asks for byte %zu and those after it\n", transfer.taken);
    good = take_from(&transfer, block, transfer.taken) == ERNAVLUQ_ACCEPTED && transfer.taken == BLOCK && good;
    good = finish(&transfer, out) == ERNAVLUQ_ACCEPTED && good;
    return good && untouched && memcmp(out, readings, sizeof out) == 0;
}

/* The module begins again at byte 0, and the reader does not know. A transfer counts its bytes, and cannot tell that these came before: had just twelve come,
 * a finish would have read the wrong block. But there are too many. The lump that would exceed the block is refused, and from then on everything is, so that
 * nothing is read from what is there. Only a new start helps, with all bytes. */
static int begin_again(const uint8_t *block)
{
    uint64_t out[ROWS], before[ROWS] = {1, 2, 3, 4};
    ernavluq_transfer transfer;
    int good, untouched;

    memcpy(out, before, sizeof out);
    printf("\nthe module begins again, and the reader goes on\n");
    good = drop_out(&transfer, block);
    printf("the cable is back: the module sends byte 0 and those after it\n");
    good = take(&transfer, block, LUMP) == ERNAVLUQ_ACCEPTED && good;
    good = take(&transfer, block + LUMP, LUMP) == ERNAVLUQ_LONG_BLOCK && good;
    good = finish(&transfer, out) == ERNAVLUQ_LONG_BLOCK && good;
    good = take(&transfer, NULL, 0) == ERNAVLUQ_LONG_BLOCK && good;
    good = take(&transfer, block + 2 * LUMP, 2) == ERNAVLUQ_LONG_BLOCK && good;
    untouched = memcmp(out, before, sizeof out) == 0;
    printf("  the output:  %s\n", untouched ? "as before" : "altered");

    printf("the reader begins again too\n");
    good = start(&transfer) == ERNAVLUQ_ACCEPTED && transfer.taken == 0 && good;
    good = take_from(&transfer, block, 0) == ERNAVLUQ_ACCEPTED && transfer.taken == BLOCK && good;
    good = finish(&transfer, out) == ERNAVLUQ_ACCEPTED && good;
    return good && untouched && memcmp(out, readings, sizeof out) == 0;
}

int main(void)
{
    uint8_t block[BLOCK];
    int stored, gone_on, begun_again;

    stored = store_a_block(block);
    if (!stored)
        return 1;
    gone_on = go_on(block);
    begun_again = begin_again(block);
    return gone_on && begun_again ? 0 : 1;
}
