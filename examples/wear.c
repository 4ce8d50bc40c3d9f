/* Copy this for memory that wears out: rows and blocks are written again and again, and their cells die one by one until no repair is left. Each write goes
 * through the loop write, program, read back, and every refusal is handled as docs/INTERFACE.md says; what that page says of power failure is not done here.
 * It says how many stuck cells it took, and at the end that nothing was read wrong.
 *
 *     ./run archive
 *     cc -std=c99 -O2 -Iinclude examples/wear.c target/staticlib/$(uname -m)/libernavluq.a -o target/wear && target/wear
 */
#include <stdio.h>
#include <stdlib.h>
#include <string.h>

#include "ernavluq.h"

static uint64_t state = 11;

static uint32_t any(uint32_t below)
{
    state = state * UINT64_C(6364136223846793005) + UINT64_C(1442695040888963407);
    return (uint32_t)(state >> 33) % below;
}

/* Other refusals say that this program passed something wrong, or that the n or the sizes it keeps are damaged: it stops, and says what. */
static void stop(const char *call, size_t number)
{
    printf("%s: refused with number %zu: %s\n", call, number, ernavluq_in_words(number));
    exit(1);
}

/* What a write answers. REFUSED: nothing was programmed, the old data is still there. LOST: the old data is gone, and the new data is not there either. */
enum written { REFUSED, WRITTEN, LOST };

/* ---- worn memory: bytes of cells. A cell dies in silence: it keeps its bit, whatever is programmed. */

enum { BYTES = 8 * ERNAVLUQ_MAX_ROWS };
struct memory {
    uint8_t cells[BYTES], dead[BYTES];
};

static void program(struct memory *m, const uint8_t *cells, size_t length)
{
    for (size_t i = 0; i < length; i++)
        m->cells[i] = (uint8_t)((m->cells[i] & m->dead[i]) | (cells[i] & ~m->dead[i]));
}

/* What the caller knows of it: which cells are stuck, and at which bit. */
struct known {
    uint8_t mask[BYTES], values[BYTES];
};

/* Reads the bare cells back: one that differs from what was programmed is stuck, at the bit that it shows. The answer says whether there was one. */
static int find_stuck(const struct memory *m, const uint8_t *programmed, struct known *k, size_t length, size_t columns)
{
    int found = 0;
    for (size_t i = 0; i < length; i++) {
        uint8_t own = (uint8_t)(UINT64_MAX >> (64 - columns) >> 8 * (i % 8));
        uint8_t differs = (uint8_t)((m->cells[i] ^ programmed[i]) & own);
        k->mask[i] |= differs;
        k->values[i] = (uint8_t)((k->values[i] & ~differs) | (m->cells[i] & differs));
        found |= differs != 0;
    }
    return found;
}

static size_t ones(const uint8_t *bytes)
{
    size_t count = 0;
    for (size_t p = 0; p < 8 * BYTES; p++)
        count += bytes[p / 8] >> p % 8 & 1;
    return count;
}

/* ---- a pointer row. Beside its cells the caller keeps n, the metadata, and what is known of stuck cells. */

struct row {
    struct memory memory;
    struct known known;
    size_t n;
    uint8_t metadata[ERNAVLUQ_METADATA_BYTES(ERNAVLUQ_MAX_ENTRIES)];
};

/* Writes until the row shows what was programmed. It works on a copy of the metadata, which is kept only once the cells are programmed: so a row that is
 * refused before that still reads as it did. The answer says whether it can hold the data; else it is worn out for it. */
static enum written write_row(struct row *r, const uint8_t *data)
{
    enum { LENGTH = ERNAVLUQ_ROW_BYTES };
    size_t length = ERNAVLUQ_METADATA_BYTES(r->n), number;
    uint8_t cells[LENGTH], metadata[sizeof r->metadata];
    int from_zeros = 0;
    enum written refused = REFUSED;
    if (r->n < 1 || r->n > ERNAVLUQ_MAX_ENTRIES)
        stop("pointer write", ERNAVLUQ_OUT_OF_RANGE);
    for (size_t round = 0; round <= 8 * LENGTH + 1; round++) {
        if (from_zeros)
            memset(metadata, 0, length);
        else
            memcpy(metadata, r->metadata, length);
        number = ernavluq_pointer_write(
            r->n, data, LENGTH, r->known.mask, LENGTH, r->known.values, LENGTH, cells, LENGTH, metadata, length).number;
        if (number >= ERNAVLUQ_BIT_PAST_END && number <= ERNAVLUQ_NO_ENTRY_LEFT && !from_zeros) {
            /* 6: entries of earlier data stay active, and from zeros the row needs only those for this data. 3 to 5: the kept metadata is damaged. */
            from_zeros = 1;
            continue;
        }
        if (number == ERNAVLUQ_NO_ENTRY_LEFT)
            return refused;
        if (number != ERNAVLUQ_ACCEPTED)
            stop("pointer write", number);
        program(&r->memory, cells, LENGTH);
        memcpy(r->metadata, metadata, length);
        refused = LOST;
        if (!find_stuck(&r->memory, cells, &r->known, LENGTH, 64))
            return WRITTEN;
    }
    return refused;
}

static int row_shows(const struct row *r, const uint8_t *data)
{
    uint8_t out[ERNAVLUQ_ROW_BYTES];
    size_t number = ernavluq_pointer_read(r->n, r->memory.cells, sizeof out, r->metadata, ERNAVLUQ_METADATA_BYTES(r->n), out, sizeof out).number;
    if (number != ERNAVLUQ_ACCEPTED)
        stop("pointer read", number);
    return memcmp(out, data, sizeof out) == 0;
}

/* ---- a grid block. The caller keeps its lines, K, the counters, and what is known of stuck cells. K goes up when it has to, to a limit. */

struct block {
    struct memory memory;
    struct known known;
    size_t lines, k, limit;
    uint8_t counters[ERNAVLUQ_MAX_COUNTER_BYTES];
};

/* A word is 8 bytes of the memory, the lowest first. */
static void to_words(const uint8_t *bytes, uint64_t *words, size_t count)
{
    memset(words, 0, count * sizeof *words);
    for (size_t i = 0; i < 8 * count; i++)
        words[i / 8] |= (uint64_t)bytes[i] << 8 * (i % 8);
}

static void to_bytes(const uint64_t *words, uint8_t *bytes, size_t count)
{
    for (size_t i = 0; i < 8 * count; i++)
        bytes[i] = (uint8_t)(words[i / 8] >> 8 * (i % 8));
}

/* Plans into spare counters, at the smallest K that masks what is known, from `from` up to the limit, which is no smaller. The answer is that K, or 0. */
static size_t plan_block(const struct block *b, size_t from, const uint64_t *data, const uint64_t *mask, const uint64_t *values, uint8_t *spare)
{
    size_t m = b->lines;
    for (size_t k = from; k <= b->limit; k++) {
        size_t number = ernavluq_grid_plan(m, m, k, data, m, mask, m, values, m, spare, ERNAVLUQ_COUNTER_BYTES(m, m, k)).number;
        if (number == ERNAVLUQ_ACCEPTED)
            return k;
        if (number != ERNAVLUQ_UNMASKABLE)
            stop("grid plan", number);
    }
    return 0;
}

/* Stores by a copy of the kept counters. If by them a stuck cell would read wrong, or if they are damaged, it plans new ones. Counters and K are kept only
 * once the cells are programmed: so a block that is refused before that still reads as it did. */
static enum written write_block(struct block *b, const uint64_t *data)
{
    uint64_t mask[ERNAVLUQ_MAX_ROWS], values[ERNAVLUQ_MAX_ROWS], cells[ERNAVLUQ_MAX_ROWS];
    uint8_t programmed[BYTES], counters[ERNAVLUQ_MAX_COUNTER_BYTES];
    size_t m = b->lines, k = b->k;
    enum written refused = REFUSED;
    if (m < 1 || m > ERNAVLUQ_MAX_ROWS)
        stop("grid store", ERNAVLUQ_OUT_OF_RANGE);
    memcpy(counters, b->counters, sizeof counters);
    for (size_t round = 0; round <= 2 * m * m + 1; round++) {
        size_t number;
        to_words(b->known.mask, mask, m);
        to_words(b->known.values, values, m);
        number = ernavluq_grid_store(m, m, k, data, m, mask, m, values, m, counters, ERNAVLUQ_COUNTER_BYTES(m, m, k), cells, m).number;
        if (number == ERNAVLUQ_MISREAD || number == ERNAVLUQ_MALFORMED || number == ERNAVLUQ_BIT_PAST_END) {
            k = plan_block(b, k, data, mask, values, counters);
            if (k == 0)
                return refused;
            continue;
        }
        if (number != ERNAVLUQ_ACCEPTED)
            stop("grid store", number);
        to_bytes(cells, programmed, m);
        program(&b->memory, programmed, 8 * m);
        memcpy(b->counters, counters, sizeof counters);
        b->k = k;
        refused = LOST;
        if (!find_stuck(&b->memory, programmed, &b->known, 8 * m, m))
            return WRITTEN;
    }
    return refused;
}

static int block_shows(const struct block *b, const uint64_t *data)
{
    uint64_t cells[ERNAVLUQ_MAX_ROWS], out[ERNAVLUQ_MAX_ROWS];
    size_t m = b->lines, number;
    to_words(b->memory.cells, cells, m);
    for (size_t i = 0; i < m; i++)
        cells[i] &= UINT64_MAX >> (64 - m);
    number = ernavluq_grid_read(m, m, b->k, cells, m, b->counters, ERNAVLUQ_COUNTER_BYTES(m, m, b->k), out, m).number;
    if (number != ERNAVLUQ_ACCEPTED)
        stop("grid read", number);
    return memcmp(out, data, m * sizeof *out) == 0;
}

/* ---- until they are worn out: new data at each write, and after it a cell dies. What is refused before anything was programmed leaves the old data. */

static size_t wrong;

static size_t wear_out_a_row(size_t n)
{
    static struct row row;
    enum written answer;
    uint8_t data[ERNAVLUQ_ROW_BYTES], old[ERNAVLUQ_ROW_BYTES] = {0};
    memset(&row, 0, sizeof row);
    row.n = n;
    for (;;) {
        uint32_t p = any(8 * ERNAVLUQ_ROW_BYTES);
        for (size_t i = 0; i < sizeof data; i++)
            data[i] = (uint8_t)any(256);
        answer = write_row(&row, data);
        if (answer != WRITTEN) {
            if (answer == REFUSED)
                wrong += !row_shows(&row, old);
            return ones(row.memory.dead);
        }
        wrong += !row_shows(&row, data);
        memcpy(old, data, sizeof old);
        row.memory.dead[p / 8] |= (uint8_t)(1u << p % 8);
    }
}

static size_t wear_out_a_block(size_t lines, size_t limit)
{
    static struct block block;
    enum written answer;
    uint64_t data[ERNAVLUQ_MAX_ROWS], old[ERNAVLUQ_MAX_ROWS] = {0};
    memset(&block, 0, sizeof block);
    block.lines = lines;
    block.k = 1;
    block.limit = limit;
    for (;;) {
        uint32_t p = 64 * any((uint32_t)lines) + any((uint32_t)lines);
        for (size_t i = 0; i < lines; i++)
            data[i] = ((uint64_t)any(1u << 31) << 33 ^ (uint64_t)any(1u << 31) << 16 ^ any(1u << 16)) >> (64 - lines);
        answer = write_block(&block, data);
        if (answer != WRITTEN) {
            if (answer == REFUSED)
                wrong += !block_shows(&block, old);
            return ones(block.memory.dead);
        }
        wrong += !block_shows(&block, data);
        memcpy(old, data, sizeof old);
        block.memory.dead[p / 8] |= (uint8_t)(1u << p % 8);
    }
}

static int by_size(const void *a, const void *b)
{
    size_t x = *(const size_t *)a, y = *(const size_t *)b;
    return (x > y) - (x < y);
}

enum { TIMES = 101 };

static void print_line(const char *what, size_t *stuck)
{
    qsort(stuck, TIMES, sizeof *stuck, by_size);
    printf("| %-28s | %5zu | %6zu | %4zu |\n", what, stuck[0], stuck[TIMES / 2], stuck[TIMES - 1]);
}

int main(void)
{
    static const size_t entries[] = {1, 2, 4, 6, 10}, lines[] = {8, 16, 64}, limits[] = {1, 3, 7};
    size_t stuck[TIMES];
    char what[80];
    printf("stuck cells when the first data was refused, of %d rows or blocks:\n\n| %-28s | least | median | most |\n|---|---:|---:|---:|\n", TIMES, "");
    for (size_t i = 0; i < sizeof entries / sizeof *entries; i++) {
        for (size_t t = 0; t < TIMES; t++)
            stuck[t] = wear_out_a_row(entries[i]);
        snprintf(what, sizeof what, "pointer row, n = %zu", entries[i]);
        print_line(what, stuck);
    }
    for (size_t i = 0; i < 9; i++) {
        for (size_t t = 0; t < TIMES; t++)
            stuck[t] = wear_out_a_block(lines[i / 3], limits[i % 3]);
        snprintf(what, sizeof what, "%zu by %zu, K up to %zu", lines[i / 3], lines[i / 3], limits[i % 3]);
        print_line(what, stuck);
    }
    printf("\n%zu reads were wrong\n", wrong);
    return wrong != 0;
}
