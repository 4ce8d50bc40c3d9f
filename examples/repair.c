/* Read this first: one row and one block of memory with stuck cells are written and read back, counters are converted, and three calls are refused.
 *
 *     ./run archive
 *     cc -std=c99 -Iinclude examples/repair.c target/staticlib/$(uname -m)/libernavluq.a -o target/repair && target/repair
 */
#include <inttypes.h>
#include <stdio.h>
#include <string.h>

#include "ernavluq.h"

/* A pointer row of six entries keeps a text of 64 bytes, though three of its cells are stuck at 1. */
static int repair_a_row(void)
{
    enum { ENTRIES = 6 };
    const char text[ERNAVLUQ_ROW_BYTES] = "glucose 5.4 mmol/l, drawn 07:40, sample 1183";
    uint8_t data[ERNAVLUQ_ROW_BYTES], out[ERNAVLUQ_ROW_BYTES];
    uint8_t mask[ERNAVLUQ_ROW_BYTES] = {0}, values[ERNAVLUQ_ROW_BYTES] = {0}, cells[ERNAVLUQ_ROW_BYTES] = {0};
    uint8_t metadata[ERNAVLUQ_METADATA_BYTES(ENTRIES)] = {0}; /* all zeros: a new row */
    ernavluq_pointer_write_answer written;
    ernavluq_pointer_read_answer read;

    memcpy(data, text, sizeof data);
    /* The memory's own test found three cells of byte 8, the figure 5, that stay 1: bits 0, 1 and 3. The 5 is 0011 0101, so only bits 1 and 3 are wrong. */
    mask[8] = values[8] = 0x0B;

    written = ernavluq_pointer_write(
        ENTRIES, data, sizeof data, mask, sizeof mask, values, sizeof values, cells, sizeof cells, metadata, sizeof metadata);
    printf("row, written:  %s; %zu of %d entries are active, %zu of them new\n", ernavluq_in_words(written.number), written.active, ENTRIES,
        written.new_entries);
    printf("  the cells:   \"%.*s\"\n", (int)sizeof cells, (const char *)cells);

    read = ernavluq_pointer_read(ENTRIES, cells, sizeof cells, metadata, sizeof metadata, out, sizeof out);
    printf("row, read:     %s\n", ernavluq_in_words(read.number));
    printf("  the data:    \"%.*s\"\n", (int)sizeof out, (const char *)out);

    return written.number == ERNAVLUQ_ACCEPTED && read.number == ERNAVLUQ_ACCEPTED && memcmp(out, data, sizeof data) == 0;
}

static void print_words(const char *label, const uint64_t *words, size_t count)
{
    printf("%s", label);
    for (size_t i = 0; i < count; i++)
        printf(" %" PRIx64, words[i]);
    printf("\n");
}

/* A grid block of 3 rows and 3 columns with five stuck cells. Each is wrong or right for the data, and here they form a chain: what mends one wrong cell
 * spoils a right one beside it. Three levels undo that; with two allowed, the plan is refused. Until the store no cell is touched. */
static int repair_a_block(void)
{
    enum { ROWS = 3, COLUMNS = 3, K = 3 };
    const uint64_t data[ROWS] = {0, 0, 0}, other[ROWS] = {1, 0, 0};
    const uint64_t mask[ROWS] = {3, 6, 4};   /* cells 0 and 1 of row 0, 1 and 2 of row 1, 2 of row 2 */
    const uint64_t values[ROWS] = {1, 2, 4}; /* the first of each row is stuck at 1, the others at 0 */
    uint64_t cells[ROWS] = {0}, before[ROWS], out[ROWS];
    uint8_t counters[ERNAVLUQ_COUNTER_BYTES(ROWS, COLUMNS, K)] = {0}, wide[ERNAVLUQ_COUNTER_BYTES(ROWS, COLUMNS, ERNAVLUQ_MAX_LEVELS)];
    ernavluq_grid_convert_answer converted;
    ernavluq_grid_answer refused, planned, stored, misread;
    ernavluq_grid_read_answer read, again, bad;
    int untouched;

    refused = ernavluq_grid_plan(ROWS, COLUMNS, K - 1, data, ROWS, mask, ROWS, values, ROWS, counters, sizeof counters);
    printf("plan, K = 2:   refused with number %zu: %s\n", refused.number, ernavluq_in_words(refused.number));

    planned = ernavluq_grid_plan(ROWS, COLUMNS, K, data, ROWS, mask, ROWS, values, ROWS, counters, sizeof counters);
    printf("plan, K = 3:   %s; %zu levels for %zu stuck cells, %zu wrong and %zu right\n", ernavluq_in_words(planned.number), planned.levels, planned.faults,
        planned.wrong, planned.right);
    if (planned.number != ERNAVLUQ_ACCEPTED)
        return 0;

    stored = ernavluq_grid_store(ROWS, COLUMNS, K, data, ROWS, mask, ROWS, values, ROWS, counters, sizeof counters, cells, ROWS);
    printf("block, stored: %s\n", ernavluq_in_words(stored.number));
    print_words("  the cells:  ", cells, ROWS);

    read = ernavluq_grid_read(ROWS, COLUMNS, K, cells, ROWS, counters, sizeof counters, out, ROWS);
    printf("block, read:   %s\n", ernavluq_in_words(read.number));
    print_words("  the data:   ", out, ROWS);

    /* The module goes over to K = 7, for which counters have three bits: the same cells read as before. */
    converted = ernavluq_grid_convert(ROWS, COLUMNS, K, ERNAVLUQ_MAX_LEVELS, counters, sizeof counters, wide, sizeof wide);
    printf("to K = 7:      %s; %zu bytes of counters become %zu\n", ernavluq_in_words(converted.number), sizeof counters, sizeof wide);
    again = ernavluq_grid_read(ROWS, COLUMNS, ERNAVLUQ_MAX_LEVELS, cells, ROWS, wide, sizeof wide, out, ROWS);
    print_words("  the data:   ", out, ROWS);

    /* With the K of another plan: the counters of three levels do not fit K = 2, and the answer says which is the first that is above it. */
    bad = ernavluq_grid_read(ROWS, COLUMNS, K - 1, cells, ROWS, counters, sizeof counters, out, ROWS);
    printf("read, K = 2:   refused with number %zu: counter %zu is above K, that of %s %zu\n", bad.number, bad.index, bad.index < ROWS ? "row" : "column",
        bad.index < ROWS ? bad.index : bad.index - ROWS);

    /* Other data, for which cell 0 of row 0 is stuck at the right bit: these counters would invert it, so a plan has to make new ones. */
    memcpy(before, cells, sizeof before);
    misread = ernavluq_grid_store(ROWS, COLUMNS, K, other, ROWS, mask, ROWS, values, ROWS, counters, sizeof counters, cells, ROWS);
    printf("other data:    refused with number %zu: %s\n", misread.number, ernavluq_in_words(misread.number));
    untouched = memcmp(cells, before, sizeof cells) == 0;
    printf("  the cells:   %s\n", untouched ? "as before" : "altered");

    return refused.number == ERNAVLUQ_UNMASKABLE && stored.number == ERNAVLUQ_ACCEPTED
        && read.number == ERNAVLUQ_ACCEPTED && memcmp(out, data, sizeof data) == 0 && misread.number == ERNAVLUQ_MISREAD && untouched
        && converted.number == ERNAVLUQ_ACCEPTED && again.number == ERNAVLUQ_ACCEPTED
        && bad.number == ERNAVLUQ_MALFORMED && bad.index == 1;
}

int main(void)
{
    int row = repair_a_row();
    int block = repair_a_block();
    return row && block ? 0 : 1;
}
