/* Repair codes for memory whose cells get stuck: the calls of libernavluq.a, for C99 and C++.
 *
 * The machine: 64-bit Linux on x86-64, Arm or RISC-V, each with its own archive, which needs memset and memcpy alone. docs/INTERFACE.md says what is proved
 * of each.
 * Header and archive are of one release, ERNAVLUQ_RELEASE. Every name in the archive ends with its number, so an object that was compiled with the header of
 * another release does not link. Callers write the plain names, as they are declared here.
 *
 * What may be passed: everything. A buffer may have any length, NULL with length 0 included, and a number may be any number. Every call ends. It does its
 * work and answers number 0, or it answers the number of one refusal; then every count in the answer is 0 and no buffer is altered. (An index is no count,
 * and what a transfer holds is none.)
 * If several refusals apply, the answer is the lowest; only the finish of a transfer has an order of its own. Each call is proved, for all arguments, to keep
 * its promises in crates/, which this page says again in words; no proof reads this page.
 *
 * What the caller owes: after each pointer to bytes or words comes their number, and that many are there. Words are aligned as the machine aligns a uint64_t.
 * A pointer to a transfer points to one. What is written, where the pointer is not const, overlaps nothing else that the call is lent, and no other thread
 * touches it meanwhile. Nothing is kept after the call, so calls on separate buffers may run at the same time. The caller finds the stuck cells, and keeps
 * metadata and counters where no cell is stuck.
 *
 * docs/INTERFACE.md draws the layouts of metadata and counters, and says of each call what every buffer holds before and afterwards.
 */
#ifndef ERNAVLUQ_H
#define ERNAVLUQ_H

#include <stddef.h>
#include <stdint.h>

#ifdef __cplusplus
extern "C" {
#endif

/* It goes up whenever a call's arguments or a struct changes. docs/RELEASES.md says what changed. */
#define ERNAVLUQ_RELEASE 2

/* The name in the archive: ernavluq_CALL_rRELEASE. */
#define ERNAVLUQ_PASTED(call, release) ernavluq_##call##_r##release
#define ERNAVLUQ_OF_RELEASE(call, release) ERNAVLUQ_PASTED(call, release)
#define ERNAVLUQ_NAME(call) ERNAVLUQ_OF_RELEASE(call, ERNAVLUQ_RELEASE)

/* An answer of more than two numbers is written to a place that the archive is handed first. All processors do that alike, and they do not return such a struct
 * alike. The functions in this header hand the place over. */

/* The compiler refuses a struct of another size than the archive's. */
#define ERNAVLUQ_HAS_SIZE(type, bytes) typedef char type##_has_##bytes##_bytes[sizeof(type) == (bytes) ? 1 : -1]
ERNAVLUQ_HAS_SIZE(size_t, 8);

/* The number of an answer. */
enum ernavluq_refusal {
    ERNAVLUQ_ACCEPTED = 0,
    ERNAVLUQ_OUT_OF_RANGE = 1,  /* n, the rows, the columns, K or the target lie outside their range */
    ERNAVLUQ_WRONG_LENGTH = 2,  /* a buffer is not exactly as long as it should be */
    ERNAVLUQ_BIT_PAST_END = 3,  /* a grid word has a bit past the last column, or a spare bit of metadata or counters is 1 */
    ERNAVLUQ_MALFORMED = 4,     /* the metadata of a row is not well formed, or a counter is above K */
    ERNAVLUQ_SAME_POINTER = 5,  /* two active entries hold the same pointer */
    ERNAVLUQ_NO_ENTRY_LEFT = 6, /* the kept entries of a row and those it still needs are together more than n */
    ERNAVLUQ_UNMASKABLE = 7,    /* K levels do not mask the faults of a block for this data */
    ERNAVLUQ_SHORT_BLOCK = 8,   /* a block that arrives in lumps was finished before all its bytes were there */
    ERNAVLUQ_LONG_BLOCK = 9,    /* since the start a lump would have made such a block longer than it is */
    ERNAVLUQ_MISREAD = 13       /* by the counters that a store is lent, a stuck cell would read wrong */
};

/* The number in words, for a log or a display. */
static inline const char *ernavluq_in_words(size_t number)
{
    switch (number) {
    case ERNAVLUQ_ACCEPTED: return "accepted";
    case ERNAVLUQ_OUT_OF_RANGE: return "n, the rows, the columns, K or the target is out of its range";
    case ERNAVLUQ_WRONG_LENGTH: return "a buffer has not the length that it should have";
    case ERNAVLUQ_BIT_PAST_END: return "a bit past the last column is 1, or a spare bit of metadata or counters";
    case ERNAVLUQ_MALFORMED: return "the metadata is not well formed, or a counter is above K";
    case ERNAVLUQ_SAME_POINTER: return "two active entries hold the same pointer";
    case ERNAVLUQ_NO_ENTRY_LEFT: return "the row has too few entries for this data; other data may fit, or a row begun anew from zeros";
    case ERNAVLUQ_UNMASKABLE: return "K levels do not mask the stuck cells for this data; other data may fit, or a larger K";
    case ERNAVLUQ_SHORT_BLOCK: return "bytes of the block are missing";
    case ERNAVLUQ_LONG_BLOCK: return "since the start more bytes came than the block has";
    case ERNAVLUQ_MISREAD: return "by these counters a stuck cell would read wrong for this data";
    default: return "no number that a call answers";
    }
}

/* ---- pointer rows: 512 cells, n correction entries and a full bit
 *
 * Data, mask, values, cells and output have 64 bytes each: position p is bit p mod 8 of byte p / 8, the lowest bit first. A mask bit of 1 says that the
 * cell is stuck; the value bit says at what, and is ignored where the cell is sound. The metadata is the row's own record: all zeros when the row is new,
 * and from then on what the last accepted write left. */

#define ERNAVLUQ_ROW_BYTES 64
#define ERNAVLUQ_MAX_ENTRIES 10
/* The bytes of metadata for n entries, n from 1 to ERNAVLUQ_MAX_ENTRIES. */
#define ERNAVLUQ_METADATA_BYTES(n) ((1 + 10 * (n) + 7) / 8)

typedef struct {
    size_t number; /* 0, or the refusal */
} ernavluq_pointer_read_answer;
ERNAVLUQ_HAS_SIZE(ernavluq_pointer_read_answer, 8);

typedef struct {
    size_t number;      /* 0, or the refusal */
    size_t active;      /* the active entries afterwards */
    size_t new_entries; /* how many of them this write made */
} ernavluq_pointer_write_answer;
ERNAVLUQ_HAS_SIZE(ernavluq_pointer_write_answer, 24);

/* Reads a row. Takes n entries (1 to 10), the cells and the metadata. Accepted, out holds for each position its cell, or the replacement bit of the
 * active entry that names it. Of out only the length counts. Refusals: 1 to 5. */
#define ernavluq_pointer_read ERNAVLUQ_NAME(pointer_read)
ernavluq_pointer_read_answer ernavluq_pointer_read(
    size_t n,
    const uint8_t *cells, size_t cells_length,
    const uint8_t *metadata, size_t metadata_length,
    uint8_t *out, size_t out_length);

/* Writes data to a row. Takes n entries (1 to 10), the data, which cells are stuck and at what, and the row's metadata as it is. Accepted, cells
 * holds what the cells then hold: a stuck cell its stuck value, any other its data bit. The metadata holds the entries: the active ones keep their place
 * and pointer, and each position whose cell is stuck at the wrong bit has one. Reading the two gives the data. Of the old cells only the length counts.
 * Refusals: 1 to 6, and 6 exactly where the kept entries and the positions that need a new one are together more than n;
 * with zeros for metadata the same data may still be accepted. */
void ERNAVLUQ_NAME(pointer_write)(
    ernavluq_pointer_write_answer *answer,
    size_t n,
    const uint8_t *data, size_t data_length,
    const uint8_t *mask, size_t mask_length,
    const uint8_t *values, size_t values_length,
    uint8_t *cells, size_t cells_length,
    uint8_t *metadata, size_t metadata_length);

static inline ernavluq_pointer_write_answer ernavluq_pointer_write(
    size_t n,
    const uint8_t *data, size_t data_length,
    const uint8_t *mask, size_t mask_length,
    const uint8_t *values, size_t values_length,
    uint8_t *cells, size_t cells_length,
    uint8_t *metadata, size_t metadata_length)
{
    ernavluq_pointer_write_answer answer;
    ERNAVLUQ_NAME(pointer_write)(&answer, n, data, data_length, mask, mask_length, values, values_length, cells, cells_length, metadata, metadata_length);
    return answer;
}

/* ---- grid blocks: rows and columns of cells, a counter for each row and each column, and at most K levels
 *
 * A plan says whether the data can be stored, and makes the counters. A store makes the cells by these counters. A read makes the data of both.
 *
 * Data, mask, values, cells and output have one word a row: bit j is column j. A mask bit of 1 says that the cell is stuck; the value bit says at what,
 * and is ignored where the cell is sound, except past the last column, where every bit that is read has to be 0. K is not stored with the counters: a
 * store and a read are given the K of the plan, or, with converted counters, the target of the conversion.
 *
 * A store, a read or a conversion that finds a counter above K answers refusal 4, if no lower refusal applies, and says which: the index counts the counters
 * from 0 in the order of the bytes, the rows first and then the columns. An index below rows is that row, and an index of rows or more is column
 * (index - rows). If several counters are above K, it is the lowest index of theirs. */

#define ERNAVLUQ_MAX_ROWS 64
#define ERNAVLUQ_MAX_COLUMNS 64
#define ERNAVLUQ_MAX_LEVELS 7
/* The bytes of counters, k from 1 to ERNAVLUQ_MAX_LEVELS: they have 1 bit each for K = 1, 2 bits each for K = 2 and 3, and 3 bits each for K = 4 to 7. */
#define ERNAVLUQ_COUNTER_BYTES(rows, columns, k) ((((rows) + (columns)) * ((k) == 1 ? 1 : (k) <= 3 ? 2 : 3) + 7) / 8)
/* The bytes of the longest counters: those of 64 rows and 64 columns at K = 4 to 7. */
#define ERNAVLUQ_MAX_COUNTER_BYTES 48

typedef struct {
    size_t number; /* 0, or the refusal */
    size_t index;  /* with refusal 4 the index of the first counter above K, else 0 */
} ernavluq_grid_read_answer;
ERNAVLUQ_HAS_SIZE(ernavluq_grid_read_answer, 16);

typedef struct {
    size_t number; /* 0, or the refusal */
    size_t levels; /* of a plan the levels used, of a store its greatest counter */
    size_t faults; /* the stuck cells of the block: the wrong and the right ones together */
    size_t wrong;  /* those of them that are stuck at the other bit than their data bit */
    size_t right;  /* those that are stuck at their data bit */
    size_t index;  /* with refusal 4 the index of the first counter above K, else 0: so of a plan always 0 */
} ernavluq_grid_answer;
ERNAVLUQ_HAS_SIZE(ernavluq_grid_answer, 48);

typedef struct {
    size_t number; /* 0, or the refusal */
    size_t index;  /* with refusal 4 the index of the first counter above K, else 0 */
} ernavluq_grid_convert_answer;
ERNAVLUQ_HAS_SIZE(ernavluq_grid_convert_answer, 16);

/* Plans a write of data to a block, and is lent no cells. Takes its rows and columns (1 to 64 each), K (1 to 7), the data, which cells are stuck and at
 * what. Accepted, counters holds how many levels took each row and each column. A store with these counters and all else the same is then accepted if its
 * cells have the right length, and answers the same. Of the old counters only the length counts.
 * Refusals: 1, 2, 3 and 7, and 7 exactly where after K levels some stuck cell would still read wrong. */
void ERNAVLUQ_NAME(grid_plan)(
    ernavluq_grid_answer *answer,
    size_t rows, size_t columns, size_t k,
    const uint64_t *data, size_t data_length,
    const uint64_t *mask, size_t mask_length,
    const uint64_t *values, size_t values_length,
    uint8_t *counters, size_t counters_length);

static inline ernavluq_grid_answer ernavluq_grid_plan(
    size_t rows, size_t columns, size_t k,
    const uint64_t *data, size_t data_length,
    const uint64_t *mask, size_t mask_length,
    const uint64_t *values, size_t values_length,
    uint8_t *counters, size_t counters_length)
{
    ernavluq_grid_answer answer;
    ERNAVLUQ_NAME(grid_plan)(&answer, rows, columns, k, data, data_length, mask, mask_length, values, values_length, counters, counters_length);
    return answer;
}

/* Stores data in a block. Takes what a plan takes, and the counters, whoever made them: these it does not change. Accepted, cells holds what the cells then
 * hold: a stuck cell its stuck value, any other its data bit, inverted where the smaller of its row's and its column's counter is odd, and 0 past the last
 * column. Reading them with these counters gives the data. Of the old cells only the length counts.
 * Refusals: 1 to 4 and 13, and 13 exactly where some stuck cell would not read as its data bit. */
void ERNAVLUQ_NAME(grid_store)(
    ernavluq_grid_answer *answer,
    size_t rows, size_t columns, size_t k,
    const uint64_t *data, size_t data_length,
    const uint64_t *mask, size_t mask_length,
    const uint64_t *values, size_t values_length,
    const uint8_t *counters, size_t counters_length,
    uint64_t *cells, size_t cells_length);

static inline ernavluq_grid_answer ernavluq_grid_store(
    size_t rows, size_t columns, size_t k,
    const uint64_t *data, size_t data_length,
    const uint64_t *mask, size_t mask_length,
    const uint64_t *values, size_t values_length,
    const uint8_t *counters, size_t counters_length,
    uint64_t *cells, size_t cells_length)
{
    ernavluq_grid_answer answer;
    ERNAVLUQ_NAME(grid_store)(&answer, rows, columns, k, data, data_length, mask, mask_length, values, values_length, counters, counters_length,
        cells, cells_length);
    return answer;
}

/* Reads a block. Takes its rows and columns (1 to 64 each), K (1 to 7), the cells and the counters, whoever made them. Accepted, out holds each cell,
 * inverted where the smaller of its row's and its column's counter is odd, and 0 past the last column. Of out only the length counts.
 * Refusals: 1 to 4. */
#define ernavluq_grid_read ERNAVLUQ_NAME(grid_read)
ernavluq_grid_read_answer ernavluq_grid_read(
    size_t rows, size_t columns, size_t k,
    const uint64_t *cells, size_t cells_length,
    const uint8_t *counters, size_t counters_length,
    uint64_t *out, size_t out_length);

/* Converts the counters of a block from K to an equal or a larger one, the target: `to`. Takes the block's rows and columns (1 to 64 each), K (1 to 7), the
 * target (K to 7) and the counters at K, whoever made them. Accepted, out holds the same counters at the target: each has the same value and keeps its
 * place, in as many bits as counters have at the target, and the spare bits are 0. Any cells read at the target with out as they read at K with counters.
 * counters has ERNAVLUQ_COUNTER_BYTES(rows, columns, k) bytes, out ERNAVLUQ_COUNTER_BYTES(rows, columns, to). Of out only the length counts; it may not be
 * the buffer of the counters, even where it gets the same bytes.
 * Refusals: 1 to 4; a target smaller than K is 1. */
#define ernavluq_grid_convert ERNAVLUQ_NAME(grid_convert)
ernavluq_grid_convert_answer ernavluq_grid_convert(
    size_t rows, size_t columns, size_t k, size_t to,
    const uint8_t *counters, size_t counters_length,
    uint8_t *out, size_t out_length);

/* ---- grid blocks that arrive in lumps: a read whose bytes come cut anywhere
 *
 * A block's bytes are its counters, ERNAVLUQ_COUNTER_BYTES(rows, columns, k) of them, and after them its cell words, 8 bytes each, the lowest byte first:
 * ERNAVLUQ_BLOCK_BYTES(rows, columns, k) in all. A transfer starts with the block's numbers, takes the bytes in lumps of any length, no bytes included, and
 * hands nothing out before it is finished. Then it answers and fills the output as ernavluq_grid_read does with the joined bytes.
 *
 * The caller keeps the transfer, 592 bytes, and lends it to each call, which changes it in place and keeps nothing of it. Refusals 1 and 9 are noted in it:
 * every later call answers them, until a new start. Feed one transfer, not copies of it: a copy does not have what is noted later. Any bits may be lent as a
 * transfer, even if no call made them: with rows, columns or k out of range every call but a start answers 1, and with more bytes taken than the block has, 9.
 * A transfer counts bytes, and knows nothing else of their order: if the sender repeats bytes, or leaves some out, and the count is right, a wrong block is
 * read. examples/receiver.c has frames with a sequence number and a check sum against that. */

/* The bytes of a block, and those of the longest: 64 rows and 64 columns at K = 4 to 7. */
#define ERNAVLUQ_BLOCK_BYTES(rows, columns, k) (ERNAVLUQ_COUNTER_BYTES(rows, columns, k) + 8 * (rows))
#define ERNAVLUQ_MAX_BLOCK_BYTES 560

typedef struct {
    size_t rows;                             /* the three numbers that the start was given */
    size_t columns;
    size_t k;
    size_t taken;                            /* the bytes taken since; the first lump that is refused with 9 sets it to 561, which no block has */
    uint8_t bytes[ERNAVLUQ_MAX_BLOCK_BYTES]; /* those bytes; behind them zeros, or what was there in a transfer that no start made */
} ernavluq_transfer;
ERNAVLUQ_HAS_SIZE(ernavluq_transfer, 592);

typedef struct {
    size_t number; /* 0, or the refusal: 1 or 9 */
    size_t bytes;  /* the bytes of the block that have not come yet, and with a refusal 0 */
} ernavluq_transfer_missing_answer;
ERNAVLUQ_HAS_SIZE(ernavluq_transfer_missing_answer, 16);

/* Starts a transfer of a block with these rows and columns (1 to 64 each) and K (1 to 7): the transfer has these numbers, no byte taken, and zeros. What it
 * held before does not count. Answers the number.
 * Refusals: 1. The transfer has the numbers all the same, and every other call answers 1 too. */
#define ernavluq_transfer_start ERNAVLUQ_NAME(transfer_start)
size_t ernavluq_transfer_start(ernavluq_transfer *transfer, size_t rows, size_t columns, size_t k);

/* Takes a lump: its bytes follow those taken before. Lumps may follow a finish, and after a finish with refusal 8 they may complete the block. Answers the
 * number.
 * Refusals: 1, if the numbers of the transfer are out of range; 9, if it has more bytes taken than the block, or would have with this lump. Then no byte of
 * the lump is taken, and every later call answers 9 too, a lump of no bytes included, until a new start. With 1, and where more bytes than the block has were
 * taken already, the transfer stays as it was. */
#define ernavluq_transfer_lump ERNAVLUQ_NAME(transfer_lump)
size_t ernavluq_transfer_lump(ernavluq_transfer *transfer, const uint8_t *bytes, size_t bytes_length);

/* Says how many bytes of the block have not come yet. Refusals: 1 and 9, as a lump of no bytes. Number 0 and 0 bytes: the block is there. */
#define ernavluq_transfer_missing ERNAVLUQ_NAME(transfer_missing)
ernavluq_transfer_missing_answer ernavluq_transfer_missing(const ernavluq_transfer *transfer);

/* Finishes a block: reads it if all its bytes are there. Accepted, out holds what ernavluq_grid_read makes of the block's cells and counters. The transfer
 * stays as it was, so a finish may be repeated, and lumps may follow it. Of out only the length counts.
 * Refusals, and here the first that applies is the answer: 1; 9; 2, if out has not one word a row; 8, if bytes are missing, whatever those that came hold;
 * 3; and 4 with its index. */
#define ernavluq_transfer_finish ERNAVLUQ_NAME(transfer_finish)
ernavluq_grid_read_answer ernavluq_transfer_finish(const ernavluq_transfer *transfer, uint64_t *out, size_t out_length);

#ifdef __cplusplus
}
#endif

#endif
