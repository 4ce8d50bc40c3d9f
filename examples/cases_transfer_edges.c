/* The edges of transfers: rows, columns and K, new starts, the order of the refusals, copies, records that no call made, and the layout. */
#include <stdio.h>
#include <string.h>

#include "cases_transfer.h"

/* G3 as it is sent: one byte of counters and two words. */
static struct sent send_g3(void)
{
    struct block b = new_block();
    b.counters[0] = 0x96;
    b.cells[0] = 1;
    b.cells[1] = 3;
    return send_block(2, 2, 3, &b);
}

/* Numbers out of range are refused at the start and from then on, with whatever lump and output, until a new start. Those at the edge are not. */
static void try_numbers(void)
{
    static const size_t edges[][3] = {
        {0, 1, 1}, {1, 1, 1}, {64, 1, 1}, {65, 1, 1}, {1, 0, 1}, {1, 64, 1}, {1, 65, 1}, {64, 64, 7}, {65, 65, 7}, {2, 2, 0}, {2, 2, 7}, {2, 2, 8}, {0, 0, 0},
        {((size_t)1 << 32) + 1, 1, 1}, {1, ((size_t)1 << 32) + 1, 1}, {1, 1, ((size_t)1 << 32) + 1}, {(size_t)1 << 61, 1, 1},
        {(size_t)-1, 1, 1}, {1, (size_t)-1, 1}, {1, 1, (size_t)-1}, {(size_t)-1, (size_t)-1, (size_t)-1},
    };
    struct sent g3 = send_g3();
    char name[120];
    for (size_t i = 0; i < sizeof edges / sizeof *edges; i++) {
        size_t m = edges[i][0], n = edges[i][1], k = edges[i][2], number = m < 1 || m > 64 || n < 1 || n > 64 || k < 1 || k > 7;
        struct reader r = new_reader();
        int good = starts(&r, m, n, k, number);
        good = good && (number ? stays(&r, 1) : refuses(&r, m, 8) && refuses(&r, m + 1, 2) && takes(&r, g3.bytes, 1, 0) && refuses(&r, m, 8));
        snprintf(name, sizeof name, "A1  %zu by %zu, K = %zu", m, n, k);
        report(name, good && brings(&r, &g3, g3.length, 5) && ends(&r, &g3));
    }
}

/* A new start gives up what was on its way: a part of a block, a whole one, and one that is refused with 9. The next may have other numbers. */
static void try_starts(void)
{
    struct sent g3 = send_g3(), longest = send_long_block(7);
    struct reader r = new_reader();
    int good = brings(&r, &longest, 100, 100) && brings(&r, &g3, g3.length, 1) && ends(&r, &g3);
    report("A1  a new start in the middle of a block", good);
    report("A1  a new start after a whole block", brings(&r, &longest, longest.length, 300) && ends(&r, &longest));
    report("A1  a new start that is refused", starts(&r, 2, 2, 8, 1) && stays(&r, 1));
    good = brings(&r, &g3, g3.length, 3) && takes(&r, longest.bytes, longest.length, 9) && starts(&r, 0, 2, 3, 1) && stays(&r, 1);
    report("A1  a new start that is refused, after 9", good);
    good = brings(&r, &g3, g3.length - 1, 3) && refuses(&r, 2, 8) && starts(&r, 2, 2, 3, 0);
    report("A1  a new start keeps no byte", good && takes(&r, g3.bytes + g3.length - 1, 1, 0) && refuses(&r, 2, 8));
}

/* A finish judges 1, 9, 2, 8, 3 and 4 in this order. */
static void try_order(void)
{
    struct sent g3 = send_g3();
    struct reader r = new_reader();
    int good = brings(&r, &g3, 0, 1) && refuses(&r, 0, 2) && ernavluq_transfer_finish(&r.record, NULL, 0).number == 2 && refuses(&r, 2, 8);
    report("A1  no byte: 2 before 8", good);
    report("A1  a byte short: 2 before 8", brings(&r, &g3, g3.length - 1, 7) && refuses(&r, 1, 2) && refuses(&r, 3, 2) && refuses(&r, 2, 8));
    report("A1  all bytes: 2", takes(&r, g3.bytes + g3.length - 1, 1, 0) && refuses(&r, 1, 2) && refuses(&r, 3, 2) && ends(&r, &g3));
    report("A1  a byte more: 9 before 2", takes(&r, g3.bytes, 1, 9) && refuses(&r, 1, 9) && refuses(&r, 3, 9) && refuses(&r, 2, 9));
    r.record.k = 8;
    report("A1  a byte more, and then K = 8: 1 before 9", stays(&r, 1));
    /* At K = 2 row 0 may not have a 3. */
    g3.k = 2;
    g3.bytes[0] = 0x57;
    g3.number = 4;
    good = brings(&r, &g3, g3.length - 1, 9) && refuses(&r, 1, 2) && refuses(&r, 2, 8) && takes(&r, g3.bytes + g3.length - 1, 1, 0) && refuses(&r, 1, 2);
    report("A1  a counter above K: 2 and 8 before 4", good && ends(&r, &g3));
    /* And the last word has a bit past the last column. */
    g3.bytes[g3.length - 1] = 0x80;
    g3.number = 3;
    good = brings(&r, &g3, g3.length - 1, 9) && refuses(&r, 2, 8) && takes(&r, g3.bytes + g3.length - 1, 1, 0) && refuses(&r, 3, 2);
    report("A1  the last bit of the last byte: 2, 8 and 3 before 4", good && ends(&r, &g3));
}

/* Lumps far too long are not taken in part: their first bytes would complete the block. */
static void try_long_lumps(void)
{
    static uint8_t many[((size_t)1 << 16) + ERNAVLUQ_MAX_BLOCK_BYTES];
    static const size_t lengths[] = {255, 256, 256 + 17, 560, 561, 4096, (size_t)1 << 16, ((size_t)1 << 16) + 8, ((size_t)1 << 16) + 17, sizeof many};
    struct sent g3 = send_g3();
    char name[120];
    memcpy(many, g3.bytes, g3.length);
    for (size_t i = 0; i < sizeof lengths / sizeof *lengths; i++) {
        struct reader r = new_reader();
        int good = starts(&r, 2, 2, 3, 0) && takes(&r, many, lengths[i], 9) && stays(&r, 9);
        good = good && brings(&r, &g3, 9, 4) && takes(&r, many + 9, lengths[i] - 9, 9) && stays(&r, 9);
        snprintf(name, sizeof name, "A1  17 bytes are missing, and %zu come", lengths[i]);
        report(name, good);
    }
}

/* A reader that looks at no number of a lump: one frame of four comes twice, so the last does not fit. It is noted, and the finish answers 9. */
static void try_careless_reader(void)
{
    struct sent g3 = send_g3();
    struct reader r = new_reader(), before;
    static const size_t cuts[][2] = {{0, 5}, {5, 10}, {5, 10}, {10, 17}};
    int good;
    ernavluq_transfer_start(&r.record, 2, 2, 3);
    for (size_t i = 0; i < 4; i++)
        ernavluq_transfer_lump(&r.record, g3.bytes + cuts[i][0], cuts[i][1] - cuts[i][0]);
    before = r;
    good = ernavluq_transfer_finish(&r.record, r.out, 2).number == ERNAVLUQ_LONG_BLOCK && memcmp(&r, &before, sizeof r) == 0;
    report("A1  a frame comes twice, and nobody looks: 9 at the finish", good && stays(&r, 9));
}

/* A copy is a transfer of its own. */
static void try_copies(void)
{
    struct sent g3 = send_g3();
    struct reader r = new_reader(), copy;
    int good = brings(&r, &g3, 9, 2);
    copy = r;
    good = good && takes(&r, g3.bytes, g3.length, 9) && stays(&r, 9);
    report("A1  a copy goes on after its twin is refused", good && takes(&copy, g3.bytes + 9, g3.length - 9, 0) && ends(&copy, &g3) && stays(&r, 9));
}

/* Any record has an answer. More bytes taken than the block has are 9, numbers out of range are 1, and any other record goes on. */
static void try_foreign_records(void)
{
    static const size_t taken[] = {18, 19, 559, 560, 561, 562, 1000, (size_t)1 << 16, ((size_t)1 << 32) + 9, (size_t)-17, (size_t)-2, (size_t)-1};
    struct sent g3 = send_g3(), longest = send_long_block(7);
    struct reader r, bad;
    char name[120];
    int good;
    for (size_t i = 0; i < sizeof taken / sizeof *taken; i++) {
        r = new_reader();
        r.record.rows = r.record.columns = 2;
        r.record.k = 3;
        r.record.taken = taken[i];
        bad = r;
        bad.record.rows = 0;
        snprintf(name, sizeof name, "A1  17 bytes, and %zu taken", taken[i]);
        report(name, stays(&r, 9) && stays(&bad, 1) && brings(&r, &g3, 17, 17) && ends(&r, &g3));
    }
    r = new_reader();
    report("A1  a record of any bytes", stays(&r, 1));
    memset(&r.record, 0, sizeof r.record);
    report("A1  a record of zeros", stays(&r, 1));

    r = new_reader();
    r.record.rows = r.record.columns = 64;
    r.record.k = 7;
    r.record.taken = 561;
    report("A1  560 bytes, and 561 taken", stays(&r, 9));
    r.record.taken = 560;
    memcpy(r.record.bytes, longest.bytes, 560);
    report("A1  560 bytes, and 560 taken", ends(&r, &longest) && takes(&r, g3.bytes, 1, 9) && stays(&r, 9));

    /* What stands past the bytes taken is not looked at, and stays until a lump covers it. */
    r = new_reader();
    r.record.rows = r.record.columns = 2;
    r.record.k = 3;
    r.record.taken = 0;
    good = refuses(&r, 2, 8) && takes(&r, g3.bytes, 9, 0) && refuses(&r, 2, 8) && takes(&r, g3.bytes + 9, 8, 0) && ends(&r, &g3);
    report("A1  any bytes past those taken", good);
    r.record.taken = 16;
    report("A1  a byte fewer taken", refuses(&r, 2, 8) && takes(&r, g3.bytes + 16, 1, 0) && ends(&r, &g3));
}

static void try_layout(void)
{
    report("A1  the layout", sizeof(ernavluq_transfer) == 592 && offsetof(ernavluq_transfer, rows) == 0 && offsetof(ernavluq_transfer, columns) == 8
        && offsetof(ernavluq_transfer, k) == 16 && offsetof(ernavluq_transfer, taken) == 24 && offsetof(ernavluq_transfer, bytes) == 32);
    report("A1  the bytes of a block", ERNAVLUQ_BLOCK_BYTES(1, 1, 1) == 9 && ERNAVLUQ_BLOCK_BYTES(2, 2, 3) == 17 && ERNAVLUQ_BLOCK_BYTES(2, 3, 4) == 18
        && ERNAVLUQ_BLOCK_BYTES(3, 2, 1) == 25 && ERNAVLUQ_BLOCK_BYTES(64, 64, 1) == 528 && ERNAVLUQ_BLOCK_BYTES(64, 64, 3) == 544
        && ERNAVLUQ_BLOCK_BYTES(64, 64, 7) == ERNAVLUQ_MAX_BLOCK_BYTES);
}

void try_transfer_edges(void)
{
    try_numbers();
    try_starts();
    try_order();
    try_long_lumps();
    try_careless_reader();
    try_copies();
    try_foreign_records();
    try_layout();
}
