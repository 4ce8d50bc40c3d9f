/* Copy this for a receiver: blocks come over a cable one after another, in frames with a sequence number and a check sum, and each block has a check sum of its
 * own. The cable drops frames, repeats them, cuts them short and flips bits, and is pulled out now and then. At the end nothing was read wrong.
 *
 *     ./run archive
 *     cc -std=c99 -Iinclude examples/receiver.c target/staticlib/$(uname -m)/libernavluq.a -o target/receiver && target/receiver
 */
#include <stdio.h>
#include <string.h>

#include "ernavluq.h"

/* Blocks of 16 readings with 24 bits each. A frame carries at most 32 of a block's bytes. */
enum { ROWS = 16, COLUMNS = 24, K = 3, BLOCKS = 200, LOAD = 32, TRIES = 5, ASKED = 100 };
enum { COUNTERS = ERNAVLUQ_COUNTER_BYTES(ROWS, COLUMNS, K), BLOCK = ERNAVLUQ_BLOCK_BYTES(ROWS, COLUMNS, K) };

/* ---- what goes over the cable. `at` is the place of the first byte in its block: it is what puts frames in order, and shows one that is repeated or lost. */

struct frame {
    uint32_t block;   /* the number of the block */
    uint16_t at;      /* where its bytes begin in the block */
    uint16_t length;  /* how many they are */
    uint32_t whole;   /* the check sum of rows, columns, K and all bytes of the block */
    uint8_t load[LOAD];
    uint32_t sum;     /* the check sum of all of these */
};

/* CRC-32, as in Ethernet: it finds every burst of up to 32 bits. */
static uint32_t add_to_sum(uint32_t sum, uint64_t value, int bytes)
{
    for (int i = 0; i < 8 * bytes; i++)
        sum = (sum >> 1) ^ (((sum ^ (uint32_t)(value >> i)) & 1) ? 0xEDB88320u : 0);
    return sum;
}

static uint32_t sum_of(const struct frame *f)
{
    uint32_t sum = add_to_sum(add_to_sum(add_to_sum(add_to_sum(0xFFFFFFFFu, f->block, 4), f->at, 2), f->length, 2), f->whole, 4);
    for (size_t i = 0; i < LOAD; i++)
        sum = add_to_sum(sum, f->load[i], 1);
    return ~sum;
}

static uint32_t sum_of_block(size_t rows, size_t columns, size_t k, const uint8_t *bytes, size_t length)
{
    uint32_t sum = add_to_sum(add_to_sum(add_to_sum(0xFFFFFFFFu, rows, 1), columns, 1), k, 1);
    for (size_t i = 0; i < length; i++)
        sum = add_to_sum(sum, bytes[i], 1);
    return ~sum;
}

/* ---- the module that sends: its blocks are stored in worn memory, with 0 to 3 stuck cells each */

static uint64_t state = 2026;

static uint32_t any(uint32_t below)
{
    state = state * UINT64_C(6364136223846793005) + UINT64_C(1442695040888963407);
    return (uint32_t)(state >> 33) % below;
}

struct stored {
    uint64_t data[ROWS];  /* what was to be stored, kept aside for the check at the end */
    uint8_t bytes[BLOCK]; /* what is sent: the counters, and then the cell words, the lowest byte first */
};

static struct stored stored[BLOCKS];

static int store_a_block(struct stored *s)
{
    uint64_t mask[ROWS] = {0}, values[ROWS] = {0}, cells[ROWS] = {0};
    ernavluq_grid_answer planned, done;
    for (size_t i = 0; i < ROWS; i++)
        s->data[i] = any(1u << COLUMNS);
    for (uint32_t stuck = any(4); stuck > 0; stuck--) {
        uint32_t row = any(ROWS), column = any(COLUMNS);
        mask[row] |= (uint64_t)1 << column;
        values[row] |= (uint64_t)any(2) << column;
    }
    planned = ernavluq_grid_plan(ROWS, COLUMNS, K, s->data, ROWS, mask, ROWS, values, ROWS, s->bytes, COUNTERS);
    done = ernavluq_grid_store(ROWS, COLUMNS, K, s->data, ROWS, mask, ROWS, values, ROWS, s->bytes, COUNTERS, cells, ROWS);
    for (size_t i = 0; i < 8 * ROWS; i++)
        s->bytes[COUNTERS + i] = (uint8_t)(cells[i / 8] >> 8 * (i % 8));
    return planned.number == ERNAVLUQ_ACCEPTED && done.number == ERNAVLUQ_ACCEPTED;
}

/* A sender checks first that the block and the place it is asked for are there: here the receiver is this program, and asks for nothing else. */
static struct frame frame_of(uint32_t block, size_t at)
{
    struct frame f = {block, (uint16_t)at, (uint16_t)(BLOCK - at < LOAD ? BLOCK - at : LOAD), 0, {0}, 0};
    f.whole = sum_of_block(ROWS, COLUMNS, K, stored[block].bytes, BLOCK);
    memcpy(f.load, stored[block].bytes + at, f.length);
    f.sum = sum_of(&f);
    return f;
}

/* ---- the cable */

enum mishap { NONE, LOST, REPEATED, FLIPPED, CUT };
static size_t mishaps[CUT + 1];

/* What comes out of the cable for a frame that went in: no frame, one, or two. */
static int through_the_cable(struct frame *f)
{
    static const enum mishap often[] = {NONE, NONE, NONE, NONE, NONE, NONE, NONE, LOST, REPEATED, FLIPPED, CUT};
    enum mishap now = often[any(sizeof often / sizeof *often)];
    mishaps[now]++;
    if (now == FLIPPED)
        f->load[any(LOAD)] ^= (uint8_t)(1u << any(8));
    if (now == CUT)
        f->length = (uint16_t)any(f->length);
    return now == LOST ? 0 : now == REPEATED ? 2 : 1;
}

/* ---- the receiver: one transfer, kept from block to block. What it tells the sender is which byte of which block it wants next. */

struct receiver {
    ernavluq_transfer transfer;
    uint32_t block;         /* the block that is on its way */
    uint32_t whole;         /* its check sum, as the last frame had it */
    size_t tries;           /* how often it could not be used */
    size_t asked;           /* how often its next byte was asked for and did not come */
    uint64_t out[ROWS];
    size_t accepted, wrong; /* blocks that were read, and blocks whose data is not what was stored */
    size_t given_up;        /* blocks that could not be used, however often they came */
    size_t ignored;         /* frames with a bad length or sum, and frames that do not follow */
};

static void expect_again(struct receiver *r)
{
    r->asked = 0;
    ernavluq_transfer_start(&r->transfer, ROWS, COLUMNS, K);
}

static void expect_block(struct receiver *r, uint32_t block)
{
    r->block = block;
    r->tries = 0;
    expect_again(r);
}

/* A frame that is damaged or does not follow is not taken: the next byte is still the one that is missing. Its length is looked at first, because what is in
 * it comes from outside. */
static void frame_comes(struct receiver *r, const struct frame *f)
{
    if (f->length > LOAD || f->sum != sum_of(f) || f->block != r->block || f->at != r->transfer.taken) {
        r->ignored++;
        return;
    }
    r->whole = f->whole;
    ernavluq_transfer_lump(&r->transfer, f->load, f->length);
    if (f->length > 0)
        r->asked = 0;
}

/* The block cannot be used: it is asked for anew, some times, and then given up. */
static void not_used(struct receiver *r, const char *why)
{
    printf("block %u was not used: %s\n", (unsigned)r->block, why);
    if (++r->tries < TRIES) {
        expect_again(r);
        return;
    }
    r->given_up++;
    expect_block(r, r->block + 1);
}

/* All bytes are there. The block is used only if its own check sum is right too. */
static void block_is_there(struct receiver *r)
{
    const ernavluq_transfer *t = &r->transfer;
    ernavluq_grid_read_answer read = ernavluq_transfer_finish(t, r->out, ROWS);
    if (read.number != ERNAVLUQ_ACCEPTED) {
        not_used(r, ernavluq_in_words(read.number));
    } else if (r->whole != sum_of_block(t->rows, t->columns, t->k, t->bytes, t->taken)) {
        not_used(r, "its check sum is wrong");
    } else {
        r->accepted++;
        r->wrong += memcmp(r->out, stored[r->block].data, sizeof r->out) != 0;
        expect_block(r, r->block + 1);
    }
}

int main(void)
{
    static struct receiver r;
    size_t dropped = 0;
    for (uint32_t block = 0; block < BLOCKS; block++)
        if (!store_a_block(&stored[block]))
            return 1;

    expect_block(&r, 0);
    while (r.block < BLOCKS) {
        ernavluq_transfer_missing_answer missing = ernavluq_transfer_missing(&r.transfer);
        struct frame f;
        if (missing.number == ERNAVLUQ_ACCEPTED && missing.bytes == 0) {
            block_is_there(&r);
            continue;
        }
        /* A refusal is noted, or the sender has no byte left: its rows, columns or K may be others. */
        if (missing.number != ERNAVLUQ_ACCEPTED || ++r.asked > ASKED) {
            not_used(&r, ernavluq_in_words(missing.number ? missing.number : ERNAVLUQ_SHORT_BLOCK));
            continue;
        }
        /* Now and then the cable is pulled out for long, and the block is asked for from its first byte. */
        if (any(100) == 0) {
            dropped++;
            expect_again(&r);
            continue;
        }
        f = frame_of(r.block, r.transfer.taken);
        for (int times = through_the_cable(&f); times > 0; times--)
            frame_comes(&r, &f);
    }
    printf("%d blocks of %d bytes in frames: %zu came whole, %zu were lost, %zu repeated, %zu had a bit flipped, %zu were cut\n", BLOCKS, BLOCK,
        mishaps[NONE], mishaps[LOST], mishaps[REPEATED], mishaps[FLIPPED], mishaps[CUT]);
    printf("%zu frames were ignored\n", r.ignored);
    printf("%zu times the cable was pulled out for long\n", dropped);
    printf("%zu blocks were read, %zu of them wrong; %zu were given up\n", r.accepted, r.wrong, r.given_up);
    return r.accepted == BLOCKS && r.wrong == 0 && r.ignored > 0 ? 0 : 1;
}
