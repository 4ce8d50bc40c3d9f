/* What the cases of rows, of blocks and of transfers share. Every buffer has ROOM elements and is compared whole, with the room behind what is lent: so a
 * refusal alters nothing, and an accepted call only what it should. */
#ifndef CASES_H
#define CASES_H

#include "ernavluq.h"

enum { ROOM = 80, FILL = 0xA5 };

/* Prints the case's line and counts it. */
void report(const char *name, int good);

/* "0A 0C" puts two bytes; the answer is how many. */
size_t put_hex(const char *text, uint8_t *bytes);

void try_rows(void);
void try_blocks(void);
void try_transfers(void);

#endif
