/* Every case of document 01 and both sides of each edge, through the archive: a line a case, and the count at the end. A star marks the proved cases. */
#include <stdio.h>

#include "cases.h"

static int tried, failed;

void report(const char *name, int good)
{
    tried++;
    failed += !good;
    printf("%s %s\n", good ? "ok " : "BAD", name);
}

size_t put_hex(const char *text, uint8_t *bytes)
{
    size_t count = 0;
    unsigned value;
    for (; sscanf(text, "%2x", &value) == 1; text += text[2] ? 3 : 2)
        bytes[count++] = (uint8_t)value;
    return count;
}

int main(void)
{
    try_rows();
    try_blocks();
    try_transfers();
    printf("%d cases, %d failed\n", tried, failed);
    return failed != 0;
}
