/* The check of EDID blocks called from C by its header: a good block from standard input, then the same with one fault each. */
#include <stdio.h>

#include "nt6861.h"

static int expect(const char *what, const uint8_t *block, size_t length, uint8_t number)
{
    uint8_t given = nt6861_edid(block, length);
    if (given != number)
        printf("edid in C: %s gives %u, not %u\n", what, given, number);
    return given != number;
}

int main(void)
{
    uint8_t block[129];
    size_t length = fread(block, 1, sizeof block, stdin);
    int bad = expect("the block", block, length, 0);
    bad |= expect("a short block", block, 127, 30);
    bad |= expect("no block", block, 0, 30);
    block[1] ^= 1;
    bad |= expect("a wrong header", block, length, 31);
    block[1] ^= 1;
    block[18] ^= 2;
    bad |= expect("a wrong version", block, length, 32);
    block[18] ^= 2;
    block[127] ^= 1;
    bad |= expect("a wrong sum", block, length, 33);
    if (!bad)
        printf("edid in C agrees\n");
    return bad;
}
