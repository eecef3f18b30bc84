/* The C call of the plain reading, as include/nt6861.h declares it: an accepted list, and the three refusals. */
#include "nt6861.h"
#include <stdio.h>

static uint16_t changes[64];
static size_t length;

static void put(uint16_t change) {
    changes[length++] = change;
}

static int check(const char *what, int held) {
    if (!held) {
        printf("addresses.c: %s\n", what);
    }
    return !held;
}

int main(void) {
    uint16_t found[2] = {0x5555, 0x5555};
    size_t count = 9;
    int bad = 0;
    put(0x1800);
    for (int place = 7; place >= 0; place--) {
        put(0x1900);
        put(0x1800 | (0xA1 >> place & 1));
        put(0x1901);
    }
    bad |= check("7", nt6861_addresses(0x6E, changes, length, found, 0, &count) == 7 && count == 9);
    bad |= check("0", nt6861_addresses(0xA0, changes, length, found, 2, &count) == 0 && count == 1 && found[0] == 0xA103 && found[1] == 0x5555);
    put(0x1902);
    bad |= check("3", nt6861_addresses(0x6E, changes, length, found, 2, &count) == 3 && count == 1);
    changes[length - 1] = 0x1702;
    bad |= check("2", nt6861_addresses(0x6E, changes, length, found, 2, &count) == 2 && count == 1 && found[0] == 0xA103);
    return bad;
}
