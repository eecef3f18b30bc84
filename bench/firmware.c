/* firmware ROM COUNT: runs COUNT instructions of an image from power up with nt6861_firmware, and prints the registers, for a time of the whole
 * process. SHIFT bytes stand before the library's code: how fast a loop of many jumps runs depends on where it begins in a line of 64
 * bytes, so that bench/firmware.sh takes four positions. */
#include <stdio.h>
#include <stdlib.h>

#include "nt6861.h"

#define TEXT_OF(x) #x
#define TEXT(x) TEXT_OF(x)
__asm__(".text\n.p2align 6\n.fill " TEXT(SHIFT) ", 1, 0x90\n");

static uint8_t rom[24576];

int main(int count, char **arguments) {
    FILE *file = count == 3 ? fopen(arguments[1], "rb") : NULL;
    if (!file || fread(rom, 1, sizeof rom, file) != sizeof rom) {
        fprintf(stderr, "usage: firmware ROM COUNT, of an image of 24576 bytes\n");
        return 1;
    }
    uint8_t cpu[8] = {0, 0, 0, 0xFF, 4, rom[24572], rom[24573], 0}, ram[256] = {0}, chip[128];
    uint32_t counts[2];
    nt6861_fresh(chip, sizeof chip);
    uint8_t number = nt6861_firmware(cpu, sizeof cpu, ram, sizeof ram, rom, sizeof rom, chip, sizeof chip, NULL, 0, NULL, 0,
                                     (uint32_t)atol(arguments[2]), counts, 2);
    printf("%u %u %02X %02X %02X\n", number, counts[0], cpu[0], cpu[1], cpu[2]);
    return number;
}
