/* The firmware call from C by its header: an image from standard input run from power up, then one call for each refusal. */
#include <stdio.h>
#include <string.h>

#include "nt6861.h"

static uint8_t rom[24577];
static uint8_t cpu[8], ram[256], area[128];
static uint32_t answers[1], counts[2];
/* before instruction 2: HVCON is read */
static const uint64_t events[1] = {0x0000000201000600};

static void power_up(void)
{
    memset(cpu, 0, sizeof cpu);
    memset(ram, 0, sizeof ram);
    cpu[3] = 0xFF;
    cpu[4] = 0x04;
    cpu[5] = rom[0xFFFC - 0xA000];
    cpu[6] = rom[0xFFFD - 0xA000];
    answers[0] = 0xFFFFFFFF;
    counts[0] = counts[1] = 99;
    nt6861_fresh(area, sizeof area);
}

static int expect(const char *what, size_t rom_length, size_t cpu_length, size_t places, uint8_t number, uint32_t counted, uint32_t given)
{
    uint8_t told = nt6861_firmware(cpu, cpu_length, ram, sizeof ram, rom, rom_length, area, sizeof area, events, 1, answers, places, 100, counts, 2);
    int bad = told != number || counts[0] != counted || counts[1] != given || answers[0] != (given == 1 ? 0x0000003C : 0xFFFFFFFF);
    if (bad)
        printf("firmware in C: %s gives %u, counted %u, given %u, answer %08X\n", what, told, counts[0], counts[1], answers[0]);
    power_up();
    return bad;
}

int main(void)
{
    size_t length = fread(rom, 1, sizeof rom, stdin);
    power_up();
    int bad = expect("the image", length, 8, 1, 0, 100, 1);
    bad |= expect("a CPU of seven bytes", length, 7, 1, 15, 99, 99);
    bad |= expect("a short image", length - 1, 8, 1, 22, 99, 99);
    bad |= expect("no answer place", length, 8, 0, 7, 99, 99);
    cpu[7] = 32;
    bad |= expect("32 cycles over", length - 1, 8, 0, 8, 99, 99);
    memset(area, 0xFF, sizeof area);
    bad |= expect("an area of FFs", length - 1, 8, 0, 8, 99, 99);
    cpu[5] = 0x00;
    cpu[6] = 0x02;
    bad |= expect("a fetch at 0200", length, 8, 1, 21, 0, 0);
    if (!bad)
        printf("firmware in C agrees\n");
    return bad;
}
