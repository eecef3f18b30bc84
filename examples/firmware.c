/* A firmware image run from C: power up, events at instructions, the run in two calls. A host sends an address on the bus, first that of
 * another device, then the monitor's own, and the port of the picture is read before and after it.
 *
 *   ./nt6861 library && cc -Iinclude -o target/firmware-example examples/firmware.c target/lib/libnt6861.a
 *   target/firmware-example images/recall.rom
 */
#include <stdio.h>
#include <string.h>

#include "nt6861.h"

enum { ROM_START = 0xA000, RESET_VECTOR = 0xFFFC, SDA = NT6861_PIN_SDA, SCL = NT6861_PIN_SCL };

/* all that a run goes on from: CPU, RAM and chip */
struct machine {
    uint8_t cpu[8], ram[256], chip[128];
};

static uint8_t rom[24577]; /* one byte more, so that a file that is too long is seen */
static size_t rom_length;
static uint64_t events[64];
static uint32_t answers[64], counts[2];
static size_t listed;

static void power_up(struct machine *m)
{
    memset(m, 0, sizeof *m);
    m->cpu[3] = 0xFF; /* S */
    m->cpu[4] = 0x04; /* P: I is set */
    m->cpu[5] = rom[RESET_VECTOR - ROM_START];
    m->cpu[6] = rom[RESET_VECTOR + 1 - ROM_START];
    nt6861_fresh(m->chip, sizeof m->chip);
}

/* the event comes before the instruction of that number, from 0 in each call */
static void event(uint32_t instruction, uint32_t word)
{
    events[listed++] = (uint64_t)instruction << 32 | word;
}

static void level(uint32_t instruction, uint32_t pin, uint32_t value)
{
    event(instruction, NT6861_PIN(pin, value));
}

/* START, eight bits and the ninth clock, with ten instructions from edge to edge */
static uint32_t send_address(uint32_t at, uint32_t address)
{
    int bit;

    level(at, SDA, 0);
    for (bit = 7; bit >= 0; bit--) {
        level(at += 10, SCL, 0);
        level(at, SDA, address >> bit & 1);
        level(at += 10, SCL, 1);
    }
    level(at += 10, SCL, 0);
    level(at, SDA, 1);
    level(at += 10, SCL, 1);
    level(at += 10, SCL, 0);
    return at;
}

static uint8_t run(struct machine *m, uint32_t instructions)
{
    return nt6861_firmware(m->cpu, sizeof m->cpu, m->ram, sizeof m->ram, rom, rom_length, m->chip, sizeof m->chip, events, listed,
                           answers, 64, instructions, counts, 2);
}

static void print(const struct machine *m, uint8_t number)
{
    const uint8_t *c = m->cpu;

    printf("number %u counted %lu given %lu A=%02X X=%02X Y=%02X S=%02X P=%02X PC=%02X%02X over=%02X\n", number,
           (unsigned long)counts[0], (unsigned long)counts[1], c[0], c[1], c[2], c[3], c[4], c[6], c[5], c[7]);
}

static void host(uint32_t address)
{
    struct machine m;
    uint32_t at;
    uint8_t number;

    printf("address %02lX\n", (unsigned long)address);
    power_up(&m);

    listed = 0;
    event(100, NT6861_READ(NT6861_PT0));
    at = send_address(110, address);
    number = run(&m, at + 200);
    print(&m, number);
    printf("PT0 before: %08lX\n", (unsigned long)answers[0]);

    /* it goes on from there: one more read, before instruction 0 of this call */
    listed = 0;
    event(0, NT6861_READ(NT6861_PT0));
    number = run(&m, 100);
    print(&m, number);
    printf("PT0 after: %08lX\n", (unsigned long)answers[0]);
}

int main(int count, char **given)
{
    struct machine m;
    FILE *file = count == 2 ? fopen(given[1], "rb") : NULL;

    if (!file)
        return 2;
    rom_length = fread(rom, 1, sizeof rom, file);
    fclose(file);

    host(0x42); /* another device: no picture */
    host(0xA0); /* the monitor: P00 goes high */

    /* a refused instruction ends a run: what came before it stands, and counts and registers tell how far it went */
    power_up(&m);
    m.cpu[5] = 0x00;
    m.cpu[6] = 0x02; /* no memory at 0200: the fetch is refused with 21 */
    listed = 0;
    event(0, NT6861_READ(NT6861_PT0));
    printf("a fetch at 0200\n");
    print(&m, run(&m, 100));
    return 0;
}
