/* Four jobs in one program: an EDID block is checked, a capture of the bus read, its words given to a chip, and a firmware image run.
 *
 *   ./nt6861 library
 *   cc -Iinclude -o target/jobs examples/jobs.c target/lib/libnt6861.a
 *   target/jobs images/edid.bin examples/address.vcd images/recall.rom
 *
 * Installed: cc -o jobs jobs.c $(pkg-config --cflags --libs nt6861)
 */
#include <stdio.h>
#include <string.h>

#include "nt6861.h"

enum { LARGEST = 1 << 20, ROM_START = 0xA000, RESET_VECTOR = 0xFFFC };

static uint8_t bytes[LARGEST];
static uint32_t words[LARGEST], answers[LARGEST];

static size_t read_file(const char *name)
{
    FILE *file = fopen(name, "rb");
    size_t length = 0;

    if (file) {
        length = fread(bytes, 1, sizeof bytes, file);
        fclose(file);
    }
    return length;
}

static void check_edid(const char *name)
{
    uint8_t number = nt6861_edid(bytes, read_file(name));

    if (number == NT6861_DONE)
        printf("EDID: accepted\n");
    else
        printf("EDID: refused with %u\n", number);
}

/* the words of a capture, behind three that switch DDC2B on; how many there are */
static size_t read_capture(const char *name)
{
    uint64_t told[2];
    uint8_t number;

    words[0] = NT6861_WRITE(NT6861_IEX, NT6861_REQUEST_A | NT6861_REQUEST_D);
    words[1] = NT6861_WRITE(NT6861_MDCON, 0);
    words[2] = NT6861_WRITE(NT6861_IISTS, 0);
    number = nt6861_vcd(bytes, read_file(name), words + 3, LARGEST - 3, told, 2);
    if (number == NT6861_DONE)
        printf("capture: %lu words\n", (unsigned long)told[0]);
    else
        printf("capture: refused with %u at byte %lu\n", number, (unsigned long)told[1]);
    return (size_t)told[0] + 3;
}

static void run_chip(size_t count)
{
    static const char *const outcomes[] = {"none", "A0H", "II ADR", "both"};
    uint8_t chip[NT6861_AREA];
    uint64_t told[12];

    nt6861_fresh(chip, sizeof chip);
    nt6861_why(chip, sizeof chip, words, count, told);
    nt6861_run(chip, sizeof chip, words, count, answers, count);
    printf("chip: requests %02X, address %s\n", (unsigned)NT6861_REQUESTS_OF(answers[count - 1]), outcomes[nt6861_outcome(chip, sizeof chip) & 3]);
    printf("chip: A is up by code %lu of word %lu\n", (unsigned long)told[6], (unsigned long)told[7]);
}

static void run_firmware(const char *name)
{
    uint8_t cpu[8] = {0, 0, 0, 0xFF, 0x04, 0, 0, 0}, ram[256], chip[NT6861_AREA];
    uint64_t event = (uint64_t)100 << 32 | NT6861_READ(NT6861_PT0);
    uint32_t answer = 0, counts[2] = {0, 0};
    size_t length = read_file(name);
    uint8_t number;

    memset(ram, 0, sizeof ram);
    nt6861_fresh(chip, sizeof chip);
    cpu[5] = bytes[RESET_VECTOR - ROM_START];
    cpu[6] = bytes[RESET_VECTOR + 1 - ROM_START];
    number = nt6861_firmware(cpu, sizeof cpu, ram, sizeof ram, bytes, length, chip, sizeof chip, &event, 1, &answer, 1, 1000, counts, 2);
    printf("firmware: number %u, %lu instructions, PC %02X%02X, PT0 %02X\n", number, (unsigned long)counts[0], cpu[6], cpu[5],
           (unsigned)NT6861_BYTE_OF(answer));
}

int main(int count, char **given)
{
    if (count != 4)
        return 2;
    check_edid(given[1]);
    run_chip(read_capture(given[2]));
    run_firmware(given[3]);
    return 0;
}
