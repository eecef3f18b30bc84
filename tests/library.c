/* Every call of include/nt6861.h, each once and with what it gives: C99 and C++17 alike. scripts/check-library.sh links it with the static and with the
 * shared library. Prints a line at the end; else the first call that gives something else, and status 1. */
#include <stdio.h>
#include <stdlib.h>
#include <string.h>

#include "nt6861.h"

static unsigned asked;

static void expect(const char *what, double given, double expected)
{
    asked++;
    if (given != expected) {
        printf("library: %s gives %g, not %g\n", what, given, expected);
        exit(1);
    }
}

static void the_chip(void)
{
    uint8_t chip[NT6861_AREA];
    uint32_t words[4], answers[4];
    uint64_t told[12];
    double hertz = 0;

    expect("nt6861_version", nt6861_version(), NT6861_VERSION);
    expect("nt6861_fresh of 127 bytes", nt6861_fresh(chip, 127), NT6861_BAD_LENGTH);
    expect("nt6861_fresh", nt6861_fresh(chip, sizeof chip), NT6861_DONE);
    expect("nt6861_step", nt6861_step(chip, sizeof chip, NT6861_READ(NT6861_HVCON)), 0x3C);
    words[0] = NT6861_WRITE(NT6861_IEX, NT6861_REQUEST_V);
    words[1] = NT6861_PIN(NT6861_PIN_VSYNCI, 0);
    words[2] = NT6861_PIN(NT6861_PIN_VSYNCI, 1);
    words[3] = NT6861_READ(NT6861_IRQX);
    expect("nt6861_replay", nt6861_replay(words, 4, answers, 4), NT6861_DONE);
    expect("its last answer", answers[3], 0x101);
    expect("nt6861_why", nt6861_why(chip, sizeof chip, words, 4, told), NT6861_DONE);
    expect("why V is up", (double)told[0], 2);
    expect("since which word", (double)told[1], 2);
    expect("nt6861_run without places", nt6861_run(chip, sizeof chip, words, 4, NULL, 0), NT6861_TOO_FEW_PLACES);
    expect("nt6861_run", nt6861_run(chip, sizeof chip, words, 4, answers, 4), NT6861_DONE);
    expect("its requests", NT6861_REQUESTS_OF(answers[3]), NT6861_REQUEST_V);
    expect("nt6861_hold", nt6861_hold(chip, sizeof chip), 0);
    expect("nt6861_lines", nt6861_lines(chip, sizeof chip), NT6861_LINE_SDA | NT6861_LINE_SCL);
    expect("nt6861_outcome", nt6861_outcome(chip, sizeof chip), 0);
    expect("nt6861_rate", nt6861_rate(chip, sizeof chip, 0, &hertz), 1);
    expect("nt6861_field_rate", nt6861_field_rate(2000), 62.5);
    expect("nt6861_interval_rate of no latch", nt6861_interval_rate(0), 0);
    expect("nt6861_line_rate", nt6861_line_rate(500, 2000), 31250);
}

static void files(void)
{
    static const char dump[] = "$timescale 1 us $end $var wire 1 ! SCL $end $enddefinitions $end #0 0! #8 1!";
    const uint8_t *file = (const uint8_t *)dump;
    uint8_t block[512];
    uint32_t words[8];
    uint64_t told[2], cursor[8];
    uint16_t change = 0x1800, found[1];
    size_t count = 9;

    memset(block, 0, sizeof block);
    expect("nt6861_edid", nt6861_edid(block, 128), NT6861_EDID_HEADER);
    expect("nt6861_vcd", nt6861_vcd(file, sizeof dump - 1, words, 8, told, 2), NT6861_DONE);
    expect("its words", (double)told[0], 3);
    expect("its last word", words[2], NT6861_PIN(NT6861_PIN_SCL, 1));
    memset(cursor, 0, sizeof cursor);
    expect("nt6861_vcd_more", nt6861_vcd_more(file, sizeof dump - 1, words, 1, cursor, 8, told, 2), NT6861_VCD_NO_ROOM);
    expect("nt6861_vcd_more again", nt6861_vcd_more(file, sizeof dump - 1, words, 8, cursor, 8, told, 2), NT6861_DONE);
    expect("the words left", (double)told[0], 2);
    expect("nt6861_write_block", nt6861_write_block(7, words, 2, block, sizeof block), NT6861_DONE);
    expect("nt6861_read_block of another number", nt6861_read_block(6, block, sizeof block, words, 8, &count), NT6861_BLOCK_NUMBER);
    expect("nt6861_read_block", nt6861_read_block(7, block, sizeof block, words, 8, &count), NT6861_DONE);
    expect("how many it holds", (double)count, 2);
    expect("nt6861_addresses", nt6861_addresses(0x6E, &change, 1, found, 1, &count), NT6861_DONE);
    expect("how many it finds", (double)count, 0);
}

static void machines(void)
{
    static uint8_t rom[24576];
    uint8_t cpu[8] = {0, 0, 0, 0xFF, 4, 0, 0xA0, 0}, ram[256], chip[NT6861_AREA];
    uint64_t event = NT6861_READ(NT6861_HVCON);
    uint32_t answer, counts[2];
    uint16_t counters[12];

    memset(ram, 0, sizeof ram);
    memset(rom, 0xEA, sizeof rom); /* NOP */
    nt6861_fresh(chip, sizeof chip);
    expect("nt6861_firmware of a short image",
           nt6861_firmware(cpu, 8, ram, 256, rom, 1, chip, 128, &event, 1, &answer, 1, 16, counts, 2), NT6861_BAD_IMAGE);
    expect("nt6861_firmware", nt6861_firmware(cpu, 8, ram, 256, rom, sizeof rom, chip, 128, &event, 1, &answer, 1, 16, counts, 2),
           NT6861_DONE);
    expect("instructions counted", counts[0], 16);
    expect("the answer to its event", answer, 0x3C);
    expect("PC", cpu[5], 16);
    expect("nt6862_counters", nt6862_counters(counters, 12, 0, 6862), NT6861_DONE);
    expect("nt6862_field_rate", nt6862_field_rate(counters, 12), 0);
}

int main(void)
{
    the_chip();
    files();
    machines();
    printf("library: %u answers of its calls are as expected\n", asked);
    return 0;
}
