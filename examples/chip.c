/* A chip that a program keeps: it is made, stepped, stored in a file, read back and stepped on. Usage: chip FILE
 *
 *   ./nt6861 library && cc -Iinclude -o target/chip examples/chip.c target/lib/libnt6861.a
 */
#include <stdio.h>

#include "nt6861.h"

static void told(const char *what, const uint8_t *chip)
{
    printf("%s: hold %08X, outcome %08X\n", what, nt6861_hold(chip, NT6861_AREA), nt6861_outcome(chip, NT6861_AREA));
}

int main(int count, char **given)
{
    uint8_t chip[NT6861_AREA], back[NT6861_AREA];
    uint32_t words[64], answers[64];
    double hertz = 0.0;
    size_t n = 0;
    unsigned number;
    FILE *file;
    int bit;

    if (count != 2 || nt6861_fresh(chip, sizeof chip) != NT6861_DONE)
        return 2;

    /* every request enabled, DDC2B on, START, address A0H, the acknowledge: the chip holds SCL */
    words[n++] = NT6861_WRITE(NT6861_IEX, 0x3F);
    words[n++] = NT6861_WRITE(NT6861_MDCON, 0);
    words[n++] = NT6861_WRITE(NT6861_IISTS, 0);
    words[n++] = NT6861_PIN(NT6861_PIN_SDA, 0);
    for (bit = 7; bit >= 0; bit--) {
        words[n++] = NT6861_PIN(NT6861_PIN_SCL, 0);
        words[n++] = NT6861_PIN(NT6861_PIN_SDA, 0xA0 >> bit & 1);
        words[n++] = NT6861_PIN(NT6861_PIN_SCL, 1);
    }
    words[n++] = NT6861_PIN(NT6861_PIN_SCL, 0);
    words[n++] = NT6861_PIN(NT6861_PIN_SCL, 1);
    words[n++] = NT6861_PIN(NT6861_PIN_SCL, 0);
    number = nt6861_run(chip, sizeof chip, words, n, answers, 64);
    printf("run: %u, last answer %08X\n", number, answers[n - 1]);
    told("addressed", chip);

    file = fopen(given[1], "wb");
    if (!file || fwrite(chip, 1, sizeof chip, file) != sizeof chip || fclose(file) != 0)
        return 2;
    file = fopen(given[1], "rb");
    if (!file || fread(back, 1, sizeof back, file) != sizeof back || fclose(file) != 0)
        return 2;

    /* the chip from the file goes on: two clocks of 8 us, then II DAT lets go */
    printf("step: %08X\n", nt6861_step(back, sizeof back, NT6861_CLOCK(NT6861_CLOCK_PERIOD)));
    printf("step: %08X\n", nt6861_step(back, sizeof back, NT6861_CLOCK(NT6861_CLOCK_PERIOD)));
    told("two clocks later", back);
    printf("step: %08X\n", nt6861_step(back, sizeof back, NT6861_WRITE(NT6861_IIDAT, 0)));
    told("let go", back);
    printf("field rate: %08X\n", nt6861_rate(back, sizeof back, 0, &hertz));

    /* refusals: a short area, a spare byte that is not zero */
    printf("short area: %08X\n", nt6861_step(back, 127, NT6861_CLOCK(NT6861_CLOCK_PERIOD)));
    back[40] = 1;
    printf("spare byte: %08X\n", nt6861_step(back, sizeof back, NT6861_CLOCK(NT6861_CLOCK_PERIOD)));
    return 0;
}
