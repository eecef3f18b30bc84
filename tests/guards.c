/* Every call on memory between pages that cannot be read or written: whatever is lent, a call stays within it; what it only reads is unchanged, and where
 * a call says that it writes nothing, nothing is written. Byte areas begin at any address.
 *
 *   guards SEED ROUNDS     prints how many calls were made; a call that leaves its memory ends the program with status 1
 *   guards beyond          lends one byte less than it says: must end so
 */
#define _DEFAULT_SOURCE
#include <signal.h>
#include <stdio.h>
#include <stdlib.h>
#include <string.h>
#include <sys/mman.h>
#include <unistd.h>

#include "nt6861.h"

enum { PAGE = 4096, SLOTS = 8, SLOT_BYTES = 16 * PAGE };

static uint64_t state;
static const char *call = "none";
static unsigned long calls, refusals;

/* xorshift64* */
static uint32_t any(void)
{
    state ^= state >> 12;
    state ^= state << 25;
    state ^= state >> 27;
    return (uint32_t)(state * 0x2545F4914F6CDD1Du >> 32);
}

static uint32_t below(uint32_t n)
{
    return any() % n;
}

static void wrong(const char *what)
{
    printf("guards: %s: %s\n", call, what);
    exit(1);
}

static void caught(int number)
{
    static const char text[] = "guards: a call left its memory: ";

    (void)number;
    if (write(1, text, sizeof text - 1) < 0 || write(1, call, strlen(call)) < 0 || write(1, "\n", 1) < 0)
        _exit(2);
    _exit(1);
}

/* ---- what is lent */
struct lent {
    uint8_t *start;
    size_t count, bytes;
    uint8_t kept[SLOT_BYTES];
};

static uint8_t *slots[SLOTS];
static struct lent lents[SLOTS];
static int lent_now;

/* that many elements, at the end of the slot or at its beginning; none may have any pointer */
static struct lent *lend(size_t count, size_t size)
{
    struct lent *one = &lents[lent_now];
    uint8_t *slot = slots[lent_now++];

    one->count = count;
    one->bytes = count * size;
    if (one->bytes > SLOT_BYTES)
        wrong("the test lends too much");
    one->start = below(3) ? slot + SLOT_BYTES - one->bytes : slot;
    if (count == 0 && below(2))
        one->start = NULL;
    for (size_t i = 0; i < one->bytes; i++)
        one->start[i] = (uint8_t)any();
    return one;
}

static void fill(struct lent *one, const void *from, size_t bytes)
{
    if (bytes > one->bytes)
        bytes = one->bytes;
    if (bytes > 0)
        memcpy(one->start, from, bytes);
}

static void keep(void)
{
    for (int i = 0; i < lent_now; i++)
        if (lents[i].bytes > 0)
            memcpy(lents[i].kept, lents[i].start, lents[i].bytes);
}

static void unchanged(const struct lent *one)
{
    if (one->bytes > 0 && memcmp(one->kept, one->start, one->bytes) != 0)
        wrong("memory that is not to be written is changed");
}

/* where nothing is written, all of it is as it was */
static void refused(int is)
{
    calls++;
    if (!is)
        return;
    refusals++;
    for (int i = 0; i < lent_now; i++)
        unchanged(&lents[i]);
}

/* ---- inputs: often good, at times anything */
static size_t about(size_t right)
{
    switch (below(8)) {
    case 0:
        return below(2 * (uint32_t)right + 2);
    case 1:
        return right ? right - 1 : 0;
    case 2:
        return right + 1;
    default:
        return right;
    }
}

static uint32_t any_word(void)
{
    static const uint32_t kinds[] = {1, 2, 3, 3, 3, 4};
    uint32_t kind = kinds[below(6)];

    if (below(20) == 0)
        return any();
    switch (kind) {
    case 1:
        return NT6861_READ(below(40));
    case 2:
        return NT6861_WRITE(below(40), any() & 255);
    case 3:
        return below(2) ? NT6861_PIN(24 + below(4), below(2)) : NT6861_PIN(below(30), below(2));
    default:
        return NT6861_CLOCK(below(5));
    }
}

static struct lent *words_of(size_t count)
{
    struct lent *one = lend(count, 4);

    for (size_t i = 0; i < count; i++)
        ((uint32_t *)(void *)one->start)[i] = any_word();
    return one;
}

static struct lent *area(void)
{
    static uint8_t chip[NT6861_AREA];
    static int begun;
    struct lent *one = lend(about(NT6861_AREA), 1);

    if (!begun || below(500) == 0)
        begun = nt6861_fresh(chip, sizeof chip) == 0;
    for (uint32_t i = below(20); i > 0; i--)
        nt6861_step(chip, sizeof chip, any_word());
    if (below(10))
        fill(one, chip, sizeof chip);
    if (one->bytes && below(10) == 0)
        one->start[below((uint32_t)one->bytes)] ^= (uint8_t)(1u << below(8));
    return one;
}

#define WORDS(one) ((uint32_t *)(void *)(one)->start)
#define HALVES(one) ((uint16_t *)(void *)(one)->start)
#define LONGS(one) ((uint64_t *)(void *)(one)->start)

static void try_chip(void)
{
    struct lent *chip = area(), *words, *answers;
    uint32_t number;

    call = "nt6861_step";
    keep();
    refused(nt6861_step(chip->start, chip->bytes, any_word()) >> 24 != 0);
    call = "nt6861_hold, nt6861_lines and nt6861_outcome";
    keep();
    (void)nt6861_hold(chip->start, chip->bytes);
    (void)nt6861_lines(chip->start, chip->bytes);
    (void)nt6861_outcome(chip->start, chip->bytes);
    refused(1);
    call = "nt6861_rate";
    words = lend(1, 8);
    keep();
    number = nt6861_rate(chip->start, chip->bytes, below(3), (double *)(void *)words->start);
    unchanged(chip);
    refused(number != 0);
    lent_now--;
    call = "nt6861_run";
    words = words_of(below(300));
    answers = lend(about(words->count), 4);
    keep();
    number = nt6861_run(chip->start, chip->bytes, WORDS(words), words->count, WORDS(answers), answers->count);
    unchanged(words);
    refused(number != 0);
    call = "nt6861_replay";
    keep();
    number = nt6861_replay(WORDS(words), words->count, WORDS(answers), answers->count);
    unchanged(words);
    unchanged(chip);
    refused(number != 0);
    call = "nt6861_why";
    lent_now--;
    answers = lend(12, 8);
    keep();
    number = nt6861_why(chip->start, chip->bytes, WORDS(words), words->count, LONGS(answers));
    unchanged(words);
    unchanged(chip);
    refused(number != 0);
    call = "nt6861_fresh";
    keep();
    refused(nt6861_fresh(chip->start, chip->bytes) != 0);
}

static void try_edid(void)
{
    static const uint8_t header[20] = {0, 255, 255, 255, 255, 255, 255, 0, 1, 2, 3, 4, 5, 6, 7, 8, 9, 10, 1, 3};
    struct lent *block = lend(about(128), 1);

    call = "nt6861_edid";
    if (below(3))
        fill(block, header, sizeof header);
    keep();
    (void)nt6861_edid(block->start, block->bytes);
    refused(1);
}

static void try_vcd(void)
{
    static const char *const parts[] = {"#0 ", "#8\n", "#16 ", "#999 ", "0! ", "1! ", "x! ", "z\"\n", "1\" ", "b01 # ", "r1.5 # ", "$dumpvars ", "$end ",
                                        "$comment a b $end ", "#18446744073709551616 ", "q", "$var wire 1 ' VSYNCI $end "};
    static const char head[] = "$timescale 1 us $end $var wire 1 ! SCL $end $var wire 1 \" SDA $end $var wire 2 # W $end $enddefinitions $end ";
    char text[4096];
    size_t length = 0;
    struct lent *file, *words, *told, *cursor;
    uint8_t number;

    if (below(8)) {
        memcpy(text, head, length = sizeof head - 1);
        for (uint32_t i = below(100); i > 0; i--) {
            const char *part = parts[below(below(4) ? 10 : sizeof parts / sizeof *parts)];
            memcpy(text + length, part, strlen(part));
            length += strlen(part);
        }
        if (below(4) == 0)
            length = below((uint32_t)length + 1);
    } else {
        length = below(200);
        for (size_t i = 0; i < length; i++)
            text[i] = (char)any();
    }
    file = lend(length, 1);
    fill(file, text, length);
    words = lend(below(200), 4);
    told = lend(below(20) ? 2 : below(5), 8);
    call = "nt6861_vcd";
    keep();
    number = nt6861_vcd(file->start, file->bytes, WORDS(words), words->count, LONGS(told), told->count);
    unchanged(file);
    refused(number == NT6861_BAD_LENGTH);
    cursor = lend(below(20) ? 8 : below(12), 8);
    if (below(3) && cursor->bytes)
        memset(cursor->start, 0, cursor->bytes);
    call = "nt6861_vcd_more";
    for (int piece = 0; piece < 4; piece++) {
        keep();
        number = nt6861_vcd_more(file->start, file->bytes, WORDS(words), words->count, LONGS(cursor), cursor->count, LONGS(told), told->count);
        unchanged(file);
        refused(number == NT6861_BAD_LENGTH);
    }
}

static void try_counters(void)
{
    struct lent *counters = lend(about(12), 2);

    call = "nt6862_counters";
    for (int i = 0; i < 40; i++) {
        uint32_t which = i == 0 && below(4) ? 0 : below(9);
        uint32_t value = below(3) ? below(2) : below(2) ? 6861 + below(3) : any();

        /* clocks are counted one by one */
        keep();
        refused(nt6862_counters(HALVES(counters), counters->count, which, which == 3 ? value % 5000 : value) != 0);
    }
    call = "nt6862_field_rate";
    keep();
    (void)nt6862_field_rate(HALVES(counters), counters->count);
    refused(1);
    (void)nt6861_field_rate((uint16_t)any());
    (void)nt6861_interval_rate((uint16_t)any());
    (void)nt6861_line_rate((uint16_t)any(), (uint16_t)any());
}

static void try_blocks(void)
{
    struct lent *words = words_of(below(130)), *block = lend(about(512), 1), *count, *back;
    uint32_t number = below(4) ? below(65536) : any();

    call = "nt6861_write_block";
    keep();
    refused(nt6861_write_block((uint16_t)number, WORDS(words), words->count, block->start, block->bytes) != 0);
    if (block->bytes && below(3) == 0)
        block->start[below((uint32_t)block->bytes)] ^= (uint8_t)(1u << below(8));
    back = lend(about(words->count), 4);
    count = lend(1, sizeof(size_t));
    call = "nt6861_read_block";
    keep();
    refused(nt6861_read_block(number, block->start, block->bytes, WORDS(back), back->count, (size_t *)(void *)count->start) != 0);
    unchanged(block);
}

static void try_addresses(void)
{
    struct lent *changes = lend(below(300), 2), *found, *count;

    for (size_t i = 0; i < changes->count; i++)
        HALVES(changes)[i] = below(2000) ? (uint16_t)((24 + (below(3) > 0)) << 8 | below(2)) : (uint16_t)any();
    found = lend(about(changes->count / 16 + 1), 2);
    count = lend(1, sizeof(size_t));
    call = "nt6861_addresses";
    keep();
    refused(nt6861_addresses((uint8_t)any(), HALVES(changes), changes->count, HALVES(found), found->count, (size_t *)(void *)count->start) != 0);
    unchanged(changes);
}

static void try_firmware(void)
{
    struct lent *cpu = lend(about(8), 1), *ram = lend(about(256), 1), *rom = lend(below(16) ? 24576 : below(24578), 1), *chip = area(), *events = lend(below(30), 8), *answers, *counts;
    uint32_t number, at = 0;

    if (cpu->bytes > 7) {
        cpu->start[6] = (uint8_t)(0xA0 + below(96));
        cpu->start[7] = (uint8_t)below(33);
    }
    if (below(2) && rom->bytes)
        memset(rom->start, 0xEA, rom->bytes);
    for (size_t i = 0; i < events->count; i++)
        LONGS(events)[i] = (uint64_t)(at += below(10)) << 32 | any_word();
    answers = lend(about(events->count), 4);
    counts = lend(about(2), 4);
    call = "nt6861_firmware";
    keep();
    number = nt6861_firmware(cpu->start, cpu->bytes, ram->start, ram->bytes, rom->start, rom->bytes, chip->start, chip->bytes, LONGS(events), events->count, WORDS(answers), answers->count,
                             below(300), WORDS(counts), counts->count);
    unchanged(rom);
    unchanged(events);
    refused(number == NT6861_BAD_LENGTH || number == NT6861_ILL_FORMED || number == NT6861_BAD_IMAGE || number == NT6861_TOO_FEW_PLACES);
}

int main(int count, char **given)
{
    static void (*const tries[])(void) = {try_chip, try_edid, try_vcd, try_counters, try_blocks, try_addresses, try_firmware};
    struct sigaction on;
    unsigned long rounds;

    memset(&on, 0, sizeof on);
    on.sa_handler = caught;
    sigaction(SIGSEGV, &on, NULL);
    sigaction(SIGBUS, &on, NULL);
    for (int i = 0; i < SLOTS; i++) {
        uint8_t *map = (uint8_t *)mmap(NULL, SLOT_BYTES + 2 * PAGE, PROT_NONE, MAP_PRIVATE | MAP_ANONYMOUS, -1, 0);
        if (map == (uint8_t *)MAP_FAILED || mprotect(map + PAGE, SLOT_BYTES, PROT_READ | PROT_WRITE) != 0)
            return 2;
        slots[i] = map + PAGE;
    }
    if (count == 2 && strcmp(given[1], "beyond") == 0) {
        call = "nt6861_hold";
        memset(slots[0], 0, SLOT_BYTES);
        return (int)(nt6861_hold(slots[0] + SLOT_BYTES - 127, 128) & 0);
    }
    if (count != 3)
        return 2;
    state = strtoull(given[1], NULL, 10) * 2 + 1;
    rounds = strtoul(given[2], NULL, 10);
    for (unsigned long round = 0; round < rounds; round++) {
        lent_now = 0;
        tries[round % (sizeof tries / sizeof *tries)]();
    }
    printf("guards: %lu calls stayed within what was lent, and %lu that write nothing wrote nothing\n", calls, refusals);
    return 0;
}
