/* The proved calls for programs in C and C++: libnt6861, static and shared (`./nt6861 library` makes both in target/lib, `./nt6861 install
 * PREFIX` installs them).
 *
 * What is lent to a call passes as a pointer and a number of elements.
 *   - A call reads and writes within what is lent to it, whatever it holds and however long it is, and keeps nothing of it. Calls on
 *     different memory may run at the same time.
 *   - With a length of 0 the pointer is not looked at: it may be null. With any other length, and where a call has no length for it
 *     (`hertz`, `count`, `told` of nt6861_why), it must point to that many elements.
 *   - Areas that are lent to one call must not overlap where one of them is written to. Those that are read alone may.
 *   - Pointers to uint16_t, uint32_t, uint64_t, size_t and double must be aligned for their type, as C asks; those to bytes need no alignment.
 *
 * The parts of the library are named below with their calls: a part NAME alone is made by `rt lib` in crates/NAME as out/libNAME.a there, and
 * firmware_capi in crates/firmware_capi_c. */
#ifndef NT6861_H
#define NT6861_H

#include <stddef.h>
#include <stdint.h>

#ifdef __cplusplus
extern "C" {
#endif

/* ---- version: major, minor and patch, each in a byte, of this header, and of the library that is linked (part chip_capi). They agree where the major numbers
 * do and the library's minor number is not below the header's. docs/DECISIONS.md says what a version promises. */
#define NT6861_VERSION 0x010000
uint32_t nt6861_version(void);

/* ---- names: what the numbers of docs/WORDS.md and docs/NUMBERS.md are called here */

/* Registers by address, after the data sheet's names without blanks. */
enum nt6861_register {
    NT6861_PT0 = 0x00, NT6861_PT1 = 0x01, NT6861_PT2DIR = 0x02, NT6861_PT2 = 0x03, NT6861_PT3 = 0x04,
    NT6861_MDCON = 0x05, NT6861_HVCON = 0x06, NT6861_HCNTL = 0x07, NT6861_HCNTH = 0x08, NT6861_VCNTL = 0x09,
    NT6861_VCNTH = 0x0a, NT6861_SYNCON = 0x0b, NT6861_ENDAC = 0x0c, NT6861_AD0 = 0x0d, NT6861_AD1 = 0x0e,
    NT6861_IEX = 0x0f, NT6861_IRQX = 0x10, NT6861_CLRFLG = 0x11, NT6861_CLRWDT = 0x12, NT6861_IIADR = 0x13,
    NT6861_IIDAT = 0x14, NT6861_IISTS = 0x15, NT6861_BT = 0x16, NT6861_BTCON = 0x17, NT6861_DACH0 = 0x18,
    NT6861_DACH1 = 0x19, NT6861_DACH2 = 0x1a, NT6861_DACH3 = 0x1b, NT6861_DACH4 = 0x1c, NT6861_DACH5 = 0x1d,
    NT6861_DACH6 = 0x1e, NT6861_DACH7 = 0x1f, NT6861_DACH8 = 0x20, NT6861_DACH9 = 0x21, NT6861_DACH10 = 0x22,
    NT6861_DACH11 = 0x23, NT6861_DACH12 = 0x24, NT6861_DACH13 = 0x25,
};

/* Pins. P30 is SDA, P31 is SCL. */
enum nt6861_pin {
    NT6861_PIN_P00 = 0, NT6861_PIN_P01 = 1, NT6861_PIN_P02 = 2, NT6861_PIN_P03 = 3, NT6861_PIN_P04 = 4,
    NT6861_PIN_P05 = 5, NT6861_PIN_P06 = 6, NT6861_PIN_P07 = 7, NT6861_PIN_P10 = 8, NT6861_PIN_P11 = 9,
    NT6861_PIN_P12 = 10, NT6861_PIN_P13 = 11, NT6861_PIN_P14 = 12, NT6861_PIN_P15 = 13, NT6861_PIN_P16 = 14,
    NT6861_PIN_P20 = 16, NT6861_PIN_P21 = 17, NT6861_PIN_P22 = 18, NT6861_PIN_P23 = 19, NT6861_PIN_P24 = 20,
    NT6861_PIN_P25 = 21, NT6861_PIN_P26 = 22, NT6861_PIN_P27 = 23, NT6861_PIN_SDA = 24, NT6861_PIN_SCL = 25,
    NT6861_PIN_HSYNCI = 26, NT6861_PIN_VSYNCI = 27, NT6861_PIN_RESET = 28,
};

/* Clocks: of 8 us, the base timer's for TBS 0 and 1, the watchdog's. */
enum nt6861_clock { NT6861_CLOCK_PERIOD = 0, NT6861_CLOCK_BASE0 = 1, NT6861_CLOCK_BASE1 = 2, NT6861_CLOCK_WATCHDOG = 3 };

/* Requests in bits 15 to 8 of an answer, flags of IRQX and enables of IEX: a bit for each source. */
enum nt6861_request {
    NT6861_REQUEST_V = 0x01, NT6861_REQUEST_E = 0x02, NT6861_REQUEST_R = 0x04, NT6861_REQUEST_A = 0x08, NT6861_REQUEST_D = 0x10,
    NT6861_REQUEST_S = 0x20
};

/* Numbers given back; docs/NUMBERS.md says of each call which it gives, in which order, and what they leave. */
enum nt6861_number {
    NT6861_DONE = 0,
    NT6861_NO_EVENT = 1,           /* kind not 1 to 5, or a bit of the zero field */
    NT6861_NO_SUCH_PLACE = 2,      /* no register, pin, clock or polarity has that number */
    NT6861_BAD_BYTE = 3,           /* B is none that the kind takes */
    NT6861_IN_RESET = 4,           /* a read or write while RESET is low */
    NT6861_WRITE_ONLY = 5,         /* a read of a write-only register */
    NT6861_READ_ONLY = 6,          /* a write to a read-only register */
    NT6861_TOO_FEW_PLACES = 7,     /* fewer answer places than words */
    NT6861_ILL_FORMED = 8,         /* the state that is offered is ill formed */
    NT6861_BLOCK_SHORT = 10,       /* recordings: a block of fewer than 512 bytes */
    NT6861_BLOCK_SUM = 11,         /* recordings: not the sum of the first 508 bytes */
    NT6861_BLOCK_NUMBER = 12,      /* recordings: not the block that is due, or a number above 65,535 */
    NT6861_BLOCK_COUNT = 13,       /* recordings: a word count above 126 */
    NT6861_BLOCK_UNUSED = 14,      /* recordings: an unused word is not zero */
    NT6861_BAD_LENGTH = 15,        /* an area of another length */
    NT6861_TOO_MANY_WORDS = 16,    /* recordings: more than 126 words for a block */
    NT6861_BLOCK_AREA = 17,        /* recordings: an area that is not of 512 bytes */
    NT6861_UNDOCUMENTED = 20,      /* firmware: an opcode that is not documented */
    NT6861_NOT_MAPPED = 21,        /* firmware: an access where nothing is mapped, or a write to ROM */
    NT6861_BAD_IMAGE = 22,         /* firmware: the image has another length than 24,576 bytes */
    NT6862_NO_SUCH_CHIP = 23,      /* sync counters: a chip of neither kind asked for */
    NT6861_EDID_LENGTH = 30,       /* EDID: not 128 bytes */
    NT6861_EDID_HEADER = 31,
    NT6861_EDID_VERSION = 32,      /* EDID: neither 1.3 nor 1.4 */
    NT6861_EDID_SUM = 33,
    NT6861_EDID_DIGITAL = 34,      /* EDID 1.3: bits 6 to 1 of a digital byte 20 */
    NT6861_EDID_DEPTH = 35,        /* EDID 1.4: the reserved depth */
    NT6861_EDID_INTERFACE = 36,    /* EDID 1.4: an undefined interface */
    NT6861_VCD_MALFORMED = 40,     /* value change dumps: what the standard does not have */
    NT6861_VCD_TIME_BACK = 41,     /* time goes back */
    NT6861_VCD_VARIABLES = 42,     /* a 33rd variable */
    NT6861_VCD_NO_ROOM = 43,       /* no room for the next word */
    NT6861_VCD_TIME_LARGE = 44     /* a time above 64 bits in ps */
};

/* Event words: the kind in the top byte, then a zero byte, A and B. NT6861_WRITE(NT6861_IEX, NT6861_REQUEST_V) enables V. */
#define NT6861_WORD(kind, a, b) ((uint32_t)(kind) << 24 | (uint32_t)(a) << 8 | (uint32_t)(b))
#define NT6861_READ(reg) NT6861_WORD(1, reg, 0)
#define NT6861_WRITE(reg, byte) NT6861_WORD(2, reg, byte)
#define NT6861_PIN(pin, level) NT6861_WORD(3, pin, level)
#define NT6861_CLOCK(clock) NT6861_WORD(4, clock, 0)
#define NT6861_POLARITY_H(level) NT6861_WORD(5, 0, level)
#define NT6861_POLARITY_V(level) NT6861_WORD(5, 1, level)

/* An answer word, taken apart. */
#define NT6861_NUMBER_OF(answer) ((uint32_t)(answer) >> 24)
#define NT6861_WATCHDOG_RESET(answer) ((uint32_t)(answer) >> 16 & 1)
#define NT6861_REQUESTS_OF(answer) ((uint32_t)(answer) >> 8 & 0x3f)
#define NT6861_BYTE_OF(answer) ((uint32_t)(answer) & 0xff)

/* Bits of nt6861_lines. */
enum nt6861_line { NT6861_LINE_SDA = 1, NT6861_LINE_SCL = 2, NT6861_LINE_PULLS_SDA = 4, NT6861_LINE_PULLS_SCL = 8 };

/* The bytes of a chip. */
#define NT6861_AREA 128

/* ---- the chip: part chip_capi
 *
 * A chip is a state in an area of 128 bytes that the caller lends (docs/STATE.md). It may be copied, stored in a file and lent again;
 * the library keeps nothing. An area of another length answers 15, and one whose bytes are not those of a well formed state 8, both
 * before all else. On every refusal the area keeps its bytes. An area is zeros at first or anything else: nt6861_fresh makes it a
 * chip. */

/* A fresh chip into the area: reset values, all outside levels 1. Gives 0, or 15. */
uint8_t nt6861_fresh(uint8_t *area, size_t length);

/* Gives one event word to the chip. The answer: bits 31..24 the number (0, or 15, 8, 1 to 6), bit 16 a reset by the watchdog, bits
 * 13..8 the requests after it, bits 7..0 the byte of a read; the others are zero. 0F000000 is 15, 08000000 is 8. */
uint32_t nt6861_step(uint8_t *area, size_t length, uint32_t word);

/* Gives `count` words to the chip and writes the answer to each to the place of the same index. Gives 0; or 15, 8, then 7 where there
 * are fewer answer places than words, and writes nothing. Places past the words keep their content. */
uint8_t nt6861_run(uint8_t *area, size_t length, const uint32_t *words, size_t count, uint32_t *answers, size_t places);

/* The same from a fresh chip, which is not kept: gives 0, or 7 and writes nothing. */
uint8_t nt6861_replay(const uint32_t *words, size_t count, uint32_t *answers, size_t places);

/* How long the chip has held SCL low: bits 31..24 the number (0, 15 or 8), below it the clocks of 8 us, 0 to 65535; 0 too where SCL is
 * not held. */
uint32_t nt6861_hold(const uint8_t *area, size_t length);

/* The lines of the bus as the outside and the chip leave them: bits 31..24 the number (0, 15 or 8); below it bit 0 is the level of SDA and
 * bit 1 that of SCL, as PT3 has them, and bits 2 and 3 say that the chip pulls SDA and SCL. With DDC off the lines are P30 and P31, open
 * drain, and a 0 in the latch of PT3 pulls. */
uint32_t nt6861_lines(const uint8_t *area, size_t length);

/* By which of its addresses the chip was called in the transfer under way: bits 31..24 the number (0, 15 or 8), below it 0 none, 1 A0H,
 * 2 II ADR, 3 both. */
uint32_t nt6861_outcome(const uint8_t *area, size_t length);

/* A rate in Hz, `which` being 0 for fields and 1 for lines: gives 0 and writes it to `hertz`. Or writes nothing and gives 1 where
 * nothing is latched, 2 where a counter is in overflow, and in bits 31..24 the number 15, 8, or 2 for another `which`. */
uint32_t nt6861_rate(const uint8_t *area, size_t length, uint32_t which, double *hertz);

/* ---- EDID base blocks: part edid_capi
 *
 * The check of a block before it goes into RAM. Reads `length` bytes at `block`, of any length, and keeps nothing. Gives 0 for an
 * accepted block, else the number of the first rule that it breaks: 30 length (not 128 bytes), 31 header, 32 version not
 * 1 or revision neither 3 nor 4, 33 sum; for revision 3: 34 digital bits of byte 20; for revision 4: 35 reserved depth, 36 undefined
 * interface. */
uint8_t nt6861_edid(const uint8_t *block, size_t length);

/* ---- value change dumps to event words: part vcd_capi */

/* Writes the event words of a dump as far as there are places. Gives 0, or the number of the first refusal, 40 to 44. told has two
 * places: how many words were written, and the place of the refusal (0 where there is none). 15 where told has not two places;
 * then nothing is touched. Places past the words keep their content. */
uint8_t nt6861_vcd(const uint8_t *file, size_t size, uint32_t *words, size_t room, uint64_t *told, size_t told_places);

/* The same from a cursor on: eight numbers, zeros at the beginning. After 43 they are where the next call, with the same file, goes
 * on; else they are zeros again. 15 where the cursor has not eight places or told not two; then nothing is touched. */
uint8_t nt6861_vcd_more(const uint8_t *file, size_t size, uint32_t *words, size_t room, uint64_t *cursor, size_t cursor_places,
                        uint64_t *told, size_t told_places);

/* ---- the sync counters of the NT6861 or the NT6862: part sync6862_capi
 *
 * They are twelve numbers that the caller lends:
 *
 *   0 chip (6861, 6862)    1 HSYNCI    2 VSYNCI    3 HCNT    4 its overflow bit    5 VCNT    6 its overflow bit
 *   7 H latch    8 V latch    9 interval    10 HSEL    11 ENHSEL (0 on the NT6861)
 *
 * nt6862_counters gives a call to the state that the numbers are and writes the state after it in their place:
 *
 *   call 0  a fresh state for the chip that value names, whatever the numbers are
 *   call 1  HSYNCI is value        call 2  VSYNCI is value       call 3  value 8 us clocks
 *   call 4  ENHSEL is value        call 5  HSEL is value         call 6  clear H       call 7  clear V (value 0 for both)
 *
 * It returns 0 where that is done. Else it writes nothing and returns 15 for a length that is not 12; then, for call 0, 23 for a
 * chip that is neither; for each other call 8 for numbers that are no well formed state, 1 for a call above 7, 2 for ENHSEL on the
 * NT6861, 3 for a value outside its range, in that order. */
uint8_t nt6862_counters(uint16_t *state, size_t length, uint32_t call, uint32_t value);

/* The field rate of such numbers in Hz, from 7 to 125000; or 0: nothing latched, -1: VCNT in overflow, -8: numbers that are no well
 * formed state, -15: a length that is not 12. */
double nt6862_field_rate(const uint16_t *state, size_t length);

/* ---- recordings from the capture box: part blocks_capi */

/* Reads the block in the first 512 of the bytes, whose block number must be `number` (65,536 and more is no block's number).
 * Returns 0, writes its words to the start of `words` and how many they are (0 to 126) to `count`; places past them keep their
 * content. Or writes nothing and returns, in this order: 10 fewer than 512 bytes, 11 wrong sum, 12 wrong number, 13 a count above
 * 126, 14 an unused word that is not zero; then 7 where there are fewer places than words. 126 places are always enough. */
uint8_t nt6861_read_block(uint32_t number, const uint8_t *bytes, size_t bytes_length, uint32_t *words, size_t words_length, size_t *count);

/* Writes the block with this number and these words to an area of 512 bytes and returns 0. Or writes nothing and returns 16 where
 * there are over 126 words; else 17 where the area has another length. */
uint8_t nt6861_write_block(uint16_t number, const uint32_t *words, size_t words_length, uint8_t *area, size_t area_length);

/* ---- a plain reading of the bus: part addresses_capi */

/* Lists the addresses in a list of outside changes of SCL and SDA, from both lines 1, for a chip idle in DDC2B with `ii_adr` in II ADR.
 * A change has the line in its upper byte (18H SDA, 19H SCL) and the level in its lower (0, 1). Returns 0, writes each address to the
 * start of `found`, its byte above and its outcome below (0 none, 1 A0H, 2 II ADR, 3 both), and how many they are to `count`; places
 * past them keep their content. The list is read up to the ninth rise of SCL since the START of an address that matched. Or writes
 * nothing and returns, for the first bad change, also past that rise, 2 where its line is neither, 3 where its level is not 0 or 1; else 7
 * where there are fewer places than addresses; `changes_length` / 16 + 1 places are always enough. The time grows at most with the
 * square of the length. */
uint8_t nt6861_addresses(uint8_t ii_adr, const uint16_t *changes, size_t changes_length, uint16_t *found, size_t found_length,
                         size_t *count);

/* ---- why request lines are up (Wish 3): part why_capi
 *
 * Gives the words to the state in an area of 128 bytes (docs/STATE.md), which stays as it is, and tells of each source why its request
 * line is as it is after them. told has twelve places, two for each of V, E, R, A, D, S in this order: a code, and the place of a word,
 * from 0 (0 where the code names no event).
 *
 *   0 not requested        1 flag set at the start and never cleared
 *   the event by which the flag last went up:       2 Vsync rise   3 P16 rise   4 timer
 *   5, 6, 7 matched address: A0H, II ADR, both      8 ninth clock  9 DDC1 load  10 SCL fall
 *
 * Returns 0. Or tells nothing and returns 15 for an area of another length, else 8 where its bytes are not those of a well formed state. */
uint8_t nt6861_why(const uint8_t *area, size_t area_length, const uint32_t *words, size_t count, uint64_t told[12]);

/* ---- firmware (Wish 5): part firmware_capi
 *
 * Runs `instructions` instructions of a 6502 over the chip in an area of 128 bytes (docs/STATE.md). cpu has eight bytes: A, X, Y, S, P,
 * PC (low byte first), and the cycles since the last 8 us clock (0 to 31); of P bits 5 and 4 count for nothing and come back as 0. ram has
 * 256 bytes, rom 24,576. An event has in bits 63..32 the number of the instruction that it precedes, counted from 0, and below them its word; its
 * answer goes to the place of the same index. counts has two places: instructions counted, and events given (modulo 2^32).
 *
 * Returns 0: cpu, ram and area are as after the last instruction, and answers and counts tell what was given. Or returns the number of
 * the refusal of an instruction (5, 6, 20, 21): they are then as that instruction's events and interrupt left them. Or nothing is touched, by the first of these that holds: 15
 * for a wrong length of cpu, ram, area or counts; 8 where the area is not that of a well formed state or the cycles are above 31; 22
 * where rom has another length; 7 for fewer answer places than events. At power up cpu is 0, 0, 0, FF, 04, the bytes at FFFC and FFFD,
 * 0, and ram zeros; examples/firmware.c runs an image from there. */
uint8_t nt6861_firmware(uint8_t *cpu, size_t cpu_length, uint8_t *ram, size_t ram_length, const uint8_t *rom, size_t rom_length,
                        uint8_t *area, size_t area_length, const uint64_t *events, size_t events_length, uint32_t *answers,
                        size_t answers_length, uint32_t instructions, uint32_t *counts, size_t counts_length);

/* ---- rates of latches: part rates_capi
 *
 * The rates in hertz by the latches alone, as document 01 has them; 0 where there is none (a latch of 0, or above 4095). v is the latch
 * of VCNT, h that of HCNT: the field rate, the line rate at HSEL 0, and the line rate at HSEL 1. */
double nt6861_field_rate(uint16_t v);
double nt6861_interval_rate(uint16_t h);
double nt6861_line_rate(uint16_t h, uint16_t v);

#ifdef __cplusplus
}
#endif

#endif
