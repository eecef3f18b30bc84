//! Hand-worked cases for each sentence of Wish 5.

use crate::chip::{flag, pin, Chip};
use crate::core6502::{p, run, run_watched, Cpu, Listed, Told, Watch, RAM_SIZE, ROM_SIZE};
use crate::opcodes::{Mode, Op, TABLE};
use crate::programs::{self, Random};

/// A machine with NOPs in ROM, reset to A000H, interrupts to C000H.
#[derive(Clone)]
struct Rig {
    cpu: Cpu,
    ram: [u8; RAM_SIZE],
    rom: Vec<u8>,
    chip: Chip,
    answers: Vec<u32>,
}

const UNTOUCHED: u32 = 0xDEAD_BEEF;

impl Rig {
    fn new(code: &[u8]) -> Rig {
        let mut rig = Rig {
            cpu: Cpu {
                s: 0xFF,
                p: p::I,
                pc: 0xA000,
                ..Cpu::default()
            },
            ram: [0; RAM_SIZE],
            rom: vec![0xEA; ROM_SIZE],
            chip: Chip::fresh(),
            answers: vec![UNTOUCHED; 8],
        };
        rig.rom(0xFFFC, &[0x00, 0xA0, 0x00, 0xC0]);
        rig.rom(0xA000, code);
        rig
    }

    fn rom(&mut self, address: u16, bytes: &[u8]) {
        let place = address as usize - 0xA000;
        self.rom[place..place + bytes.len()].copy_from_slice(bytes);
    }

    /// Into RAM by the CPU's addresses.
    fn put(&mut self, address: u16, bytes: &[u8]) {
        for (place, byte) in bytes.iter().enumerate() {
            self.ram[address as usize - 0x80 + place] = *byte;
        }
    }

    fn at(&self, address: u16) -> u8 {
        self.ram[address as usize - 0x80]
    }

    fn run(&mut self, instructions: u32) -> Told {
        self.with(&[], instructions)
    }

    fn with(&mut self, events: &[(u32, u32)], instructions: u32) -> Told {
        let events: Vec<Listed> = events
            .iter()
            .map(|&(number, word)| Listed { number, word })
            .collect();
        run(
            &mut self.cpu,
            &mut self.ram,
            &self.rom,
            &mut self.chip,
            &events,
            &mut self.answers,
            instructions,
        )
    }

    /// Runs so many instructions, none of them refused.
    fn done(&mut self, instructions: u32) {
        let told = self.run(instructions);
        assert_eq!((told.number, told.counted), (0, instructions));
    }

    /// The accesses of one instruction, `r` or `w` with address and byte.
    fn accesses(&mut self) -> Vec<(char, u16, u8)> {
        let (told, watch) = run_watched(
            &mut self.cpu,
            &mut self.ram,
            &self.rom,
            &mut self.chip,
            &[],
            &mut [],
            1,
            Accesses::default(),
        );
        assert_eq!(told.number, 0);
        watch.0
    }

    fn state(&self) -> (Cpu, [u8; RAM_SIZE], Chip) {
        (self.cpu, self.ram, self.chip)
    }
}

#[derive(Default, PartialEq, Debug)]
struct Accesses(Vec<(char, u16, u8)>);

impl Watch for Accesses {
    fn read(&mut self, address: u16, byte: u8) {
        self.0.push(('r', address, byte));
    }

    fn written(&mut self, address: u16, byte: u8) {
        self.0.push(('w', address, byte));
    }
}

fn write(register: u8, byte: u8) -> u32 {
    u32::from_be_bytes([2, 0, register, byte])
}

fn level(pin: u8, level: u8) -> u32 {
    u32::from_be_bytes([3, 0, pin, level])
}

const CLOCK: u32 = 0x0400_0000;
const WATCHDOG: u32 = 0x0400_0300;

// The table.

/// Base cycles by opcode, a row for each upper digit, as an opcode matrix prints them.
const CYCLES: [&str; 16] = [
    "76...35.322..46.", // ORA, ASL
    "25...46.24...47.",
    "66..335.422.446.", // AND, ROL
    "25...46.24...47.",
    "66...35.322.346.", // EOR, LSR
    "25...46.24...47.",
    "66...35.422.546.", // ADC, ROR
    "25...46.24...47.",
    ".6..333.2.2.444.", // STA
    "26..444.252..5..",
    "262.333.222.444.", // LDA
    "25..444.242.444.",
    "26..335.222.446.", // CMP, DEC
    "25...46.24...47.",
    "26..335.222.446.", // SBC, INC
    "25...46.24...47.",
];

/// Lengths likewise.
const LENGTHS: [&str; 16] = [
    "12...22.121..33.",
    "22...22.13...33.",
    "32..222.121.333.",
    "22...22.13...33.",
    "12...22.121.333.",
    "22...22.13...33.",
    "12...22.121.333.",
    "22...22.13...33.",
    ".2..222.1.1.333.",
    "22..222.131..3..",
    "222.222.121.333.",
    "22..222.131.333.",
    "22..222.121.333.",
    "22...22.13...33.",
    "22..222.121.333.",
    "22...22.13...33.",
];

#[test]
fn table_of_256() {
    let digit = |rows: &[&str; 16], opcode: usize| match rows[opcode / 16].as_bytes()[opcode % 16] {
        b'.' => 0,
        digit => digit - b'0',
    };
    let mut documented = 0;
    for (opcode, row) in TABLE.iter().enumerate() {
        assert_eq!(row.cycles, digit(&CYCLES, opcode), "{opcode:02X}");
        assert_eq!(row.length, digit(&LENGTHS, opcode), "{opcode:02X}");
        assert_eq!(row.length, row.mode.length(), "{opcode:02X}");
        assert_eq!(row.mode == Mode::Undocumented, row.op == Op::Unknown);
        assert_eq!(row.mode == Mode::Undocumented, row.cycles == 0);
        documented += usize::from(row.op != Op::Unknown);
    }
    assert_eq!(documented, 151);
}

#[test]
fn modes_of_some_opcodes() {
    for (opcode, op, mode) in [
        (0x00, Op::Brk, Mode::Implied),
        (0x20, Op::Jsr, Mode::Absolute),
        (0x4C, Op::Jmp, Mode::Absolute),
        (0x6C, Op::Jmp, Mode::Indirect),
        (0x0A, Op::Asl, Mode::Accumulator),
        (0x96, Op::Stx, Mode::ZeroPageY),
        (0xB6, Op::Ldx, Mode::ZeroPageY),
        (0xBE, Op::Ldx, Mode::AbsoluteY),
        (0xBC, Op::Ldy, Mode::AbsoluteX),
        (0x81, Op::Sta, Mode::IndexedIndirect),
        (0x91, Op::Sta, Mode::IndirectIndexed),
        (0x90, Op::Bcc, Mode::Relative),
        (0x89, Op::Unknown, Mode::Undocumented),
    ] {
        let row = TABLE[opcode];
        assert_eq!((row.op, row.mode), (op, mode), "{opcode:02X}");
    }
}

// Memory.

#[test]
fn reads_by_address() {
    let mut rig = Rig::new(&[]);
    rig.ram = std::array::from_fn(|place| place as u8 ^ 0x5A);
    for address in 0..=0xFFFFu16 {
        let [high, low] = address.to_be_bytes();
        rig.rom(0xA000, &[0xAD, low, high]);
        rig.cpu.pc = 0xA000;
        let told = rig.run(1);
        let number = match address {
            0x0000..=0x0025 => match rig.chip.read(low) {
                Some(_) => 0,
                None => 5,
            },
            0x0080..=0x01FF | 0xA000..=0xFFFF => 0,
            _ => 21,
        };
        assert_eq!(told.number, number, "{address:04X}");
        if number == 0 {
            let byte = match address {
                0x0000..=0x0025 => rig.chip.read(low).unwrap(),
                0x0080..=0x017F => rig.ram[address as usize - 0x80],
                0x0180..=0x01FF => rig.ram[address as usize - 0x180],
                _ => rig.rom[address as usize - 0xA000],
            };
            assert_eq!(rig.cpu.a, byte, "{address:04X}");
        }
    }
}

#[test]
fn writes_by_address() {
    let mut rig = Rig::new(&[]);
    rig.cpu.a = 0x77;
    for address in 0..=0xFFFFu16 {
        let [high, low] = address.to_be_bytes();
        rig.rom(0xA000, &[0x8D, low, high]);
        // So that no clock moves the chip.
        (rig.cpu.pc, rig.cpu.over) = (0xA000, 0);
        let mut chip = rig.chip;
        let mut ram = rig.ram;
        let number = match address {
            0x0000..=0x0025 => chip.write(low, 0x77).err().unwrap_or(0),
            0x0080..=0x017F => {
                ram[address as usize - 0x80] = 0x77;
                0
            }
            0x0180..=0x01FF => {
                ram[address as usize - 0x180] = 0x77;
                0
            }
            _ => 21,
        };
        assert_eq!(rig.run(1).number, number, "{address:04X}");
        assert_eq!(rig.ram, ram, "{address:04X}");
        assert_eq!(rig.chip, chip, "{address:04X}");
    }
}

#[test]
fn mirror_in_fetches_and_stack() {
    // LDA #42H at 0180H is that at 0080H.
    let mut rig = Rig::new(&[]);
    rig.put(0x80, &[0xA9, 0x42]);
    rig.cpu.pc = 0x0180;
    rig.done(1);
    assert_eq!((rig.cpu.a, rig.cpu.pc), (0x42, 0x0182));
    // The stack from FFH down is 00FFH down; below 80H it is 017FH down.
    let mut rig = Rig::new(&[0x48, 0x48]);
    rig.cpu.a = 0x99;
    rig.cpu.s = 0x80;
    rig.done(2);
    assert_eq!((rig.at(0x80), rig.at(0x17F), rig.cpu.s), (0x99, 0x99, 0x7E));
}

#[test]
fn fetches_from_registers() {
    // PT0 holds the opcode of TAX, PT1 is read next: 7FH, undocumented.
    let mut rig = Rig::new(&[]);
    rig.chip.write(0x00, 0xAA).unwrap();
    rig.cpu.pc = 0x0000;
    let told = rig.run(9);
    assert_eq!((told.number, told.counted, rig.cpu.pc), (20, 1, 1));
    // 0002H is PT2DIR, which only takes writes.
    rig.cpu.pc = 0x0002;
    assert_eq!(rig.run(1).number, 5);
    // An instruction may run off the end into registers: 4CH at FFFFH, then PT0 and PT1.
    let mut rig = Rig::new(&[]);
    rig.rom(0xFFFF, &[0x4C]);
    rig.chip.write(0x00, 0x34).unwrap();
    rig.chip.write(0x01, 0x12).unwrap();
    rig.cpu.pc = 0xFFFF;
    rig.done(1);
    assert_eq!(rig.cpu.pc, 0x5234);
    assert_eq!(rig.run(1).number, 21);
}

// Addressing.

#[test]
fn zero_page_wraps() {
    // LDA F0H,X with X = 90H reads 0080H.
    let mut rig = Rig::new(&[0xB5, 0xF0, 0xB6, 0xF1]);
    rig.put(0x80, &[0x11, 0x22]);
    rig.cpu.x = 0x90;
    rig.cpu.y = 0x90;
    rig.done(2);
    assert_eq!((rig.cpu.a, rig.cpu.x), (0x11, 0x22));
    // (FFH) takes its high byte from 00H, which is PT0; (7FH,X) likewise.
    let mut rig = Rig::new(&[0xB1, 0xFF, 0xA1, 0x7F]);
    rig.put(0xFF, &[0x34]);
    rig.chip.write(0x00, 0xA0).unwrap();
    rig.rom(0xA034, &[0x56, 0x57]);
    rig.cpu.x = 0x80;
    rig.cpu.y = 0x01;
    rig.done(1);
    assert_eq!(rig.cpu.a, 0x57);
    rig.done(1);
    assert_eq!(rig.cpu.a, 0x56);
}

#[test]
fn indexed_addresses_wrap_in_16_bits() {
    // FFFFH,Y with Y = 85H is 0084H.
    let mut rig = Rig::new(&[0xB9, 0xFF, 0xFF]);
    rig.put(0x84, &[0x3C]);
    rig.cpu.y = 0x85;
    rig.done(1);
    assert_eq!((rig.cpu.a, rig.cpu.over), (0x3C, 5));
}

#[test]
fn jmp_indirect_stays_in_its_page() {
    let mut rig = Rig::new(&[0x6C, 0xFF, 0xB0]);
    rig.rom(0xB0FF, &[0x21]);
    rig.rom(0xB000, &[0xD4]);
    rig.rom(0xB100, &[0xD5]);
    rig.done(1);
    assert_eq!((rig.cpu.pc, rig.cpu.over), (0xD421, 5));
}

#[test]
fn accesses_and_no_others() {
    // LDA A0F0H,X over a page: opcode, two operand bytes, the byte.
    let mut rig = Rig::new(&[0xBD, 0xF0, 0xA0]);
    rig.cpu.x = 0x20;
    assert_eq!(
        rig.accesses(),
        [
            ('r', 0xA000, 0xBD),
            ('r', 0xA001, 0xF0),
            ('r', 0xA002, 0xA0),
            ('r', 0xA110, 0xEA)
        ]
    );
    // INC 90H: one read, one write.
    let mut rig = Rig::new(&[0xE6, 0x90]);
    rig.put(0x90, &[0x7F]);
    assert_eq!(
        rig.accesses(),
        [
            ('r', 0xA000, 0xE6),
            ('r', 0xA001, 0x90),
            ('r', 0x0090, 0x7F),
            ('w', 0x0090, 0x80)
        ]
    );
    // A store over a page reads nothing on its way, PHA and PLA only the opcode and the stack.
    let mut rig = Rig::new(&[0x9D, 0xF0, 0x00]);
    rig.cpu.x = 0x20;
    assert_eq!(rig.accesses().len(), 4);
    let mut rig = Rig::new(&[0x48, 0x68]);
    assert_eq!(rig.accesses(), [('r', 0xA000, 0x48), ('w', 0x01FF, 0)]);
    assert_eq!(rig.accesses(), [('r', 0xA001, 0x68), ('r', 0x01FF, 0)]);
    // BRK does not fetch the byte behind it.
    let mut rig = Rig::new(&[0x00, 0x12]);
    assert_eq!(
        rig.accesses(),
        [
            ('r', 0xA000, 0x00),
            ('w', 0x01FF, 0xA0),
            ('w', 0x01FE, 0x02),
            ('w', 0x01FD, 0x34),
            ('r', 0xFFFE, 0x00),
            ('r', 0xFFFF, 0xC0)
        ]
    );
    // BCC not taken fetches its offset.
    let mut rig = Rig::new(&[0x90, 0x12]);
    rig.cpu.p |= p::C;
    assert_eq!(rig.accesses(), [('r', 0xA000, 0x90), ('r', 0xA001, 0x12)]);
}

#[test]
fn brk_at_the_end_of_what_is_mapped() {
    // The byte behind is not mapped, and it is not fetched.
    let mut rig = Rig::new(&[]);
    rig.put(0xFF, &[0x00]);
    rig.cpu.pc = 0x01FF;
    rig.cpu.s = 0x7F;
    rig.done(1);
    assert_eq!(
        (rig.cpu.pc, rig.at(0x17F), rig.at(0x17E)),
        (0xC000, 0x02, 0x01)
    );
}

// Cycles.

#[test]
fn crossed_pages() {
    // Code, X or Y, cycles; the pointer at 90H is A0F0H.
    for (code, index, cycles) in [
        ([0xBD, 0x00, 0xA1], 0xFF, 4),
        ([0xBD, 0x01, 0xA1], 0xFF, 5),
        ([0xB9, 0xFF, 0xA1], 0x01, 5),
        ([0xBE, 0xFF, 0xA1], 0x01, 5),
        ([0xBC, 0xFF, 0xA1], 0x01, 5),
        ([0xB1, 0x90, 0xEA], 0x0F, 5),
        ([0xB1, 0x90, 0xEA], 0x10, 6),
        ([0x71, 0x90, 0xEA], 0x10, 6),
        // Stores and read-modify-write always take the longer time.
        ([0x9D, 0x80, 0x00], 0x00, 5),
        ([0x9D, 0x81, 0x00], 0xF0, 5),
        ([0x99, 0x81, 0x00], 0xF0, 5),
        ([0x91, 0x92, 0xEA], 0x00, 6),
        ([0x91, 0x92, 0xEA], 0xA0, 6),
        ([0xFE, 0x80, 0x00], 0x00, 7),
        ([0xFE, 0x81, 0x00], 0xF0, 7),
        // Other modes never.
        ([0xB5, 0xF0, 0xEA], 0x90, 4),
        ([0xA1, 0xF0, 0xEA], 0xA0, 6),
    ] {
        let mut rig = Rig::new(&code);
        rig.put(0x90, &[0xF0, 0xA0, 0x80, 0x00]);
        rig.cpu.x = index;
        rig.cpu.y = index;
        rig.done(1);
        assert_eq!(rig.cpu.over, cycles, "{code:02X?} {index:02X}");
    }
}

#[test]
fn branches() {
    // Place, offset, taken, next PC, cycles.
    for (place, offset, taken, next, cycles) in [
        (0xA000, 0x10, false, 0xA002, 2),
        (0xA000, 0x10, true, 0xA012, 3),
        (0xA0F0, 0x0E, true, 0xA100, 4),
        (0xA0F0, 0x0D, true, 0xA0FF, 3),
        (0xA100, 0xFD, true, 0xA0FF, 4),
        // The page is that of the instruction behind the branch.
        (0xA0FE, 0x05, true, 0xA105, 3),
        (0xA0FE, 0xFE, true, 0xA0FE, 4),
        (0xA000, 0x80, true, 0x9F82, 4),
        (0xA000, 0xFE, true, 0xA000, 3),
    ] {
        for (opcode, bit, set) in [
            (0x10, p::N, false),
            (0x30, p::N, true),
            (0x50, p::V, false),
            (0x70, p::V, true),
            (0x90, p::C, false),
            (0xB0, p::C, true),
            (0xD0, p::Z, false),
            (0xF0, p::Z, true),
        ] {
            let mut rig = Rig::new(&[]);
            rig.rom(place, &[opcode, offset]);
            rig.cpu.pc = place;
            // All other flags are the other way round.
            let raised = taken == set;
            rig.cpu.p = if raised { bit } else { p::ALL & !bit };
            let flags = rig.cpu.p;
            // No interrupt is asked for, whatever I is.
            rig.done(1);
            assert_eq!(rig.cpu.pc, next, "{opcode:02X} at {place:04X}");
            assert_eq!(rig.cpu.over, cycles, "{opcode:02X} at {place:04X}");
            assert_eq!(rig.cpu.p, flags);
        }
    }
}

#[test]
fn clocks_every_32_cycles() {
    // NOPs of two cycles: the sixteenth completes a clock.
    let mut rig = Rig::new(&[]);
    rig.done(15);
    assert_eq!((rig.cpu.over, rig.chip.vcnt.count), (30, 0));
    rig.done(1);
    assert_eq!((rig.cpu.over, rig.chip.vcnt.count), (0, 1));
    // Cycles over are kept from run to run and go up to 31.
    let mut rig = Rig::new(&[0xE6, 0x90]);
    rig.cpu.over = 31;
    rig.done(1);
    assert_eq!((rig.cpu.over, rig.chip.vcnt.count), (4, 1));
    // The clock comes before the events of the next instruction: VSYNCI latches a count of 1.
    let mut rig = Rig::new(&[]);
    rig.cpu.over = 30;
    rig.with(&[(1, level(pin::VSYNCI, 0)), (1, level(pin::VSYNCI, 1))], 2);
    assert_eq!(rig.chip.vcnt.latch, 1);
    // And after an instruction's own access: this LDA sees the latch before.
    let mut rig = Rig::new(&[0xA5, 0x09]);
    rig.cpu.over = 31;
    rig.done(1);
    assert_eq!((rig.cpu.a, rig.chip.vcnt.count), (0, 1));
    // A listed clock is none of the cycles'.
    let mut rig = Rig::new(&[]);
    rig.with(&[(0, CLOCK), (1, CLOCK)], 2);
    assert_eq!((rig.cpu.over, rig.chip.vcnt.count), (4, 2));
}

// Arithmetic.

const ADC: u8 = 0x69;
const SBC: u8 = 0xE9;

/// The instruction on these operands, in a machine that is used for many.
fn with(rig: &mut Rig, opcode: u8, a: u8, byte: u8, carry: bool, decimal: bool) -> Cpu {
    rig.rom(0xA000, &[opcode, byte]);
    arithmetic(rig, a, carry, decimal)
}

fn arithmetic(rig: &mut Rig, a: u8, carry: bool, decimal: bool) -> Cpu {
    rig.cpu.pc = 0xA000;
    rig.cpu.a = a;
    rig.cpu.p = if carry { p::C } else { 0 } | if decimal { p::D } else { 0 };
    rig.done(1);
    rig.cpu
}

#[test]
fn decimal_by_hand() {
    let mut rig = Rig::new(&[]);
    // A, byte, C before, A after, flags after but D.
    for (a, byte, carry, after, flags) in [
        (0x58, 0x46, true, 0x05, p::C | p::N | p::V),
        (0x12, 0x34, false, 0x46, 0),
        (0x15, 0x26, false, 0x41, 0),
        (0x81, 0x92, false, 0x73, p::C | p::V),
        // The binary sum is 9A, then 100H, then 00.
        (0x99, 0x01, false, 0x00, p::C | p::N),
        (0x99, 0x67, false, 0x66, p::C | p::Z),
        (0x00, 0x00, false, 0x00, p::Z),
        // Digits above 9: 15 + 15 + 1 gains 6, keeps 5, carries one.
        (0x0F, 0x0F, true, 0x15, 0),
        (0xFF, 0xFF, true, 0x55, p::C | p::N),
        (0x0A, 0x00, false, 0x10, 0),
        (0xF0, 0x00, false, 0x50, p::C | p::N),
    ] {
        let cpu = with(&mut rig, ADC, a, byte, carry, true);
        assert_eq!(
            (cpu.a, cpu.p & !p::D),
            (after, flags),
            "{a:02X} + {byte:02X}"
        );
    }
    for (a, byte, carry, after, flags) in [
        (0x46, 0x12, true, 0x34, p::C),
        (0x40, 0x13, true, 0x27, p::C),
        (0x32, 0x02, false, 0x29, p::C),
        (0x12, 0x21, true, 0x91, p::N),
        (0x00, 0x00, false, 0x99, p::N),
        (0x21, 0x34, true, 0x87, p::N),
        (0x00, 0x00, true, 0x00, p::C | p::Z),
        // Below 0 by 15 and a borrow: -16 - 6, of which four bits are left: A.
        (0x00, 0x0F, false, 0x9A, p::N),
        (0xFF, 0x00, true, 0xFF, p::C | p::N),
    ] {
        let cpu = with(&mut rig, SBC, a, byte, carry, true);
        assert_eq!(
            (cpu.a, cpu.p & !p::D),
            (after, flags),
            "{a:02X} - {byte:02X}"
        );
    }
}

#[test]
fn decimal_over_all_inputs() {
    let mut rig = Rig::new(&[]);
    let bcd = |byte: u8| (byte >> 4) as i32 * 10 + (byte & 0x0F) as i32;
    let digits = |byte: u8| byte >> 4 <= 9 && byte & 0x0F <= 9;
    let packed = |number: i32| (number / 10 * 16 + number % 10) as u8;
    for a in 0..=0xFFu8 {
        for byte in 0..=0xFFu8 {
            for carry in [false, true] {
                // N, V and Z are the binary operation's.
                let open = p::N | p::V | p::Z;
                let sum = with(&mut rig, ADC, a, byte, carry, true);
                let difference = with(&mut rig, SBC, a, byte, carry, true);
                assert_eq!(
                    sum.p & open,
                    with(&mut rig, ADC, a, byte, carry, false).p & open
                );
                assert_eq!(
                    difference.p & open,
                    with(&mut rig, SBC, a, byte, carry, false).p & open
                );
                // With digits alone it is arithmetic with numbers up to 99.
                if digits(a) && digits(byte) {
                    let number = bcd(a) + bcd(byte) + carry as i32;
                    assert_eq!(sum.a, packed(number % 100));
                    assert_eq!(sum.p & p::C != 0, number > 99);
                    let number = bcd(a) - bcd(byte) - !carry as i32;
                    assert_eq!(difference.a, packed(number.rem_euclid(100)));
                    assert_eq!(difference.p & p::C != 0, number >= 0);
                }
            }
        }
    }
}

#[test]
fn binary_over_all_inputs() {
    let mut rig = Rig::new(&[]);
    for a in 0..=0xFFu8 {
        for byte in 0..=0xFFu8 {
            for carry in [false, true] {
                let cpu = with(&mut rig, ADC, a, byte, carry, false);
                let number = a as i32 + byte as i32 + carry as i32;
                let signed = a as i8 as i32 + byte as i8 as i32 + carry as i32;
                assert_eq!(cpu.a, number as u8);
                assert_eq!(cpu.p & p::C != 0, number > 255);
                assert_eq!(cpu.p & p::V != 0, !(-128..=127).contains(&signed));
                assert_eq!(cpu.p & p::Z != 0, number as u8 == 0);
                assert_eq!(cpu.p & p::N != 0, number & 0x80 != 0);
                let cpu = with(&mut rig, SBC, a, byte, carry, false);
                let number = a as i32 - byte as i32 - !carry as i32;
                let signed = a as i8 as i32 - byte as i8 as i32 - !carry as i32;
                assert_eq!(cpu.a, number as u8);
                assert_eq!(cpu.p & p::C != 0, number >= 0);
                assert_eq!(cpu.p & p::V != 0, !(-128..=127).contains(&signed));
            }
        }
    }
}

#[test]
fn shifts_compares_and_bit() {
    // Opcode on A, A and C before, A and flags after.
    for (opcode, a, carry, after, flags) in [
        (0x0A, 0xC1, false, 0x82, p::C | p::N),
        (0x0A, 0x80, true, 0x00, p::C | p::Z),
        (0x2A, 0x80, true, 0x01, p::C),
        (0x2A, 0x40, false, 0x80, p::N),
        (0x4A, 0x81, true, 0x40, p::C),
        (0x4A, 0x01, false, 0x00, p::C | p::Z),
        (0x6A, 0x01, true, 0x80, p::C | p::N),
        (0x6A, 0x02, false, 0x01, 0),
    ] {
        let mut rig = Rig::new(&[opcode]);
        let cpu = arithmetic(&mut rig, a, carry, false);
        assert_eq!((cpu.a, cpu.p), (after, flags), "{opcode:02X} {a:02X}");
    }
    for (register, byte, flags) in [
        (0x40, 0x40, p::C | p::Z),
        (0x41, 0x40, p::C),
        (0x40, 0x41, p::N),
        (0xC0, 0x40, p::C | p::N),
        (0x00, 0x80, p::N),
    ] {
        for opcode in [0xC9, 0xE0, 0xC0] {
            let mut rig = Rig::new(&[opcode, byte]);
            (rig.cpu.a, rig.cpu.x, rig.cpu.y) = (register, register, register);
            rig.cpu.p = p::V;
            rig.done(1);
            assert_eq!(rig.cpu.p, flags | p::V);
            assert_eq!(rig.cpu.a, register);
        }
    }
    for (a, byte, flags) in [
        (0x01, 0xC0, p::N | p::V | p::Z),
        (0x80, 0x80, p::N),
        (0x40, 0x41, p::V),
        (0xFF, 0x00, p::Z),
    ] {
        let mut rig = Rig::new(&[0x24, 0x90]);
        rig.put(0x90, &[byte]);
        rig.cpu.a = a;
        rig.cpu.p = 0;
        rig.done(1);
        assert_eq!((rig.cpu.a, rig.cpu.p), (a, flags));
    }
}

#[test]
fn transfers_and_loads_set_n_and_z() {
    // TAX TAY TSX TXA TYA, then TXS, which sets none.
    for (opcode, byte, flags) in [
        (0xAA, 0x80, p::N),
        (0xA8, 0x00, p::Z),
        (0xBA, 0x80, p::N),
        (0x8A, 0x00, p::Z),
        (0x98, 0x7F, 0),
        (0x9A, 0x00, p::N | p::Z),
    ] {
        let mut rig = Rig::new(&[opcode]);
        (rig.cpu.a, rig.cpu.x, rig.cpu.y, rig.cpu.s) = (byte, byte, byte, byte);
        rig.cpu.p = if opcode == 0x9A { p::N | p::Z } else { 0 };
        rig.done(1);
        assert_eq!(rig.cpu.p, flags, "{opcode:02X}");
    }
    for (opcode, before, after, flags) in [
        (0xE8, 0xFF, 0x00, p::Z),
        (0xC8, 0x7F, 0x80, p::N),
        (0xCA, 0x01, 0x00, p::Z),
        (0x88, 0x00, 0xFF, p::N),
    ] {
        let mut rig = Rig::new(&[opcode]);
        (rig.cpu.x, rig.cpu.y, rig.cpu.p) = (before, before, 0);
        rig.done(1);
        let after_it = if opcode & 0x40 != 0 && opcode != 0xC8 {
            rig.cpu.x
        } else {
            rig.cpu.y
        };
        assert_eq!((after_it, rig.cpu.p), (after, flags), "{opcode:02X}");
    }
}

// The stack.

#[test]
fn pushed_p() {
    // PHP and BRK push bits 5 and 4 as 11, an interrupt as 10; PLP and RTI drop them.
    let mut rig = Rig::new(&[0x08, 0x28]);
    rig.cpu.p = p::N | p::C;
    rig.done(1);
    assert_eq!(rig.at(0xFF), 0xB1);
    rig.cpu.p = 0;
    rig.done(1);
    assert_eq!(rig.cpu.p, p::N | p::C);
    let mut rig = Rig::new(&[0x00]);
    rig.cpu.p = p::D | p::Z;
    rig.rom(0xC000, &[0x40]);
    rig.done(1);
    assert_eq!(rig.at(0xFD), 0x3A);
    // D is kept, I is set.
    assert_eq!(rig.cpu.p, p::D | p::Z | p::I);
    rig.done(1);
    assert_eq!((rig.cpu.p, rig.cpu.pc), (p::D | p::Z, 0xA002));
}

#[test]
fn stack_wraps() {
    let mut rig = Rig::new(&[0x48, 0x68]);
    (rig.cpu.a, rig.cpu.s) = (0x77, 0x00);
    rig.done(1);
    assert_eq!((rig.at(0x100), rig.cpu.s), (0x77, 0xFF));
    rig.cpu.a = 0;
    rig.done(1);
    assert_eq!((rig.cpu.a, rig.cpu.s), (0x77, 0x00));
}

#[test]
fn jsr_and_rts() {
    let mut rig = Rig::new(&[0x20, 0x34, 0xB2]);
    rig.rom(0xB234, &[0x60]);
    rig.done(1);
    assert_eq!((rig.cpu.pc, rig.cpu.s, rig.cpu.over), (0xB234, 0xFD, 6));
    assert_eq!((rig.at(0xFF), rig.at(0xFE)), (0xA0, 0x02));
    rig.done(1);
    assert_eq!((rig.cpu.pc, rig.cpu.s, rig.cpu.over), (0xA003, 0xFF, 12));
    // RTS to FFFFH goes on at 0000H.
    let mut rig = Rig::new(&[0x60]);
    rig.cpu.s = 0xFD;
    rig.put(0xFE, &[0xFF, 0xFF]);
    rig.done(1);
    assert_eq!(rig.cpu.pc, 0x0000);
}

#[test]
fn jsr_over_its_own_operand() {
    // At 0110H with S = 12H: low byte, pushes of 01H to 0112H and 12H to 0111H, then the high byte.
    let mut rig = Rig::new(&[]);
    rig.put(0x110, &[0x20, 0x34, 0xB2]);
    rig.cpu.pc = 0x0110;
    rig.cpu.s = 0x12;
    assert_eq!(
        rig.accesses(),
        [
            ('r', 0x0110, 0x20),
            ('r', 0x0111, 0x34),
            ('w', 0x0112, 0x01),
            ('w', 0x0111, 0x12),
            ('r', 0x0112, 0x01)
        ]
    );
    assert_eq!((rig.cpu.pc, rig.cpu.s), (0x0134, 0x10));
    // With S = 13H the low byte of the return address lies there.
    let mut rig = Rig::new(&[]);
    rig.put(0x110, &[0x20, 0x34, 0xB2]);
    rig.cpu.pc = 0x0110;
    rig.cpu.s = 0x13;
    rig.done(1);
    assert_eq!(rig.cpu.pc, 0x1234);
    // Through the mirror too: at 0190H, S = 92H.
    let mut rig = Rig::new(&[]);
    rig.put(0x90, &[0x20, 0x34, 0xB2]);
    rig.cpu.pc = 0x0190;
    rig.cpu.s = 0x92;
    rig.done(1);
    assert_eq!(rig.cpu.pc, 0x0134);
}

#[test]
fn jsr_refused_pushes_nothing() {
    // At 01FEH its high byte is at 0200H, which is not mapped.
    let mut rig = Rig::new(&[]);
    rig.put(0xFE, &[0x20, 0x34]);
    rig.cpu.pc = 0x01FE;
    rig.cpu.s = 0x40;
    let before = rig.state();
    assert_eq!(rig.run(1).number, 21);
    assert_eq!(rig.state(), before);
    // At 0000H (PT0 = 20H) its high byte is PT2DIR.
    rig.chip.write(0x00, 0x20).unwrap();
    rig.cpu.pc = 0x0000;
    let before = rig.state();
    assert_eq!(rig.run(1).number, 5);
    assert_eq!(rig.state(), before);
}

// Refusals.

#[test]
fn refusals_before_anything_runs() {
    let events = [(0, write(0x18, 1)); 9];
    let fill = |over: u8, ill: bool, short_rom: bool| {
        let mut rig = Rig::new(&[0xE6, 0x90]);
        rig.cpu.over = over;
        if ill {
            rig.chip.watchdog = 64;
        }
        if short_rom {
            rig.rom.pop();
        }
        rig
    };
    for (over, ill, short_rom, count, number) in [
        (32, false, true, 9, 8),
        (0, true, true, 9, 8),
        (255, true, true, 9, 8),
        (0, false, true, 9, 22),
        (0, false, true, 0, 22),
        (31, false, false, 9, 7),
        (31, false, false, 8, 0),
    ] {
        for instructions in [0, 3] {
            let mut rig = fill(over, ill, short_rom);
            let before = rig.state();
            let told = rig.with(&events[..count], instructions);
            assert_eq!(told.number, number);
            if number != 0 {
                assert_eq!((told.counted, told.given), (0, 0));
                assert_eq!(rig.state(), before);
                assert_eq!(rig.answers, [UNTOUCHED; 8]);
            }
        }
    }
    // A ROM that is too long, and 7 by the whole list, though none of it would be given.
    let mut rig = fill(0, false, false);
    rig.rom.push(0);
    assert_eq!(rig.run(0).number, 22);
    let mut rig = fill(0, false, false);
    assert_eq!(rig.with(&[(9, CLOCK); 9], 1).number, 7);
}

#[test]
fn first_failing_access_tells() {
    // Code, number. 0002H is write-only, 0010H read-only, 0030H not mapped.
    let cases: [(&[u8], u8); 18] = [
        (&[0xAD, 0x02, 0x00], 5),
        (&[0xA5, 0x02], 5),
        (&[0x85, 0x10], 6),
        (&[0xA5, 0x30], 21),
        (&[0x85, 0x30], 21),
        (&[0x8D, 0x00, 0xB0], 21),
        // Read-modify-write: the read first, then the write.
        (&[0xE6, 0x02], 5),
        (&[0xE6, 0x10], 6),
        (&[0xEE, 0x00, 0xB0], 21),
        (&[0x26, 0x30], 21),
        // The pointer's first byte, its second, what it points to.
        (&[0xA1, 0x02], 5),
        (&[0xA1, 0x01], 5),
        (&[0xB1, 0x7F], 21),
        (&[0x91, 0x10], 5),
        (&[0xB1, 0x90], 21),
        (&[0x6C, 0x02, 0x00], 5),
        (&[0x02], 20),
        (&[0xFF, 0xFF], 20),
    ];
    for (code, number) in cases {
        let mut rig = Rig::new(code);
        rig.put(0x90, &[0x30, 0x00]);
        rig.cpu.over = 31;
        rig.cpu.p = p::ALL;
        let before = rig.state();
        let told = rig.run(5);
        assert_eq!((told.number, told.counted), (number, 0), "{code:02X?}");
        assert_eq!(rig.state(), before, "{code:02X?}");
    }
    // An undocumented opcode at the end of what is mapped: nothing behind it is fetched.
    let mut rig = Rig::new(&[]);
    rig.put(0xFF, &[0x02]);
    rig.cpu.pc = 0x01FF;
    assert_eq!(rig.run(1).number, 20);
    // LDA # there: its operand is not mapped.
    rig.put(0xFF, &[0xA9]);
    assert_eq!(rig.run(1).number, 21);
    rig.cpu.pc = 0x0200;
    assert_eq!(rig.run(1).number, 21);
}

#[test]
fn ad0_takes_writes_and_stays() {
    let mut rig = Rig::new(&[0xE6, 0x0D]);
    let before = rig.chip;
    rig.done(1);
    assert_eq!(rig.chip, before);
    assert_eq!(rig.cpu.p & p::N, p::N);
    // A port is read by its pins and written to its latch.
    let mut rig = Rig::new(&[0xE6, 0x00]);
    rig.with(&[(0, level(0, 0))], 1);
    assert_eq!(rig.chip.pt0, 0xFF);
}

#[test]
fn refused_instruction_keeps_events_and_interrupt() {
    // P16 rises before instruction 2, asks for an interrupt, and the routine's first opcode is
    // undocumented.
    let mut rig = Rig::new(&[0x58]);
    rig.rom(0xC000, &[0x02]);
    let events = [
        (0, write(0x0F, flag::E)),
        (1, level(pin::P16, 0)),
        (2, level(pin::P16, 1)),
        (3, CLOCK),
    ];
    rig.cpu.over = 22;
    let told = rig.with(&events, 9);
    assert_eq!((told.number, told.counted, told.given), (20, 2, 3));
    assert_eq!((rig.cpu.pc, rig.cpu.s), (0xC000, 0xFC));
    // 22 + 2 + 2 + 7 cycles: the interrupt's clock stays.
    assert_eq!((rig.cpu.over, rig.chip.vcnt.count), (1, 1));
    assert_eq!(rig.answers[..4], [0, 0, 0x0200, UNTOUCHED]);
}

// Events.

#[test]
fn events_before_their_instruction() {
    // LDA 18H three times, with writes to it before 1 and 2.
    let mut rig = Rig::new(&[0xA5, 0x18, 0x85, 0x90, 0xA5, 0x18, 0x85, 0x91]);
    let told = rig.with(&[(0, write(0x18, 7)), (2, write(0x18, 9))], 4);
    assert_eq!((told.number, told.counted, told.given), (0, 4, 2));
    assert_eq!((rig.at(0x90), rig.at(0x91)), (7, 9));
}

#[test]
fn late_events_hold_back_those_behind() {
    // (2, a), (0, b): both before 2, a first.
    let mut rig = Rig::new(&[0xA5, 0x18, 0xA6, 0x18, 0xA4, 0x18]);
    let events = [(2, write(0x18, 7)), (0, write(0x18, 9)), (3, CLOCK)];
    let told = rig.with(&events, 3);
    assert_eq!((told.number, told.given), (0, 2));
    assert_eq!((rig.cpu.a, rig.cpu.x, rig.cpu.y), (0x80, 0x80, 9));
    assert_eq!(rig.answers[..3], [0, 0, UNTOUCHED]);
}

#[test]
fn events_past_the_run_are_not_given() {
    for instructions in 0..5 {
        let mut rig = Rig::new(&[]);
        let told = rig.with(&[(0, CLOCK), (1, CLOCK), (3, CLOCK)], instructions);
        let given = [0, 1, 2, 2, 3][instructions as usize];
        assert_eq!((told.number, told.given), (0, given));
        assert_eq!(rig.chip.vcnt.count, given as u16);
    }
}

#[test]
fn refused_events_are_answered_and_the_run_goes_on() {
    let mut rig = Rig::new(&[]);
    let events = [
        (0, 0x0000_0000),
        (0, 0x0100_2600),
        (0, 0x0300_0002),
        (0, 0x0100_0200),
        (1, 0x0200_1000),
        (1, 0x0100_1800),
    ];
    let told = rig.with(&events, 2);
    assert_eq!((told.number, told.counted, told.given), (0, 2, 6));
    let expected = [
        0x0100_0000,
        0x0200_0000,
        0x0300_0000,
        0x0500_0000,
        0x0600_0000,
        0x0000_0080,
    ];
    assert_eq!(rig.answers[..6], expected);
}

// Interrupts and resets.

#[test]
fn interrupt_taken() {
    let mut rig = Rig::new(&[]);
    rig.cpu.p = p::D | p::C;
    rig.chip.write(0x0F, flag::E).unwrap();
    let events = [(1, level(pin::P16, 0)), (1, level(pin::P16, 1))];
    let told = rig.with(&events, 2);
    // An interrupt is no instruction: the second counted is the NOP of the routine.
    assert_eq!((told.number, told.counted), (0, 2));
    assert_eq!((rig.cpu.pc, rig.cpu.s), (0xC001, 0xFC));
    assert_eq!(
        (rig.at(0xFF), rig.at(0xFE), rig.at(0xFD)),
        (0xA0, 0x01, 0x29)
    );
    assert_eq!((rig.cpu.p, rig.cpu.over), (p::D | p::C | p::I, 2 + 7 + 2));
}

#[test]
fn interrupt_not_taken() {
    for (iex, mask, reset) in [(0, 0, 1), (flag::E, p::I, 1), (flag::E, 0, 0)] {
        let mut rig = Rig::new(&[]);
        rig.cpu.p = mask;
        rig.chip.write(0x0F, iex).unwrap();
        rig.with(&[(0, level(pin::P16, 0)), (0, level(pin::P16, 1))], 0);
        rig.chip.irqx = flag::E;
        if reset == 0 {
            // No run leads here, but the state is well formed.
            rig.chip.levels &= !(1 << pin::RESET);
        }
        let told = rig.run(1);
        assert_eq!((told.number, told.counted), (0, 1));
        assert_eq!(rig.cpu.s, 0xFF);
        assert_eq!(rig.cpu.pc, 0xA000 + u16::from(reset == 1));
    }
}

#[test]
fn interrupt_mask_counts_at_once() {
    // CLI, then the interrupt; the routine's RTI clears I again, and the request still stands.
    let mut rig = Rig::new(&[0x58]);
    rig.rom(0xC000, &[0x40]);
    rig.chip.write(0x0F, flag::V).unwrap();
    rig.chip.irqx = flag::V;
    rig.done(1);
    assert_eq!((rig.cpu.pc, rig.cpu.s), (0xA001, 0xFF));
    rig.done(1);
    // Interrupt and RTI.
    assert_eq!((rig.cpu.pc, rig.cpu.over), (0xA001, 2 + 7 + 6));
    rig.done(1);
    assert_eq!((rig.cpu.pc, rig.cpu.over), (0xA001, 2 + 13 + 13));
    // SEI stops it, and PLP.
    for code in [[0x78, 0xEA], [0x28, 0xEA]] {
        let mut rig = Rig::new(&code);
        rig.cpu.p = 0;
        rig.cpu.s = 0xFE;
        rig.put(0xFF, &[p::I]);
        rig.chip.write(0x0F, flag::V).unwrap();
        rig.with(&[(1, level(pin::VSYNCI, 0)), (1, level(pin::VSYNCI, 1))], 2);
        assert_eq!(rig.cpu.pc, 0xA002);
    }
}

#[test]
fn request_of_the_last_instruction_waits() {
    // STA 0FH enables a flag that is set; the interrupt belongs to the next run.
    let mut rig = Rig::new(&[0x85, 0x0F]);
    rig.cpu.a = flag::V;
    rig.cpu.p = 0;
    rig.chip.irqx = flag::V;
    rig.done(1);
    assert_eq!((rig.cpu.pc, rig.cpu.s), (0xA002, 0xFF));
    rig.done(1);
    assert_eq!((rig.cpu.pc, rig.cpu.s), (0xC001, 0xFC));
}

#[test]
fn reset_by_the_pin() {
    let mut rig = Rig::new(&[]);
    rig.rom(0xFFFC, &[0x00, 0xB0]);
    rig.cpu = Cpu {
        a: 1,
        x: 2,
        y: 3,
        s: 4,
        p: p::N | p::D,
        pc: 0xA000,
        over: 29,
    };
    rig.ram = [0x5A; RAM_SIZE];
    rig.chip.write(0x18, 0x11).unwrap();
    let before = rig.cpu;
    let events = [
        (1, level(pin::RESET, 0)),
        (2, write(0x18, 1)),
        (2, CLOCK),
        (3, level(pin::RESET, 0)),
        (4, level(pin::RESET, 1)),
    ];
    // NOP; three instructions with RESET low, at no cycles; NOP at B000H.
    let told = rig.with(&events, 5);
    assert_eq!((told.number, told.counted, told.given), (0, 5, 5));
    assert_eq!(rig.answers[..5], [0, 0x0400_0000, 0, 0, 0]);
    let after = Cpu {
        p: before.p | p::I,
        pc: 0xB001,
        over: 1,
        ..before
    };
    assert_eq!(rig.cpu, after);
    assert_eq!(rig.ram, [0x5A; RAM_SIZE]);
    let mut fresh = Chip::fresh();
    fresh.vcnt.count = 1;
    assert_eq!(rig.chip, fresh);
}

#[test]
fn reset_by_the_watchdog() {
    let mut rig = Rig::new(&[]);
    rig.rom(0xFFFC, &[0x00, 0xB0]);
    rig.chip.watchdog = 63;
    rig.cpu.p = 0;
    rig.cpu.pc = 0xC123;
    // Enabled and asked for, but the reset clears the request before the interrupt is looked at.
    rig.chip.iex = flag::V;
    rig.chip.irqx = flag::V;
    let told = rig.with(&[(0, WATCHDOG)], 1);
    assert_eq!(told.number, 0);
    assert_eq!(rig.answers[0], 0x0001_0000);
    assert_eq!((rig.cpu.pc, rig.cpu.p), (0xB001, p::I));
    // 55H to 12H clears it.
    let mut rig = Rig::new(&[0xA9, 0x55, 0x85, 0x12]);
    rig.chip.watchdog = 63;
    rig.with(&[(2, WATCHDOG)], 3);
    assert_eq!((rig.chip.watchdog, rig.cpu.pc), (1, 0xA005));
}

#[test]
fn reset_and_events_of_one_number() {
    // RESET falls and rises before one instruction: it is carried out at the vector. A rise of
    // VSYNCI behind it is requested by nothing, since IEX is cleared.
    let mut rig = Rig::new(&[]);
    rig.rom(0xFFFC, &[0x00, 0xB0]);
    rig.cpu.pc = 0xA123;
    rig.chip.write(0x0F, flag::V).unwrap();
    let events = [
        (0, level(pin::RESET, 0)),
        (0, level(pin::RESET, 1)),
        (0, level(pin::VSYNCI, 0)),
        (0, level(pin::VSYNCI, 1)),
    ];
    rig.with(&events, 1);
    assert_eq!((rig.cpu.pc, rig.cpu.over), (0xB001, 2));
    assert_eq!(rig.chip.irqx, flag::V);
}

// Runs in parts, and all opcodes from random states.

fn random_rig(random: &mut Random, rom: &[u8; ROM_SIZE]) -> Rig {
    let place = programs::begin(random, rom);
    Rig {
        cpu: programs::cpu(random, place),
        ram: programs::ram(random),
        rom: rom.to_vec(),
        chip: programs::chip(random),
        answers: Vec::new(),
    }
}

#[test]
fn a_run_is_made_of_runs() {
    let mut random = Random::new(1);
    let mut refused = 0;
    let mut counted = 0;
    for seed in 0..200 {
        let rom = programs::rom(&mut random);
        let rig = random_rig(&mut random, &rom);
        let events: Vec<(u32, u32)> = programs::events(&mut random, 100)
            .iter()
            .map(|listed| (listed.number, listed.word))
            .collect();
        let (n, m) = (random.below(200), random.below(200));
        let mut whole = rig.clone();
        whole.answers = vec![UNTOUCHED; events.len()];
        let told = whole.with(&events, n + m);

        let mut parts = rig;
        parts.answers = vec![UNTOUCHED; events.len()];
        let first = parts.with(&events, n);
        let rest: Vec<(u32, u32)> = events[first.given as usize..]
            .iter()
            .map(|&(number, word)| (number.saturating_sub(n), word))
            .collect();
        let mut answers = parts.answers.clone();
        let mut both = first;
        if first.number == 0 {
            parts.answers = vec![UNTOUCHED; rest.len()];
            let second = parts.with(&rest, m);
            answers[first.given as usize..].copy_from_slice(&parts.answers);
            both = Told {
                number: second.number,
                counted: first.counted + second.counted,
                given: first.given + second.given,
            };
        }
        refused += usize::from(told.number != 0);
        counted += told.counted;
        assert_eq!(told, both, "seed {seed}");
        assert_eq!(whole.state(), parts.state(), "seed {seed}");
        assert_eq!(whole.answers, answers, "seed {seed}");
        assert!(whole.chip.well_formed() && whole.cpu.over < 32);
    }
    assert!((20..180).contains(&refused), "{refused}");
    assert!(counted > 20_000, "{counted}");
}

#[test]
fn refused_instructions_leave_everything() {
    let mut random = Random::new(2);
    let mut numbers = [0; 23];
    let mut rig = Rig::new(&[]);
    for byte in &mut rig.rom {
        *byte = random.byte();
    }
    for opcode in 0..=0xFFu8 {
        for _ in 0..300 {
            rig.chip = programs::chip(&mut random);
            rig.chip.levels |= 1 << pin::RESET;
            rig.ram = programs::ram(&mut random);
            let place = random.below(0x5FF0) as usize;
            rig.rom[place] = opcode;
            // Often an operand that is no more than a register or just behind them.
            if random.once_in(2) {
                rig.rom[place + 1] &= 0x3F;
                rig.rom[place + 2] = 0;
            }
            rig.cpu = programs::cpu(&mut random, 0xA000 + place as u16);
            rig.cpu.p |= p::I;
            let before = rig.state();
            let told = rig.run(1);
            numbers[told.number as usize] += 1;
            match told.number {
                0 => assert_eq!(told.counted, 1),
                _ => {
                    assert_eq!(told.counted, 0);
                    assert_eq!(rig.state(), before);
                }
            }
            assert_eq!(told.number == 20, TABLE[opcode as usize].op == Op::Unknown);
            assert!(rig.chip.well_formed() && rig.cpu.over < 32);
        }
    }
    for number in [0, 5, 6, 20, 21] {
        assert!(numbers[number] > 100, "{numbers:?}");
    }
}

// Demand 3 for firmware.

/// A routine that reads registers other than II DAT and writes what it finds, over and over.
const BUSY: [u8; 20] = [
    0x58, 0xA2, 0x00, 0xA5, 0x10, 0x95, 0x80, 0xA5, 0x15, 0x75, 0x81, 0x95, 0x82, 0xE8, 0x8A, 0x29,
    0x3F, 0xAA, 0x10, 0xEF,
];

/// A transfer to this address with these data, as events three instructions apart.
fn transfer(bytes: &[u8]) -> Vec<(u32, u32)> {
    let mut words = vec![level(pin::SDA, 0), level(pin::SCL, 0)];
    for byte in bytes {
        for place in (0..8).rev() {
            words.push(level(pin::SDA, byte >> place & 1));
            words.extend([level(pin::SCL, 1), level(pin::SCL, 0)]);
        }
        words.push(level(pin::SDA, 1));
        words.extend([level(pin::SCL, 1), level(pin::SCL, 0)]);
    }
    words.push(level(pin::SDA, 0));
    words.extend([level(pin::SCL, 1), level(pin::SDA, 1)]);
    (20..).step_by(3).zip(words).collect()
}

/// What demand 3 speaks of: numbers and counts, accesses, answers, and the state but for II DAT.
type Look = (
    Told,
    Vec<(char, u16, u8)>,
    Vec<u32>,
    (Cpu, [u8; RAM_SIZE], Chip),
);

/// A run of this code, DDC2B on and II ADR 6EH, with these events.
fn look(code: &[u8], events: &[(u32, u32)]) -> Look {
    let mut rig = Rig::new(code);
    // The interrupt routine clears the flags.
    rig.rom(0xC000, &[0x48, 0xA9, 0x3F, 0x85, 0x11, 0x68, 0x40]);
    for (register, byte) in [(0x05, 0x06), (0x15, 0x00), (0x0F, 0x3F), (0x13, 0x6E)] {
        rig.chip.write(register, byte).unwrap();
    }
    let mut events: Vec<Listed> = events
        .iter()
        .map(|&(number, word)| Listed { number, word })
        .collect();
    events.sort_by_key(|listed| listed.number);
    let mut answers = vec![0; events.len()];
    let (told, watch) = run_watched(
        &mut rig.cpu,
        &mut rig.ram,
        &rig.rom,
        &mut rig.chip,
        &events,
        &mut answers,
        700,
        Accesses::default(),
    );
    rig.chip.iidat = 0;
    (told, watch.0, answers, rig.state())
}

#[test]
fn foreign_transfers_look_the_same_to_firmware() {
    let one = look(&BUSY, &transfer(&[0x42, 0x00, 0xFF]));
    assert_eq!(one.0.number, 0);
    assert_eq!(one.0.given as usize, one.2.len());
    for other in [[0x43, 0x12, 0x34], [0x10, 0xAA, 0x55], [0xFE, 0xA1, 0x6E]] {
        assert!(one == look(&BUSY, &transfer(&other)), "{other:02X?}");
    }
}

/// Two runs that meet all premises but one, and can be told from each other.
#[test]
fn each_premise_of_demand_3_is_needed() {
    let foreign = [[0x42, 0x00, 0xFF], [0x11, 0xAA, 0x54]].map(|bytes| transfer(&bytes));
    let told_apart = |name: &str, code: &[u8], extra: &[(u32, u32)]| {
        let [one, other] = [0, 1].map(|place| {
            let events = [&foreign[place][..], extra].concat();
            look(code, &events)
        });
        assert!(one != other, "{name}");
    };
    // START is cleared again and again, so that a pointer in 14H has the high byte 0. No operand
    // is fetched from 14H, since no opcode is from 12H or 13H, which only take writes.
    let reads: [(&str, &[u8]); 4] = [
        ("a read of 14H", &[0xA5, 0x14, 0x4C, 0x00, 0xA0]),
        (
            "a read-modify-write of 14H",
            &[0xE6, 0x14, 0x4C, 0x00, 0xA0],
        ),
        (
            "a pointer in 14H",
            &[0xA9, 0x00, 0x85, 0x15, 0xA1, 0x14, 0x4C, 0x00, 0xA0],
        ),
        (
            "an opcode at 14H",
            &[
                0xA2, 0x40, 0xCA, 0xD0, 0xFD, 0xA0, 0x40, 0x88, 0xD0, 0xFD, 0x4C, 0x14, 0x00,
            ],
        ),
    ];
    for (name, code) in reads {
        told_apart(name, code, &[]);
    }
    // Refused with 21 in both runs, and only the byte that it read tells them from each other.
    let refused = [0xA9, 0x00, 0x85, 0x15, 0xB1, 0x14, 0x4C, 0x00, 0xA0];
    let [one, other] = [0x42, 0x50].map(|address| look(&refused, &transfer(&[address, 0, 0])));
    assert_eq!((one.0.number, one.0), (21, other.0));
    assert!((one.2, one.3) == (other.2, other.3) && one.1 != other.1);
    // DDC turned off: port 3 then shows SDA. By the CPU, by a listed write, by a reset.
    let port = [0xA5, 0x04, 0x4C, 0x00, 0xA0];
    let off = [&[0xA9, 0x08, 0x85, 0x15][..], &port].concat();
    told_apart("DDC turned off by the CPU", &off, &[]);
    told_apart(
        "DDC turned off by the list",
        &port,
        &[(60, write(0x15, 0x08))],
    );
    let reset = [(60, level(pin::RESET, 0)), (60, level(pin::RESET, 1))];
    told_apart("a reset", &port, &reset);
    let clocks: Vec<(u32, u32)> = vec![(60, WATCHDOG); 64];
    told_apart("a watchdog reset", &port, &clocks);
    // DDC1 asked for: II DAT goes into the shift register.
    let fields: Vec<(u32, u32)> = (0..24)
        .map(|place| (400 + place, level(pin::VSYNCI, (place & 1) as u8)))
        .collect();
    let idle = [0x4C, 0x00, 0xA0];
    let ddc1 = [&[(390, write(0x05, 0x07))][..], &fields].concat();
    told_apart("DDC1 asked for by the list", &idle, &ddc1);
    // Not without it.
    let [one, other] = [0, 1].map(|place| look(&idle, &[&foreign[place][..], &fields].concat()));
    assert!(one == other);
    // An address that matches, in one run: A0H, II ADR, II ADR as the CPU or the list wrote it.
    let adr = [&[0xA9, 0x42, 0x85, 0x13][..], &idle].concat();
    told_apart("II ADR written by the CPU", &adr, &[]);
    told_apart(
        "II ADR written by the list",
        &idle,
        &[(30, write(0x13, 0x10))],
    );
    for address in [0x6E, 0x6F, 0xA0, 0xA1] {
        let matched = look(&BUSY, &transfer(&[address, 0x00, 0xFF]));
        assert!(matched != look(&BUSY, &foreign[0]), "{address:02X}");
    }
    // SDA moved while SCL is high, in one run.
    let mut moved = foreign[0].clone();
    let last = moved.len() - 1;
    moved[last].1 = level(pin::SDA, 0);
    assert!(look(&BUSY, &moved) != look(&BUSY, &foreign[0]));
}
