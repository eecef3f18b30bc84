//! Random states and programs for the core: programs that mostly stay where memory is, so that they
//! get far, with a refused access now and then.

use crate::chip::{pin, Chip};
use crate::core6502::{p, Cpu, Listed, RAM_SIZE, ROM_SIZE};
use crate::opcodes::{Mode, Op, Row, TABLE};
use crate::traffic::Traffic;

/// Xorshift, 64 bits.
pub struct Random(u64);

impl Random {
    pub fn new(seed: u64) -> Random {
        let mut random = Random(seed.wrapping_mul(0x9E37_79B9_7F4A_7C15) | 1);
        for _ in 0..8 {
            random.bits();
        }
        random
    }

    pub fn bits(&mut self) -> u64 {
        self.0 ^= self.0 << 13;
        self.0 ^= self.0 >> 7;
        self.0 ^= self.0 << 17;
        self.0
    }

    pub fn byte(&mut self) -> u8 {
        (self.bits() >> 24) as u8
    }

    pub fn below(&mut self, bound: u32) -> u32 {
        ((self.bits() >> 20) % bound as u64) as u32
    }

    /// Once in so many times.
    pub fn once_in(&mut self, times: u32) -> bool {
        self.below(times) == 0
    }

    pub fn opcode(&mut self) -> u8 {
        loop {
            let opcode = self.byte();
            if TABLE[opcode as usize].op != Op::Unknown {
                return opcode;
            }
        }
    }
}

/// What a run begins from, with no events yet.
#[derive(Clone, PartialEq, Debug)]
pub struct Start {
    pub cpu: Cpu,
    pub ram: [u8; RAM_SIZE],
    pub chip: Chip,
}

/// A CPU of any registers at this address.
pub fn cpu(random: &mut Random, pc: u16) -> Cpu {
    Cpu {
        a: random.byte(),
        x: random.byte(),
        y: random.byte(),
        s: random.byte(),
        p: random.byte() & p::ALL,
        pc,
        over: random.below(32) as u8,
    }
}

/// A chip after some generated words; RESET is mostly high.
pub fn chip(random: &mut Random) -> Chip {
    let mut chip = Chip::fresh();
    let words = random.below(200) as usize;
    for word in Traffic::new(random.bits() >> 8).take(words) {
        chip.step(word);
    }
    chip.step(reset_pin(!random.once_in(12)));
    chip
}

/// The event that gives RESET a level.
fn reset_pin(level: bool) -> u32 {
    u32::from_be_bytes([3, 0, pin::RESET, level as u8])
}

pub fn ram(random: &mut Random) -> [u8; RAM_SIZE] {
    std::array::from_fn(|_| random.byte())
}

/// What an instruction does with the byte that it works on.
fn access(row: Row) -> (bool, bool) {
    match row.op {
        Op::Sta | Op::Stx | Op::Sty => (false, true),
        Op::Inc | Op::Dec | Op::Asl | Op::Lsr | Op::Rol | Op::Ror => (true, true),
        _ => (true, false),
    }
}

/// A register that is not refused, mostly.
fn register(random: &mut Random, row: Row) -> u8 {
    let (reads, writes) = access(row);
    let mut fresh = Chip::fresh();
    loop {
        let register = random.below(0x26) as u8;
        let taken = (!reads || fresh.read(register).is_some())
            && (!writes || fresh.write(register, 0).is_ok());
        if taken || random.once_in(100) {
            return register;
        }
    }
}

/// A zero page operand: mostly RAM, often a register, seldom nothing at all.
fn zero_page(random: &mut Random, row: Row) -> u8 {
    match random.below(12) {
        0..=3 => register(random, row),
        4 if random.once_in(50) => random.byte(),
        _ => 0x80 | random.byte(),
    }
}

/// An absolute operand, before an index of up to 255 is added.
fn absolute(random: &mut Random, row: Row) -> u16 {
    let (_, writes) = access(row);
    match random.below(10) {
        0 if row.mode == Mode::Absolute => register(random, row) as u16,
        1..=5 if !writes => 0xA000 + random.below(0x5E00) as u16,
        6 if random.once_in(50) => random.bits() as u16,
        _ if row.mode == Mode::Absolute => 0x0080 + random.below(0x180) as u16,
        _ => 0x0080 + random.below(0x80) as u16,
    }
}

/// Where a program may begin: at its reset vector or at the one that no line uses.
pub fn begin(random: &mut Random, rom: &[u8; ROM_SIZE]) -> u16 {
    let place = ROM_SIZE - if random.once_in(2) { 4 } else { 6 };
    u16::from_le_bytes([rom[place], rom[place + 1]])
}

/// Where the interrupt routine lies.
const ROUTINE: u16 = 0xFE00;

/// A ROM with a program of random instructions over all of it. Branches and jumps go to where
/// instructions begin, mostly; the vectors too. Interrupts clear flags and come back.
pub fn rom(random: &mut Random) -> Box<[u8; ROM_SIZE]> {
    let mut rom = Box::new([0u8; ROM_SIZE]);
    let mut begins = Vec::new();
    let mut jumps = Vec::new();
    let mut place = 0;
    let end = ROUTINE as usize - 0xA000 - 3;
    while place < end {
        let opcode = if random.once_in(2000) {
            random.byte()
        } else {
            random.opcode()
        };
        let row = TABLE[opcode as usize];
        // Few of those that leave the program.
        let rare = matches!(row.op, Op::Brk | Op::Rts | Op::Rti | Op::Txs)
            || row.mode == Mode::IndexedIndirect
            || row.mode == Mode::IndirectIndexed
            || row.mode == Mode::Indirect
            || row.mode == Mode::ZeroPageX
            || row.mode == Mode::ZeroPageY;
        if rare && !random.once_in(40) {
            continue;
        }
        begins.push(place as u16 + 0xA000);
        rom[place] = opcode;
        match row.mode {
            Mode::Immediate => rom[place + 1] = random.byte(),
            Mode::Relative => rom[place + 1] = 0,
            Mode::ZeroPage | Mode::ZeroPageX | Mode::ZeroPageY => {
                rom[place + 1] = zero_page(random, row);
            }
            Mode::IndexedIndirect | Mode::IndirectIndexed => rom[place + 1] = random.byte() | 0x80,
            Mode::Absolute | Mode::AbsoluteX | Mode::AbsoluteY | Mode::Indirect => {
                let to = absolute(random, row).to_le_bytes();
                rom[place + 1..place + 3].copy_from_slice(&to);
            }
            Mode::Implied | Mode::Accumulator | Mode::Undocumented => {}
        }
        if matches!(row.op, Op::Jmp | Op::Jsr) && row.mode == Mode::Absolute {
            jumps.push(place);
        }
        place += row.length.max(1) as usize;
    }
    let routine = [0x48, 0xA9, 0x3F, 0x85, 0x11, 0x68, 0x40];
    let at = ROUTINE as usize - 0xA000;
    rom[at..at + routine.len()].copy_from_slice(&routine);
    for place in jumps {
        let to = begins[random.below(begins.len() as u32) as usize].to_le_bytes();
        rom[place + 1..place + 3].copy_from_slice(&to);
    }
    // Branches over one to four instructions, forward or back.
    for index in 4..begins.len() - 4 {
        let place = begins[index] as usize - 0xA000;
        let row = TABLE[rom[place] as usize];
        if row.mode == Mode::Relative {
            let to = if random.once_in(3) {
                begins[index - random.below(4) as usize]
            } else {
                begins[index + 1 + random.below(3) as usize]
            };
            rom[place + 1] = to.wrapping_sub(begins[index] + 2) as u8;
        }
    }
    let vectors = [
        begins[random.below(begins.len() as u32) as usize],
        begins[0],
        if random.once_in(8) {
            begins[1]
        } else {
            ROUTINE
        },
    ];
    for (vector, to) in vectors.iter().enumerate() {
        let at = ROM_SIZE - 6 + 2 * vector;
        rom[at..at + 2].copy_from_slice(&to.to_le_bytes());
    }
    rom
}

/// A watchdog clock.
const WATCHDOG: u32 = 0x0400_0300;

/// Generated words as events a few instructions apart, some of them late. Now and then watchdog
/// clocks follow one another, mostly enough for a reset.
pub fn events(random: &mut Random, count: usize) -> Vec<Listed> {
    let mut number = 0;
    let mut clocks = 0;
    let spread = 1 + random.below(6);
    Traffic::new(random.bits() >> 8)
        .take(count)
        .map(|word| {
            number += random.below(spread);
            let late = if random.once_in(8) {
                random.below(4)
            } else {
                0
            };
            if random.once_in(150) {
                clocks = 40 + random.below(50);
            }
            // RESET comes back again and again, so that few runs end low.
            let word = if clocks > 0 {
                clocks -= 1;
                WATCHDOG
            } else if random.once_in(40) {
                reset_pin(!random.once_in(4))
            } else {
                word
            };
            Listed {
                number: number.saturating_sub(late),
                word,
            }
        })
        .collect()
}
