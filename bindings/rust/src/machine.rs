//! A firmware image on the proved 6502 and chip.

use crate::calls;
use crate::chip::Chip;
use crate::names::Refusal;

/// The bytes of an image, A000 to FFFF.
pub const ROM_BYTES: usize = 24576;
const RESET_VECTOR: usize = 0xFFFC - 0xA000;

/// The registers, and the cycles since the last clock of 8 µs (0 to 31).
#[derive(Clone, Copy, Debug, Default, PartialEq, Eq, Hash)]
#[allow(missing_docs)]
pub struct Cpu {
    pub a: u8,
    pub x: u8,
    pub y: u8,
    pub s: u8,
    pub p: u8,
    pub pc: u16,
    pub over: u8,
}

/// How far a run came: instructions carried out, and events given.
#[derive(Clone, Copy, Debug, Default, PartialEq, Eq, Hash)]
#[allow(missing_docs)]
pub struct Tally {
    pub counted: u32,
    pub given: u32,
}

/// A run that was refused. By an instruction (5, 6, 20, 21) the machine stands before it, and the tally says how far it came; by any other
/// refusal nothing was done.
#[derive(Clone, Copy, Debug, PartialEq, Eq, Hash)]
#[allow(missing_docs)]
pub struct Stopped {
    pub refusal: Refusal,
    pub tally: Tally,
}

/// An event: the number of the instruction that it precedes, from 0 in each run, and its word.
pub const fn event(instruction: u32, word: u32) -> u64 {
    (instruction as u64) << 32 | word as u64
}

/// CPU, RAM and chip; the image is lent to each run.
///
/// ```
/// use nt6861::{event, register, word, Machine};
/// let mut rom = [0xEA; nt6861::ROM_BYTES]; // NOP
/// rom[0x5FFC..0x5FFE].copy_from_slice(&[0x00, 0xA0]);
/// let mut machine = Machine::power_up(&rom);
/// let mut answers = [0];
/// let tally = machine.run(&rom, &[event(2, word::read(register::HVCON))], &mut answers, 16).unwrap();
/// assert_eq!((tally.counted, tally.given, answers[0], machine.cpu.pc), (16, 1, 0x3C, 0xA010));
/// assert_eq!(machine.run(&rom[1..], &[], &mut [], 1).unwrap_err().refusal.number(), 22);
/// ```
#[derive(Clone, Debug, PartialEq, Eq)]
#[allow(missing_docs)]
pub struct Machine {
    pub cpu: Cpu,
    pub ram: [u8; 256],
    pub chip: Chip,
}

impl Machine {
    /// As the image is powered up; PC is 0 where it is too short to have a reset vector.
    pub fn power_up(rom: &[u8]) -> Machine {
        let byte = |at: usize| rom.get(RESET_VECTOR + at).copied().unwrap_or(0);
        let cpu = Cpu { s: 0xFF, p: 0x04, pc: u16::from_le_bytes([byte(0), byte(1)]), ..Cpu::default() };
        Machine { cpu, ram: [0; 256], chip: Chip::new() }
    }

    /// Carries out that many instructions, with events; the answer to each goes to the place of the same index.
    pub fn run(&mut self, rom: &[u8], events: &[u64], answers: &mut [u32], instructions: u32) -> Result<Tally, Stopped> {
        let c = self.cpu;
        let [low, high] = c.pc.to_le_bytes();
        let mut cpu = [c.a, c.x, c.y, c.s, c.p, low, high, c.over];
        let mut counts = [0; 2];
        let lent = calls::Lent { cpu: &mut cpu, ram: &mut self.ram, area: self.chip.area() };
        let number = calls::firmware(lent, rom, events, answers, instructions, &mut counts);
        let [a, x, y, s, p, low, high, over] = cpu;
        self.cpu = Cpu { a, x, y, s, p, pc: u16::from_le_bytes([low, high]), over };
        let tally = Tally { counted: counts[0], given: counts[1] };
        Refusal::of(number).map(|()| tally).map_err(|refusal| Stopped { refusal, tally })
    }
}
