//! Firmware runs as text: lists of events, what the program `firmware` prints of a run, and its trace.
//!
//! A list has lines `NUMBER WORD`: the number of the instruction that the event precedes, in decimal
//! and at most 4294967295, and the word in eight hex digits. Blanks (space, tab, CR) may stand around
//! both and must stand between them; `#` begins a comment; lines with nothing else are passed over.
//!
//! A run begins as after power up: a fresh chip, RAM, A, X, Y and cycles over 0, S FF, P 04, PC from
//! FFFC. It prints the answer of each event that was given, eight hex digits a line, then
//!
//! ```text
//! number N counted I given K A=.. X=.. Y=.. S=.. P=.. PC=.... over=..
//! ```
//!
//! with N, I and K in decimal and the rest in hex digits, upper case. With a trace there are, instead
//! of the answers, lines in the order of happening, NUMBER being that of the instruction, in decimal:
//!
//! ```text
//! NUMBER event WORD ANSWER             an event given before it, with its answer
//! NUMBER interrupt REGISTERS           an interrupt taken before it, the registers after
//! NUMBER PC OPCODE REGISTERS           the instruction, where it lay, the registers after
//! NUMBER PC -- REGISTERS               no instruction, since RESET is low
//! ```
//!
//! REGISTERS are `A=.. X=.. Y=.. S=.. P=.. PC=.... over=..`. A refused instruction has no line.

use crate::chip::Chip;
use crate::core6502::{run_watched, Cpu, Listed, Told, Watch, RAM_SIZE, ROM_SIZE};
use std::fmt::Write;

/// A list's first malformed line, counted from 1.
#[derive(Clone, Copy, PartialEq, Eq, Debug)]
pub struct Malformed {
    pub line: usize,
}

pub fn parse_events(text: &[u8]) -> Result<Vec<Listed>, Malformed> {
    let mut events = Vec::new();
    for (place, line) in text.split(|&byte| byte == b'\n').enumerate() {
        let malformed = Malformed { line: place + 1 };
        let code = line.split(|&byte| byte == b'#').next().unwrap_or(&[]);
        let mut parts = code
            .split(|byte| matches!(byte, b' ' | b'\t' | b'\r'))
            .filter(|part| !part.is_empty());
        let Some(number) = parts.next() else {
            continue;
        };
        let word = parts.next().ok_or(malformed)?;
        if parts.next().is_some() {
            return Err(malformed);
        }
        events.push(Listed {
            number: decimal(number).ok_or(malformed)?,
            word: word_of(word).ok_or(malformed)?,
        });
    }
    Ok(events)
}

/// Decimal digits alone, up to 32 bits.
pub fn decimal(digits: &[u8]) -> Option<u32> {
    if digits.is_empty() {
        return None;
    }
    digits.iter().try_fold(0u32, |number, byte| match byte {
        b'0'..=b'9' => number.checked_mul(10)?.checked_add((byte - b'0') as u32),
        _ => None,
    })
}

/// Eight hex digits.
fn word_of(digits: &[u8]) -> Option<u32> {
    if digits.len() != 8 {
        return None;
    }
    digits.iter().try_fold(0u32, |word, &byte| {
        Some(word << 4 | (byte as char).to_digit(16)?)
    })
}

pub fn registers(cpu: &Cpu) -> String {
    format!(
        "A={:02X} X={:02X} Y={:02X} S={:02X} P={:02X} PC={:04X} over={:02X}",
        cpu.a, cpu.x, cpu.y, cpu.s, cpu.p, cpu.pc, cpu.over
    )
}

/// Writes what happens as lines.
#[derive(Default)]
struct Trace(String);

impl Watch for Trace {
    fn event(&mut self, instruction: u32, word: u32, answer: u32) {
        writeln!(self.0, "{instruction} event {word:08X} {answer:08X}").expect("a string");
    }

    fn interrupt(&mut self, instruction: u32, cpu: &Cpu) {
        writeln!(self.0, "{instruction} interrupt {}", registers(cpu)).expect("a string");
    }

    fn instruction(&mut self, instruction: u32, pc: u16, opcode: Option<u8>, cpu: &Cpu) {
        let opcode = opcode.map_or("--".to_string(), |opcode| format!("{opcode:02X}"));
        writeln!(self.0, "{instruction} {pc:04X} {opcode} {}", registers(cpu)).expect("a string");
    }
}

/// What a run from power up leaves.
#[derive(Clone, PartialEq, Debug)]
pub struct Ended {
    pub told: Told,
    pub cpu: Cpu,
    pub ram: [u8; RAM_SIZE],
    pub chip: Chip,
    /// Of the events given.
    pub answers: Vec<u32>,
}

fn power_up<W: Watch>(rom: &[u8; ROM_SIZE], count: u32, events: &[Listed], watch: W) -> (Ended, W) {
    let mut cpu = Cpu::after_power_up(rom);
    let mut ram = [0; RAM_SIZE];
    let mut chip = Chip::fresh();
    let mut answers = vec![0; events.len()];
    let (told, watch) = run_watched(
        &mut cpu,
        &mut ram,
        rom,
        &mut chip,
        events,
        &mut answers,
        count,
        watch,
    );
    answers.truncate(told.given as usize);
    let ended = Ended {
        told,
        cpu,
        ram,
        chip,
        answers,
    };
    (ended, watch)
}

pub fn run(rom: &[u8; ROM_SIZE], count: u32, events: &[Listed]) -> Ended {
    power_up(rom, count, events, ()).0
}

fn last_line(ended: &Ended) -> String {
    let told = ended.told;
    format!(
        "number {} counted {} given {} {}\n",
        told.number,
        told.counted,
        told.given,
        registers(&ended.cpu)
    )
}

/// The answers and the last line.
pub fn print(rom: &[u8; ROM_SIZE], count: u32, events: &[Listed]) -> String {
    let ended = run(rom, count, events);
    let mut text = String::new();
    for answer in &ended.answers {
        writeln!(text, "{answer:08X}").expect("a string");
    }
    text + &last_line(&ended)
}

/// The trace and the last line.
pub fn print_trace(rom: &[u8; ROM_SIZE], count: u32, events: &[Listed]) -> String {
    let (ended, trace) = power_up(rom, count, events, Trace::default());
    trace.0 + &last_line(&ended)
}
