//! A host beside the firmware on the independent core: the acts of commands/acts.rs carried out by commands/bus_host.rs; and the bus read from its
//! lines.

use crate::acts::acts;
pub use crate::bus_host::ddc1_bytes;
use crate::bus_host::{self, End, Found, Host, Watcher};
use crate::chip::{pin, Chip};
use crate::core6502::{Cpu, Listed, Machine, RAM_SIZE, ROM_SIZE};
use std::fmt::Write;

/// What a host did and found.
pub struct Hosted {
    pub events: Vec<Listed>,
    /// The events as a list, with the acts as comments.
    pub text: String,
    /// What the host tells of it.
    pub transcript: String,
    /// Bytes received.
    pub received: Vec<u8>,
    /// SDA after each rise of VSYNCI.
    pub levels: Vec<bool>,
    /// Instructions carried out by the end.
    pub instructions: u32,
}

impl bus_host::Machine for Machine<'_, ()> {
    fn give(&mut self, word: u32) -> u32 {
        Machine::give(self, word)
    }

    fn go(&mut self, instructions: u32) -> Result<(), u8> {
        let seen = |machine: &Self| (machine.chip.lines(), bus_host::Machine::base(machine));
        let before = seen(self);
        for _ in 0..instructions {
            self.turn()?;
            if seen(self) != before {
                break;
            }
        }
        Ok(())
    }

    fn counted(&self) -> u32 {
        self.counted
    }

    fn cycles(&self) -> u64 {
        Machine::cycles(self)
    }

    fn lines(&self) -> u32 {
        self.chip.lines()
    }

    fn level(&self, pin: u8) -> bool {
        self.chip.level(pin)
    }

    fn base(&self) -> Option<bool> {
        (!self.chip.enbt).then_some(self.chip.tbs)
    }

    fn requests(&self) -> u8 {
        self.chip.requests()
    }

    fn flags(&self) -> u8 {
        self.chip.irqx
    }

    fn cpu(&self) -> [u8; 8] {
        let cpu = &self.cpu;
        let [low, high] = cpu.pc.to_le_bytes();
        [cpu.a, cpu.x, cpu.y, cpu.s, cpu.p, low, high, cpu.over]
    }

    fn memory(&self, address: u16) -> Option<u8> {
        match address {
            0x0080..=0x017F => Some(self.ram[address as usize - 0x0080]),
            0xA000.. => Some(self.rom[address as usize - 0xA000]),
            _ => None,
        }
    }

    fn register(&self, register: u8) -> Option<u8> {
        self.chip.read(register)
    }

    fn outcome(&self) -> u32 {
        self.chip.outcome() as u32
    }
}

/// The transcript alone.
struct Transcript(String);

impl<M> Watcher<M> for Transcript {
    fn each(&self) -> bool {
        false
    }

    fn before(&mut self, _machine: &M, _time: u64, _pc: u16, _interrupt: bool) -> bool {
        false
    }

    fn after(&mut self, _machine: &M) {}

    fn given(&mut self, _machine: &M, _time: u64, _word: u32, _answer: u32, _set: u8) {}

    fn say(&mut self, line: &str) {
        self.0 += line;
        self.0 += "\n";
    }
}

/// What a description makes of an image, or the line that goes wrong and why.
pub fn host(rom: &[u8; ROM_SIZE], description: &str) -> Result<Hosted, String> {
    let lines = acts(description).map_err(|(line, why)| format!("line {line}: {why}"))?;
    let mut ram = [0; RAM_SIZE];
    let mut chip = Chip::fresh();
    let mut machine = Machine {
        cpu: Cpu::after_power_up(rom),
        ram: &mut ram,
        rom,
        chip: &mut chip,
        counted: 0,
        clocks: 0,
        watch: (),
    };
    let mut transcript = Transcript(String::new());
    let mut host = Host::new(&mut machine, &mut transcript, u32::MAX);
    let end = host.run(&lines, false);
    let found: Found = std::mem::take(&mut host.found);
    if let Some((line, why)) = found.failures.first() {
        return Err(format!("line {line}: {why}"));
    }
    if let End::Refused(number) = end {
        return Err(format!("the instruction is refused with {number}"));
    }
    Ok(Hosted {
        events: found.events.iter().map(|&(number, word)| Listed { number, word }).collect(),
        text: found.list,
        transcript: transcript.0,
        received: found.received,
        levels: found.levels,
        instructions: machine.counted,
    })
}

/// Reads what passes over the bus from its lines, as a logic analyser does.
pub struct Monitor {
    scl: bool,
    sda: bool,
    bits: Option<Vec<bool>>,
    /// A line for each START that a byte follows: the bytes, each with + for an acknowledged one and
    /// - for one that is not, and STOP where that was seen.
    pub text: String,
    /// The data bytes of the transfers in which the host reads.
    pub read: Vec<u8>,
    /// Of the transfer under way, once it is complete.
    address: Option<u8>,
}

impl Default for Monitor {
    fn default() -> Monitor {
        Monitor {
            scl: true,
            sda: true,
            bits: None,
            text: String::new(),
            read: Vec::new(),
            address: None,
        }
    }
}

impl Monitor {
    /// The lines as they are now.
    pub fn look(&mut self, scl: bool, sda: bool) {
        let (scl_before, sda_before) = (self.scl, self.sda);
        (self.scl, self.sda) = (scl, sda);
        if scl_before && scl && sda_before != sda {
            self.condition(!sda);
        } else if !scl_before && scl {
            self.bit(sda);
        }
    }

    fn condition(&mut self, start: bool) {
        if self.address.take().is_some() {
            self.text += if start { "\n" } else { " STOP\n" };
        }
        self.bits = start.then(Vec::new);
    }

    fn bit(&mut self, sda: bool) {
        let Some(bits) = &mut self.bits else {
            return;
        };
        bits.push(sda);
        if bits.len() < 9 {
            return;
        }
        let byte = bits[..8].iter().fold(0, |byte, &bit| byte << 1 | bit as u8);
        let mark = if bits[8] { '-' } else { '+' };
        bits.clear();
        if self.address.is_none() {
            self.text += "START";
        }
        write!(self.text, " {byte:02X}{mark}").expect("a string");
        match self.address {
            None => self.address = Some(byte),
            Some(address) if address & 1 == 1 => self.read.push(byte),
            Some(_) => {}
        }
    }
}

/// What the bus carries in a run from power up, and SDA after each rise of VSYNCI.
pub fn monitor(rom: &[u8; ROM_SIZE], count: u32, events: &[Listed]) -> (Monitor, Vec<bool>) {
    let mut ram = [0; RAM_SIZE];
    let mut chip = Chip::fresh();
    let mut monitor = Monitor::default();
    let mut levels = Vec::new();
    let mut machine = Machine {
        cpu: Cpu::after_power_up(rom),
        ram: &mut ram,
        rom,
        chip: &mut chip,
        counted: 0,
        clocks: 0,
        watch: (),
    };
    let mut given = 0;
    while machine.counted < count {
        while given < events.len() && events[given].number <= machine.counted {
            let vsync = machine.chip.level(pin::VSYNCI);
            machine.give(events[given].word);
            given += 1;
            monitor.look(machine.chip.scl(), machine.chip.sda());
            if !vsync && machine.chip.level(pin::VSYNCI) {
                levels.push(machine.chip.sda());
            }
        }
        if machine.turn().is_err() {
            break;
        }
        monitor.look(machine.chip.scl(), machine.chip.sda());
    }
    (monitor, levels)
}
