//! The proved firmware call and the chip's calls, as their C interface has them (include/nt6861.h), as a machine for a host.

use crate::bus_host::Machine;

#[link(name = "firmware_capi", kind = "static")]
extern "C" {
    // A slice passes as a pointer and a length.
    fn nt6861_firmware(
        cpu: *mut u8,
        cpu_length: usize,
        ram: *mut u8,
        ram_length: usize,
        rom: *const u8,
        rom_length: usize,
        area: *mut u8,
        area_length: usize,
        events: *const u64,
        events_length: usize,
        answers: *mut u32,
        answers_length: usize,
        instructions: u32,
        counts: *mut u32,
        counts_length: usize,
    ) -> u8;
}

#[link(name = "chip_capi", kind = "static")]
extern "C" {
    fn nt6861_fresh(area: *mut u8, length: usize) -> u8;
    fn nt6861_step(area: *mut u8, length: usize, word: u32) -> u32;
    fn nt6861_lines(area: *const u8, length: usize) -> u32;
    fn nt6861_outcome(area: *const u8, length: usize) -> u32;
}

pub const ROM_SIZE: usize = 24_576;

// Places of the 128 bytes (docs/STATE.md).
const IRQX: usize = 0;
const SYNC: std::ops::Range<usize> = 5..17;
const PORTS: usize = 28;
const HSYNCI: usize = 31;
const REGISTERS: usize = 90;
const IEX: usize = REGISTERS + 0x0F;
const BTCON: usize = REGISTERS + 0x17;
const RESET_PIN: u8 = 28;

/// What a run from power up goes on from.
#[derive(Clone, PartialEq, Eq)]
pub struct State {
    pub cpu: [u8; 8],
    pub ram: [u8; 256],
    pub area: [u8; 128],
}

impl State {
    pub fn power_up(rom: &[u8; ROM_SIZE]) -> State {
        let mut state = State { cpu: [0, 0, 0, 0xFF, 0x04, rom[0x5FFC], rom[0x5FFD], 0], ram: [0; 256], area: [0; 128] };
        unsafe { nt6861_fresh(state.area.as_mut_ptr(), 128) };
        state
    }

    /// The proved call. Gives its number, and the instructions counted and events given.
    pub fn run(&mut self, rom: &[u8; ROM_SIZE], events: &[u64], answers: &mut [u32], instructions: u32) -> (u8, [u32; 2]) {
        let mut counts = [0; 2];
        let number = unsafe {
            nt6861_firmware(
                self.cpu.as_mut_ptr(),
                8,
                self.ram.as_mut_ptr(),
                256,
                rom.as_ptr(),
                ROM_SIZE,
                self.area.as_mut_ptr(),
                128,
                events.as_ptr(),
                events.len(),
                answers.as_mut_ptr(),
                answers.len(),
                instructions,
                counts.as_mut_ptr(),
                2,
            )
        };
        (number, counts)
    }
}

/// The machine under a host: the proved call carries out a few instructions with the events before them. What an event leaves before the
/// instruction is seen on a copy of the chip, by the proved step; that both answer alike is looked at each time.
pub struct Proved<'a> {
    rom: &'a [u8; ROM_SIZE],
    pub state: State,
    /// CPU and chip with the events that wait for the next instruction.
    cpu: [u8; 8],
    area: [u8; 128],
    lines: u32,
    waiting: Vec<u64>,
    /// Of all events given so far; the last ones are those that wait.
    pub answers: Vec<u32>,
    counted: u32,
    cycles: u64,
    /// The firmware call has answered an event otherwise than the step, or an idle loop ends otherwise than it went round before.
    pub differs: bool,
    /// From which instruction on an idle loop is looked for.
    look_from: u32,
}

/// Instructions of an idle loop at most, and after how many more it is looked for again.
const LOOP: u32 = 64;
const AGAIN: u32 = 1024;
// Places of the sync counters that no read shows: VCNT, and the interval. They are all that clocks of 8 us move while SCL is not held, up to
// an overflow of VCNT or the end of the interval.
const VCNT: usize = 10;
const VCNTOV: usize = 14;
const INTERVAL: usize = 15;
const LAST_COUNT: u64 = 4095;
const LAST_INTERVAL: u64 = 1023;

impl State {
    /// All that the next instructions go by: a state that comes again is gone on from as before.
    fn shown(&self) -> ([u8; 7], [u8; 256], [u8; 128]) {
        let mut cpu = [0; 7];
        cpu.copy_from_slice(&self.cpu[..7]);
        let mut area = self.area;
        area[VCNT..VCNT + 2].fill(0);
        area[INTERVAL..INTERVAL + 2].fill(0);
        (cpu, self.ram, area)
    }

    fn number(&self, place: usize) -> u64 {
        u16::from_le_bytes([self.area[place], self.area[place + 1]]) as u64
    }

    /// Clocks of 8 us before one can move what a read shows.
    fn clocks_unseen(&self) -> u64 {
        let overflow = if self.area[VCNTOV] == 0 { LAST_COUNT - self.number(VCNT) } else { u64::MAX };
        overflow.min(LAST_INTERVAL - self.number(INTERVAL)).saturating_sub(2)
    }
}

impl<'a> Proved<'a> {
    pub fn power_up(rom: &'a [u8; ROM_SIZE]) -> Proved<'a> {
        let state = State::power_up(rom);
        Proved {
            rom,
            cpu: state.cpu,
            area: state.area,
            lines: lines(&state.area),
            state,
            waiting: Vec::new(),
            answers: Vec::new(),
            counted: 0,
            cycles: 0,
            differs: false,
            look_from: 0,
        }
    }
}

/// Two states differ at most in the sync counters, to which no line looks.
fn is_idle(one: &[u8; 128], other: &[u8; 128]) -> bool {
    one[..SYNC.start] == other[..SYNC.start] && one[SYNC.end..] == other[SYNC.end..]
}

impl Proved<'_> {
    /// So many instructions by the proved call, with the events that wait before the first.
    fn advance(&mut self, instructions: u32) -> Result<(), u8> {
        let over = self.state.cpu[7];
        let mut answers = vec![0; self.waiting.len()];
        let (number, counts) = self.state.run(self.rom, &self.waiting, &mut answers, instructions);
        let expected = &self.answers[self.answers.len() - answers.len()..];
        self.differs |= answers != expected || counts[1] as usize != answers.len();
        self.waiting.clear();
        self.counted += counts[0];
        self.cycles += (self.state.cpu[7].wrapping_sub(over) & 31) as u64;
        self.cpu = self.state.cpu;
        if !is_idle(&self.area, &self.state.area) {
            self.lines = lines(&self.state.area);
        }
        self.area = self.state.area;
        if number == 0 {
            Ok(())
        } else {
            Err(number)
        }
    }

    /// So many rounds of a loop of so many instructions and cycles.
    fn go_round(&mut self, start: &([u8; 7], [u8; 256], [u8; 128]), instructions: u32, cycles: u64, rounds: u32) -> Result<(), u8> {
        let over = self.state.cpu[7] as u64;
        let (number, counts) = self.state.run(self.rom, &[], &mut [], instructions * rounds);
        let ends = (over + cycles * rounds as u64) % 32;
        self.differs |= self.state.shown() != *start || self.state.cpu[7] as u64 != ends || counts[0] != instructions * rounds;
        self.counted += counts[0];
        self.cycles += cycles * rounds as u64;
        self.cpu = self.state.cpu;
        self.area = self.state.area;
        if number == 0 {
            Ok(())
        } else {
            Err(number)
        }
    }
}

fn lines(area: &[u8; 128]) -> u32 {
    unsafe { nt6861_lines(area.as_ptr(), 128) }
}

impl Machine for Proved<'_> {
    fn give(&mut self, word: u32) -> u32 {
        let high = self.level(RESET_PIN);
        let answer = unsafe { nt6861_step(self.area.as_mut_ptr(), 128, word) };
        if answer >> 16 & 1 == 1 || high && !self.level(RESET_PIN) {
            self.cpu[4] |= 0x04;
            self.cpu[5..7].copy_from_slice(&self.rom[0x5FFC..0x5FFE]);
        }
        self.waiting.push(word as u64);
        self.answers.push(answer);
        self.lines = lines(&self.area);
        answer
    }

    fn go(&mut self, instructions: u32) -> Result<(), u8> {
        if instructions == 1 || !self.waiting.is_empty() {
            return self.advance(1);
        }
        let seen = (self.lines, self.base());
        let (state, counted, cycles) = (self.state.clone(), self.counted, self.cycles);
        let done = self.advance(instructions);
        if (self.lines, self.base()) == seen {
            return done;
        }
        // again, one by one
        (self.cpu, self.area) = (state.cpu, state.area);
        (self.state, self.counted, self.cycles, self.lines) = (state, counted, cycles, seen.0);
        while (self.lines, self.base()) == seen {
            self.advance(1)?;
        }
        Ok(())
    }

    /// Looks for a loop: the state that comes again after a few instructions. Then it goes round as often as there is time for, in one call,
    /// each time in as many cycles as the first.
    fn go_idle(&mut self, cycles: u64, instructions: u32) -> Result<bool, u8> {
        if !self.waiting.is_empty() || self.counted < self.look_from || instructions < 2 * LOOP {
            return Ok(false);
        }
        let start = self.state.shown();
        let (first, began) = (self.counted, self.cycles);
        let (lines, base) = (self.lines, self.base());
        self.look_from = first + AGAIN;
        while self.counted - first < LOOP && self.cycles - began + 32 < cycles {
            self.advance(1)?;
            // what the host goes by has changed
            if (self.lines, self.base()) != (lines, base) {
                break;
            }
            if self.state.shown() == start {
                let taken = self.cycles - began;
                let left = (cycles - taken).min(self.state.clocks_unseen() * 32);
                let rounds = (left / taken).min(((instructions - (self.counted - first)) / (self.counted - first)) as u64);
                self.go_round(&start, self.counted - first, taken, rounds as u32)?;
                self.look_from = self.counted;
                break;
            }
        }
        Ok(true)
    }

    fn counted(&self) -> u32 {
        self.counted
    }

    fn cycles(&self) -> u64 {
        self.cycles
    }

    fn lines(&self) -> u32 {
        self.lines
    }

    fn level(&self, pin: u8) -> bool {
        match pin {
            0..=23 => self.area[PORTS + pin as usize / 8] >> (pin % 8) & 1 == 1,
            24 | 25 => self.area[HSYNCI + 2 + pin as usize - 24] == 1,
            26 | 27 => self.area[HSYNCI + pin as usize - 26] == 1,
            _ => self.area[HSYNCI + 4] == 1,
        }
    }

    fn base(&self) -> Option<bool> {
        (self.area[BTCON] & 1 == 0).then_some(self.area[BTCON] & 2 != 0)
    }

    fn requests(&self) -> u8 {
        self.area[IRQX] & self.area[IEX]
    }

    fn flags(&self) -> u8 {
        self.area[IRQX]
    }

    fn cpu(&self) -> [u8; 8] {
        self.cpu
    }

    fn memory(&self, address: u16) -> Option<u8> {
        match address {
            0x0080..=0x017F => Some(self.state.ram[address as usize - 0x0080]),
            0xA000.. => Some(self.rom[address as usize - 0xA000]),
            _ => None,
        }
    }

    fn register(&self, register: u8) -> Option<u8> {
        let mut area = self.area;
        let answer = unsafe { nt6861_step(area.as_mut_ptr(), 128, 0x0100_0000 | (register as u32) << 8) };
        (answer >> 24 == 0).then_some(answer as u8)
    }

    fn outcome(&self) -> u32 {
        unsafe { nt6861_outcome(self.area.as_ptr(), 128) }
    }
}
