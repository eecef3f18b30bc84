//! A host beside the firmware: it carries out acts (commands/acts.rs) as a bus master does, on any machine that runs an image.
//!
//! It watches the lines, waits while SCL is stretched, gives up after a stated time, reads ACK and NACK, and gives the sync pulses and the
//! clocks of the base timer and the watchdog at their rates. The clock of 8 us is the machine's own matter. Time is that of the CPU, four
//! cycles a microsecond; an act or clock that is due comes before the next instruction. While RESET is low an instruction is counted and
//! nothing happens: it is taken as two cycles, so that every wait ends.

use crate::acts::{Act, Acknowledge, Line, Time, HSYNCI, REGISTERS, RESET, SCL, SDA, US, VSYNCI};
use std::fmt::Write;

/// A CPU, its memory and the chip.
pub trait Machine {
    /// Gives an event word before the next instruction; its answer.
    fn give(&mut self, word: u32) -> u32;
    /// Carries out so many instructions, which take less than 32 cycles, but none after one that changed the lines or what clocks the base timer;
    /// or gives the number of a refusal.
    fn go(&mut self, instructions: u32) -> Result<(), u8>;
    /// Nothing is due for so many cycles: instructions may be carried out at once, as many as are in them, where it is known how long they take.
    /// Says whether any were.
    fn go_idle(&mut self, _cycles: u64, _instructions: u32) -> Result<bool, u8> {
        Ok(false)
    }
    /// Instructions so far.
    fn counted(&self) -> u32;
    /// CPU cycles so far.
    fn cycles(&self) -> u64;
    /// As nt6861_lines: SDA, SCL, and that the chip pulls SDA, SCL, in bits 0 to 3.
    fn lines(&self) -> u32;
    /// The outside level of a pin.
    fn level(&self, pin: u8) -> bool;
    /// TBS, where the base timer is enabled.
    fn base(&self) -> Option<bool>;
    fn requests(&self) -> u8;
    /// IRQX.
    fn flags(&self) -> u8;
    /// A, X, Y, S, P, PC (low byte first), cycles since the last clock of 8 us.
    fn cpu(&self) -> [u8; 8];
    /// RAM or ROM.
    fn memory(&self, address: u16) -> Option<u8>;
    /// What a read of a register would show; None where it is refused.
    fn register(&self, register: u8) -> Option<u8>;
    /// By which address the transfer under way was called, as nt6861_outcome: 0 none, 1 A0H, 2 II ADR, 3 both.
    fn outcome(&self) -> u32;
}

/// What looks on.
pub trait Watcher<M> {
    /// Each instruction is looked at, so that they come one by one.
    fn each(&self) -> bool;
    /// Before an instruction that lies at `pc`; true ends the run there.
    fn before(&mut self, machine: &M, time: Time, pc: u16, interrupt: bool) -> bool;
    fn after(&mut self, machine: &M);
    /// An event was given, with this answer, and set these flags of IRQX.
    fn given(&mut self, machine: &M, time: Time, word: u32, answer: u32, set: u8);
    /// A line of the transcript.
    fn say(&mut self, line: &str);
}

/// A stretch of SCL.
#[derive(Clone, PartialEq, Eq, Debug)]
pub struct Hold {
    pub begin: Time,
    pub length: Time,
    pub ended: Ended,
}

#[derive(Clone, PartialEq, Eq, Debug)]
pub enum Ended {
    /// By the instruction that lies there.
    By(u16),
    /// By this event.
    Event(u32),
    /// Not before the end of the run.
    Not,
}

/// Why a run ends.
#[derive(Clone, PartialEq, Eq, Debug)]
pub enum End {
    Done,
    /// All instructions that were asked for.
    Count,
    /// The watcher wanted it.
    Until,
    Refused(u8),
    /// The host went no further.
    GaveUp(String),
}

/// What the host did and found.
#[derive(Default)]
pub struct Found {
    /// Instruction and word of each event.
    pub events: Vec<(u32, u32)>,
    /// The events as a list, with the acts as comments.
    pub list: String,
    /// All bytes that were read on the bus.
    pub received: Vec<u8>,
    /// SDA after each rise of VSYNCI of a counted act.
    pub levels: Vec<bool>,
    pub holds: Vec<Hold>,
    /// The lines at power up and after each change, as nt6861_lines reports them.
    pub lines: Vec<(Time, u32)>,
    /// What was expected and did not come, or made the host give up: line, act and why.
    pub failures: Vec<(usize, String)>,
}

/// Levels that change again and again.
#[derive(Clone, Copy)]
struct Train {
    half: Time,
    next: Time,
}

pub struct Host<'a, M: Machine, W: Watcher<M>> {
    pub machine: &'a mut M,
    pub watcher: &'a mut W,
    pub found: Found,
    limit: u32,
    half: Time,
    timeout: Time,
    hsync: Option<Train>,
    vsync: Option<Train>,
    watchdog: Option<(Time, Time)>,
    base: bool,
    /// Clocks of 1 us and of 1 ms that have passed, and which of them the base timer took when that was looked at.
    passed: [u64; 2],
    based: Option<bool>,
    /// Time under RESET, in which the CPU has no cycles.
    still: Time,
    holding: Option<Time>,
    /// The transfer under way: when it began, its text, bytes in the last row, and the longest hold.
    transfer: Option<(Time, String, usize, Time)>,
    /// What `expect` looks at next.
    unseen: Vec<u8>,
}

const CYCLE: Time = US / 4;
/// Instructions that are carried out at once take at most so long, fewer cycles than there are in a clock of 8 us: two of 7 cycles, each with
/// an interrupt of 7 before it, or four where no flag is set, which only an event can change.
const AT_ONCE: Time = 28 * CYCLE;
/// From so long on the machine may look whether the firmware idles.
const IDLE: Time = 50 * US;
/// For how long SDA stays after a fall of SCL.
const AFTER_FALL: Time = US;
const LOW_RESET: Time = 10 * US;
const WATCHDOG: Time = 7_812_500_000;
const BASE: [Time; 2] = [US, 1_000 * US];
const PULLS_SCL: u32 = 8;
const ROW: usize = 16;

pub fn microseconds(time: Time) -> String {
    format!("{}.{:02}", time / US, time % US / 10_000)
}

fn hex(bytes: &[u8]) -> String {
    let digits: Vec<String> = bytes.iter().map(|byte| format!("{byte:02X}")).collect();
    digits.join(" ")
}

/// The bytes that DDC1 sends: nine rises of nothing, then eight bits and a null bit for each byte. None where a null bit is not 1.
pub fn ddc1_bytes(levels: &[bool]) -> Option<Vec<u8>> {
    levels
        .get(9..)?
        .chunks_exact(9)
        .map(|bits| {
            let byte = bits[..8].iter().fold(0, |byte, &bit| byte << 1 | bit as u8);
            bits[8].then_some(byte)
        })
        .collect()
}

impl<'a, M: Machine, W: Watcher<M>> Host<'a, M, W> {
    /// A host at power up, for `limit` instructions at most.
    pub fn new(machine: &'a mut M, watcher: &'a mut W, limit: u32) -> Self {
        Host {
            machine,
            watcher,
            found: Found::default(),
            limit,
            half: 5 * US,
            timeout: 20_000 * US,
            hsync: None,
            vsync: None,
            watchdog: Some((WATCHDOG, WATCHDOG)),
            base: true,
            passed: [0; 2],
            based: None,
            still: 0,
            holding: None,
            transfer: None,
            unseen: Vec::new(),
        }
    }

    /// Carries out the acts; then, where `on` says so, goes on to the last instruction asked for.
    pub fn run(&mut self, acts: &[Line], on: bool) -> End {
        self.found.lines.push((0, self.machine.lines()));
        let mut end = End::Done;
        for line in acts {
            writeln!(self.found.list, "# {}", line.text).expect("a string");
            if let Err(why) = self.act(&line.act) {
                let told = match &why {
                    End::GaveUp(told) => Some(told.clone()),
                    End::Count => Some(format!("after {} instructions the host is not done", self.limit)),
                    _ => None,
                };
                if let Some(told) = told {
                    self.fail(line, &told);
                }
                end = why;
                break;
            }
            if let Act::Expect(bytes) = &line.act {
                self.expect(line, bytes);
            }
        }
        if end == End::Done {
            end = self.finish(on);
        }
        self.end_transfer("");
        if let Some(begin) = self.holding {
            let length = self.now() - begin;
            self.found.holds.push(Hold { begin, length, ended: Ended::Not });
        }
        writeln!(self.found.list, "# {} instructions", self.machine.counted()).expect("a string");
        end
    }

    /// An event is given before an instruction, so that the last one takes one more.
    fn finish(&mut self, on: bool) -> End {
        let given = self.found.events.last().is_some_and(|event| event.0 == self.machine.counted());
        let done = if on {
            self.wait(Time::MAX / 2)
        } else if given {
            self.turn(0)
        } else {
            Ok(())
        };
        match done {
            Err(End::Count) if on => End::Done,
            Err(end) => end,
            Ok(()) => End::Done,
        }
    }

    fn fail(&mut self, line: &Line, why: &str) {
        self.end_transfer("");
        self.say_now(&format!("{}: {why}", line.text));
        self.found.failures.push((line.number, format!("{}: {why}", line.text)));
    }

    fn say_now(&mut self, text: &str) {
        let line = format!("{:>12} us  {text}", microseconds(self.now()));
        self.watcher.say(&line);
    }

    pub fn now(&self) -> Time {
        self.machine.cycles() * CYCLE + self.still
    }

    // ---- events and instructions

    fn give(&mut self, word: u32) -> u32 {
        let number = self.machine.counted();
        let flags = self.machine.flags();
        let answer = self.machine.give(word);
        let set = self.machine.flags() & !flags;
        self.watcher.given(self.machine, self.now(), word, answer, set);
        self.found.events.push((number, word));
        writeln!(self.found.list, "{number} {word:08X}").expect("a string");
        self.look(Ended::Event(word));
        answer
    }

    /// Puts a level at a pin where it is another.
    fn set(&mut self, pin: u8, level: bool) {
        if self.machine.level(pin) != level {
            self.give(u32::from_be_bytes([3, 0, pin, level as u8]));
        }
    }

    /// The lines after an event or instruction: whether a stretch of SCL has begun or ended.
    fn look(&mut self, by: Ended) {
        let lines = self.machine.lines();
        if self.found.lines.last().map(|change| change.1) != Some(lines) {
            let now = self.now();
            self.found.lines.push((now, lines));
        }
        let pulls = lines & PULLS_SCL != 0;
        match self.holding {
            None if pulls => self.holding = Some(self.now()),
            Some(begin) if !pulls => {
                self.holding = None;
                let length = self.now() - begin;
                if let Some(transfer) = &mut self.transfer {
                    transfer.3 = transfer.3.max(length);
                }
                self.found.holds.push(Hold { begin, length, ended: by });
            }
            _ => {}
        }
    }

    fn give_due(&mut self, train: Option<Train>, pin: u8) -> Option<Train> {
        let mut train = train?;
        while self.now() >= train.next {
            train.next += train.half;
            let level = !self.machine.level(pin);
            self.set(pin, level);
        }
        Some(train)
    }

    /// Pulses and clocks that are due before the next instruction.
    fn give_clocks(&mut self) {
        if let Some((period, next)) = self.watchdog {
            if self.now() >= next {
                self.watchdog = Some((period, next + period));
                self.give(0x0400_0300);
            }
        }
        self.hsync = self.give_due(self.hsync, HSYNCI);
        self.vsync = self.give_due(self.vsync, VSYNCI);
        // those that passed before the firmware let the base timer run are not for it
        let (before, base) = (self.based, self.machine.base());
        self.based = base;
        for (place, unit) in BASE.iter().enumerate() {
            let passed = self.now() / unit;
            let due = passed - self.passed[place];
            self.passed[place] = passed;
            if self.base && base == Some(place == 1) && before == base {
                for _ in 0..due {
                    self.give(0x0400_0100 + ((place as u32) << 8));
                }
            }
        }
    }

    /// No event is due before this time. 0 while each instruction counts: a stretch of SCL is under way, or each is looked at.
    fn quiet_until(&self) -> Time {
        let fast = self.base && self.machine.base() == Some(false);
        if self.holding.is_some() || fast || self.watcher.each() || !self.machine.level(RESET) {
            return 0;
        }
        let next = |train: Option<Train>| train.map_or(Time::MAX, |train| train.next);
        let slow = self.base && self.machine.base() == Some(true);
        let millisecond = if slow { (self.now() / BASE[1] + 1) * BASE[1] } else { Time::MAX };
        let watchdog = self.watchdog.map_or(Time::MAX, |(_, next)| next);
        next(self.hsync).min(next(self.vsync)).min(watchdog).min(millisecond)
    }

    /// What is due, then an instruction, or more where nothing can be due between them.
    fn turn(&mut self, until: Time) -> Result<(), End> {
        if self.machine.counted() >= self.limit {
            return Err(End::Count);
        }
        self.give_clocks();
        let [_, _, _, _, p, low, high, _] = self.machine.cpu();
        let reset = !self.machine.level(RESET);
        let interrupt = !reset && p & 4 == 0 && self.machine.requests() != 0;
        let vector = || Some(u16::from_le_bytes([self.machine.memory(0xFFFE)?, self.machine.memory(0xFFFF)?]));
        let pc = vector().filter(|_| interrupt).unwrap_or(u16::from_le_bytes([low, high]));
        if self.watcher.each() && self.watcher.before(self.machine, self.now(), pc, interrupt) {
            return Err(End::Until);
        }
        let due = until.min(self.quiet_until());
        let free = due.saturating_sub(self.now());
        if free > IDLE && self.machine.go_idle(free / CYCLE, self.limit - self.machine.counted()).map_err(End::Refused)? {
            self.look(Ended::By(pc));
            return Ok(());
        }
        let quiet = free >= AT_ONCE;
        let most = match (quiet, self.machine.flags()) {
            (false, _) => 1,
            (true, 0) => 4,
            (true, _) => 2,
        };
        self.machine.go(most.min(self.limit - self.machine.counted())).map_err(End::Refused)?;
        if reset {
            self.still += 2 * CYCLE;
        }
        if self.watcher.each() {
            self.watcher.after(self.machine);
        }
        self.look(Ended::By(pc));
        Ok(())
    }

    fn wait(&mut self, time: Time) -> Result<(), End> {
        let until = self.now() + time;
        while self.now() < until {
            self.turn(until)?;
        }
        Ok(())
    }

    // ---- the bus

    /// Lets SCL go, and waits while the chip holds it.
    fn raise_scl(&mut self) -> Result<(), End> {
        self.wait(self.half)?;
        self.set(SCL, true);
        let until = self.now() + self.timeout;
        while self.machine.lines() & 2 == 0 {
            if self.now() >= until {
                let waited = microseconds(self.timeout);
                return Err(End::GaveUp(format!("SCL is still held after {waited} us")));
            }
            self.turn(until)?;
        }
        self.wait(self.half)
    }

    fn lower_scl(&mut self) -> Result<(), End> {
        self.set(SCL, false);
        self.wait(AFTER_FALL)
    }

    fn start(&mut self) -> Result<(), End> {
        self.set(SDA, true);
        self.raise_scl()?;
        self.end_transfer("");
        self.transfer = Some((self.now(), "START".to_string(), 0, 0));
        self.set(SDA, false);
        self.wait(self.half)?;
        self.lower_scl()
    }

    fn stop(&mut self) -> Result<(), End> {
        self.set(SDA, false);
        self.raise_scl()?;
        self.set(SDA, true);
        if self.machine.lines() & 1 == 0 {
            return Err(End::GaveUp("SDA is held low".to_string()));
        }
        self.end_transfer(" STOP");
        self.wait(self.half)
    }

    /// One clock with this level of the host's at SDA; gives that of the line.
    fn clock(&mut self, level: bool) -> Result<bool, End> {
        self.set(SDA, level);
        self.raise_scl()?;
        let line = self.machine.lines() & 1 == 1;
        self.lower_scl()?;
        Ok(line)
    }

    /// A byte and its acknowledge, for the transcript.
    fn passed_byte(&mut self, byte: u8, acknowledged: bool) {
        if let Some((_, text, row, _)) = &mut self.transfer {
            if *row == ROW {
                *row = 0;
                text.push_str("\n                     ");
            }
            *row += 1;
            write!(text, " {byte:02X}{}", if acknowledged { '+' } else { '-' }).expect("a string");
        }
    }

    fn end_transfer(&mut self, with: &str) {
        if let Some((begin, text, _, held)) = self.transfer.take() {
            let held = match held {
                0 => String::new(),
                held => format!("  held at most {} us", microseconds(held)),
            };
            self.watcher.say(&format!("{:>12} us  {text}{with}{held}", microseconds(begin)));
        }
    }

    fn send(&mut self, byte: u8, acknowledge: Acknowledge) -> Result<(), End> {
        for place in (0..8).rev() {
            self.clock(byte >> place & 1 == 1)?;
        }
        let acknowledged = !self.clock(true)?;
        self.passed_byte(byte, acknowledged);
        match (acknowledge, acknowledged) {
            (Acknowledge::All, false) => Err(End::GaveUp(format!("{byte:02X} is not acknowledged"))),
            (Acknowledge::None, true) => Err(End::GaveUp(format!("{byte:02X} is acknowledged"))),
            _ => Ok(()),
        }
    }

    fn read(&mut self, address: u8, number: u64) -> Result<(), End> {
        self.send(address, Acknowledge::All)?;
        self.unseen.clear();
        for place in 1..=number {
            let mut byte = 0;
            for _ in 0..8 {
                byte = byte << 1 | self.clock(true)? as u8;
            }
            self.clock(place == number)?;
            self.passed_byte(byte, place < number);
            self.found.received.push(byte);
            self.unseen.push(byte);
        }
        Ok(())
    }

    fn expect(&mut self, line: &Line, bytes: &[u8]) {
        let seen: Vec<u8> = self.unseen.drain(..bytes.len().min(self.unseen.len())).collect();
        if seen != bytes {
            let came = if seen.is_empty() { "nothing".to_string() } else { hex(&seen) };
            self.fail(line, &format!("{came} came"));
        }
    }

    fn pulses(&mut self, period: Time, number: u64) -> Result<(), End> {
        let first = self.found.levels.len();
        let half = period / 2;
        for _ in 0..number {
            self.set(VSYNCI, false);
            self.wait(half)?;
            self.set(VSYNCI, true);
            self.wait(half)?;
            let level = self.machine.lines() & 1 == 1;
            self.found.levels.push(level);
        }
        self.say_now(&format!("VSYNCI {number} pulses"));
        self.unseen = ddc1_bytes(&self.found.levels[first..]).unwrap_or_default();
        let rows: Vec<String> = self.unseen.chunks(ROW).map(|row| format!("                 DDC1 {}", hex(row))).collect();
        for row in rows {
            self.watcher.say(&row);
        }
        Ok(())
    }

    fn show(&mut self, register: u8) {
        let answer = self.give(u32::from_be_bytes([1, 0, register, 0]));
        let [number, _, _, byte] = answer.to_be_bytes();
        let name = REGISTERS[register as usize];
        if number == 0 {
            self.unseen = vec![byte];
            self.say_now(&format!("{name} {byte:02X}"));
        } else {
            self.unseen.clear();
            self.say_now(&format!("{name} refused with {number}"));
        }
    }

    fn at(&mut self, time: Time) -> Result<(), End> {
        let now = self.now();
        if now > time {
            return Err(End::GaveUp(format!("it is {} us already", microseconds(now))));
        }
        self.wait(time - now)
    }

    fn train(&self, period: Option<Time>) -> Option<Train> {
        period.map(|period| Train { half: period / 2, next: self.now() + period / 2 })
    }

    fn act(&mut self, act: &Act) -> Result<(), End> {
        match act {
            Act::At(time) => self.at(*time)?,
            Act::Wait(time) => self.wait(*time)?,
            Act::Scl(period) => self.half = period / 2,
            Act::Timeout(time) => self.timeout = *time,
            Act::Start | Act::RepeatedStart => self.start()?,
            Act::Stop => self.stop()?,
            Act::Write(bytes, acknowledge) => {
                for byte in bytes {
                    self.send(*byte, *acknowledge)?;
                }
            }
            Act::Read(address, number) => self.read(*address, *number)?,
            Act::Expect(_) => {}
            Act::Hsync(period) => self.hsync = self.train(*period),
            Act::Vsync(period) => self.vsync = self.train(*period),
            Act::Pulses(period, number) => self.pulses(*period, *number)?,
            Act::Pin(pin, level) => self.set(*pin, *level),
            Act::Reset => {
                self.set(RESET, false);
                self.wait(LOW_RESET)?;
                self.set(RESET, true);
                self.say_now("RESET was low for 10 us");
            }
            Act::Watchdog(period) => self.watchdog = period.map(|period| (period, self.now() + period)),
            Act::Base(on) => self.base = *on,
            Act::Show(register) => self.show(*register),
        }
        Ok(())
    }
}
