//! A chip that a program keeps.

use crate::calls;
use crate::names::{word, Refusal};

/// The bytes of a chip (docs/STATE.md).
pub const AREA: usize = 128;

/// An NT6861: the 128 bytes of a well formed state.
///
/// ```
/// use nt6861::{clock, pin, register, word, Chip, Outcome};
///
/// let mut chip = Chip::new();
/// chip.write(register::IEX, 0x3F)?;
/// chip.write(register::MDCON, 0)?;
/// chip.write(register::IISTS, 0)?;
/// chip.pin(pin::SDA, 0)?;
/// for bit in (0..8).rev() {
///     chip.pin(pin::SCL, 0)?;
///     chip.pin(pin::SDA, 0xA0 >> bit & 1)?;
///     chip.pin(pin::SCL, 1)?;
/// }
/// for level in [0, 1, 0] {
///     chip.pin(pin::SCL, level)?;
/// }
/// let mut later = Chip::from_bytes(chip.as_bytes())?;
/// later.clock(clock::PERIOD)?;
/// assert_eq!((later.address(), later.hold()), (Outcome::A0, 1));
/// # Ok::<(), nt6861::Refusal>(())
/// ```
#[derive(Clone, Copy, Debug, PartialEq, Eq, Hash)]
pub struct Chip([u8; AREA]);

impl Default for Chip {
    fn default() -> Chip {
        Chip::new()
    }
}

/// The levels of the bus lines, and which of them the chip pulls.
#[derive(Clone, Copy, Debug, PartialEq, Eq)]
pub struct Lines {
    /// the level of SDA
    pub sda: bool,
    /// the level of SCL
    pub scl: bool,
    /// the chip pulls SDA
    pub pulls_sda: bool,
    /// the chip pulls SCL
    pub pulls_scl: bool,
}

/// By which of its addresses the chip was called in the transfer under way.
#[derive(Clone, Copy, Debug, PartialEq, Eq, Hash)]
pub enum Outcome {
    /// by none
    None,
    /// by A0H
    A0,
    /// by that in II ADR
    IiAdr,
    /// by both, which are the same
    Both,
}

impl Outcome {
    pub(crate) fn of(number: u32) -> Outcome {
        match number & 3 {
            0 => Outcome::None,
            1 => Outcome::A0,
            2 => Outcome::IiAdr,
            _ => Outcome::Both,
        }
    }
}

/// Why there is no rate.
#[derive(Clone, Copy, Debug, PartialEq, Eq, Hash)]
pub enum NoRate {
    /// nothing is latched yet
    NothingLatched,
    /// a counter is in overflow
    Overflow,
}

/// An answer word.
#[derive(Clone, Copy, Debug, PartialEq, Eq, Hash)]
pub struct Answer(pub u32);

impl Answer {
    /// The refusal, where the event was refused.
    pub fn refusal(self) -> Option<Refusal> {
        Refusal::of((self.0 >> 24) as u8).err()
    }

    /// The byte of a read, or the refusal.
    pub fn byte(self) -> Result<u8, Refusal> {
        Refusal::of((self.0 >> 24) as u8).map(|()| self.0 as u8)
    }

    /// The requests after the event: a bit for each source.
    pub fn requests(self) -> u8 {
        (self.0 >> 8 & 0x3f) as u8
    }

    /// The watchdog has reset the chip.
    pub fn watchdog_reset(self) -> bool {
        self.0 >> 16 & 1 == 1
    }
}

impl Chip {
    /// A fresh chip: reset values, all outside levels 1.
    pub fn new() -> Chip {
        let mut area = [0; AREA];
        calls::fresh(&mut area);
        Chip(area)
    }

    /// A chip that was stored; refused are bytes that no chip has (8) and another length (15).
    ///
    /// ```
    /// use nt6861::Chip;
    /// let mut bytes = *Chip::new().as_bytes();
    /// assert!(Chip::from_bytes(&bytes).is_ok());
    /// assert_eq!(Chip::from_bytes(&bytes[..127]).unwrap_err().number(), 15);
    /// bytes[40] = 1;
    /// assert_eq!(Chip::from_bytes(&bytes).unwrap_err().number(), 8);
    /// ```
    pub fn from_bytes(bytes: &[u8]) -> Result<Chip, Refusal> {
        Refusal::of((calls::hold(bytes) >> 24) as u8)?;
        let mut area = [0; AREA];
        area.copy_from_slice(bytes);
        Ok(Chip(area))
    }

    /// Its bytes, to be stored.
    pub fn as_bytes(&self) -> &[u8; AREA] {
        &self.0
    }

    /// For a run of firmware, which keeps the state well formed.
    pub(crate) fn area(&mut self) -> &mut [u8; AREA] {
        &mut self.0
    }

    /// The answer to one event word; a refused one leaves the chip as it was.
    pub fn step(&mut self, word: u32) -> Answer {
        Answer(calls::step(&mut self.0, word))
    }

    /// Gives all words in one call and writes the answer to each to the place of the same index; refused with 7 where there are fewer places.
    pub fn run(&mut self, words: &[u32], answers: &mut [u32]) -> Result<(), Refusal> {
        Refusal::of(calls::run(&mut self.0, words, answers))
    }

    /// The answers to words, one after the other, as they are asked for.
    ///
    /// ```
    /// use nt6861::{register, word, Chip};
    /// let words = [word::read(register::HVCON), word::write(0x26, 0)];
    /// let numbers: Vec<u32> = Chip::new().answers(words).map(|answer| answer.0).collect();
    /// assert_eq!(numbers, [0x3C, 0x0200_0000]);
    /// ```
    pub fn answers<I: IntoIterator<Item = u32>>(&mut self, words: I) -> Answers<'_, I::IntoIter> {
        Answers { chip: self, words: words.into_iter() }
    }

    /// Reads a register.
    pub fn read(&mut self, register: u8) -> Result<u8, Refusal> {
        self.step(word::read(register)).byte()
    }

    fn done(&mut self, word: u32) -> Result<Answer, Refusal> {
        let answer = self.step(word);
        answer.byte().map(|_| answer)
    }

    /// Writes a register.
    pub fn write(&mut self, register: u8, byte: u8) -> Result<Answer, Refusal> {
        self.done(word::write(register, byte))
    }

    /// Sets the outside level of a pin.
    pub fn pin(&mut self, pin: u8, level: u8) -> Result<Answer, Refusal> {
        self.done(word::pin(pin, level))
    }

    /// Gives a clock.
    pub fn clock(&mut self, clock: u8) -> Result<Answer, Refusal> {
        self.done(word::clock(clock))
    }

    /// The requests that are up: a bit for each source.
    pub fn requests(&self) -> u8 {
        // a word that is no event is answered with the requests; the copy is thrown away
        self.clone().step(0).requests()
    }

    /// The levels of the bus lines as the outside and the chip leave them, and which the chip pulls.
    ///
    /// ```
    /// let lines = nt6861::Chip::new().lines();
    /// assert!(lines.sda && lines.scl && !lines.pulls_sda && !lines.pulls_scl);
    /// ```
    pub fn lines(&self) -> Lines {
        let bits = calls::lines(&self.0);
        Lines { sda: bits & 1 != 0, scl: bits & 2 != 0, pulls_sda: bits & 4 != 0, pulls_scl: bits & 8 != 0 }
    }

    /// For how many clocks of 8 µs the chip has held SCL low; 0 too where it does not hold it.
    pub fn hold(&self) -> u16 {
        calls::hold(&self.0) as u16
    }

    /// By which of its addresses the chip was called in the transfer under way.
    pub fn address(&self) -> Outcome {
        Outcome::of(calls::outcome(&self.0))
    }

    fn rate(&self, which: u32) -> Result<f64, NoRate> {
        let mut hertz = 0.0;
        match calls::rate(&self.0, which, &mut hertz) {
            0 => Ok(hertz),
            1 => Err(NoRate::NothingLatched),
            _ => Err(NoRate::Overflow),
        }
    }

    /// The field rate in Hz.
    ///
    /// ```
    /// assert_eq!(nt6861::Chip::new().field_rate(), Err(nt6861::NoRate::NothingLatched));
    /// ```
    pub fn field_rate(&self) -> Result<f64, NoRate> {
        self.rate(0)
    }

    /// The line rate in Hz.
    pub fn line_rate(&self) -> Result<f64, NoRate> {
        self.rate(1)
    }
}

/// Answers as they are asked for (`Chip::answers`).
pub struct Answers<'a, I> {
    chip: &'a mut Chip,
    words: I,
}

impl<I: Iterator<Item = u32>> Iterator for Answers<'_, I> {
    type Item = Answer;

    fn next(&mut self) -> Option<Answer> {
        let word = self.words.next()?;
        Some(self.chip.step(word))
    }

    fn size_hint(&self) -> (usize, Option<usize>) {
        self.words.size_hint()
    }
}

/// The answers of a fresh chip to words, in one call; refused with 7 where there are fewer places.
///
/// ```
/// let mut answers = [0];
/// nt6861::replay(&[nt6861::word::read(nt6861::register::HVCON)], &mut answers)?;
/// assert_eq!(answers, [0x3C]);
/// # Ok::<(), nt6861::Refusal>(())
/// ```
pub fn replay(words: &[u32], answers: &mut [u32]) -> Result<(), Refusal> {
    Refusal::of(calls::replay(words, answers))
}
