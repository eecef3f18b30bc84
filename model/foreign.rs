//! Two runs through transfers to other devices (document 01, demand 3; document 02, Wish 13), in plain Rust.
//!
//! What is presumed of two lists is told from their words and the outside levels, and from the first state's levels, II ADR and
//! watchdog count; no step is taken for it and no phase looked at but the first one. What is then compared is the end of two runs of
//! the model.

use crate::chip::{pin, Chip, Phase};

/// A state and two lists of words to give to it.
#[derive(Clone, Debug)]
pub struct Pair {
    pub first: Chip,
    pub left: Vec<u32>,
    pub right: Vec<u32>,
}

/// What is presumed of a pair, one by one.
#[derive(Clone, Copy, PartialEq, Eq, Debug)]
pub enum Premise {
    /// The first state is in DDC2B.
    Ddc2b,
    /// A START has just been seen, or the bus is found idle.
    Begun,
    /// The lists are equally long.
    Length,
    /// Place by place they have the same word, or both touch SDA.
    Words,
    /// No write that is taken turns DDC off.
    DdcOn,
    /// No write that is taken asks for DDC1.
    NoDdc1,
    /// No completed address matches, in either run.
    NoMatch,
    /// RESET does not go low.
    NoReset,
    /// No watchdog clock is the 64th.
    NoWatchdog,
    /// SDA events made while SCL is high are the same.
    SameEvents,
    /// SDA is equal in both runs just before each of these.
    EqualBefore,
}

impl Premise {
    pub const ALL: [Premise; 11] = [
        Premise::Ddc2b,
        Premise::Begun,
        Premise::Length,
        Premise::Words,
        Premise::DdcOn,
        Premise::NoDdc1,
        Premise::NoMatch,
        Premise::NoReset,
        Premise::NoWatchdog,
        Premise::SameEvents,
        Premise::EqualBefore,
    ];
}

/// The outside levels that the premises speak of.
#[derive(Clone, Copy, PartialEq, Eq, Debug)]
pub struct Outside {
    pub sda: bool,
    pub scl: bool,
    pub reset: bool,
}

impl Outside {
    pub fn of(first: &Chip) -> Outside {
        Outside {
            sda: first.level(pin::SDA),
            scl: first.level(pin::SCL),
            reset: first.level(pin::RESET),
        }
    }

    pub fn put(&mut self, word: u32) {
        self.sda = level_put(word, pin::SDA).unwrap_or(self.sda);
        self.scl = level_put(word, pin::SCL).unwrap_or(self.scl);
        self.reset = level_put(word, pin::RESET).unwrap_or(self.reset);
    }
}

/// The level that a word puts at a pin.
pub fn level_put(word: u32, which: u8) -> Option<bool> {
    match word ^ (0x0300_0000 | u32::from(which) << 8) {
        0 => Some(false),
        1 => Some(true),
        _ => None,
    }
}

pub fn touches_sda(word: u32) -> bool {
    level_put(word, pin::SDA).is_some()
}

/// Each word with the levels just before it.
fn places(first: &Chip, words: &[u32]) -> Vec<(u32, Outside)> {
    let mut outside = Outside::of(first);
    words
        .iter()
        .map(|&word| {
            let before = outside;
            outside.put(word);
            (word, before)
        })
        .collect()
}

/// Register and byte of a write that is answered 0: RESET is high, and the register takes writes.
fn write_taken((word, before): (u32, Outside)) -> Option<(u8, u8)> {
    let [kind, gap, register, byte] = word.to_be_bytes();
    let takes = register <= 0x25 && !matches!(register, 0x07..=0x0A | 0x0E | 0x10);
    (kind == 2 && gap == 0 && takes && before.reset).then_some((register, byte))
}

/// The addresses completed, each with II ADR as last written by then.
pub fn addresses(first: &Chip, words: &[u32]) -> Vec<(u8, u8)> {
    let mut completed = Vec::new();
    let mut own = first.iiadr;
    // SDA at the rises of SCL since the last START; none before a START and after a STOP
    let mut levels = start_just_seen(first).then(Vec::new);
    for (word, before) in places(first, words) {
        if let Some((0x13, byte)) = write_taken((word, before)) {
            own = byte;
        }
        if !before.reset {
            continue;
        }
        match (level_put(word, pin::SDA), level_put(word, pin::SCL)) {
            (Some(sda), _) if before.scl && sda != before.sda => levels = (!sda).then(Vec::new),
            (_, Some(true)) if !before.scl => {
                if let Some(levels) = &mut levels {
                    levels.push(before.sda);
                    if levels.len() == 8 {
                        let byte = levels
                            .iter()
                            .fold(0, |byte, &level| byte << 1 | u8::from(level));
                        completed.push((byte, own));
                    }
                }
            }
            _ => {}
        }
    }
    completed
}

fn start_just_seen(first: &Chip) -> bool {
    let seen = Phase::Incoming {
        address: true,
        bits: 0,
        byte: 0,
    };
    first.phase == seen
}

/// Bits 7..1 are those of A0H or of II ADR.
fn matches((byte, own): (u8, u8)) -> bool {
    byte >> 1 == 0x50 || byte >> 1 == own >> 1
}

fn no_write(first: &Chip, words: &[u32], register: u8, bit: u8) -> bool {
    !places(first, words)
        .into_iter()
        .filter_map(write_taken)
        .any(|(to, byte)| to == register && byte & bit != 0)
}

fn reset_stays(first: &Chip, words: &[u32]) -> bool {
    !places(first, words)
        .into_iter()
        .any(|(word, before)| before.reset && level_put(word, pin::RESET) == Some(false))
}

fn watchdog_waits(first: &Chip, words: &[u32]) -> bool {
    let mut clocks = u32::from(first.watchdog);
    for (word, before) in places(first, words) {
        if write_taken((word, before)) == Some((0x12, 0x55)) {
            clocks = 0;
        }
        if word == 0x0400_0300 && before.reset {
            clocks += 1;
            if clocks >= 64 {
                return false;
            }
        }
    }
    true
}

/// A test at each place where SDA is touched in either run while SCL is high in it.
fn at_high(pair: &Pair, test: impl Fn((u32, Outside), (u32, Outside)) -> bool) -> bool {
    let high = |(word, before): (u32, Outside)| before.scl && touches_sda(word);
    places(&pair.first, &pair.left)
        .into_iter()
        .zip(places(&pair.first, &pair.right))
        .all(|(left, right)| !(high(left) || high(right)) || test(left, right))
}

pub fn holds(premise: Premise, pair: &Pair) -> bool {
    let Pair { first, left, right } = pair;
    let in_both = |test: &dyn Fn(&[u32]) -> bool| test(left) && test(right);
    match premise {
        Premise::Ddc2b => !first.enddc && !first.md,
        Premise::Begun => start_just_seen(first) || first.phase == Phase::Idle,
        Premise::Length => left.len() == right.len(),
        Premise::Words => left
            .iter()
            .zip(right)
            .all(|(&word, &other)| word == other || touches_sda(word) && touches_sda(other)),
        Premise::DdcOn => in_both(&|words| no_write(first, words, 0x15, 0x08)),
        Premise::NoDdc1 => in_both(&|words| no_write(first, words, 0x05, 0x01)),
        Premise::NoMatch => in_both(&|words| !addresses(first, words).into_iter().any(matches)),
        Premise::NoReset => in_both(&|words| reset_stays(first, words)),
        Premise::NoWatchdog => in_both(&|words| watchdog_waits(first, words)),
        Premise::SameEvents => at_high(pair, |(word, _), (other, _)| word == other),
        Premise::EqualBefore => at_high(pair, |(_, before), (_, other)| before.sda == other.sda),
    }
}

/// What two runs that agree have in common of an end state: all but SDA's level, II DAT and address bits not yet whole.
fn compared(mut chip: Chip) -> Chip {
    chip.levels &= !(1 << pin::SDA);
    chip.iidat = 0;
    if let Phase::Incoming {
        address: true,
        bits: 0..=7,
        byte,
    } = &mut chip.phase
    {
        *byte = 0;
    }
    chip
}

/// Two runs that do not agree: the place of the first answers that differ, or the end states.
#[derive(Clone, Copy, PartialEq, Eq, Debug)]
pub enum Difference {
    Answers(usize, u32, u32),
    Number(usize, usize),
    State,
}

/// The two runs, and where they differ. The byte of a read of II DAT that is answered 0 is left out.
pub fn difference(pair: &Pair) -> (Option<Difference>, Chip, Chip) {
    let (mut left, mut right) = (pair.first, pair.first);
    let mut found = None;
    for (place, (&word, &other)) in pair.left.iter().zip(&pair.right).enumerate() {
        let (answer, another) = (left.step(word), right.step(other));
        let hidden = if word == 0x0100_1400 && answer >> 24 == 0 {
            0xFF
        } else {
            0
        };
        if answer | hidden != another | hidden && found.is_none() {
            found = Some(Difference::Answers(place, answer, another));
        }
    }
    let common = pair.left.len().min(pair.right.len());
    for &word in &pair.left[common..] {
        left.step(word);
    }
    for &word in &pair.right[common..] {
        right.step(word);
    }
    if pair.left.len() != pair.right.len() {
        found = found.or(Some(Difference::Number(pair.left.len(), pair.right.len())));
    }
    if compared(left) != compared(right) {
        found = found.or(Some(Difference::State));
    }
    (found, left, right)
}
