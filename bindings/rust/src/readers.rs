//! Checks and readers: EDID blocks, value change dumps, bus changes, why a request line is up, recordings, rates, the NT6862's counters.

use crate::calls;
use crate::chip::{Chip, Outcome};
use crate::names::Refusal;

/// Checks an EDID base block; refused with the first rule that it breaks, 30 to 36.
///
/// ```
/// assert_eq!(nt6861::edid(&[0; 127]).unwrap_err().number(), 30);
/// ```
pub fn edid(block: &[u8]) -> Result<(), Refusal> {
    Refusal::of(calls::edid(block))
}

/// What took a flag up.
#[derive(Clone, Copy, Debug, PartialEq, Eq, Hash)]
#[allow(missing_docs)]
pub enum Reason {
    NotRequested,
    AlreadySet,
    VsyncRise(u64),
    P16Rise(u64),
    Timer(u64),
    MatchedAddress(Outcome, u64),
    NinthClock(u64),
    Ddc1Load(u64),
    SclFall(u64),
}

/// Why the request line of each of V, E, R, A, D, S is as it is after the words, which go to a copy of the chip; with the place of the word.
///
/// ```
/// use nt6861::{pin, register, requests, why, word, Chip, Reason};
/// let words = [word::write(register::IEX, requests::V), word::pin(pin::VSYNCI, 0), word::pin(pin::VSYNCI, 1)];
/// assert_eq!(why(&Chip::new(), &words)[..2], [Reason::VsyncRise(2), Reason::NotRequested]);
/// ```
pub fn why(chip: &Chip, words: &[u32]) -> [Reason; 6] {
    let mut told = [0; 12];
    calls::why(chip.as_bytes(), words, &mut told);
    core::array::from_fn(|source| {
        let place = told[2 * source + 1];
        match told[2 * source] {
            0 => Reason::NotRequested,
            1 => Reason::AlreadySet,
            2 => Reason::VsyncRise(place),
            3 => Reason::P16Rise(place),
            4 => Reason::Timer(place),
            code @ 5..=7 => Reason::MatchedAddress(Outcome::of(code as u32 - 4), place),
            8 => Reason::NinthClock(place),
            9 => Reason::Ddc1Load(place),
            _ => Reason::SclFall(place),
        }
    })
}

/// The bytes of a block of a recording, and the words that it holds at most.
pub const BLOCK: usize = 512;
/// The words that a block holds at most.
pub const BLOCK_WORDS: usize = 126;

/// Reads the block with this number; how many words it has.
///
/// ```
/// let (mut block, mut words) = ([0; nt6861::BLOCK], [0; nt6861::BLOCK_WORDS]);
/// nt6861::write_block(7, &[1, 2, 3], &mut block)?;
/// let count = nt6861::read_block(7, &block, &mut words)?;
/// assert_eq!(words[..count], [1, 2, 3]);
/// assert_eq!(nt6861::read_block(8, &block, &mut words).unwrap_err().number(), 12);
/// # Ok::<(), nt6861::Refusal>(())
/// ```
pub fn read_block(number: u32, bytes: &[u8], words: &mut [u32]) -> Result<usize, Refusal> {
    let mut count = 0;
    Refusal::of(calls::read_block(number, bytes, words, &mut count)).map(|()| count)
}

/// Writes the block with this number and at most 126 words.
pub fn write_block(number: u16, words: &[u32], area: &mut [u8]) -> Result<(), Refusal> {
    Refusal::of(calls::write_block(number, words, area))
}

fn some(hertz: f64) -> Option<f64> {
    (hertz > 0.0).then_some(hertz)
}

/// The field rate in Hz by the latch of VCNT, where there is one.
///
/// ```
/// assert_eq!(nt6861::field_rate(2000), Some(62.5));
/// ```
pub fn field_rate(v: u16) -> Option<f64> {
    some(calls::field_rate(v))
}

/// The line rate in Hz at HSEL 0 by the latch of HCNT, where there is one.
pub fn interval_rate(h: u16) -> Option<f64> {
    some(calls::interval_rate(h))
}

/// The line rate in Hz at HSEL 1 by the latches of HCNT and VCNT, where there is one.
///
/// ```
/// assert_eq!(nt6861::line_rate(500, 2000), Some(31250.0));
/// ```
pub fn line_rate(h: u16, v: u16) -> Option<f64> {
    some(calls::line_rate(h, v))
}

/// The sync counters of the NT6862, or of the NT6861, by themselves: twelve numbers (include/nt6861.h).
///
/// ```
/// use nt6861::Counters;
/// let mut counters = Counters::new(6862)?;
/// counters.clock(2000)?;
/// counters.v(0)?;
/// counters.v(1)?;
/// assert_eq!(counters.field_rate(), Some(62.5));
/// assert_eq!(Counters::new(6861)?.enhsel(1).unwrap_err().number(), 2);
/// # Ok::<(), nt6861::Refusal>(())
/// ```
#[derive(Clone, Copy, Debug, PartialEq, Eq, Hash)]
pub struct Counters([u16; 12]);

#[allow(missing_docs)]
impl Counters {
    pub fn new(chip: u32) -> Result<Counters, Refusal> {
        let mut state = [0; 12];
        Refusal::of(calls::counters(&mut state, 0, chip)).map(|()| Counters(state))
    }

    pub fn state(&self) -> &[u16; 12] {
        &self.0
    }

    fn call(&mut self, call: u32, value: u32) -> Result<(), Refusal> {
        Refusal::of(calls::counters(&mut self.0, call, value))
    }

    pub fn h(&mut self, level: u32) -> Result<(), Refusal> {
        self.call(1, level)
    }

    pub fn v(&mut self, level: u32) -> Result<(), Refusal> {
        self.call(2, level)
    }

    pub fn clock(&mut self, count: u32) -> Result<(), Refusal> {
        self.call(3, count)
    }

    pub fn enhsel(&mut self, bit: u32) -> Result<(), Refusal> {
        self.call(4, bit)
    }

    pub fn hsel(&mut self, bit: u32) -> Result<(), Refusal> {
        self.call(5, bit)
    }

    pub fn clear_h(&mut self) -> Result<(), Refusal> {
        self.call(6, 0)
    }

    pub fn clear_v(&mut self) -> Result<(), Refusal> {
        self.call(7, 0)
    }

    pub fn field_rate(&self) -> Option<f64> {
        some(calls::counters_field_rate(&self.0))
    }
}

#[cfg(feature = "std")]
mod lists {
    use super::*;

    /// A refusal at a place of the input, with the words before it.
    #[derive(Clone, Debug, PartialEq, Eq)]
    #[allow(missing_docs)]
    pub struct RefusedAt {
        pub refusal: Refusal,
        pub place: u64,
        pub words: Vec<u32>,
    }

    /// The event words of a value change dump.
    ///
    /// ```
    /// let dump = b"$timescale 1 us $end $var wire 1 ! SCL $end $enddefinitions $end #0 0! #8 1!";
    /// assert_eq!(nt6861::vcd(dump).unwrap(), [0x0300_1900, 0x0400_0000, 0x0300_1901]);
    /// let refused = nt6861::vcd(b"$timescale 1 us $end $enddefinitions $end #1 #0").unwrap_err();
    /// assert_eq!(refused.refusal.number(), 41);
    /// ```
    pub fn vcd(dump: &[u8]) -> Result<Vec<u32>, RefusedAt> {
        const PIECE: usize = 1 << 16;
        let (mut words, mut cursor, mut told) = (Vec::new(), [0; 8], [0; 2]);
        loop {
            let end = words.len();
            words.resize(end + PIECE, 0);
            let number = calls::vcd_more(dump, &mut words[end..], &mut cursor, &mut told);
            words.truncate(end + told[0] as usize);
            match Refusal::of(number) {
                Ok(()) => return Ok(words),
                Err(_) if number == 43 => {}
                Err(refusal) => return Err(RefusedAt { refusal, place: told[1], words }),
            }
        }
    }

    /// The addresses in a list of changes of SCL and SDA (include/nt6861.h), each with by which of the chip's own it is.
    ///
    /// ```
    /// assert_eq!(nt6861::addresses(0x6E, &[0x1800]).unwrap(), []);
    /// assert_eq!(nt6861::addresses(0x6E, &[0x1A00]).unwrap_err().number(), 2);
    /// ```
    pub fn addresses(ii_adr: u8, changes: &[u16]) -> Result<Vec<(u8, Outcome)>, Refusal> {
        let (mut found, mut count) = (vec![0; changes.len() / 16 + 1], 0);
        Refusal::of(calls::addresses(ii_adr, changes, &mut found, &mut count))?;
        Ok(found[..count].iter().map(|&one| ((one >> 8) as u8, Outcome::of(one as u32))).collect())
    }

    /// The words of a recording; refused with the number of the block as its place, and the words before it.
    ///
    /// ```
    /// let mut block = [0; nt6861::BLOCK];
    /// nt6861::write_block(0, &[1, 2, 3], &mut block)?;
    /// assert_eq!(nt6861::recording(&block).unwrap(), [1, 2, 3]);
    /// assert_eq!(nt6861::recording(&block[1..]).unwrap_err().refusal.number(), 10);
    /// # Ok::<(), nt6861::Refusal>(())
    /// ```
    pub fn recording(data: &[u8]) -> Result<Vec<u32>, RefusedAt> {
        let (mut words, mut piece) = (Vec::new(), [0; BLOCK_WORDS]);
        for (number, block) in data.chunks(BLOCK).enumerate() {
            match read_block(number.try_into().unwrap_or(u32::MAX), block, &mut piece) {
                Ok(count) => words.extend_from_slice(&piece[..count]),
                Err(refusal) => return Err(RefusedAt { refusal, place: number as u64, words }),
            }
        }
        Ok(words)
    }
}

#[cfg(feature = "std")]
pub use lists::{addresses, recording, vcd, RefusedAt};
