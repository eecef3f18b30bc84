//! The proved model of the NT6861 monitor microcontroller.
//!
//! ```
//! use nt6861::{pin, register, requests, word, Chip};
//!
//! let mut chip = Chip::new();
//! chip.write(register::IEX, requests::V)?;
//! chip.pin(pin::VSYNCI, 0)?;
//! chip.pin(pin::VSYNCI, 1)?;
//! assert_eq!(chip.requests(), requests::V);
//! assert_eq!(chip.read(register::IRQX)?, 1);
//! assert_eq!(chip.step(word::write(0x26, 0)).refusal().map(|refusal| refusal.number()), Some(2));
//! # Ok::<(), nt6861::Refusal>(())
//! ```
//!
//! `no_std` without the feature `std`, which has what makes lists of its own.
#![cfg_attr(not(feature = "std"), no_std)]
#![deny(unsafe_op_in_unsafe_fn)]
#![warn(missing_docs)]

#[cfg_attr(not(feature = "std"), allow(dead_code))]
mod calls;
mod chip;
mod machine;
mod names;
mod readers;

pub use chip::{replay, Answer, Answers, Chip, Lines, NoRate, Outcome, AREA};
pub use machine::{event, Cpu, Machine, Stopped, Tally, ROM_BYTES};
pub use names::{clock, pin, register, requests, word, Refusal, VERSION};
pub use readers::{edid, field_rate, interval_rate, line_rate, read_block, why, write_block, Counters, Reason, BLOCK, BLOCK_WORDS};
#[cfg(feature = "std")]
pub use readers::{addresses, recording, vcd, RefusedAt};

/// The version of the library that is linked, as `VERSION` is that of this package.
///
/// ```
/// assert_eq!(nt6861::version(), nt6861::VERSION);
/// ```
pub fn version() -> u32 {
    calls::version()
}
