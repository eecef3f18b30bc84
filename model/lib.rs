//! A second, independent model of the NT6861 peripherals, for comparison by running.
//!
//! It is written from document 01, the wishes of document 02 that touch the chip, and the readings in docs/DECISIONS.md, and
//! shares no code with the proved crates. `core6502` is the processor around the chip (Wish 5), with `cpu_opcodes`, its table,
//! `firmware`, runs as text, `host`, what happens on the bus beside a run, and `programs`, random ones. `acts`, `bus_host` and
//! `symbols` stand in commands/: the host's language, what it does, and labels, over this core and over the proved one.

#[path = "../commands/acts.rs"]
pub mod acts;
pub mod addresses;
#[path = "../commands/bus_host.rs"]
pub mod bus_host;
pub mod chip;
pub mod core6502;
#[cfg(test)]
mod core6502_tests;
pub mod counters6862;
pub mod coverage;
pub mod edid;
pub mod firmware;
#[cfg(test)]
mod firmware_tests;
pub mod foreign;
pub mod host;
pub mod opcodes;
pub mod programs;
pub mod recordings;
pub mod replay;
pub mod state;
#[path = "../commands/symbols.rs"]
pub mod symbols;
#[cfg(test)]
mod tests;
pub mod traffic;
pub mod vcd;
pub mod wave;
pub mod why;
