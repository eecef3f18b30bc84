//! The proved chip for programs in Rust: the safe calls of bindings/rust on a state in 128 bytes, over the part chip_capi of the library; who uses `why` links
//! the part why_capi too.

#[path = "../bindings/rust/src/calls.rs"]
mod calls;

#[allow(unused_imports)]
pub use calls::{fresh, hold, lines, outcome, replay, run, step, why};

#[link(name = "chip_capi", kind = "static")]
extern "C" {}

/// The word of the call, and the place of the rate after it.
pub fn rate(area: &[u8], which: u32, mut hertz: f64) -> (u32, f64) {
    let word = calls::rate(area, which, &mut hertz);
    (word, hertz)
}
