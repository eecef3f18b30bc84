//! Bytes to answers as text, generated words as bytes, and what they leave in the chip.

use crate::chip::{Chip, Outcome};
use crate::traffic::Traffic;

fn push_line(out: &mut Vec<u8>, answer: u32) {
    const DIGITS: &[u8; 16] = b"0123456789ABCDEF";
    for place in (0..8).rev() {
        out.push(DIGITS[(answer >> (4 * place) & 0xF) as usize]);
    }
    out.push(b'\n');
}

/// The answers to a stream of bytes, one a line, from a fresh chip.
pub fn replay(bytes: &[u8]) -> Vec<u8> {
    let mut chip = Chip::fresh();
    let mut out = Vec::with_capacity(bytes.len() / 4 * 9 + 9);
    let words = bytes.chunks_exact(4);
    let leftover = !words.remainder().is_empty();
    for word in words {
        push_line(
            &mut out,
            chip.step(u32::from_le_bytes([word[0], word[1], word[2], word[3]])),
        );
    }
    if leftover {
        push_line(&mut out, chip.answer_to_leftover());
    }
    out
}

/// A line for the chip after every `every` of `count` words of the generator.
pub fn sample(seed: u64, count: usize, every: usize, show: impl Fn(&Chip) -> String) -> String {
    let mut chip = Chip::fresh();
    let mut lines = String::new();
    for (place, word) in Traffic::new(seed).take(count).enumerate() {
        chip.step(word);
        if (place + 1) % every == 0 {
            lines += &show(&chip);
            lines.push('\n');
        }
    }
    lines
}

/// The hold as text: the 8 µs clocks so far, or `-` without one.
pub fn hold_text(chip: &Chip) -> String {
    match chip.hold() {
        Some(clocks) => clocks.to_string(),
        None => "-".to_string(),
    }
}

/// The outcome of the current transfer's address as text.
pub fn outcome_text(chip: &Chip) -> String {
    match chip.outcome() {
        Outcome::None => "none",
        Outcome::A0 => "a0",
        Outcome::IiAdr => "ii-adr",
        Outcome::Both => "both",
    }
    .to_string()
}

/// `count` words of the generator, lowest byte first, then `tail` bytes more.
pub fn generate(seed: u64, count: usize, tail: usize) -> Vec<u8> {
    let mut bytes = Vec::with_capacity(4 * count + tail);
    for word in Traffic::new(seed).take(count) {
        bytes.extend(word.to_le_bytes());
    }
    // Any bytes will do; these would begin a read of IRQX.
    bytes.extend(&[0x00, 0x10, 0x00][..tail]);
    bytes
}
