//! Why each request line is up, found by looking back over recorded states.
//!
//! Written from Wish 3 of document 02, with Wish 12's outcomes, and from the readings in docs/DECISIONS.md; shares no code with the
//! proved crates. Every state is kept, and the last change of a flag is looked for from the end.

use crate::chip::{decode, flag, pin, Chip, Event, Outcome};

/// What set a flag.
#[derive(Clone, Copy, PartialEq, Eq, Debug)]
pub enum Sort {
    VsyncRise,
    P16Rise,
    Timer,
    MatchedAddress(Outcome),
    NinthClock,
    Ddc1Load,
    SclFall,
}

/// Why a line is as it is.
#[derive(Clone, Copy, PartialEq, Eq, Debug)]
pub enum Reason {
    NotRequested,
    AlreadySet,
    Event(usize, Sort),
}

/// The sources in the order in which they are told: the letter, and the flag's bit in IRQX.
pub const SOURCES: [(char, u8); 6] = [
    ('V', flag::V),
    ('E', flag::E),
    ('R', flag::R),
    ('A', flag::A),
    ('D', flag::D),
    ('S', flag::S),
];

/// The reasons after these words from this chip.
pub fn why(start: Chip, words: &[u32]) -> [Reason; 6] {
    let mut states = vec![start];
    for &word in words {
        let mut chip = states[states.len() - 1];
        chip.step(word);
        states.push(chip);
    }
    SOURCES.map(|(_, bit)| reason(bit, &states, words))
}

/// Looks back from the last state to the last change of the flag from 0 to 1.
fn reason(bit: u8, states: &[Chip], words: &[u32]) -> Reason {
    if states[words.len()].requests() & bit == 0 {
        return Reason::NotRequested;
    }
    let set = |place: usize| states[place].irqx & bit != 0;
    match (0..words.len()).rev().find(|&place| !set(place) && set(place + 1)) {
        Some(place) => Reason::Event(place, sort(bit, &states[place], words[place], &states[place + 1])),
        None => {
            assert!((0..states.len()).all(set), "a line is up whose flag was neither set nor there from the start");
            Reason::AlreadySet
        }
    }
}

/// The sort of the event that set the flag, with what must hold of a word that can.
fn sort(bit: u8, before: &Chip, word: u32, after: &Chip) -> Sort {
    let event = decode(word).expect("a refused word sets no flag");
    let moved = |number| matches!(event, Event::Pin { pin, .. } if pin == number);
    match bit {
        flag::V => {
            assert!(moved(pin::VSYNCI) && after.level(pin::VSYNCI));
            Sort::VsyncRise
        }
        flag::E => {
            assert!(moved(pin::P16) && after.level(pin::P16));
            Sort::P16Rise
        }
        flag::R => {
            assert!(before.bt == 0xFF && after.bt == 0);
            Sort::Timer
        }
        flag::A => {
            assert!(moved(pin::SCL) && before.ddc2b() && after.outcome() != Outcome::None);
            Sort::MatchedAddress(after.outcome())
        }
        flag::D if before.ddc1() => {
            assert!(moved(pin::VSYNCI));
            Sort::Ddc1Load
        }
        flag::D => {
            assert!(moved(pin::SCL) && before.ddc2b());
            Sort::NinthClock
        }
        _ => {
            assert!(moved(pin::SCL) && !after.level(pin::SCL));
            Sort::SclFall
        }
    }
}

/// A reason as it is printed behind its source.
pub fn reason_text(reason: Reason) -> String {
    let sort = match reason {
        Reason::NotRequested => return "not-requested".to_string(),
        Reason::AlreadySet => return "already-set".to_string(),
        Reason::Event(_, sort) => sort,
    };
    let Reason::Event(place, _) = reason else { unreachable!() };
    let text = match sort {
        Sort::VsyncRise => "vsync-rise",
        Sort::P16Rise => "p16-rise",
        Sort::Timer => "timer",
        Sort::MatchedAddress(Outcome::A0) => "matched-address a0",
        Sort::MatchedAddress(Outcome::IiAdr) => "matched-address ii-adr",
        Sort::MatchedAddress(_) => "matched-address both",
        Sort::NinthClock => "ninth-clock",
        Sort::Ddc1Load => "ddc1-load",
        Sort::SclFall => "scl-fall",
    };
    format!("place {place} {text}")
}

/// The six lines for a stream of bytes from a fresh chip; one to three bytes at the end are a refused word, which names nothing.
pub fn why_lines(bytes: &[u8]) -> String {
    let words: Vec<u32> = bytes
        .chunks_exact(4)
        .map(|word| u32::from_le_bytes([word[0], word[1], word[2], word[3]]))
        .collect();
    why(Chip::fresh(), &words)
        .iter()
        .zip(SOURCES)
        .map(|(&reason, (letter, _))| format!("{letter} {}\n", reason_text(reason)))
        .collect()
}
