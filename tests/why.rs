//! The proved reasons of request lines, linked from their static library, beside the independent model's: hand-worked lists for each sort
//! and each answer, and generated words from states that words have led to and from states with flags set.

#[allow(dead_code)]
mod nt6861;

use nt6861_model::chip::{Chip, Outcome};
use nt6861_model::state;
use nt6861_model::traffic::{Rng, Traffic};
use nt6861_model::why::{reason_text, why, Reason, Sort, SOURCES};
use std::collections::BTreeSet;
use std::time::Instant;

#[link(name = "why_capi", kind = "static")]
extern "C" {}

fn call(area: &[u8], words: &[u32], told: &mut [u64; 12]) -> u8 {
    nt6861::why(area, words, told)
}

/// A fresh chip with these flags in IRQX and these enable bits in IEX.
fn chip(irqx: u8, iex: u8) -> Chip {
    let mut chip = Chip::fresh();
    chip.irqx = irqx;
    chip.iex = iex;
    chip
}

/// A code and a place as the model has them.
fn reason(code: u64, place: u64) -> Reason {
    let sort = match code {
        0 | 1 => {
            assert_eq!(place, 0, "a place without an event");
            return if code == 0 { Reason::NotRequested } else { Reason::AlreadySet };
        }
        2 => Sort::VsyncRise,
        3 => Sort::P16Rise,
        4 => Sort::Timer,
        5 => Sort::MatchedAddress(Outcome::A0),
        6 => Sort::MatchedAddress(Outcome::IiAdr),
        7 => Sort::MatchedAddress(Outcome::Both),
        8 => Sort::NinthClock,
        9 => Sort::Ddc1Load,
        10 => Sort::SclFall,
        _ => panic!("code {code}"),
    };
    Reason::Event(place as usize, sort)
}

/// From the chip as bytes, by docs/STATE.md.
fn proved(chip: &Chip, words: &[u32]) -> [Reason; 6] {
    let mut told = [u64::MAX; 12];
    assert_eq!(call(&state::write(chip), words, &mut told), 0);
    std::array::from_fn(|source| reason(told[2 * source], told[2 * source + 1]))
}

fn text(reasons: [Reason; 6]) -> String {
    let lines: Vec<String> = reasons.iter().zip(SOURCES).map(|(&reason, (letter, _))| format!("{letter} {}", reason_text(reason))).collect();
    lines.join("; ")
}

fn pin(pin: u32, level: u32) -> u32 {
    0x0300_0000 | pin << 8 | level
}

fn write(register: u32, byte: u32) -> u32 {
    0x0200_0000 | register << 8 | byte
}

/// DDC2B on with this II ADR, a START and the eight bits of an address: flag A is set by word 27, the eighth rise; S by word 4.
fn addressed(own: u32, byte: u32) -> Vec<u32> {
    let mut words = vec![write(0x13, own), write(0x05, 0), write(0x15, 0), pin(24, 0)];
    for place in (0..8).rev() {
        words.extend([pin(25, 0), pin(24, byte >> place & 1), pin(25, 1)]);
    }
    words
}

/// DDC1 on and ten rises of VSYNCI: V is set by word 2, and the tenth rise, word 20, loads and sets D.
fn loaded() -> Vec<u32> {
    let mut words = vec![write(0x15, 0)];
    for _ in 0..10 {
        words.extend([pin(27, 0), pin(27, 1)]);
    }
    words
}

/// What is looked at, the flags and enable bits at the start, the words, and the reasons worked out by hand, sources with none left out.
fn cases() -> Vec<(&'static str, u8, u8, Vec<u32>, &'static str)> {
    let vsync = [pin(27, 0), pin(27, 1)];
    let p16 = [pin(14, 0), pin(14, 1)];
    let join = |parts: &[&[u32]]| parts.concat();
    let held = |own, byte| join(&[&addressed(own, byte), &[pin(25, 0), pin(25, 1), pin(25, 0)]]);
    vec![
        ("no words", 0, 0x3F, vec![], ""),
        ("flags at the start", 0x3F, 0x3F, vec![], "V already-set; E already-set; R already-set; A already-set; D already-set; S already-set"),
        ("flags that are not enabled", 0x3F, 0x2A, vec![], "E already-set; A already-set; S already-set"),
        ("a rise of VSYNCI", 0, 0x3F, vsync.to_vec(), "V place 1 vsync-rise"),
        ("a rise that is not enabled", 0, 0, vsync.to_vec(), ""),
        ("enabled after its rise: the flag's change is named", 0, 0, join(&[&vsync, &[write(0x0F, 1)]]), "V place 1 vsync-rise"),
        ("a second rise, the flag being 1", 0, 0x3F, join(&[&vsync, &vsync]), "V place 1 vsync-rise"),
        ("cleared and set again", 0, 0x3F, join(&[&vsync, &[write(0x11, 1)], &vsync]), "V place 4 vsync-rise"),
        ("set at the start, and a rise", 1, 0x3F, vsync.to_vec(), "V already-set"),
        ("set at the start, cleared", 1, 0x3F, vec![write(0x11, 1)], ""),
        ("set at the start, cleared, set", 1, 0x3F, join(&[&[write(0x11, 1)], &vsync]), "V place 2 vsync-rise"),
        ("a 0 in CLRFLG clears nothing", 1, 0x3F, vec![write(0x11, 0x3E)], "V already-set"),
        ("a write to CLRFLG refused while RESET is low", 0, 0x3F, vec![pin(28, 0), write(0x11, 0x3F), pin(28, 1)], ""),
        ("RESET falling clears, and IEX with it", 0x3F, 0x3F, vec![pin(28, 0)], ""),
        ("RESET falling, enabled again, a rise", 0x3F, 0x3F, join(&[&[pin(28, 0), pin(28, 1), write(0x0F, 0x3F)], &p16]), "E place 4 p16-rise"),
        ("the watchdog clears", 0x3F, 0x3F, join(&[&[0x0400_0300; 64], &[write(0x0F, 0x3F)], &vsync]), "V place 66 vsync-rise"),
        ("a rise of P16", 0, 0x3F, p16.to_vec(), "E place 1 p16-rise"),
        ("refused words and words that are no event have a place", 0, 0x3F, join(&[&[0, 0x0100_2600, 0x0100_0F00], &p16]), "E place 4 p16-rise"),
        ("the base timer", 0, 0x3F, vec![write(0x16, 0xFF), write(0x17, 0), 0x0400_0200, 0x0400_0100], "R place 3 timer"),
        ("an address of A0H", 0, 0x3F, addressed(0x50, 0xA0), "A place 27 matched-address a0; S place 4 scl-fall"),
        ("an address of II ADR", 0, 0x3F, addressed(0x50, 0x51), "A place 27 matched-address ii-adr; S place 4 scl-fall"),
        ("an address of both", 0, 0x3F, addressed(0xA0, 0xA1), "A place 27 matched-address both; S place 4 scl-fall"),
        ("the outcome is the event's, not the state's", 0, 0x3F, join(&[&addressed(0x50, 0xA0), &[write(0x13, 0xA0), write(0x05, 1)]]), "A place 27 matched-address a0; S place 4 scl-fall"),
        ("a foreign address", 0, 0x3F, addressed(0x50, 0x52), "S place 4 scl-fall"),
        ("the ninth clock", 0, 0x3F, held(0x50, 0xA0), "A place 27 matched-address a0; D place 30 ninth-clock; S place 4 scl-fall"),
        ("a load of DDC1: one event named for two sources", 0, 0x3F, join(&[&[write(0x11, 1)], &loaded()[..19], &[write(0x11, 1)], &loaded()[19..]]), "V place 22 vsync-rise; D place 22 ddc1-load"),
        ("a load of DDC1", 0, 0x3F, loaded(), "V place 2 vsync-rise; D place 20 ddc1-load"),
        ("D by its mode, ninth clock after a load", 0, 0x3F, join(&[&loaded(), &[write(0x11, 0x3F)], &held(0x50, 0xA0)]), "A place 49 matched-address a0; D place 52 ninth-clock; S place 26 scl-fall"),
        ("a fall of SCL in DDC1", 0, 0x3F, vec![write(0x15, 0), pin(25, 0)], "S place 1 scl-fall"),
    ]
}

fn hand_worked() -> usize {
    for (name, irqx, iex, words, expected) in cases() {
        let given = proved(&chip(irqx, iex), &words);
        let told: Vec<String> = text(given).split("; ").filter(|line| !line.ends_with("not-requested")).map(String::from).collect();
        assert_eq!(told.join("; "), expected, "proved: {name}");
        assert_eq!(given, why(chip(irqx, iex), &words), "model: {name}");
    }
    cases().len()
}

/// Areas that are refused: nothing is told, whatever the words are.
fn refused() {
    let mut told = [7; 12];
    let good = state::write(&Chip::fresh());
    for length in [0, 1, 127] {
        assert_eq!(call(&good[..length], &[0x0100_0600], &mut told), 15, "{length} bytes");
    }
    assert_eq!(call(&[0; 129], &[], &mut told), 15);
    for place in 0..128 {
        let mut bad = good;
        bad[place] = 0xA5;
        let number = call(&bad, &[], &mut told);
        if number == 8 {
            assert_eq!(told, [7; 12], "told of a refused area");
        } else {
            assert_eq!(number, 0);
            told = [7; 12];
        }
    }
    let mut spare = good;
    spare[60] = 1;
    assert_eq!(call(&spare, &[0x0100_0600], &mut told), 8);
    assert_eq!(told, [7; 12]);
}

/// Words a second of the call and of the list call on the same words, the best of seven runs in turn.
fn bench() {
    println!("words, why in M words/s, list call in M words/s, ratio");
    for count in [62_500, 250_000, 1_000_000, 4_000_000] {
        let words: Vec<u32> = Traffic::new(1).take(count).collect();
        let (mut answers, mut told) = (vec![0u32; count], [0; 12]);
        let start = state::write(&Chip::fresh());
        let mut best = [f64::MAX; 2];
        for _ in 0..7 {
            let begin = Instant::now();
            assert_eq!(call(&start, &words, &mut told), 0);
            best[0] = best[0].min(begin.elapsed().as_secs_f64());
            let begin = Instant::now();
            assert_eq!(nt6861::replay(&words, &mut answers), 0);
            best[1] = best[1].min(begin.elapsed().as_secs_f64());
        }
        let rate = |seconds: f64| count as f64 / seconds / 1e6;
        println!("{count}, {:.1}, {:.1}, {:.2}", rate(best[0]), rate(best[1]), best[1] / best[0]);
    }
}

fn main() {
    if std::env::args().nth(1).as_deref() == Some("bench") {
        return bench();
    }
    let worked = hand_worked();
    refused();
    let mut rng = Rng::new(3);
    let mut seen = BTreeSet::new();
    let mut lists = 0;
    for seed in 1..=40 {
        let words: Vec<u32> = Traffic::new(seed).take(4_000).collect();
        for _ in 0..60 {
            let from = rng.below(words.len() as u32) as usize;
            let to = from + rng.below((words.len() - from) as u32 + 1) as usize;
            // from the chip that the words before have left, or from a fresh one with flags set
            let mut start = chip(rng.byte() & 0x3F, rng.byte() & 0x3F);
            if rng.flip() {
                start = Chip::fresh();
                words[..from].iter().for_each(|&word| {
                    start.step(word);
                });
            }
            let (given, expected) = (proved(&start, &words[from..to]), why(start, &words[from..to]));
            if given != expected {
                println!("why: seed {seed}, words {from} to {to} from {start:?}\n  proved {}\n  model  {}", text(given), text(expected));
                std::process::exit(1);
            }
            for (reason, (letter, _)) in given.iter().zip(SOURCES) {
                let text = reason_text(*reason);
                let kind = text.strip_prefix("place ").map_or(text.as_str(), |rest| &rest[rest.find(' ').unwrap() + 1..]);
                seen.insert(format!("{letter} {kind}"));
            }
            lists += 1;
        }
    }
    // two answers without an event for each source, and nine sorts
    assert_eq!(seen.len(), 21, "not every answer was reached: {seen:?}");
    println!("why: {worked} hand-worked lists, {lists} generated ones from states reached and states with flags set, and refused areas agree; all 21 answers occur");
}
