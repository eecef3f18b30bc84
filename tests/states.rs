//! The proved calls on a state in bytes beside the independent model's, which has its own chip and its own reading of docs/STATE.md:
//! the same numbers, answers and bytes, for generated traffic and for areas, lengths and words at random.

#[allow(dead_code)]
mod nt6861;

use nt6861_model::chip::{Chip, Outcome, Phase};
use nt6861_model::state;
use nt6861_model::traffic::{Rng, Traffic};

/// What was seen, so that no rule goes untried unnoticed.
#[derive(Default)]
struct Seen {
    steps: usize,
    accepted: usize,
    refused: usize,
    lengths: usize,
    phases: [usize; 7],
    outcomes: [usize; 4],
    numbers: [usize; 16],
}

fn stop(what: &str, area: &[u8], word: u32) -> ! {
    println!("states: {what}: word {word:08X}, area {area:02X?}");
    std::process::exit(1);
}

/// One step, the hold, the outcome and both rates on one area, of any length and content.
fn compare(area: &mut [u8], word: u32, seen: &mut Seen) {
    let before = area.to_vec();
    let mut theirs = before.clone();
    let read = state::read(&before);
    if area.len() == state::SIZE {
        *if read.is_ok() { &mut seen.accepted } else { &mut seen.refused } += 1;
    } else {
        seen.lengths += 1;
    }
    let told = |value: &dyn Fn(&Chip) -> u32| read.as_ref().map_or_else(|number| u32::from(*number) << 24, value);
    if nt6861::hold(area) != told(&|chip| chip.hold().map_or(0, u32::from)) {
        stop("the hold differs", &before, word);
    }
    let outcome = |chip: &Chip| match chip.outcome() {
        Outcome::None => 0,
        Outcome::A0 => 1,
        Outcome::IiAdr => 2,
        Outcome::Both => 3,
    };
    if nt6861::outcome(area) != told(&outcome) {
        stop("the outcome differs", &before, word);
    }
    if let Ok(chip) = &read {
        seen.phases[usize::from(before[22])] += 1;
        seen.outcomes[outcome(chip) as usize] += 1;
    }
    for which in 0..3 {
        let expected = read.map_or_else(|number| (u32::from(number) << 24, -1.0), |chip| rate(&chip, which));
        if nt6861::rate(area, which, -1.0) != expected {
            stop("a rate differs", &before, which);
        }
    }
    let answer = nt6861::step(area, word);
    if answer != state::step(&mut theirs, word) {
        stop("the answer differs", &before, word);
    }
    if *area != theirs[..] {
        stop("the bytes differ", &before, word);
    }
    let number = (answer >> 24) as usize;
    if number != 0 && *area != before[..] {
        stop("a refused area is written", &before, word);
    }
    seen.numbers[number] += 1;
    seen.steps += 1;
}

/// Document 01, "Counting sync", on the latches and overflow bits that a rate needs.
fn rate(chip: &Chip, which: u32) -> (u32, f64) {
    let (h, v) = (chip.hcnt, chip.vcnt);
    match which {
        0 if v.overflow => (2, -1.0),
        0 if v.latch == 0 => (1, -1.0),
        0 => (0, 125_000.0 / f64::from(v.latch)),
        1 if h.overflow || chip.hsel && v.overflow => (2, -1.0),
        1 if h.latch == 0 || chip.hsel && v.latch == 0 => (1, -1.0),
        1 if chip.hsel => (0, f64::from(h.latch) * 125_000.0 / f64::from(v.latch)),
        1 => (0, f64::from(h.latch) * 15_625.0 / 128.0),
        _ => (0x0200_0000, -1.0),
    }
}

fn any_word(random: &mut Rng) -> u32 {
    match random.below(4) {
        0 => random.next() as u32,
        1 => random.below(6) << 24 | random.below(0x2A) << 8 | random.below(256),
        _ => random.range(1, 5) << 24 | random.below(0x26) << 8 | random.below(2),
    }
}

/// Traffic on one area, with copies of it damaged in a byte or two, cut or made longer.
fn traffic(seed: u64, count: usize, seen: &mut Seen) {
    let mut random = Rng::new(seed);
    let mut area = vec![0; state::SIZE];
    assert_eq!(nt6861::fresh(&mut area), 0);
    assert_eq!(area, state::write(&Chip::fresh()));
    for word in Traffic::new(seed).take(count) {
        compare(&mut area, word, seen);
        if random.one_in(2) {
            let mut other = area.clone();
            for _ in 0..random.range(1, 2) {
                let place = if random.flip() { random.below(36) } else { random.below(128) };
                other[place as usize] = if random.flip() { random.byte() } else { random.below(12) as u8 };
            }
            compare(&mut other, any_word(&mut random), seen);
        }
        if random.one_in(50) {
            let mut other = area.clone();
            other.resize(random.below(300) as usize, 0);
            compare(&mut other, any_word(&mut random), seen);
        }
    }
}

/// The list call on damaged and whole areas, with too few places at times, then the same words one by one.
fn lists(seed: u64, count: usize) {
    let mut random = Rng::new(seed);
    let mut words = Traffic::new(seed);
    let mut area = [0; state::SIZE];
    assert_eq!(nt6861::fresh(&mut area), 0);
    for _ in 0..count {
        let list: Vec<u32> = words.by_ref().take(random.below(40) as usize).collect();
        let places = (list.len() + 4).saturating_sub(random.below(8) as usize);
        let mut lent = area;
        if random.one_in(6) {
            lent[random.below(128) as usize] ^= 1 << random.below(8);
        }
        let mut theirs = lent;
        let (mut ours_answers, mut their_answers) = (vec![0xAAAA_AAAA; places], vec![0xAAAA_AAAA; places]);
        let number = nt6861::run(&mut lent, &list, &mut ours_answers);
        let expected = state::run(&mut theirs, &list, &mut their_answers);
        if (number, &ours_answers, lent) != (expected, &their_answers, theirs) {
            stop("the list call differs", &area, list.len() as u32);
        }
        for word in list {
            nt6861::step(&mut area, word);
        }
        assert_eq!(nt6861::run(&mut area.clone()[..127], &[], &mut []), 15);
        assert_eq!(nt6861::run(&mut [0; 128], &[], &mut []), 8);
        assert_eq!(nt6861::replay(&[0], &mut []), 7);
    }
}

/// The blocks of docs/STATE.md: indented lines of words of eight digits, and of bytes behind an offset.
fn page() -> (Vec<u32>, Vec<u8>) {
    let text = std::fs::read_to_string("docs/STATE.md").expect("docs/STATE.md");
    let (mut words, mut bytes) = (vec![], vec![]);
    for line in text.lines().filter_map(|line| line.strip_prefix("    ")) {
        match line.split_once(": ") {
            Some((_, row)) => bytes.extend(row.split(' ').map(|byte| u8::from_str_radix(byte, 16).expect("a byte"))),
            None => words.extend(line.split(' ').map(|word| u32::from_str_radix(word, 16).expect("a word"))),
        }
    }
    (words, bytes)
}

/// The two examples of the page are what the proved calls write.
fn examples() {
    let (words, bytes) = page();
    let mut area = [0; state::SIZE];
    assert_eq!(nt6861::fresh(&mut area), 0);
    assert_eq!(area, bytes[..state::SIZE], "docs/STATE.md: the fresh chip");
    assert_eq!(nt6861::run(&mut area, &words, &mut vec![0; words.len()]), 0);
    assert_eq!(area, bytes[state::SIZE..], "docs/STATE.md: the chip amid a transfer");
}

fn main() {
    examples();
    let mut seen = Seen::default();
    for seed in 1..=8 {
        traffic(seed, 40_000, &mut seen);
        lists(seed, 4_000);
    }
    let mut random = Rng::new(99);
    for _ in 0..200_000 {
        let mut area: Vec<u8> = (0..random.below(200)).map(|_| random.byte()).collect();
        compare(&mut area, any_word(&mut random), &mut seen);
    }
    for length in 0..400 {
        // Any other length than 128 is refused with 15, and the area keeps its bytes: also by the step, before a word that is no event.
        let mut area = vec![7; length];
        let number = nt6861::fresh(&mut area);
        assert_eq!(number, if length == state::SIZE { 0 } else { 15 }, "fresh: {length} bytes");
        if length != state::SIZE {
            assert!(area.iter().all(|&byte| byte == 7), "fresh: {length} bytes written");
            assert_eq!(nt6861::step(&mut area, u32::MAX), 0x0F00_0000, "step: {length} bytes");
            assert!(area.iter().all(|&byte| byte == 7), "step: {length} bytes written");
        }
    }
    assert!(seen.phases.iter().all(|&n| n > 100), "a phase is seen too seldom: {:?}", seen.phases);
    assert!(seen.outcomes.iter().all(|&n| n > 100), "an outcome is seen too seldom: {:?}", seen.outcomes);
    assert!([0, 1, 2, 3, 4, 5, 6, 8, 15].iter().all(|&n| seen.numbers[n] > 100), "a number is seen too seldom: {:?}", seen.numbers);
    assert!(matches!(Chip::fresh().phase, Phase::Idle));
    println!(
        "states agree: {} steps on bytes, {} areas accepted, {} refused with 8 and {} with 15; numbers {:?}",
        seen.steps, seen.accepted, seen.refused, seen.lengths, seen.numbers
    );
}
