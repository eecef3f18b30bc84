//! The proved hold of SCL and the proved lines, read from the bytes of a chip, beside the independent model's, after each word of
//! generated traffic.

#[allow(dead_code)]
mod nt6861;

use nt6861_model::chip::Chip;
use nt6861_model::traffic::Traffic;

/// What the lines were after the words: how often each of the sixteen combinations.
type Seen = [usize; 16];

/// Compares after every word.
fn compare(seed: u64, count: usize, seen: &mut Seen) -> usize {
    let mut area = [0u8; 128];
    assert_eq!(nt6861::fresh(&mut area), 0);
    let mut chip = Chip::fresh();
    let mut held = 0;
    for (place, word) in Traffic::new(seed).take(count).enumerate() {
        nt6861::step(&mut area, word);
        chip.step(word);
        let expected = chip.hold().map_or(0, u32::from);
        let given = nt6861::hold(&area);
        if given != expected {
            println!("hold: seed {seed}, after {} words: proved {given:08X}, model {expected}", place + 1);
            std::process::exit(1);
        }
        held += usize::from(expected > 0);
        let (given, expected) = (nt6861::lines(&area), chip.lines());
        if given != expected {
            println!("lines: seed {seed}, after {} words: proved {given:08X}, model {expected:08X}", place + 1);
            std::process::exit(1);
        }
        seen[given as usize] += 1;
    }
    held
}

/// Words that address the chip until it holds SCL low.
fn until_held() -> Vec<u32> {
    let pin = |pin: u32, level: u32| 0x0300_0000 | pin << 8 | level;
    let mut words = vec![0x0200_0500, 0x0200_1500, pin(24, 0)];
    for place in (0..8).rev() {
        words.extend([pin(25, 0), pin(24, 0xA0 >> place & 1), pin(25, 1)]);
    }
    words.extend([pin(25, 0), pin(25, 1), pin(25, 0)]);
    words
}

/// The hold after these words from a fresh chip.
fn proved(words: &[u32]) -> u32 {
    let mut area = [0u8; 128];
    let mut answers = vec![0; words.len()];
    assert_eq!(nt6861::fresh(&mut area), 0);
    assert_eq!(nt6861::run(&mut area, words, &mut answers), 0);
    nt6861::hold(&area)
}

/// The latches of P30 and P31 at all outside levels, with DDC off and on; areas of other lengths and of no state.
fn check_lines() {
    for place in 0..32u32 {
        let [sda, scl, latch_sda, latch_scl, off] = [0, 1, 2, 3, 4].map(|bit| place >> bit & 1);
        let words = [0x0200_1500 | off << 3, 0x0200_0400 | latch_sda | latch_scl << 1, 0x0300_1800 | sda, 0x0300_1900 | scl];
        let mut area = [0u8; 128];
        let mut answers = [0; 4];
        assert_eq!(nt6861::fresh(&mut area), 0);
        assert_eq!(nt6861::run(&mut area, &words, &mut answers), 0);
        let pulls = if off == 1 { (1 - latch_sda) | (1 - latch_scl) << 1 } else { 0 };
        assert_eq!(nt6861::lines(&area), ((sda | scl << 1) & !pulls) | pulls << 2, "{words:08X?}");
        // with DDC off PT3 shows the lines
        if off == 1 {
            assert_eq!(nt6861::step(&mut area, 0x0100_0400) & 0xFF, nt6861::lines(&area) & 3, "{words:08X?}");
        }
    }
    let mut area = [0u8; 129];
    for length in [0, 1, 127, 129] {
        assert_eq!(nt6861::lines(&area[..length]), 0x0F00_0000, "{length} bytes");
    }
    area[0] = 255;
    assert_eq!(nt6861::lines(&area[..128]), 0x0800_0000);
}

fn main() {
    let mut seen = [0; 16];
    let held: usize = (1..=8).map(|seed| compare(seed, 40_000, &mut seen)).sum();
    assert!(held > 100, "the traffic holds SCL too seldom: {held}");
    // a line that is pulled is 0, so that nine of the sixteen can be
    let kinds = seen.iter().filter(|&&count| count > 100).count();
    assert_eq!(kinds, 9, "the lines are {seen:?}");
    check_lines();
    // holds of no clock, one, the last that is counted, and one more
    for clocks in [0usize, 1, 65_534, 65_535, 65_536, 70_000] {
        let mut words = until_held();
        words.extend(vec![0x0400_0000; clocks]);
        assert_eq!(proved(&words), clocks.min(65_535) as u32, "{clocks} clocks");
        // let go, it is not held
        words.push(0x0200_1400);
        assert_eq!(proved(&words), 0);
    }
    println!("holds agree: 8 seeds, {held} holds with a count, and holds of 0 to 70,000 clocks");
    println!("lines agree: {} words, {kinds} combinations of levels and pulls, the latches of P30 and P31 at all levels", seen.iter().sum::<usize>());
}
