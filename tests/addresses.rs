//! The proved reading of the bus, linked from its static library, beside three others: the independent reading, the independent chip
//! and the proved chip, stepped word by word. Every list of toggles to a depth, from nothing and from the middle of an address, and
//! generated lists, some of them refused.

use nt6861_model::addresses::{found, outcome_number, read, Change};
use nt6861_model::chip::{Chip, Outcome, Phase};
use nt6861_model::traffic::Rng;
#[path = "../commands/addresses_link.rs"]
mod addresses_link;
use addresses_link::addresses;

#[link(name = "chip_capi", kind = "static")]
extern "C" {
    fn nt6861_replay(words: *const u32, count: usize, answers: *mut u32, places: usize) -> u8;
}

const SDA: u8 = 24;
const SCL: u8 = 25;
const SENTINEL: u16 = 0xA55A;

/// What was compared, told at the end.
#[derive(Default)]
struct Tally {
    lists: u64,
    outcomes: [u64; 4],
    stops: u64,
    refusals: [u64; 8],
}

fn differ(what: &str, own: u8, changes: &[Change]) -> ! {
    println!("addresses: {what} differs: II ADR {own:02X}, {changes:02X?}");
    std::process::exit(1);
}

/// DDC on in DDC2B, and II ADR written.
fn setup(own: u8) -> [u32; 3] {
    [0x0200_0500, 0x0200_1500, 0x0200_1300 | u32::from(own)]
}

fn event(change: &Change) -> u32 {
    0x0300_0000 | u32::from(change.0) << 8 | u32::from(change.1)
}

/// The independent chip, by its phases: an address is completed where the eighth bit comes in.
fn stepped(own: u8, changes: &[Change]) -> Vec<(u8, Outcome)> {
    let mut chip = Chip::fresh();
    for word in setup(own) {
        chip.step(word);
    }
    let mut list = Vec::new();
    for change in changes {
        let seven = matches!(chip.phase, Phase::Incoming { address: true, bits: 7, .. });
        let before = chip.phase;
        chip.step(event(change));
        let matched = matches!(chip.phase, Phase::Incoming { address: true, bits: 8, .. });
        if seven && before != chip.phase && (matched || chip.phase == Phase::Ignoring) {
            list.push((chip.iidat, chip.outcome()));
        }
    }
    list
}

/// The proved chip, by what its registers show: after each change II DAT is read and put back, IRQX is read and cleared. A byte that
/// comes into II DAT is another than the one put there in one of two runs.
struct Proved {
    words: Vec<u32>,
    answers: Vec<u32>,
}

impl Proved {
    fn run(&mut self, own: u8, changes: &[Change], data: u32) -> Vec<(u8, bool)> {
        self.words.clear();
        self.words.extend(setup(own));
        self.words.push(0x0200_1400 | data);
        for change in changes {
            self.words.extend([event(change), 0x0100_1400, 0x0100_1000, 0x0200_1400 | data, 0x0200_113F]);
        }
        self.answers.resize(self.words.len().max(self.answers.len()), 0);
        let number = unsafe { nt6861_replay(self.words.as_ptr(), self.words.len(), self.answers.as_mut_ptr(), self.answers.len()) };
        assert_eq!(number, 0);
        (0..changes.len()).map(|i| (self.answers[5 + 5 * i] as u8, self.answers[6 + 5 * i] & 8 != 0)).collect()
    }

    /// Each address with whether it set flag A.
    fn completed(&mut self, own: u8, changes: &[Change]) -> Vec<(u8, bool)> {
        let low = self.run(own, changes, 0x00);
        let high = self.run(own, changes, 0xFF);
        let pairs = low.iter().zip(&high);
        pairs.filter(|(l, h)| l.0 != 0x00 || h.0 != 0xFF).map(|(l, h)| if l.0 != 0 { *l } else { *h }).collect()
    }
}

/// One list, with these places, against the other three.
fn compare(own: u8, changes: &[Change], room: usize, proved: Option<&mut Proved>, tally: &mut Tally) {
    let words: Vec<u16> = changes.iter().map(|c| u16::from_be_bytes([c.0, c.1])).collect();
    let mut places = vec![SENTINEL; room];
    let mut count = usize::MAX;
    let number = addresses(own, &words, &mut places, &mut count);
    tally.lists += 1;
    tally.refusals[usize::from(number)] += 1;
    let expected = match read(own, changes, room) {
        Err(refusal) => {
            if number != refusal || count != usize::MAX || places.iter().any(|p| *p != SENTINEL) {
                differ(&format!("number {number}, expected {refusal}"), own, changes);
            }
            return;
        }
        Ok(list) => list,
    };
    let listed: Vec<u16> = expected.iter().map(|a| u16::from(a.0) << 8 | outcome_number(a.1)).collect();
    if number != 0 || count != listed.len() || places[..count] != listed || places[count..].iter().any(|p| *p != SENTINEL) {
        differ(&format!("{number} {:04X?}, expected {listed:04X?}", &places[..count.min(room)]), own, changes);
    }
    for address in &expected {
        tally.outcomes[usize::from(outcome_number(address.1))] += 1;
    }
    let (_, end) = found(own, changes);
    tally.stops += u64::from(end < changes.len());
    if stepped(own, &changes[..end]) != expected {
        differ("the independent chip", own, changes);
    }
    if let Some(proved) = proved {
        let matched: Vec<(u8, bool)> = expected.iter().map(|a| (a.0, a.1 != Outcome::None)).collect();
        if proved.completed(own, &changes[..end]) != matched {
            differ("the proved chip", own, changes);
        }
    }
}

/// A list that keeps the levels it leaves.
struct Bus {
    changes: Vec<Change>,
    scl: u8,
    sda: u8,
}

impl Bus {
    fn new() -> Bus {
        Bus { changes: Vec::new(), scl: 1, sda: 1 }
    }

    fn put(&mut self, line: u8, level: u8) {
        self.changes.push((line, level));
        *(if line == SCL { &mut self.scl } else { &mut self.sda }) = level;
    }

    fn toggle(&mut self, clock: bool) {
        if clock {
            self.put(SCL, 1 - self.scl);
        } else {
            self.put(SDA, 1 - self.sda);
        }
    }

    fn start(&mut self) {
        if self.scl == 1 && self.sda == 0 {
            self.put(SCL, 0);
        }
        self.put(SDA, 1);
        self.put(SCL, 1);
        self.put(SDA, 0);
    }

    fn clock(&mut self, bit: u8) {
        self.put(SCL, 0);
        self.put(SDA, bit);
        self.put(SCL, 1);
    }
}

/// Every list of so many toggles after a beginning.
fn toggles(own: u8, beginning: &Bus, depth: u32, every: u64, proved: &mut Proved, tally: &mut Tally) {
    for choice in 0..1u64 << depth {
        let mut bus = Bus { changes: beginning.changes.clone(), scl: beginning.scl, sda: beginning.sda };
        for place in 0..depth {
            bus.toggle(choice >> place & 1 == 1);
        }
        let beside = (choice % every == 0).then_some(&mut *proved);
        compare(own, &bus.changes, 4, beside, tally);
    }
}

/// START and the first bits of an address.
fn part(byte: u8, bits: u8) -> Bus {
    let mut bus = Bus::new();
    bus.start();
    for place in 0..bits {
        bus.clock(byte >> (7 - place) & 1);
    }
    bus
}

/// A generated list: transfers, some cut short or with a START or STOP inside, toggles, levels put again.
fn generated(rng: &mut Rng, own: u8) -> Vec<Change> {
    let mut bus = Bus::new();
    for _ in 0..rng.range(1, 6) {
        match rng.below(6) {
            0 => {
                for _ in 0..rng.below(40) {
                    bus.toggle(rng.one_in(3) || bus.scl == 0 && rng.flip());
                }
            }
            1 => {
                for _ in 0..rng.below(8) {
                    let line = if rng.flip() { SCL } else { SDA };
                    bus.put(line, rng.below(2) as u8);
                }
            }
            _ => {
                let other = rng.byte();
                let byte = rng.pick(&[0xA0, 0xA1, own, own ^ 1, 0xA2, own ^ 2, other]);
                bus.start();
                for place in 0..rng.range(6, 20) {
                    let bit = if place < 8 { byte >> (7 - place) & 1 } else { rng.below(2) as u8 };
                    bus.clock(bit);
                    if rng.one_in(30) {
                        bus.put(SDA, 1 - bus.sda);
                    }
                }
                if rng.flip() {
                    bus.clock(0);
                    bus.put(SDA, 1);
                }
            }
        }
    }
    bus.changes
}

/// Times of the proved reading and the independent one, best of five: transfers to other devices, and SDA toggled at low SCL, where
/// each place looks back to the list's beginning.
fn bench() {
    let best = |run: &mut dyn FnMut()| {
        let time = |_| {
            let start = std::time::Instant::now();
            run();
            start.elapsed().as_secs_f64()
        };
        (0..5).map(time).fold(f64::MAX, f64::min)
    };
    for length in [1_000, 10_000, 40_000] {
        let mut transfers = Bus::new();
        while transfers.changes.len() < length {
            transfers.start();
            for bit in [0, 1, 0, 1, 0, 0, 0, 0, 1] {
                transfers.clock(bit);
            }
        }
        let mut low = Bus::new();
        low.put(SCL, 0);
        while low.changes.len() < length {
            low.toggle(false);
        }
        for (name, list) in [("transfers", &transfers.changes[..length]), ("SDA at low SCL", &low.changes[..length])] {
            let words: Vec<u16> = list.iter().map(|c| u16::from_be_bytes([c.0, c.1])).collect();
            let mut places = vec![0; length / 16 + 1];
            let mut count = 0;
            let proved = best(&mut || assert_eq!(addresses(0x6E, &words, &mut places, &mut count), 0));
            let plain = best(&mut || assert_eq!(read(0x6E, list, places.len()).map(|l| l.len()), Ok(count)));
            println!("{name}, {length} changes: proved {:.3} ms, independent {:.3} ms", proved * 1e3, plain * 1e3);
        }
    }
}

fn main() {
    if std::env::args().nth(1).is_some_and(|word| word == "bench") {
        return bench();
    }
    let mut tally = Tally::default();
    let mut proved = Proved { words: Vec::new(), answers: Vec::new() };
    for own in [0x00, 0x6E] {
        toggles(own, &Bus::new(), 20, 32, &mut proved, &mut tally);
    }
    // around the eighth and the ninth rise
    for (own, byte) in [(0x6E, 0xA0), (0x6F, 0x6E), (0xA1, 0xA0), (0x6E, 0x50)] {
        for bits in [5, 6, 7, 8] {
            toggles(own, &part(byte, bits), 12, 4, &mut proved, &mut tally);
        }
    }
    let mut rng = Rng::new(11);
    for round in 0..60_000u32 {
        let choice = rng.byte();
        let own = rng.pick(&[0x6E, 0xA0, 0xA1, choice]);
        let mut changes = generated(&mut rng, own);
        let mut room = 12;
        if round % 8 == 0 {
            room = rng.below(3) as usize;
        }
        if round % 8 == 1 {
            for _ in 0..rng.range(1, 2) {
                let place = rng.below(changes.len() as u32 + 1) as usize;
                let (line, level) = (rng.pick(&[SDA, SCL, 23, 26, 0, 255]), rng.pick(&[0, 1, 2, 3, 255]));
                changes.insert(place, (line, level));
            }
        }
        compare(own, &changes, room, Some(&mut proved), &mut tally);
    }
    assert!(tally.outcomes.iter().all(|n| *n > 1_000), "an outcome is too seldom: {:?}", tally.outcomes);
    assert!([2, 3, 7].iter().all(|n| tally.refusals[*n] > 300), "a refusal is too seldom: {:?}", tally.refusals);
    println!(
        "addresses agree: {} lists, none {} a0 {} ii-adr {} both {}, {} stops, refusals 2: {} 3: {} 7: {}",
        tally.lists, tally.outcomes[0], tally.outcomes[1], tally.outcomes[2], tally.outcomes[3], tally.stops, tally.refusals[2], tally.refusals[3], tally.refusals[7]
    );
}
