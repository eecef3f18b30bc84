//! Pairs of runs through transfers to other devices, sampled under the premises of Wish 13 and compared in the independent model.
//!
//! A pair is drawn as two masters that talk past the chip for a while: words at the same places, SDA's levels each master's own
//! while SCL is low. Then the premises are looked at by themselves (model/foreign.rs), and what does not meet them is left out. Now
//! and then a pair is drawn so that one premise is likely to fail; with that premise dropped a difference must be found, which the
//! tests try for each.

use nt6861_model::chip::{decode, pin, Chip, Counter, Phase};
use nt6861_model::foreign::{addresses, difference, holds, touches_sda, Outside, Pair, Premise};
use nt6861_model::traffic::Rng;

const SDA: u8 = pin::SDA;
const SCL: u8 = pin::SCL;
const PT3: u8 = 0x04;
const MDCON: u8 = 0x05;
const CLRWDT: u8 = 0x12;
const IIADR: u8 = 0x13;
const IIDAT: u8 = 0x14;
const IISTS: u8 = 0x15;

fn word(kind: u8, a: u8, b: u8) -> u32 {
    u32::from_be_bytes([kind, 0, a, b])
}

/// A well formed state in which the premises allow a pair to begin, any part else being drawn.
fn first_state(rng: &mut Rng) -> Chip {
    let counter = |rng: &mut Rng| {
        let overflow = rng.one_in(6);
        let count = if overflow || rng.one_in(4) { 4095 } else { rng.below(4096) as u16 };
        Counter { count, latch: rng.below(4096) as u16, overflow }
    };
    let mut chip = Chip::fresh();
    chip.levels = rng.next() as u32 | 1 << 15 | 7 << 29;
    if !rng.one_in(3) {
        chip.levels |= 1 << pin::RESET;
    }
    (chip.pt0, chip.pt1, chip.pt2dir, chip.pt2) = (rng.byte(), rng.byte() & 0x3F, rng.byte(), rng.byte());
    (chip.pt3, chip.syncon, chip.endac) = (rng.byte() & 3, rng.byte() | 0x20, rng.byte());
    chip.dach[0] = rng.byte();
    (chip.insen, chip.hsel, chip.sc) = (rng.flip(), rng.flip(), rng.flip());
    (chip.hpoli, chip.vpoli, chip.hpolo, chip.vpolo) = (rng.flip(), rng.flip(), rng.flip(), rng.flip());
    (chip.iex, chip.irqx) = (rng.byte() & 0x3F, rng.byte() & 0x3F);
    (chip.bt, chip.tbs, chip.enbt) = (rng.byte(), rng.flip(), rng.flip());
    chip.watchdog = rng.below(64) as u8;
    (chip.hcnt, chip.vcnt) = (counter(rng), counter(rng));
    chip.interval = if rng.one_in(4) { 1023 } else { rng.below(1024) as u16 };
    (chip.iiadr, chip.iidat) = (rng.byte() | 1, rng.byte());
    (chip.start, chip.stop, chip.trx) = (rng.flip(), rng.flip(), rng.flip());
    (chip.rxak, chip.txak) = (rng.flip(), rng.flip());
    (chip.enddc, chip.md) = (false, false);
    if rng.flip() {
        chip.phase = Phase::Incoming { address: true, bits: 0, byte: 0 };
    }
    chip
}

/// A phase of DDC2B in which no pair may begin.
fn other_phase(rng: &mut Rng, chip: &mut Chip) {
    let bits = rng.range(1, 7) as u8;
    let byte = if rng.flip() { 0xA0 >> (8 - bits) } else { rng.byte() >> (8 - bits) };
    chip.phase = match rng.below(4) {
        0 => Phase::Ignoring,
        1 => Phase::Held,
        2 => Phase::Incoming { address: false, bits, byte },
        _ => Phase::Incoming { address: true, bits, byte },
    };
    chip.pull_scl = chip.phase == Phase::Held;
}

/// The two masters, with the words given so far and the levels that they leave.
struct Masters<'a> {
    rng: &'a mut Rng,
    left: Vec<u32>,
    right: Vec<u32>,
    at_left: Outside,
    at_right: Outside,
    own: u8,
    /// The premise that this pair is drawn to fail.
    breach: Option<Premise>,
}

impl Masters<'_> {
    fn give(&mut self, left: u32, right: u32) {
        self.left.push(left);
        self.right.push(right);
        self.at_left.put(left);
        self.at_right.put(right);
    }

    fn both(&mut self, word: u32) {
        self.give(word, word);
    }

    fn pin(&mut self, which: u8, level: bool) {
        self.both(word(3, which, level.into()));
    }

    fn breaches(&mut self, premise: Premise) -> bool {
        self.breach == Some(premise) && self.rng.flip()
    }

    /// SDA's levels, put where the premises allow them, unless this pair is to fail there.
    fn sda(&mut self, left: bool, right: bool) {
        let before_equal = self.at_left.sda == self.at_right.sda;
        let allowed = !self.at_left.scl
            || (before_equal || self.breaches(Premise::EqualBefore))
                && (left == right || self.breaches(Premise::SameEvents));
        if allowed {
            self.give(word(3, SDA, left.into()), word(3, SDA, right.into()));
        }
    }

    /// SDA at one level in both, by way of a low SCL where that is needed.
    fn settle(&mut self, level: bool) {
        let there = |at: Outside| at.sda == level;
        if !(there(self.at_left) && there(self.at_right)) {
            self.pin(SCL, false);
            self.sda(level, level);
        }
        self.pin(SCL, true);
        self.aside(6);
    }

    fn start(&mut self) {
        self.settle(true);
        self.sda(false, false);
        self.aside(6);
    }

    fn stop(&mut self) {
        self.settle(false);
        self.sda(true, true);
        self.aside(6);
    }

    fn bit(&mut self, left: bool, right: bool) {
        self.pin(SCL, false);
        self.aside(12);
        if self.rng.one_in(8) {
            let (wrong, worse) = (self.rng.flip(), self.rng.flip());
            self.sda(wrong, worse);
        }
        self.sda(left, right);
        self.aside(12);
        self.pin(SCL, true);
        self.aside(12);
    }

    fn byte(&mut self, left: u8, right: u8, bits: u32) {
        for place in (8 - bits..8).rev() {
            self.bit(left >> place & 1 == 1, right >> place & 1 == 1);
        }
    }

    /// An address for another device, now and then one bit from the chip's own.
    fn address(&mut self) -> u8 {
        let own = if self.rng.flip() { 0xA0 } else { self.own };
        if self.breaches(Premise::NoMatch) {
            return own ^ self.rng.below(2) as u8;
        }
        match self.rng.below(3) {
            0 => own ^ 2 << self.rng.below(7),
            _ => self.rng.byte(),
        }
    }

    fn transfer(&mut self) {
        self.start();
        let (left, right) = (self.address(), self.address());
        if self.rng.one_in(5) {
            let bits = self.rng.range(1, 7);
            return self.byte(left, right, bits);
        }
        self.byte(left, right, 8);
        for _ in 0..self.rng.below(3) {
            let (ack, nack) = (self.rng.flip(), self.rng.flip());
            self.bit(ack, nack);
            let (left, right) = (self.rng.byte(), self.rng.byte());
            self.byte(left, right, 8);
        }
        match self.rng.below(3) {
            0 => self.stop(),
            1 => {
                let (ack, nack) = (self.rng.flip(), self.rng.flip());
                self.bit(ack, nack);
            }
            _ => {}
        }
    }

    /// Something else, one time in `n`.
    fn aside(&mut self, n: u32) {
        if self.rng.one_in(n) {
            self.other();
        }
    }

    fn other(&mut self) {
        let (byte, level) = (self.rng.byte(), self.rng.flip());
        match self.rng.below(16) {
            0 | 1 => {
                let register = self.rng.pick(&[PT3, IIDAT, IISTS, 0x10, 0x06]);
                self.both(word(1, register, 0));
            }
            2 => {
                let register = self.rng.below(0x28) as u8;
                self.both(word(1, register, 0));
            }
            3 | 4 => {
                let register = self.rng.below(0x28) as u8;
                self.write(register, byte);
            }
            5 => self.write(IIDAT, byte),
            6 => {
                let byte = if level { self.own ^ 2 } else { byte };
                self.write(IIADR, byte);
            }
            7 => self.write(CLRWDT, if level { 0x55 } else { byte }),
            8 | 9 => {
                let clock = self.rng.below(4) as u8;
                self.both(word(4, clock, 0));
            }
            10 => self.both(word(5, byte & 1, level.into())),
            11 => {
                let which = self.rng.pick(&[2, 9, pin::P16, 18, pin::HSYNCI, pin::VSYNCI]);
                self.pin(which, level);
            }
            // SDA's present level once more
            12 => {
                let (left, right) = (self.at_left.sda, self.at_right.sda);
                self.sda(left, right);
            }
            13 => {
                let other = self.rng.flip();
                self.sda(level, other);
            }
            14 => self.refused(),
            _ => self.pin(pin::RESET, true),
        }
        self.breached();
    }

    /// A write that keeps to the premises, mostly; with RESET low it is refused and may hold anything.
    fn write(&mut self, register: u8, byte: u8) {
        let off = self.breaches(Premise::DdcOn) || !self.at_left.reset;
        let ddc1 = self.breaches(Premise::NoDdc1) || !self.at_left.reset;
        let byte = match register {
            IISTS if !off => byte & !0x08,
            MDCON if !ddc1 => byte & !0x01,
            _ => byte,
        };
        if register == IIADR && self.at_left.reset {
            self.own = byte;
        }
        self.both(word(2, register, byte));
    }

    /// Words that are no event, or events that are refused.
    fn refused(&mut self) {
        let byte = self.rng.byte();
        let word = match self.rng.below(6) {
            0 => word(1, 0x13, 0),
            1 => word(2, 0x10, byte),
            2 => word(3, SDA, 2 | byte),
            3 => word(3, 15, byte & 1),
            4 => 0x0301_1800 | u32::from(byte & 1),
            _ => self.rng.next() as u32 | 0x0800_0000,
        };
        self.both(word);
    }

    /// What fails the premise that this pair is drawn to fail.
    fn breached(&mut self) {
        let Some(premise) = self.breach else { return };
        if !self.rng.one_in(4) {
            return;
        }
        let byte = self.rng.byte();
        match premise {
            Premise::Words => self.give(word(2, 0x18, byte), word(2, 0x18, self.right.len() as u8)),
            Premise::DdcOn => self.write(IISTS, byte | 0x08),
            Premise::NoDdc1 => {
                self.write(MDCON, byte | 0x01);
                self.sync(12);
            }
            Premise::NoReset => {
                self.pin(pin::RESET, false);
                self.pin(pin::RESET, true);
                self.both(word(1, PT3, 0));
            }
            Premise::NoWatchdog => {
                for _ in 0..self.rng.below(70) {
                    self.both(word(4, 3, 0));
                }
                self.both(word(1, PT3, 0));
            }
            _ => {}
        }
    }

    fn sync(&mut self, rises: u32) {
        for _ in 0..rises {
            self.pin(pin::VSYNCI, false);
            self.pin(pin::VSYNCI, true);
        }
    }

    /// A while without a transfer.
    fn idle(&mut self) {
        match self.rng.below(4) {
            0 => self.sync(3),
            1 => (0..self.rng.below(12)).for_each(|_| self.both(word(4, 0, 0))),
            2 => (0..self.rng.below(6)).for_each(|_| self.other()),
            // clocks on SCL with no START: nobody's
            _ => (0..self.rng.below(10)).for_each(|_| {
                let (left, right) = (self.rng.flip(), self.rng.flip());
                self.bit(left, right);
            }),
        }
    }
}

/// A pair that mostly meets the premises, but for one that it is drawn to fail.
fn draw(rng: &mut Rng, breach: Option<Premise>) -> Pair {
    let mut first = first_state(rng);
    match breach {
        Some(Premise::Ddc2b) => {
            (first.enddc, first.phase) = (rng.flip(), Phase::Idle);
            first.md = !first.enddc;
        }
        Some(Premise::Begun) => other_phase(rng, &mut first),
        _ => {}
    }
    let outside = Outside::of(&first);
    let mut masters = Masters {
        own: first.iiadr,
        left: Vec::new(),
        right: Vec::new(),
        at_left: outside,
        at_right: outside,
        breach,
        rng,
    };
    // an address goes on at once where a START was seen
    if masters.rng.flip() {
        let (left, right) = (masters.address(), masters.address());
        let bits = masters.rng.range(1, 8);
        masters.byte(left, right, bits);
    }
    for _ in 0..masters.rng.below(7) {
        match masters.rng.below(3) {
            0 => masters.idle(),
            _ => masters.transfer(),
        }
    }
    let Masters { left, mut right, .. } = masters;
    if breach == Some(Premise::Length) {
        right.push(word(4, 0, 0));
    }
    Pair { first, left, right }
}

/// What the pairs that were compared had in them.
#[derive(Default)]
struct Seen {
    compared: usize,
    left_out: usize,
    counts: [usize; KINDS.len()],
}

const KINDS: [&str; 12] = [
    "found idle",
    "found idle with SCL low",
    "RESET low at first",
    "two addresses or more completed",
    "a repeated START",
    "a STOP",
    "SDA's present level at SCL high",
    "a refused word",
    "II ADR written",
    "end: another II DAT",
    "end: another level of SDA",
    "end: other bits of an unfinished address",
];

/// What the left list does to SDA while SCL and RESET are high: repeated STARTs, STOPs, and its present level given.
#[derive(Default)]
struct AtHigh {
    repeated: usize,
    stops: usize,
    present: usize,
}

fn at_high(pair: &Pair) -> AtHigh {
    let mut found = AtHigh::default();
    let mut under_way = pair.first.phase != Phase::Idle;
    let mut outside = Outside::of(&pair.first);
    for &word in &pair.left {
        let before = outside;
        outside.put(word);
        if !(touches_sda(word) && before.scl && before.reset) {
            continue;
        }
        match (before.sda, outside.sda) {
            (true, false) => {
                found.repeated += usize::from(under_way);
                under_way = true;
            }
            (false, true) => {
                found.stops += 1;
                under_way = false;
            }
            _ => found.present += 1,
        }
    }
    found
}

impl Seen {
    fn note(&mut self, pair: &Pair, left: &Chip, right: &Chip) {
        self.compared += 1;
        let first = Outside::of(&pair.first);
        let idle = pair.first.phase == Phase::Idle;
        let at_high = at_high(pair);
        let refused = |&word: &u32| decode(word).is_err();
        let own_written = |&word: &u32| word >> 8 == 0x0002_0013;
        let unfinished = |chip: &Chip| matches!(chip.phase, Phase::Incoming { bits: 1..=7, .. });
        let found = [
            idle,
            idle && !first.scl,
            !first.reset,
            addresses(&pair.first, &pair.left).len() >= 2,
            at_high.repeated > 0,
            at_high.stops > 0,
            at_high.present > 0,
            pair.left.iter().any(refused),
            pair.left.iter().any(own_written),
            left.iidat != right.iidat,
            left.level(SDA) != right.level(SDA),
            unfinished(left) && left.phase != right.phase,
        ];
        for (count, found) in self.counts.iter_mut().zip(found) {
            *count += usize::from(found);
        }
    }
}

/// Draws pairs until `pairs` of them met the premises, `dropped` aside; or until one of these differs.
fn compare(seed: u64, pairs: usize, dropped: Option<Premise>) -> (Seen, Option<Pair>) {
    let mut rng = Rng::new(seed);
    let mut seen = Seen::default();
    while seen.compared < pairs {
        let any = Premise::ALL[rng.below(Premise::ALL.len() as u32) as usize];
        let breach = dropped.or(rng.one_in(12).then_some(any));
        let pair = draw(&mut rng, breach);
        let meets = |&premise: &Premise| dropped == Some(premise) || holds(premise, &pair);
        if !Premise::ALL.iter().all(meets) {
            seen.left_out += 1;
            continue;
        }
        let (found, left, right) = difference(&pair);
        if found.is_some() {
            return (seen, Some(pair));
        }
        seen.note(&pair, &left, &right);
    }
    (seen, None)
}

fn main() {
    let arguments: Vec<String> = std::env::args().skip(1).collect();
    let number = |place: usize, otherwise: u64| {
        arguments.get(place).map_or(otherwise, |text| text.parse().expect("usage: foreign_pairs [SEED [PAIRS]]"))
    };
    let (seed, pairs) = (number(0, 1), number(1, 300_000) as usize);
    let (seen, differing) = compare(seed, pairs, None);
    if let Some(pair) = differing {
        println!("foreign pairs: seed {seed}, after {} pairs: {:?}", seen.compared, difference(&pair).0);
        println!("  first {:?}", pair.first);
        for (left, right) in pair.left.iter().zip(&pair.right) {
            println!("  {left:08X} {right:08X}");
        }
        std::process::exit(1);
    }
    println!("foreign pairs agree: {} pairs, {} more left out by the premises, seed {seed}", seen.compared, seen.left_out);
    for (kind, count) in KINDS.iter().zip(seen.counts) {
        println!("  {count:7} {kind}");
        if count < pairs / 200 {
            println!("foreign pairs: too few of these");
            std::process::exit(1);
        }
    }
}

#[cfg(test)]
mod tests {
    use super::*;

    /// With this premise dropped, and all others met, a pair is found whose runs differ.
    fn needed(premise: Premise) {
        let (seen, differing) = compare(7, 40_000, Some(premise));
        let pair = differing.unwrap_or_else(|| panic!("{} pairs and no difference", seen.compared));
        assert!(!holds(premise, &pair));
    }

    #[test]
    fn ddc2b_is_needed() {
        needed(Premise::Ddc2b);
    }

    #[test]
    fn a_start_or_an_idle_bus_is_needed() {
        needed(Premise::Begun);
    }

    #[test]
    fn equal_length_is_needed() {
        needed(Premise::Length);
    }

    #[test]
    fn equal_words_are_needed() {
        needed(Premise::Words);
    }

    #[test]
    fn ddc_on_is_needed() {
        needed(Premise::DdcOn);
    }

    #[test]
    fn no_ddc1_is_needed() {
        needed(Premise::NoDdc1);
    }

    #[test]
    fn no_match_is_needed() {
        needed(Premise::NoMatch);
    }

    #[test]
    fn no_reset_is_needed() {
        needed(Premise::NoReset);
    }

    #[test]
    fn no_watchdog_reset_is_needed() {
        needed(Premise::NoWatchdog);
    }

    #[test]
    fn same_events_at_high_are_needed() {
        needed(Premise::SameEvents);
    }

    #[test]
    fn equal_sda_before_is_needed() {
        needed(Premise::EqualBefore);
    }

    #[test]
    fn pairs_under_all_premises_agree() {
        assert!(compare(3, 5_000, None).1.is_none());
    }
}
