//! A second, independent model of the sync counters of the NT6861 and the NT6862 (document 02, Wish 6, by document 001, 13.1), on the
//! twelve numbers of the C interface, with the script language of the program `counters6862`.
//!
//! Written from the papers and the readings in docs/DECISIONS.md; it shares no code with the proved crates. A state is its twelve
//! numbers throughout: nothing is turned into a state of another shape.

use crate::traffic::Rng;
use std::collections::BTreeMap;
use std::fmt::Write;

/// The places of the twelve numbers.
pub mod at {
    pub const CHIP: usize = 0;
    pub const HSYNCI: usize = 1;
    pub const VSYNCI: usize = 2;
    pub const HCNT: usize = 3;
    pub const HCNTOV: usize = 4;
    pub const VCNT: usize = 5;
    pub const VCNTOV: usize = 6;
    pub const H_LATCH: usize = 7;
    pub const V_LATCH: usize = 8;
    pub const INTERVAL: usize = 9;
    pub const HSEL: usize = 10;
    pub const ENHSEL: usize = 11;
}

pub type Numbers = [u16; 12];

/// VCNT's largest value: 12 bits or 14.
fn largest_vcnt(n: &Numbers) -> u16 {
    if n[at::CHIP] == 6862 {
        (1 << 14) - 1
    } else {
        (1 << 12) - 1
    }
}

/// How many 8 µs periods an interval has: 8.192 ms on the NT6861, 16.384 or 32.768 ms on the NT6862.
fn interval_length(n: &Numbers) -> u16 {
    match (n[at::CHIP], n[at::HSEL]) {
        (6862, 0) => 2048,
        (6862, _) => 4096,
        _ => 1024,
    }
}

/// Whether HCNT counts between two pulses of VSYNCI.
fn per_field(n: &Numbers) -> bool {
    let chooser = if n[at::CHIP] == 6862 {
        at::ENHSEL
    } else {
        at::HSEL
    };
    n[chooser] == 1
}

pub fn well_formed(n: &Numbers) -> bool {
    let chip = match n[at::CHIP] {
        6861 => n[at::ENHSEL] == 0,
        6862 => n[at::ENHSEL] <= 1,
        _ => false,
    };
    let bits = [at::HSYNCI, at::VSYNCI, at::HCNTOV, at::VCNTOV, at::HSEL];
    chip && bits.iter().all(|&place| n[place] <= 1)
        && n[at::HCNT] < 4096
        && n[at::H_LATCH] < 4096
        && n[at::VCNT] <= largest_vcnt(n)
        && n[at::V_LATCH] <= largest_vcnt(n)
        && n[at::INTERVAL] < interval_length(n)
}

/// A step of a counter: one more, or its overflow bit at its largest value; it stands in overflow.
fn step(n: &mut Numbers, count: usize, overflow: usize, largest: u16) {
    if n[overflow] == 1 {
        return;
    }
    if n[count] == largest {
        n[overflow] = 1;
    } else {
        n[count] += 1;
    }
}

/// The latch takes the count, which starts from 0 again; not in overflow.
fn latch(n: &mut Numbers, count: usize, overflow: usize, to: usize) {
    if n[overflow] == 0 {
        n[to] = n[count];
        n[count] = 0;
    }
}

fn clock(n: &mut Numbers) {
    let largest = largest_vcnt(n);
    step(n, at::VCNT, at::VCNTOV, largest);
    if per_field(n) {
        return;
    }
    n[at::INTERVAL] += 1;
    if n[at::INTERVAL] == interval_length(n) {
        n[at::INTERVAL] = 0;
        latch(n, at::HCNT, at::HCNTOV, at::H_LATCH);
    }
}

/// What HCNT and the interval do where the choice of what HCNT counts over has changed.
fn start_anew(n: &mut Numbers) {
    n[at::HCNT] = 0;
    n[at::INTERVAL] = 0;
}

/// A call with its value; the number given back.
pub fn call(n: &mut Numbers, code: u32, value: u32) -> u8 {
    if code == 0 {
        return match value {
            6861 => {
                *n = [6861, 1, 1, 0, 0, 0, 0, 0, 0, 0, 1, 0];
                0
            }
            6862 => {
                *n = [6862, 1, 1, 0, 0, 0, 0, 0, 0, 0, 1, 1];
                0
            }
            _ => 23,
        };
    }
    if !well_formed(n) {
        return 8;
    }
    if code > 7 {
        return 1;
    }
    if code == 4 && n[at::CHIP] == 6861 {
        return 2;
    }
    let largest = match code {
        3 => u32::MAX,
        6 | 7 => 0,
        _ => 1,
    };
    if value > largest {
        return 3;
    }
    let old = |place: usize| u32::from(n[place]);
    match code {
        1 => {
            let rises = old(at::HSYNCI) < value;
            n[at::HSYNCI] = value as u16;
            if rises {
                step(n, at::HCNT, at::HCNTOV, 4095);
            }
        }
        2 => {
            let rises = old(at::VSYNCI) < value;
            n[at::VSYNCI] = value as u16;
            if rises {
                latch(n, at::VCNT, at::VCNTOV, at::V_LATCH);
                if per_field(n) {
                    latch(n, at::HCNT, at::HCNTOV, at::H_LATCH);
                }
            }
        }
        3 => (0..value).for_each(|_| clock(n)),
        4 => {
            if old(at::ENHSEL) != value {
                start_anew(n);
            }
            n[at::ENHSEL] = value as u16;
        }
        5 => {
            let anew = if n[at::CHIP] == 6862 {
                old(at::HSEL) != value
            } else {
                old(at::HSEL) > value
            };
            if anew {
                start_anew(n);
            }
            n[at::HSEL] = value as u16;
        }
        6 => {
            n[at::HCNTOV] = 0;
            if n[at::CHIP] == 6861 {
                n[at::HCNT] = 0;
            }
        }
        _ => {
            n[at::VCNTOV] = 0;
            n[at::VCNT] = 0;
        }
    }
    0
}

/// The report on the field rate.
#[derive(Clone, Copy, PartialEq, Debug)]
pub enum Field {
    IllFormed,
    Overflow,
    NothingLatched,
    Rate(f64),
}

pub fn field(n: &Numbers) -> Field {
    if !well_formed(n) {
        Field::IllFormed
    } else if n[at::VCNTOV] == 1 {
        Field::Overflow
    } else if n[at::V_LATCH] == 0 {
        Field::NothingLatched
    } else {
        Field::Rate(125_000.0 / f64::from(n[at::V_LATCH]))
    }
}

/// A line of a script.
#[derive(Clone, Copy, PartialEq, Debug)]
enum Line {
    Call(u32, u32),
    Field,
    Put(usize, u16),
}

/// The words that are calls with a value.
const VALUED: [&str; 6] = ["fresh", "h", "v", "clock", "enhsel", "hsel"];

fn parse(line: &str) -> Option<Line> {
    let mut parts = line.split(' ');
    let word = parts.next()?;
    let mut numbers = Vec::new();
    let mut blank = false;
    for part in parts {
        blank = part.is_empty();
        if !blank {
            if !part.bytes().all(|byte| byte.is_ascii_digit()) {
                return None;
            }
            // Nine digits that count are the most.
            let value: u64 = part.trim_start_matches('0').parse().or_else(|_| if part.bytes().all(|b| b == b'0') { Ok(0) } else { Err(()) }).ok()?;
            numbers.push(u32::try_from(value).ok().filter(|&value| value < 1_000_000_000)?);
        }
    }
    if blank {
        return None;
    }
    if let Some(code) = VALUED.iter().position(|&known| known == word) {
        return match numbers[..] {
            [value] => Some(Line::Call(code as u32, value)),
            _ => None,
        };
    }
    match (word, &numbers[..]) {
        ("clrh", []) => Some(Line::Call(6, 0)),
        ("clrv", []) => Some(Line::Call(7, 0)),
        ("field", []) => Some(Line::Field),
        ("put", &[place, value]) if place < 12 => Some(Line::Put(place as usize, u16::try_from(value).ok()?)),
        _ => None,
    }
}

fn print(out: &mut String, number: u8, n: &Numbers) {
    write!(out, "{number}").expect("a string takes all");
    for one in n {
        write!(out, " {one}").expect("a string takes all");
    }
}

/// What `counters6862` prints for a script.
pub fn run(script: &str) -> String {
    let mut out = String::new();
    let mut n: Numbers = [0; 12];
    for (i, line) in script.split('\n').enumerate() {
        if line.is_empty() || line.starts_with('#') {
            continue;
        }
        match parse(line) {
            None => {
                writeln!(out, "line {} malformed", i + 1).expect("a string takes all");
                return out;
            }
            Some(Line::Call(code, value)) => {
                let number = call(&mut n, code, value);
                print(&mut out, number, &n);
            }
            Some(Line::Put(place, value)) => {
                n[place] = value;
                print(&mut out, 0, &n);
            }
            Some(Line::Field) => {
                let report = field(&n);
                print(&mut out, if report == Field::IllFormed { 8 } else { 0 }, &n);
                out.push(' ');
                match report {
                    Field::IllFormed => out.push_str("ill-formed"),
                    Field::Overflow => out.push_str("overflow"),
                    Field::NothingLatched => out.push_str("nothing-latched"),
                    Field::Rate(rate) => write!(out, "{:016X}", rate.to_bits()).expect("a string takes all"),
                }
            }
        }
        out.push('\n');
    }
    out
}

/// Lines of one kind or another, with numbers near those at which something happens.
pub fn script(seed: u64, lines: usize) -> String {
    let mut rng = Rng::new(seed);
    let mut text = String::from("fresh 6862\n");
    for _ in 1..lines {
        text.push_str(&line(&mut rng));
        text.push('\n');
    }
    text
}

fn line(rng: &mut Rng) -> String {
    let near = [0, 1, 2, 1022, 1023, 1024, 2046, 2047, 2048, 4094, 4095, 4096, 16382, 16383, 16384, 65535];
    match rng.below(100) {
        0..=1 => format!("fresh {}", [6861, 6862][rng.below(2) as usize]),
        2 => format!("fresh {}", rng.range(6855, 6870)),
        3..=31 => format!("h {}", rng.below(2)),
        32..=44 => format!("v {}", rng.below(2)),
        45..=54 => format!("clock {}", rng.range(0, 3)),
        55..=62 => format!("clock {}", near[rng.below(15) as usize]),
        63..=67 => format!("enhsel {}", rng.below(2)),
        68..=72 => format!("hsel {}", rng.below(2)),
        73..=75 => "clrh".to_string(),
        76..=78 => "clrv".to_string(),
        79..=84 => "field".to_string(),
        85..=86 => format!("{} {}", ["h", "v", "enhsel", "hsel"][rng.below(4) as usize], rng.range(2, 70_000)),
        // counts, latches and the interval near their last values; now and then what makes a state ill formed
        87..=95 => format!("put {} {}", [3, 5, 7, 8, 9][rng.below(5) as usize], near[rng.below(12) as usize]),
        96..=97 => format!("put {} {}", [1, 2, 4, 6, 10, 11][rng.below(6) as usize], rng.below(2)),
        98 => format!("put {} {}", rng.below(12), near[rng.below(16) as usize]),
        _ => format!("put 0 {}", [6861, 6862][rng.below(2) as usize]),
    }
}

/// What a script's lines do, class by class; a class that never occurs has 0.
pub fn coverage(script: &str) -> BTreeMap<&'static str, u64> {
    let mut seen: BTreeMap<&'static str, u64> = CLASSES.iter().map(|&class| (class, 0)).collect();
    let mut n: Numbers = [0; 12];
    for text in script.lines() {
        let before = n;
        let found = parse(text).expect("generated lines are well formed");
        let mut count = |class: &'static str| *seen.get_mut(class).expect("a named class") += 1;
        match found {
            Line::Put(place, value) => n[place] = value,
            Line::Field => count(match field(&n) {
                Field::IllFormed => "field: ill formed",
                Field::Overflow => "field: overflow",
                Field::NothingLatched => "field: nothing latched",
                Field::Rate(_) if n[at::CHIP] == 6861 => "field: rate, NT6861",
                Field::Rate(_) if n[at::V_LATCH] > 4095 => "field: rate from more than 12 bits",
                Field::Rate(_) => "field: rate, NT6862",
            }),
            Line::Call(code, value) => {
                let number = call(&mut n, code, value);
                match (number, code) {
                    (23, _) => count("number 23"),
                    (8, _) => count("number 8"),
                    (3, _) => count("number 3"),
                    (2, _) => count("number 2"),
                    (_, 0) => count(if value == 6861 { "fresh NT6861" } else { "fresh NT6862" }),
                    _ => done(&mut count, &before, &n, code),
                }
            }
        }
    }
    seen
}

fn done(count: &mut impl FnMut(&'static str), before: &Numbers, after: &Numbers, code: u32) {
    let sister = before[at::CHIP] == 6862;
    let moved = |place: usize| before[place] != after[place];
    match code {
        1 if moved(at::HCNT) => count(if sister { "HCNT steps, NT6862" } else { "HCNT steps, NT6861" }),
        1 if moved(at::HCNTOV) => count(if sister { "HCNTOV set, NT6862" } else { "HCNTOV set, NT6861" }),
        1 if !moved(at::HSYNCI) => count("HSYNCI given again"),
        1 if after[at::HSYNCI] == 1 => count("HCNT stands in overflow"),
        2 if after[at::VSYNCI] == 1 && moved(at::VSYNCI) => {
            count(match (sister, per_field(before), before[at::HCNTOV] == 1) {
                (false, true, false) => "HCNT latched per field, NT6861",
                (true, true, false) => "HCNT latched per field, NT6862",
                (_, true, true) => "HCNT not latched per field in overflow",
                (_, false, _) => "VSYNCI rises with HCNT per interval",
            });
            count(if before[at::VCNTOV] == 1 { "VCNT not latched in overflow" } else { "VCNT latched" });
        }
        3 if moved(at::VCNTOV) => count(if sister { "VCNTOV set, NT6862" } else { "VCNTOV set, NT6861" }),
        3 if per_field(before) => count("interval stands per field"),
        3 if after[at::INTERVAL] < before[at::INTERVAL] => count(match (sister, before[at::HSEL]) {
            (false, _) => "interval of 1,024 ends",
            (true, 0) => "interval of 2,048 ends",
            (true, _) => "interval of 4,096 ends",
        }),
        4 | 5 if moved(at::ENHSEL) || moved(at::HSEL) => {
            count(match (sister, code, after[at::HSEL]) {
                (_, 4, _) => "ENHSEL changed",
                (true, _, _) => "HSEL changed, NT6862",
                (false, _, 0) => "HSEL 1 to 0, NT6861",
                (false, _, _) => "HSEL 0 to 1, NT6861",
            });
            if before[at::HCNTOV] == 1 && moved(at::HCNT) {
                count("HCNT zeroed in overflow, its bit kept");
            }
        }
        4 | 5 => count("bit given again"),
        6 if moved(at::HCNTOV) => count(if sister { "clear H keeps HCNT, NT6862" } else { "clear H zeroes HCNT, NT6861" }),
        7 if moved(at::VCNTOV) => count("clear V zeroes VCNT"),
        _ => {}
    }
}

const CLASSES: &[&str] = &[
    "ENHSEL changed",
    "HCNT latched per field, NT6861",
    "HCNT latched per field, NT6862",
    "HCNT not latched per field in overflow",
    "HCNT stands in overflow",
    "HCNT steps, NT6861",
    "HCNT steps, NT6862",
    "HCNT zeroed in overflow, its bit kept",
    "HCNTOV set, NT6861",
    "HCNTOV set, NT6862",
    "HSEL 0 to 1, NT6861",
    "HSEL 1 to 0, NT6861",
    "HSEL changed, NT6862",
    "HSYNCI given again",
    "VCNT latched",
    "VCNT not latched in overflow",
    "VCNTOV set, NT6861",
    "VCNTOV set, NT6862",
    "VSYNCI rises with HCNT per interval",
    "bit given again",
    "clear H keeps HCNT, NT6862",
    "clear H zeroes HCNT, NT6861",
    "clear V zeroes VCNT",
    "field: ill formed",
    "field: nothing latched",
    "field: overflow",
    "field: rate from more than 12 bits",
    "field: rate, NT6861",
    "field: rate, NT6862",
    "fresh NT6861",
    "fresh NT6862",
    "interval of 1,024 ends",
    "interval of 2,048 ends",
    "interval of 4,096 ends",
    "interval stands per field",
    "number 2",
    "number 23",
    "number 3",
    "number 8",
];

#[cfg(test)]
mod tests {
    use super::*;

    #[test]
    fn fresh_and_refused() {
        assert_eq!(run("fresh 6862\n"), "0 6862 1 1 0 0 0 0 0 0 0 1 1\n");
        assert_eq!(run("fresh 6863\nh 0\n"), "23 0 0 0 0 0 0 0 0 0 0 0 0\n8 0 0 0 0 0 0 0 0 0 0 0 0\n");
        assert_eq!(run("fresh 6861\nenhsel 0\n"), "0 6861 1 1 0 0 0 0 0 0 0 1 0\n2 6861 1 1 0 0 0 0 0 0 0 1 0\n");
    }

    #[test]
    fn lines() {
        assert_eq!(parse("clock 4096"), Some(Line::Call(3, 4096)));
        assert_eq!(parse("put  3   0000000005"), Some(Line::Put(3, 5)));
        for bad in ["", "x", "h", "h 0 0", "clrh 0", "put 12 0", "put 0 65536", "field ", "h -1", "h 1000000000", "clock"] {
            assert_eq!(parse(bad), None, "{bad}");
        }
    }

    #[test]
    fn every_class_occurs() {
        let missing: Vec<_> = coverage(&script(1, 40_000)).into_iter().filter(|&(_, count)| count == 0).collect();
        assert_eq!(missing, []);
    }
}
