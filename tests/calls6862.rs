//! The proved calls on the counters, linked from their static library, beside the independent model: seeded calls on twelve numbers,
//! every other length up to 40, and the field rate of every latch.

use nt6861_model::counters6862::{at, call, field, Field, Numbers};
use nt6861_model::traffic::Rng;

#[link(name = "sync6862_capi", kind = "static")]
extern "C" {
    fn nt6862_counters(state: *mut u16, length: usize, call: u32, value: u32) -> u8;
    fn nt6862_field_rate(state: *const u16, length: usize) -> f64;
}

fn proved_call(state: &mut [u16], code: u32, value: u32) -> u8 {
    // The call takes any length and any numbers.
    unsafe { nt6862_counters(state.as_mut_ptr(), state.len(), code, value) }
}

fn proved_field(state: &[u16]) -> f64 {
    unsafe { nt6862_field_rate(state.as_ptr(), state.len()) }
}

fn expected_field(n: &Numbers) -> f64 {
    match field(n) {
        Field::IllFormed => -8.0,
        Field::Overflow => -1.0,
        Field::NothingLatched => 0.0,
        Field::Rate(rate) => rate,
    }
}

fn differs(what: &str, n: &[u16], proved: impl std::fmt::Debug, expected: impl std::fmt::Debug) -> ! {
    println!("{what} {n:?}: proved {proved:?}, expected {expected:?}");
    std::process::exit(1)
}

/// Numbers near those at which something happens, in each place.
fn numbers(rng: &mut Rng) -> Numbers {
    let chip = [6861, 6862, 6862, 6862][rng.below(4) as usize];
    let near = |rng: &mut Rng, last: u16| match rng.below(8) {
        0 => last.wrapping_add(1),
        1 | 2 => last,
        3 => last - 1,
        4 => 0,
        _ => rng.below(u32::from(last) + 1) as u16,
    };
    let vcnt = if chip == 6862 { 16383 } else { 4095 };
    let hsel = rng.below(2) as u16;
    let interval = match (chip, hsel) {
        (6862, 0) => 2047,
        (6862, _) => 4095,
        _ => 1023,
    };
    let mut n = [0; 12];
    n[at::CHIP] = chip;
    for place in [at::HSYNCI, at::VSYNCI, at::HCNTOV, at::VCNTOV] {
        n[place] = rng.below(2) as u16;
    }
    n[at::HCNT] = near(rng, 4095);
    n[at::VCNT] = near(rng, vcnt);
    n[at::H_LATCH] = near(rng, 4095);
    n[at::V_LATCH] = near(rng, vcnt);
    n[at::INTERVAL] = near(rng, interval);
    n[at::HSEL] = hsel;
    n[at::ENHSEL] = if chip == 6862 { rng.below(2) as u16 } else { 0 };
    if rng.below(8) == 0 {
        n[rng.below(12) as usize] = [0, 1, 2, 6861, 6862, 65535][rng.below(6) as usize];
    }
    n
}

fn main() {
    let mut rng = Rng::new(1);
    let mut agreed = 0u64;
    let mut given = [0u64; 256];
    for _ in 0..2_000_000 {
        let before = numbers(&mut rng);
        let code = rng.below(9);
        let value = match (code, rng.below(8)) {
            (0, 0..=5) => [6861, 6862][rng.below(2) as usize],
            (3, 0..=6) => rng.below(4),
            (_, 7) => rng.below(70_000),
            _ => rng.below(2),
        };
        let (mut proved, mut expected) = (before, before);
        let numbers = (proved_call(&mut proved, code, value), call(&mut expected, code, value));
        if numbers.0 != numbers.1 || proved != expected {
            differs(&format!("call {code} with {value} on"), &before, (numbers.0, proved), (numbers.1, expected));
        }
        given[usize::from(numbers.0)] += 1;
        let rates = (proved_field(&before), expected_field(&before));
        if rates.0.to_bits() != rates.1.to_bits() {
            differs("field rate of", &before, rates.0, rates.1);
        }
        agreed += 2;
    }
    for length in (0..=40usize).filter(|&length| length != 12) {
        let before: Vec<u16> = [6862, 1, 1, 0, 0, 0, 0, 0, 0, 0, 1, 1].into_iter().cycle().take(length).collect();
        for code in 0..=8 {
            let mut after = before.clone();
            let number = proved_call(&mut after, code, 6862);
            if number != 15 || after != before {
                differs(&format!("call {code} on"), &before, (number, after), 15);
            }
            agreed += 1;
        }
        if proved_field(&before) != -15.0 {
            differs("field rate of", &before, proved_field(&before), -15.0);
        }
        agreed += 1;
    }
    for chip in [6861, 6862] {
        for latch in 0..=u16::MAX {
            let n = [chip, 1, 1, 0, 0, 0, 0, 0, latch, 0, 1, 0];
            let rates = (proved_field(&n), expected_field(&n));
            if rates.0.to_bits() != rates.1.to_bits() {
                differs("field rate of", &n, rates.0, rates.1);
            }
            agreed += 1;
        }
    }
    for number in [0, 1, 2, 3, 8, 23] {
        if given[number] == 0 {
            println!("number {number} was never given");
            std::process::exit(1);
        }
    }
    println!("calls on the counters agree: {agreed}");
}
