//! The proved rates, linked from their static library, beside an independent computation, bit for bit: division of whole
//! numbers, rounded to nearest even, with no arithmetic on doubles. Every latch, and every pair of latches.

#[link(name = "rates_capi", kind = "static")]
extern "C" {
    fn nt6861_field_rate(v: u16) -> f64;
    fn nt6861_interval_rate(h: u16) -> f64;
    fn nt6861_line_rate(h: u16, v: u16) -> f64;
}

const LAST: u16 = 4095;

/// The bits of the double nearest to a / b, ties to even, for a and b from 1 up to 2^63.
fn nearest(a: u64, b: u64) -> u64 {
    // Scale by a power of two so that the quotient has 53 bits: 2^52 <= (a / b) * 2^shift < 2^53.
    let scaled = |shift: i32| {
        let (n, d) = if shift < 0 {
            (u128::from(a), u128::from(b) << -shift)
        } else {
            (u128::from(a) << shift, u128::from(b))
        };
        (n / d, n % d, d)
    };
    let mut shift = 53 - (a.ilog2() as i32 - b.ilog2() as i32);
    let (mut quotient, mut rest, mut divisor) = scaled(shift);
    if quotient >> 53 != 0 {
        shift -= 1;
        (quotient, rest, divisor) = scaled(shift);
    }
    let up = 2 * rest > divisor || (2 * rest == divisor && quotient % 2 == 1);
    // A quotient of 2^53 carries into the exponent, as it must.
    let exponent = (1023 + 52 - shift) as u64;
    (exponent << 52) + (quotient as u64 + u64::from(up) - (1 << 52))
}

/// A rate from a latch or latches that are all in 1..=4095; else 0, which is no rate.
fn expected(latches: &[u16], a: u64, b: u64) -> u64 {
    if latches.iter().all(|latch| (1..=LAST).contains(latch)) {
        nearest(a, b)
    } else {
        0
    }
}

fn compare(what: &str, latches: &[u16], proved: f64, a: u64, b: u64) {
    let computed = expected(latches, a, b);
    if proved.to_bits() != computed {
        println!("{what} {latches:?}: proved {proved:?}, computed {:?}", f64::from_bits(computed));
        std::process::exit(1);
    }
}

fn main() {
    let mut agreed = 0u64;
    for latch in 0..=u16::MAX {
        let n = u64::from(latch);
        // The calls take any number.
        let (field, interval) = unsafe { (nt6861_field_rate(latch), nt6861_interval_rate(latch)) };
        compare("field rate", &[latch], field, 125_000, n);
        compare("interval line rate", &[latch], interval, n * 15_625, 128);
        agreed += 2;
    }
    for h in 0..=LAST + 1 {
        for v in 0..=LAST + 1 {
            let line = unsafe { nt6861_line_rate(h, v) };
            compare("line rate", &[h, v], line, u64::from(h) * 125_000, u64::from(v));
            agreed += 1;
        }
    }
    println!("rates agree: {agreed}");
}

#[cfg(test)]
mod tests {
    use super::nearest;

    #[test]
    fn whole_numbers_and_fractions() {
        assert_eq!(nearest(1, 1), 1f64.to_bits());
        assert_eq!(nearest(625, 10), 62.5f64.to_bits());
        assert_eq!(nearest(31_250, 1), 31_250f64.to_bits());
        assert_eq!(nearest(1, 3), 0x3fd5_5555_5555_5555);
        assert_eq!(nearest(2, 3), 0x3fe5_5555_5555_5555);
    }

    #[test]
    fn ties_go_to_even() {
        let top = 1u64 << 53;
        assert_eq!(nearest(top + 1, 1), (top as f64).to_bits());
        assert_eq!(nearest(top + 3, 1), ((top + 4) as f64).to_bits());
        assert_eq!(nearest(2 * top - 1, 1), ((2 * top) as f64).to_bits());
    }
}
