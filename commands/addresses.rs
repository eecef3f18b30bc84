//! `./nt6861 addresses`: the addresses in a list of bus changes on standard input, two bytes a change (18H SDA or 19H SCL, and its
//! level), each with its outcome, one a line; or the number of the refusal alone, with status 1. The proved library finds them. The arguments
//! are what to call the input where something is told, and the byte in II ADR.

mod addresses_link;
mod descriptors;
use addresses_link::addresses;
use std::fmt::Write as _;
use std::io::{Read, Write};
use std::process::ExitCode;

const OUTCOMES: [&str; 4] = ["none", "a0", "ii-adr", "both"];

/// The status with its reason; where that cannot be written the status stays.
fn ended(status: u8, why: &str) -> ExitCode {
    let _ = writeln!(std::io::stderr(), "nt6861 addresses: {why}");
    ExitCode::from(status)
}

fn main() -> ExitCode {
    let mut args = std::env::args_os().skip(1).map(|word| word.to_string_lossy().into_owned());
    let (Some(name), Some(own), None) = (args.next(), args.next(), args.next()) else {
        return ended(2, "two arguments: the name of the input, and the byte in II ADR");
    };
    let Ok(own) = u8::from_str_radix(&own, 16) else {
        return ended(2, "II ADR is a byte of two hex digits");
    };
    let (mut input, mut out) = descriptors::standard();
    let mut bytes = Vec::new();
    if let Err(error) = input.read_to_end(&mut bytes) {
        return ended(2, &format!("{name}: {}", descriptors::reason(&error)));
    }
    if bytes.len() % 2 == 1 {
        return ended(1, &format!("{name}: ends within a change"));
    }
    let changes: Vec<u16> = bytes.chunks_exact(2).map(|pair| u16::from_be_bytes([pair[0], pair[1]])).collect();
    // an address takes a START and eight rises with a fall before each
    let mut found = vec![0u16; changes.len() / 16 + 1];
    let mut count = 0;
    let number = addresses(own, &changes, &mut found, &mut count);
    let mut text = String::new();
    if number == 0 {
        for word in &found[..count] {
            let _ = writeln!(text, "{:02X} {}", word >> 8, OUTCOMES[usize::from(word & 3)]);
        }
    } else {
        let _ = writeln!(text, "{number}");
    }
    if let Err(error) = out.write_all(text.as_bytes()) {
        return ended(2, &format!("standard output: {}", descriptors::reason(&error)));
    }
    match number {
        0 => ExitCode::SUCCESS,
        2 => ended(1, &format!("{name}: refused with 2, a line that is neither SDA nor SCL")),
        3 => ended(1, &format!("{name}: refused with 3, a level above 1")),
        _ => ended(1, &format!("{name}: refused with {number}")),
    }
}
