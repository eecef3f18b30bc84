//! `./nt6861 vcd`: the event words of the value change dump on standard input, lowest byte first, on standard output; a refusal with its
//! place and number on standard error, with status 1. The words come from the proved library, in pieces, whatever the length of the file.
//! The one argument is what to call the input where something is told.

mod descriptors;
#[allow(dead_code)]
mod vcd_link;
use std::io::{Read, Write};
use std::process::ExitCode;
use vcd_link::more;

const WORDS: usize = 1 << 16;

/// The status with its reason; where that cannot be written the status stays.
fn ended(status: u8, why: &str) -> ExitCode {
    let _ = writeln!(std::io::stderr(), "nt6861 vcd: {why}");
    ExitCode::from(status)
}

fn meaning(number: u8) -> &'static str {
    match number {
        40 => "no such thing in a value change dump",
        41 => "time goes back",
        42 => "a 33rd variable",
        44 => "a time above 64 bits in ps",
        _ => "refused",
    }
}

fn main() -> ExitCode {
    let name = std::env::args_os().nth(1).map_or("standard input".into(), |name| name.to_string_lossy().into_owned());
    let (mut input, mut out) = descriptors::standard();
    let mut file = Vec::new();
    if let Err(error) = input.read_to_end(&mut file) {
        return ended(2, &format!("{name}: {}", descriptors::reason(&error)));
    }
    let mut words = vec![0u32; WORDS];
    let mut cursor = [0u64; 8];
    loop {
        let (number, told) = more(&file, &mut words, &mut cursor);
        let bytes: Vec<u8> = words[..told[0] as usize].iter().flat_map(|w| w.to_le_bytes()).collect();
        if let Err(error) = out.write_all(&bytes) {
            return ended(2, &format!("standard output: {}", descriptors::reason(&error)));
        }
        match number {
            0 => return ExitCode::SUCCESS,
            43 => {}
            _ => return ended(1, &format!("{name}: at byte {}: {number}, {}", told[1], meaning(number))),
        }
    }
}
