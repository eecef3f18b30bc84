//! The names and meanings of this package beside those of include/nt6861.h.

use nt6861::{clock, pin, register, requests, VERSION};

fn header() -> String {
    let here = std::path::Path::new(env!("CARGO_MANIFEST_DIR"));
    ["../../include/nt6861.h", "../../../include/nt6861.h"].iter().find_map(|path| std::fs::read_to_string(here.join(path)).ok()).expect("the header")
}

/// the number that the header gives a name
fn named(header: &str, name: &str) -> Option<u32> {
    let at = header.find(&format!("{name} = "))? + name.len() + 3;
    let text: String = header[at..].chars().take_while(|c| c.is_ascii_alphanumeric()).collect();
    text.strip_prefix("0x").map_or_else(|| text.parse().ok(), |hex| u32::from_str_radix(hex, 16).ok())
}

#[test]
fn names_are_those_of_the_header() {
    let header = header();
    let mut asked = 0;
    for (prefix, names) in [("NT6861_", register::ALL), ("NT6861_PIN_", pin::ALL), ("NT6861_CLOCK_", clock::ALL), ("NT6861_REQUEST_", requests::ALL)] {
        for (name, number) in names {
            assert_eq!(named(&header, &format!("{prefix}{name}")), Some(u32::from(*number)), "{prefix}{name}");
            asked += 1;
        }
    }
    assert_eq!(asked, 38 + 28 + 4 + 6);
}

#[test]
fn the_version_is_that_of_the_header() {
    assert!(header().contains(&format!("#define NT6861_VERSION 0x{VERSION:06x}\n")));
}
