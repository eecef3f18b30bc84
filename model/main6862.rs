//! The independent model of the counters as a program: it runs a script on standard input, makes seeded scripts, and says what they do.

use nt6861_model::counters6862::{coverage, run, script};
use std::io::Read;

const USAGE: &str = "usage:
  model6862 run                  a script on standard input, its lines on standard output
  model6862 script SEED COUNT    a generated script
  model6862 coverage SEED COUNT  what the generated lines do";

fn main() {
    let arguments: Vec<String> = std::env::args().skip(1).collect();
    let arguments: Vec<&str> = arguments.iter().map(String::as_str).collect();
    let generated = |seed: &str, count: &str| match (seed.parse(), count.parse()) {
        (Ok(seed), Ok(count)) => script(seed, count),
        _ => fail(USAGE),
    };
    match arguments[..] {
        ["run"] => {
            let mut text = String::new();
            if std::io::stdin().read_to_string(&mut text).is_err() {
                fail("standard input is no text");
            }
            print!("{}", run(&text));
        }
        ["script", seed, count] => print!("{}", generated(seed, count)),
        ["coverage", seed, count] => {
            for (class, times) in coverage(&generated(seed, count)) {
                println!("{times:>8} {class}");
            }
        }
        _ => fail(USAGE),
    }
}

fn fail(message: &str) -> ! {
    eprintln!("{message}");
    std::process::exit(2)
}
