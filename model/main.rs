//! The independent model as a program: it reads words and answers them, makes seeded words, compares another program's
//! answers with its own, and runs firmware.

use nt6861_model::chip::Chip;
use nt6861_model::core6502::{Listed, ROM_SIZE};
use nt6861_model::coverage;
use nt6861_model::firmware;
use nt6861_model::host::{self, ddc1_bytes};
use nt6861_model::programs::{self, Random};
use nt6861_model::replay::{generate, hold_text, outcome_text, replay, sample};
use nt6861_model::traffic::Traffic;
use nt6861_model::wave;
use nt6861_model::why::why_lines;
use std::fs;
use std::hint::black_box;
use std::io::{self, Read, Write};
use std::process::ExitCode;
use std::time::Instant;

const USAGE: &str = "usage:
  model answers                          words on standard input, answers on standard output
  model words SEED COUNT [TAIL]          generated words, then TAIL (0..3) bytes more
  model compare SEED COUNT FILE [TAIL]   the lines of FILE against this model's answers;
                                         the place of a difference counts from 0
  model coverage SEED COUNT              what the generated words do
  model holds SEED COUNT EVERY           the 8 us clocks for which SCL has been held, or -, after
                                         every EVERY generated words
  model outcomes SEED COUNT EVERY        likewise what the current transfer's address was equal
                                         to: none, a0, ii-adr or both
  model why                              words on standard input, for each source why its line is up
  model wave                             words on standard input, their replay as a value change
                                         dump on standard output
  model kept                             words on standard input, those that a dump gives back on
                                         standard output
  model time COUNT                       speed of the step
  model firmware [-t] ROM COUNT [EVENTS] runs so many instructions of an image from power up, with
                                         the listed events; prints answers and registers, with -t
                                         a trace
  model host ROM ACTS                    the events of a host that does these acts, as a list
  model transcript ROM ACTS              what such a host tells
  model bus ROM COUNT EVENTS             what passes over the bus in such a run, and what DDC1 sends
  model given ROM COUNT EVENTS           the words that the chip is given in such a run, the CPU's
                                         accesses and the clocks among them
  model image SEED                       a random program, as an image
  model events SEED COUNT                random events, as a list";

fn main() -> ExitCode {
    let arguments: Vec<String> = std::env::args().skip(1).collect();
    let arguments: Vec<&str> = arguments.iter().map(String::as_str).collect();
    let outcome = match arguments[..] {
        ["answers"] => answers(),
        ["words", seed, count] => words(seed, count, "0"),
        ["words", seed, count, tail] => words(seed, count, tail),
        ["compare", seed, count, file] => compare(seed, count, file, "0"),
        ["compare", seed, count, file, tail] => compare(seed, count, file, tail),
        ["coverage", seed, count] => covered(seed, count),
        ["holds", seed, count, every] => sampled(seed, count, every, hold_text),
        ["outcomes", seed, count, every] => sampled(seed, count, every, outcome_text),
        ["why"] => why(),
        ["wave"] => wave(),
        ["kept"] => kept(),
        ["time", count] => time(count),
        ["firmware", "-t", rom, count] => firmware(rom, count, None, true),
        ["firmware", "-t", rom, count, events] => firmware(rom, count, Some(events), true),
        ["firmware", rom, count] => firmware(rom, count, None, false),
        ["firmware", rom, count, events] => firmware(rom, count, Some(events), false),
        ["host", rom, acts] => hosted(rom, acts, false),
        ["transcript", rom, acts] => hosted(rom, acts, true),
        ["bus", rom, count, events] => bus(rom, count, events),
        ["given", rom, count, events] => given(rom, count, events),
        ["image", seed] => random_image(seed),
        ["events", seed, count] => random_events(seed, count),
        _ => Err(USAGE.to_string()),
    };
    match outcome {
        Ok(true) => ExitCode::SUCCESS,
        Ok(false) => ExitCode::from(1),
        Err(message) => {
            eprintln!("{message}");
            ExitCode::from(2)
        }
    }
}

fn number<T: std::str::FromStr>(text: &str) -> Result<T, String> {
    text.parse()
        .map_err(|_| format!("not a number in range: {text}\n{USAGE}"))
}

fn tail_length(text: &str) -> Result<usize, String> {
    match number(text)? {
        tail @ 0..=3 => Ok(tail),
        _ => Err(format!("TAIL is 0..3\n{USAGE}")),
    }
}

fn print_bytes(bytes: &[u8]) -> Result<bool, String> {
    let mut out = io::stdout().lock();
    out.write_all(bytes)
        .and_then(|()| out.flush())
        .map_err(|error| error.to_string())?;
    Ok(true)
}

fn answers() -> Result<bool, String> {
    let mut bytes = Vec::new();
    io::stdin()
        .lock()
        .read_to_end(&mut bytes)
        .map_err(|error| error.to_string())?;
    print_bytes(&replay(&bytes))
}

fn why() -> Result<bool, String> {
    let mut bytes = Vec::new();
    io::stdin()
        .lock()
        .read_to_end(&mut bytes)
        .map_err(|error| error.to_string())?;
    print_bytes(why_lines(&bytes).as_bytes())
}

/// The whole words on standard input.
fn words_given() -> Result<Vec<u32>, String> {
    let mut bytes = Vec::new();
    io::stdin()
        .lock()
        .read_to_end(&mut bytes)
        .map_err(|error| error.to_string())?;
    Ok(bytes
        .chunks_exact(4)
        .map(|word| u32::from_le_bytes([word[0], word[1], word[2], word[3]]))
        .collect())
}

fn wave() -> Result<bool, String> {
    let words = words_given()?;
    let mut out = io::BufWriter::new(io::stdout().lock());
    wave::dump(&mut Chip::fresh(), words.into_iter(), &mut out)
        .and_then(|()| out.flush())
        .map_err(|error| error.to_string())?;
    Ok(true)
}

fn kept() -> Result<bool, String> {
    let words = words_given()?;
    let bytes: Vec<u8> = wave::kept(words.into_iter()).flat_map(u32::to_le_bytes).collect();
    print_bytes(&bytes)
}

fn words(seed: &str, count: &str, tail: &str) -> Result<bool, String> {
    print_bytes(&generate(number(seed)?, number(count)?, tail_length(tail)?))
}

fn compare(seed: &str, count: &str, file: &str, tail: &str) -> Result<bool, String> {
    let (seed, count, tail): (u64, usize, usize) =
        (number(seed)?, number(count)?, tail_length(tail)?);
    let theirs = fs::read(file).map_err(|error| format!("{file}: {error}"))?;
    let bytes = generate(seed, count, tail);
    let ours = replay(&bytes);
    if ours == theirs {
        println!("agree: {count} words, seed {seed}");
        return Ok(true);
    }
    let our_lines: Vec<&[u8]> = ours.split_inclusive(|&byte| byte == b'\n').collect();
    let their_lines: Vec<&[u8]> = theirs.split_inclusive(|&byte| byte == b'\n').collect();
    let place = our_lines
        .iter()
        .zip(&their_lines)
        .take_while(|(our, their)| our == their)
        .count();
    let show = |lines: &[&[u8]]| match lines.get(place) {
        Some(line) => {
            let (text, end) = match line.strip_suffix(b"\n") {
                Some(text) => (text, ""),
                None => (*line, " (no newline)"),
            };
            format!("{}{end}", String::from_utf8_lossy(text).escape_debug())
        }
        None => "(no line)".to_string(),
    };
    let word = match bytes.chunks(4).nth(place) {
        Some(&[a, b, c, d]) => format!("{:08X}", u32::from_le_bytes([a, b, c, d])),
        Some(_) => "(left-over bytes)".to_string(),
        None => "(past the end)".to_string(),
    };
    println!("differ: seed {seed}, place {place}, word {word}");
    println!("  model: {}", show(&our_lines));
    println!("  file:  {}", show(&their_lines));
    Ok(false)
}

fn covered(seed: &str, count: &str) -> Result<bool, String> {
    Ok(coverage::report(number(seed)?, number(count)?))
}

fn sampled(
    seed: &str,
    count: &str,
    every: &str,
    show: fn(&Chip) -> String,
) -> Result<bool, String> {
    let every = match number(every)? {
        0 => return Err(format!("EVERY is not 0\n{USAGE}")),
        every => every,
    };
    print_bytes(sample(number(seed)?, number(count)?, every, show).as_bytes())
}

fn time(count: &str) -> Result<bool, String> {
    let words: Vec<u32> = Traffic::new(1).take(number(count)?).collect();
    let mut chip = Chip::fresh();
    let begin = Instant::now();
    for &word in &words {
        black_box(chip.step(black_box(word)));
    }
    let seconds = begin.elapsed().as_secs_f64();
    println!(
        "{} words in {seconds:.4} s: {:.0} words per second",
        words.len(),
        words.len() as f64 / seconds
    );
    Ok(true)
}

fn read_file(name: &str) -> Result<Vec<u8>, String> {
    fs::read(name).map_err(|error| format!("{name}: {error}"))
}

fn image(name: &str) -> Result<[u8; ROM_SIZE], String> {
    let bytes = read_file(name)?;
    bytes[..]
        .try_into()
        .map_err(|_| format!("{name}: {} bytes, not {ROM_SIZE}", bytes.len()))
}

fn instructions(text: &str) -> Result<u32, String> {
    firmware::decimal(text.as_bytes())
        .ok_or(format!("{text}: not a decimal number up to 4294967295"))
}

fn listed(name: &str) -> Result<Vec<Listed>, String> {
    firmware::parse_events(&read_file(name)?)
        .map_err(|bad| format!("{name}:{}: not NUMBER WORD", bad.line))
}

fn firmware(rom: &str, count: &str, events: Option<&str>, trace: bool) -> Result<bool, String> {
    let rom = image(rom)?;
    let count = instructions(count)?;
    let events = events.map_or(Ok(Vec::new()), listed)?;
    let text = if trace {
        firmware::print_trace(&rom, count, &events)
    } else {
        firmware::print(&rom, count, &events)
    };
    print_bytes(text.as_bytes())
}

fn hosted(rom: &str, description: &str, transcript: bool) -> Result<bool, String> {
    let image = image(rom)?;
    let text = String::from_utf8(read_file(description)?)
        .map_err(|_| format!("{description}: not text"))?;
    let hosted = host::host(&image, &text).map_err(|why| format!("{description}: {why}"))?;
    let text = if transcript { hosted.transcript } else { hosted.text };
    print_bytes(text.as_bytes())
}

fn random_image(seed: &str) -> Result<bool, String> {
    print_bytes(&programs::rom(&mut Random::new(number(seed)?))[..])
}

fn random_events(seed: &str, count: &str) -> Result<bool, String> {
    let events = programs::events(&mut Random::new(number(seed)?), number(count)?);
    let line = |listed: &Listed| format!("{} {:08X}\n", listed.number, listed.word);
    print_bytes(events.iter().map(line).collect::<String>().as_bytes())
}

/// A line of bytes as hex digits for every sixteen.
fn dump(bytes: &[u8]) -> String {
    let line = |bytes: &[u8]| {
        let digits: Vec<String> = bytes.iter().map(|byte| format!("{byte:02X}")).collect();
        digits.join(" ") + "\n"
    };
    bytes.chunks(16).map(line).collect()
}

fn given(rom: &str, count: &str, events: &str) -> Result<bool, String> {
    let words = wave::words_of_run(&image(rom)?, instructions(count)?, &listed(events)?);
    print_bytes(&words.into_iter().flat_map(u32::to_le_bytes).collect::<Vec<u8>>())
}

fn bus(rom: &str, count: &str, events: &str) -> Result<bool, String> {
    let (monitor, levels) = host::monitor(&image(rom)?, instructions(count)?, &listed(events)?);
    let mut text = monitor.text;
    if let Some(bytes) = ddc1_bytes(&levels).filter(|bytes| !bytes.is_empty()) {
        text += &format!("DDC1\n{}", dump(&bytes));
    }
    print_bytes(text.as_bytes())
}
