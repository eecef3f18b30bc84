//! The proved check of EDID blocks, linked from its static library, and the programs `edid`, `feed` and `replay`, beside the
//! independent check and the independent chip. Ends in a line for each part, or names the first difference and fails.

use nt6861_model::chip::Chip;
use nt6861_model::edid::{check, frame, frames, line, number, repair, written_blocks, INPUT, REVISION, SIZE, SUM, VERSION};
use nt6861_model::replay::replay;
use std::collections::BTreeMap;
use std::io::Write;
use std::process::{Command, Stdio};

#[link(name = "edid_capi", kind = "static")]
extern "C" {
    fn nt6861_edid(block: *const u8, length: usize) -> u8;
}

/// The numbers that must all be seen.
const NUMBERS: &[u8] = &[0, 30, 31, 32, 33, 34, 35, 36];

fn fail(message: &str) -> ! {
    println!("edid: {message}");
    std::process::exit(1);
}

#[derive(Default)]
struct Seen(BTreeMap<u8, u64>);

impl Seen {
    fn compare(&mut self, block: &[u8]) {
        // A slice passes as a pointer and a length.
        let proved = unsafe { nt6861_edid(block.as_ptr(), block.len()) };
        let expected = number(block);
        if proved != expected {
            fail(&format!("{block:02X?}: proved {proved}, expected {expected}"));
        }
        *self.0.entry(expected).or_default() += 1;
    }

    fn report(&self) {
        for number in NUMBERS {
            if !self.0.contains_key(number) {
                fail(&format!("no block was refused with {number}"));
            }
        }
        let counts: Vec<String> = self.0.iter().map(|(number, count)| format!("{number}: {count}")).collect();
        println!("edid agrees: {} blocks ({})", self.0.values().sum::<u64>(), counts.join(", "));
    }
}

/// Numbers that look random, the same at each run (xorshift).
struct Numbers(u64);

impl Numbers {
    fn below(&mut self, end: u64) -> u64 {
        self.0 ^= self.0 << 13;
        self.0 ^= self.0 >> 7;
        self.0 ^= self.0 << 17;
        self.0 % end
    }

    fn byte(&mut self) -> u8 {
        self.below(256) as u8
    }
}

fn lengths(seen: &mut Seen) {
    let good = written_blocks()[0].bytes;
    for length in 0..=256 {
        let extended: Vec<u8> = good.iter().copied().cycle().take(length).collect();
        let padded: Vec<u8> = good.iter().copied().chain([0; 128]).take(length).collect();
        seen.compare(&extended);
        seen.compare(&padded);
        seen.compare(&vec![0x00; length]);
        seen.compare(&vec![0xFF; length]);
    }
}

/// Every value of every single byte, with the sum as it then is and with the sum put right.
fn single_bytes(seen: &mut Seen, block: &[u8; SIZE]) {
    for place in 0..SIZE {
        for value in 0..=255 {
            let mut damaged = *block;
            damaged[place] = value;
            seen.compare(&damaged);
            repair(&mut damaged);
            seen.compare(&damaged);
        }
    }
}

/// Every version and revision; every byte 20 at revisions 0 to 5.
fn editions(seen: &mut Seen, block: &[u8; SIZE]) {
    let mut other = *block;
    for version in 0..=255 {
        for revision in 0..=255 {
            other[VERSION] = version;
            other[REVISION] = revision;
            repair(&mut other);
            seen.compare(&other);
        }
    }
    other[VERSION] = 1;
    for revision in 0..=5 {
        for input in 0..=255 {
            other[REVISION] = revision;
            other[INPUT] = input;
            repair(&mut other);
            seen.compare(&other);
            other[SUM] ^= 0x80;
            seen.compare(&other);
        }
    }
}

fn damaged(seen: &mut Seen, block: &[u8; SIZE], numbers: &mut Numbers) {
    for _ in 0..100_000 {
        let mut other = *block;
        for _ in 0..numbers.below(4) {
            other[numbers.below(SIZE as u64) as usize] = numbers.byte();
        }
        if numbers.below(2) == 0 {
            repair(&mut other);
        }
        seen.compare(&other);
    }
}

/// A program given its input, and what it wrote to standard output and standard error.
fn run(program: &str, input: &[u8]) -> (Vec<u8>, Vec<u8>) {
    let mut child = Command::new(format!("target/bin/{program}"))
        .stdin(Stdio::piped())
        .stdout(Stdio::piped())
        .stderr(Stdio::piped())
        .spawn()
        .unwrap_or_else(|error| fail(&format!("target/bin/{program}: {error}")));
    let mut stdin = child.stdin.take().expect("piped");
    let bytes = input.to_vec();
    let writer = std::thread::spawn(move || stdin.write_all(&bytes));
    let output = child.wait_with_output().unwrap_or_else(|error| fail(&format!("{program}: {error}")));
    // A program that has read enough may close its input.
    let _ = writer.join();
    (output.stdout, output.stderr)
}

fn expect_line(block: &[u8]) {
    let (printed, errors) = run("edid", block);
    if printed != line(block).as_bytes() || !errors.is_empty() {
        fail(&format!("the program printed {:?} for {block:02X?}, expected {:?}", String::from_utf8_lossy(&printed), line(block)));
    }
}

fn edid_program() {
    let mut runs = 0;
    let blocks = written_blocks();
    for block in &blocks {
        expect_line(&block.bytes);
        if number(&block.bytes) != block.number {
            fail(block.name);
        }
        runs += 1;
    }
    for length in 0..=256 {
        let bytes: Vec<u8> = blocks[0].bytes.iter().copied().cycle().take(length).collect();
        expect_line(&bytes);
        runs += 1;
    }
    expect_line(&vec![0; 100_000]);
    for place in [0, 7, VERSION, REVISION, INPUT, 64, SUM] {
        for block in &blocks {
            let mut damaged = block.bytes;
            damaged[place] ^= 0x11;
            expect_line(&damaged);
            runs += 1;
        }
    }
    println!("program edid agrees: {} runs", runs + 1);
}

fn words_of(bytes: &[u8]) -> Vec<u32> {
    bytes.chunks_exact(4).map(|word| u32::from_le_bytes(word.try_into().expect("four bytes"))).collect()
}

fn expect_frames(what: &str, words: &[u32], block: &[u8; SIZE]) {
    let expected: Vec<Vec<bool>> = block.iter().map(|&byte| frame(byte)).collect();
    let seen = frames(&mut Chip::fresh(), words);
    if seen != expected {
        let place = seen.iter().zip(&expected).take_while(|(a, b)| a == b).count();
        fail(&format!("{what}: byte {place} of {} frames: {:?}, expected {:?}", seen.len(), seen.get(place), expected.get(place)));
    }
}

/// The program's own answers to the words, beside those of the independent chip; none is refused.
fn expect_answers(what: &str, words: &[u32]) {
    let bytes: Vec<u8> = words.iter().flat_map(|word| word.to_le_bytes()).collect();
    let (answers, errors) = run("replay", &bytes);
    if answers != replay(&bytes) || !errors.is_empty() {
        fail(&format!("{what}: replay and the independent chip differ"));
    }
    if answers.split(|&byte| byte == b'\n').any(|line| !line.is_empty() && !line.starts_with(b"00")) {
        fail(&format!("{what}: a word is refused"));
    }
}

/// The words with others between them that the conditions allow: reads, writes of other registers, SDA, SCL up, HSYNCI, clocks
/// and polarity. A watchdog clock follows each write of CLRWDT at most 60 times.
fn with_noise(words: &[u32], numbers: &mut Numbers) -> Vec<u32> {
    let mut noisy = Vec::new();
    let mut watchdog = 0;
    for &word in words {
        for _ in 0..numbers.below(4) {
            let level = numbers.below(2) as u32;
            let byte = u32::from(numbers.byte());
            noisy.push(match numbers.below(12) {
                0 => 0x0100_1400,
                1 => 0x0100_1500,
                2 => 0x0300_1800 | level,
                3 => 0x0300_1901,
                4 => 0x0300_1A00 | level,
                5 => 0x0300_0E00 | level,
                6 => 0x0400_0000,
                7 if watchdog < 60 => {
                    watchdog += 1;
                    0x0400_0300
                }
                8 => 0x0500_0100 | level,
                9 => 0x0200_1100 | byte,
                10 => 0x0200_1300 | byte,
                _ => 0x0200_1800 | byte,
            });
        }
        if word == 0x0200_1255 {
            watchdog = 0;
        }
        noisy.push(word);
    }
    noisy
}

fn feed_program(numbers: &mut Numbers) {
    let mut sent = 0;
    let mut refused = 0;
    let mut blocks: Vec<[u8; SIZE]> = written_blocks().iter().map(|block| block.bytes).collect();
    for _ in 0..40 {
        let mut block = written_blocks()[0].bytes;
        block[REVISION] = 3 + numbers.below(2) as u8;
        for byte in &mut block[INPUT + 1..SUM] {
            *byte = numbers.byte();
        }
        repair(&mut block);
        blocks.push(block);
    }
    for block in &blocks {
        let (bytes, errors) = run("feed", block);
        if let Err(number) = check(block) {
            let told = format!("feed: the block is refused: {number}\n");
            if !bytes.is_empty() || errors != told.as_bytes() {
                fail(&format!("feed of a block refused with {number} wrote {} bytes", bytes.len()));
            }
            refused += 1;
            continue;
        }
        let words = words_of(&bytes);
        if bytes.len() != 4 * (21 + 20 * SIZE) || !errors.is_empty() {
            fail(&format!("feed wrote {} bytes", bytes.len()));
        }
        expect_frames("feed", &words, block);
        expect_answers("feed", &words);
        let noisy = with_noise(&words, numbers);
        expect_frames("feed among other words", &noisy, block);
        expect_answers("feed among other words", &noisy);
        sent += 1;
    }
    println!("program feed agrees: {sent} blocks on SDA bit by bit, {refused} refused");
}

fn main() {
    let mut seen = Seen::default();
    let mut numbers = Numbers(0x6861);
    lengths(&mut seen);
    for block in written_blocks() {
        single_bytes(&mut seen, &block.bytes);
        editions(&mut seen, &block.bytes);
        damaged(&mut seen, &block.bytes, &mut numbers);
    }
    seen.report();
    edid_program();
    feed_program(&mut numbers);
}
