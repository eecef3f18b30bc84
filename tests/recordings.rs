//! The proved reader and writer of a block, linked from their static library, beside the independent ones of the model; and the
//! independent recordings that scripts/check-recordings.sh compares the programs with.

use nt6861_model::recordings::{close, read_block, replay, write, write_block, BLOCK, MOST_BLOCKS};
use std::io::{self, Read, Write};
use std::process::ExitCode;

#[link(name = "blocks_capi", kind = "static")]
extern "C" {
    fn nt6861_read_block(
        number: u32,
        bytes: *const u8,
        length: usize,
        words: *mut u32,
        places: usize,
        count: *mut usize,
    ) -> u8;
    fn nt6861_write_block(number: u16, words: *const u32, count: usize, area: *mut u8, length: usize) -> u8;
}

const MARK: u32 = 0xA5A5_5A5A;
const OLD: usize = 999;

/// Numbers that look random, the same in every run.
struct Seeded(u64);

impl Seeded {
    fn next(&mut self) -> u64 {
        self.0 = self.0.wrapping_mul(6_364_136_223_846_793_005).wrapping_add(1_442_695_040_888_963_407);
        self.0 >> 24
    }
}

/// Reads by both, with so many places for words, and compares number, count, words and what is left of the places.
fn compare_reading(due: u32, bytes: &[u8], places: usize, agreed: &mut [u64; 18]) {
    let mut words = vec![MARK; places];
    let mut count = OLD;
    let number = unsafe {
        nt6861_read_block(due, bytes.as_ptr(), bytes.len(), words.as_mut_ptr(), words.len(), &mut count)
    };
    let mut expected = vec![MARK; places];
    let (expected_number, expected_count) = match read_block(due, bytes) {
        Ok(read) if read.len() > places => (7, OLD),
        Ok(read) => {
            expected[..read.len()].copy_from_slice(&read);
            (0, read.len())
        }
        Err(number) => (number, OLD),
    };
    assert_eq!((number, count), (expected_number, expected_count), "due {due}, bytes {bytes:02X?}");
    assert_eq!(words, expected, "due {due}, bytes {bytes:02X?}");
    agreed[usize::from(number)] += 1;
}

fn compare_writing(number: u16, words: &[u32], length: usize, agreed: &mut [u64; 18]) {
    let mut area = vec![0xC3; length];
    let status = unsafe { nt6861_write_block(number, words.as_ptr(), words.len(), area.as_mut_ptr(), area.len()) };
    let (expected_status, expected) = match write_block(number, words) {
        Err(refusal) => (refusal, vec![0xC3; length]),
        Ok(_) if length != BLOCK => (17, vec![0xC3; length]),
        Ok(block) => (0, block.to_vec()),
    };
    assert_eq!((status, area), (expected_status, expected), "number {number}, {} words, area of {length}", words.len());
    agreed[usize::from(status)] += 1;
}

fn blocks() {
    let mut seeded = Seeded(1);
    let mut agreed = [0u64; 18];
    for count in 0..=130usize {
        let number = seeded.next() as u16;
        let words: Vec<u32> = (0..count).map(|_| seeded.next() as u32).collect();
        for length in [0, 1, 511, 512, 513, 1024] {
            compare_writing(number, &words, length, &mut agreed);
        }
        let Ok(block) = write_block(number, &words) else { continue };
        let due = u32::from(number);
        for places in [126, count, count.saturating_sub(1), 200] {
            compare_reading(due, &block, places, &mut agreed);
        }
        compare_reading(due ^ 0x1_0000, &block, 126, &mut agreed);
        let mut longer = block.to_vec();
        longer.extend(&block);
        compare_reading(due, &longer, 126, &mut agreed);
        for length in 0..BLOCK {
            compare_reading(due, &block[..length], 126, &mut agreed);
        }
        // every byte damaged in turn, with the sum as it was and with the sum made good
        for at in 0..BLOCK {
            for change in [1, 0x80, seeded.next() as u8 | 2] {
                let mut damaged = block;
                damaged[at] ^= change;
                compare_reading(due, &damaged, 126, &mut agreed);
                close(&mut damaged);
                compare_reading(due, &damaged, 126, &mut agreed);
            }
        }
    }
    for number in [0usize, 7, 10, 11, 12, 13, 14, 16, 17] {
        assert!(agreed[number] > 0, "no case gave {number}");
    }
    println!(
        "blocks agree: {} calls; accepted or written {}, then by number: 7 {}, 10 {}, 11 {}, 12 {}, 13 {}, 14 {}, 16 {}, 17 {}",
        agreed.iter().sum::<u64>(), agreed[0], agreed[7], agreed[10], agreed[11], agreed[12], agreed[13], agreed[14], agreed[16], agreed[17]
    );
}

fn input() -> io::Result<Vec<u8>> {
    let mut bytes = Vec::new();
    io::stdin().lock().read_to_end(&mut bytes)?;
    Ok(bytes)
}

fn output(bytes: &[u8]) -> io::Result<()> {
    let mut out = io::stdout().lock();
    out.write_all(bytes)?;
    out.flush()
}

fn words_of(bytes: &[u8]) -> Vec<u32> {
    bytes.chunks_exact(4).map(|four| u32::from_le_bytes([four[0], four[1], four[2], four[3]])).collect()
}

/// Words in blocks of many counts, empty ones among them.
fn uneven(words: &[u32]) -> Vec<u8> {
    let mut seeded = Seeded(7);
    let mut bytes = Vec::new();
    let mut rest = words;
    let mut number = 0;
    while !rest.is_empty() && number < MOST_BLOCKS {
        let count = (seeded.next() as usize % 127).min(rest.len());
        bytes.extend(write_block(number as u16, &rest[..count]).expect("at most 126 words"));
        rest = &rest[count..];
        number += 1;
    }
    bytes
}

/// So many empty blocks, whose numbers wrap after the last.
fn empty(count: usize) -> Vec<u8> {
    (0..count).flat_map(|number| write_block(number as u16, &[]).expect("no words")).collect()
}

fn main() -> ExitCode {
    let arguments: Vec<String> = std::env::args().skip(1).collect();
    let arguments: Vec<&str> = arguments.iter().map(String::as_str).collect();
    let outcome = match arguments[..] {
        ["blocks"] => {
            blocks();
            Ok(())
        }
        ["write"] => input().and_then(|bytes| output(&write(&words_of(&bytes)).expect("at most 65,536 blocks"))),
        ["uneven"] => input().and_then(|bytes| output(&uneven(&words_of(&bytes)))),
        ["empty", count] => output(&empty(count.parse().expect("a number"))),
        ["damage", at, value] => input().and_then(|mut bytes| {
            let (at, value): (usize, u8) = (at.parse().expect("a place"), value.parse().expect("a byte"));
            bytes[at] ^= value;
            output(&bytes)
        }),
        ["answers"] => input().and_then(|bytes| output(replay(&bytes).0.as_bytes())),
        _ => {
            eprintln!("usage: recordings blocks | write | uneven | empty COUNT | damage PLACE VALUE | answers");
            return ExitCode::from(2);
        }
    };
    match outcome {
        Ok(()) => ExitCode::SUCCESS,
        Err(error) => {
            eprintln!("recordings: {error}");
            ExitCode::from(1)
        }
    }
}
