//! EDID base blocks: an independent check, blocks written out field by field, and a reading of SDA while a chip is fed in DDC1.
//!
//! Written from document 02 and the readings in docs/DECISIONS.md; it shares nothing with the proved code.

use crate::chip::{pin, Chip};

pub const SIZE: usize = 128;
pub const VERSION: usize = 18;
pub const REVISION: usize = 19;
pub const INPUT: usize = 20;
pub const SUM: usize = 127;

/// The number that refuses a block, or the revision of an accepted one.
pub fn check(block: &[u8]) -> Result<u8, u8> {
    let Ok(block) = <&[u8; SIZE]>::try_from(block) else {
        return Err(30);
    };
    if block[..8] != [0x00, 0xFF, 0xFF, 0xFF, 0xFF, 0xFF, 0xFF, 0x00] {
        return Err(31);
    }
    if block[VERSION] != 1 || !(3..=4).contains(&block[REVISION]) {
        return Err(32);
    }
    if sum(block) != 0 {
        return Err(33);
    }
    let input = block[INPUT];
    let digital = input & 0x80 != 0;
    match block[REVISION] {
        _ if !digital => Ok(block[REVISION]),
        3 if input & 0x7E != 0 => Err(34),
        4 if input & 0x70 == 0x70 => Err(35),
        4 if input & 0x0F > 5 => Err(36),
        revision => Ok(revision),
    }
}

pub fn sum(bytes: &[u8]) -> u8 {
    bytes.iter().fold(0, |sum: u8, &byte| sum.wrapping_add(byte))
}

/// The last byte put so that all bytes add up to 0.
pub fn repair(block: &mut [u8; SIZE]) {
    block[SUM] = 0u8.wrapping_sub(sum(&block[..SUM]));
}

pub fn number(block: &[u8]) -> u8 {
    check(block).err().unwrap_or(0)
}

/// What the program `edid` prints.
pub fn line(block: &[u8]) -> &'static str {
    match check(block) {
        Ok(3) => "0 accepted 1.3\n",
        Ok(_) => "0 accepted 1.4\n",
        Err(30) => "30 length\n",
        Err(31) => "31 header\n",
        Err(32) => "32 version\n",
        Err(33) => "33 sum\n",
        Err(34) => "34 digital\n",
        Err(35) => "35 depth\n",
        Err(_) => "36 interface\n",
    }
}

/// Blocks written out by the fields of the standard, each with the number that is due.
pub struct Written {
    pub name: &'static str,
    pub number: u8,
    pub bytes: [u8; SIZE],
}

/// The bytes that do not depend on the edition: identity and time of making, then (from byte 21) size, gamma, features,
/// chromaticity, timings and four descriptors.
struct Panel {
    input: u8,
    timing: [u8; 18],
    name: &'static [u8; 13],
}

/// 1280 by 1024 at 85 Hz: 157.5 MHz; 1280 + 448 by 1024 + 48; sync 64, 160 by 1, 3; 360 by 270 mm; both syncs positive.
const CRT_TIMING: [u8; 18] = [
    0x86, 0x3D, 0x00, 0xC0, 0x51, 0x00, 0x30, 0x40, 0x40, 0xA0, 0x13, 0x00, 0x68, 0x0E, 0x11, 0x00, 0x00, 0x1E,
];

/// 1920 by 1080 at 60 Hz: 148.5 MHz; 1920 + 280 by 1080 + 45; sync 88, 44 by 4, 5; 509 by 286 mm; both syncs positive.
const WIDE_TIMING: [u8; 18] = [
    0x02, 0x3A, 0x80, 0x18, 0x71, 0x38, 0x2D, 0x40, 0x58, 0x2C, 0x45, 0x00, 0xFD, 0x1E, 0x11, 0x00, 0x00, 0x1E,
];

fn written(revision: u8, panel: &Panel) -> [u8; SIZE] {
    let mut bytes = Vec::new();
    bytes.extend([0x00, 0xFF, 0xFF, 0xFF, 0xFF, 0xFF, 0xFF, 0x00]);
    // Maker XUN, five bits a letter; product 6861H; serial number 1; week 12 of 2001.
    bytes.extend([0x62, 0xAE, 0x61, 0x68, 0x01, 0x00, 0x00, 0x00, 0x0C, 0x0B]);
    bytes.extend([1, revision, panel.input]);
    // 36 by 27 cm, gamma 2.2, features.
    bytes.extend([0x24, 0x1B, 0x78, 0xEA]);
    // Chromaticity of sRGB.
    bytes.extend([0xEE, 0x91, 0xA3, 0x54, 0x4C, 0x99, 0x26, 0x0F, 0x50, 0x54]);
    // Established timings; eight standard timings, the last three unused.
    bytes.extend([0xBF, 0xEF, 0x80]);
    bytes.extend([0x81, 0x80, 0x81, 0x40, 0x71, 0x4F, 0x61, 0x59, 0x45, 0x59, 0x01, 0x01, 0x01, 0x01, 0x01, 0x01]);
    bytes.extend(panel.timing);
    // Range limits: 50 to 160 Hz, 30 to 96 kHz, 200 MHz.
    bytes.extend([0x00, 0x00, 0x00, 0xFD, 0x00, 50, 160, 30, 96, 20, 0x00, 0x0A, 0x20, 0x20, 0x20, 0x20, 0x20, 0x20]);
    bytes.extend([0x00, 0x00, 0x00, 0xFC, 0x00]);
    bytes.extend(panel.name);
    bytes.extend([0x00, 0x00, 0x00, 0xFF, 0x00]);
    bytes.extend(b"BENCH-000001\n");
    // No extension; the sum.
    bytes.extend([0x00, 0x00]);
    let mut block: [u8; SIZE] = bytes.try_into().expect("the fields make 128 bytes");
    repair(&mut block);
    block
}

pub fn written_blocks() -> Vec<Written> {
    let crt = Panel { input: 0x6E, timing: CRT_TIMING, name: b"Bench CRT 19\n" };
    let dfp = Panel { input: 0x81, timing: WIDE_TIMING, name: b"Bench DVI 22\n" };
    let display_port = Panel { input: 0xA5, timing: WIDE_TIMING, name: b"Bench DP 23 \n" };
    let hdmi = Panel { input: 0xB2, timing: WIDE_TIMING, name: b"Bench HDMI 2\n" };
    let reserved_depth = Panel { input: 0xF6, timing: WIDE_TIMING, name: b"Bench none  \n" };
    let no_interface = Panel { input: 0xA6, timing: WIDE_TIMING, name: b"Bench none  \n" };
    vec![
        Written { name: "1.3, analogue", number: 0, bytes: written(3, &crt) },
        Written { name: "1.3, digital", number: 0, bytes: written(3, &dfp) },
        Written { name: "1.3, digital with bits of 1.4", number: 34, bytes: written(3, &display_port) },
        Written { name: "1.4, analogue", number: 0, bytes: written(4, &crt) },
        Written { name: "1.4, DisplayPort, 8 bits a colour", number: 0, bytes: written(4, &display_port) },
        Written { name: "1.4, HDMI, 10 bits a colour", number: 0, bytes: written(4, &hdmi) },
        Written { name: "1.4, the reserved depth", number: 35, bytes: written(4, &reserved_depth) },
        Written { name: "1.4, an undefined interface", number: 36, bytes: written(4, &no_interface) },
        Written { name: "1.2, analogue", number: 32, bytes: written(2, &crt) },
    ]
}

/// The bits that a host reads while words are given to a chip in DDC1: SDA as the chip puts it after each load, and after
/// each later rise of VSYNCI until the next load. A load is told by flag D, which the reader clears.
pub fn frames(chip: &mut Chip, words: &[u32]) -> Vec<Vec<bool>> {
    let mut frames: Vec<Vec<bool>> = Vec::new();
    for &word in words {
        let was_high = chip.level(pin::VSYNCI);
        let loads = chip.edges_left == 0;
        chip.step(word);
        let rose = !was_high && chip.level(pin::VSYNCI);
        if !(rose && chip.ddc1() && chip.level(pin::RESET)) {
            continue;
        }
        if loads {
            frames.push(Vec::new());
        }
        if let Some(frame) = frames.last_mut() {
            frame.push(!chip.pull_sda);
        }
    }
    frames
}

/// A byte, top bit first, and the null bit.
pub fn frame(byte: u8) -> Vec<bool> {
    (0..8).rev().map(|place| byte >> place & 1 == 1).chain([true]).collect()
}

#[cfg(test)]
mod tests {
    use super::*;

    #[test]
    fn written_blocks_are_judged_as_due() {
        for block in written_blocks() {
            assert_eq!(number(&block.bytes), block.number, "{}", block.name);
            assert_eq!(sum(&block.bytes), 0, "{}", block.name);
        }
    }

    #[test]
    fn the_first_fault_is_told() {
        let mut block = written_blocks()[1].bytes;
        block[INPUT] = 0x83;
        repair(&mut block);
        assert_eq!(number(&block), 34);
        block[SUM] ^= 1;
        assert_eq!(number(&block), 33);
        block[REVISION] = 2;
        assert_eq!(number(&block), 32);
        block[7] = 1;
        assert_eq!(number(&block), 31);
        assert_eq!(number(&block[..127]), 30);
    }

    #[test]
    fn bit_0_of_a_digital_input_and_all_bits_of_an_analogue_one_are_free() {
        for input in (0x00..=0x7F).chain([0x80, 0x81]) {
            let mut block = written_blocks()[0].bytes;
            block[INPUT] = input;
            repair(&mut block);
            assert_eq!(number(&block), 0, "{input:02X}");
        }
    }

    #[test]
    fn the_revision_selects_the_rule() {
        // Revision 3, revision 4: digital, with depth in bits 6..4 and interface in bits 3..0.
        let cases = [
            (0x00, 0, 0),
            (0x7F, 0, 0),
            (0x80, 0, 0),
            (0x81, 0, 0),
            (0x82, 34, 0),
            (0x85, 34, 0),
            (0x86, 34, 36),
            (0xE5, 34, 0),
            (0xE6, 34, 36),
            (0xF0, 34, 35),
            (0xFF, 34, 35),
        ];
        for (input, by_3, by_4) in cases {
            for (revision, expected) in [(2, 32), (3, by_3), (4, by_4), (5, 32)] {
                let mut block = written_blocks()[0].bytes;
                block[REVISION] = revision;
                block[INPUT] = input;
                repair(&mut block);
                assert_eq!(number(&block), expected, "revision {revision}, byte 20 {input:02X}");
                block[SUM] ^= 1;
                assert_eq!(number(&block), if expected == 32 { 32 } else { 33 });
            }
        }
    }

    #[test]
    fn a_byte_is_read_top_bit_first_with_its_null_bit() {
        let mut words = vec![0x0200_1500];
        for _ in 0..9 {
            words.extend([0x0300_1B00, 0x0300_1B01]);
        }
        words.push(0x0200_14A6);
        for _ in 0..9 {
            words.extend([0x0300_1B00, 0x0300_1B01]);
        }
        let levels = [true, false, true, false, false, true, true, false, true];
        assert_eq!(frames(&mut Chip::fresh(), &words), [levels.to_vec()]);
        assert_eq!(frame(0xA6), levels);
    }
}
