//! Recordings of the capture box, written and read independently of the proved crates: from document 02, Wish 1, and the readings
//! in docs/DECISIONS.md.

use crate::chip::Chip;

pub const BLOCK: usize = 512;
pub const MOST_WORDS: usize = 126;
pub const MOST_BLOCKS: usize = 65_536;

/// The sum that closes a block: of the 508 bytes before it.
pub fn close(block: &mut [u8; BLOCK]) {
    let sum: u32 = block[..508].iter().map(|&byte| u32::from(byte)).sum();
    block[508..].copy_from_slice(&sum.to_le_bytes());
}

/// A block, or 16 for too many words.
pub fn write_block(number: u16, words: &[u32]) -> Result<[u8; BLOCK], u8> {
    if words.len() > MOST_WORDS {
        return Err(16);
    }
    let mut block = [0; BLOCK];
    block[0..2].copy_from_slice(&number.to_le_bytes());
    block[2..4].copy_from_slice(&(words.len() as u16).to_le_bytes());
    for (place, word) in block[4..508].chunks_exact_mut(4).zip(words) {
        place.copy_from_slice(&word.to_le_bytes());
    }
    close(&mut block);
    Ok(block)
}

/// The recording of a list of words, or nothing where it would take too many blocks.
pub fn write(words: &[u32]) -> Option<Vec<u8>> {
    let mut bytes = Vec::new();
    for (number, part) in words.chunks(MOST_WORDS).enumerate() {
        bytes.extend(write_block(u16::try_from(number).ok()?, part).ok()?);
    }
    Some(bytes)
}

/// The words of a block whose number is due, or what is wrong with it.
pub fn read_block(due: u32, block: &[u8]) -> Result<Vec<u32>, u8> {
    if block.len() < BLOCK {
        return Err(10);
    }
    let two = |at: usize| u32::from(u16::from_le_bytes([block[at], block[at + 1]]));
    let four = |at: usize| u32::from_le_bytes([block[at], block[at + 1], block[at + 2], block[at + 3]]);
    let mut sum = 0u32;
    for &byte in &block[..508] {
        sum += u32::from(byte);
    }
    let words: Vec<u32> = (0..MOST_WORDS).map(|i| four(4 + 4 * i)).collect();
    let count = two(2) as usize;
    if four(508) != sum {
        Err(11)
    } else if two(0) != due {
        Err(12)
    } else if count > MOST_WORDS {
        Err(13)
    } else if words[count..].iter().any(|&word| word != 0) {
        Err(14)
    } else {
        Ok(words[..count].to_vec())
    }
}

/// The answers to a recording from a fresh chip, a line each, and the number that ended it.
pub fn replay(bytes: &[u8]) -> (String, Option<u8>) {
    let mut chip = Chip::fresh();
    let mut text = String::new();
    for (due, block) in bytes.chunks(BLOCK).enumerate() {
        match read_block(due as u32, block) {
            Ok(words) => {
                for word in words {
                    text.push_str(&format!("{:08X}\n", chip.step(word)));
                }
            }
            Err(number) => {
                text.push_str(&format!("{number:02X}000000\n"));
                return (text, Some(number));
            }
        }
    }
    (text, None)
}

#[cfg(test)]
mod tests {
    use super::*;

    #[test]
    fn a_block_by_hand() {
        let block = write_block(0x0102, &[0x0304_0506]).unwrap();
        assert_eq!(block[..8], [2, 1, 1, 0, 6, 5, 4, 3]);
        assert!(block[8..508].iter().all(|&byte| byte == 0));
        assert_eq!(block[508..], [2 + 1 + 1 + 6 + 5 + 4 + 3, 0, 0, 0]);
        assert_eq!(read_block(0x0102, &block), Ok(vec![0x0304_0506]));
        assert_eq!(read_block(0x0103, &block), Err(12));
        assert_eq!(read_block(0x1_0102, &block), Err(12));
        assert_eq!(read_block(0x0102, &block[..511]), Err(10));
    }

    #[test]
    fn refusals_in_order() {
        let closed = |change: &dyn Fn(&mut [u8; BLOCK])| {
            let mut block = write_block(0, &[1; 5]).unwrap();
            change(&mut block);
            close(&mut block);
            read_block(0, &block)
        };
        assert_eq!(closed(&|_| ()), Ok(vec![1; 5]));
        assert_eq!(closed(&|block| block[0] = 1), Err(12));
        assert_eq!(closed(&|block| block[2] = 127), Err(13));
        assert_eq!(closed(&|block| block[3] = 1), Err(13));
        assert_eq!(closed(&|block| block[507] = 1), Err(14));
        assert_eq!(closed(&|block| block[2] = 4), Err(14));
        assert_eq!(closed(&|block| (block[0], block[2], block[507]) = (1, 127, 1)), Err(12));
        assert_eq!(closed(&|block| (block[2], block[507]) = (127, 1)), Err(13));
        let mut wrong = write_block(1, &[1; 5]).unwrap();
        wrong[511] = 1;
        assert_eq!(read_block(0, &wrong), Err(11));
    }

    #[test]
    fn no_words_no_block() {
        assert_eq!(write(&[]), Some(vec![]));
        assert_eq!(write(&[7; 126]).unwrap().len(), BLOCK);
        assert_eq!(write(&[7; 127]).unwrap().len(), 2 * BLOCK);
        assert_eq!(replay(&[]), (String::new(), None));
        assert_eq!(replay(&[0; 1]), ("0A000000\n".to_string(), Some(10)));
    }
}
