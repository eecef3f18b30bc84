//! The addresses in a list of outside changes of SCL and SDA, independent of the proved reading (Wish 11).
//!
//! Written from document 02 and the readings in docs/DECISIONS.md; shares no code with the proved crates. It goes once through the
//! list and cuts it into transfers, where the proved reading looks back from each place.

use crate::chip::{pin, Outcome};

/// A change: the line's pin number, and its level.
pub type Change = (u8, u8);

/// What the two lines show, once both are wired up.
#[derive(Clone, Copy, PartialEq, Eq, Debug)]
pub enum Shown {
    Start,
    Stop,
    Clock(bool),
}

/// The STARTs, STOPs and rises of SCL of a list, in their order, with the place of each.
pub fn shown(changes: &[Change]) -> Vec<(usize, Shown)> {
    let (mut scl, mut sda) = (1, 1);
    let mut seen = Vec::new();
    for (place, &(line, level)) in changes.iter().enumerate() {
        if line == pin::SCL {
            if scl < level {
                seen.push((place, Shown::Clock(sda == 1)));
            }
            scl = level;
        } else {
            if scl == 1 && sda != level {
                seen.push((place, if level == 0 { Shown::Start } else { Shown::Stop }));
            }
            sda = level;
        }
    }
    seen
}

/// Which of the chip's addresses a byte is, its lowest bit left out.
pub fn compared(own: u8, byte: u8) -> Outcome {
    match (byte | 1 == 0xA1, byte | 1 == own | 1) {
        (true, true) => Outcome::Both,
        (true, false) => Outcome::A0,
        (false, true) => Outcome::IiAdr,
        (false, false) => Outcome::None,
    }
}

/// The number of an outcome, as the proved call gives it.
pub fn outcome_number(outcome: Outcome) -> u16 {
    match outcome {
        Outcome::None => 0,
        Outcome::A0 => 1,
        Outcome::IiAdr => 2,
        Outcome::Both => 3,
    }
}

/// The addresses up to the stop, and how many changes there are up to it.
pub fn found(own: u8, changes: &[Change]) -> (Vec<(u8, Outcome)>, usize) {
    let mut list = Vec::new();
    let mut bits: Option<Vec<bool>> = None;
    for (place, sight) in shown(changes) {
        match sight {
            Shown::Start => bits = Some(Vec::new()),
            Shown::Stop => bits = None,
            Shown::Clock(sda) => {
                let Some(bits) = bits.as_mut() else { continue };
                bits.push(sda);
                if bits.len() == 8 {
                    let byte = bits.iter().fold(0, |byte, bit| byte << 1 | u8::from(*bit));
                    list.push((byte, compared(own, byte)));
                }
                if bits.len() == 9 && list.last().is_some_and(|last| last.1 != Outcome::None) {
                    return (list, place + 1);
                }
            }
        }
    }
    (list, changes.len())
}

/// The whole call: the addresses, or 2, 3 or 7.
pub fn read(own: u8, changes: &[Change], places: usize) -> Result<Vec<(u8, Outcome)>, u8> {
    for &(line, level) in changes {
        if line != pin::SDA && line != pin::SCL {
            return Err(2);
        }
        if level > 1 {
            return Err(3);
        }
    }
    let (list, _) = found(own, changes);
    if list.len() > places { Err(7) } else { Ok(list) }
}

#[cfg(test)]
mod tests {
    use super::*;

    /// START and the clocks of a byte, each a fall, SDA's level and a rise.
    fn transfer(byte: u8, clocks: usize) -> Vec<Change> {
        let mut list = vec![(24, 1), (25, 1), (24, 0)];
        for place in 0..clocks {
            let bit = if place < 8 { byte >> (7 - place) & 1 } else { 1 };
            list.extend([(25, 0), (24, bit), (25, 1)]);
        }
        list
    }

    #[test]
    fn eight_rises_make_an_address() {
        assert_eq!(read(0x6E, &transfer(0xA1, 8), 1), Ok(vec![(0xA1, Outcome::A0)]));
        assert_eq!(read(0x6E, &transfer(0x6F, 8), 1), Ok(vec![(0x6F, Outcome::IiAdr)]));
        assert_eq!(read(0xA1, &transfer(0xA0, 8), 1), Ok(vec![(0xA0, Outcome::Both)]));
        assert_eq!(read(0x6E, &transfer(0x50, 8), 1), Ok(vec![(0x50, Outcome::None)]));
        assert_eq!(read(0x6E, &transfer(0x50, 7), 1), Ok(vec![]));
    }

    #[test]
    fn the_stop_is_the_ninth_rise_of_a_match() {
        let mut list = transfer(0xA0, 9);
        list.extend(transfer(0x50, 9));
        assert_eq!(read(0x6E, &list, 9), Ok(vec![(0xA0, Outcome::A0)]));
        // a START in the eighth clock: SDA falls while SCL is high
        let mut list = transfer(0xA1, 8);
        list.extend(&transfer(0x50, 8)[1..]);
        assert_eq!(read(0x6E, &list, 9), Ok(vec![(0xA1, Outcome::A0), (0x50, Outcome::None)]));
    }

    #[test]
    fn refusals() {
        assert_eq!(read(0, &[(25, 0), (26, 2)], 0), Err(2));
        assert_eq!(read(0, &[(25, 2), (26, 0)], 0), Err(3));
        assert_eq!(read(0, &transfer(0xA0, 9), 0), Err(7));
    }
}
