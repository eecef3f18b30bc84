//! The state as 128 bytes, written from docs/STATE.md: each field at its offset, and on reading a test of each field's range. It
//! shares nothing with the proved code.

use crate::chip::{pin, Chip, Counter, Outcome, Phase};

pub const SIZE: usize = 128;
const REGISTERS: usize = 90;

/// What stands in the places of registers that are kept elsewhere in the layout.
const FIXED: [(usize, u8); 15] = [
    (0x05, 0x07),
    (0x06, 0x2F),
    (0x07, 0),
    (0x08, 0),
    (0x09, 0),
    (0x0A, 0),
    (0x0D, 0xC0),
    (0x0E, 0),
    (0x10, 0),
    (0x11, 0),
    (0x12, 0),
    (0x13, 0xFF),
    (0x14, 0),
    (0x15, 0x08),
    (0x16, 0),
];

fn bits(from: &[bool]) -> u8 {
    from.iter().fold(0, |byte, &bit| byte << 1 | u8::from(bit))
}

fn outcome_number(outcome: Outcome) -> u8 {
    match outcome {
        Outcome::None => 0,
        Outcome::A0 => 1,
        Outcome::IiAdr => 2,
        Outcome::Both => 3,
    }
}

/// Phase, count, bits: offsets 22, 24 and 25.
fn phase_bytes(chip: &Chip) -> (u8, u8, u8) {
    match chip.phase {
        Phase::Idle => (0, 0, 0),
        Phase::Incoming { address: true, bits: 8, byte } => (2, if chip.pull_sda { 9 } else { 8 }, byte),
        Phase::Incoming { address: true, bits, byte } => (1, bits, byte),
        Phase::Ignoring => (3, 0, 0),
        Phase::Incoming { address: false, bits: 8, byte } => (4, if chip.pull_sda { 9 } else { 8 }, byte),
        Phase::Incoming { address: false, bits, byte } => (4, bits, byte),
        Phase::NotAcknowledged => (4, 10, chip.moving),
        Phase::Outgoing { falls: 8, acked, .. } => (5, if acked { 10 } else { 9 }, chip.moving),
        Phase::Outgoing { falls, .. } => (5, falls + 1, chip.moving),
        Phase::Held => (6, 0, 0),
    }
}

pub fn write(chip: &Chip) -> [u8; SIZE] {
    let mut s = [0; SIZE];
    let mut put16 = |at: usize, n: u16| s[at..at + 2].copy_from_slice(&n.to_le_bytes());
    put16(5, chip.hcnt.count);
    put16(7, chip.hcnt.latch);
    put16(10, chip.vcnt.count);
    put16(12, chip.vcnt.latch);
    put16(15, chip.interval);
    put16(26, if chip.phase == Phase::Held { chip.held_clocks } else { 0 });
    s[0] = chip.irqx;
    s[1] = bits(&[chip.insen, chip.hsel, chip.sc, chip.md]);
    s[2] = bits(&[chip.hpoli, chip.vpoli, chip.hpolo, chip.vpolo]);
    s[3] = chip.bt;
    s[4] = chip.watchdog;
    s[9] = u8::from(chip.hcnt.overflow);
    s[14] = u8::from(chip.vcnt.overflow);
    s[17] = chip.iiadr;
    s[18] = bits(&[chip.start, chip.stop, chip.enddc, chip.trx, chip.rxak, chip.txak]);
    s[19] = chip.iidat;
    s[20] = chip.shift;
    s[21] = chip.edges_left;
    let (phase, count, gathered) = phase_bytes(chip);
    s[22] = phase;
    s[23] = outcome_number(chip.compared);
    s[24] = count;
    s[25] = gathered;
    s[28] = chip.levels as u8;
    s[29] = (chip.levels >> 8) as u8 & 0x7F;
    s[30] = (chip.levels >> 16) as u8;
    for (at, which) in [(31, pin::HSYNCI), (32, pin::VSYNCI), (33, pin::SDA), (34, pin::SCL), (35, pin::RESET)] {
        s[at] = u8::from(chip.level(which));
    }
    let r = &mut s[REGISTERS..];
    for (register, byte) in FIXED {
        r[register] = byte;
    }
    r[0x00] = chip.pt0;
    r[0x01] = chip.pt1 | 0x40;
    r[0x02] = chip.pt2dir;
    r[0x03] = chip.pt2;
    r[0x04] = chip.pt3;
    r[0x0B] = chip.syncon;
    r[0x0C] = chip.endac;
    r[0x0F] = chip.iex;
    r[0x17] = bits(&[chip.tbs, chip.enbt]);
    r[0x18..0x26].copy_from_slice(&chip.dach);
    s
}

fn level(byte: u8) -> Option<bool> {
    match byte {
        0 => Some(false),
        1 => Some(true),
        _ => None,
    }
}

fn below(n: u16, end: u16) -> Option<u16> {
    (n < end).then_some(n)
}

fn bit(byte: u8, place: u32) -> bool {
    byte >> place & 1 == 1
}

/// The phase by its six bytes; None where they are outside the table's ranges.
fn phase(s: &[u8]) -> Option<(Phase, Outcome, u16, u8)> {
    let (count, gathered) = (s[24], s[25]);
    let clocks = u16::from_le_bytes([s[26], s[27]]);
    let outcome = match s[23] {
        0 => Outcome::None,
        1 => Outcome::A0,
        2 => Outcome::IiAdr,
        3 => Outcome::Both,
        _ => return None,
    };
    let inside = matches!(s[22], 2 | 4 | 5 | 6);
    if inside == (outcome == Outcome::None) || (s[22] != 6 && clocks != 0) {
        return None;
    }
    let fits = |count: u8| count >= 8 || gathered >> count == 0;
    let phase = match s[22] {
        0 | 3 | 6 if count != 0 || gathered != 0 => return None,
        0 => Phase::Idle,
        3 => Phase::Ignoring,
        6 => Phase::Held,
        1 if count < 8 && fits(count) => Phase::Incoming { address: true, bits: count, byte: gathered },
        2 if count == 8 || count == 9 => Phase::Incoming { address: true, bits: 8, byte: gathered },
        4 if count < 10 && fits(count) => Phase::Incoming { address: false, bits: count.min(8), byte: gathered },
        4 if count == 10 => Phase::NotAcknowledged,
        5 if (1..=8).contains(&count) => Phase::Outgoing { rest: gathered << (count - 1), falls: count - 1, acked: false },
        5 if count == 9 || count == 10 => Phase::Outgoing { rest: 0, falls: 8, acked: count == 10 },
        _ => return None,
    };
    let moving = if matches!(phase, Phase::Outgoing { .. } | Phase::NotAcknowledged) { gathered } else { 0 };
    Some((phase, outcome, clocks, moving))
}

/// The chip that 128 bytes are; None where no well formed state is written as them.
fn chip_of(s: &[u8]) -> Option<Chip> {
    let r = &s[REGISTERS..];
    let fixed = FIXED.iter().all(|&(register, byte)| r[register] == byte);
    let reserved = r[0x01] & 0xC0 == 0x40 && r[0x04] < 4 && r[0x0B] & 0x20 == 0x20 && r[0x0F] < 64 && r[0x17] < 4;
    let spare = s[36..REGISTERS].iter().all(|&byte| byte == 0);
    let ranges = s[0] < 64 && s[1] < 16 && s[2] < 16 && s[4] < 64 && s[17] & 1 == 1 && s[18] < 64 && s[29] < 128;
    if !(fixed && reserved && spare && ranges) {
        return None;
    }
    let word = |at: usize| u16::from_le_bytes([s[at], s[at + 1]]);
    let counter = |at: usize| -> Option<Counter> {
        Some(Counter {
            count: below(word(at), 4096)?,
            latch: below(word(at + 2), 4096)?,
            overflow: level(s[at + 4])?,
        })
    };
    let (phase, compared, held_clocks, moving) = phase(s)?;
    let mut levels = u32::from(s[28]) | u32::from(s[29]) << 8 | u32::from(s[30]) << 16;
    for (at, which) in [(31, pin::HSYNCI), (32, pin::VSYNCI), (33, pin::SDA), (34, pin::SCL), (35, pin::RESET)] {
        levels |= u32::from(level(s[at])?) << which;
    }
    // a fresh chip has ones for the pins that there are not
    levels |= Chip::fresh().levels & !0x1FFF_7FFF;
    let mut chip = Chip::fresh();
    chip.levels = levels;
    (chip.insen, chip.hsel, chip.sc, chip.md) = (bit(s[1], 3), bit(s[1], 2), bit(s[1], 1), bit(s[1], 0));
    (chip.hpoli, chip.vpoli, chip.hpolo, chip.vpolo) = (bit(s[2], 3), bit(s[2], 2), bit(s[2], 1), bit(s[2], 0));
    (chip.irqx, chip.bt, chip.watchdog) = (s[0], s[3], s[4]);
    (chip.hcnt, chip.vcnt, chip.interval) = (counter(5)?, counter(10)?, below(word(15), 1024)?);
    (chip.iiadr, chip.iidat, chip.shift, chip.edges_left) = (s[17], s[19], s[20], s[21]);
    (chip.start, chip.stop, chip.enddc) = (bit(s[18], 5), bit(s[18], 4), bit(s[18], 3));
    (chip.trx, chip.rxak, chip.txak) = (bit(s[18], 2), bit(s[18], 1), bit(s[18], 0));
    (chip.phase, chip.compared, chip.held_clocks, chip.moving) = (phase, compared, held_clocks, moving);
    (chip.pt0, chip.pt1, chip.pt2dir, chip.pt2, chip.pt3) = (r[0], r[1] & 0x3F, r[2], r[3], r[4]);
    (chip.syncon, chip.endac, chip.iex) = (r[0x0B], r[0x0C], r[0x0F]);
    (chip.tbs, chip.enbt) = (bit(r[0x17], 1), bit(r[0x17], 0));
    chip.dach.copy_from_slice(&r[0x18..0x26]);
    // the phase and the shift register fit the mode
    let unused = s[20] == 0xFF && s[21] == 9;
    let fits = if chip.ddc2b() {
        unused
    } else if chip.ddc1() {
        phase == Phase::Idle && (s[21] < 9 || unused)
    } else {
        phase == Phase::Idle && unused
    };
    chip.pull_scl = phase == Phase::Held;
    chip.pull_sda = if chip.ddc1() {
        !bit(s[20], 7)
    } else {
        match phase {
            Phase::Incoming { bits: 8, .. } => s[24] == 9,
            Phase::Outgoing { rest, falls, .. } => falls < 8 && !bit(rest, 7),
            _ => false,
        }
    };
    fits.then_some(chip)
}

/// Reads an area: the chip, or 15 for another length, then 8.
pub fn read(area: &[u8]) -> Result<Chip, u8> {
    if area.len() != SIZE {
        return Err(15);
    }
    chip_of(area).ok_or(8)
}

/// One step on an area: its answer; refused, the area keeps its bytes.
pub fn step(area: &mut [u8], word: u32) -> u32 {
    match read(area) {
        Err(number) => u32::from(number) << 24,
        Ok(mut chip) => {
            let answer = chip.step(word);
            area.copy_from_slice(&write(&chip));
            answer
        }
    }
}

/// The list call on an area.
pub fn run(area: &mut [u8], words: &[u32], answers: &mut [u32]) -> u8 {
    match read(area) {
        Err(number) => number,
        Ok(_) if answers.len() < words.len() => 7,
        Ok(mut chip) => {
            for (answer, word) in answers.iter_mut().zip(words) {
                *answer = chip.step(*word);
            }
            area.copy_from_slice(&write(&chip));
            0
        }
    }
}
