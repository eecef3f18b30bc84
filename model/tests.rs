//! The cases of document 01, more worked out from the rules of documents 01 and 02, and checks of
//! the generator.

use crate::chip::{flag, pin, Chip, Counter, Outcome, Phase};
use crate::coverage;
use crate::replay::{generate, hold_text, outcome_text, replay, sample};
use crate::traffic::Traffic;

/// A chip with calls for events that must not be refused.
struct Rig(Chip);

impl Rig {
    fn new() -> Rig {
        Rig(Chip::fresh())
    }

    fn raw(&mut self, word: u32) -> u32 {
        self.0.step(word)
    }

    fn done(&mut self, word: u32) -> u32 {
        let answer = self.0.step(word);
        assert_eq!(answer >> 24, 0, "word {word:08X} answered {answer:08X}");
        answer
    }

    fn read(&mut self, register: u8) -> u8 {
        self.done(u32::from_be_bytes([1, 0, register, 0])) as u8
    }

    fn write(&mut self, register: u8, byte: u8) {
        self.done(u32::from_be_bytes([2, 0, register, byte]));
    }

    fn pin(&mut self, pin: u8, level: u8) -> u32 {
        self.done(u32::from_be_bytes([3, 0, pin, level]))
    }

    fn clock(&mut self, which: u8) -> u32 {
        self.done(u32::from_be_bytes([4, 0, which, 0]))
    }

    fn clocks(&mut self, which: u8, count: u32) {
        for _ in 0..count {
            self.clock(which);
        }
    }

    fn rises(&mut self, pin: u8, count: u32) {
        for _ in 0..count {
            self.pin(pin, 0);
            self.pin(pin, 1);
        }
    }

    fn flags(&mut self) -> u8 {
        self.read(0x10)
    }

    fn clear_flags(&mut self) {
        self.write(0x11, 0x3F);
    }

    fn h_latch(&mut self) -> u16 {
        u16::from_be_bytes([self.read(0x08), self.read(0x07)])
    }

    fn v_latch(&mut self) -> u16 {
        u16::from_be_bytes([self.read(0x0A), self.read(0x09)])
    }

    fn ddc2b() -> Rig {
        let mut rig = Rig::new();
        rig.write(0x05, 0x06);
        rig.write(0x15, 0x00);
        rig
    }

    fn scl(&mut self, level: u8) {
        self.pin(pin::SCL, level);
    }

    fn sda(&mut self, level: u8) {
        self.pin(pin::SDA, level);
    }

    /// Both lines high to begin with; ends with SCL low.
    fn start(&mut self) {
        self.sda(1);
        self.scl(1);
        self.sda(0);
        self.scl(0);
    }

    fn bits(&mut self, byte: u8, count: u32) {
        for place in (8 - count..8).rev() {
            self.sda(byte >> place & 1);
            self.scl(1);
            self.scl(0);
        }
    }

    fn ninth_clock(&mut self, sda: u8) {
        self.sda(sda);
        self.scl(1);
        self.scl(0);
    }

    fn send(&mut self, byte: u8) {
        self.bits(byte, 8);
        self.ninth_clock(1);
    }

    /// Addressed at A1H and held, ready for a byte out.
    fn addressed_for_read() -> Rig {
        let mut rig = Rig::ddc2b();
        rig.start();
        rig.send(0xA1);
        rig.write(0x15, 0x04);
        rig.clear_flags();
        rig
    }

    /// Addressed at A0H and held, START and flags cleared, with this in II STS.
    fn addressed_for_write(status: u8) -> Rig {
        let mut rig = Rig::ddc2b();
        rig.start();
        rig.send(0xA0);
        rig.write(0x15, status);
        rig.clear_flags();
        rig
    }

    /// A data byte up to the ninth high, SDA outside left at its last bit.
    fn data_to_ninth_high(&mut self, byte: u8) {
        self.write(0x14, 0x00);
        self.bits(byte, 8);
        self.scl(1);
    }
}

/// The listings that the proved program runs hold for this model too.
#[test]
fn listings_hold() {
    let data = concat!(env!("CARGO_MANIFEST_DIR"), "/crates/vectors/data");
    let mut listings = 0;
    for entry in std::fs::read_dir(data).expect(data) {
        let path = entry.expect(data).path();
        // The folder below has listings made to go wrong.
        if path.is_dir() {
            continue;
        }
        listings += 1;
        let text = std::fs::read_to_string(&path).expect("a listing");
        let mut rig = Rig::new();
        for line in text.lines() {
            if line.is_empty() || line.starts_with('#') {
                continue;
            }
            let (count, entry) = line.split_once('*').unwrap_or(("1", line));
            let (count, entry) = match count.parse::<u32>() {
                Ok(count) => (count, entry),
                // The asterisk stands in the comment.
                Err(_) => (1, line),
            };
            let mut parts = entry.split_whitespace();
            let mut number = || u32::from_str_radix(parts.next().unwrap(), 16).unwrap();
            let (word, answer) = (number(), number());
            for _ in 0..count {
                assert_eq!(rig.raw(word), answer, "{}: {line}", path.display());
            }
        }
    }
    assert!(listings > 0);
}

// The cases named in document 01.

#[test]
fn replay_case() {
    let words: [u32; 7] = [
        0x01000600, 0x02000F01, 0x03001B00, 0x03001B01, 0x01001000, 0x02002600, 0x02001101,
    ];
    let bytes: Vec<u8> = words.iter().flat_map(|word| word.to_le_bytes()).collect();
    let lines = "0000003C\n00000000\n00000000\n00000100\n00000101\n02000100\n00000000\n";
    assert_eq!(replay(&bytes), lines.as_bytes());
}

#[test]
fn p1_mdcon() {
    assert_eq!(Rig::new().read(0x05), 0x03);
}

#[test]
fn p2_last_register() {
    let mut rig = Rig::new();
    assert_eq!(rig.read(0x25), 0x80);
    assert_eq!(rig.raw(0x01002600), 0x02000000);
}

#[test]
fn p3_p16_requests() {
    let mut rig = Rig::new();
    rig.write(0x0F, 0xFF);
    assert_eq!(rig.pin(pin::P16, 0), 0x00000000);
    assert_eq!(rig.pin(pin::P16, 1), 0x00000200);
}

#[test]
fn p4_base_timer() {
    let mut rig = Rig::new();
    rig.write(0x16, 0xFE);
    rig.write(0x17, 0x00);
    rig.clock(1);
    assert_eq!(rig.flags(), 0);
    rig.clock(1);
    assert_eq!(rig.flags(), flag::R);
}

#[test]
fn p5_watchdog() {
    let mut rig = Rig::new();
    rig.write(0x18, 0x12);
    for _ in 0..63 {
        assert_eq!(rig.clock(3), 0);
    }
    assert_eq!(rig.read(0x18), 0x12);
    assert_eq!(rig.clock(3), 0x00010000);
    assert_eq!(rig.0, Chip::fresh());
}

#[test]
fn p6_wrong_byte_clears_nothing() {
    let mut rig = Rig::new();
    rig.clocks(3, 40);
    rig.write(0x12, 0x54);
    rig.clocks(3, 23);
    assert_eq!(rig.clock(3), 0x00010000);
    rig.clocks(3, 40);
    rig.write(0x12, 0x55);
    rig.clocks(3, 63);
    assert_eq!(rig.clock(3), 0x00010000);
}

#[test]
fn p7_vcnt_overflow() {
    let mut rig = Rig::new();
    rig.clocks(0, 4095);
    assert_eq!(
        rig.0.vcnt,
        Counter {
            count: 4095,
            latch: 0,
            overflow: false
        }
    );
    rig.clock(0);
    assert_eq!(
        rig.0.vcnt,
        Counter {
            count: 4095,
            latch: 0,
            overflow: true
        }
    );
    assert_eq!(rig.read(0x06), 0x7C);
}

#[test]
fn p8_address_a1() {
    let mut rig = Rig::ddc2b();
    rig.start();
    rig.bits(0xA1, 7);
    assert_eq!(rig.flags() & flag::A, 0);
    rig.sda(1);
    rig.scl(1);
    assert_eq!(rig.flags() & flag::A, flag::A);
    assert_eq!(rig.read(0x14), 0xA1);
}

#[test]
fn p9_addresses_a2_and_fe() {
    for (address, expected) in [(0xA2, 0), (0xFE, flag::A)] {
        let mut rig = Rig::ddc2b();
        rig.start();
        rig.bits(address, 8);
        assert_eq!(rig.flags() & flag::A, expected);
    }
}

#[test]
fn p10_ddc1_loads() {
    let mut rig = Rig::new();
    rig.write(0x15, 0x00);
    let mut loads = Vec::new();
    for rise in 1..=27 {
        rig.clear_flags();
        rig.rises(pin::VSYNCI, 1);
        if rig.flags() & flag::D != 0 {
            loads.push(rise);
        }
    }
    assert_eq!(loads, [10, 19]);
}

// Refusals.

#[test]
fn refusals_in_order() {
    let mut rig = Rig::new();
    rig.write(0x0F, 0x02);
    rig.rises(pin::P16, 1);
    let before = rig.0;
    for (word, number) in [
        (0x00000000, 1),
        (0x06000000, 1),
        (0x010100FF, 1),
        (0x018026FF, 1),
        (0x010026FF, 2),
        (0x02002600, 2),
        (0x03000F02, 2),
        (0x03001D00, 2),
        (0x04000401, 2),
        (0x05000202, 2),
        (0x01000001, 3),
        (0x03001C02, 3),
        (0x04000301, 3),
        (0x05000102, 3),
        (0x01000201, 3),
        (0x01000200, 5),
        (0x01001100, 5),
        (0x01001700, 5),
        (0x02000700, 6),
        (0x02000EFF, 6),
        (0x020010FF, 6),
    ] {
        assert_eq!(rig.raw(word), number << 24 | 0x0200, "word {word:08X}");
        assert_eq!(rig.0, before);
    }
}

#[test]
fn registers_by_their_masks() {
    // Address, reset value read, value read after writing FF and after writing 00.
    for (register, reset, ones, zeros) in [
        (0x00, 0xFF, 0xFF, 0x00),
        (0x01, 0x7F, 0x7F, 0x40),
        (0x03, 0xFF, 0xFF, 0x00),
        (0x04, 0x03, 0x03, 0x00),
        (0x05, 0x03, 0x03, 0x00),
        (0x06, 0x3C, 0x3C, 0x3C),
        (0x0D, 0xC0, 0xC0, 0xC0),
        (0x14, 0x00, 0xFF, 0x00),
        (0x15, 0x08, 0x0C, 0x00),
        (0x18, 0x80, 0xFF, 0x00),
        (0x25, 0x80, 0xFF, 0x00),
    ] {
        let mut rig = Rig::new();
        assert_eq!(rig.read(register), reset, "register {register:02X}");
        rig.write(register, 0xFF);
        assert_eq!(rig.read(register), ones, "register {register:02X}");
        rig.write(register, 0x00);
        assert_eq!(rig.read(register), zeros, "register {register:02X}");
    }
    for register in [0x02, 0x0B, 0x0C, 0x0F, 0x11, 0x12, 0x13, 0x16, 0x17] {
        assert_eq!(Rig::new().raw(0x01000000 | register << 8) >> 24, 5);
        assert_eq!(Rig::new().raw(0x02000000 | register << 8) >> 24, 0);
    }
    for register in [0x07, 0x08, 0x09, 0x0A, 0x0E, 0x10] {
        assert_eq!(Rig::new().raw(0x01000000 | register << 8), 0);
        assert_eq!(Rig::new().raw(0x02000000 | register << 8) >> 24, 6);
    }
}

#[test]
fn reset_low() {
    let mut rig = Rig::new();
    rig.write(0x0F, 0x3F);
    rig.rises(pin::P16, 1);
    assert_eq!(rig.pin(pin::RESET, 0), 0);
    let mut expected = Chip::fresh();
    expected.levels &= !(1 << pin::RESET);
    assert_eq!(rig.0, expected);
    // Refused for reset before being refused for direction; not before a bad operand.
    assert_eq!(rig.raw(0x01000200), 0x04000000);
    assert_eq!(rig.raw(0x02000700), 0x04000000);
    assert_eq!(rig.raw(0x01000001), 0x03000000);
    rig.pin(pin::P16, 0);
    rig.pin(pin::VSYNCI, 0);
    rig.pin(pin::P16, 1);
    rig.pin(pin::VSYNCI, 1);
    rig.pin(pin::HSYNCI, 0);
    rig.clocks(3, 200);
    rig.clocks(0, 5);
    rig.done(0x05000000);
    rig.pin(pin::RESET, 0);
    expected.levels &= !(1 << pin::HSYNCI);
    assert_eq!(rig.0, expected);
    rig.pin(pin::RESET, 1);
    assert_eq!(rig.flags(), 0);
    assert_eq!(rig.read(0x06), 0x1C);
}

#[test]
fn left_over_bytes() {
    let mut bytes: Vec<u8> = [0x02000F02u32, 0x03000E00, 0x03000E01]
        .iter()
        .flat_map(|word| word.to_le_bytes())
        .collect();
    bytes.push(0);
    assert_eq!(replay(&bytes), b"00000000\n00000000\n00000200\n01000200\n");
    assert_eq!(replay(&[1, 2, 3]), b"01000000\n");
    assert_eq!(replay(&[]), b"");
}

// Ports, flags, timer.

#[test]
fn port_reads() {
    let mut rig = Rig::new();
    for pin in (0..15).chain(16..26) {
        rig.pin(pin, 0);
    }
    assert_eq!(
        [rig.read(0), rig.read(1), rig.read(3), rig.read(4)],
        [0, 0, 0xFF, 0]
    );
    rig.write(0x02, 0xF0);
    assert_eq!(rig.read(3), 0xF0);
    // Given away: P02 to DAC10, P06 and P07 to the sync outputs, P11 to A/D, P12 and P13 to half.
    rig.write(0x0C, !0x84);
    rig.write(0x0B, !0x03);
    assert_eq!([rig.read(0), rig.read(1)], [0xC4, 0x02]);
    rig.write(0x0B, !0x41);
    assert_eq!([rig.read(0), rig.read(1)], [0x44, 0x0E]);
    rig.write(0x15, 0x00);
    assert_eq!(rig.read(4), 0x03);
    rig.write(0x04, 0x02);
    assert_eq!(rig.read(4), 0x02);
    // P16 shows its level, whatever is written.
    rig.pin(pin::P16, 1);
    rig.write(0x01, 0x00);
    assert_eq!(rig.read(1), 0x40);
}

#[test]
fn flags_do_not_wait_for_enable() {
    let mut rig = Rig::new();
    rig.rises(pin::VSYNCI, 1);
    rig.rises(pin::P16, 1);
    assert_eq!(rig.flags(), flag::V | flag::E);
    assert_eq!(rig.raw(0x02000FC2), 0x00000200);
    assert_eq!(rig.raw(0x02001102), 0x00000000);
    assert_eq!(rig.flags(), flag::V);
    // Present level again: nothing.
    rig.clear_flags();
    rig.pin(pin::VSYNCI, 1);
    rig.pin(pin::P16, 1);
    assert_eq!(rig.flags(), 0);
}

#[test]
fn base_timer_clock_select() {
    let mut rig = Rig::new();
    rig.clocks(2, 300);
    rig.write(0x17, 0x02);
    rig.write(0x16, 0xFF);
    rig.clocks(1, 3);
    rig.write(0x16, 0x00);
    assert_eq!(rig.flags(), 0);
    rig.clocks(2, 255);
    assert_eq!(rig.flags(), 0);
    rig.clock(2);
    assert_eq!(rig.flags(), flag::R);
    rig.clear_flags();
    rig.clocks(2, 255);
    assert_eq!(rig.flags(), 0);
    rig.clock(2);
    assert_eq!(rig.flags(), flag::R);
}

// Sync counters.

#[test]
fn lines_per_field() {
    let mut rig = Rig::new();
    rig.rises(pin::HSYNCI, 625);
    rig.clocks(0, 2500);
    rig.rises(pin::VSYNCI, 1);
    assert_eq!((rig.h_latch(), rig.v_latch()), (625, 2500));
    rig.rises(pin::HSYNCI, 3);
    rig.clocks(0, 2);
    rig.rises(pin::VSYNCI, 1);
    assert_eq!((rig.h_latch(), rig.v_latch()), (3, 2));
    // CLRFLG zeroes the counts, not the latches.
    rig.rises(pin::HSYNCI, 5);
    rig.clocks(0, 5);
    rig.write(0x11, 0x80);
    assert_eq!((rig.h_latch(), rig.v_latch()), (3, 2));
    rig.rises(pin::VSYNCI, 1);
    assert_eq!((rig.h_latch(), rig.v_latch()), (0, 5));
}

#[test]
fn hcnt_overflow_stands() {
    let mut rig = Rig::new();
    rig.rises(pin::HSYNCI, 7);
    rig.rises(pin::VSYNCI, 1);
    rig.rises(pin::HSYNCI, 4096);
    assert_eq!(rig.read(0x06), 0xBC);
    rig.rises(pin::VSYNCI, 1);
    assert_eq!(rig.h_latch(), 7);
    assert_eq!(rig.0.hcnt.count, 4095);
    // HSEL from 1 to 0 zeroes the count, the bit stays, and the counter stands there.
    rig.write(0x05, 0x03);
    rig.rises(pin::HSYNCI, 2);
    assert_eq!(
        rig.0.hcnt,
        Counter {
            count: 0,
            latch: 7,
            overflow: true
        }
    );
    rig.write(0x11, 0x40);
    assert_eq!(rig.read(0x06), 0xBC);
    rig.write(0x11, 0x80);
    assert_eq!(rig.read(0x06), 0x3C);
    rig.rises(pin::HSYNCI, 2);
    rig.clocks(0, 1024);
    assert_eq!(rig.h_latch(), 2);
}

#[test]
fn lines_per_interval() {
    let mut rig = Rig::new();
    rig.rises(pin::HSYNCI, 9);
    rig.clocks(0, 500);
    rig.write(0x05, 0x03);
    rig.rises(pin::HSYNCI, 256);
    rig.clocks(0, 1023);
    assert_eq!(rig.h_latch(), 0);
    rig.rises(pin::VSYNCI, 1);
    assert_eq!(rig.h_latch(), 0);
    rig.clock(0);
    assert_eq!(rig.h_latch(), 256);
    // HSEL 0 written over 0 zeroes nothing; 0 to 1 and back does.
    rig.rises(pin::HSYNCI, 5);
    rig.clocks(0, 1000);
    rig.write(0x05, 0x03);
    rig.clocks(0, 24);
    assert_eq!(rig.h_latch(), 5);
    rig.rises(pin::HSYNCI, 6);
    rig.clocks(0, 1000);
    rig.write(0x05, 0x07);
    rig.clocks(0, 30);
    rig.write(0x05, 0x03);
    rig.rises(pin::HSYNCI, 1);
    rig.clocks(0, 1023);
    assert_eq!(rig.h_latch(), 5);
    rig.clock(0);
    assert_eq!(rig.h_latch(), 1);
}

#[test]
fn interval_runs_on_in_overflow() {
    let mut rig = Rig::new();
    rig.write(0x05, 0x03);
    rig.clocks(0, 100);
    rig.rises(pin::HSYNCI, 4096);
    assert_eq!(rig.read(0x06) & 0x80, 0x80);
    rig.clocks(0, 924 + 1000);
    assert_eq!(rig.h_latch(), 0);
    rig.write(0x11, 0x80);
    rig.rises(pin::HSYNCI, 3);
    rig.clocks(0, 23);
    assert_eq!(rig.h_latch(), 0);
    rig.clock(0);
    assert_eq!(rig.h_latch(), 3);
}

// The bus.

#[test]
fn write_transfer() {
    let mut rig = Rig::ddc2b();
    rig.sda(0);
    assert_eq!(rig.read(0x15), 0x20);
    rig.sda(1);
    assert_eq!(rig.read(0x15), 0x30);
    rig.write(0x15, 0x10);
    assert_eq!(rig.read(0x15), 0x10);
    rig.write(0x15, 0x30);
    assert_eq!(rig.read(0x15), 0x10);
    rig.start();
    rig.bits(0xA0, 8);
    assert!(rig.0.pull_sda && !rig.0.pull_scl);
    assert_eq!(rig.flags(), flag::S | flag::A);
    rig.clear_flags();
    rig.sda(1);
    rig.scl(1);
    assert!(!rig.0.sda());
    rig.scl(0);
    assert!(rig.0.pull_scl && !rig.0.pull_sda);
    assert_eq!(rig.flags(), flag::S | flag::D);
    assert_eq!(rig.0.phase, Phase::Held);
    // Let go with SCL low outside; the byte written is kept until one has come in.
    rig.clear_flags();
    rig.write(0x14, 0x5A);
    assert_eq!(rig.flags(), 0);
    assert_eq!(rig.read(0x14), 0x5A);
    rig.bits(0xA1, 7);
    assert_eq!(rig.read(0x14), 0x5A);
    rig.sda(1);
    rig.scl(1);
    assert_eq!(rig.read(0x14), 0xA1);
    rig.scl(0);
    rig.ninth_clock(1);
    assert_eq!(rig.flags(), flag::S | flag::D);
    // Let go once more, then STOP.
    rig.write(0x14, 0x00);
    rig.sda(0);
    rig.scl(1);
    rig.write(0x15, 0x00);
    rig.sda(1);
    assert_eq!(rig.read(0x15), 0x10);
    assert_eq!(rig.0.phase, Phase::Idle);
}

#[test]
fn foreign_address_is_ignored() {
    let mut rig = Rig::ddc2b();
    rig.write(0x13, 0x6E);
    rig.start();
    rig.send(0x62);
    assert_eq!(rig.read(0x14), 0x62);
    assert_eq!(rig.0.phase, Phase::Ignoring);
    rig.send(0xA0);
    rig.send(0x6E);
    assert_eq!(rig.read(0x14), 0x62);
    assert_eq!(rig.flags(), flag::S);
    // A repeated START is heard.
    rig.start();
    rig.send(0x6F);
    assert_eq!(rig.flags(), flag::S | flag::A | flag::D);
    assert_eq!(rig.read(0x14), 0x6F);
}

#[test]
fn read_transfer() {
    let mut rig = Rig::addressed_for_read();
    for (byte, acknowledge) in [(0xC5u8, 0), (0x3A, 1), (0x80, 0)] {
        rig.write(0x14, byte);
        rig.write(0x14, !byte);
        rig.sda(1);
        for place in (0..8).rev() {
            assert_eq!(rig.0.sda() as u8, byte >> place & 1);
            rig.scl(1);
            assert_eq!(rig.0.sda() as u8, byte >> place & 1);
            rig.scl(0);
        }
        assert!(!rig.0.pull_sda);
        rig.sda(acknowledge);
        assert_eq!(rig.flags(), flag::S);
        rig.scl(1);
        assert_eq!(rig.read(0x15), 0x04 | acknowledge << 1);
        rig.scl(0);
        assert_eq!(rig.flags(), flag::S | flag::D);
        assert_eq!(rig.0.phase, Phase::Held);
        rig.clear_flags();
    }
    // TRX 0 turns the direction at the next letting go.
    rig.write(0x15, 0x00);
    rig.write(0x14, 0x00);
    rig.bits(0x42, 8);
    assert_eq!(rig.read(0x14), 0x42);
}

#[test]
fn held_line_makes_no_edge() {
    let mut rig = Rig::ddc2b();
    rig.start();
    rig.send(0xA0);
    rig.clear_flags();
    rig.write(0x15, 0x00);
    for _ in 0..5 {
        rig.scl(1);
        rig.sda(0);
        rig.sda(1);
        rig.scl(0);
    }
    assert_eq!(rig.flags(), 0);
    assert_eq!(rig.read(0x15), 0x00);
    // Let go at SCL 1: that is the first rise, and the next fall belongs to it.
    rig.sda(1);
    rig.scl(1);
    rig.write(0x14, 0x00);
    assert_eq!(
        rig.0.phase,
        Phase::Incoming {
            address: false,
            bits: 1,
            byte: 1
        }
    );
    assert_eq!(rig.flags(), 0);
    rig.scl(0);
    rig.bits(0x26, 7);
    assert_eq!(rig.read(0x14), 0x93);
}

#[test]
fn transmit_let_go_at_scl_high() {
    let mut rig = Rig::addressed_for_read();
    rig.sda(1);
    rig.scl(1);
    rig.write(0x15, 0x04);
    rig.write(0x14, 0x60);
    // Bit 7 went out before SCL rose: no START.
    assert_eq!(rig.read(0x15) & 0x30, 0);
    assert!(!rig.0.sda());
    rig.scl(0);
    assert!(rig.0.sda());
    rig.scl(1);
    // Under a 1 the master can begin anew.
    rig.sda(0);
    assert_eq!(rig.read(0x15) & 0x30, 0x20);
    assert_eq!(
        rig.0.phase,
        Phase::Incoming {
            address: true,
            bits: 0,
            byte: 0
        }
    );
}

#[test]
fn pulled_sda_hides_start_and_stop() {
    let mut rig = Rig::addressed_for_read();
    rig.write(0x15, 0x04);
    rig.write(0x14, 0x00);
    rig.scl(1);
    rig.sda(0);
    rig.sda(1);
    assert_eq!(rig.read(0x15), 0x04);
    assert!(matches!(rig.0.phase, Phase::Outgoing { .. }));
}

#[test]
fn start_within_a_byte() {
    let mut rig = Rig::ddc2b();
    rig.start();
    rig.bits(0xFF, 5);
    rig.scl(1);
    rig.sda(0);
    rig.scl(0);
    rig.send(0xA0);
    assert_eq!(rig.flags(), flag::S | flag::A | flag::D);
    assert_eq!(rig.read(0x14), 0xA0);
}

#[test]
fn ddc1_left_by_scl_fall() {
    let mut rig = Rig::new();
    rig.pin(pin::SCL, 0);
    rig.write(0x15, 0x00);
    rig.rises(pin::VSYNCI, 10);
    assert_eq!(rig.flags(), flag::V | flag::D);
    rig.scl(1);
    // SDA is at the top bit of II DAT, 0; moving it outside means nothing in DDC1.
    assert!(!rig.0.sda());
    rig.sda(0);
    rig.sda(1);
    assert_eq!(rig.read(0x15), 0x00);
    assert_eq!(rig.read(0x05), 0x03);
    rig.clear_flags();
    rig.scl(0);
    assert_eq!(rig.flags(), flag::S);
    assert_eq!(rig.read(0x05), 0x02);
    assert!(rig.0.sda());
    // Asked for again, it begins at nine.
    rig.write(0x05, 0x07);
    rig.clear_flags();
    rig.rises(pin::VSYNCI, 9);
    assert_eq!(rig.flags(), flag::V);
    rig.rises(pin::VSYNCI, 1);
    assert_eq!(rig.flags(), flag::V | flag::D);
}

#[test]
fn ddc1_shifts_bytes_out() {
    let mut rig = Rig::new();
    rig.write(0x14, 0xB4);
    rig.write(0x15, 0x00);
    rig.rises(pin::VSYNCI, 9);
    assert!(rig.0.sda());
    let mut seen = Vec::new();
    for _ in 0..18 {
        rig.rises(pin::VSYNCI, 1);
        seen.push(rig.0.sda() as u8);
        rig.write(0x14, 0x0F);
    }
    assert_eq!(seen, [1, 0, 1, 1, 0, 1, 0, 0, 1, 0, 0, 0, 0, 1, 1, 1, 1, 1]);
}

#[test]
fn mode_change_in_a_transfer() {
    // Held, SCL high outside: turning off releases the line, and that is no edge.
    let mut rig = Rig::ddc2b();
    rig.start();
    rig.send(0xA0);
    rig.scl(1);
    rig.clear_flags();
    rig.write(0x15, 0x2C);
    assert!(rig.0.scl());
    assert_eq!(rig.0.phase, Phase::Idle);
    assert_eq!(rig.flags(), 0);
    assert_eq!(rig.read(0x15), 0x2C);
    assert_eq!(rig.read(0x14), 0xA0);
    // Off: no S, no START, though the levels move.
    rig.scl(0);
    rig.scl(1);
    rig.sda(0);
    rig.sda(1);
    assert_eq!(rig.flags(), 0);
    // Rewriting the present mode is no change.
    let mut rig = Rig::ddc2b();
    rig.start();
    rig.bits(0xA0, 4);
    rig.write(0x05, 0x0E);
    rig.write(0x15, 0x05);
    rig.bits(0x00, 4);
    assert_eq!(rig.flags(), flag::S | flag::A);
    // To DDC1 and back forgets the transfer.
    let mut rig = Rig::ddc2b();
    rig.start();
    rig.bits(0xA0, 4);
    rig.write(0x05, 0x07);
    rig.write(0x05, 0x06);
    rig.bits(0x00, 4);
    assert_eq!(rig.flags(), flag::S);
}

#[test]
fn resets_in_a_transfer() {
    let mut rig = Rig::ddc2b();
    rig.write(0x0F, 0x3F);
    rig.start();
    rig.send(0xA0);
    let levels = rig.0.levels;
    rig.clocks(3, 63);
    assert_eq!(rig.clock(3), 0x00010000);
    assert_eq!(
        rig.0,
        Chip {
            levels,
            ..Chip::fresh()
        }
    );

    let mut rig = Rig::ddc2b();
    rig.start();
    rig.bits(0xA0, 8);
    let levels = rig.0.levels;
    rig.pin(pin::RESET, 0);
    rig.pin(pin::RESET, 1);
    assert_eq!(
        rig.0,
        Chip {
            levels,
            ..Chip::fresh()
        }
    );
}

#[test]
fn own_address_at_the_eighth_rise() {
    let mut rig = Rig::ddc2b();
    rig.start();
    rig.bits(0x34, 7);
    rig.write(0x13, 0x35);
    rig.sda(0);
    rig.scl(1);
    assert_eq!(rig.flags() & flag::A, flag::A);
    // Changed afterwards, the match stands.
    rig.write(0x13, 0x00);
    rig.scl(0);
    rig.ninth_clock(1);
    assert_eq!(rig.0.phase, Phase::Held);
}

// TXAK (Wish 2).

#[test]
fn txak_1_leaves_sda_released() {
    // SDA rises: STOP, and no more comes of the byte.
    let mut rig = Rig::addressed_for_write(0x01);
    rig.data_to_ninth_high(0x30);
    assert!(!rig.0.pull_sda);
    rig.sda(1);
    assert_eq!(rig.read(0x15), 0x10);
    assert_eq!(rig.0.phase, Phase::Idle);
    rig.scl(0);
    assert_eq!(rig.flags(), flag::S);
    assert_eq!(rig.read(0x14), 0x30);
    // SDA falls: START, and an address follows.
    let mut rig = Rig::addressed_for_write(0x01);
    rig.data_to_ninth_high(0x31);
    rig.sda(0);
    assert_eq!(rig.read(0x15), 0x20);
    rig.scl(0);
    assert_eq!(rig.flags(), flag::S);
    rig.send(0xA0);
    assert_eq!(rig.flags(), flag::S | flag::A | flag::D);
    assert_eq!(rig.0.phase, Phase::Held);
}

#[test]
fn txak_0_pulls_sda() {
    let mut rig = Rig::addressed_for_write(0x00);
    rig.data_to_ninth_high(0x30);
    assert!(rig.0.pull_sda);
    for level in [1, 0, 1] {
        rig.sda(level);
    }
    assert_eq!(rig.read(0x15), 0x00);
    rig.scl(0);
    assert_eq!(rig.0.phase, Phase::Held);
    assert_eq!(rig.flags(), flag::S | flag::D);
}

/// Written at five moments of a byte, TXAK counts as it is at the third, the last before the eighth
/// fall; no write is refused and no read shows it.
#[test]
fn txak_counts_at_the_eighth_fall_alone() {
    for written in 0..32u8 {
        let at = |moment: u32| written >> moment & 1;
        let mut rig = Rig::addressed_for_write(at(0));
        rig.write(0x14, 0x00);
        rig.bits(0xF4, 3);
        rig.write(0x15, at(1));
        rig.bits(0xA0, 4);
        rig.sda(0);
        rig.scl(1);
        assert_eq!(rig.read(0x14), 0xF4);
        assert!(!rig.0.pull_sda);
        rig.write(0x15, at(2));
        assert!(!rig.0.pull_sda);
        rig.scl(0);
        assert_eq!(rig.0.pull_sda, at(2) == 0, "{written:05b}");
        rig.write(0x15, at(3));
        rig.scl(1);
        rig.write(0x15, at(4));
        assert_eq!(rig.0.pull_sda, at(2) == 0, "{written:05b}");
        assert_eq!(rig.read(0x15), 0x00);
        let mut stopped = Rig(rig.0);
        stopped.sda(1);
        let stop = if at(2) == 1 { 0x10 } else { 0x00 };
        assert_eq!(stopped.read(0x15), stop, "{written:05b}");
        rig.scl(0);
        assert_eq!(rig.0.phase, Phase::Held);
        assert!(rig.0.pull_scl && !rig.0.pull_sda);
        assert_eq!(rig.flags(), flag::S | flag::D);
    }
}

#[test]
fn matched_address_is_always_acknowledged() {
    for (own, address) in [(0xFF, 0xA0), (0xFF, 0xA1), (0x6E, 0x6E), (0xA0, 0xA0)] {
        for txak in [0, 1] {
            let mut rig = Rig::ddc2b();
            rig.write(0x13, own);
            rig.write(0x15, txak);
            rig.start();
            rig.bits(address, 8);
            assert!(rig.0.pull_sda);
            rig.write(0x15, txak);
            rig.sda(1);
            rig.scl(1);
            rig.sda(0);
            rig.sda(1);
            assert_eq!(rig.read(0x15), 0x00);
            rig.scl(0);
            assert_eq!(rig.0.phase, Phase::Held);
            assert_eq!(rig.flags(), flag::S | flag::A | flag::D);
        }
    }
}

#[test]
fn foreign_transfer_with_txak_1() {
    let mut rig = Rig::ddc2b();
    rig.write(0x15, 0x01);
    rig.start();
    for byte in [0x62, 0xA0, 0x30] {
        rig.bits(byte, 8);
        assert_eq!(rig.0.phase, Phase::Ignoring);
        assert!(!rig.0.pull_sda);
        rig.ninth_clock(0);
    }
    assert_eq!(rig.flags(), flag::S);
    assert_eq!(rig.read(0x14), 0x62);
}

#[test]
fn not_acknowledged_bytes_set_d_and_hold() {
    let mut rig = Rig::addressed_for_write(0x00);
    for (txak, byte) in [(1, 0x12), (1, 0x34), (0, 0x56), (1, 0x78), (0, 0x9A)] {
        rig.write(0x15, txak);
        rig.write(0x14, 0xFF);
        rig.bits(byte, 8);
        assert_eq!(rig.0.pull_sda, txak == 0);
        assert_eq!(rig.flags(), flag::S);
        rig.ninth_clock(1);
        assert_eq!(rig.flags(), flag::S | flag::D);
        assert_eq!(rig.0.phase, Phase::Held);
        assert_eq!(rig.read(0x14), byte);
        rig.clear_flags();
        rig.scl(1);
        rig.scl(0);
        assert_eq!(rig.flags(), 0);
    }
}

#[test]
fn not_acknowledged_byte_cut_off() {
    let ninth = || {
        let mut rig = Rig::addressed_for_write(0x01);
        rig.data_to_ninth_high(0x30);
        rig.clear_flags();
        assert_eq!(rig.0.phase, Phase::NotAcknowledged);
        rig
    };
    // Only stored.
    let mut rig = ninth();
    rig.write(0x14, 0x5A);
    assert_eq!(rig.0.phase, Phase::NotAcknowledged);
    rig.scl(0);
    assert_eq!(rig.0.phase, Phase::Held);
    assert_eq!(rig.read(0x14), 0x5A);
    // Off and on, to DDC1 and back.
    for (register, there, back) in [(0x15, 0x09, 0x01), (0x05, 0x07, 0x06)] {
        let mut rig = ninth();
        rig.write(register, there);
        rig.write(register, back);
        assert_eq!(rig.0.phase, Phase::Idle);
        assert!(rig.0.txak);
        rig.scl(0);
        assert_eq!(rig.flags(), flag::S);
    }
    let mut rig = ninth();
    let levels = rig.0.levels;
    rig.clocks(3, 64);
    assert_eq!(
        rig.0,
        Chip {
            levels,
            ..Chip::fresh()
        }
    );
}

#[test]
fn txak_means_nothing_to_a_byte_out() {
    let mut rig = Rig::addressed_for_read();
    rig.write(0x15, 0x05);
    rig.write(0x14, 0x7F);
    rig.sda(1);
    for _ in 0..8 {
        rig.scl(1);
        rig.scl(0);
    }
    assert!(!rig.0.pull_sda);
    rig.ninth_clock(1);
    assert_eq!(rig.read(0x15), 0x06);
    assert_eq!(rig.flags(), flag::S | flag::D);
    // A byte in leaves RXAK, acknowledged or not.
    for txak in [0, 1] {
        rig.write(0x15, txak);
        rig.data_to_ninth_high(0x30);
        assert_eq!(rig.read(0x15), 0x02);
        rig.scl(0);
        assert_eq!(rig.read(0x15), 0x02);
    }
    // DDC1 loads and shifts as it did.
    let mut rig = Rig::new();
    rig.write(0x14, 0xB4);
    rig.write(0x15, 0x01);
    rig.rises(pin::VSYNCI, 10);
    assert_eq!(rig.flags(), flag::V | flag::D);
    assert_eq!(rig.0.shift, 0xB4);
}

#[test]
fn without_txak_every_data_byte_is_acknowledged() {
    let mut chip = Chip::fresh();
    for word in Traffic::new(5).take(300_000) {
        let write_of_status = word & 0xFFFF_FF00 == 0x0200_1500;
        chip.step(if write_of_status { word & !1 } else { word });
        assert_ne!(chip.phase, Phase::NotAcknowledged);
    }
}

// The hold count (Wish 9).

#[test]
fn hold_counts_8_us_clocks() {
    for (clocks, count) in [
        (0, 0),
        (1, 1),
        (2, 2),
        (65_534, 65_534),
        (65_535, 65_535),
        (65_536, 65_535),
        (65_600, 65_535),
    ] {
        let mut rig = Rig::addressed_for_write(0x00);
        assert_eq!(rig.0.hold(), Some(0));
        rig.clocks(0, clocks);
        assert_eq!(rig.0.hold(), Some(count), "{clocks} clocks");
    }
}

#[test]
fn hold_begins_at_the_ninth_fall() {
    let mut rig = Rig::ddc2b();
    rig.clocks(0, 5);
    rig.start();
    rig.bits(0xA0, 8);
    rig.clocks(0, 5);
    rig.sda(1);
    rig.scl(1);
    rig.clocks(0, 5);
    assert_eq!(rig.0.hold(), None);
    assert_eq!(rig.0.held_clocks, 0);
    rig.scl(0);
    assert_eq!(rig.0.hold(), Some(0));
    rig.clocks(0, 3);
    assert_eq!(rig.0.hold(), Some(3));
}

#[test]
fn hold_runs_whatever_else_happens() {
    let mut rig = Rig::addressed_for_write(0x00);
    rig.clocks(0, 10);
    // The other clocks are not counted in.
    rig.clocks(1, 7);
    rig.clocks(2, 7);
    rig.clocks(3, 7);
    assert_eq!(rig.0.hold(), Some(10));
    for level in [1, 0, 1] {
        rig.scl(level);
        rig.sda(1 - level);
        rig.clock(0);
    }
    assert_eq!(rig.0.hold(), Some(13));
    // No change of mode, no II DAT, refused words.
    rig.write(0x15, 0x05);
    rig.write(0x05, 0x0E);
    rig.write(0x13, 0x42);
    rig.write(0x12, 0x55);
    rig.clear_flags();
    rig.raw(0x02010000);
    rig.raw(0x04000001);
    rig.raw(0x02001000);
    rig.rises(pin::VSYNCI, 2);
    assert_eq!(rig.0.hold(), Some(13));
    rig.clock(0);
    assert_eq!(rig.0.hold(), Some(14));
}

#[test]
fn second_hold_begins_at_0() {
    let mut rig = Rig::addressed_for_write(0x00);
    rig.clocks(0, 20);
    // Acknowledged, not acknowledged, sent.
    for (status, clocks) in [(0x00, 0), (0x01, 7), (0x04, 70_000), (0x04, 3)] {
        rig.write(0x15, status);
        rig.write(0x14, 0xFF);
        assert_eq!(rig.0.hold(), None);
        assert_eq!(rig.0.held_clocks, 0);
        rig.clocks(0, 4);
        rig.send(0x34);
        assert_eq!(rig.0.hold(), Some(0));
        rig.clocks(0, clocks);
        assert_eq!(rig.0.hold(), Some(clocks.min(65_535) as u16));
    }
}

#[test]
fn hold_ended_in_five_ways() {
    let ends: [(&str, fn(&mut Rig)); 7] = [
        ("II DAT, receive", |rig| rig.write(0x14, 0x00)),
        ("II DAT, transmit", |rig| {
            rig.write(0x15, 0x04);
            rig.write(0x14, 0x00);
        }),
        ("II DAT, outside SCL 1", |rig| {
            rig.scl(1);
            rig.write(0x14, 0x00);
        }),
        ("ENDDC", |rig| rig.write(0x15, 0x08)),
        ("MD", |rig| rig.write(0x05, 0x07)),
        ("RESET", |rig| {
            rig.pin(pin::RESET, 0);
        }),
        ("watchdog", |rig| {
            rig.clocks(3, 63);
            assert_eq!(rig.0.hold(), Some(9));
            assert_eq!(rig.clock(3), 0x00010000);
        }),
    ];
    for (name, end) in ends {
        let mut rig = Rig::addressed_for_write(0x00);
        rig.clocks(0, 9);
        assert_eq!(rig.0.hold(), Some(9));
        end(&mut rig);
        assert_eq!(rig.0.hold(), None, "{name}");
        assert_eq!(rig.0.held_clocks, 0, "{name}");
        rig.clocks(0, 5);
        assert_eq!(rig.0.held_clocks, 0, "{name}");
    }
}

#[test]
fn hold_stands_in_reset() {
    // No run leads here, but the state is well formed.
    let mut rig = Rig::addressed_for_write(0x00);
    rig.clocks(0, 4);
    rig.0.levels &= !(1 << pin::RESET);
    assert!(rig.0.well_formed());
    rig.clocks(0, 5);
    assert_eq!(rig.0.hold(), Some(4));
    rig.pin(pin::RESET, 1);
    rig.clock(0);
    assert_eq!(rig.0.hold(), Some(5));
}

#[test]
fn holds_are_sampled_after_the_words() {
    let lines = sample(1, 9_999, 500, hold_text);
    let lines: Vec<&str> = lines.lines().collect();
    assert_eq!(lines.len(), 19);
    let mut chip = Chip::fresh();
    for (place, word) in Traffic::new(1).take(9_500).enumerate() {
        chip.step(word);
        if place % 500 == 499 {
            assert_eq!(lines[place / 500], hold_text(&chip));
        }
    }
    let dense = sample(1, 9_999, 1, hold_text);
    assert!(dense.lines().any(|line| line == "-"));
    assert!(dense.lines().any(|line| line == "0"));
    assert!(dense.lines().any(|line| line == "5"));
}

// Which address it was (Wish 12).

#[test]
fn outcomes_of_the_comparison() {
    for (own, address, outcome) in [
        (0xFF, 0xA0, Outcome::A0),
        (0xFF, 0xA1, Outcome::A0),
        (0x6E, 0x6E, Outcome::IiAdr),
        (0x6E, 0x6F, Outcome::IiAdr),
        (0x6F, 0x6E, Outcome::IiAdr),
        (0x6E, 0xA0, Outcome::A0),
        // Its bit 0 is neither stored nor compared.
        (0xA0, 0xA0, Outcome::Both),
        (0xA0, 0xA1, Outcome::Both),
        (0xA1, 0xA0, Outcome::Both),
        (0xA1, 0xA1, Outcome::Both),
        (0xA0, 0xA2, Outcome::None),
        (0xA2, 0xA2, Outcome::IiAdr),
        (0x6E, 0x6C, Outcome::None),
        (0x6E, 0xEE, Outcome::None),
        (0x6E, 0x20, Outcome::None),
    ] {
        let mut rig = Rig::ddc2b();
        rig.write(0x13, own);
        rig.start();
        rig.bits(address, 7);
        assert_eq!(rig.0.outcome(), Outcome::None);
        rig.sda(address & 1);
        rig.scl(1);
        assert_eq!(rig.0.outcome(), outcome, "{own:02X} {address:02X}");
        let matched = rig.flags() & flag::A != 0;
        assert_eq!(matched, outcome != Outcome::None);
        assert_eq!(rig.0.phase == Phase::Ignoring, !matched);
        rig.scl(0);
        rig.ninth_clock(1);
        assert_eq!(rig.0.outcome(), outcome, "{own:02X} {address:02X}");
        assert_eq!(rig.0.phase == Phase::Held, matched);
    }
}

#[test]
fn flag_a_for_all_but_none() {
    let mut counts = [0; 4];
    for own in (0..=0xFE).step_by(2) {
        for address in 0..=0xFF {
            let mut rig = Rig::ddc2b();
            rig.write(0x13, own);
            rig.start();
            rig.bits(address, 8);
            let outcome = rig.0.outcome();
            assert_eq!(rig.flags() & flag::A != 0, outcome != Outcome::None);
            counts[outcome as usize] += 1;
        }
    }
    // None, A0H, II ADR, both. Foreign: 127 addresses with 127 values of II ADR, two directions.
    assert_eq!(counts, [2 * 127 * 127, 2 * 127, 2 * 127, 2]);
}

/// Addressed with an outcome of each sort and held.
fn matched() -> [(Outcome, Rig); 3] {
    [
        (0x6E, 0xA0, Outcome::A0),
        (0x6E, 0x6E, Outcome::IiAdr),
        (0xA0, 0xA0, Outcome::Both),
    ]
    .map(|(own, address, outcome)| {
        let mut rig = Rig::ddc2b();
        rig.write(0x13, own);
        rig.start();
        rig.send(address);
        (outcome, rig)
    })
}

#[test]
fn outcome_stays_for_the_transfer() {
    for (outcome, mut rig) in matched() {
        assert_eq!(rig.0.outcome(), outcome);
        // In, not acknowledged, out; the data are addresses, and II ADR moves.
        for (status, own, data) in [
            (0x00, 0xA0, 0x6E),
            (0x01, 0x42, 0xA0),
            (0x04, 0x6E, 0x42),
            (0x00, 0x00, 0x00),
        ] {
            rig.write(0x15, status);
            rig.write(0x13, own);
            assert_eq!(rig.0.outcome(), outcome);
            rig.write(0x14, data);
            assert_eq!(rig.0.outcome(), outcome);
            rig.bits(data, 8);
            assert_eq!(rig.0.outcome(), outcome);
            rig.ninth_clock(1);
            assert_eq!(rig.0.phase, Phase::Held);
            assert_eq!(rig.0.outcome(), outcome);
        }
        rig.clear_flags();
        rig.clocks(0, 3);
        rig.rises(pin::VSYNCI, 1);
        assert_eq!(rig.0.outcome(), outcome);
    }
}

#[test]
fn iiadr_counts_until_the_eighth_rise() {
    // II ADR before the eighth rise and after it.
    for (own, address, late, outcome) in [
        (0x6E, 0x6E, 0x10, Outcome::IiAdr),
        (0x10, 0x6E, 0x6E, Outcome::None),
        (0x10, 0xA0, 0xA0, Outcome::A0),
        (0xA0, 0xA0, 0x10, Outcome::Both),
    ] {
        let mut rig = Rig::ddc2b();
        rig.start();
        rig.bits(address, 7);
        rig.write(0x13, own);
        rig.sda(address & 1);
        rig.scl(1);
        rig.write(0x13, late);
        assert_eq!(rig.0.outcome(), outcome);
        rig.scl(0);
        rig.write(0x13, late ^ 2);
        rig.write(0x13, late);
        rig.ninth_clock(1);
        assert_eq!(rig.0.outcome(), outcome);
        assert!(rig.0.well_formed());
        let matched = outcome != Outcome::None;
        assert_eq!(rig.0.phase == Phase::Held, matched);
        let flags = if matched { flag::A | flag::D } else { 0 };
        assert_eq!(rig.flags(), flag::S | flags);
    }
}

#[test]
fn repeated_start_compares_anew() {
    for (_, mut rig) in matched() {
        for (address, outcome) in [
            (0xA0, Outcome::A0),
            (0x6E, Outcome::IiAdr),
            (0x42, Outcome::None),
            (0xA0, Outcome::A0),
        ] {
            rig.write(0x13, 0x6E);
            rig.write(0x15, 0x00);
            rig.write(0x14, 0x00);
            rig.sda(1);
            rig.scl(1);
            rig.sda(0);
            assert_eq!(rig.0.outcome(), Outcome::None);
            rig.scl(0);
            rig.bits(address, 7);
            assert_eq!(rig.0.outcome(), Outcome::None);
            rig.sda(address & 1);
            rig.scl(1);
            rig.scl(0);
            rig.ninth_clock(1);
            assert_eq!(rig.0.outcome(), outcome);
        }
    }
}

#[test]
fn outcome_ends_with_the_transfer() {
    type End = fn(&mut Rig);
    let ends: [(&str, End); 8] = [
        ("START in a receive", |rig| {
            rig.write(0x14, 0x00);
            rig.sda(1);
            rig.scl(1);
            rig.sda(0);
        }),
        ("STOP in a receive", |rig| {
            rig.write(0x14, 0x00);
            rig.sda(0);
            rig.scl(1);
            rig.sda(1);
        }),
        ("STOP in a transmit", |rig| {
            rig.write(0x15, 0x04);
            rig.write(0x14, 0xFF);
            rig.sda(0);
            rig.scl(1);
            rig.sda(1);
        }),
        ("STOP in a ninth clock", |rig| {
            rig.write(0x15, 0x01);
            rig.data_to_ninth_high(0x30);
            rig.sda(1);
        }),
        ("ENDDC", |rig| rig.write(0x15, 0x08)),
        ("MD", |rig| rig.write(0x05, 0x07)),
        ("RESET", |rig| {
            rig.pin(pin::RESET, 0);
        }),
        ("watchdog", |rig| rig.clocks(3, 64)),
    ];
    for (name, end) in ends {
        for (outcome, mut rig) in matched() {
            assert_eq!(rig.0.outcome(), outcome);
            end(&mut rig);
            assert_eq!(rig.0.outcome(), Outcome::None, "{name}");
            assert!(rig.0.well_formed(), "{name}");
        }
    }
    // Between the eighth rise and the fall.
    for level in [0, 1] {
        let mut rig = Rig::ddc2b();
        rig.start();
        rig.bits(0xA0, 7);
        rig.sda(1 - level);
        rig.scl(1);
        assert_eq!(rig.0.outcome(), Outcome::A0);
        rig.sda(level);
        assert_eq!(rig.0.outcome(), Outcome::None);
    }
}

#[test]
fn outcomes_are_sampled_as_text() {
    let lines = sample(1, 100_000, 10, outcome_text);
    assert_eq!(lines.lines().count(), 10_000);
    for name in ["none", "a0", "ii-adr", "both"] {
        assert!(lines.lines().any(|line| line == name), "{name}");
    }
}

// The generator.

#[test]
fn words_follow_from_the_seed() {
    let long = generate(7, 20_000, 3);
    assert_eq!(long.len(), 80_003);
    assert_eq!(generate(7, 5_000, 0), long[..20_000]);
    assert_ne!(generate(8, 5_000, 0), long[..20_000]);
}

#[test]
fn every_class_occurs() {
    let mut always_empty = coverage::empty_classes(1, 1_000_000);
    let second = coverage::empty_classes(2, 1_000_000);
    always_empty.retain(|class| second.contains(class));
    assert!(always_empty.is_empty(), "{always_empty:?}");
}

#[test]
fn states_stay_well_formed() {
    let mut chip = Chip::fresh();
    for (place, word) in Traffic::new(3).take(1_000_000).enumerate() {
        let old = chip;
        let answer = chip.step(word);
        assert!(
            chip.well_formed(),
            "place {place}, word {word:08X}: {chip:?}"
        );
        if answer >> 24 != 0 {
            assert_eq!(old, chip, "place {place}, word {word:08X}");
        }
        assert_eq!(answer >> 8 & 0xFF, (chip.irqx & chip.iex) as u32);
    }
}
